"""The teams of a round robin and their wishes, a line for each, and which wishes can't be."""

from __future__ import annotations

import re
from collections import Counter
from collections.abc import Iterable, Iterator, Sequence
from dataclasses import dataclass, field

from .._text.syntax import Nearest
from ..errors import TableFault
from ._kind import check_items

_FORMS = "neither home:ROUND, away:ROUND, not:TEAM@ROUND nor shares:TEAM"
_WHERE = re.compile(r"(home|away):([0-9]{1,9})\Z")
_NOT = re.compile(r"not:(.+)@([0-9]{1,9})\Z")
_SHARES = re.compile(r"shares:(.+)\Z")


@dataclass
class Team:
    """A team: where it is in a round, against whom it doesn't play in a round, and with whom it shares its place."""

    name: str
    line: int
    words: Sequence[str]
    where: dict[int, str] = field(default_factory=dict)
    refuses: set[tuple[str, int]] = field(default_factory=set)
    shares: set[str] = field(default_factory=set)


@dataclass(frozen=True)
class Season:
    """How many teams there are, whether each two meet twice, and how many rounds in a row a team is at home, or away,
    at most."""

    teams: int
    double: bool
    in_a_row: int | None = None

    @property
    def rounds(self) -> int:
        """In how many rounds they all play."""
        return rounds(self.teams, self.double)

    @property
    def rests(self) -> int:
        """In how many of them a team rests."""
        return self.teams % 2 * (2 if self.double else 1)

    @property
    def items(self) -> int:
        """How many games there are, and rounds of teams."""
        games = self.teams * (self.teams - 1)
        return (games if self.double else games // 2) + self.teams * self.rounds

    @property
    def at_home(self) -> tuple[int, int]:
        """How often a team is at home, at least and at most."""
        least = self.teams - 1 if self.double else (self.teams - 1) // 2
        return least, self.rounds - self.rests - least


def rounds(teams: int, double: bool) -> int:
    """In how many rounds so many teams play."""
    return (teams - 1 + teams % 2) * (2 if double else 1)


def read(lines: Iterable[tuple[int, Sequence[str]]], double: bool, in_a_row: int | None) -> tuple[list[Team], Season]:
    """The teams of lines of words, and their season.

    Raises `TableFault`, also for wishes that can't be by counting, and `ValueError` for more teams than a problem has
    room for.
    """
    teams = [Team(words[0], number, words) for number, words in lines]
    first: dict[str, Team] = {}
    for team in teams:
        if first.setdefault(team.name, team) is not team:
            raise TableFault(team.line, team.name, f"the team of line {first[team.name].line} has this name")
    if len(teams) < 2:
        raise TableFault(len(teams) + 1, "", "a round robin has at least two teams")
    season = Season(len(teams), double, in_a_row)
    check_items(season.items)
    if in_a_row is not None and in_a_row < 1:
        raise ValueError("in_a_row must be at least 1")
    if in_a_row == 1 and len(teams) > 2 and not season.rests:
        raise ValueError("at most one round in a row: then two teams are at home in the same rounds, and can't meet")
    for team in teams:
        for word in team.words[1:]:
            _take(team, word, first, season)
    for team in teams:
        # Who shares a place with another team shares it both ways.
        for name in team.shares:
            first[name].shares.add(team.name)
    for team in teams:
        _check_team(team, season)
        _check_place(team, first, season)
    _check_rounds(teams, first, season)
    return teams, season


def _take(team: Team, word: str, known: dict[str, Team], season: Season) -> None:
    """Takes a wish. Raises `TableFault`."""
    if found := _WHERE.match(word):
        where, number = found.group(1), _round(team, word, found.group(2), season)
        if team.where.setdefault(number, where) != where:
            raise TableFault(team.line, word, f"{team.where[number]}:{number} is in this line too")
    elif found := _NOT.match(word):
        team.refuses.add((_other(team, word, found.group(1), known), _round(team, word, found.group(2), season)))
    elif found := _SHARES.match(word):
        team.shares.add(_other(team, word, found.group(1), known))
    else:
        raise TableFault(team.line, word, _FORMS)


def _round(team: Team, word: str, digits: str, season: Season) -> int:
    number = int(digits)
    if not 1 <= number <= season.rounds:
        double = rounds(season.teams, True)
        more = f"; with --double there are {double}" if season.rounds < number <= double else ""
        raise TableFault(team.line, word, f"no such round: {season.teams} teams play rounds 1 to {season.rounds}{more}")
    return number


def _other(team: Team, word: str, name: str, known: dict[str, Team]) -> str:
    if name not in known:
        raise TableFault(team.line, word, f"no team {name}", Nearest().question(name, known))
    if name == team.name:
        raise TableFault(team.line, word, "this is the team itself")
    return name


def _check_team(team: Team, season: Season) -> None:
    """Raises `TableFault` where a team wishes to be at home, or away, too often."""
    low, high = season.at_home
    for where, often in Counter(team.where.values()).items():
        if often > high + season.rests:
            each = f"{high} game{'' if high == 1 else 's'}" if low == high else f"{low} or {high} games"
            reason = f"{often} rounds {_PLACES[where]}, and each of {season.teams} teams has {each} there"
            raise TableFault(team.line, team.name, reason)
    most = season.in_a_row
    if most is not None and not season.rests:
        run = 0
        for number, where in sorted(team.where.items()):
            run = run + 1 if team.where.get(number - 1) == where else 1
            if run > most:
                reason = f"{_PLACES[where]} in rounds {number - most} to {number}, and {most} in a row are allowed"
                raise TableFault(team.line, team.name, reason)


_PLACES = {"home": "at home", "away": "away"}


def _check_place(team: Team, known: dict[str, Team], season: Season) -> None:
    """Raises `TableFault` where a team and those before it, all with one place, have more games there than rounds."""
    group = [team]
    for other in _before(team, known):
        if all(other.name in one.shares for one in group):
            group.append(other)
    low, _ = season.at_home
    if len(group) * low > season.rounds:
        names = ", ".join(sorted(one.name for one in group))
        reason = f"{names} share a place, each has {low} games there at least, and there are {season.rounds} rounds"
        raise TableFault(team.line, team.name, reason)


def _check_rounds(teams: Sequence[Team], known: dict[str, Team], season: Season) -> None:
    """Raises `TableFault` where more teams wish to be at home in a round, or away, than can be."""
    most = (len(teams) + 1) // 2
    there: Counter[tuple[int, str]] = Counter()
    for team in teams:
        for number, where in team.where.items():
            word = f"{where}:{number}"
            there[number, where] += 1
            if there[number, where] > most:
                reason = f"{most + 1} of {len(teams)} teams are {_PLACES[where]} in round {number}, and {most} can be"
                raise TableFault(team.line, word, reason)
            for other in _before(team, known):
                # Of an odd number of teams one of the two may rest.
                if where == other.where.get(number) == "home" and not season.rests:
                    reason = f"{other.name} (line {other.line}) is at home in round {number} too, and shares the place"
                    raise TableFault(team.line, word, reason)


def _before(team: Team, known: dict[str, Team]) -> Iterator[Team]:
    """The teams of lines before this one with which it shares its place."""
    yield from (known[name] for name in sorted(team.shares) if known[name].line < team.line)

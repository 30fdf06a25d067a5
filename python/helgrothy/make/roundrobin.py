"""Everybody plays everybody, in rounds, at home and away."""

from __future__ import annotations

import argparse
from collections import Counter
from collections.abc import Iterable, Iterator, Sequence
from typing import Any

from .._cli.console import positive
from .._text.sheet import Row, Sheet, whole_names
from ..draw import Cell, Drawing, Picture, check_size
from ..errors import TableFault
from ..problem import Problem
from ._kind import Counted, Kind, check_items, check_numbers, check_texts, numbered, read_text
from ._teams import Season, Team, read, rounds

__all__ = ["problem"]

# Where the table begins in the comments of a problem.
_TABLE_AT = 2


def problem(
    teams: Iterable[str], *, double: bool = False, in_a_row: int | None = None
) -> Problem[list[str]]:
    """A round robin of teams, each a name and, after it, wishes:

        home:1 away:3    where it plays in a round
        not:bob@2        against whom it doesn't play in a round
        shares:bob       with whom it shares its place: never both are at home in a round

    Each two teams meet once, in as few rounds as there can be, and each team is as often at home as away, or one
    apart. With an odd number of teams one rests in each round, and then its wishes for the round don't count.

    double: they meet twice, once at each one's home. in_a_row: no team is in more rounds in a row at home, or away.

    An option is a game in a round, `A-B A@1 B@1 home=A`, with A at home; what it has behind these is for places that
    are shared and for rounds in a row. Raises `TableFault`, also for wishes that can't be by counting.
    """
    if isinstance(teams, str) and "\n" in teams:
        raise TypeError("teams are lines, and this is one text; its lines are text.splitlines()")
    given = list(teams)
    for line in given:
        check_texts(**{"a line of a team": line})
    check_numbers(in_a_row=in_a_row or 0)
    lines = [(number, line.split()) for number, line in enumerate(given, 1) if line.split()]
    known, season = read(lines, double, in_a_row)
    names = [team.name for team in known]
    games = _games(names, double)
    stretches = _Stretches(names, season)
    check_items(len(stretches.bounds))
    options: Counted[list[str]] = Counted()
    of_name = {team.name: team for team in known}
    for (home, away), pair in games.items():
        for number in _rounds_of(of_name[home], of_name[away], season):
            game = [pair, f"{home}@{number}", f"{away}@{number}", *([] if double else [f"home={home}"])]
            options.add([*game, *_places(of_name[home], number), *stretches.held(home, away, number)])
    played = [f"{name}@{number}" for number in range(1, season.rounds + 1) for name in names]
    _check_options(known, games, [] if season.rests else played, options)
    at_home = {} if double else {f"home={name}": season.at_home for name in names}
    shared = dict.fromkeys(item for team in known for at in range(1, season.rounds + 1) for item in _places(team, at))
    words = ["--double"] * double + ([] if in_a_row is None else [f"--in-a-row {in_a_row}"])
    return Problem(
        {**dict.fromkeys((*games.values(), *([] if season.rests else played)), (1, 1)), **at_home, **stretches.bounds},
        [*(played if season.rests else []), *shared],
        options,
        comments=[
            " ".join(["helgrothy make roundrobin", *words, "TEAMS"]),
            "A game A-B in a round, with each team in it (A@1); the first of the two is at home. The teams:",
            *(" ".join(team.words) for team in known),
        ],
    )


def _rounds_of(home: Team, away: Team, season: Season) -> Iterator[int]:
    """The rounds in which a team may play at home against another one."""
    for number in range(1, season.rounds + 1):
        is_refused = (away.name, number) in home.refuses or (home.name, number) in away.refuses
        if home.where.get(number) != "away" and away.where.get(number) != "home" and not is_refused:
            yield number


def _places(team: Team, number: int) -> list[str]:
    """For each team with which this one shares its place who of the two has it in a round."""
    return [f"{'+'.join(sorted([team.name, other]))}@{number}" for other in sorted(team.shares)]


class _Stretches:
    """For each team the stretches of rounds that are one longer than it may be at home, or away, with their bounds."""

    def __init__(self, names: Sequence[str], season: Season) -> None:
        self._most = season.in_a_row or season.rounds
        self._last = season.rounds - self._most
        self.bounds = {
            item: (0, self._most)
            for name in names
            for first in range(1, self._last + 1)
            for item in (f"home={name}@{first}>>", f"away={name}@{first}>>")
        }

    def held(self, home: str, away: str, number: int) -> list[str]:
        """Those that a game in a round has."""
        firsts = range(max(1, number - self._most), min(number, self._last) + 1)
        return [f"{where}@{first}>>" for where in (f"home={home}", f"away={away}") for first in firsts]


def _check_options(
    teams: Sequence[Team], games: dict[tuple[str, str], str], played: Sequence[str], options: Iterable[Sequence[str]]
) -> None:
    """Raises `TableFault` where wishes leave no round for a game, or no game for a team in a round."""
    held = {item for option in options for item in option[:3]}
    lines = {team.name: team.line for team in teams}
    for (home, away), game in games.items():
        if game not in held:
            reason = "the wishes of the two leave no round for this game"
            raise TableFault(max(lines[home], lines[away]), game, reason)
    for item in played:
        if item not in held:
            name, _, number = item.rpartition("@")
            raise TableFault(lines[name], name, f"the wishes leave no game for it in round {number}")


def _games(names: Sequence[str], double: bool) -> dict[tuple[str, str], str]:
    """The games by who is at home and who away, and the name of each: that of both unless they meet twice."""
    place = {name: number for number, name in enumerate(names)}
    return {
        (home, away): f"{home}-{away}" if double or place[home] < place[away] else f"{away}-{home}"
        for home in names
        for away in names
        if home != away
    }


class _Games:
    """The teams of a problem and its rounds, and what its options are."""

    def __init__(self, problem: Problem[Any]) -> None:
        self.teams = [line.split()[0] for line in problem.comments[_TABLE_AT:] if line.split()]
        double = "--double" in problem.comments[0].split()
        self.rounds = rounds(len(self.teams), double)
        if self.rounds * len(self.teams) > len(problem.items) + len(problem.secondary):
            raise ValueError("the comments have more teams than the problem")
        where = [(name, number) for number in range(1, self.rounds + 1) for name in self.teams]
        played = [f"{name}@{number}" for name, number in where]
        if len(self.teams) % 2:
            items = problem.secondary_names
        else:
            items = problem.item_names[len(set(_games(self.teams, double).values())) :]
        of_name = dict(zip(played, where))
        self._where = {item: of_name[name] for item, name in whole_names(items, played).items()}

    def of(self, line: str) -> tuple[int, str, str]:
        """The round of a game, who is at home, and who is away."""
        _, home, away = line.split()[:3]
        (name, number), (other, _) = self._where[home], self._where[away]
        return number, name, other

    def in_order(self, lines: Sequence[str]) -> list[tuple[int, str, str]]:
        """The games by their rounds, and those of one by who is at home."""
        place = {name: number for number, name in enumerate(self.teams)}
        return sorted(map(self.of, lines), key=lambda game: (game[0], place[game[1]]))


def sheet(problem: Problem[Any]) -> Sheet:
    """A row for each game, by the rounds."""
    games = _Games(problem)

    def rows(lines: Sequence[str]) -> list[Row]:
        return [list(game) for game in games.in_order(lines)]

    def label(line: str) -> str:
        number, home, away = games.of(line)
        return f"{home}-{away} {home}@{number} {away}@{number}"

    return Sheet("games", ("round", "home", "away"), rows, label)


def drawing(problem: Problem[Any]) -> Drawing:
    """A line for each round, with its games; who is at home stands first."""
    games = _Games(problem)
    most = max(len(games.teams) // 2, 1)
    check_size(games.rounds, most, len(problem.options))

    def draw(lines: Sequence[str]) -> Picture:
        cells = {(r, c): Cell() for r in range(games.rounds) for c in range(most)}
        held: Counter[int] = Counter()
        for number, home, away in games.in_order(lines):
            cells[number - 1, held[number]].label = f"{home}-{away}"
            held[number] += 1
        return Picture("a round robin", cells, [f"round {number}" for number in range(1, games.rounds + 1)])

    return draw


def _add_arguments(parser: argparse.ArgumentParser) -> None:
    parser.add_argument(
        "teams",
        metavar="TEAMS",
        help="a file with a line for each team: its name, and what has to be so: home:ROUND or away:ROUND, "
        "not:TEAM@ROUND (no game against it then), shares:TEAM (one place for both: never both at home)",
    )
    parser.add_argument("--double", action="store_true", help="each two teams meet twice, once at each one's home")
    parser.add_argument(
        "--in-a-row", type=positive, metavar="N", help="no team is more than N rounds in a row at home, or away"
    )


def _make(arguments: argparse.Namespace) -> Problem[list[str]]:
    asked = "TEAMS is a file with a line for each team, its name"
    if arguments.teams.isdecimal():
        asked += f" (of so many teams: seq {arguments.teams} | helgrothy roundrobin -)"
    text = read_text(arguments.teams, asked=asked)
    lines = (line for _, line in numbered(text))
    return problem(lines, double=arguments.double, in_a_row=arguments.in_a_row)


KIND = Kind("roundrobin", "a round robin at home and away", _add_arguments, _make, drawing, sheet=sheet, view=None)


def __dir__() -> list[str]:
    return __all__

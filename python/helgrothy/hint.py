"""A next step that is forced, with its reason, for somebody who solves a problem by hand.

First an item is looked for that has no more options left than it asks for. Then a choice is tried for items with few
options left: one that soon leaves an item without an option is no choice. At last a search looks for an option without
which there is no solution, for a time.
"""

from __future__ import annotations

import time
from collections import Counter
from collections.abc import Hashable, Iterable, Iterator, Sequence
from dataclasses import dataclass
from typing import Any

from .errors import OutOfTime
from .given import Given
from .problem import Problem

__all__ = ["Hint", "NoHint", "find", "lines"]

# Items with so many options left are tried, and a choice is followed for so many forced steps; so many choices that
# rule an item's options out are shown.
_MOST_TRIED, _MOST_STEPS, _MOST_NAMED = 3, 12, 4
_LONGEST = 60


@dataclass(frozen=True)
class Hint:
    """The place of an option that is forced, and the reason, a sentence in each line."""

    option: int
    reasons: list[str]


class NoHint(Exception):
    """Nothing is forced: why. is_solved: whether nothing is left to choose."""

    is_solved: bool

    def __init__(self, reason: str, is_solved: bool = False) -> None:
        super().__init__(reason)
        self.is_solved = is_solved


def find(
    problem: Problem[Any],
    held: Sequence[int] = (),
    dropped: Iterable[int] = (),
    seconds: float = 5.0,
    *,
    has_clues: bool = False,
) -> Hint:
    """A forced option, where options of some places are chosen and others are out of question.

    has_clues: whether items with as many options as they ask for are clues, which are no hints, as those of a Sudoku.
    Raises `NoHint`, and `OutOfTime` where so many seconds of searching don't show it.
    """
    deadline = time.monotonic() + seconds
    state = _State(problem, dropped)
    clues = _State(problem).all_forced() if has_clues else []
    for place in dict.fromkeys([*clues, *held]):
        if place not in state.live:
            raise NoHint(f"there is no solution: {state.why_gone(place)}")
        state.choose(place)
    stuck = state.stuck()
    if stuck is not None:
        raise NoHint(f"there is no solution: {state.why_stuck(stuck)}")
    return _single(state) or _by_trying(state, deadline) or _by_search(problem, state, deadline)


class _State:
    """What is chosen, and what is left to choose.

    live: the options that are neither chosen nor ruled out. chosen: those that are chosen, in their order.
    """

    def __init__(self, problem: Problem[Any], dropped: Iterable[int] = ()) -> None:
        self.problem = problem
        self._gone = set(dropped)
        self._uses = [dict(problem._pairs(option)) for option in problem.options]
        self._holders: dict[Hashable, list[int]] = {item: [] for item in (*problem.items, *problem.secondary)}
        for place, uses in enumerate(self._uses):
            for item in uses:
                self._holders[item].append(place)
        self._held: Counter[Hashable] = Counter()
        # How many options are left to each item.
        self._count = {item: len(places) for item, places in self._holders.items()}
        self.chosen: list[int] = []
        self.live = set(range(len(self._uses)))
        for place in self._gone:
            self._take_out(place)
        # Which choice ruled an option out, and by which item.
        self._killer: dict[int, tuple[int, Hashable]] = {}

    def copy(self) -> _State:
        """The same, to go on from."""
        other = object.__new__(_State)
        other.__dict__.update(self.__dict__)
        other._held, other._count = Counter(self._held), dict(self._count)
        other.chosen, other.live, other._killer = list(self.chosen), set(self.live), dict(self._killer)
        return other

    def choose(self, place: int) -> None:
        """Chooses an option, which rules out others."""
        self.chosen.append(place)
        self._take_out(place)
        for item, colour in self._uses[place].items():
            bounds = self.problem.items.get(item)
            self._held[item] += 1
            if bounds is not None and self._held[item] < bounds.high:
                continue
            for other in self._holders[item]:
                if other in self.live and (colour is None or self._uses[other][item] != colour):
                    self._take_out(other)
                    self._killer[other] = place, item

    def _take_out(self, place: int) -> None:
        self.live.discard(place)
        for item in self._uses[place]:
            self._count[item] -= 1

    def left(self, item: Hashable) -> list[int]:
        """The options of an item that may still be chosen."""
        return [place for place in self._holders[item] if place in self.live]

    def need(self, item: Hashable) -> int:
        """How many further options a primary item asks for."""
        return max(self.problem.items[item].low - self._held[item], 0)

    def forced(self, item: Hashable) -> list[int]:
        """The options of an item where it asks for all that are left."""
        need = self.need(item)
        return self.left(item) if need and self._count[item] == need else []

    def all_forced(self) -> list[int]:
        """All options that are forced as it stands."""
        return list(dict.fromkeys(place for item in self.problem.items for place in self.forced(item)))

    def stuck(self) -> Hashable | None:
        """An item that asks for more options than are left."""
        return next((item for item in self.problem.items if self._count[item] < self.need(item)), None)

    # ---- in words

    def line(self, place: int) -> str:
        line = self.problem.line(self.problem.options[place])
        return line if len(line) <= _LONGEST else f"{line[:_LONGEST]} .."

    def why_gone(self, place: int) -> str:
        """Why an option can't be chosen."""
        if place not in self._killer:
            return f"{self.line(place)} is ruled out"
        other, item = self._killer[place]
        return f"{self.line(place)} and {self.line(other)} don't go together, by {self.problem.name(item)}"

    def why_stuck(self, item: Hashable) -> str:
        """Why an item can't be held."""
        name, left = self.problem.name(item), len(self.left(item))
        left_to_it = "no option left" if not left else f"{_options(left)} left and asks for {self.need(item)}"
        return f"{name} has {left_to_it}{self.ruled_out(item)}"

    def ruled_out(self, item: Hashable) -> str:
        """What ruled out other options of an item."""
        others = [place for place in self._holders[item] if place not in self.live and place not in self.chosen]
        if not others:
            return ""
        times = Counter(self._killer[place][0] for place in others if place in self._killer)
        by = [self.line(place) for place, _ in times.most_common(_MOST_NAMED)]
        if any(place in self._gone for place in others):
            by.append("what is forbidden")
        more = f"; and {len(times) - _MOST_NAMED} more" if len(times) > _MOST_NAMED else ""
        return f": {_options(len(others))} ruled out by {'; '.join(by)}{more}"


def _options(count: int) -> str:
    return f"{count} option{'' if count == 1 else 's'}"


def _single(state: _State) -> Hint | None:
    """An item that asks for all options that are left to it."""
    for item in state.problem.items:
        forced = state.forced(item)
        if forced:
            name, need = state.problem.name(item), state.need(item)
            why = "has one option left" if need == 1 else f"asks for {need} more, and has as many options left"
            return Hint(forced[0], [f"{name} {why}{state.ruled_out(item)}"])
    return None


def _by_trying(state: _State, deadline: float) -> Hint | None:
    """An item of whose options all but one soon lead to an item that can't be held."""
    few = [(len(state.left(item)), item) for item in state.problem.items if state.need(item) == 1]
    few = sorted((pair for pair in few if pair[0] <= _MOST_TRIED), key=lambda pair: pair[0])
    ends: dict[int, str | None] = {}
    for _, item in few:
        if time.monotonic() > deadline:
            return None
        left = state.left(item)
        for place in left:
            if place not in ends:
                ends[place] = _end_of(state, place)
        open_ones = [place for place in left if ends[place] is None]
        if not open_ones:
            reasons = [f"{state.line(place)}: {ends[place]}" for place in left]
            first = f"there is no solution: each option of {state.problem.name(item)} fails"
            raise NoHint("\n".join([first, *reasons]))
        if len(open_ones) == 1:
            reasons = [f"{state.line(place)}: then {ends[place]}" for place in left if ends[place] is not None]
            return Hint(open_ones[0], [f"{state.problem.name(item)} has no other option that works", *reasons])
    return None


def _end_of(state: _State, place: int) -> str | None:
    """What can't be held after an option and what it forces, or None where a few steps don't show it."""
    state = state.copy()
    state.choose(place)
    for step in range(_MOST_STEPS + 1):
        stuck = state.stuck()
        if stuck is not None:
            after = "" if not step else f", after {step} forced step{'' if step == 1 else 's'}"
            left = "no option" if not state.left(stuck) else "too few options"
            return f"{state.problem.name(stuck)} has {left} left{after}"
        place = next((option for item in state.problem.items for option in state.forced(item)), -1)
        if place < 0:
            return None
        state.choose(place)
    return None


def _by_search(problem: Problem[Any], state: _State, deadline: float) -> Hint:
    """An option without which there is no solution."""
    gone = set(range(len(problem.options))) - state.live - set(state.chosen)
    first = _solution(problem, state, gone, deadline)
    if first is None:
        raise NoHint("there is no solution, as a search says")
    if not first:
        raise NoHint("nothing is left to choose: what is chosen is a solution", is_solved=True)
    known = set(first)
    for place in _easiest(state, first):
        if place in known:
            other = _solution(problem, state, gone | {place}, deadline)
            if other is None:
                return Hint(place, ["without this option there is no solution, as a search says"])
            known &= set(other)
    raise NoHint("nothing is forced: no option that is left is in all solutions")


def _easiest(state: _State, places: Iterable[int]) -> list[int]:
    """Options in the order of how many others the best of their items has."""
    problem = state.problem

    def others(place: int) -> int:
        return min(len(state.left(item)) for item, _ in problem._pairs(problem.options[place]) if item in problem.items)

    return sorted(places, key=others)


def _solution(problem: Problem[Any], state: _State, gone: set[int], deadline: float) -> list[int] | None:
    """What the first solution has beside the chosen options. Raises `OutOfTime`."""
    left = deadline - time.monotonic()
    if left <= 0:
        raise OutOfTime("the time was over before a forced option was found")
    asked = Given(problem, state.chosen, gone)
    with asked.inner.solve(limit=1, seconds=left) as found:
        for solution in found:
            chosen = set(state.chosen)
            return [place for place in asked.numbers(solution.numbers) if place not in chosen]
    return None


def lines(problem: Problem[Any], hint: Hint) -> Iterator[str]:
    """A hint in words: the option, and why it is forced."""
    yield problem.line(problem.options[hint.option])
    yield from hint.reasons

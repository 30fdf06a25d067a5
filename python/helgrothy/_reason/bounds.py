"""Solutions that cost less and less by dlx3, which has bounds and no sums.

Each item gets a price such that no option costs less than the prices of its items. What an option costs beyond these is
its surplus; a solution costs the prices and the surpluses. If it is to cost less than the best one so far, the
surpluses leave so much room, and at most m of its options have a surplus of more than the room divided by m + 1. These
are bounds. Each solution that costs less narrows them, and after it better prices are sought; when none is left the
last one is least.
"""

from __future__ import annotations

import time
from collections.abc import Generator, Hashable, Sequence
from contextlib import closing
from typing import Any, Protocol

from .._run.programs import Run
from ..problem import Problem
from .prices import PARTS, Prices

# Costs are shared among items so often.
_ROUNDS = 8
# Better prices may take so many seconds, and this part of the time; others have their turns each so many seconds.
_PRICING_SECONDS, _PRICING_SHARE, _PRICING_TURN = 0.1, 0.5, 0.3
# A search begins again where this part of the room that it has, or less, is left, and it has had so many seconds: one
# that was about to end would be slower with each better solution of an engine.
_MUCH_LESS, _BEGUN_SECONDS = 0.9, 1.0
_MOST_BOUNDS = 30


class Beside(Protocol):
    """What goes on beside the search, and has its turns in `look`, which ends the search by an exception.

    best: what the cheapest solution so far costs, whoever has found it. floor: what each solution costs at least, in
    parts, by the prices so far.
    """

    best: int | None

    @property
    def floor(self) -> int | None: ...

    @property
    def prices(self) -> Prices: ...

    def look(self, run: Run | None = None) -> None: ...


class _Narrower(Exception):
    """The bounds can be so much narrower that a search with these is worth its beginning."""


class Bounds:
    """A search by bounds that are narrowed."""

    def __init__(self, problem: Problem[Any], costs: Sequence[int], deadline: float | None, beside: Beside) -> None:
        self._problem = problem
        self._costs = costs
        self._deadline = deadline
        self._beside = beside
        self._begun, self._priced = time.monotonic(), 0.0
        self._surplus, self._floor = _surpluses(problem, [cost * PARTS for cost in costs])
        # How much surplus a solution of the search that goes on may have, any where there was no solution before; and
        # when it was begun.
        self._room: int | None = None
        self._search_begun = self._begun

    def solutions(self) -> Generator[list[int], None, None]:
        """Numbers of options. No solution costs less than the best one when it ends. Raises `OutOfTime`."""
        # One without a primary item is in none.
        order = [
            place
            for place, option in enumerate(self._problem.options)
            if any(item in self._problem.items for item, _ in self._problem._pairs(option))
        ]
        while True:
            best = self._beside.best
            self._room = None if best is None else (best - 1) * PARTS - self._floor
            if self._room is not None and self._room < 0:
                return
            # Options of small surplus come first, so that a cheap solution comes early.
            order.sort(key=lambda place: self._surplus[place])
            self._search_begun = time.monotonic()
            try:
                with closing(self._among(order)) as found:
                    for numbers in found:
                        best = self._beside.best
                        if best is None or sum(self._costs[number] for number in numbers) < best:
                            yield numbers
                            break
                        self._look()
                    else:
                        return
            except _Narrower:
                # It begins again.
                pass
            if self._is_shown():
                return

    def _look(self, run: Run | None = None) -> None:
        """Raises `_Narrower`."""
        self._beside.look(run)
        best, floor = self._beside.best, self._beside.floor
        # One that has found a solution begins again anyway.
        if best is not None and (run is None or time.monotonic() - self._search_begun > _BEGUN_SECONDS):
            left = (best - 1) * PARTS - max(self._floor, self._floor if floor is None else floor)
            if self._room is None or left < self._room * _MUCH_LESS:
                raise _Narrower

    def _is_shown(self) -> bool:
        """Seeks better prices for a while. Returns whether they show that no solution costs less than the best one."""
        begun = time.monotonic()
        left = _PRICING_SECONDS + _PRICING_SHARE * (begun - self._begun) - self._priced
        prices = self._beside.prices
        while True:
            assert self._beside.best is not None
            if prices.show(self._beside.best, min(left, _PRICING_TURN)):
                return True
            left -= _PRICING_TURN
            if left <= 0 or prices.is_over or self._deadline is not None and time.monotonic() > self._deadline:
                break
            self._beside.look()
        self._priced += time.monotonic() - begun
        surplus, floor = prices.surpluses()
        if floor > self._floor:
            self._surplus, self._floor = surplus, floor
        return False

    def _among(self, order: Sequence[int]) -> Generator[list[int], None, None]:
        """The solutions that have options of these places alone, within the bounds where there is a room."""
        seconds = None if self._deadline is None else max(self._deadline - time.monotonic(), 0.0)
        if self._room is None:
            with self._problem._search(order, seconds=seconds, meanwhile=self._look) as solutions:
                yield from (solution.numbers for solution in solutions)
        else:
            places = [place for place in order if self._surplus[place] <= self._room]
            inner = _narrowed(self._problem, places, self._surplus, self._room)
            with inner._search(seconds=seconds, meanwhile=self._look) as narrowed:
                yield from ([places[number] for number in solution.numbers] for solution in narrowed)


def _surpluses(problem: Problem[Any], costs: Sequence[int]) -> tuple[list[int], int]:
    """What each option costs beyond the prices of its items, none less than 0, and what a solution costs at least."""
    rows = [[item for item, _ in problem._pairs(option) if item in problem.items] for option in problem.options]
    holders: dict[Hashable, list[int]] = {item: [] for item in problem.items}
    for place, row in enumerate(rows):
        for item in row:
            holders[item].append(place)
    surplus = list(costs)
    prices = dict.fromkeys(problem.items, 0)

    def raise_price(item: Hashable, by: int) -> None:
        prices[item] += by
        for place in holders[item]:
            surplus[place] -= by

    for place, row in enumerate(rows):
        if row and surplus[place] < 0:
            raise_price(row[0], surplus[place])
    # First all items of an option share in its surplus, then the first ones take what is left.
    for turn in range(_ROUNDS + 1):
        for item in sorted(problem.items, key=lambda item: len(holders[item])):
            if holders[item]:
                share = min(surplus[at] if turn == _ROUNDS else surplus[at] // len(rows[at]) for at in holders[item])
                raise_price(item, share)
    least = sum(min(price * low for low in problem.items[item]) for item, price in prices.items())
    return surplus, least


def _narrowed(problem: Problem[Any], places: Sequence[int], surplus: Sequence[int], room: int) -> Problem[Any]:
    """The problem of these options, with bounds on how many of them may have a large surplus."""
    bounds: dict[Hashable, tuple[int, int]] = dict(problem.items)
    marks: list[tuple[int, Hashable]] = []
    for most in range(1, min(len(places), _MOST_BOUNDS + 1)):
        # So many and one more with a surplus of at least this are too much.
        large = room // (most + 1) + 1
        if sum(surplus[place] >= large for place in places) > most and (not marks or large < marks[-1][0]):
            mark = _Mark(most)
            bounds[mark] = (0, most)
            marks.append((large, mark))
    narrowed: Problem[Any] = Problem(bounds, list(problem.secondary))
    for place in places:
        uses: dict[Any, Any] = dict(problem._pairs(problem.options[place]))
        uses.update((mark, None) for large, mark in marks if surplus[place] >= large)
        narrowed.add_option(uses)
    return narrowed


class _Mark:
    """An item of which so many options with a large surplus are."""

    def __init__(self, most: int) -> None:
        self.most = most

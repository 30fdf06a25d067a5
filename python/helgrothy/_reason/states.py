"""The solution of least cost by a sweep over states, for problems whose primary items are all to be held once.

The primary items are taken one after another, in a narrow order. A state says which of the items that are still to come
are held already, and by which colours; of all ways to a state only the cheapest counts. So dominoes on 8 by 8 with a
cost for each place have some hundreds of states at a time, where there are 12,988,816 solutions. It is the sweep that
says that no solution costs less; what it gives is judged as that of any other engine is.
"""

from __future__ import annotations

import time
from collections.abc import Hashable, Iterator, Sequence
from contextlib import suppress
from typing import Any, Optional

from .._text.syntax import ONCE
from ..problem import Problem

# So many states at a time, which take some hundred MB, and problems with so many uses of items.
_MOST_STATES, _MOST_USES = 300_000, 200_000
# An order is sought from so many items on, where there are no more than that.
_STARTS, _MOST_ORDERED = 6, 300
# The clock is looked at after so many states.
_TURN = 500

# The numbers of options, the last one first.
_Way = Optional[tuple[int, Any]]


class Sweep:
    """A sweep, to be gone on with until it is over. `numbers` is then the solution, or None where it found none."""

    def __init__(self, problem: Problem[Any], costs: Sequence[int]) -> None:
        self.is_over = False
        self.numbers: list[int] | None = None
        self._steps = self._run(problem, costs)

    def go_on(self, seconds: float) -> None:
        """Goes on for about so long."""
        until = time.monotonic() + seconds
        # Where there is no memory for it, others find the solution.
        with suppress(MemoryError):
            for _ in self._steps:
                if time.monotonic() > until:
                    return
        self.is_over = True

    def _run(self, problem: Problem[Any], costs: Sequence[int]) -> Iterator[None]:
        pairs = [list(problem._pairs(option)) for option in problem.options]
        if any(bounds != ONCE for bounds in problem.items.values()) or sum(map(len, pairs)) > _MOST_USES:
            return
        layer: dict[int, tuple[int, _Way]] = {0: (0, None)}
        for bit, branches, left in _layers(problem, pairs):
            yield
            following: dict[int, tuple[int, _Way]] = {}
            for done, (state, (cost, way)) in enumerate(layer.items()):
                if not done % _TURN:
                    yield
                if state & bit:
                    if state & left not in following or following[state & left][0] > cost:
                        following[state & left] = cost, way
                    continue
                for number, barred, held in branches:
                    if not state & barred:
                        after, total = (state | held) & left, cost + costs[number]
                        if after not in following or following[after][0] > total:
                            following[after] = total, (number, way)
                if len(following) > _MOST_STATES:
                    return
            layer = following
        for _, found in layer.values():
            self.numbers = []
            while found is not None:
                number, found = found
                self.numbers.append(number)


def _layers(
    problem: Problem[Any], pairs: Sequence[Sequence[tuple[Hashable, Hashable | None]]]
) -> Iterator[tuple[int, list[tuple[int, int, int]], int]]:
    """Of each primary item in the order: its bit, the options that are chosen at it, the bits that count after it.

    An option has its number, the bits that bar it, and those that it sets. A primary item has a bit, and a secondary
    one has a bit for each of its colours and one for none.
    """
    bits: dict[tuple[Hashable, Hashable | None], int] = {}
    whole = dict.fromkeys(problem.items, 0)
    whole.update(dict.fromkeys(problem.secondary, 0))
    for option in pairs:
        for use in option:
            if use not in bits:
                bits[use] = 1 << len(bits)
                whole[use[0]] |= bits[use]
    order = _order(problem, pairs)
    at = {item: place for place, item in enumerate(order)}
    chosen: list[list[tuple[int, int, int]]] = [[] for _ in order]
    last: dict[Hashable, int] = {}
    for number, option in enumerate(pairs):
        place = min((at[item] for item, _ in option if item in at), default=None)
        if place is not None:
            barred = held = 0
            for use in option:
                held |= bits[use]
                # A colour that is there already bars none of the same.
                barred |= whole[use[0]] & ~(bits[use] if use[1] is not None else 0)
                last[use[0]] = max(last.get(use[0], 0), at.get(use[0], place))
            chosen[place].append((number, barred, held))
    left = sum(bits.values())
    over: list[int] = [0] * len(order)
    for item, place in last.items():
        over[place] |= whole[item]
    for place, item in enumerate(order):
        left &= ~over[place]
        yield whole[item], chosen[place], left


def _order(problem: Problem[Any], pairs: Sequence[Sequence[tuple[Hashable, Hashable | None]]]) -> list[Hashable]:
    """An order in which few items are open at a time: begun, and not over. That of the file, or one from some item on
    which takes next the item whose options reach the fewest new ones."""
    items = list(problem.items)
    if len(items) > _MOST_ORDERED:
        return items
    number = {item: place for place, item in enumerate([*items, *problem.secondary])}
    near = [0] * len(number)
    for option in pairs:
        reach = sum(1 << number[item] for item, _ in option)
        for item, _ in option:
            near[number[item]] |= reach
    primary = (1 << len(items)) - 1
    orders = [list(range(len(items)))]
    for start in range(0, len(items), max(len(items) // _STARTS, 1)):
        order, reached, left = [], 0, dict.fromkeys(range(len(items)))
        following = start
        while True:
            order.append(following)
            del left[following]
            reached |= near[following] | 1 << following
            if not left:
                break
            open_ = [place for place in left if reached >> place & 1] or list(left)
            following = min(open_, key=lambda place: _count(near[place] & ~reached))
        orders.append(order)
    best = min(orders, key=lambda order: _width(order, near, primary))
    return [items[place] for place in best]


def _width(order: Sequence[int], near: Sequence[int], primary: int) -> int:
    """About how many states there are: 2 to the number of open items, over all places."""
    reached = taken = total = 0
    for place in order:
        reached |= near[place] | 1 << place
        taken |= 1 << place
        total += 1 << _count(reached & primary & ~taken)
    return total


def _count(bits: int) -> int:
    return bin(bits).count("1")

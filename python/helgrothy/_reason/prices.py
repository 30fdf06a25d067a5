"""What each solution costs at least, by prices of items.

Each item gets a price, of any sign. A solution costs the prices of its items, and of each option what that costs beyond
them; so it costs at least the prices by the bounds of their items, and of each option nothing or, where that is less,
what it costs beyond its prices. Prices are sought by steps along the slope of this sum, and are whole numbers of small
parts where the sum is reckoned, so that what it shows holds exactly.

A roster in which all have as many shifts as they must, and one likes nights, took clasp more than 100 seconds, and
prices a quarter of one.
"""

from __future__ import annotations

import time
from collections.abc import Hashable, Sequence
from typing import Any

from ..problem import Problem

# Problems have so many uses of items at most, and costs are less than this.
_MOST_USES, _MOST_COST = 200_000, 1 << 900
# Parts of the costs' unit, in which prices are whole.
PARTS = 60 << 10
# After so many steps without a gain a step is half as long, and none is shorter than this part of the first.
_MOST_STALE, _SHORTEST = 100, 1e-3


class Prices:
    """Prices that are gone on with until they show that no solution costs less than a goal, or until `is_over`."""

    def __init__(self, problem: Problem[Any], costs: Sequence[int]) -> None:
        pairs = [list(problem._pairs(option)) for option in problem.options]
        # An item with colours may be held any number of times.
        coloured = {item for option in pairs for item, colour in option if colour is not None}
        bounds: dict[Hashable, tuple[int, int]] = {item: (low, high) for item, (low, high) in problem.items.items()}
        bounds.update((item, (0, 1)) for item in problem.secondary if item not in coloured)
        number = {item: place for place, item in enumerate(bounds)}
        self._bounds = list(bounds.values())
        # One without a primary item is in no solution.
        self._places = [place for place, option in enumerate(pairs) if any(it in problem.items for it, _ in option)]
        self._options = [
            (costs[place], [number[item] for item, _ in pairs[place] if item in number]) for place in self._places
        ]
        self._all = len(pairs)
        self._prices = self._best_prices = [0.0] * len(self._bounds)
        self._is_large = sum(map(len, pairs)) > _MOST_USES or sum(abs(cost) for cost in costs) > _MOST_COST
        self._goal: int | None = None
        self.is_over = False

    def _begin(self, goal: int) -> None:
        self._goal = goal
        self._best = float("-inf")
        self._step, self._stale = 1.0, 0
        self.is_over = self._is_large

    def show(self, goal: int, seconds: float) -> bool:
        """Goes on for so many seconds of a processor. Returns whether each solution costs the goal at least.

        By the clock, prices would be worse on a machine that does other things too, and the search of dlx3 longer.
        """
        if goal != self._goal:
            self._begin(goal)
        until = time.thread_time() + seconds
        while not self.is_over and time.thread_time() < until:
            if self._go_on(goal):
                return True
        return False

    def _go_on(self, goal: int) -> bool:
        """One step. Returns whether the prices before it show the goal."""
        prices = self._prices
        value, uses = 0.0, [0] * len(prices)
        for cost, items in self._options:
            beyond = cost - sum([prices[item] for item in items])
            if beyond < 0:
                value += beyond
                for item in items:
                    uses[item] += 1
        slopes = []
        for price, (low, high), used in zip(prices, self._bounds, uses):
            value += min(price * low, price * high)
            slopes.append((low if price > 0 else high if price < 0 else min(max(used, low), high)) - used)
        if value > goal - 1 and self._reckon(prices)[1] > (goal - 1) * PARTS:
            return True
        self._stale += 1
        if value > self._best:
            self._best, self._stale, self._best_prices = value, 0, prices
        elif self._stale >= _MOST_STALE:
            self._step, self._stale = self._step / 2, 0
        length = sum(slope * slope for slope in slopes)
        self.is_over = not length or self._step < _SHORTEST
        if not self.is_over:
            by = self._step * (goal - value) / length
            self._prices = [price + by * slope for price, slope in zip(prices, slopes)]
        return False

    def surpluses(self) -> tuple[list[int], int]:
        """What each option costs beyond the best prices so far, if it costs more, and what each solution costs at least
        besides; in parts."""
        beyond, floor = self._reckon(self._best_prices)
        found = [0] * self._all
        for place, more in zip(self._places, beyond):
            found[place] = max(more, 0)
        return found, floor

    def _reckon(self, prices: Sequence[float]) -> tuple[list[int], int]:
        """What options cost beyond prices, which are whole numbers here, and what each solution costs at least."""
        whole = [round(price * PARTS) for price in prices]
        beyond = [cost * PARTS - sum([whole[item] for item in items]) for cost, items in self._options]
        floor = sum(min(price * low, price * high) for price, (low, high) in zip(whole, self._bounds))
        return beyond, floor + sum(min(more, 0) for more in beyond)

"""Bounds whose sums can't work.

Give each primary item a weight. An option weighs what its items weigh together, so chosen options weigh at most what
those of positive weight do. If the bounds ask for more than that, there is no solution. `search` looks for such
weights, first by a matching of two classes of items; that they are right is then a matter of one sum in whole numbers,
which `Sums.is_proof` does.

Weights by climbing were tried first. They found none for the digits of a region with too few cells.
"""

from __future__ import annotations

import time
from collections.abc import Callable, Hashable, Mapping, Sequence
from dataclasses import dataclass, replace
from typing import Any

from .._text.syntax import Bounds
from ..problem import Problem
from .matching import shortage

# So many names are shown; of more, the first few.
_MOST_NAMES = 12
_FEW_NAMES = 3
# The part of the time that a matching may take.
_MATCHED = 0.6
# Weights are looked for among such small numbers.
_LARGEST = (1, 2, 3, 4, 5, 6, 12)

Row = tuple[Hashable, ...]


@dataclass(frozen=True)
class Sums:
    """Weights of items; what those above 0 ask for at least, what those below 0 allow at most, and what the options
    give beyond that. is_whole: those above 0 are all that ask in a class of items."""

    weights: dict[Hashable, int]
    low: int
    high: int
    given: int
    is_whole: bool = False

    def text(self, names: Callable[[Hashable], str]) -> str:
        """The proof in words."""
        less = [item for item, weight in self.weights.items() if weight < 0]
        asked = self._part(self.asking, "ask", f"for {self.low} in all", names)
        if not less:
            return f"the sums can't work: {asked}, and the options give {self.given}"
        return f"the sums can't work: {asked}, and {self._part(less, 'allow', str(self.high + self.given), names)}"

    @property
    def asking(self) -> list[Hashable]:
        """The items of weights above 0."""
        return [item for item, weight in self.weights.items() if weight > 0]

    def _part(self, items: list[Hashable], verb: str, much: str, names: Callable[[Hashable], str]) -> str:
        """What items ask for or allow: of one weight all together, else each by its weight."""
        weights = {abs(self.weights[item]) for item in items}
        is_one = len(weights) == 1
        words = []
        for item in items[: _MOST_NAMES if len(items) <= _MOST_NAMES else _FEW_NAMES]:
            weight = 1 if is_one else abs(self.weights[item])
            words.append(names(item) if weight == 1 else f"{weight} x {names(item)}")
        listed = " ".join(words)
        who = listed if len(words) == len(items) else f"the {len(items)} items {listed} .."
        by = "" if weights == {1} else f", {min(weights)} each" if is_one else ", each by its weight"
        return f"{who} {verb}{'s' if len(items) == 1 else ''} {much}{by}"

    @property
    def is_proof(self) -> bool:
        """Whether this proves that there is no solution."""
        return self.low > self.high + self.given


def bounds_of(problem: Problem[Any]) -> dict[Hashable, Bounds]:
    """The bounds of the primary items, and of the secondary ones that no option gives a colour."""
    coloured: set[Hashable] = set()
    for option in problem.options:
        if isinstance(option, Mapping):
            coloured.update(item for item, colour in option.items() if colour is not None)
    return {**problem.items, **{item: Bounds(0, 1) for item in problem.secondary if item not in coloured}}


def search(problem: Problem[Any], seconds: float = 2.0) -> Sums | None:
    """Weights that prove that there is no solution, with as few items as leaving out finds; None where none are
    found in the time, which says nothing. Where a whole class of items is the proof, it stays whole.
    """
    deadline = time.monotonic() + seconds
    count = Count(problem)
    return count.by_matching(seconds * _MATCHED) or count.by_climbing(deadline - time.monotonic())


class Count:
    """What each option of a problem holds of the items that have bounds, to look for such weights."""

    def __init__(self, problem: Problem[Any]) -> None:
        self._name = problem.name
        self._bounds = bounds = bounds_of(problem)
        self._rows: list[Row] = [
            tuple(item for item, _ in problem._pairs(option) if item in bounds) for option in problem.options
        ]

    def by_matching(self, seconds: float) -> Sums | None:
        """Weights from a matching of two classes of items."""
        deadline = time.monotonic() + seconds
        short = shortage(self._rows, self._bounds, self._name, deadline)
        if short is None:
            return None
        found = self._weigh(short.weights)
        if not found.is_proof:
            return None
        return replace(found, is_whole=True) if short.is_whole else self._fewer(found, deadline)

    def by_climbing(self, seconds: float) -> Sums | None:
        """Weights from raising those of what is asked for too little, and lowering others."""
        deadline = time.monotonic() + seconds
        scales = {item: 0.0 for item in self._bounds}
        step = 1.0
        while time.monotonic() < deadline and step > 0.02:
            _climb(self._rows, self._bounds, scales, step)
            step *= 0.97
            for largest in _LARGEST:
                if time.monotonic() > deadline:
                    break
                found = self._weigh(_whole(scales, largest))
                if found.is_proof:
                    return self._fewer(found, deadline)
        return None

    def _weigh(self, weights: dict[Hashable, int]) -> Sums:
        bounds = self._bounds
        low = sum(weight * bounds[item].low for item, weight in weights.items() if weight > 0)
        high = sum(-weight * bounds[item].high for item, weight in weights.items() if weight < 0)
        given = sum(max(0, sum(weights.get(item, 0) for item in row)) for row in self._rows)
        return Sums(weights, low, high, given)

    def _fewer(self, found: Sums, deadline: float) -> Sums:
        """The proof without items that it doesn't need."""
        for item in list(found.weights):
            if time.monotonic() > deadline:
                break
            less = self._weigh({other: weight for other, weight in found.weights.items() if other != item})
            if less.is_proof:
                found = less
        return found


def _climb(
    rows: Sequence[Row], items: Mapping[Hashable, Bounds], scales: dict[Hashable, float], step: float
) -> None:
    """Raises the weights of what is asked for too little by the options that weigh something, and lowers others."""
    held = dict.fromkeys(items, 0)
    for row in rows:
        if sum(scales[item] for item in row) > 0:
            for item in row:
                held[item] += 1
    for item, (low, high) in items.items():
        short, over = low - held[item], held[item] - high
        if short > 0:
            scales[item] += step * min(short, 1)
        elif over > 0:
            scales[item] -= step * min(over, 1)
        else:
            scales[item] *= 1 - step / 4


def _whole(scales: dict[Hashable, float], largest: int) -> dict[Hashable, int]:
    most = max((abs(scale) for scale in scales.values()), default=0.0) or 1.0
    rounded = {item: round(scale * largest / most) for item, scale in scales.items()}
    return {item: weight for item, weight in rounded.items() if weight}

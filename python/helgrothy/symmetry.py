"""Solutions up to symmetry: of those that are images of each other by turns and mirrors of the region, one.

A symmetry of a problem is a motion of the region of its cells that takes each option to an option, and the options of
each item to those of an item with the same bounds. If all of them take the options of an item to each other, and it is
held exactly once, as a piece is, then one option is left of each set of images before the search. Solutions that still
are images of each other, since a symmetry leaves that option as it is, are compared after it: of them that one is
given whose numbers come first.
"""

from __future__ import annotations

import re
from collections import Counter
from collections.abc import Generator, Hashable, Sequence
from dataclasses import dataclass
from typing import Any, TypeVar

from ._run.solution import Solution
from ._run.stream import Outcome, Solutions, check_numbers, sooner
from ._text.shown import shown
from ._text.syntax import ONCE
from .draw import _grids as grids
from .draw import compiled
from .draw._turns import Cell, symmetries
from .errors import NoPicture, OutOfTime
from .problem import Problem

__all__ = ["Motion", "Plan", "motions", "plan", "solve"]

Option = TypeVar("Option", bound=Any)
# Where each option lies after a motion.
Motion = tuple[int, ...]
# The options that hold an item, apart by its colours (True without one), and its bounds.
_Holders = tuple[frozenset[tuple[bool, frozenset[int]]], Hashable]
_MOST_DIGITS = 9
_MOST_SHOWN = 60


def motions(problem: Problem[Any], cell: str, grid: str = "square") -> list[Motion]:
    """The symmetries of a problem, that of no change first.

    cell: a pattern (regular expression) for the cells of an option, as whole words of its line. Its groups `layer`,
    `row` and `column`, or else all of its groups, are the numbers of the cell, or single letters. grid: `square`, also
    of boxes, `hex` or `triangle`, whose cells are those of `draw.Pattern`. Raises `NoPicture`.
    """
    if grid not in grids.GRIDS:
        raise NoPicture(f"{shown(grid)}: a grid is {', '.join(grids.GRIDS)}")
    laid, words = _laid(problem, cell, grid)
    region = sorted({at for cells in laid for at in cells})
    if len(set(laid)) == len(laid):
        # Words of other items may say the same in another way, as the diagonals of a queen do.
        words = [()] * len(laid)
    keys = list(zip(laid, words))
    places = {key: place for place, key in enumerate(keys)}
    if len(places) < len(keys):
        place = next(place for place, key in enumerate(keys) if places[key] != place)
        line = shown(problem.line(problem.options[place]))
        raise NoPicture(f"two options lie in the same cells and are alike: {line[:_MOST_SHOWN]}")
    holders = _holders(problem)
    found: dict[Motion, None] = {}
    for symmetry in symmetries(region, ways=None if grid == "square" else grids.GRIDS[grid].motions):
        images = [frozenset(symmetry[at] for at in cells) for cells in laid]
        motion = [places.get(key) for key in zip(images, words)]
        taken = tuple(place for place in motion if place is not None)
        if len(taken) == len(motion) and _keeps(holders, taken):
            found[taken] = None
    return list(found)


def _laid(problem: Problem[Any], cell: str, grid: str) -> tuple[list[frozenset[Cell]], list[tuple[str, ...]]]:
    """The cells of each option, and its other words."""
    pattern = compiled(cell, r"(?<!\S)", r"(?!\S)")
    if not pattern.groups:
        raise re.error("the pattern of a cell has no group for its row or column")
    named = [name for name in ("layer", "row", "column", "half") if name in pattern.groupindex]
    groups: list[Any] = list(named) or list(range(1, pattern.groups + 1))
    laid, words = [], []
    dimensions: set[int] = set()
    for option in problem.options:
        line = problem.line(option)
        found = [_cell(match.group(0, *groups)[1:], grid) for match in pattern.finditer(line)]
        dimensions.update(map(len, found))
        laid.append(frozenset(found))
        words.append(tuple(pattern.sub("", line).split()))
    if not dimensions or dimensions == {0}:
        raise NoPicture("no option has a cell of this pattern")
    if len(dimensions) > 1:
        raise NoPicture(f"cells have {' and '.join(map(str, sorted(dimensions)))} numbers; all have as many")
    return laid, words


def _cell(words: Sequence[str], grid: str) -> Cell:
    """A cell by its numbers, or by the point that motions of its grid take for it."""
    numbers = [word for word in words if word]
    if grid == "square":
        return tuple(map(_number, numbers))
    if not 2 <= len(numbers) <= (3 if grid == "triangle" else 2):
        raise NoPicture(f"a cell of the grid {grid} has a row and a column, and this one {len(numbers)} numbers")
    place = _number(numbers[0]), _number(numbers[1])
    if len(numbers) == 3:
        try:
            place = grids.of_rhombus(*place, grids.half(numbers[2]))
        except ValueError as error:
            raise NoPicture(f"{shown(numbers[2])}: {error}") from None
    return grids.GRIDS[grid].point(place)


def _number(word: str) -> int:
    digits = word[1:] if word[:1] == "-" else word
    if digits.isascii() and digits.isdigit() and len(digits) <= _MOST_DIGITS:
        return int(word)
    if len(word) == 1 and word.isascii() and word.isalpha():
        return int(word, 36)
    raise NoPicture("a cell's numbers are numbers of at most nine digits, or single letters")


def _holders(problem: Problem[Any]) -> Counter[_Holders]:
    """How many items have the same holders and bounds."""
    held: dict[Hashable, dict[Hashable | None, set[int]]] = {}
    for place, option in enumerate(problem.options):
        for item, colour in problem._pairs(option):
            held.setdefault(item, {}).setdefault(colour, set()).add(place)
    found: Counter[_Holders] = Counter()
    for item, colours in held.items():
        apart = frozenset((colour is None, frozenset(places)) for colour, places in colours.items())
        found[apart, problem.items.get(item)] += 1
    return found


def _keeps(holders: Counter[_Holders], motion: Motion) -> bool:
    """Whether a motion of the options is one of the items too."""

    def image(places: frozenset[int]) -> frozenset[int]:
        return frozenset(motion[place] for place in places)

    return len(set(motion)) == len(motion) and all(
        holders[frozenset((is_bare, image(places)) for is_bare, places in apart), bounds] == count
        for (apart, bounds), count in holders.items()
    )


@dataclass(frozen=True)
class Plan:
    """What is left out: the options that are searched, and for each option of the item the motions that keep it.

    Without such an item `kept` is empty, and all motions are looked at after the search.
    """

    motions: list[Motion]
    places: list[int]
    kept: dict[int, list[Motion]]


def plan(problem: Problem[Any], motions: list[Motion]) -> Plan:
    """The item of which most options are left out: as many as there are motions, of one that has few options."""
    holders: dict[Hashable, list[int]] = {item: [] for item, bounds in problem.items.items() if bounds == ONCE}
    for place, option in enumerate(problem.options):
        for item, _ in problem._pairs(option):
            if item in holders:
                holders[item].append(place)
    best: tuple[float, int, list[int], dict[int, list[Motion]]] = (1.0, 0, [], {})
    for places in holders.values():
        own = set(places)
        if not own or any(motion[place] not in own for motion in motions for place in places):
            continue
        first = {place: min(motion[place] for motion in motions) for place in places}
        left = [place for place in places if first[place] == place]
        share = len(left) / len(places)
        if (share, len(left)) < best[:2]:
            kept = {place: [motion for motion in motions if motion[place] == place] for place in left}
            best = share, len(left), [place for place in places if first[place] != place], kept
    dropped = set(best[2])
    return Plan(motions, [place for place in range(len(problem.options)) if place not in dropped], best[3])


def solve(
    problem: Problem[Option],
    plan: Plan,
    limit: int | None = None,
    spacing: int = 1,
    *,
    seconds: float | None = None,
) -> Solutions[Option]:
    """The solutions up to the symmetries of a plan. limit, spacing and seconds are those of `Problem.solve`."""
    check_numbers(limit, spacing)

    def begin(outcome: Outcome) -> Generator[Solution[Option], None, None]:
        with problem._search(plan.places, seconds=seconds) as solutions:
            try:
                for solution in solutions:
                    if not _is_first(plan, solution.numbers):
                        continue
                    outcome.count(1)
                    if outcome.found % spacing == 0:
                        yield solution
                    if outcome.found == limit:
                        outcome.end(limit, False)
                        return
            except OutOfTime as error:
                error.found = outcome.found
                raise
        outcome.end(outcome.found, True)

    def again(most: float) -> Solutions[Option]:
        return solve(problem, plan, limit, spacing, seconds=sooner(seconds, most))

    return Solutions(begin, again)


def _is_first(plan: Plan, numbers: Sequence[int]) -> bool:
    """Whether a solution is the first of its images that would be found too."""
    own = next((plan.kept[number] for number in numbers if number in plan.kept), plan.motions)
    if len(own) == 1:
        return True
    least = sorted(numbers)
    return all(least <= sorted(motion[number] for number in numbers) for motion in own)

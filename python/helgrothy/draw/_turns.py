"""Turns and mirror images of boards, boxes and pieces, in any number of dimensions.

A cell is a tuple of whole numbers: (row, column) of a board, (layer, row, column) of a box. A motion is a linear map
that takes cells to cells. On a grid of squares or cubes it exchanges axes and reverses some of them: a board has 8
motions, and 4 of them are turns; a box has 48, and 24 of them are turns. The others are mirror images. Other grids have
motions of their own (`_grids`).
"""

from __future__ import annotations

import itertools
import operator
from collections.abc import Collection, Iterable, Sequence
from dataclasses import dataclass

Cell = tuple[int, ...]
Form = frozenset[Cell]


@dataclass(frozen=True)
class Motion:
    """A linear map, by its matrix: how often each axis of a cell counts for each axis of its image."""

    rows: tuple[Cell, ...]

    def of(self, cell: Cell) -> Cell:
        """The image of a cell."""
        return tuple(sum(map(operator.mul, row, cell)) for row in self.rows)

    @property
    def is_turn(self) -> bool:
        """Whether a solid thing can be moved so; otherwise it is mirrored."""
        return _determinant(self.rows) > 0


def _determinant(rows: Sequence[Cell]) -> int:
    if not rows:
        return 1
    first, *others = rows
    return sum(
        (-1) ** at * first[at] * _determinant([(*row[:at], *row[at + 1 :]) for row in others])
        for at in range(len(first))
        if first[at]
    )


def motions(dimensions: int, mirrors: bool = True) -> list[Motion]:
    """All motions of squares or cubes of so many dimensions, or the turns alone. The first one changes nothing."""
    found = [
        Motion(tuple(tuple(sign * (at == axis) for at in range(dimensions)) for axis, sign in zip(axes, signs)))
        for axes in itertools.permutations(range(dimensions))
        for signs in itertools.product((1, -1), repeat=dimensions)
    ]
    return [motion for motion in found if mirrors or motion.is_turn]


def moved(cells: Collection[Cell], step: int = 1) -> Form:
    """The cells moved by multiples of a step until each axis begins below it, from 0 on."""
    least = tuple(low - low % step for low in _least(cells))
    return frozenset(tuple(map(operator.sub, cell, least)) for cell in cells)


def _least(cells: Collection[Cell]) -> Cell:
    """The least number of each axis."""
    return tuple(map(min, zip(*cells)))


def images(
    cells: Collection[Cell], mirrors: bool = True, ways: Sequence[Motion] | None = None, step: int = 1
) -> list[Form]:
    """The forms that a piece of these cells has when it is turned and, perhaps, mirrored: each once, from 0 on.

    ways: the motions of its grid, if its cells are no squares or cubes, and by what multiples of a step it is moved.
    """
    forms = {moved([motion.of(cell) for cell in cells], step) for motion in _ways(cells, mirrors, ways)}
    return sorted(forms, key=sorted)


def symmetries(
    cells: Iterable[Cell], mirrors: bool = True, ways: Sequence[Motion] | None = None
) -> list[dict[Cell, Cell]]:
    """The motions that lay a region on itself: of each one where it takes each cell. That of no change is the first.

    Two motions that take all cells to the same places, as in a single row, are one. ways: as for `images`.
    """
    region = list(dict.fromkeys(cells))
    if not region:
        return [{}]
    known = set(region)
    least = _least(region)
    found: dict[tuple[Cell, ...], None] = {}
    for motion in _ways(region, mirrors, ways):
        turned = [motion.of(cell) for cell in region]
        shift = tuple(map(operator.sub, least, _least(turned)))
        laid = tuple(tuple(map(operator.add, cell, shift)) for cell in turned)
        if known.issuperset(laid):
            found[laid] = None
    return [dict(zip(region, laid)) for laid in found]


def _ways(cells: Collection[Cell], mirrors: bool, ways: Sequence[Motion] | None) -> list[Motion]:
    """The motions of a grid, or of squares and cubes; the turns alone where nothing is mirrored."""
    if ways is None:
        return motions(len(next(iter(cells))), mirrors)
    return [motion for motion in ways if mirrors or motion.is_turn]

"""Grids of squares, hexagons and triangles: which cells are neighbours, and where a motion takes a cell.

A cell is a row and a column. Hexagons have axial coordinates: a row runs to the right, and a column down and half a
hexagon to the right with each row. The triangles of a row are counted from left to right, and each second one points
down: where row and column add up to an even number, a triangle points up.
"""

from __future__ import annotations

from collections.abc import Callable, Collection, Iterable
from dataclasses import dataclass

from ._turns import Form, Motion, images, motions, moved

Place = tuple[int, int]

# The turn by a sixth in axial coordinates, and the mirror that keeps rows.
_SIXTH = Motion(((1, 1), (-1, 0)))
_LEFT_TO_RIGHT = Motion(((1, 0), (-1, -1)))
# The halves of a rhombus, as people name them.
_HALVES = {"0": 0, "1": 1, "u": 0, "d": 1}


@dataclass(frozen=True)
class Grid:
    """A grid: its name and that of a cell, its motions with that of no change first, which of them exchanges left and
    right, the cells beside a cell, the point that motions take for a cell, with the way back, and of what step points
    are moved by multiples."""

    name: str
    cell: str
    motions: tuple[Motion, ...]
    mirror: Motion
    beside: Callable[[Place], tuple[Place, ...]]
    point: Callable[[Place], Place]
    place: Callable[[Place], Place]
    step: int = 1

    def form(self, cells: Iterable[Place]) -> Form:
        """A piece as its points, from 0 on."""
        return moved([self.point(cell) for cell in cells], self.step)

    def images(self, form: Form, mirrors: bool = True, turns: bool = True) -> list[Form]:
        """The forms of a piece that is turned and mirrored, or not. Without turns left and right are exchanged."""
        return images(form, mirrors, self.motions if turns else (self.motions[0], self.mirror), self.step)

    def corner(self, cells: Collection[Place]) -> Place:
        """What is to be taken from the rows and columns of cells so that they begin at 0, or at 1 where otherwise
        triangles would point another way."""
        top, left = min(r for r, _ in cells), min(c for _, c in cells)
        return (top, left - (top + left) % 2) if self.name == "triangle" else (top, left)

    def middle(self, cells: Collection[Place]) -> Place:
        """The cell nearest to the middle of all."""
        points = {cell: self.point(cell) for cell in cells}
        r: float = sum(r for r, _ in points.values()) / len(points)
        c: float = sum(c for _, c in points.values()) / len(points)
        # Axes of squares are at right angles, those of the other grids at 60 degrees.
        skew = 0 if self.name == "square" else 1

        def distance(cell: Place) -> float:
            down, right = points[cell][0] - r, points[cell][1] - c
            return down * down + right * right + skew * down * right

        return min(points, key=lambda cell: (distance(cell), cell))

    def parts(self, cells: Iterable[Place]) -> int:
        """Into how many parts cells fall that don't hang together by their sides."""
        left = set(cells)
        count = 0
        while left:
            count += 1
            reached = [left.pop()]
            while reached:
                for cell in self.beside(reached.pop()):
                    if cell in left:
                        left.remove(cell)
                        reached.append(cell)
        return count


def _twelve() -> tuple[Motion, ...]:
    """The turns of a hexagon, and its mirror images."""
    found = [Motion(((1, 0), (0, 1)))]
    for _ in range(5):
        found.append(_after(_SIXTH, found[-1]))
    return (*found, *(_after(_LEFT_TO_RIGHT, motion) for motion in found))


def _after(second: Motion, first: Motion) -> Motion:
    """What is done by one motion and then by another one."""
    columns = [second.of(column) for column in zip(*first.rows)]
    return Motion(tuple(zip(*columns)))


def _same(place: Place) -> Place:
    return place


def _beside_square(place: Place) -> tuple[Place, ...]:
    r, c = place
    return (r - 1, c), (r, c + 1), (r + 1, c), (r, c - 1)


def _beside_hexagon(place: Place) -> tuple[Place, ...]:
    """The six beside a hexagon, clockwise from the upper right."""
    r, c = place
    return (r - 1, c + 1), (r, c + 1), (r + 1, c), (r + 1, c - 1), (r, c - 1), (r - 1, c)


def points_up(place: Place) -> bool:
    """Whether a triangle points up."""
    return (place[0] + place[1]) % 2 == 0


def _beside_triangle(place: Place) -> tuple[Place, ...]:
    """The three beside a triangle: to the right, above or below, to the left."""
    r, c = place
    return (r, c + 1), (r + 1 if points_up(place) else r - 1, c), (r, c - 1)


def _point_of_triangle(place: Place) -> Place:
    """Three times its middle, in the axial coordinates of the corners."""
    r, c = place
    half = int(points_up(place))
    return 3 * r + half + 1, 3 * (c - r - 1 - half) // 2 + half + 1


def _triangle_of_point(point: Place) -> Place:
    (r, half), c = divmod(point[0], 3), point[1] // 3
    return of_rhombus(r, c, half - 1)


def of_rhombus(r: int, c: int, half: int) -> Place:
    """A half of the rhombus in a row and a column: 0 is beside the halves 1 of the row and of the column before."""
    return r, 2 * c + r + 1 + half


def half(word: str) -> int:
    """Which half of a rhombus a word names. Raises `ValueError`."""
    if word not in _HALVES:
        raise ValueError("a triangle is half 0 (or u) or half 1 (or d) of a rhombus")
    return _HALVES[word]


SQUARE = Grid("square", "square", tuple(motions(2)), Motion(((1, 0), (0, -1))), _beside_square, _same, _same)
HEX = Grid("hex", "hexagon", _twelve(), _LEFT_TO_RIGHT, _beside_hexagon, _same, _same)
TRIANGLE = Grid(
    "triangle", "triangle", _twelve(), _LEFT_TO_RIGHT, _beside_triangle, _point_of_triangle, _triangle_of_point, 3
)
GRIDS = {grid.name: grid for grid in (SQUARE, HEX, TRIANGLE)}

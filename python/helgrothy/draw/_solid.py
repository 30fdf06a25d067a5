"""Pictures of what fills a box: its layers side by side as text, the box and its layers one by one as SVG."""

from __future__ import annotations

from collections.abc import Iterator
from dataclasses import dataclass

from .._text.shown import escaped, shown
from ..errors import NoPicture
from . import Cell, Picture, check_size

# A layer, counted from the top, a row from the back, and a column from the left.
Cube = tuple[int, int, int]
Point = tuple[float, float]

_SIDE = 30
# How far a row is to the right of the next one, and above it.
_DEPTH = 15
_GAP = 16


@dataclass(frozen=True)
class _Face:
    """A face of a cube: how light it is, where it looks, its corners, and the cubes beyond the sides between these."""

    light: float
    outwards: Cube
    corners: tuple[Cube, ...]
    beside: tuple[Cube, ...]


_ABOVE, _BELOW, _BEHIND, _BEFORE, _RIGHT, _LEFT = (-1, 0, 0), (1, 0, 0), (0, -1, 0), (0, 1, 0), (0, 0, 1), (0, 0, -1)
_FACES = (
    _Face(1.0, _ABOVE, ((0, 0, 0), (0, 0, 1), (0, 1, 1), (0, 1, 0)), (_BEHIND, _RIGHT, _BEFORE, _LEFT)),
    _Face(0.88, _BEFORE, ((0, 1, 0), (0, 1, 1), (1, 1, 1), (1, 1, 0)), (_ABOVE, _RIGHT, _BELOW, _LEFT)),
    _Face(0.74, _RIGHT, ((0, 1, 1), (0, 0, 1), (1, 0, 1), (1, 1, 1)), (_ABOVE, _BEHIND, _BELOW, _BEFORE)),
)


class Solid(Picture):
    """Cells by layer, row and column, from 0 on; a place without one is a hole."""

    def __init__(self, title: str, cubes: dict[Cube, Cell]) -> None:
        if not cubes:
            raise NoPicture("there is no cell to draw")
        self.cubes = cubes
        self.sides = check_box(cubes)
        wide = self.sides[2] + 1
        super().__init__(title, {(r, layer * wide + c): cell for (layer, r, c), cell in cubes.items()})

    def text(self) -> str:
        """The layers side by side: a dot is an empty cell, # a hole."""
        layers, rows, columns = self.sides
        labels = {at: shown(cell.label) or "." for at, cell in self.cubes.items()}
        widest = max(map(len, labels.values()))
        lines = []
        for r in range(rows):
            words = [
                ("" if widest == 1 else " ").join(labels.get((layer, r, c), "#").ljust(widest) for c in range(columns))
                for layer in range(layers)
            ]
            lines.append((" " if widest == 1 else "   ").join(words).rstrip())
        return "".join(f"{line}\n" for line in lines)

    def svg(self) -> str:
        """The box, and beside it its layers with the first one on top."""
        layers, rows, columns = self.sides
        wide, slab = columns * _SIDE + rows * _DEPTH, _SIDE + rows * _DEPTH
        whole = layers * _SIDE + rows * _DEPTH
        apart = layers * (slab + _GAP) - _GAP
        width = 2 * wide + 3 * _GAP if layers > 1 else wide + 2 * _GAP
        height = max(whole, apart) + 2 * _GAP
        lines = [
            f'<svg xmlns="http://www.w3.org/2000/svg" width="{width}" height="{height}" '
            f'viewBox="0 0 {width} {height}" font-family="sans-serif" font-size="12" text-anchor="middle">',
            f"<title>{escaped(self.title)}</title>",
            f'<rect width="{width}" height="{height}" fill="#fff"/>',
        ]
        if layers > 1:
            lines += _View(self, set(range(layers)), (_GAP, (height - whole) / 2)).lines()
        left = width - _GAP - wide
        for layer in range(layers):
            lines += _View(self, {layer}, (left, (height - apart) / 2 + layer * (slab + _GAP))).lines()
        return "".join(f"{line}\n" for line in [*lines, "</svg>"])


def check_box(cubes: dict[Cube, Cell]) -> Cube:
    """How many layers, rows and columns there are. Raises `NoPicture` for more than so many cells have reason for."""
    layers, rows, columns = (max(at[axis] for at in cubes) + 1 for axis in range(3))
    check_size(rows, layers * (columns + 1), len(cubes))
    return layers, rows, columns


class _View:
    """Some layers, seen from the front, above and the right."""

    def __init__(self, solid: Solid, layers: set[int], corner: Point) -> None:
        self.cubes = {at: cell for at, cell in solid.cubes.items() if at[0] in layers}
        self.rows = solid.sides[1]
        self.top = min(layers)
        self.corner = corner
        self.is_slab = len(layers) == 1

    def lines(self) -> Iterator[str]:
        """The cubes from the back to the front, from below upwards and from left to right, so that the nearer cover
        those that are farther."""
        for at in sorted(self.cubes, key=lambda at: (at[1], -at[0], at[2])):
            yield from self.cube(at)
        if self.is_slab:
            yield from self.labels()

    def cube(self, at: Cube) -> Iterator[str]:
        """The faces that are seen, and then the lines where a piece ends or a face does."""
        fill = self.cubes[at].fill
        thick = ""
        for face in _FACES:
            if _added(at, face.outwards) in self.cubes:
                continue
            points = [self.point(_added(at, corner)) for corner in face.corners]
            shape = "L".join(f"{x:g} {y:g}" for x, y in points)
            yield f'<path d="M{shape}z" fill="{_darker(fill, face.light)}" stroke="#777" stroke-width="0.5"/>'
            for place, step in enumerate(face.beside):
                if self.is_edge(at, step, face.outwards):
                    (x, y), (to_x, to_y) = points[place], points[(place + 1) % 4]
                    thick += f"M{x:g} {y:g}L{to_x:g} {to_y:g}"
        if thick:
            yield f'<path d="{thick}" stroke="#222" stroke-width="2" stroke-linecap="round" fill="none"/>'

    def is_edge(self, at: Cube, step: Cube, outwards: Cube) -> bool:
        """Whether a piece ends on this side of a face, or the face does."""
        other = self.cubes.get(_added(at, step))
        if other is None or other.group != self.cubes[at].group:
            return True
        return _added(_added(at, step), outwards) in self.cubes

    def point(self, at: Cube) -> Point:
        """Where a corner of the grid is seen."""
        layer, r, c = at
        left, top = self.corner
        behind = (self.rows - r) * _DEPTH
        return left + c * _SIDE + behind, top + (layer - self.top) * _SIDE + r * _DEPTH

    def labels(self) -> Iterator[str]:
        """The label of each piece of the layer, on its cell that is nearest to its middle."""
        groups: dict[object, list[Cube]] = {}
        for at, cell in self.cubes.items():
            if cell.label:
                groups.setdefault((cell.group, cell.label), []).append(at)
        for held in groups.values():
            at = _middle(held)
            (x, y), (to_x, to_y) = self.point(at), self.point(_added(at, (0, 1, 1)))
            label = escaped(self.cubes[at].label)
            yield f'<text x="{(x + to_x) / 2:g}" y="{(y + to_y) / 2 + 4.3:g}">{label}</text>'


def _added(at: Cube, step: Cube) -> Cube:
    return at[0] + step[0], at[1] + step[1], at[2] + step[2]


def _middle(held: list[Cube]) -> Cube:
    """The cell nearest to the middle of all."""
    means = [sum(axis) / len(held) for axis in zip(*held)]
    return min(held, key=lambda at: (sum((place - mean) ** 2 for place, mean in zip(at, means)), at))


def _darker(colour: str, light: float) -> str:
    """A colour such as #fff or #a0b1c2 with less light."""
    digits = colour[1:] if len(colour) == 7 else "".join(digit * 2 for digit in colour[1:])
    return "#" + "".join(f"{round(int(digits[at : at + 2], 16) * light):02x}" for at in (0, 2, 4))

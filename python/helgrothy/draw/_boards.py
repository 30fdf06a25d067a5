"""Pictures of boards of hexagons and of triangles."""

from __future__ import annotations

import math
from collections.abc import Callable, Iterator, Mapping
from dataclasses import dataclass

from .._text.shown import escaped, shown
from . import Cell, Picture, check_size, label_width
from ._grids import Grid, Place, points_up

Point = tuple[float, float]
# The corners of each cell, in pixels.
_Corners = dict[Place, list[Point]]

# Room for a label is this part of a cell's side.
_ROOMS = {"hex": 1.7, "triangle": 0.75}
_MARGIN = 5
# Where percents stand between cells, so many letters are a step.
_TEXT_STEPS = {"hex": 4, "triangle": 6}
# Lines of less than this share are too pale to be seen.
LEAST_LINE = 0.02
_HIGH = math.sqrt(3) / 2


@dataclass(frozen=True)
class _Shape:
    """How a cell lies: its corners where a side is 1, and how many steps from the left it stands in a text.

    The side from a corner to the next one faces the cell beside it that has the same number.
    """

    corners: list[Point]
    steps: int


def _hexagon(place: Place) -> _Shape:
    r, c = place
    x, y = 2 * _HIGH * (c + r / 2), 1.5 * r
    corners = [(0.0, -1.0), (_HIGH, -0.5), (_HIGH, 0.5), (0.0, 1.0), (-_HIGH, 0.5), (-_HIGH, -0.5)]
    return _Shape([(x + dx, y + dy) for dx, dy in corners], 2 * c + r)


def _triangle(place: Place) -> _Shape:
    r, c = place
    x, top, bottom = c / 2, r * _HIGH, (r + 1) * _HIGH
    if points_up(place):
        return _Shape([(x + 0.5, top), (x + 1, bottom), (x, bottom)], c)
    return _Shape([(x + 0.5, bottom), (x + 1, top), (x, top)], c)


_SHAPES = {"hex": _hexagon, "triangle": _triangle}


class Board(Picture):
    """Cells of a grid of hexagons or triangles by row and column, from 0 on, as `helgrothy.draw._grids` has them."""

    # Of a cell in the SVG, in pixels.
    sides = {"hex": 21.0, "triangle": 44.0}

    def __init__(self, grid: Grid, title: str, cells: dict[Place, Cell], has_grid: bool = True) -> None:
        super().__init__(title, cells, has_grid=has_grid)
        self.grid = grid
        self._shapes = {place: _SHAPES[grid.name](place) for place in cells}
        steps = [shape.steps for shape in self._shapes.values()]
        # Slanting rows are wider than they are long.
        check_size(max(r for r, _ in cells) + 1, (max(steps) - min(steps)) // 2 + 1, len(cells))

    def beside(self, place: Place) -> tuple[Place, ...]:
        """The places beside a place."""
        return self.grid.beside(place)

    def changed(self, title: str, cells: dict[Place, Cell]) -> Board:
        """The same board with another title and other cells."""
        return Board(self.grid, title, cells, self.has_grid)

    def text(self) -> str:
        """A line for each row, each cell where it lies: a dot is an empty cell."""
        labels = {place: shown(cell.label) or "." for place, cell in self.cells.items()}
        wide = self._step(max(map(len, labels.values())))
        left = min(shape.steps for shape in self._shapes.values())
        lines: dict[int, str] = {}
        for place in sorted(self.cells):
            start = (self._shapes[place].steps - left) * wide
            lines[place[0]] = lines.get(place[0], "").ljust(start) + labels[place]
        return "".join(f"{lines.get(r, '')}\n" for r in range(min(lines), max(lines) + 1))

    def _step(self, widest: int) -> int:
        """How many letters a step is, where labels have so many at most."""
        if self.grid.name == "hex":
            return (widest + 2) // 2
        return 1 if widest == 1 else widest + 1

    def svg(self) -> str:
        """The cells, and thick lines round groups."""
        most = max((label_width(cell.label) for cell in self.cells.values() if not cell.is_quiet), default=0)
        side = max(self.sides[self.grid.name], most / _ROOMS[self.grid.name])
        corners = [corner for shape in self._shapes.values() for corner in shape.corners]
        left, top = (min(axis) * side - _MARGIN for axis in zip(*corners))
        right, bottom = (max(axis) * side + _MARGIN for axis in zip(*corners))
        at = {
            place: [(x * side - left, y * side - top) for x, y in self._shapes[place].corners]
            for place in sorted(self.cells)
        }
        width, height = math.ceil(right - left), math.ceil(bottom - top)
        lines = [
            f'<svg xmlns="http://www.w3.org/2000/svg" width="{width}" height="{height}" '
            f'viewBox="0 0 {width} {height}" font-family="sans-serif" font-size="16" text-anchor="middle">',
            f"<title>{escaped(self.title)}</title>",
            f'<rect width="{width}" height="{height}" fill="#fff"/>',
            *self._fills(at),
            *self._lines(at),
            *self._labels(at),
            *self._more(at),
            "</svg>",
        ]
        return "".join(f"{line}\n" for line in lines)

    def _fills(self, at: _Corners) -> Iterator[str]:
        """A path for each colour, whose line closes the seams between cells."""
        paths: dict[str, str] = {}
        for place, corners in at.items():
            fill = self.cells[place].fill
            paths[fill] = paths.get(fill, "") + f"M{'L'.join(map(_numbers, corners))}z"
        for fill, path in paths.items():
            if fill != "#fff":
                yield f'<path d="{path}" fill="{escaped(fill)}" stroke="{escaped(fill)}"/>'

    def _lines(self, at: _Corners) -> Iterator[str]:
        """Thin lines within groups, and thick ones between them."""
        thin, thick = "", ""
        for place, corners in at.items():
            for number, beside in enumerate(self.beside(place)):
                if beside in self.cells and beside < place:
                    continue
                line = _line(*_side(corners, number))
                if self.is_parted(place, beside):
                    thick += line
                elif self.has_grid:
                    thin += line
        if thin:
            yield f'<path d="{thin}" stroke="#aaa" fill="none"/>'
        yield f'<path d="{thick}" stroke="#222" stroke-width="2.5" stroke-linecap="round" fill="none"/>'

    def _labels(self, at: _Corners) -> Iterator[str]:
        for place, corners in at.items():
            cell = self.cells[place]
            # Where there are several labels, the likeliest one is shown.
            if cell.label and (cell.marks or not cell.is_quiet):
                x, y = (sum(axis) / len(axis) for axis in zip(*corners))
                size = ' font-size="10"' if cell.marks else ""
                yield f'<text x="{x:.4g}" y="{y + 5.5:.4g}"{size}>{escaped(cell.label)}</text>'

    def _more(self, at: _Corners) -> Iterator[str]:
        """What lies above all."""
        yield from ()


class BoardJoins(Board):
    """Cells, and between each two side by side the share of solutions in which they are in one piece; `percent` writes
    it."""

    sides = {"hex": 34.0, "triangle": 44.0}

    def __init__(
        self, blank: Board, title: str, shares: Mapping[tuple[Place, Place], float], percent: Callable[[float], str]
    ) -> None:
        super().__init__(blank.grid, title, dict(blank.cells))
        self._shares = shares
        self._percent = percent

    def text(self) -> str:
        """An o for each cell, and percents between them."""
        wide = _TEXT_STEPS[self.grid.name]
        middles = {(2 * place[0], self._shapes[place].steps * wide): "o" for place in self.cells}
        for (a, b), share in self._shares.items():
            middle = (self._shapes[a].steps + self._shapes[b].steps) * wide // 2
            middles[a[0] + b[0], middle] = self._percent(share)
        left = min(x - len(word) // 2 for (_, x), word in middles.items())
        lines: dict[int, str] = {}
        for (line, x), word in sorted(middles.items()):
            lines[line] = lines.get(line, "").ljust(x - len(word) // 2 - left) + word
        return "".join(f"{lines.get(line, '')}\n" for line in range(min(lines), max(lines) + 1))

    def _more(self, at: _Corners) -> Iterator[str]:
        """Lines as dark as it is rare that the cells are in one piece."""
        for (place, beside), share in self._shares.items():
            begin, end = _side(at[place], self.beside(place).index(beside))
            if 1 - share >= LEAST_LINE:
                opacity = f'stroke-width="2.5" stroke-opacity="{1 - share:.2f}"'
                yield f'<path d="{_line(begin, end)}" stroke="#222" {opacity}/>'
            x, y = (begin[0] + end[0]) / 2, (begin[1] + end[1]) / 2
            look = 'font-size="10" stroke="#fff" stroke-width="3" paint-order="stroke"'
            yield f'<text x="{x:.4g}" y="{y + 3.5:.4g}" {look}>{escaped(self._percent(share))}</text>'


def _side(corners: list[Point], number: int) -> tuple[Point, Point]:
    return corners[number], corners[(number + 1) % len(corners)]


def _line(begin: Point, end: Point) -> str:
    return f"M{_numbers(begin)}L{_numbers(end)}"


def _numbers(point: Point) -> str:
    return f"{point[0]:.1f} {point[1]:.1f}".replace(".0", "")

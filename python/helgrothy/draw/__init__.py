"""Pictures of solutions, as text and as SVG.

A `Picture` is a grid of cells, with headers or without. A drawing makes one from the lines of a solution's options.
`drawing_of` has the drawings of the problems that `helgrothy.make` makes, `Pattern` makes others.
"""

from __future__ import annotations

import colorsys
import itertools
import math
import re
from collections.abc import Callable, Hashable, Iterator, Sequence
from dataclasses import dataclass, field
from typing import TYPE_CHECKING, Any, Protocol

from .._text.shown import escaped, shown
from ..errors import NoPicture
from . import _grids as grids

if TYPE_CHECKING:
    from ..problem import Problem

__all__ = ["Cell", "Drawing", "Look", "Pattern", "Picture", "drawing_of"]

Place = tuple[int, int]

# Of a cell in the SVG, in pixels.
SIDE = 36
_FONT = 16
# How far the line of a cage lies within its cells.
_INSET = 3
# What is as dark as its share is no paler than this.
_PALEST = 0.15
# A queen in a square of side 36.
_QUEEN = "M8 12l5 9 5-12 5 12 5-9-3 15H11zM11 29h14v2H11z"
# A picture has so many places at most, or so many for each cell that isn't a hole: it doesn't grow with the numbers
# that are in names.
_MOST_PLACES, _MOST_BY_CELL = 10_000, 16
# What stands in a cell without a label.
_STAR = "*"
# A pattern that is found nowhere.
_NOTHING = r"(?!)"
_LONGEST_SAMPLE = 60
_DECIMAL = re.compile(r"-?[0-9]+\Z")


@dataclass
class Cell:
    """A cell of a picture. No thick line parts cells of one group; a quiet label is only in the text.

    corner: a small label in the SVG alone. marks: there small labels instead of the label, each with the share, from 0
    to 1, that it is as dark as. sums: instead of a label, those of the cells below and to the right. cage:
    cells of one cage are in one dashed line, in the SVG alone.
    """

    label: str = ""
    group: Hashable = None
    fill: str = "#fff"
    is_strong: bool = False
    is_queen: bool = False
    is_quiet: bool = False
    corner: str = ""
    marks: tuple[tuple[str, float], ...] = ()
    sums: tuple[str, str] | None = None
    cage: Hashable = None


@dataclass(repr=False)
class Picture:
    """Cells by row and column, both from 0 on; a place without one is a hole.

    has_grid: thin lines between the cells of a group. has_boxes: the text shows the groups, too, by lines.
    """

    title: str
    cells: dict[Place, Cell]
    rows: Sequence[str] = ()
    columns: Sequence[str] = ()
    has_grid: bool = True
    has_boxes: bool = False
    _size: Place = field(init=False)

    def __post_init__(self) -> None:
        if not self.cells:
            raise NoPicture("there is no cell to draw")
        self._size = max(r for r, _ in self.cells) + 1, max(c for _, c in self.cells) + 1
        check_size(*self._size, len(self.cells))
        if any(r < 0 or c < 0 for r, c in self.cells):
            raise NoPicture("a cell has a row or a column below 0")

    def text(self) -> str:
        """The picture as lines of text: a dot is an empty cell, a blank a hole."""
        return _Text(self, *self._size).text()

    def svg(self) -> str:
        """The picture as SVG that stands alone."""
        return _Svg(self, *self._size).text()

    def __str__(self) -> str:
        return self.text()

    def __repr__(self) -> str:
        return self.text().rstrip("\n")

    def _repr_svg_(self) -> str:
        return self.svg()

    @property
    def extent(self) -> Place:
        """How many rows and columns it has."""
        return self._size

    def beside(self, place: Place) -> tuple[Place, ...]:
        """The places beside a place."""
        return grids.SQUARE.beside(place)

    def changed(self, title: str, cells: dict[Place, Cell]) -> Picture:
        """The same picture with another title and other cells."""
        return Picture(title, cells, self.rows, self.columns, self.has_grid, self.has_boxes)

    def is_parted(self, a: Place, b: Place) -> bool:
        """Whether a thick line stands between two places."""
        one, other = self.cells.get(a), self.cells.get(b)
        if one is None or other is None:
            return one is not other
        return one.group != other.group


def check_size(rows: int, columns: int, cells: int) -> None:
    """Raises `NoPicture` for more rows and columns than a problem of so many cells has reason for."""
    if rows * columns > max(_MOST_PLACES, _MOST_BY_CELL * cells):
        raise NoPicture(f"{rows} rows and {columns} columns are too many for a picture of {cells} cells")


Drawing = Callable[[Sequence[str]], Picture]


class Look(Protocol):
    """How the solutions of problems are drawn: a `Pattern`, a `Table`, or what else gives a drawing."""

    def of(self, problem: Problem[Any]) -> Drawing:
        """The drawing for a problem, from the lines of a solution's options."""


def shade(number: int) -> str:
    """A light colour; neighbours in the count are far from each other."""
    red, green, blue = colorsys.hls_to_rgb(number * 0.618034 % 1, (0.80, 0.86, 0.74)[number % 3], 0.62)
    return "#" + "".join(f"{round(part * 255):02x}" for part in (red, green, blue))


class Shades(dict[Hashable, str]):
    """A light colour for each value, in the order in which they are first asked for."""

    def __missing__(self, value: Hashable) -> str:
        return self.setdefault(value, shade(len(self)))


class _Text:
    def __init__(self, picture: Picture, rows: int, columns: int) -> None:
        self.picture = picture
        self.rows = rows
        self.columns = columns
        labels = [[self.label((r, c)) for c in range(columns)] for r in range(rows)]
        heads = [list(map(shown, picture.columns))] if picture.columns else []
        widest = [max(len(line[c]) for line in heads + labels) for c in range(columns)]
        self.widths = widest if picture.columns else [max(widest)] * columns
        self.labels = labels
        self.heads = list(map(shown, picture.rows))
        self.head = max(map(len, self.heads), default=0)

    def label(self, at: Place) -> str:
        cell = self.picture.cells.get(at)
        if cell is None:
            return " "
        if cell.sums is not None:
            return "\\".join(cell.sums)
        return shown(cell.label) or ("Q" if cell.is_queen else ".")

    def text(self) -> str:
        if self.picture.has_boxes and not self.is_straight():
            return self.walled()
        lines = []
        if self.picture.columns:
            lines.append(self.line("", list(map(shown, self.picture.columns))))
        for r, labels in enumerate(self.labels):
            if self.picture.has_boxes and r and self.is_cut((r - 1, 0), (r, 0), (0, 1), self.columns):
                lines.append(self.rule())
            lines.append(self.line(self.heads[r] if self.heads else "", labels))
        return "".join(f"{line.rstrip()}\n" for line in lines)

    def line(self, head: str, labels: list[str]) -> str:
        parts = [head.ljust(self.head)] if self.head else []
        for c, label in enumerate(labels):
            if self.is_bar(c):
                parts.append("|")
            parts.append(label.ljust(self.widths[c]))
        return " ".join(parts)

    def rule(self) -> str:
        """A line of the length of the others, with a cross at each bar."""
        marks = "".join(
            ("+-" if self.is_bar(c) else "") + "-" * (self.widths[c] + 1) for c in range(self.columns)
        )
        return marks[:-1]

    def is_straight(self) -> bool:
        """Whether all lines between groups run through the whole picture."""
        rows = (self.parted((r - 1, 0), (r, 0), (0, 1), self.columns) for r in range(1, self.rows))
        columns = (self.parted((0, c - 1), (0, c), (1, 0), self.rows) for c in range(1, self.columns))
        return all(len(set(marks)) == 1 for marks in itertools.chain(rows, columns))

    def walled(self) -> str:
        """The picture with a line round each group."""
        lines = []
        for r in range(self.rows + 1):
            lines.append("".join(self.corner(r, c) + self.wall(r, c) for c in range(self.columns + 1)))
            if r < self.rows:
                lines.append("".join(self.fence(r, c) + self.inside(r, c) for c in range(self.columns + 1)))
        return "".join(f"{line.rstrip()}\n" for line in lines)

    def wall(self, r: int, c: int) -> str:
        """What is between the cells above and below."""
        if c == self.columns:
            return ""
        return ("-" if self.picture.is_parted((r - 1, c), (r, c)) else " ") * (self.widths[c] + 2)

    def fence(self, r: int, c: int) -> str:
        """What is between the cells at the left and the right."""
        return "|" if self.picture.is_parted((r, c - 1), (r, c)) else " "

    def inside(self, r: int, c: int) -> str:
        return "" if c == self.columns else f" {self.labels[r][c].ljust(self.widths[c])} "

    def corner(self, r: int, c: int) -> str:
        """What is where four cells meet."""
        up, down = self.fence(r - 1, c) == "|", self.fence(r, c) == "|"
        left, right = self.picture.is_parted((r - 1, c - 1), (r, c - 1)), self.picture.is_parted((r - 1, c), (r, c))
        if (up or down) and (left or right):
            return "+"
        return "|" if up or down else "-" if left or right else " "

    def is_bar(self, c: int) -> bool:
        return self.picture.has_boxes and c > 0 and self.is_cut((0, c - 1), (0, c), (1, 0), self.rows)

    def is_cut(self, a: Place, b: Place, step: Place, count: int) -> bool:
        """Whether a line runs through the whole picture between two of its rows or columns."""
        return all(self.parted(a, b, step, count))

    def parted(self, a: Place, b: Place, step: Place, count: int) -> Iterator[bool]:
        """Whether each place of a row or column is parted from that beside it."""
        (ar, ac), (br, bc), (dr, dc) = a, b, step
        return (
            self.picture.is_parted((ar + k * dr, ac + k * dc), (br + k * dr, bc + k * dc)) for k in range(count)
        )


class _Svg:
    def __init__(self, picture: Picture, rows: int, columns: int) -> None:
        self.picture = picture
        self.rows = rows
        self.columns = columns
        labels = [cell.label for cell in picture.cells.values() if not cell.is_quiet]
        marks = [label for cell in picture.cells.values() for label, _ in cell.marks]
        self.wide = max([SIDE, *map(label_width, [*labels, *marks, *picture.columns])])
        self.left = max((label_width(name) for name in picture.rows), default=4)
        self.top = SIDE if picture.columns else 4
        # Labels make room for those in the corners.
        self.down = 4 if any(cell.corner for cell in picture.cells.values()) else 0

    def text(self) -> str:
        width, height = self.left + self.columns * self.wide + 4, self.top + self.rows * SIDE + 4
        lines = [
            f'<svg xmlns="http://www.w3.org/2000/svg" width="{width}" height="{height}" '
            f'viewBox="0 0 {width} {height}" font-family="sans-serif" font-size="{_FONT}" text-anchor="middle">',
            f"<title>{escaped(self.picture.title)}</title>",
            f'<rect width="{width}" height="{height}" fill="#fff"/>',
            *self.fills(),
            *self.lines(),
            *self.cages(),
            *self.labels(),
            *self.heads(),
            "</svg>",
        ]
        return "".join(f"{line}\n" for line in lines)

    def at(self, r: int, c: int) -> tuple[int, int]:
        return self.left + c * self.wide, self.top + r * SIDE

    def fills(self) -> Iterator[str]:
        """A rectangle for each run of cells of one colour in a row."""
        for r in range(self.rows):
            c = 0
            while c < self.columns:
                fill, start = self.fill((r, c)), c
                while c < self.columns and self.fill((r, c)) == fill:
                    c += 1
                if fill not in ("", "#fff"):
                    x, y = self.at(r, start)
                    size = f'width="{(c - start) * self.wide}" height="{SIDE}"'
                    yield f'<rect x="{x}" y="{y}" {size} fill="{escaped(fill)}"/>'

    def fill(self, at: Place) -> str:
        cell = self.picture.cells.get(at)
        return "" if cell is None else cell.fill

    def lines(self) -> Iterator[str]:
        if self.picture.has_grid:
            thin = self.path(lambda a, b: a in self.picture.cells and b in self.picture.cells)
            yield f'<path d="{thin}" stroke="#aaa" fill="none"/>'
        thick = self.path(self.picture.is_parted)
        yield f'<path d="{thick}" stroke="#222" stroke-width="2.5" stroke-linecap="square" fill="none"/>'

    def path(self, is_line: Callable[[Place, Place], bool]) -> str:
        """The sides between places for which this holds, each as long as it goes on."""
        steps = []
        for r in range(self.rows + 1):
            for c, length in _runs([is_line((r - 1, c), (r, c)) for c in range(self.columns)]):
                x, y = self.at(r, c)
                steps.append(f"M{x} {y}h{length * self.wide}")
        for c in range(self.columns + 1):
            for r, length in _runs([is_line((r, c - 1), (r, c)) for r in range(self.rows)]):
                x, y = self.at(r, c)
                steps.append(f"M{x} {y}v{length * SIDE}")
        return "".join(steps)

    def cages(self) -> Iterator[str]:
        """A dashed line within each cage, along its sides."""
        steps = []
        for (r, c), cell in sorted(self.picture.cells.items()):
            if cell.cage is not None:
                x, y = self.at(r, c)
                # Each side with the way along it.
                for (down, right), (x, y), way, length in (
                    ((-1, 0), (x, y + _INSET), (0, 1), self.wide),
                    ((1, 0), (x, y + SIDE - _INSET), (0, 1), self.wide),
                    ((0, -1), (x + _INSET, y), (1, 0), SIDE),
                    ((0, 1), (x + self.wide - _INSET, y), (1, 0), SIDE),
                ):
                    if not self.is_caged((r + down, c + right), cell.cage):
                        begin = self.corner((r, c), (down, right), (-way[0], -way[1]))
                        end = self.corner((r, c), (down, right), way)
                        x, y = x - begin * way[1], y - begin * way[0]
                        steps.append(f"M{x} {y}{'h' if way[1] else 'v'}{length + begin + end}")
        if steps:
            yield f'<path d="{"".join(steps)}" stroke="#666" stroke-dasharray="3 2" fill="none"/>'

    def is_caged(self, at: Place, cage: Hashable) -> bool:
        cell = self.picture.cells.get(at)
        return cell is not None and cell.cage == cage

    def corner(self, at: Place, side: Place, way: Place) -> int:
        """How far the line along a side goes beyond its cell: less at a corner of the cage, more where it turns in."""
        (r, c), (down, right), (on, by) = at, side, way
        cage = self.picture.cells[at].cage
        if not self.is_caged((r + on, c + by), cage):
            return -_INSET
        return _INSET if self.is_caged((r + on + down, c + by + right), cage) else 0

    def labels(self) -> Iterator[str]:
        for (r, c), cell in sorted(self.picture.cells.items()):
            x, y = self.at(r, c)
            if cell.corner:
                yield self.small(x + 5, y + 13, cell.corner, "start")
            if cell.sums is not None:
                yield f'<path d="M{x} {y}l{self.wide} {SIDE}" stroke="#222"/>'
                yield self.small(x + 4, y + SIDE - 5, cell.sums[0], "start")
                yield self.small(x + self.wide - 4, y + 14, cell.sums[1], "end")
            elif cell.is_queen:
                yield f'<path d="{_QUEEN}" transform="translate({x + (self.wide - SIDE) // 2} {y})" fill="#222"/>'
            elif cell.marks:
                yield from self.marks(x, y, cell.marks)
            elif cell.label and not cell.is_quiet:
                weight = ' font-weight="bold"' if cell.is_strong else ""
                yield self.word(x + self.wide / 2, y + self.down, cell.label, weight)

    def marks(self, x: int, y: int, marks: Sequence[tuple[str, float]]) -> Iterator[str]:
        """Small labels in a square, or in a column where one is long."""
        is_narrow = all(len(label) <= 2 for label, _ in marks)
        columns = math.ceil(math.sqrt(len(marks))) if is_narrow else 1
        rows = math.ceil(len(marks) / columns)
        high, wide = SIDE / rows, self.wide / columns
        size = min(_FONT, 0.85 * high)
        for number, (label, share) in enumerate(marks):
            down, right = divmod(number, columns)
            at = x + (right + 0.5) * wide, y + (down + 0.5) * high + 0.35 * size
            look = f'font-size="{size:.3g}" fill-opacity="{max(share, _PALEST):.2g}"'
            yield f'<text x="{at[0]:g}" y="{at[1]:g}" {look}>{escaped(label)}</text>'

    def heads(self) -> Iterator[str]:
        for c, name in enumerate(self.picture.columns):
            yield self.word(self.left + (c + 0.5) * self.wide, 2, name, ' fill="#555"')
        for r, name in enumerate(self.picture.rows):
            yield self.word(self.left - 10, self.top + r * SIDE, name, ' fill="#555" text-anchor="end"')

    def small(self, x: float, y: float, text: str, anchor: str) -> str:
        return f'<text x="{x:g}" y="{y:g}" font-size="11" text-anchor="{anchor}">{escaped(text)}</text>'

    def word(self, x: float, y: float, text: str, more: str) -> str:
        return f'<text x="{x:g}" y="{y + SIDE / 2 + 5.5:g}"{more}>{escaped(text)}</text>'


def label_width(label: str) -> int:
    """Room for a label, by the mean width of a letter."""
    return round(len(shown(label)) * _FONT * 0.62) + 18


def _runs(marks: list[bool]) -> Iterator[tuple[int, int]]:
    """Where each run of true marks begins, and how long it is."""
    start = 0
    while start < len(marks):
        end = start
        while end < len(marks) and marks[end]:
            end += 1
        if end > start:
            yield start, end - start
        start = max(end, start + 1)


@dataclass
class Pattern:
    """A drawing by two patterns (regular expressions) that are looked for in the lines of options.

    cell: finds the cells of an option; its groups `row` and `column`, or else its first two, are their place, each a
        number, or a single letter, which goes on after the digits (9, a, b, ..). With one group all cells are in one
        row. A third group, or else the cell's colour, is the cell's label.
    label: finds the label of an option's other cells: its first group, or else all of it. Cells without any label
        are stars in the text; where options without a label fill several cells they have letters, as a map has colours:
        those that touch have different ones.
    grid: `square`, `hex` or `triangle`. Hexagons have axial coordinates: each row begins half a hexagon farther right.
        Of triangles those point up whose row and column add up to an even number; or the group `half`, or else the
        third one, says which half of a rhombus a triangle is: 0 or u beside the halves 1 of the row and of the column
        before, 1 or d beside those after.

    A match begins and ends where words of the line do. It may go over several words. A solution that gives a cell two
    labels has no picture.
    """

    cell: str
    label: str = _NOTHING
    grid: str = "square"

    def of(self, problem: Problem[Any]) -> Drawing:
        """The drawing for a problem. Raises `NoPicture` where no option has a cell, or `re.error`."""
        if self.grid not in grids.GRIDS:
            raise NoPicture(f"{shown(self.grid)}: a grid is {', '.join(grids.GRIDS)}")
        grid = grids.GRIDS[self.grid]
        cell = compiled(self.cell, r"(?<!\S)", r"(?::(?P<colour_>\S+))?(?!\S)")
        label = compiled(self.label, r"(?<!\S)", r"(?!\S)")
        if cell.groups < 2:
            raise re.error("the pattern of a cell has no group for its row or column")
        board = {place for option in problem.options for place, _ in _cells(cell, problem.line(option), grid)}
        lines = map(problem.line, problem.options)
        if not board:
            raise no_match("cell", self.cell, "whole words", lines)
        if self.label != _NOTHING and not any(map(label.search, lines)):
            raise no_match("label", self.label, "whole words", map(problem.line, problem.options))
        return _Laid(cell, label, grid, board, problem).draw


class _Laid:
    """What a pattern finds of solutions on a board."""

    def __init__(
        self,
        cell: re.Pattern[str],
        label: re.Pattern[str],
        grid: grids.Grid,
        board: set[Place],
        problem: Problem[Any],
    ) -> None:
        self._cell = cell
        self._label = label
        self._grid = grid
        self._board = board
        self._top, self._left = grid.corner(board)
        rows, columns = max(r for r, _ in board) - self._top + 1, max(c for _, c in board) - self._left + 1
        check_size(rows, columns, len(board))
        # Where options without a name fill several cells they are pieces, to be kept apart.
        lines = map(problem.line, problem.options)
        self._has_pieces = any(len(cells) > 1 and not name for name, cells in map(self._found, lines))
        self._shades = Shades()

    def _found(self, line: str) -> tuple[str, dict[Place, str]]:
        """The label of an option, and its cells with labels of their own."""
        found = self._label.search(line)
        name = "" if found is None else found.group(1 if self._label.groups else 0)
        return name, dict(_cells(self._cell, line, self._grid))

    def draw(self, lines: Sequence[str]) -> Picture:
        found = list(map(self._found, lines))
        names, fills = self._looks(found)
        cells = {(r - self._top, c - self._left): Cell() for r, c in self._board}
        labels: dict[Place, str] = {}
        for number, (name, held) in enumerate(found):
            for (r, c), own in held.items():
                place = cells.setdefault((r - self._top, c - self._left), Cell())
                place.label, place.is_quiet = own or name or names[number], not (own or name)
                if labels.setdefault((r, c), place.label) != place.label:
                    both = f"both {shown(labels[r, c])} and {shown(place.label)} are"
                    raise NoPicture(f"{both} in row {r}, column {c}: a board has one label in a cell")
                if not own:
                    place.group, place.fill = number, fills[number]
        return board_of(self._grid, "a solution", cells, any(place.group is None for place in cells.values()))

    def _looks(self, found: Sequence[tuple[str, dict[Place, str]]]) -> tuple[list[str], list[str]]:
        """What stands in the cells of each option that have no label, and their colours."""
        parts = [list(held) for _, held in found]
        is_apart = sum(map(len, parts)) == len({place for part in parts for place in part})
        if self._has_pieces and is_apart:
            numbers = _map_colours(parts, self._grid)
            return [_letter(number) for number in numbers], [self._shades[number] for number in numbers]
        return [_STAR] * len(found), [self._shades[name or number] for number, (name, _) in enumerate(found)]


def board_of(grid: grids.Grid, title: str, cells: dict[Place, Cell], has_grid: bool) -> Picture:
    """A picture of cells of a grid."""
    if grid is grids.SQUARE:
        return Picture(title, cells, has_grid=has_grid)
    from ._boards import Board

    return Board(grid, title, cells, has_grid)


def _map_colours(parts: Sequence[Sequence[Place]], grid: grids.Grid) -> list[int]:
    """A number for each part, other ones for parts that touch by a side: the least that the parts before leave."""
    owner = {place: number for number, part in enumerate(parts) for place in part}
    numbers: dict[int, int] = {}
    for part in sorted(range(len(parts)), key=lambda number: min(parts[number], default=(0, 0))):
        beside = {owner.get(other) for place in parts[part] for other in grid.beside(place)}
        taken = {numbers[other] for other in beside if other in numbers}
        numbers[part] = next(number for number in itertools.count() if number not in taken)
    return [numbers[part] for part in range(len(parts))]


def _letter(number: int) -> str:
    return chr(ord("A") + number) if number < 26 else str(number)


def compiled(pattern: str, before: str, after: str) -> re.Pattern[str]:
    """A pattern between others. Raises `re.error`, which counts the characters of the pattern alone."""
    try:
        re.compile(pattern)
    except re.error as error:
        at = "" if error.pos is None else f" at character {error.pos + 1}"
        hint = r"; a sign that stands for itself has a backslash in front, such as \("
        raise re.error(f"{shown(pattern)}: {error.msg}{at}{hint}") from None
    return re.compile(f"{before}(?:{pattern}){after}")


def no_match(what: str, pattern: str, parts: str, lines: Iterator[str]) -> NoPicture:
    """What to say of a pattern that isn't found in any of the lines of options."""
    line = shown(next(lines, "and there are none"))
    sample = line if len(line) <= _LONGEST_SAMPLE else f"{line[:_LONGEST_SAMPLE]} .."
    tried = f"it was matched with {parts} of options, such as {sample}"
    return NoPicture(f"no {what} is found by {shown(pattern)}: {tried}")


def _cells(cell: re.Pattern[str], line: str, grid: grids.Grid) -> Iterator[tuple[Place, str]]:
    """The places that an option's line names, and the label of each that has one of its own."""
    named = cell.groupindex
    for found in cell.finditer(line):
        colour = found.group("colour_")
        half = ""
        if "row" in named and "column" in named:
            row, column = found.group("row", "column")
            own = found.group("label") if "label" in named else ""
            half = found.group("half") if "half" in named else ""
        else:
            # Groups that match nothing, as those of another branch, don't count.
            row, column, own = ([group for group in found.groups()[:-1] if group is not None] + ["", "", ""])[:3]
            if cell.groups == 2:
                row, column = "0", row
            elif grid is grids.TRIANGLE:
                half, own = own, ""
        place = _number(row), _number(column)
        yield grids.of_rhombus(*place, _half(half)) if half else place, own or colour or ""


def _half(word: str) -> int:
    try:
        return grids.half(word)
    except ValueError as error:
        raise NoPicture(f"{shown(word)}: {error}") from None


def _number(word: str | None) -> int:
    """A number, or a single letter as in numbers to base 36."""
    if word and _DECIMAL.match(word):
        return int(word)
    if word and len(word) == 1 and word.isascii() and word.isalpha():
        return int(word, 36)
    why = "neither a number nor a single letter; names are rows and columns of a table (--row, --column)"
    raise NoPicture(f"{word or 'nothing'} is no row or column: {why}")


def drawing_of(problem: Problem[Any]) -> Drawing:
    """The drawing of a problem that `helgrothy.make` made, known by its first comment. Raises `NoPicture`."""
    # The makers make problems, which are drawn here: so they can't be imported with the module.
    from .._text.sheet import as_made
    from ..make import KINDS
    from ..make._kind import kind_of

    name = kind_of(problem.comments)
    if name is None or name not in KINDS:
        raise NoPicture("no comment of the problem says that `helgrothy make` made it; patterns can draw it")
    return as_made(name, as_made(name, KINDS[name].drawing)(problem))

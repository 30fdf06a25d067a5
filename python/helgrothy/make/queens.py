"""Queens on a board, none attacking another; or one in each row, column and coloured region."""

from __future__ import annotations

import argparse
import re
from collections.abc import Iterator, Sequence
from typing import Any

from ..draw import Cell, Drawing, Picture, Shades
from ..errors import TableFault
from ..problem import Problem
from ._kind import Counted, Kind, check_items, check_numbers, check_texts, picture, read_text

__all__ = ["problem"]

_NUMBER = re.compile(r"-?[0-9]{1,18}\Z")


def problem(size: int = 0, regions: str | None = None) -> Problem[list[str]]:
    """Queens on a board of `size` rows and columns; or, from a picture of regions, the puzzle with a queen in each
    row, column and region, none next to another, not even by a corner.

    The picture has a letter for each square. An option is a queen in row rR and column cC, with her diagonals a and
    b or, in the puzzle, her region and the corners that she takes. Rows and columns come from the middle outwards,
    which makes the search short.

    Raises `TableFault`, or `ValueError` for a size below 1.
    """
    check_texts(regions=regions or "")
    check_numbers("a picture of regions is given by its name, regions=..", size=size)
    if regions is not None:
        return _in_regions(regions)
    if size < 1:
        raise ValueError("a board has at least one row")
    check_items(6 * size - 6)
    diagonals = [f"{way}{d}" for way in "ab" for d in range(2, 2 * size - 1)]
    known = set(diagonals)
    options: Counted[list[str]] = Counted()
    for r in range(1, size + 1):
        for c in range(1, size + 1):
            crossed = [name for name in (f"a{r + c - 1}", f"b{size - r + c}") if name in known]
            options.add([f"r{r}", f"c{c}", *crossed])
    return Problem(
        _lines(size),
        diagonals,
        options,
        comments=[
            f"helgrothy make queens {size}",
            "A queen in each row r and column c, at most one on each diagonal a and b.",
        ],
    )


def _lines(size: int) -> list[str]:
    """Rows and columns from the middle outwards."""
    order = sorted(range(1, size + 1), key=lambda i: (abs(2 * i - size - 1), i))
    return [f"{line}{i}" for i in order for line in "rc"]


def _in_regions(text: str) -> Problem[list[str]]:
    lines = picture(text)
    rows = ["".join(line.split()) for _, line in lines]
    size = len(rows)
    for (number, _), row in zip(lines, rows):
        if len(row) != size:
            raise TableFault(number, row, f"{len(row)} squares, where the picture has {size} rows")
    regions = sorted(set("".join(rows)))
    if len(regions) != size:
        raise TableFault(lines[0][0], "", f"{len(regions)} regions in {size} rows; there have to be as many")
    corners = [f"k{r}-{c}" for r in range(1, size) for c in range(1, size)]
    known = set(corners)
    options = [
        [f"r{r}", f"c{c}", f"in-{rows[r - 1][c - 1]}", *(corner for corner in _corners(r, c) if corner in known)]
        for r in range(1, size + 1)
        for c in range(1, size + 1)
    ]
    return Problem(
        [*_lines(size), *(f"in-{region}" for region in regions)],
        corners,
        options,
        comments=[
            "helgrothy make queens REGIONS",
            "A queen in each row r, column c and region in-X, at most one on each corner k of squares. The regions:",
            *rows,
        ],
    )


def _corners(r: int, c: int) -> Iterator[str]:
    """The corners of a square: two queens that touch have one in common."""
    for down in (r - 1, r):
        for right in (c - 1, c):
            yield f"k{down}-{right}"


def drawing(problem: Problem[Any]) -> Drawing:
    """A chequered board, or the regions in their colours."""
    regions: dict[tuple[int, int], str | None] = {}
    for option in problem.options:
        place, region = _cut(problem.line(option))
        regions[place] = region
    shades = Shades()

    def square(place: tuple[int, int]) -> Cell:
        region = regions[place]
        if region is not None:
            return Cell(group=region, fill=shades[region])
        return Cell(fill="#fff" if sum(place) % 2 == 0 else "#d8d2c4")

    def draw(lines: Sequence[str]) -> Picture:
        cells = {place: square(place) for place in sorted(regions)}
        for line in lines:
            cells[_cut(line)[0]].is_queen = True
        return Picture("queens on a board", cells, has_grid=None not in regions.values())

    return draw


def _cut(line: str) -> tuple[tuple[int, int], str | None]:
    """An option's square, and its region if there are any."""
    words = line.split()
    region = next((word[3:] for word in words if word.startswith("in-")), None)
    return (int(words[0][1:]) - 1, int(words[1][1:]) - 1), region


def _add_arguments(parser: argparse.ArgumentParser) -> None:
    parser.add_argument(
        "board",
        metavar="N|REGIONS",
        help="the number of rows; or a file with a picture of coloured regions, a letter for each square (- for "
        "standard input): then one queen in each row, column and region, and none next to another",
    )


def _make(arguments: argparse.Namespace) -> Problem[list[str]]:
    if _NUMBER.match(arguments.board):
        return problem(int(arguments.board))
    return problem(regions=read_text(arguments.board, "a number"))


KIND = Kind(
    "queens",
    "queens on a board, or in coloured regions",
    _add_arguments,
    _make,
    drawing,
    cell=r"r(\d+) c(\d+)",
)


def __dir__() -> list[str]:
    return __all__

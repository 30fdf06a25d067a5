"""Pieces of squares that fill a region, each in any of its turns and mirror images."""

from __future__ import annotations

import argparse
import re
from collections.abc import Iterator, Sequence
from typing import Any

from ..draw import Drawing
from ..draw._grids import SQUARE
from ..errors import TableFault
from ..problem import Problem
from ._kind import Counted, Kind, check_items, check_sizes, check_texts, is_one, picture, read_text
from ._pieces import CELL, Form, Pieces, Place, alike, area, blocks
from ._pieces import drawing as pieces_drawing

__all__ = ["problem"]

Square = tuple[int, int]

# Sets of pieces that have a name.
SETS = {
    "tetrominoes": "IIII\n\nLLL\nL\n\nOO\nOO\n\nTTT\n.T\n\nSS\n.SS\n",
    "pentominoes": (
        ".FF\nFF\n.F\n\nIIIII\n\nLLLL\nL\n\nNNN\n..NN\n\nPPP\nPP\n\nTTT\n.T\n.T\n\nUUU\nU.U\n\nVVV\nV\nV\n\n"
        "WW\n.WW\n..W\n\n.X\nXXX\n.X\n\nYYYY\n.Y\n\nZZ\n.Z\n.ZZ\n"
    ),
}
_BOX = re.compile(r"([0-9]{1,9})x([0-9]{1,9})\Z")


def problem(
    pieces: str = "pentominoes",
    region: str = "6x10",
    *,
    turns: bool = True,
    mirrors: bool = True,
    some: bool = False,
) -> Problem[list[str]]:
    """A region to be filled by pieces, each used as often as it is given.

    pieces: `pentominoes`, `tetrominoes`, or pictures parted by blank lines. A piece's squares are a letter, which is
        its name; dots and blanks are no part of it. A piece given k times is used k times.
    region: `6x10`, or a picture, in which # and blanks are holes and anything else is a cell.
    turns, mirrors: whether pieces may be turned and mirrored. some: whether pieces may be left over.

    An option is a piece with the cells rRcC that it fills. Raises `TableFault`.
    """
    check_texts(pieces=pieces, region=region)
    cells = _region(region)
    given = Pieces(_pieces(SETS.get(pieces, pieces)))
    check_items(len(given.forms) + len(cells))
    options: Counted[list[str]] = Counted()
    for name, held in given.laid(cells, lambda form: _turned(form, turns, mirrors)):
        options.add([name, *(f"r{r}c{c}" for r, c in held)])
    used, spare = given.bounds(some)
    return Problem(
        {**used, **{f"r{r}c{c}": (1, 1) for r, c in cells}},
        spare,
        options,
        comments=[
            f"helgrothy make polyominoes {pieces if pieces in SETS else 'PIECES'} REGION",
            "Each piece is laid as often as its bound says, each cell rRcC is filled once. The region:",
            *_rows(cells),
        ],
    )


def _region(region: str) -> list[Square]:
    box = _BOX.match(region)
    if box is not None:
        high, wide = int(box.group(1)), int(box.group(2))
        if not high or not wide:
            raise TableFault(1, region, "an empty region")
        check_items(high * wide)
        return [(r, c) for r in range(1, high + 1) for c in range(1, wide + 1)]
    check_sizes(region, "ROWSxCOLUMNS")
    lines = enumerate((line for _, line in picture(region)), 1)
    cells = [(r, c) for r, line in lines for c, mark in enumerate(line, 1) if mark not in "# "]
    if not cells:
        raise TableFault(1, "", "the region has no cell")
    return cells


def _rows(cells: Sequence[Square]) -> Iterator[str]:
    held = set(cells)
    for r in range(1, max(r for r, _ in cells) + 1):
        yield "".join("." if (r, c) in held else "#" for c in range(1, max(c for _, c in cells) + 1))


def _pieces(text: str) -> Iterator[tuple[int, str, Form]]:
    """Each piece's first line, letter and squares."""
    for block in blocks(text):
        squares = [(r, c) for r, (_, row) in enumerate(block) for c, mark in enumerate(row) if mark not in ". "]
        letters = sorted({block[r][1][c] for r, c in squares})
        if len(letters) != 1:
            raise TableFault(block[0][0], " ".join(letters), "a piece is drawn by one letter")
        if not is_one(squares):
            raise TableFault(block[0][0], letters[0], "a piece whose squares don't hang together")
        yield block[0][0], letters[0], _moved(squares)


def _moved(squares: Sequence[Place]) -> Form:
    """The squares moved to the upper left corner."""
    top, left = min(r for r, _ in squares), min(c for _, c in squares)
    return frozenset((r - top, c - left) for r, c in squares)


def _turned(form: Form, turns: bool, mirrors: bool) -> list[Form]:
    """The turns and mirror images of a piece, each once."""
    found: set[Form] = set()
    for image in [form, _moved([(r, -c) for r, c in form])] if mirrors else [form]:
        for _ in range(4 if turns else 1):
            found.add(image)
            image = _moved([(c, -r) for r, c in image])
    return sorted(found, key=sorted)


def drawing(problem: Problem[Any]) -> Drawing:
    """Pieces in their colours, each with its letter."""
    return pieces_drawing(problem, SQUARE, "a tiling by polyominoes")


def _remarks(problem: Problem[Any]) -> list[str]:
    return [*area(problem, "squares"), *alike(problem, CELL)]


def _add_arguments(parser: argparse.ArgumentParser) -> None:
    parser.add_argument(
        "pieces",
        metavar="PIECES",
        help=f"{' or '.join(sorted(SETS))}, or a file of pictures parted by blank lines, each drawn by its letter",
    )
    parser.add_argument(
        "region", metavar="REGION", help="ROWSxCOLUMNS, or a file with a picture in which # and blanks are holes"
    )
    parser.add_argument("--no-turns", action="store_true", help="pieces may not be turned")
    parser.add_argument("--no-mirrors", action="store_true", help="pieces may not be mirrored")
    parser.add_argument("--some", action="store_true", help="pieces may be left over")


def _make(arguments: argparse.Namespace) -> Problem[list[str]]:
    pieces, region = arguments.pieces, arguments.region
    if pieces not in SETS:
        pieces = read_text(pieces, "a set of pieces", SETS)
    if not _BOX.match(region):
        region = read_text(region, "ROWSxCOLUMNS")
    return problem(
        pieces, region, turns=not arguments.no_turns, mirrors=not arguments.no_mirrors, some=arguments.some
    )


KIND = Kind(
    "polyominoes",
    "pieces of squares that fill a region",
    _add_arguments,
    _make,
    drawing,
    cell=r"r(\d+)c(\d+)",
    remarks=_remarks,
)


def __dir__() -> list[str]:
    return __all__

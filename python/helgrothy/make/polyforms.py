"""Pieces of hexagons or of triangles that fill a region: polyhexes and polyiamonds.

A picture of hexagons has a blank between two cells of a row, and each row lies half a hexagon, which is one place, to
the left or to the right of the next one. In a picture of triangles they stand side by side, and every other one points
down. The first place of a piece's first line points up, unless the piece hangs together only the other way. A region is
taken the way in which more triangles touch, unless its cells ^ and v say which ones point up and down.
"""

from __future__ import annotations

import argparse
import re
from collections.abc import Iterable, Iterator
from contextlib import suppress
from typing import Any

from ..draw import Cell, Drawing, board_of
from ..draw._grids import GRIDS, HEX, TRIANGLE, Grid, of_rhombus, points_up
from ..draw._grids import Place as Spot
from ..errors import NoPicture, TableFault
from ..problem import Problem
from ._kind import Counted, Kind, check_items, check_sizes, check_texts, picture, read_text
from ._pieces import CELL, Form, Lines, Pieces, alike, area, blocks
from ._pieces import drawing as pieces_drawing

__all__ = ["problem"]

# Sets of pieces that have a name: their grid, and of how many cells they are.
SETS = {
    "trihexes": (HEX, 3),
    "tetrahexes": (HEX, 4),
    "pentahexes": (HEX, 5),
    "tetriamonds": (TRIANGLE, 4),
    "pentiamonds": (TRIANGLE, 5),
    "hexiamonds": (TRIANGLE, 6),
    "heptiamonds": (TRIANGLE, 7),
}
# Those whose letters look like the pieces.
_LETTERED = {
    "tetrahexes": (
        "I I I I\n\nJ J J\n     J\n\nO O\n O O\n\nP P P\n   P\n\nS S\n   S S\n\nU   U\n U U\n\n Y\n  Y Y\n Y\n"
    ),
    "hexiamonds": (
        "..CCCC\n.CC\n\nE\nEEE\n.EE\n\nF\nFFFF\n.F\n\nGGGG\nGG\n\nHH\nHHH\n.H\n\nIIIIII\n\n.JJ\n..JJJ\n...J\n\n"
        "OOO\nOOO\n\nPPPPP\nP\n\n....S\n.SSSS\n.S\n\nV.V\nVVV\n.V\n\n.XXX\n.XXX\n"
    ),
}
_LETTERS = "ABCDEFGHIJKLMNOPQRSTUVWXYZ"
_BOX = re.compile(r"([0-9]{1,9})x([0-9]{1,9})\Z")
_GRID = re.compile(r".* --grid (hex|triangle)\Z")


def problem(
    pieces: str = "hexiamonds",
    region: str = "6x6",
    *,
    grid: str | None = None,
    one_sided: bool = False,
    copies: str = "",
    turns: bool = True,
    mirrors: bool = True,
    some: bool = False,
) -> Problem[list[str]]:
    """A region to be filled by pieces, each used as often as it is given.

    pieces: `tetrahexes`, `hexiamonds` or another set of `SETS`, each piece once; or pictures parted by blank lines. A
        piece's cells are a letter, which is its name; dots and blanks are no part of it. A piece given k times is used
        k times.
    region: `4x7`, rows and columns of a parallelogram, whose triangles are two to a place; or a picture, in which # and
        blanks are holes and anything else is a cell.
    grid: `hex` or `triangle`, for pictures of pieces.
    one_sided: of a set, mirror images are pieces of their own, of which the second has a small letter.
    copies: how often pieces are there, such as `I=2,O=0`.
    turns, mirrors: whether pieces may be turned and mirrored. some: whether pieces may be left over.

    An option is a piece with the cells rRcC that it fills: by axial coordinates of hexagons, and of triangles those
    point up whose row and column add up to an even number. Raises `TableFault`.
    """
    check_texts(pieces=pieces, region=region, copies=copies)
    of = _grid(pieces, grid, one_sided)
    cells = {of.point(cell): f"r{cell[0]}c{cell[1]}" for cell in _region(region, of)}
    given = Pieces(_set(pieces, one_sided) if pieces in SETS else _pieces(pieces, of))
    if copies:
        given.set_copies(copies)
    check_items(len(given.forms) + len(cells))
    options: Counted[list[str]] = Counted()
    for name, held in given.laid(list(cells), lambda form: of.images(form, mirrors and not one_sided, turns), of.step):
        options.add([name, *(cells[point[0], point[1]] for point in held)])
    used, spare = given.bounds(some)
    return Problem(
        {**used, **dict.fromkeys(cells.values(), (1, 1))},
        spare,
        options,
        comments=[
            f"helgrothy make polyforms {pieces if pieces in SETS else 'PIECES'} REGION --grid {of.name}",
            "Each piece is laid as often as its bound says, each cell rRcC is filled once. The region:",
            *_rows(cells, of),
        ],
    )


def _grid(pieces: str, grid: str | None, one_sided: bool) -> Grid:
    """The grid of the pieces. Raises `ValueError`."""
    if grid not in (None, "hex", "triangle"):
        raise ValueError(f"{grid}: the grid is hex or triangle")
    if pieces not in SETS:
        if grid is None:
            raise ValueError("pieces of your own have a grid: --grid hex or --grid triangle")
        if one_sided:
            raise ValueError("--one-sided is of sets with a name: draw both images, and give --no-mirrors")
        return GRIDS[grid]
    of, _ = SETS[pieces]
    if grid not in (None, of.name):
        raise ValueError(f"{pieces} are pieces of the grid {of.name}")
    return of


# ---- regions and pieces


def _region(region: str, grid: Grid) -> list[Spot]:
    """The cells of a region, from the first row and column on."""
    box = _BOX.match(region)
    if box is not None:
        high, wide = int(box.group(1)), int(box.group(2))
        if not high or not wide:
            raise TableFault(1, region, "an empty region")
        check_items(high * wide * (2 if grid is TRIANGLE else 1))
        places = [(r, c) for r in range(high) for c in range(wide)]
        cells = [of_rhombus(*at, half) for at in places for half in (0, 1)] if grid is TRIANGLE else places
    else:
        check_sizes(region, "ROWSxCOLUMNS")
        cells = _drawn_region(picture(region), grid)
        if not cells:
            raise TableFault(1, "", "the region has no cell")
    top, left = grid.corner(cells)
    return [(r - top + 1, c - left + 1) for r, c in cells]


def _rows(cells: Iterable[Spot], grid: Grid) -> list[str]:
    """A picture of the region, where it isn't far larger than its cells. A comment doesn't begin with a blank."""
    places = [grid.place(point) for point in cells]
    with suppress(NoPicture):
        lines = board_of(grid, "", {(r - 1, c - 1): Cell() for r, c in places}, True).text().splitlines()
        return [line if line[:1] == "." else f"#{line[1:]}" for line in lines]
    return []


def _pieces(text: str, grid: Grid) -> Iterator[tuple[int, str, Form]]:
    """Each piece's first line, letter and points."""
    for block in blocks(text):
        first = block[0][0]
        letters = sorted(set("".join(line for _, line in block)) - set(". "))
        if len(letters) != 1:
            raise TableFault(first, " ".join(letters), "a piece is drawn by one letter")
        cells = [(r, c) for r, c, _, _ in _marks(block, ". ", grid)]
        if grid is TRIANGLE and grid.parts(_aside(cells)) < grid.parts(cells):
            cells = _aside(cells)
        if grid.parts(cells) > 1:
            raise TableFault(first, letters[0], f"a piece whose {grid.cell}s don't hang together")
        yield first, letters[0], grid.form(cells)


def _drawn_region(lines: Lines, grid: Grid) -> list[Spot]:
    """The cells of a region's picture."""
    marks = list(_marks(lines, "# ", grid))
    cells = [(r, c) for r, c, _, _ in marks]
    if grid is HEX:
        return cells
    # For each mark that says whether its cell points up, whether that is so if the first place of all does.
    known = {(points_up((r, c)) == (mark == "^")): (number, mark) for r, c, number, mark in marks if mark in "^v"}
    if len(known) == 2:
        raise TableFault(*known[False], "^ points up and v down, and of these not all can be right")
    is_aside = False in known if known else _touching(_aside(cells), grid) > _touching(cells, grid)
    return _aside(cells) if is_aside else cells


def _marks(lines: Lines, holes: str, grid: Grid) -> Iterator[tuple[int, int, int, str]]:
    """The cells of a picture by row and column, each with the number of its line and its mark."""
    first = -1
    for r, (number, line) in enumerate(lines):
        for at, mark in enumerate(line):
            if mark in holes:
                continue
            if grid is TRIANGLE:
                yield r, at, number, mark
                continue
            first = r + at if first < 0 else first
            if (r + at - first) % 2:
                reason = "a hexagon that doesn't lie half of one beside those of the next row, with a blank between two"
                raise TableFault(number, mark, reason)
            yield r, (at - r) // 2, number, mark


def _aside(cells: Iterable[Spot]) -> list[Spot]:
    """The triangles a place farther, where they point the other way."""
    return [(r, c + 1) for r, c in cells]


def _touching(cells: Iterable[Spot], grid: Grid) -> int:
    """How often two of the cells have a side in common, counted for each of them."""
    held = set(cells)
    return sum(beside in held for cell in held for beside in grid.beside(cell))


def _set(name: str, one_sided: bool) -> Iterator[tuple[int, str, Form]]:
    """The pieces of a set, with their letters."""
    grid, size = SETS[name]
    if name in _LETTERED:
        forms = [(letter, form) for _, letter, form in _pieces(_LETTERED[name], grid)]
    else:
        forms = list(zip(_LETTERS, _free(grid, size)))
    for letter, form in forms:
        yield 1, letter, form
        if one_sided:
            others = [image for image in grid.images(form) if image not in grid.images(form, mirrors=False)]
            if others:
                yield 1, letter.lower(), others[0]


def _free(grid: Grid, size: int) -> list[Form]:
    """All pieces of so many cells that aren't images of each other."""
    found: dict[Form, list[Spot]] = {grid.form([(0, 0)]): [(0, 0)]}
    for _ in range(size - 1):
        larger: dict[Form, list[Spot]] = {}
        for cells in found.values():
            for beside in sorted({other for cell in cells for other in grid.beside(cell)} - set(cells)):
                larger.setdefault(grid.images(grid.form([*cells, beside]))[0], [*cells, beside])
        found = larger
    return list(found)


# ---- drawing


def _grid_of(problem: Problem[Any]) -> str:
    """The grid that a problem's comment names. Raises `NoPicture`."""
    found = _GRID.match(problem.comments[0]) if problem.comments else None
    if found is None:
        raise NoPicture("no comment of the problem says which grid it has")
    return found.group(1)


def drawing(problem: Problem[Any]) -> Drawing:
    """Pieces in their colours, each with its letter."""
    grid = GRIDS[_grid_of(problem)]
    return pieces_drawing(problem, grid, f"a tiling by {'polyhexes' if grid is HEX else 'polyiamonds'}")


# ---- the command


def _remarks(problem: Problem[Any]) -> list[str]:
    return [*area(problem, f"{GRIDS[_grid_of(problem)].cell}s"), *alike(problem, CELL)]


def _add_arguments(parser: argparse.ArgumentParser) -> None:
    *names, last = SETS
    parser.add_argument(
        "pieces",
        metavar="FORMS",
        help=f"{', '.join(names)} or {last}, each piece once; or a file of pictures parted by blank lines, each drawn "
        "by its letter, in the grid of --grid",
    )
    parser.add_argument(
        "region",
        metavar="REGION",
        help="ROWSxCOLUMNS of a parallelogram, with two triangles in a place; or a file with a picture in which # and "
        "blanks are holes",
    )
    parser.add_argument(
        "--grid", choices=["hex", "triangle"], help="what pieces of your own are drawn in"
    )
    parser.add_argument(
        "--one-sided",
        action="store_true",
        help="of a set: no piece is turned over, and a mirror image is a piece of its own, with a small letter",
    )
    parser.add_argument(
        "--copies", default="", metavar="COUNTS", help="how often pieces are there, where not once: I=2,O=0"
    )
    parser.add_argument("--no-turns", action="store_true", help="pieces may not be turned")
    parser.add_argument("--no-mirrors", action="store_true", help="pieces may not be mirrored")
    parser.add_argument("--some", action="store_true", help="pieces may be left over")


def _make(arguments: argparse.Namespace) -> Problem[list[str]]:
    pieces, region = arguments.pieces, arguments.region
    if pieces not in SETS:
        pieces = read_text(pieces, "a set of pieces", SETS)
    if not _BOX.match(region):
        region = read_text(region, "ROWSxCOLUMNS")
    return problem(
        pieces,
        region,
        grid=arguments.grid,
        one_sided=arguments.one_sided,
        copies=arguments.copies,
        turns=not arguments.no_turns,
        mirrors=not arguments.no_mirrors,
        some=arguments.some,
    )


KIND = Kind(
    "polyforms",
    "pieces of hexagons or triangles that fill a region",
    _add_arguments,
    _make,
    drawing,
    cell=r"r(\d+)c(\d+)",
    grid=_grid_of,
    remarks=_remarks,
)


def __dir__() -> list[str]:
    return __all__

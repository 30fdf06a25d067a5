"""Pieces of cubes that fill a box or another region, each in any of its turns in space."""

from __future__ import annotations

import argparse
import re
from collections.abc import Iterator, Sequence
from typing import Any

from ..draw import Cell, Drawing, Shades
from ..draw._solid import Cube, Solid, check_box
from ..draw._turns import images
from ..errors import TableFault
from ..problem import Problem
from ._cubes import SETS
from ._kind import Counted, Kind, check_items, check_sizes, check_texts, is_one, numbered, read_text
from ._pieces import Form, Lines, Pieces, alike, blocks

__all__ = ["problem"]

_BOX = re.compile(r"([0-9]{1,9})x([0-9]{1,9})x([0-9]{1,9})\Z")
_SIZES = re.compile(r"[0-9]+(x[0-9]+)*x?\Z")
_CELL = re.compile(r"l([0-9]+)r([0-9]+)c([0-9]+)\Z")


def problem(
    pieces: str = "soma", box: str = "3x3x3", *, mirrors: bool = False, some: bool = False
) -> Problem[list[str]]:
    """A box or another region to be filled by pieces of cubes, each used as often as it is given.

    pieces: `soma`, `tetracubes`, `pentacubes`, `tetrominoes`, `pentominoes`, or pictures with blank lines between.
        The layers of a piece are drawn side by side, with a blank between two; its cubes are a letter, which is its
        name, and dots are no part of it. A piece given k times is used k times.
    box: `3x3x3`, its layers, rows and columns; or a picture of the layers side by side, in which # is a hole and
        anything else is a cell.
    mirrors: whether mirror images of pieces may be used too. some: whether pieces may be left over.

    An option is a piece with the cells lLrRcC that it fills. Raises `TableFault`.
    """
    check_texts(pieces=pieces, box=box)
    cells = _region(box)
    given = Pieces(_pieces(SETS.get(pieces, pieces)))
    _check_volume(given.volume, len(cells), some)
    check_items(len(given.forms) + len(cells))
    options: Counted[list[str]] = Counted()
    for name, held in given.laid(cells, lambda form: images(form, mirrors)):
        options.add([name, *map(_name, held)])
    if not some:
        _check_each_fits(given, options)
    used, spare = given.bounds(some)
    return Problem(
        {**used, **{_name(at): (1, 1) for at in cells}},
        spare,
        options,
        comments=[
            f"helgrothy make polycubes {pieces if pieces in SETS else 'PIECES'} BOX",
            "Each piece is laid as often as its bound says, each cell lLrRcC is filled once. The layers of the box:",
            *Solid("", {(layer - 1, r - 1, c - 1): Cell() for layer, r, c in cells}).text().splitlines(),
        ],
    )


def _name(at: Sequence[int]) -> str:
    layer, r, c = at
    return f"l{layer}r{r}c{c}"


def _check_each_fits(given: Pieces, options: Sequence[Sequence[str]]) -> None:
    laid = {option[0] for option in options}
    for name, line in given.lines.items():
        if name not in laid:
            raise TableFault(line, name, "this piece fits nowhere")


def _check_volume(cubes: int, cells: int, some: bool) -> None:
    if cubes < cells or cubes > cells and not some:
        hint = "; --some lets pieces be left over" if cubes > cells else ""
        raise ValueError(f"the pieces have {cubes} cubes, and there are {cells} cells to be filled{hint}")


# ---- reading


def _region(box: str) -> list[Cube]:
    found = _BOX.match(box)
    if found is not None:
        layers, high, wide = map(int, found.groups())
        if not layers or not high or not wide:
            raise TableFault(1, box, "an empty box")
        check_items(layers * high * wide)
        return [
            (layer, r, c)
            for layer in range(1, layers + 1)
            for r in range(1, high + 1)
            for c in range(1, wide + 1)
        ]
    check_sizes(box, "LAYERSxROWSxCOLUMNS")
    if _SIZES.match(box):
        raise TableFault(1, box, "a box has three numbers: LAYERSxROWSxCOLUMNS")
    rows = [(number, line) for number, line in numbered(box) if line.strip()]
    if not rows:
        raise TableFault(1, "", "an empty picture")
    cells = [(layer, r, c) for layer, r, c, mark in _cubes(rows) if mark != "#"]
    if not cells:
        raise TableFault(rows[0][0], "", "the region has no cell")
    return sorted(cells)


def _pieces(text: str) -> Iterator[tuple[int, str, Form]]:
    """Each piece's first line, letter and cubes."""
    return map(_piece, blocks(text))


def _piece(block: Lines) -> tuple[int, str, Form]:
    first = block[0][0]
    marks = {(layer, r, c): mark for layer, r, c, mark in _cubes(block) if mark != "."}
    letters = sorted(set(marks.values()))
    if len(letters) != 1:
        raise TableFault(first, " ".join(letters), "a piece is drawn by one letter")
    if not is_one(marks):
        raise TableFault(first, letters[0], "a piece whose cubes don't hang together")
    least = [min(axis) for axis in zip(*marks)]
    return first, letters[0], frozenset(tuple(at - low for at, low in zip(cube, least)) for cube in marks)


def _cubes(block: Lines) -> Iterator[tuple[int, int, int, str]]:
    """The marks of a picture by layer, row and column, from 1 on: each word of a line is a row of a layer."""
    layers = len(block[0][1].split())
    for r, (number, line) in enumerate(block, 1):
        words = line.split()
        if len(words) != layers:
            count = f"{len(words)} layer{'' if len(words) == 1 else 's'}"
            raise TableFault(number, line.strip(), f"{count}, where line {block[0][0]} has {layers}")
        for layer, word in enumerate(words, 1):
            for c, mark in enumerate(word, 1):
                yield layer, r, c, mark


# ---- drawing


def drawing(problem: Problem[Any]) -> Drawing:
    """Pieces in their colours, each with its letter."""
    found = [match for match in map(_CELL.match, problem.item_names) if match]
    cells = [(int(at.group(1)), int(at.group(2)), int(at.group(3))) for at in found]
    least = [min(axis) for axis in zip(*cells)]
    check_box({_added(at, least): Cell() for at in cells})
    shades = Shades()
    for item in [*problem.item_names, *problem.secondary_names]:
        if not _CELL.match(item):
            shades[item]

    def draw(lines: Sequence[str]) -> Solid:
        cubes = {_added(at, least): Cell() for at in cells}
        for number, line in enumerate(lines):
            name, *words = line.split()
            for at in filter(None, map(_CELL.match, words)):
                place = (int(at.group(1)), int(at.group(2)), int(at.group(3)))
                cubes[_added(place, least)] = Cell(name, number, shades[name])
        return Solid("a box of polycubes", cubes)

    return draw


def _added(at: Cube, least: Sequence[int]) -> Cube:
    """A place, counted from the least of each axis."""
    return at[0] - least[0], at[1] - least[1], at[2] - least[2]


# ---- the command


def _add_arguments(parser: argparse.ArgumentParser) -> None:
    *names, last = sorted(SETS)
    parser.add_argument(
        "pieces",
        metavar="CUBES",
        help=f"{', '.join(names)} or {last}; or a file of pictures parted by blank lines, each drawn by its letter, "
        "with its layers side by side and dots where it has no cube",
    )
    parser.add_argument(
        "box",
        metavar="BOX",
        help="LAYERSxROWSxCOLUMNS, or a file with a picture of the layers side by side, in which # is a hole",
    )
    parser.add_argument("--mirrors", action="store_true", help="mirror images of pieces may be used too")
    parser.add_argument("--some", action="store_true", help="pieces may be left over")


def _make(arguments: argparse.Namespace) -> Problem[list[str]]:
    pieces, box = arguments.pieces, arguments.box
    if pieces not in SETS:
        pieces = read_text(pieces, "a set of pieces", SETS)
    if not _SIZES.match(box):
        box = read_text(box, "LAYERSxROWSxCOLUMNS")
    return problem(pieces, box, mirrors=arguments.mirrors, some=arguments.some)


KIND = Kind(
    "polycubes",
    "pieces of cubes that fill a box",
    _add_arguments,
    _make,
    drawing,
    cell=r"l(\d+)r(\d+)c(\d+)",
    remarks=lambda problem: alike(problem, _CELL),
    view=None,
)


def __dir__() -> list[str]:
    return __all__

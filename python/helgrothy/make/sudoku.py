"""Sudokus of 4 to 25 rows: of boxes or other regions (jigsaws), with cages that have sums (killers), with diagonals."""

from __future__ import annotations

import argparse
import math
import os
import re
from collections import Counter
from collections.abc import Iterator, Sequence
from dataclasses import dataclass
from typing import Any

from .._text.syntax import MOST_USES
from ..draw import Cell, Drawing, Picture
from ..errors import TableFault
from ..problem import Problem
from . import _areas as areas
from ._areas import Cage, Square
from ._clues import Clues, options_of
from ._kind import Counted, Kind, check_texts, cut, numbered, read_text

__all__ = ["problem"]

_DIGITS = "123456789ABCDEFGHIJKLMNOP"
_EMPTY = ".0_*"
_PLACE = re.compile(r"r(\d+)c(\d+)\Z")
_DIGIT = re.compile(r"r\d+=(.)\Z")
_CAGE = re.compile(r"(k\d+)(?:=(.))?\Z")
_CROSSED = re.compile(r"x[12]=")
_ON_DIAGONAL = "#eceadf"
_NO_CLUES = "the clues are missing; only with regions or cages there may be none"
_OF_ROWS = "''.join(str(digit) for row in rows for digit in row) is that of rows of digits"
# A new puzzle has 9 rows, unless it is said otherwise.
_NEW = "." * 81


@dataclass(frozen=True)
class _Board:
    """What is given: the marks of the places, row by row, or none; the size; the region of each place, and whether
    these are of a picture; cages; and whether each diagonal has each digit."""

    marks: str
    size: int
    region: dict[Square, str]
    has_regions: bool
    cages: list[Cage]
    has_diagonals: bool

    @property
    def digits(self) -> str:
        return _DIGITS[: self.size]

    def places(self) -> Iterator[tuple[Square, str]]:
        """Each place with its mark."""
        squares = ((r, c) for r in range(self.size) for c in range(self.size))
        return zip(squares, self.marks or "." * self.size**2)

    def diagonals(self, place: Square) -> list[str]:
        """The diagonals on which a place is: x1 from the upper left, x2 from the upper right."""
        r, c = place
        if not self.has_diagonals:
            return []
        return ["x1"] * (r == c) + ["x2"] * (r + c == self.size - 1)


def problem(
    clues: str = "", *, regions: str | None = None, cages: str | None = None, diagonals: bool = False
) -> Problem[list[str]]:
    """The Sudoku of these clues: 81 characters row by row, a dot or 0 for an empty place. Another one of 4 to 25 rows
    has as many characters as places; its digits go on after 9 with A, B, .. White space counts for nothing.

    regions: a picture with the letter of its region in each place, instead of boxes; a region has as many places as
        there are rows.
    cages: sums of places with different digits: a line for each cage, `12 r1c1 r1c2`, or a picture with the letter of
        its cage in each place, a blank line, and the sums, `a=12 b=7`.
    diagonals: whether each of the two long diagonals has each digit.

    With regions or cages there may be no clues. To write digit d in row r and column c is the option
    `rRcC r=d c=d b=d`, with an item for the place and for the digit in its row, column and box or region. A place with
    a clue has one option. A place in cage 3 has `k3=d` too, and the cage takes the digits that aren't in it,
    `k3 k3=1 ..`. A place on a diagonal has `x1=d` or `x2=d`, or both. Raises `TableFault`.
    """
    check_texts(_OF_ROWS, clues=clues)
    check_texts(regions=regions or "", cages=cages or "")
    board = _board(clues, regions, cages, diagonals)
    digits = board.digits
    sets = [list(_sets(cage, digits)) for cage in board.cages]
    options: Counted[list[str]] = Counted()
    for option in _writings(board, sets):
        options.add(option)
    for cage, found in enumerate(sets, 1):
        for held_digits in found:
            options.add([f"k{cage}", *(f"k{cage}={digit}" for digit in digits if digit not in held_digits)])
    return Problem(list(_items(board)), options=options, comments=list(_comments(board)))


def _board(clues: str, regions: str | None, cages: str | None, diagonals: bool) -> _Board:
    """What is given, read and checked. Raises `TableFault`."""
    marks = _marks(clues)
    _check_rows(clues)
    region = None if regions is None else areas.regions(regions)
    size = _size(marks, region, has_cages=cages is not None)
    own_cages: list[Cage] = []
    if cages is not None:
        own_cages, size = areas.cages(cages, size)
    if marks and len(marks) != size * size:
        raise TableFault(1, "", f"the regions have {size} rows, so there are {size * size} places, not {len(marks)}")
    board = _Board(marks, size, region or _boxes(size), region is not None, own_cages, diagonals)
    _check(clues, board.digits)
    _check_sets(own_cages, size)
    return board


def _writings(board: _Board, sets: Sequence[Sequence[frozenset[str]]]) -> Iterator[list[str]]:
    """The options that write a digit; in a cage those of its sets of digits."""
    caged = {cell: number for number, cage in enumerate(board.cages, 1) for cell in cage.cells}
    may = [{digit for one in found for digit in one} for found in sets]
    for place, mark in board.places():
        cage = caged.get(place)
        for digit in board.digits if mark in _EMPTY else mark.upper():
            if cage is None or digit in may[cage - 1]:
                held = [] if cage is None else [f"k{cage}={digit}"]
                crossed = [f"{diagonal}={digit}" for diagonal in board.diagonals(place)]
                yield [*_uses(place, board.region[place], digit), *held, *crossed]


def _items(board: _Board) -> Iterator[str]:
    digits, named = board.digits, list(dict.fromkeys(board.region.values()))
    for x in range(board.size):
        for y, digit in enumerate(digits):
            yield from (f"r{x + 1}c{y + 1}", f"r{x + 1}={digit}", f"c{x + 1}={digit}", f"b{named[x]}={digit}")
    for cage in range(1, len(board.cages) + 1):
        yield from (f"k{cage}", *(f"k{cage}={digit}" for digit in digits))
    if board.has_diagonals:
        yield from (f"{diagonal}={digit}" for diagonal in ("x1", "x2") for digit in digits)


def _uses(place: Square, region: str, digit: str) -> list[str]:
    r, c = place
    return [f"r{r + 1}c{c + 1}", f"r{r + 1}={digit}", f"c{c + 1}={digit}", f"b{region}={digit}"]


def _comments(board: _Board) -> Iterator[str]:
    clues = "".join("." if mark in _EMPTY else mark for mark in board.marks)
    words = ["--regions REGIONS"] * board.has_regions + ["--cages CAGES"] * bool(board.cages)
    words += ["--diagonals"] * board.has_diagonals
    yield " ".join(["helgrothy make sudoku", *([clues] if clues else []), *words])
    yield "A digit in each place rRcC, and each digit once in each row r, column c and box b."
    if board.has_diagonals:
        yield "Each digit is once on each of the long diagonals x1 and x2 too."
    if board.has_regions:
        yield "The regions, whose letters are those of the boxes b:"
        yield from ("".join(board.region[r, c] for c in range(board.size)) for r in range(board.size))
    if board.cages:
        yield "A cage k takes the digits that its places don't have. The cages:"
        for number, cage in enumerate(board.cages, 1):
            yield " ".join([f"k{number}: {cage.total}", *(f"r{r + 1}c{c + 1}" for r, c in cage.cells)])


# ---- what is given


def _marks(clues: str) -> str:
    return "".join(clues.split())


def _size(marks: str, regions: dict[Square, str] | None, has_cages: bool) -> int:
    """How many rows there are, or 0 where only cages may say so. Raises `TableFault`."""
    if regions is not None:
        return max(r for r, _ in regions) + 1
    if not marks:
        if has_cages:
            return 0
        raise TableFault(1, "", _NO_CLUES)
    size = math.isqrt(len(marks))
    if size * size != len(marks) or not areas.LEAST_SIZE <= size <= areas.MOST_SIZE:
        known = "a Sudoku of 9 rows has 81, one of 4 to 25 rows as many as its square"
        raise TableFault(1, "", f"{len(marks)} places; {known}")
    return size


def _boxes(size: int) -> dict[Square, str]:
    """The box of each place: as many rows as columns, or fewer. Raises `TableFault`."""
    high = max(high for high in range(1, size + 1) if size % high == 0 and high * high <= size)
    if high == 1:
        raise TableFault(1, "", f"a Sudoku of {size} rows has no boxes; --regions FILE draws its regions")
    wide = size // high
    return {(r, c): str(r // high * high + c // wide + 1) for r in range(size) for c in range(size)}


def _check_rows(clues: str) -> None:
    """Raises `TableFault` for one of several lines that isn't as long as they are many."""
    rows = [(number, _marks(line)) for number, line in numbered(clues) if line]
    lengths = Counter(len(row) for _, row in rows)
    for number, row in rows:
        if len(row) != len(rows) and lengths[len(rows)] > len(rows) // 2:
            raise TableFault(number, cut(row), f"{len(row)} places, where there are {len(rows)} rows")


def _check(clues: str, digits: str) -> None:
    """Raises `TableFault` for what is neither a digit nor an empty place."""
    place = 0
    for number, line in numbered(clues):
        for mark in _marks(line):
            place += 1
            if mark not in _EMPTY and mark.upper() not in digits:
                reason = f"place {place} has neither a digit up to {digits[-1]} nor a dot"
                raise TableFault(number, mark, reason)


def _check_sets(cages: Sequence[Cage], size: int) -> None:
    """Raises `ValueError` where there are too many sets of digits."""
    # Of the digits up to one: how many sets have so many digits and this sum.
    ways: Counter[tuple[int, int]] = Counter({(0, 0): 1})
    for digit in range(1, size + 1):
        ways.update({(count + 1, total + digit): times for (count, total), times in ways.items()})
    uses = sum(ways[len(cage.cells), cage.total] * (1 + size - len(cage.cells)) for cage in cages)
    if uses > MOST_USES:
        raise ValueError(f"the problem would have more than {MOST_USES} uses of items")


def _sets(cage: Cage, digits: str) -> Iterator[frozenset[str]]:
    """The sets of digits with the sum of a cage."""
    # Digits from the largest down: what is left of the sum has to be within reach of those that are left.
    waiting: list[tuple[int, int, int, frozenset[str]]] = [(len(digits), len(cage.cells), cage.total, frozenset())]
    while waiting:
        most, count, total, held = waiting.pop()
        if not count and not total:
            yield held
        elif 0 < count <= most and count * (count + 1) // 2 <= total <= count * (2 * most + 1 - count) // 2:
            waiting.append((most - 1, count, total, held))
            waiting.append((most - 1, count - 1, total - most, held | {digits[most - 1]}))


# ---- pictures


def drawing(problem: Problem[Any]) -> Drawing:
    """Boxes or regions with digits, clues in bold; cages with their sums, and diagonals, in the SVG."""
    printed = _Printed(problem)

    def draw(lines: Sequence[str]) -> Picture:
        cells = {place: printed.cell(place) for place in printed.boxes}
        for line in lines:
            if _CAGE.match(line.split(" ", 1)[0]) is None:
                place, digit, _ = _cut(line)
                cells[place].label = digit
        return Picture("a Sudoku", cells, has_boxes=True)

    return draw


class _Printed:
    """The board as it is printed: the box of each place, clues, cages with their sums, and diagonals."""

    def __init__(self, problem: Problem[Any]) -> None:
        self.boxes: dict[Square, str] = {}
        self._times: Counter[Square] = Counter()
        self._clues: dict[Square, str] = {}
        self._cages: dict[Square, str] = {}
        self._crossed: set[Square] = set()
        self._sums: dict[str, int] = {}
        digits = frozenset(name[3:] for name in problem.item_names if name.startswith("r1="))
        for option in problem.options:
            line = problem.line(option)
            cage = _CAGE.match(line.split(" ", 1)[0])
            if cage is not None:
                self._sums[cage.group(1)] = _sum(line, digits)
            else:
                self._take(line)
        own = self._cages
        self._first = {name: min(place for place in own if own[place] == name) for name in set(own.values())}

    def _take(self, line: str) -> None:
        place, digit, box = _cut(line)
        self._times[place] += 1
        self.boxes[place] = box
        self._clues[place] = digit
        self._cages.update((place, found.group(1)) for found in map(_CAGE.match, line.split()) if found)
        if any(map(_CROSSED.match, line.split())):
            self._crossed.add(place)

    def cell(self, place: Square) -> Cell:
        """A place with its clue, if it has one."""
        cage = self._cages.get(place)
        is_clue = self._times[place] == 1
        total = str(self._sums[cage]) if cage in self._sums and self._first[cage] == place else ""
        return Cell(
            self._clues[place] if is_clue else "",
            self.boxes[place],
            _ON_DIAGONAL if place in self._crossed else "#fff",
            is_strong=is_clue,
            corner=total,
            cage=cage,
        )


def _sum(line: str, digits: frozenset[str]) -> int:
    """The sum of a cage from one of its options, which holds the digits that aren't in it."""
    missing = {found.group(2) for found in map(_CAGE.match, line.split()) if found and found.group(2)}
    return sum(_DIGITS.index(digit) + 1 for digit in digits - missing)


def _cut(line: str) -> tuple[Square, str, str]:
    """An option's place, digit and box."""
    words = line.split()
    place = next(found for found in map(_PLACE.match, words) if found)
    digit = next(found.group(1) for found in map(_DIGIT.match, words) if found)
    box = next(word[: word.index("=")] for word in words if word[0] == "b")
    return (int(place.group(1)) - 1, int(place.group(2)) - 1), digit, box


def _add_arguments(parser: argparse.ArgumentParser) -> None:
    parser.add_argument(
        "clues",
        metavar="CLUES",
        nargs="?",
        default="",
        help="81 characters row by row, a dot or 0 for an empty place (or 16 to 625, for 4 to 25 rows); or a file of "
        "them, - for standard input; with regions or cages there may be none",
    )
    parser.add_argument(
        "--regions", metavar="REGIONS", help="a file with a picture of the regions, a letter for each place"
    )
    parser.add_argument(
        "--cages",
        metavar="CAGES",
        help="a file with a line for each cage, its sum and its places (12 r1c1 r1c2); or with a picture, a letter for "
        "each place, and after a blank line the sums (a=12 b=7)",
    )
    parser.add_argument("--diagonals", action="store_true", help="each of the two long diagonals has each digit too")


def _texts(arguments: argparse.Namespace, new: str = "") -> tuple[str, str | None, str | None]:
    """Clues, regions and cages; without any of them those of a new puzzle. Raises `ValueError` and `OSError`."""
    is_new = not arguments.clues and arguments.regions is None and arguments.cages is None
    given = new if is_new else arguments.clues
    if is_new and not new:
        raise ValueError(_NO_CLUES)
    is_file = given == "-" or os.path.exists(given) or any(c not in _EMPTY and c.upper() not in _DIGITS for c in given)
    regions, cages = (None if path is None else read_text(path) for path in (arguments.regions, arguments.cages))
    return read_text(given, "clues") if is_file else given, regions, cages


def _make(arguments: argparse.Namespace) -> Problem[list[str]]:
    clues, regions, cages = _texts(arguments)
    return problem(clues, regions=regions, cages=cages, diagonals=arguments.diagonals)


def _clues(arguments: argparse.Namespace) -> Clues:
    text, regions, cages = _texts(arguments, _NEW)
    marks = _marks(text)
    problem(text, regions=regions, cages=cages, diagonals=arguments.diagonals)
    empty = problem("." * len(marks), regions=regions, cages=cages, diagonals=arguments.diagonals)
    lines = [empty.line(option) for option in empty.options]
    cells = {place: _cut(line) for place, line in enumerate(lines) if _CAGE.match(line.split(" ", 1)[0]) is None}
    size = 1 + max(r for (r, _), _, _ in cells.values())
    squares = [(r, c) for r in range(size) for c in range(size)]
    layout = text if marks else f"{'.' * size}\n" * size

    def write(kept: Sequence[int]) -> str:
        digits = {square: digit for square, digit, _ in map(cells.__getitem__, kept)}
        left = iter(squares)
        return "".join(mark if mark.isspace() else digits.get(next(left), ".") for mark in layout).rstrip("\n") + "\n"

    held = [(r, c, mark.upper()) for (r, c), mark in zip(squares, marks) if mark not in _EMPTY]
    given = options_of(empty, [(f"r{r + 1}c{c + 1}", f"r{r + 1}={digit}") for r, c, digit in held])
    return Clues(empty, given, list(cells), write)


KIND = Kind("sudoku", "a Sudoku from its clues", _add_arguments, _make, drawing, clues=_clues)


def __dir__() -> list[str]:
    return __all__

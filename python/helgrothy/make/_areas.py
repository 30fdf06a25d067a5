"""Regions and cages of a Sudoku, from pictures and lists, which are checked before anything is made of them."""

from __future__ import annotations

import re
from collections import Counter
from collections.abc import Iterator, Sequence
from dataclasses import dataclass

from ..errors import TableFault
from ._kind import cut, numbered, picture

Square = tuple[int, int]
Numbered = tuple[int, str]

LEAST_SIZE, MOST_SIZE = 4, 25
_CELL = re.compile(r"[rR]([0-9]{1,4})[cC]([0-9]{1,4})\Z")
_NUMBER = re.compile(r"[0-9]{1,6}\Z")
_NO_CAGE = "."
_MOST_NAMED = 5


@dataclass(frozen=True)
class Cage:
    """Cells with different digits that have this sum; `line` is that of its sum, or of its first cell."""

    name: str
    line: int
    total: int
    cells: tuple[Square, ...]


def check_size(line: int, size: int, what: str) -> None:
    """Raises `TableFault` for a size that no Sudoku has."""
    if not LEAST_SIZE <= size <= MOST_SIZE:
        raise TableFault(line, "", f"{size} {what}; a Sudoku has {LEAST_SIZE} to {MOST_SIZE}")


# ---- regions


def regions(text: str) -> dict[Square, str]:
    """The region of each cell, from a picture with a character for each. Raises `TableFault`."""
    rows = _square(picture(text))
    size = len(rows)
    cells = {(r, c): mark for r, (_, row) in enumerate(rows) for c, mark in enumerate(row)}
    lines = {mark: number for number, row in reversed(rows) for mark in row}
    for mark, number in lines.items():
        if not mark.isalnum():
            raise TableFault(number, mark, "no region; each cell has the letter of its region")
    counts = Counter(cells.values())
    wrong = [mark for mark in sorted(counts, key=lambda mark: lines[mark]) if counts[mark] != size]
    if wrong:
        which = ", ".join(f"{mark} has {counts[mark]}" for mark in wrong[:_MOST_NAMED])
        more = f" and {len(wrong) - _MOST_NAMED} more are wrong" if len(wrong) > _MOST_NAMED else ""
        raise TableFault(lines[wrong[0]], "", f"regions have {size} cells each: {which}{more}")
    return cells


def _square(lines: Sequence[Numbered]) -> list[Numbered]:
    """The rows of a picture without the blanks in them, as long as they are many."""
    rows = [(number, "".join(line.split())) for number, line in lines]
    check_size(rows[0][0], len(rows), "rows")
    for number, row in rows:
        if len(row) != len(rows):
            raise TableFault(number, cut(row), f"{len(row)} cells, where the picture has {len(rows)} rows")
    return rows


# ---- cages


def cages(text: str, size: int) -> tuple[list[Cage], int]:
    """The cages of a Sudoku of so many rows, and this number, which the text says where it is 0. Raises `TableFault`.

    The text has a line for each cage, its sum and its cells, `12 r1c1 r1c2`. Or it is a picture with a letter for each
    cell, a dot for a cell in no cage, and after a blank line the sums, `a=12 b=7`.
    """
    lines = [(number, line) for number, line in numbered(text) if line]
    if not lines:
        raise TableFault(1, "", "no cages")
    if any(_CELL.match(word) for _, line in lines for word in line.split()):
        found = list(_listed(lines))
        size = size or max(max(cell) + 1 for cage in found for cell in cage.cells)
    else:
        found, size = _drawn(text, size)
    check_size(lines[0][0], size, "rows")
    _check(found, size)
    return found, size


def _listed(lines: Sequence[Numbered]) -> Iterator[Cage]:
    for place, (number, line) in enumerate(lines, 1):
        total, *words = re.split(r"[\s=:,]+", line.strip())
        if not _NUMBER.match(total):
            raise TableFault(number, cut(total), "a cage begins with its sum, such as 12 r1c1 r1c2")
        if not words:
            raise TableFault(number, cut(total), "a sum without cells, such as 12 r1c1 r1c2")
        yield Cage(str(place), number, int(total), tuple(_cell(number, word) for word in words))


def _cell(number: int, word: str) -> Square:
    found = _CELL.match(word)
    if found is None:
        raise TableFault(number, cut(word), "no cell; one is named as r1c2")
    r, c = int(found.group(1)) - 1, int(found.group(2)) - 1
    if min(r, c) < 0:
        raise TableFault(number, cut(word), "rows and columns are counted from 1 on")
    return r, c


def _drawn(text: str, size: int) -> tuple[list[Cage], int]:
    """The cages of a picture with sums, and how many rows it has."""
    drawn, sums = _parts(picture(text))
    rows = _square(drawn)
    if size not in (0, len(rows)):
        raise TableFault(rows[0][0], "", f"the picture has {len(rows)} rows, where the Sudoku has {size}")
    cells: dict[str, list[Square]] = {}
    first: dict[str, int] = {}
    for r, (number, row) in enumerate(rows):
        for c, mark in enumerate(row):
            if mark != _NO_CAGE:
                cells.setdefault(mark, []).append((r, c))
                first.setdefault(mark, number)
    totals: dict[str, tuple[int, int]] = {}
    for number, line in sums:
        for word in line.split():
            name, sign, total = word.rpartition("=")
            if not sign or not _NUMBER.match(total):
                raise TableFault(number, cut(word), "no sum of a cage, such as a=12")
            if name not in cells:
                raise TableFault(number, cut(word), "no cell of the picture has this letter")
            if name in totals:
                raise TableFault(number, cut(word), f"the cage has its sum in line {totals[name][0]} already")
            totals[name] = number, int(total)
    for name, number in first.items():
        if name not in totals:
            raise TableFault(number, name, f"the cage has no sum; after the picture it would be {name}=12")
    return [Cage(name, *totals[name], tuple(own)) for name, own in cells.items()], len(rows)


def _parts(lines: Sequence[Numbered]) -> tuple[list[Numbered], list[Numbered]]:
    """A picture, and what follows the first blank line."""
    end = next((place for place, (_, line) in enumerate(lines) if not line), len(lines))
    return list(lines[:end]), list(lines[end:])


def _check(cages: Sequence[Cage], size: int) -> None:
    """Raises `TableFault` where a cage lies outside, over another one, in parts, or can't have its sum."""
    owner: dict[Square, Cage] = {}
    for cage in cages:
        for cell in cage.cells:
            if max(cell) >= size:
                raise TableFault(cage.line, _name(cell), f"outside of the {size} rows and columns")
            other = owner.setdefault(cell, cage)
            if other is not cage:
                raise TableFault(cage.line, _name(cell), f"in the cage of line {other.line} too: cages don't overlap")
        if len(set(cage.cells)) < len(cage.cells):
            twice = next(cell for cell in cage.cells if cage.cells.count(cell) > 1)
            raise TableFault(cage.line, _name(twice), "twice in its cage")
        _check_sum(cage, size)
        apart = _apart(cage)
        if apart:
            raise TableFault(cage.line, _name(min(apart)), "not joined by a side to the cells of its cage before it")
    whole = size * size * (size + 1) // 2
    total = sum(cage.total for cage in cages)
    if len(owner) == size * size and total != whole:
        raise TableFault(cages[0].line, "", f"the sums are {total} in all; all digits of the Sudoku are {whole}")


def _check_sum(cage: Cage, size: int) -> None:
    count = len(cage.cells)
    if count > size:
        raise TableFault(cage.line, "", f"a cage of {count} cells; its digits differ, and there are {size}")
    least = count * (count + 1) // 2
    most = count * (2 * size + 1 - count) // 2
    if not least <= cage.total <= most:
        what = "digit is" if count == 1 else "digits that differ are"
        raise TableFault(cage.line, str(cage.total), f"{count} {what} {least} at least and {most} at most")


def _name(cell: Square) -> str:
    return f"r{cell[0] + 1}c{cell[1] + 1}"


def _apart(cage: Cage) -> set[Square]:
    """The cells that can't be reached from the first one within the cage."""
    left = set(cage.cells)
    waiting = [cage.cells[0]]
    while waiting:
        r, c = waiting.pop()
        if (r, c) in left:
            left.discard((r, c))
            waiting += [(r + 1, c), (r - 1, c), (r, c + 1), (r, c - 1)]
    return left

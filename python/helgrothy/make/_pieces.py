"""Pieces of squares, cubes, hexagons or triangles that are laid into a region: what these kinds have in common."""

from __future__ import annotations

import operator
import re
from collections import Counter
from collections.abc import Callable, Collection, Iterable, Iterator, Sequence
from typing import Any

from .._cli.console import did_you_mean
from .._text.syntax import MOST_USES
from ..draw import Cell, Drawing, Picture, Shades, board_of, check_size
from ..draw._grids import Grid
from ..errors import TableFault
from ..problem import Problem
from ._kind import cut, numbered

Place = tuple[int, ...]
Form = frozenset[Place]
Lines = list[tuple[int, str]]

# The cells of the kinds in a plane.
CELL = re.compile(r"r([0-9]+)c([0-9]+)\Z")

# It is looked so often at most whether a part of a piece lies on a cell.
_MOST_LOOKS = 10 * MOST_USES


class Pieces:
    """Pieces by their letters: the form of each, how often it is given, and the line of the first one."""

    def __init__(self, found: Iterable[tuple[int, str, Form]]) -> None:
        """found: lines, letters and forms. Raises `TableFault` where different ones have the same letter."""
        self.forms: dict[str, Form] = {}
        self.copies: Counter[str] = Counter()
        self.lines: dict[str, int] = {}
        for number, name, form in found:
            if self.forms.setdefault(name, form) != form:
                reason = f"the piece of line {self.lines[name]} has this letter, and is another one"
                raise TableFault(number, name, reason)
            self.lines.setdefault(name, number)
            self.copies[name] += 1
        if not self.forms:
            raise TableFault(1, "", "no piece")

    def set_copies(self, text: str) -> None:
        """Has pieces as often as a text says, such as `I=2,O=0`. Raises `ValueError`."""
        for word in re.split("[\\s,]+", text.strip(", \t\n")):
            name, sign, count = word.partition("=")
            if not sign or not re.match("[0-9]{1,9}\\Z", count):
                raise ValueError(f"{cut(word)}: how often a piece is there is written as {next(iter(self.forms))}=2")
            if name not in self.forms:
                raise ValueError(f"{cut(name)}: no such piece{did_you_mean(name, self.forms)}")
            self.copies[name] = int(count)
        for name in [name for name in self.forms if not self.copies[name]]:
            del self.forms[name], self.copies[name], self.lines[name]
        if not self.forms:
            raise ValueError("no piece is left")

    @property
    def volume(self) -> int:
        """How many cells all of them fill."""
        return sum(len(form) * self.copies[name] for name, form in self.forms.items())

    def bounds(self, some: bool) -> tuple[dict[str, tuple[int, int]], list[str]]:
        """The letters with their bounds, and those of pieces that may be left out and aren't used twice."""
        if not some:
            return {name: (count, count) for name, count in self.copies.items()}, []
        # What may be left out once is a secondary item.
        spare = [name for name, count in self.copies.items() if count == 1]
        return {name: (0, count) for name, count in self.copies.items() if count > 1}, spare

    def laid(
        self, cells: Sequence[Place], turned: Callable[[Form], Iterable[Form]], step: int = 1
    ) -> Iterator[tuple[str, list[Place]]]:
        """Each piece in each of its places in the region, turned as it may be, and moved by multiples of a step.

        Raises `ValueError`.
        """
        held = set(cells)
        looks = 0
        for name, form in self.forms.items():
            # A piece of more parts than there are cells can't be laid.
            if len(form) > len(cells):
                continue
            _check_looks(looks + len(form) * len(cells))
            for image in turned(form):
                looks += len(form) * len(cells)
                _check_looks(looks)
                for laid in _laid(sorted(image), cells, held, step):
                    yield name, laid


def _check_looks(looks: int) -> None:
    if looks > _MOST_LOOKS:
        raise ValueError("the pieces and the region are too large to be laid")


def _laid(
    parts: Sequence[Place], cells: Sequence[Place], held: Collection[Place], step: int
) -> Iterator[list[Place]]:
    """The parts with the first one on each of the cells, where all of them lie on cells."""
    steps = [tuple(map(operator.sub, part, parts[0])) for part in parts]
    for at in cells:
        if step > 1 and any((end - begin) % step for end, begin in zip(at, parts[0])):
            continue
        laid = []
        for way in steps:
            place = tuple(map(operator.add, at, way))
            if place not in held:
                break
            laid.append(place)
        else:
            yield laid


def alike(problem: Problem[Any], cell: re.Pattern[str]) -> list[str]:
    """Pieces of different letters that have the same places: exchanging two of them makes the same picture."""
    places: dict[str, set[frozenset[str]]] = {}
    for option in problem.options:
        words = problem.line(option).split()
        letters = [word for word in words if not cell.match(word)]
        places.setdefault(letters[0], set()).add(frozenset(words) - {letters[0]})
    groups: dict[frozenset[frozenset[str]], list[str]] = {}
    for name, laid in places.items():
        groups.setdefault(frozenset(laid), []).append(name)
    return [
        f"Pieces {' and '.join(names)} are alike: each solution comes with them exchanged too; give them one letter."
        for names in groups.values()
        if len(names) > 1
    ]


def area(problem: Problem[Any], unit: str) -> list[str]:
    """That the pieces have too few cells for the region or, where none may be left over, too many."""
    sizes = {option[0]: len(option) - 1 for option in map(str.split, map(problem.line, problem.options))}
    items = dict(zip(problem.item_names, problem.items.values()))
    pieces = {name: bounds for name, bounds in items.items() if not CELL.match(name)}
    # How large a piece is that fits nowhere isn't known here; that it is in no option is reported.
    if not sizes.keys() >= pieces.keys():
        return []
    cells = len(items) - len(pieces)
    least = sum(sizes[name] * low for name, (low, _) in pieces.items())
    most = sum(size * (pieces[name].high if name in pieces else 1) for name, size in sizes.items())
    if most < cells:
        return [f"The pieces have {most} {unit}, and the region has {cells}."]
    if least > cells:
        return [f"The pieces have {least} {unit}, and the region has {cells}; --some lets pieces be left over."]
    return []


def blocks(text: str) -> Iterator[Lines]:
    """The lines of each picture, which blank lines part, with their numbers."""
    block: Lines = []
    for number, line in [*numbered(text), (0, "")]:
        if line.strip():
            block.append((number, line))
        elif block:
            yield block
            block = []


def drawing(problem: Problem[Any], grid: Grid, title: str) -> Drawing:
    """Pieces in a plane in their colours, each with its letter."""
    found = map(CELL.match, problem.item_names)
    board = [(int(cell.group(1)), int(cell.group(2))) for cell in found if cell]
    top, left = grid.corner(board)
    check_size(max(r for r, _ in board) - top + 1, max(c for _, c in board) - left + 1, len(board))
    shades = Shades()
    for item in [*problem.item_names, *problem.secondary_names]:
        if not CELL.match(item):
            shades[item]

    def draw(lines: Sequence[str]) -> Picture:
        cells = {(r - top, c - left): Cell() for r, c in board}
        for number, line in enumerate(lines):
            name, *words = line.split()
            held = [(int(cell.group(1)) - top, int(cell.group(2)) - left) for cell in map(CELL.match, words) if cell]
            middle = grid.middle(held)
            for at in held:
                cells[at] = Cell(name, number, shades[name], is_quiet=at != middle)
        return board_of(grid, title, cells, not lines)

    return draw

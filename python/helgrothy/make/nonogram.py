"""Nonograms: squares to be filled, of which the clues of each row and column say how long its runs are.

An option is a whole line, or else a run with the place of the next one, for all lines alike. Whole lines are searched
faster while they are few: 3,600 of them took 0.9 seconds, and 2,300 runs came to no end. 73,000 lines are too many for
the programs and for cadical, which takes the 5,700 runs in a second. Lines of both sorts in one problem were slower
than either.
"""

from __future__ import annotations

import argparse
import re
from collections.abc import Collection, Iterator, Sequence
from dataclasses import dataclass
from itertools import chain, groupby
from typing import Any, Optional

from .._text.syntax import MOST_USES
from ..draw import Cell, Drawing, Picture, check_size
from ..errors import TableFault
from ..problem import Problem
from ._clues import Clues
from ._kind import Counted, Kind, check_texts, cut, numbered, read_text
from ._runs import EMPTY, FILLED, Clue, arrangements, count, known, steps

__all__ = ["problem"]

Option = dict[str, Optional[str]]
_HEADS = ("rows", "columns")
# What else stands at the beginning of lines in files of the format `non`.
_OTHERS = ("catalogue", "title", "by", "copyright", "license", "color", "goal", "width", "height")
_NUMBER = re.compile(r"[0-9]{1,4}\Z")
_LINE = re.compile(r"(row|col)([0-9]+)(?:/([0-9]+))?\Z")
_CELL = re.compile(r"r([0-9]+)c([0-9]+):([#.])\Z")
_SQUARE = re.compile(r"r([0-9]{1,3})c([0-9]{1,3})\Z")
# What stands for the clue of a line that has none; before the name of a square without a clue in either direction.
UNKNOWN, _FREE = "?", "free-"
_MOST_SIDE = 100
# Squares are ruled out by so many steps at most, which take a second or two; then the arrangements are many, not wrong.
_MOST_STEPS = 2_000_000
# Whole lines say more, so the programs search them faster unless they have so many times the uses of runs.
_FAR_FEWER = 10


@dataclass(frozen=True)
class _Line:
    """A row or a column: the line of the text that has its clue, and the lengths of its runs; None where it has no
    clue."""

    number: int
    clue: Clue | None

    @property
    def need(self) -> int:
        """How many squares the runs take, with one between each two."""
        return sum(self.clue) + max(len(self.clue) - 1, 0) if self.clue else 0

    def __str__(self) -> str:
        return UNKNOWN if self.clue is None else " ".join(map(str, self.clue)) or "0"


def problem(clues: str) -> Problem[Option]:
    """The nonogram of these clues: a line for each row, a blank line, a line for each column.

    A line has the lengths of the runs of filled squares, in their order, with blanks or commas between; 0 is a line
    without any, and ? one of which nothing is known. Files of the format `non`, with the headings `rows` and `columns`,
    are read too.

    An option is an arrangement of a row or a column, `row3 r3c1:# r3c2:. ..`: a square has # or . as a colour. What the
    clues that cross it rule out is left out. Where the arrangements are many, an option is a run with its first square
    and that of the next run, `row3/2 row3@2:5 row3@3:9 r3c5:# r3c6:# r3c7:. r3c8:.`. A square without a clue in either
    direction has both colours, `free-r3c5 r3c5:#`. Raises `TableFault`.
    """
    check_texts(clues=clues)
    return _problem(*_read(clues))


def _problem(rows: Sequence[_Line], columns: Sequence[_Line]) -> Problem[Option]:
    _check(rows, columns)
    board = _Board(rows, columns)
    board.rule_out()
    lines = [
        _Made(name, line.clue, [board.marks[at] for at in squares], [f"r{r}c{c}" for r, c in squares])
        for name, line, squares in board.lines()
        if line.clue is not None
    ]
    free = [f"r{r}c{c}" for r, c in board.marks if rows[r - 1].clue is None and columns[c - 1].clue is None]
    by_runs = _are_shorter_by_runs(lines)
    options: Counted[Option] = Counted()
    for line in lines:
        for option in line.by_runs() if by_runs else line.as_wholes():
            options.add(option)
    for square in free:
        for mark in (FILLED, EMPTY):
            options.add({f"{_FREE}{square}": None, square: mark})
    chains = [item for line in lines for item in line.chain] if by_runs else []
    what = "Each run and where it and the next one begin" if by_runs else "An arrangement of each row and column"
    return Problem(
        [
            *(item for line in lines for item in (line.items if by_runs else [line.name])),
            *(f"{_FREE}{square}" for square in free),
        ],
        [*(f"r{r}c{c}" for r, c in board.marks), *chains],
        options,
        comments=[
            "helgrothy make nonogram CLUES",
            f"{what}; whether a square rRcC is filled is its colour. The clues:",
            *map(str, rows),
            "",
            *map(str, columns),
        ],
    )


# ---- the clues


def _read(text: str) -> tuple[list[_Line], list[_Line]]:
    """The clues of the rows and of the columns."""
    parts: list[list[_Line]] = [[]]
    sides: dict[str, tuple[int, int]] = {}
    last = 1
    for number, line in numbered(text):
        words = line.replace(",", " ").split()
        if not words or words[0] in _HEADS:
            if parts[-1]:
                parts.append([])
            if words and (len(parts) > len(_HEADS) or words != [_HEADS[len(parts) - 1]]):
                raise TableFault(number, cut(line), "the headings are rows and then columns, each in a line of its own")
        elif words[0] in _OTHERS:
            if words[0] in ("width", "height"):
                sides[words[0]] = number, _number(number, " ".join(words[1:]))
        else:
            parts[-1].append(_Line(number, _clue(number, words)))
            last = number
            if len(parts[-1]) > _MOST_SIDE:
                raise TableFault(number, "", f"more than {_MOST_SIDE} {_HEADS[len(parts) > 1]}")
        if len(parts) > 2 and parts[2]:
            raise TableFault(number, cut(line), "a third part; there are rows, a blank line, and columns")
    rows, columns = (parts + [[]])[:2]
    if not rows:
        raise TableFault(1, "", "no clues: a line for each row, a blank line, a line for each column")
    if not columns:
        raise TableFault(last, "", "no columns: their clues follow those of the rows after a blank line")
    for side, lines in (("height", rows), ("width", columns)):
        number, said = sides.get(side, (0, len(lines)))
        if said != len(lines):
            raise TableFault(number, str(said), f"{side} is {said}, and there are clues for {len(lines)}")
    return rows, columns


def _number(number: int, word: str) -> int:
    if not _NUMBER.match(word):
        raise TableFault(number, cut(word), "no number; a clue has the lengths of the runs, such as 3 1 2")
    return int(word)


def _clue(number: int, words: Sequence[str]) -> Clue | None:
    if words == [UNKNOWN]:
        return None
    lengths = tuple(_number(number, word) for word in words)
    if lengths == (0,):
        return ()
    if 0 in lengths:
        raise TableFault(number, "0", "a run of no squares; 0 stands alone, where a line has no runs")
    return lengths


def _check(rows: Sequence[_Line], columns: Sequence[_Line]) -> None:
    """Raises `TableFault` where clues take more room than there is, or differ in how much is filled."""
    for lines, across, what in ((rows, columns, "row"), (columns, rows, "column")):
        for line in lines:
            if line.need > len(across):
                reason = f"it takes {line.need} squares, and a {what} has {len(across)}"
                raise TableFault(line.number, cut(str(line)), reason)
    filled = [sum(sum(line.clue or ()) for line in lines) for lines in (rows, columns)]
    if filled[0] != filled[1] and all(line.clue is not None for line in (*rows, *columns)):
        sums = f"the rows have {filled[0]} filled squares in all, and the columns {filled[1]}"
        raise TableFault(columns[0].number, "", sums)


class _Board:
    """The squares by what is known of them: #, ., or a blank."""

    def __init__(self, rows: Sequence[_Line], columns: Sequence[_Line]) -> None:
        self._rows = rows
        self._columns = columns
        self.marks = {(r, c): " " for r in range(1, len(rows) + 1) for c in range(1, len(columns) + 1)}

    def lines(self) -> Iterator[tuple[str, _Line, list[tuple[int, int]]]]:
        """Rows and columns with their names and squares."""
        for r, line in enumerate(self._rows, 1):
            yield f"row{r}", line, [(r, c) for c in range(1, len(self._columns) + 1)]
        for c, line in enumerate(self._columns, 1):
            yield f"col{c}", line, [(r, c) for r in range(1, len(self._rows) + 1)]

    def rule_out(self) -> None:
        """Marks what each line alone says of its squares, again and again. Raises `TableFault` where none is left."""
        lines = list(self.lines())
        clues = [line.clue for _, line, _ in lines]
        waiting = dict.fromkeys(number for number, clue in enumerate(clues) if clue is not None)
        steps = 0
        while waiting and steps < _MOST_STEPS:
            number = next(iter(waiting))
            del waiting[number]
            _, line, squares = lines[number]
            clue = clues[number]
            if clue is None:
                continue
            marks = [self.marks[at] for at in squares]
            steps += (1 + len(clue)) * len(marks)
            found = known(clue, marks)
            if found is None:
                kind, crossing = ("row", "columns") if number < len(self._rows) else ("column", "rows")
                reason = f"no arrangement of this {kind} fits what the clues of the {crossing} leave"
                raise TableFault(line.number, cut(str(line)), reason)
            for at, before, now in zip(squares, marks, found):
                if before != now:
                    self.marks[at] = now
                    waiting[len(self._rows) + at[1] - 1 if number < len(self._rows) else at[0] - 1] = None


@dataclass(frozen=True)
class _Made:
    """A row or a column with the marks of its squares, and these as items."""

    name: str
    clue: Clue
    marks: list[str]
    squares: list[str]

    @property
    def items(self) -> list[str]:
        """Its runs, after what is before the first one."""
        return [f"{self.name}/{k}" for k in range(len(self.clue) + 1)]

    @property
    def chain(self) -> list[str]:
        """The items whose colours say where its runs begin."""
        return [f"{self.name}@{k}" for k in range(1, len(self.clue) + 1)]

    def as_wholes(self) -> Iterator[Option]:
        """An option for each arrangement."""
        for arranged in arrangements(self.clue, self.marks):
            yield {self.name: None, **dict(zip(self.squares, arranged))}

    def by_runs(self) -> Iterator[Option]:
        """An option for each run, where it begins, and where the next one does."""
        items, chain = self.items, self.chain
        for k, begin, following in steps(self.clue, self.marks):
            option: Option = {items[k]: None}
            if k:
                option[chain[k - 1]] = str(begin + 1)
            if k < len(chain):
                option[chain[k]] = str(following + 1)
            filled = self.clue[k - 1] if k else 0
            option.update(dict.fromkeys(self.squares[begin : begin + filled], FILLED))
            option.update(dict.fromkeys(self.squares[begin + filled : following], EMPTY))
            yield option

    @property
    def uses_as_wholes(self) -> int:
        return count(self.clue, self.marks) * (1 + len(self.marks))

    @property
    def uses_by_runs(self) -> int:
        ends = len(self.clue)
        return sum(1 + (k > 0) + (k < ends) + to - begin for k, begin, to in steps(self.clue, self.marks))


def _are_shorter_by_runs(lines: Sequence[_Made]) -> bool:
    """Whether options for runs have far fewer uses. Raises `ValueError` where a problem has too many either way."""
    whole = sum(line.uses_as_wholes for line in lines)
    most = whole // _FAR_FEWER if whole <= MOST_USES else MOST_USES
    by_runs = 0
    for line in lines:
        # What is too much needs no count to its end.
        by_runs += line.uses_by_runs if by_runs <= most else 0
    if by_runs > most and whole > MOST_USES:
        raise ValueError(f"the problem would have more than {MOST_USES} uses of items")
    return by_runs <= most


# ---- pictures


def drawing(problem: Problem[Any]) -> Drawing:
    """Filled squares, with the clues beside the rows and above the columns."""
    clues = _clues(problem)
    left, top = (max(1, *(len(clue or ()) for clue in clues[kind])) for kind in ("row", "col"))
    rows, columns = len(clues["row"]), len(clues["col"])
    check_size(rows + top, columns + left, rows * columns)

    def draw(lines: Sequence[str]) -> Picture:
        # Thick lines after each five squares go on between the clues.
        cells = {
            (r, c): Cell(" ", ("clues", max(r - top, -1) // 5, max(c - left, -1) // 5), "#f4f1ea", is_quiet=True)
            for r in range(top + rows)
            for c in range(left + columns)
            if r < top or c < left
        }
        for r in range(rows):
            for c in range(columns):
                cells[top + r, left + c] = Cell(group=(r // 5, c // 5))
        for kind in ("row", "col"):
            for number, clue in enumerate(clues[kind]):
                for back, length in enumerate(reversed([UNKNOWN] if clue is None else clue or (0,)), 1):
                    at = (top + number, left - back) if kind == "row" else (top - back, left + number)
                    cells[at].label, cells[at].is_quiet = str(length), False
        for line in lines:
            for found in filter(None, map(_CELL.match, line.split())):
                if found.group(3) == FILLED:
                    cell = cells[top + int(found.group(1)) - 1, left + int(found.group(2)) - 1]
                    cell.label, cell.fill, cell.is_quiet = FILLED, "#222", True
        return Picture("a nonogram", cells, has_boxes=True)

    return draw


def _clues(problem: Problem[Any]) -> dict[str, list[Clue | None]]:
    """The clues of the rows and of the columns, as options show them: whole lines, or a part of one for each run."""
    numbers = {name: found.groups("0") for name in problem.item_names if (found := _LINE.match(name))}
    squares = [found.groups() for found in map(_SQUARE.match, problem.secondary_names) if found]
    parts: dict[str, list[dict[int, Clue]]] = {
        kind: [{} for _ in range(max(int(square[axis]) for square in squares))]
        for axis, kind in enumerate(("row", "col"))
    }
    for option in problem.options:
        name, *words = problem.line(option).split()
        if not name.startswith(_FREE):
            kind, number, part = numbers[name]
            parts[kind][int(number) - 1][int(part)] = _lengths(words)
    # A line whose options show nothing has no clue.
    return {
        kind: [tuple(chain.from_iterable(own[part] for part in sorted(own))) if own else None for own in side]
        for kind, side in parts.items()
    }


def _lengths(words: Sequence[str]) -> Clue:
    """The lengths of the runs of an option."""
    marks = [found.group(3) for found in map(_CELL.match, words) if found]
    return tuple(len(list(run)) for mark, run in groupby(marks) if mark == FILLED)


def _add_arguments(parser: argparse.ArgumentParser) -> None:
    parser.add_argument(
        "clues",
        metavar="CLUES",
        help="a file with a line for each row, a blank line, and a line for each column, each with the lengths of its "
        "runs; 0 for none, ? where they aren't given (- for standard input)",
    )


def _make(arguments: argparse.Namespace) -> Problem[Option]:
    return problem(read_text(arguments.clues))


def _dropped(arguments: argparse.Namespace) -> Clues:
    text = read_text(arguments.clues)
    rows, columns = _read(text)
    lines = [*rows, *columns]
    known = [place for place, line in enumerate(lines) if line.clue is not None]

    def left(kept: Collection[int]) -> Problem[Option]:
        less = [line if place in kept else _Line(line.number, None) for place, line in enumerate(lines)]
        return _problem(less[: len(rows)], less[len(rows) :])

    def write(kept: Sequence[int]) -> str:
        gone = {lines[place].number for place in known} - {lines[place].number for place in kept}
        return "".join(f"{UNKNOWN if number in gone else line}\n" for number, line in enumerate(text.splitlines(), 1))

    return Clues(left(known), known, [], write, left)


# A row shows all of its squares, and so do the columns.
KIND = Kind(
    "nonogram",
    "a nonogram from its clues",
    _add_arguments,
    _make,
    drawing,
    clues=_dropped,
    view=lambda line: line[:3],
)


def __dir__() -> list[str]:
    return __all__

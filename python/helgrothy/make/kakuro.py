"""Kakuro: digits in the white cells, of which each run has its sum and no digit twice."""

from __future__ import annotations

import argparse
import itertools
import re
from collections import Counter
from collections.abc import Collection, Iterable, Iterator, Mapping, Sequence
from dataclasses import dataclass, field
from typing import Any

from ..draw import Cell, Drawing, Picture, check_size
from ..errors import TableFault
from ..problem import Problem
from ._clues import Clues
from ._kind import Counted, Kind, check_items, check_texts, cut, picture, read_text

__all__ = ["problem"]

Square = tuple[int, int]

DIGITS = range(1, 10)
_ACROSS, _DOWN = "across", "down"
_STEPS = {_ACROSS: (0, 1), _DOWN: (1, 0)}
_WHITE, _BLACK, _UNKNOWN = "._", "#", "?"
_SUMS = re.compile(r"([0-9]{0,4}|\?)[\\/]([0-9]{0,4}|\?)\Z")
_SUM = re.compile(r"[0-9]{2,4}\Z")
_RUN = re.compile(r"(across|down)-r([0-9]+)c([0-9]+)\Z")
_HELD = re.compile(r"(?:across|down)-r[0-9]+c[0-9]+=([1-9])\Z")
# A cell of the picture, and a sum in one.
_WORD, _DIGITS = re.compile(r"\S+"), re.compile(r"[0-9]+")
_CELL = re.compile(r"r([0-9]+)c([0-9]+)\Z")


@dataclass
class _Run:
    """White cells in a row or a column, the sum that is asked of them, if it is known, and the digits that they may
    have for it."""

    name: str
    way: str
    line: int
    total: int | None
    cells: list[Square]
    sets: list[frozenset[int]] = field(default_factory=list)


def problem(grid: str) -> Problem[list[str]]:
    """The Kakuro of this picture: cells with blanks between them, a row in each line.

    A dot is a white cell, a digit one that is given, # a black one. `17\\24` is a black cell with the sum 17 below it
    and 24 to its right; either may be missing. Each run of two cells or more has a sum, or ? where it isn't given.

    To write digit 5 in a cell is the option `r2c2 across-r2c2=5 down-r1c2=5`; a run takes the digits that it doesn't
    have, `across-r2c2 across-r2c2=1 ..`. So each digit of a run is taken once, and its cells have the sum. Raises
    `TableFault`.
    """
    check_texts(grid=grid)
    rows = [(number, line.split()) for number, line in picture(grid)]
    marks = _marks(rows)
    white = [at for at, mark in marks.items() if mark in _WHITE or mark.isdigit()]
    if not white:
        raise TableFault(rows[0][0], "", "there is no white cell")
    check_items(len(white))
    runs = list(_runs(rows, marks))
    _check_totals(rows, runs)
    _check_given(rows, runs, marks)
    check_items(len(white) + 10 * len(runs))
    options: Counted[list[str]] = Counted()
    for option in _options(white, marks, runs):
        options.add(option)
    return Problem(
        [
            *map(_name, white),
            *(run.name for run in runs),
            *(f"{run.name}={digit}" for run in runs for digit in DIGITS),
        ],
        options=options,
        comments=[
            "helgrothy make kakuro GRID",
            "A digit in each cell rRcC; a run takes the digits that its cells don't have. The grid:",
            *(" ".join(words) for _, words in rows),
        ],
    )


def _options(white: Sequence[Square], marks: Mapping[Square, str], runs: Sequence[_Run]) -> Iterator[list[str]]:
    """A digit in a cell, and the digits that a run doesn't have."""
    own: dict[Square, list[_Run]] = {}
    for run in runs:
        for at in run.cells:
            own.setdefault(at, []).append(run)
    for at in white:
        for digit in DIGITS if marks[at] in _WHITE else [int(marks[at])]:
            if all(any(digit in digits for digits in run.sets) for run in own.get(at, ())):
                yield [_name(at), *(f"{run.name}={digit}" for run in own.get(at, ()))]
    for run in runs:
        for digits in run.sets:
            yield [run.name, *(f"{run.name}={digit}" for digit in DIGITS if digit not in digits)]


def _name(at: Square) -> str:
    return f"r{at[0]}c{at[1]}"


# ---- the picture


def _marks(rows: Sequence[tuple[int, list[str]]]) -> dict[Square, str]:
    """What stands in each cell."""
    wide = Counter(len(words) for _, words in rows if words).most_common(1)[0][0]
    marks = {}
    for r, (number, words) in enumerate(rows, 1):
        if len(words) != wide:
            raise TableFault(number, cut(" ".join(words)), f"{len(words)} cells, where other rows have {wide}")
        for c, word in enumerate(words, 1):
            is_digit = word in {str(digit) for digit in DIGITS}
            if not (word in (*_WHITE, _BLACK) or is_digit or _SUMS.match(word)):
                hint = f" (a sum has \\ before it, \\{word}, or after it, {word}\\)" if _SUM.match(word) else ""
                raise TableFault(number, cut(word), f"neither a dot, a digit, # nor sums such as 17\\24{hint}")
            marks[r, c] = word
    return marks


def _runs(rows: Sequence[tuple[int, list[str]]], marks: dict[Square, str]) -> Iterator[_Run]:
    """The runs that have a sum. Raises `TableFault` for one that hasn't, or can't have it."""
    for way, (down, right) in _STEPS.items():
        for (r, c), mark in marks.items():
            number = rows[r - 1][0]
            if mark in _WHITE or mark.isdigit():
                if _is_white(marks, (r + down, c + right)) and (r - down, c - right) not in marks:
                    raise TableFault(number, "", f"the cells {_where(way)} from {_name((r, c))} on have no sum")
                continue
            cells = []
            at = r + down, c + right
            while _is_white(marks, at):
                cells.append(at)
                at = at[0] + down, at[1] + right
            found = _SUMS.match(mark)
            asked = found.group(1 if way == _DOWN else 2) if found else ""
            if not asked and len(cells) > 1:
                reason = f"no sum for the {len(cells)} cells {_where(way)} from {_name(cells[0])} on"
                raise TableFault(number, mark, reason)
            if asked:
                total = None if asked == _UNKNOWN else int(asked)
                run = _Run(f"{way}-{_name(cells[0])}" if cells else "", way, number, total, cells)
                run.sets = list(_sets(run, mark))
                yield run


def _is_white(marks: dict[Square, str], at: Square) -> bool:
    mark = marks.get(at)
    return mark is not None and (mark in _WHITE or mark.isdigit())


def _where(way: str) -> str:
    return "to the right" if way == _ACROSS else "downwards"


def _sets(run: _Run, mark: str) -> Iterator[frozenset[int]]:
    """The digits that a run may have. Raises `TableFault` where there are none."""
    count, beside = len(run.cells), "to its right" if run.way == _ACROSS else "below it"
    if not count:
        which = "a sum" if run.total is None else f"the sum {run.total}"
        raise TableFault(run.line, mark, f"there is no white cell {beside} that would have {which}")
    if count > len(DIGITS):
        raise TableFault(run.line, mark, f"{count} cells {beside}, and there are nine digits")
    least, most = sum(DIGITS[:count]), sum(DIGITS[-count:])
    if run.total is not None and not least <= run.total <= most:
        what = "digit" if count == 1 else "digits that differ"
        bounds = f"{least} at least and {most} at most"
        raise TableFault(run.line, mark, f"the sum {run.total} is asked of {count} {what} {beside}: {bounds}")
    for digits in itertools.combinations(DIGITS, count):
        if run.total in (None, sum(digits)):
            yield frozenset(digits)


def _check_totals(rows: Sequence[tuple[int, list[str]]], runs: Sequence[_Run]) -> None:
    """Raises `TableFault` where cells that are connected sum to one number across and to another one down."""
    across = {at: run for run in runs if run.way == _ACROSS for at in run.cells}
    down = {at: run for run in runs if run.way == _DOWN for at in run.cells}
    left = set(across) | set(down)
    while left:
        first = min(left)
        joined: set[Square] = set()
        waiting = [first]
        while waiting:
            at = waiting.pop()
            if at in left:
                left.discard(at)
                joined.add(at)
                waiting += [other for own in (across, down) if at in own for other in own[at].cells]
        if joined <= set(across) and joined <= set(down):
            totals = [_sum_of(own[at] for at in joined) for own in (across, down)]
            if None not in totals and totals[0] != totals[1]:
                sums = f"the sums across are {totals[0]} in all and those down {totals[1]}"
                which = f"of the cells that are connected with {_name(first)}"
                raise TableFault(rows[first[0] - 1][0], "", f"{sums}, {which}")


def _sum_of(runs: Iterable[_Run]) -> int | None:
    """The sum of all cells of runs, each taken once, if it is known."""
    totals = {id(run): run.total for run in runs}.values()
    return None if None in totals else sum(total or 0 for total in totals)


def _check_given(
    rows: Sequence[tuple[int, list[str]]], runs: Sequence[_Run], marks: dict[Square, str]
) -> None:
    """Raises `TableFault` where the digits that are given don't fit the sum of their run."""
    for run in runs:
        given = [int(marks[at]) for at in run.cells if marks[at] not in _WHITE]
        at = next((at for at in run.cells if marks[at] not in _WHITE), run.cells[0])
        line = rows[at[0] - 1][0]
        where = f"the run {_where(run.way)} from {_name(run.cells[0])} on"
        twice = next((digit for digit, times in Counter(given).items() if times > 1), None)
        if twice is not None:
            raise TableFault(line, str(twice), f"given twice in {where}")
        if given and not any(digits.issuperset(given) for digits in run.sets):
            reason = f"given in {where}, whose sum can't be {run.total} with it"
            raise TableFault(line, " ".join(map(str, given)), reason)


# ---- pictures


def drawing(problem: Problem[Any]) -> Drawing:
    """The grid with its digits, as it is written."""
    board = [(int(found.group(1)), int(found.group(2))) for found in map(_CELL.match, problem.item_names) if found]
    totals: dict[Square, tuple[set[int], set[int]]] = {}
    for option in problem.options:
        name, *words = problem.line(option).split()
        run = _RUN.match(name)
        if run is not None:
            way, r, c = run.group(1), int(run.group(2)), int(run.group(3))
            missing = sum(int(found.group(1)) for found in map(_HELD.match, words) if found)
            head = (r, c - 1) if way == _ACROSS else (r - 1, c)
            totals.setdefault(head, (set(), set()))[way == _ACROSS].add(sum(DIGITS) - missing)
    rows, columns = max(r for r, _ in board), max(c for _, c in board)
    check_size(rows, columns, len(board))

    def black(at: Square) -> Cell:
        below, right = map(_label, totals.get(at, ((), ())))
        own = (below, right) if below or right else None
        return Cell("" if own else _BLACK, "black", "#d4d0c8", is_quiet=True, sums=own)

    def draw(lines: Sequence[str]) -> Picture:
        cells = {(r - 1, c - 1): black((r, c)) for r in range(1, rows + 1) for c in range(1, columns + 1)}
        for r, c in board:
            cells[r - 1, c - 1] = Cell(group="white")
        for line in lines:
            at, digit = _cut(line)
            if at is not None and digit is not None:
                cells[at[0] - 1, at[1] - 1].label = digit
        return Picture("a Kakuro", cells)

    return draw


def _label(totals: Collection[int]) -> str:
    """What stands for a run whose digits may have these sums."""
    return _UNKNOWN if len(totals) > 1 else "".join(map(str, totals))


def _cut(line: str) -> tuple[Square | None, str | None]:
    """The cell and the digit of an option, if it is that of a cell."""
    words = line.split()
    cell = next((found for found in map(_CELL.match, words) if found), None)
    digit = next((found.group(1) for found in map(_HELD.match, words) if found), None)
    return None if cell is None else (int(cell.group(1)), int(cell.group(2))), digit


def _add_arguments(parser: argparse.ArgumentParser) -> None:
    parser.add_argument(
        "grid",
        metavar="GRID",
        help="a file with a picture, blanks between its cells: a dot a white cell, a digit a given one, # a black one, "
        "17\\24 a black one with the sum 17 below it and 24 to its right; ? stands for a sum that isn't given (- for "
        "standard input)",
    )


def _make(arguments: argparse.Namespace) -> Problem[list[str]]:
    return problem(read_text(arguments.grid))


def _clues(arguments: argparse.Namespace) -> Clues:
    """Digits, by their options, and sums, by numbers from that of the last option on, in the order of the file."""
    grid = read_text(arguments.grid)
    whole = problem(grid)
    marks = _marks([(number, line.split()) for number, line in picture(grid)])
    cells = {place: own for place, own in enumerate(map(_cut, map(whole.line, whole.options))) if None not in own}
    given = [place for place, (at, _) in cells.items() if at is not None and marks[at].isdigit()]
    # A cell without a run is of no clue.
    places = {at for at, _ in cells.values()}
    count = sum(len(_DIGITS.findall(mark)) for mark in marks.values() if not mark.isdigit())
    sums = range(len(whole.options), len(whole.options) + count)
    first = picture(grid)[0][0]

    def write(kept: Collection[int]) -> str:
        digits = {at: digit for place, (at, digit) in cells.items() if place in kept}
        numbers = itertools.count(len(whole.options))

        def sum_of(found: re.Match[str]) -> str:
            return found.group() if next(numbers) in kept else _UNKNOWN

        def cell(at: Square, word: str) -> str:
            if at in places:
                return digits.get(at) or (_WHITE[0] if word.isdigit() else word)
            return word if word.isdigit() else _DIGITS.sub(sum_of, word)

        rows = []
        for r, line in enumerate(grid.splitlines(), 2 - first):
            columns = itertools.count(1)
            rows.append(_WORD.sub(lambda found: cell((r, next(columns)), found.group()), line) + "\n")
        return "".join(rows)

    return Clues(whole, [*given, *sums], list(cells), write, lambda kept: problem(write(kept)))


KIND = Kind("kakuro", "a Kakuro from its grid", _add_arguments, _make, drawing, clues=_clues)


def __dir__() -> list[str]:
    return __all__

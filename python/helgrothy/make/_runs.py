"""A row or a column of a nonogram: the ways in which its runs may be laid into its squares.

A clue has the lengths of the runs. The mark of a square says what is known of it: #, ., or a blank for either.
"""

from __future__ import annotations

from bisect import bisect_left, bisect_right
from collections.abc import Iterator, Sequence

Clue = tuple[int, ...]

FILLED, EMPTY = "#", "."


def arrangements(clue: Clue, marks: Sequence[str]) -> Iterator[str]:
    """All arrangements of a line, as texts of # and . that keep to its marks."""
    may, size = _ends(clue, marks), len(marks)
    # What is still to be tried: the runs that are laid, the square after them, and the text up to there.
    left = [(0, 0, "")] if may[0][0] else []
    while left:
        k, i, text = left.pop()
        if i >= size:
            yield text[:size]
            continue
        if k < len(clue) and _lies(clue[k], marks, i) and may[k + 1][i + clue[k] + 1]:
            left.append((k + 1, i + clue[k] + 1, text + FILLED * clue[k] + EMPTY))
        if marks[i] != FILLED and may[k][i + 1]:
            left.append((k, i + 1, text + EMPTY))


def count(clue: Clue, marks: Sequence[str]) -> int:
    """How many arrangements a line has."""
    size = len(marks)
    ways = [1] * (size + 2)
    for i in range(size - 1, -1, -1):
        ways[i] = ways[i + 1] if marks[i] != FILLED else 0
    for length in reversed(clue):
        before, ways = ways, [0] * (size + 2)
        for i in range(size - length, -1, -1):
            ways[i] = ways[i + 1] if marks[i] != FILLED else 0
            if _lies(length, marks, i):
                ways[i] += before[i + length + 1]
    return ways[0]


def steps(clue: Clue, marks: Sequence[str]) -> Iterator[tuple[int, int, int]]:
    """The steps from each run to the next: the run's number from 1 on, its first square, and that of the next run.

    Number 0 is what is before the first run, and after the last run the next square is the one past the line. So an
    arrangement is a step of each number, which begins where the one before it says.
    """
    size = len(marks)
    places = _places(clue, marks, _ends(clue, marks), _ends(clue[::-1], marks[::-1]))
    filled_from = [size] * (size + 1)
    for i in range(size - 1, -1, -1):
        filled_from[i] = i if marks[i] == FILLED else filled_from[i + 1]
    for k, begins in enumerate([[0], *places]):
        is_last = k == len(clue)
        nexts = [size] if is_last else places[k]
        for i in begins:
            end = i + clue[k - 1] if k else 0
            first = bisect_left(nexts, end if is_last or not k else end + 1)
            for following in nexts[first : bisect_right(nexts, filled_from[end])]:
                yield k, i, following


def known(clue: Clue, marks: Sequence[str]) -> list[str] | None:
    """The marks that all arrangements have in common, or None where there is no arrangement."""
    size = len(marks)
    after = _ends(clue, marks)
    if not after[0][0]:
        return None
    # The same from the other end: whether the first k runs may be laid into the first i squares.
    before = _ends(clue[::-1], marks[::-1])
    may_be_filled = [0] * (size + 1)
    for length, begins in zip(clue, _places(clue, marks, after, before)):
        for i in begins:
            may_be_filled[i] += 1
            may_be_filled[i + length] -= 1
    may_be_empty = [False] * size
    for k in range(len(clue) + 1):
        for i in range(size):
            if marks[i] != FILLED and after[k][i + 1] and before[len(clue) - k][size - i]:
                may_be_empty[i] = True
    found, depth = [], 0
    for i in range(size):
        depth += may_be_filled[i]
        found.append(" " if depth and may_be_empty[i] else FILLED if depth else EMPTY)
    return found


def _places(
    clue: Clue, marks: Sequence[str], after: Sequence[Sequence[bool]], before: Sequence[Sequence[bool]]
) -> list[list[int]]:
    """The squares in which each run may begin in some arrangement."""
    size = len(marks)
    return [
        [
            i
            for i in range(size - length + 1)
            # A run has an empty square, or the edge, before it.
            if (not i or marks[i - 1] != FILLED)
            and before[len(clue) - k][size - i + 1]
            and _lies(length, marks, i)
            and after[k + 1][i + length + 1]
        ]
        for k, length in enumerate(clue)
    ]


def _ends(clue: Clue, marks: Sequence[str]) -> list[list[bool]]:
    """[k][i]: whether the runs from k on may be laid into the squares from i on. A mark is #, ., or a blank: either."""
    size = len(marks)
    may = [[False] * (size + 2) for _ in range(len(clue) + 1)]
    may[-1][size] = may[-1][size + 1] = True
    for i in range(size - 1, -1, -1):
        may[-1][i] = may[-1][i + 1] and marks[i] != FILLED
    for k in range(len(clue) - 1, -1, -1):
        for i in range(size - clue[k], -1, -1):
            is_laid = _lies(clue[k], marks, i) and may[k + 1][i + clue[k] + 1]
            may[k][i] = is_laid or marks[i] != FILLED and may[k][i + 1]
    return may


def _lies(length: int, marks: Sequence[str], at: int) -> bool:
    """Whether a run may lie there: its squares may be filled, and the next one may be empty."""
    end = at + length
    return EMPTY not in marks[at:end] and (end == len(marks) or marks[end] != FILLED)

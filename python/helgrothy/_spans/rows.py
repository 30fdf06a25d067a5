"""Rows of branch numbers: the number of each member's choices from the first level down.

Rows stand in the order of a dictionary, as tuples of Python do. The empty row is the beginning of a listing; None is
its end.

A tree has `PARTS` parts, and each branch of a node as many of the node's parts as any other one, give or take one. A
row's place is the number of parts before it. The parts of a branch begin where those of the branch before it end, so
places never fall from a row to a later one, however deep the rows are, and what is added up is exact.

Floating-point numbers were tried: their last bits let a span end before it begins. Fractions grow with the depth.
"""

from __future__ import annotations

import re
from typing import NamedTuple, Optional

from ..errors import SearchFault

Row = tuple[int, ...]
Until = Optional[Row]

MOST_NUMBER = (1 << 32) - 1
PARTS = 1 << 256
# What isn't done is no larger share.
_NEARLY_ALL = 1 - 2**-53
# A span isn't cut at a level where pieces would be smaller than one such part of it.
_LEAST_PIECE = 128
_WORD = re.compile(r"[0-9]+(?:\.[0-9]+)*\Z")
_MANY_DIGITS = re.compile(r"0*[1-9][0-9]{10}")


class Span(NamedTuple):
    """The members from a row on and before another one; `begins` and `ends` are the places of the two rows."""

    start: Row
    until: Until
    begins: int
    ends: int


WHOLE = Span((), None, 0, PARTS)


def word_of(row: Until) -> str:
    """A row as the programs take and print it; `-` for the beginning and the end."""
    return ".".join(map(str, row)) if row else "-"


def read(word: str) -> Row:
    """The row that an argument says; `-` is the empty row. Raises `SearchFault`."""
    if word == "-":
        return ()
    if not _WORD.match(word) or _MANY_DIGITS.search(word):
        raise SearchFault(f"{word[:40]}: no row; one is numbers with `.` between, as 3.1.7, or -")
    row = tuple(map(int, word.split(".")))
    if max(row) > MOST_NUMBER:
        raise SearchFault(f"{word[:40]}: a row's numbers are at most {MOST_NUMBER}")
    return row


def read_until(word: str) -> Until:
    """The end of a span from its argument. Raises `SearchFault`."""
    return None if word == "-" else read(word)


def precedes(row: Row, until: Until) -> bool:
    """Whether a row stands before the end of a span."""
    return until is None or row < until


def place(row: Row, branches: Row) -> int:
    """The place of a row, each of whose numbers stands beside the number of branches of its level."""
    begins, parts = 0, PARTS
    for k, n in zip(row, branches):
        begins, parts = _branch(begins, parts, k, n)
    return begins


def share_of(parts: int, is_done: bool = False) -> float:
    """The share of the tree that so many parts are: 1 of what is done alone."""
    return 1.0 if is_done else min(max(parts, 0) / PARTS, _NEARLY_ALL)


def _branch(begins: int, parts: int, k: int, n: int) -> tuple[int, int]:
    """Where branch k of a node's n begins and how many parts it has; a branch that there isn't has none."""
    if k == n == 1:
        return begins, parts
    before = _before(parts, k, n)
    return begins + before, _before(parts, k + 1, n) - before


def _before(parts: int, k: int, n: int) -> int:
    """How many of a node's parts stand before its branch k."""
    return parts * min(max(k - 1, 0), n) // max(n, 1)


def cut(span: Span, branches: Row, pieces: int) -> list[Span]:
    """A span in up to so many pieces, cut between branches of the highest levels.

    `branches` are those of the levels of the row at which it begins.
    """
    found: list[tuple[Row, int]] = []
    begins, parts = 0, PARTS
    # The row of the end, as long as it is that of the beginning.
    end = span.until
    for level, (k, n) in enumerate(zip(span.start, branches)):
        wanted = pieces - 1 - len(found)
        last = _last_branch(end, level, n)
        # Where a level has many branches a piece is some of them.
        together = max((last - k) // pieces, 1)
        if wanted <= 0 or parts * together * _LEAST_PIECE < n * (span.ends - span.begins):
            break
        rows = [(*span.start[:level], branch) for branch in _some(k + 1, last, wanted)]
        # The highest levels' rows come last.
        found[:0] = [(row, _within(span, begins + _before(parts, row[level], n))) for row in rows]
        begins, parts = _branch(begins, parts, k, n)
        end = end if end is not None and end[level] == k else None
    edges = [(span.start, span.begins), *found]
    ends: list[tuple[Until, int]] = [*found, (span.until, span.ends)]
    return [Span(start, until, begins, at) for (start, begins), (until, at) in zip(edges, ends)]


def _within(span: Span, at: int) -> int:
    """A place that isn't out of a span, even if a program has given other branches of the same row before."""
    return min(max(at, span.begins), span.ends)


def _last_branch(end: Until, level: int, branches: int) -> int:
    """The last branch of a level that is begun before the end; None if all are."""
    if end is None:
        return branches
    return min(branches, end[level] if len(end) > level + 1 else end[level] - 1)


def _some(first: int, last: int, most: int) -> list[int]:
    """At most so many of the numbers from the first to the last, as evenly as can be."""
    count = last - first + 1
    if count <= most:
        return list(range(first, last + 1))
    return [first + (count * (i + 1)) // (most + 1) for i in range(most)]

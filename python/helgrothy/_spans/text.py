"""What a search needs to know of a problem's text, in one pass: which program it is for, and which lines are ignored.

The programs judge the text; what is said here of a text with a fault is nothing.
"""

from __future__ import annotations

from collections.abc import Iterator
from itertools import takewhile


def kind_of(problem: bytes) -> int:
    """The program for a problem: 3 where an item has bounds, else 2 where an option has a colour, else 1."""
    items, options = _lines(problem)
    if any(b"|" in token.lstrip(b"|") for token in items.split()):
        return 3
    return 2 if any(b":" in line for _, line in options) else 1


def ignored(problem: bytes) -> list[int]:
    """The lines of options without a primary item. Asks that the text has no fault."""
    items, options = _lines(problem)
    if b"|" not in items:
        return []
    # A bar within a token ends the bounds of a primary item; one at the beginning comes before the secondary items.
    tokens = takewhile(lambda token: not token.startswith(b"|"), items.split())
    primary = {token.rpartition(b"|")[2] for token in tokens}
    return [number for number, line in options if primary.isdisjoint(line.split())]


def _lines(problem: bytes) -> tuple[bytes, Iterator[tuple[int, bytes]]]:
    """The item line, and the lines of options with their numbers."""
    lines = (
        (number, line)
        for number, line in enumerate(problem.split(b"\n"), 1)
        if line.strip() and not line.lstrip().startswith(b"|")
    )
    return next(lines, (0, b""))[1], lines

"""A page of solutions as one file, which needs no server and nothing from elsewhere."""

from __future__ import annotations

from collections.abc import Iterable, Sequence
from typing import Any

from .._text.listing import Step
from ..problem import Problem
from .document import document
from .record import Draw, Record

BODIES, SCRIPTS = ["viewer.html"], ["viewer.js", "file.js"]
# A browser shows so many pictures, and so much text, without making anybody wait long.
MOST_SOLUTIONS = 10_000
_MOST_TEXT = 1 << 26


class File:
    """A page of a problem's solutions, each with its picture where `draw` has one; `text` is all of it."""

    def __init__(self, problem: Problem[Any], draw: Draw | None) -> None:
        self._record = Record(problem, draw)
        self._lines: list[str] = [self._record.problem()]
        self._length = 0

    def add(self, number: int, steps: Sequence[Step]) -> None:
        """A solution of this number."""
        line = self._record.solution(number, steps)
        self._length += len(line)
        self._lines.append(line)

    @property
    def is_full(self) -> bool:
        """Whether no more solutions should be added."""
        return len(self._lines) > MOST_SOLUTIONS or self._length > _MOST_TEXT

    def text(self, total: int, is_complete: bool, notes: Iterable[str] = ()) -> str:
        """The document: with how many solutions there were, whether these are all, and what else is to be said."""
        lines = [*self._lines, self._record.end(total, is_complete, notes)]
        return document(BODIES, self._record.title, SCRIPTS, lines)

"""Puzzles whose clues can be left out, most of them options that are given."""

from __future__ import annotations

from collections.abc import Callable, Iterable, Sequence
from dataclasses import dataclass
from typing import Any

from .._text.named import Named
from ..problem import Problem


@dataclass(frozen=True)
class Clues:
    """problem: without clues. given: the options that are clues. cells: those that may be. write: the puzzle as it was
    typed, with these clues. left: of a kind with clues that are no options, which have other numbers, the problem that
    has these clues alone; `problem` has all then."""

    problem: Problem[Any]
    given: list[int]
    cells: list[int]
    write: Callable[[Sequence[int]], str]
    left: Callable[[Sequence[int]], Problem[Any]] | None = None


def options_of(problem: Problem[Any], clues: Iterable[tuple[str, str]]) -> list[int]:
    """The options of clues, each two items of one. Raises `ValueError` for a clue that no option has."""
    named = Named(problem)
    found = []
    for items in clues:
        places = named.having(items)
        if not places:
            raise ValueError(f"{' '.join(items)} can't be, whatever else is")
        found += places
    return found

"""The solution of a number, without those before it: by dlx-count, beside a search that passes over them.

dlx-count counts the branches of the listing and goes down the one that has the number. Where that takes longer than to
pass over the solutions before it the search is first, so both run at once, as for a count.
"""

from __future__ import annotations

import random
import re
from collections.abc import Generator
from contextlib import ExitStack
from typing import Any, TypeVar

from ..errors import ProgramFailed, ProgramNotFound
from ..problem import Problem
from .counter import PROGRAM
from .programs import Ending, Run, last_line
from .solution import Solution
from .stream import Outcome, Solutions, sooner

__all__ = ["lot", "solve"]

Option = TypeVar("Option", bound=Any)
# The lines of a solution's choices, or None where there are only so many solutions.
_Answer = tuple["bytes | None", int]

# So many solutions the search alone passes over, which takes it no longer than to begin.
_FEW = 1_000
# The largest number that a search takes.
_MOST_OF_SEARCH = (1 << 64) - 1
# Where dlx-count can't help the search passes over so many at most.
_MOST_PASSED = 1_000_000_000
_SOLUTION = re.compile(rb"[0-9]+:\n(.+)\Z", re.DOTALL)


def lot(total: int, seed: int | None = None) -> int:
    """A number from 1 to `total`, each as likely as any other; the same for the same seed."""
    return random.Random(seed).randrange(total) + 1


def solve(
    problem: Problem[Option], number: int, seconds: float | None = None, total: int | None = None
) -> Solutions[Option]:
    """The solution of this number alone, from 1 on; none where there are fewer.

    total: how many there are, where that is known. Raises what `Problem.solve` does.
    """
    if number < 1:
        raise ValueError("number must be at least 1")
    if number <= _FEW:
        return problem.solve(number, number, seconds=seconds)

    def begin(outcome: Outcome) -> Generator[Solution[Option], None, None]:
        lines, give = problem._wire(None)
        finder = _Finder(b"".join(lines), problem.kind, number, seconds)
        choices, last = finder.find() if total is None or number <= total else (None, total)
        if choices is not None:
            yield give(choices)
        outcome.end(last, choices is None)

    return Solutions(begin, lambda most: solve(problem, number, sooner(seconds, most), total))


class _Finder:
    """Finds the solution of a number of the problem of a text."""

    def __init__(self, text: bytes, kind: int, number: int, seconds: float | None) -> None:
        self._text = text
        self._kind = kind
        self._number = number
        self._seconds = seconds
        # What dlx-count said where it gave no solution.
        self._refused: ProgramFailed | None = None

    def find(self) -> _Answer:
        with ExitStack() as both:
            most = min(self._number, _MOST_OF_SEARCH)
            search = both.enter_context(self._run(f"dlx{self._kind}", f"m{most}", f"t{most}"))
            counter = self._descent(both)
            printed: list[bytes] = []
            while not search.has_ended:
                printed += search.chunks(until=counter)
                if counter is not None and not search.has_ended:
                    answer, counter = self._ask(both, counter)
                    if answer is not None:
                        return answer
            ending = Ending(search)
        found = _SOLUTION.match(b"".join(printed))
        return (None if found is None else found.group(1)), ending.total

    def _run(self, program: str, *words: str) -> Run:
        return Run(program, words, [self._text], self._seconds)

    def _descent(self, both: ExitStack) -> Run | None:
        """A run of dlx-count that looks for the solution. Raises `ProgramNotFound` where only that may find it."""
        try:
            return self._counter(both, f"n{self._number}")
        except (ProgramNotFound, OSError):
            if self._number > _MOST_PASSED:
                raise
            return None

    def _counter(self, both: ExitStack, *words: str) -> Run:
        counter = both.enter_context(self._run(PROGRAM, str(self._kind), *words))
        counter.go_behind()
        return counter

    def _ask(self, both: ExitStack, counter: Run) -> tuple[_Answer | None, Run | None]:
        """What a run of dlx-count that has ended says, and a further run where it takes one to say it."""
        found = _SOLUTION.match(b"".join(counter.chunks()))
        if counter.status() == 0 and found is not None:
            return (found.group(1), self._number), None
        if self._refused is None:
            # There may be fewer solutions, of which it doesn't say how many there are.
            self._refused = counter.failure()
            return None, self._counter(both)
        last = last_line(counter.messages())
        total = self._number if last is None else last[0]
        if total < self._number:
            return (None, total), None
        if self._number > _MOST_PASSED:
            raise self._refused
        return None, None

"""In how many solutions each option is.

One run of dlx-count reports it, by the states of its sweep or, where there are few solutions, by going over them.
Otherwise it counts for each option the solutions that have it: those of the problem in which that option has a further
item of its own.
"""

from __future__ import annotations

import select
import time
from collections import Counter, deque
from contextlib import ExitStack, suppress
from dataclasses import dataclass
from typing import Any

from .._text.listing import turned
from .._text.shown import bytes_of
from .._text.syntax import ONCE
from ..errors import OutOfTime, ProgramNotFound
from ..problem import Problem
from .counter import MOST_MEGABYTES, PROGRAM
from .programs import Ending, Run, processors, read_number
from .wire import Wire

__all__ = ["Occurrences", "find"]

# So many solutions are gone over.
_FEW = 1_000_000
# So many seconds the states may take; where they have no memory dlx-count goes over the solutions, perhaps forever.
_STATES_SECONDS = 20.0


@dataclass(frozen=True)
class Occurrences:
    """by_option: of each option in how many solutions it is. total: how many solutions there are."""

    by_option: list[int]
    total: int


def find(problem: Problem[Any], seconds: float | None = None, jobs: int | None = None) -> Occurrences:
    """In how many solutions each option is. Raises `ProgramNotFound`, `ProgramFailed` and `OutOfTime`."""
    if jobs is not None and jobs < 1:
        raise ValueError("jobs must be at least 1")
    deadline = time.monotonic() + (float("inf") if seconds is None else seconds)
    total = problem._count(seconds).total
    left = None if seconds is None else max(0.0, deadline - time.monotonic())
    if total <= _FEW:
        try:
            return Occurrences(_printed(problem, left), total)
        except ProgramNotFound:
            return Occurrences(_searched(problem, left), total)
    if all(bounds == ONCE for bounds in problem.items.values()):
        patience = _STATES_SECONDS if left is None else min(left / 2, _STATES_SECONDS)
        with suppress(OutOfTime):
            return Occurrences(_printed(problem, patience), total)
    classes = _Classes(problem)
    times = _Counting(classes, problem.kind, deadline).run(jobs or processors())
    return Occurrences(classes.shared(times), total)


def _printed(problem: Problem[Any], seconds: float | None) -> list[int]:
    """By the lines of a run of dlx-count: those of the options with a primary item, in their order."""
    found = [0] * len(problem.options)
    kept = [place for place, option in enumerate(problem.options) if _is_kept(problem, option)]
    text = [bytes_of(f"{line}\n") for line in Wire(problem).lines]
    with Run(PROGRAM, [str(problem.kind), "o"], text, seconds) as run:
        lines = b"".join(run.chunks()).splitlines()
        if run.status() != 0 or len(lines) != len(kept):
            raise run.failure()
    for place, line in zip(kept, lines):
        found[place] = read_number(line.partition(b" ")[2].decode())
    return found


def _searched(problem: Problem[Any], seconds: float | None) -> list[int]:
    """By all solutions, where there is no dlx-count."""
    times = Counter(number for one in problem.solve(seconds=seconds) for number in one.numbers)
    return [times[number] for number in range(len(problem.options))]


def _is_kept(problem: Problem[Any], option: Any) -> bool:
    """Whether an option has a primary item. Programs ignore others."""
    return any(item in problem.items for item, _ in problem._pairs(option))


class _Classes:
    """The options of a problem's text by what they hold: those that are equal are in as many solutions each.

    lines: of the text. holders: of the words of an option, turned as the listing has them, the places of the options
    that have these words and a primary item. mark: the name of an item that is in none.
    """

    def __init__(self, problem: Problem[Any]) -> None:
        wire = Wire(problem)
        self.lines = [bytes_of(f"{line}\n") for line in wire.lines]
        self.mark = bytes_of(wire.spare)
        self.holders: dict[bytes, list[int]] = {}
        self._count = len(problem.options)
        for place, (option, line) in enumerate(zip(problem.options, wire.lines[1:])):
            if _is_kept(problem, option):
                self.holders.setdefault(turned(bytes_of(line)), []).append(place)

    def shared(self, times: dict[bytes, int]) -> list[int]:
        """Of each option its part of how often the options of its words are chosen."""
        found = [0] * self._count
        for words, places in self.holders.items():
            for place in places:
                found[place] = times.get(words, 0) // len(places)
        return found


class _Counting:
    """Counts for each option, in several processes at once."""

    def __init__(self, classes: _Classes, kind: int, deadline: float) -> None:
        self._classes = classes
        self._kind = kind
        self._deadline = deadline
        self._waiting = deque(classes.holders)
        self._running: dict[Run, tuple[bytes, ExitStack]] = {}
        self._times: dict[bytes, int] = {}

    def run(self, jobs: int) -> dict[bytes, int]:
        """How often the options of some words are chosen in all solutions. Raises `OutOfTime`."""
        try:
            while self._waiting or self._running:
                while self._waiting and len(self._running) < jobs:
                    self._begin(self._waiting.popleft())
                left = max(0.0, min(self._deadline - time.monotonic(), 1e6))
                # A count prints nothing on standard output, which is closed at its end.
                ended = select.select(list(self._running), [], [], left)[0]
                if not ended:
                    known = f"of {len(self._times)} of {len(self._classes.holders)} options"
                    raise OutOfTime(f"in the time it was counted {known} in how many solutions they are")
                for run in ended:
                    self._end(run)
        finally:
            for _, stack in self._running.values():
                stack.close()
        return self._times

    def _begin(self, words: bytes) -> None:
        classes = self._classes
        head, *lines = classes.lines
        place = classes.holders[words][0]
        marked = lines[place].rstrip(b"\n") + b" " + classes.mark + b"\n"
        text = [classes.mark + b" " + head, *lines[:place], marked, *lines[place + 1 :]]
        stack = ExitStack()
        run = stack.enter_context(Run(PROGRAM, [str(self._kind), f"b{MOST_MEGABYTES}"], text))
        self._running[run] = words, stack

    def _end(self, run: Run) -> None:
        words, stack = self._running.pop(run)
        with stack:
            self._times[words] = Ending(run).total * len(self._classes.holders[words])

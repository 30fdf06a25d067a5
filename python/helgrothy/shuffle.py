"""Solutions in a random order, the same for the same seed on every machine and in every Python.

The options are put into a random order and searched for a while; if that wasn't enough, they are put into another order
and searched for twice as long. The while is counted in steps of the search and not in seconds.
"""

from __future__ import annotations

import random
import re
import time
from collections.abc import Generator, Sequence
from typing import Any, TypeVar

from ._run.programs import Run
from ._run.solution import Solution
from ._run.stream import Outcome, Solutions, check_numbers, sooner
from .errors import OutOfTime
from .problem import Problem

__all__ = ["solve"]

Option = TypeVar("Option", bound=Any)

_FIRST_STEPS = 1_000
_MOST_STEPS = 1 << 60
_HEADER = re.compile(rb"^[0-9]+:\n", re.MULTILINE)
_ROWS = rb"from [0-9.-]+ until [0-9.-]+ (of [0-9.-]+ )?"
_DIGESTS = rb"problem [0-9a-f]{16} text [0-9a-f]{16}"
_RECORD = re.compile(rb"^%ssolutions [0-9]+ steps [0-9]+ %s\n\Z" % (_ROWS, _DIGESTS), re.MULTILINE)


def order(count: int, rng: random.Random) -> list[int]:
    """The numbers below `count` in a random order.

    It takes nothing of the generator but `random`, which Python promises to keep for a seed.
    """
    places = list(range(count))
    for last in range(count - 1, 0, -1):
        other = int(rng.random() * (last + 1))
        places[last], places[other] = places[other], places[last]
    return places


def solve(
    problem: Problem[Option],
    seed: int,
    limit: int | None = None,
    spacing: int = 1,
    *,
    seconds: float | None = None,
) -> Solutions[Option]:
    """Solutions in a random order. limit, spacing and seconds are those of `Problem.solve`.

    With a limit the search begins anew, ever longer, until so many are found in one order; without one all solutions
    come, in one order. Solutions one after another have most of their options in common; those of other seeds have not.
    """
    check_numbers(limit, spacing)

    def begin(outcome: Outcome) -> Generator[Solution[Option], None, None]:
        rng = random.Random(seed)
        if limit is None:
            return _all(problem, rng, spacing, seconds, outcome)
        return _first(problem, rng, limit, spacing, seconds, outcome)

    def again(most: float) -> Solutions[Option]:
        return solve(problem, seed, limit, spacing, seconds=sooner(seconds, most))

    return Solutions(begin, again)


def _all(
    problem: Problem[Option], rng: random.Random, spacing: int, seconds: float | None, outcome: Outcome
) -> Generator[Solution[Option], None, None]:
    """All solutions in one order."""
    places = order(len(problem.options), rng)
    with problem._search(places, spacing=spacing, seconds=seconds) as solutions:
        yield from solutions
    outcome.end(solutions.total or 0, True)


def _first(
    problem: Problem[Option], rng: random.Random, limit: int, spacing: int, seconds: float | None, outcome: Outcome
) -> Generator[Solution[Option], None, None]:
    """The first solutions, in the first order in which so many come soon."""
    deadline = None if seconds is None else time.monotonic() + seconds
    steps, most = _FIRST_STEPS, 0
    while True:
        places = order(len(problem.options), rng)
        left = None if deadline is None else max(deadline - time.monotonic(), 0.0)
        try:
            found, is_whole = _try(problem, places, steps, limit, left)
        except OutOfTime as error:
            error.found = most
            raise
        most = max(most, len(found))
        if is_whole or len(found) == limit:
            yield from found[spacing - 1 :: spacing]
            outcome.end(len(found), is_whole and len(found) < limit)
            return
        steps = min(2 * steps, _MOST_STEPS)


def _try(
    problem: Problem[Option], places: Sequence[int], steps: int, limit: int, seconds: float | None
) -> tuple[list[Solution[Option]], bool]:
    """The first solutions in so many steps, and whether these are all there are."""
    lines, give = problem._wire(places)
    chunks: list[bytes] = []
    count, last = 0, b""
    with Run("dlx-span", [str(problem.kind), "m1", str(steps), "-", "-"], lines, seconds) as run:
        for chunk in run.chunks():
            # No line but that of a solution's number ends with a colon.
            count += (last + chunk).count(b":\n")
            last = chunk[-1:]
            chunks.append(chunk)
            if count > limit:
                break
        else:
            if run.status() != 0:
                raise run.failure()
        text = b"".join(chunks)
        record = _RECORD.search(text)
        body = text if record is None else text[: record.start()]
        solutions = _HEADER.split(body)[1:]
        if record is None and len(solutions) <= limit:
            raise run.failure()
    return [give(lines) for lines in solutions[:limit]], record is not None and record.group(1) is None

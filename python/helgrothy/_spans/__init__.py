"""A long search on all processors or many machines, cut into spans between two rows of branch numbers.

`Problem.count(jobs=..)` and the command `helgrothy search` are over this.
"""

from __future__ import annotations

import time
from typing import TYPE_CHECKING

from .._run.programs import processors
from ..errors import OutOfTime
from .join import count as joined
from .join import number_of
from .loop import Job, Kept, Loop, Progress, Report, submitting
from .rows import WHOLE, Row, Until
from .workers import MOST_JOBS, Own, Workers, executor_jobs

if TYPE_CHECKING:
    from concurrent.futures import Executor

__all__ = ["Progress", "count"]


def count(
    problem: bytes,
    kind: int,
    jobs: int | None = None,
    executor: Executor | None = None,
    progress: Report | None = None,
    seconds: float | None = None,
) -> int:
    """How many solutions a problem has, by so many processors or by an executor.

    Raises `ProgramNotFound`, `ProgramFailed`, `SearchFault`, and `OutOfTime`, whose `found` is what was found by then;
    and `ValueError` for more processors than there can be.
    """
    if executor is None and jobs is not None and jobs > MOST_JOBS:
        raise ValueError(f"jobs must be at most {MOST_JOBS}")
    found: dict[Row, Kept] = {}

    def keep(kept: Kept) -> None:
        found[kept.span.start] = kept

    if executor is None:
        workers: Workers = Own(jobs or processors())
    else:
        workers = Workers(submitting(executor), jobs or executor_jobs(executor))
    begun = time.monotonic()
    with workers:
        job = Job(problem, kind, listed=False)
        loop = Loop(job, workers.submit, workers.count, keep, progress, workers.ahead, workers.longest)
        is_done = loop.search([WHOLE], seconds)
    if not is_done:
        error = OutOfTime(f"the search took longer than {time.monotonic() - begun:.3g} seconds")
        error.found = loop.solutions
        raise error
    texts: list[bytes] = []
    at: Until = ()
    while at is not None:
        texts.append(found[at].text)
        at = found[at].span.until
    return number_of(joined([lambda: b"".join(texts)]))

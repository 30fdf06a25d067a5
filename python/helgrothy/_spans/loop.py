"""The loop of a search: it hands out spans, waits for the first that comes back, keeps what it found, and cuts and
hands out what it left.

It needs an executor of `concurrent.futures`, this machine's processors or another one. Which machine searched a span,
and how often one was searched in vain, is nothing to the result: any chain of spans whose ends meet is the listing.

The earliest span is handed out first, so the listing comes in its order, and what is done is few files. A level of many
branches is cut into pieces of many branches. Cut only where a single branch is a hundredth of the span, a first level
of 9,000 branches was searched by one worker, and the others waited.
"""

from __future__ import annotations

import heapq
import itertools
import queue
import time
from collections.abc import Callable
from functools import partial
from typing import TYPE_CHECKING, NamedTuple, Union

from .. import __version__
from .._text.clock import clock, percent
from ..errors import HelgrothyError, ProgramFailed, ProgramNotFound, SearchFault, reason_of
from . import record as records
from .pace import LONGEST, SHORTEST, Pace
from .rows import PARTS, Span, cut, place, share_of, word_of
from .span import Ran, Task, run

if TYPE_CHECKING:
    from concurrent.futures import Executor, Future

# Spans that are on their way or ready for each worker, so that none waits for its next.
_AHEAD = 2
# A span is given up after so many runs that failed.
_TRIES = 5
# The system takes no longer arguments than 131,071 bytes.
_LONGEST_WORD = 100_000
# Where a row is too long a run is given so many times the steps, and at last no bound.
_MORE = 16
_MOST_FACTOR = 1 << 40
# No text of a run has more bytes, but one of a single step.
MOST_TEXT = 1 << 24
_TICK = 0.1
# Before so much of a search is done nobody knows how long it takes.
_LEAST_PARTS = PARTS // 1000


class Kept(NamedTuple):
    """A span that is done: its text or some texts one after another, and what that took of a processor."""

    span: Span
    text: bytes
    solutions: int
    seconds: float


class Progress(NamedTuple):
    """How far a search is.

    share: of the tree, if all branches of a level are taken to be equally large; 1 when all is done, and not before.
    seconds: since it began or went on. left: about how many seconds it takes yet, None where nothing is known. at_work:
    the spans that are searched.
    """

    share: float
    solutions: int
    seconds: float
    left: float | None
    at_work: int

    def __str__(self) -> str:
        left = "" if self.left is None else f", about {clock(self.left)} left"
        done = f"{percent(self.share)}   {self.solutions:,} solutions"
        return f"{done}   {clock(self.seconds)}{left}   {self.at_work} at work"


class Job(NamedTuple):
    """What is searched: a problem's text, the program for it, and whether the solutions are listed.

    digest: the problem's, as records have it; empty where no program has given it yet. name: what messages call it.
    """

    problem: bytes
    kind: int
    listed: bool
    digest: str = ""
    name: str = "the problem"


class _Todo(NamedTuple):
    """A span to be searched; how often that failed, and by how much more steps it is tried.

    With a factor of more than 1 the row at which a run stopped was too long for an argument, so that no bound is put to
    the text.
    """

    span: Span
    failed: int = 0
    factor: int = 1


Keep = Callable[[Kept], None]
Report = Callable[[Progress], object]
# What came of a task: what its run printed, or what it failed with.
Outcome = Union[Ran, BaseException]
# Hands a task to a worker, which calls with what came of it, in any thread; gives a call that cancels the task.
Submit = Callable[[Task, Callable[[Outcome], object]], Callable[[], object]]


class Loop:
    """A search of spans.

    workers: how many there are. keep: takes each span that is done. report: gets how far the search is, some times a
    second. ahead: so many tasks are handed out for each worker. longest: about so many seconds a span takes at most.
    """

    def __init__(
        self,
        job: Job,
        submit: Submit,
        workers: Callable[[], int],
        keep: Keep,
        report: Report | None,
        ahead: int = _AHEAD,
        longest: float = LONGEST,
    ) -> None:
        self._job = job
        self._submit = submit
        self._workers = workers
        self._keep = keep
        self._report = report
        self._ahead = ahead
        self._pace = Pace(MOST_TEXT if job.listed else 0, longest)
        self._digest = job.digest
        self._ready: list[tuple[tuple[int, ...], int, _Todo]] = []
        self._number = itertools.count()
        self._came: queue.SimpleQueue[tuple[int, Outcome] | None] = queue.SimpleQueue()
        # Of each run by its number what it searches, by how many steps, and what cancels it.
        self._runs: dict[int, tuple[_Todo, int, Callable[[], object]]] = {}
        self._begun = time.monotonic()
        self._deadline = float("inf")
        self._parts_before = 0
        # What is done of the tree's parts.
        self.parts = 0
        self.solutions = 0

    def done_before(self, parts: int, solutions: int) -> None:
        """What was done when the search goes on."""
        self._parts_before = self.parts = parts
        self.solutions = solutions

    def wake(self) -> None:
        """Has `search` call `report` at once; any thread may ask for that."""
        self._came.put(None)

    def search(self, todo: list[Span], seconds: float | None = None) -> bool:
        """Searches these spans, for so many seconds at most; whether all was done.

        Raises `ProgramNotFound`, `ProgramFailed` and `SearchFault`, and what `keep`, `report` and `submit` raise. Spans
        may then be on their way still; nothing of them is kept.
        """
        if seconds is not None:
            self._deadline = self._begun + seconds
        for span in todo:
            self._put(_Todo(span))
        reported = 0.0
        try:
            while self._ready or self._runs:
                self._hand_out()
                left = self._deadline - time.monotonic()
                if left <= 0:
                    return False
                self._take(min(left, _TICK))
                now = time.monotonic()
                if self._report is not None and now >= reported + _TICK:
                    reported = now
                    self._report(self.progress())
            return True
        finally:
            for _, _, cancel in self._runs.values():
                cancel()

    def progress(self) -> Progress:
        seconds = time.monotonic() - self._begun
        at_work = min(len(self._runs), self._workers())
        done = share_of(self.parts, is_done=not (self._ready or self._runs))
        return Progress(done, self.solutions, seconds, self._time_left(seconds), at_work)

    def _time_left(self, elapsed: float) -> float | None:
        return self._time_of(max(PARTS - self.parts, 0), elapsed)

    def _time_of(self, parts: int, elapsed: float) -> float | None:
        """How long so much of the tree is likely to take all workers, where anything is known of that."""
        done = self.parts - self._parts_before
        return elapsed * (parts / done) if done >= _LEAST_PARTS else None

    def _put(self, todo: _Todo) -> None:
        # The earliest comes first, so that a listing comes in its order and few spans wait to be joined.
        heapq.heappush(self._ready, (todo.span.start, next(self._number), todo))

    def _hand_out(self) -> None:
        most = self._ahead * self._workers()
        while self._ready and len(self._runs) < most:
            todo = heapq.heappop(self._ready)[2]
            now = time.monotonic()
            elapsed = now - self._begun
            steps = self._pace.steps(elapsed, self._time_left(elapsed), self._deadline - now) * todo.factor
            is_deep = todo.factor > 1
            task = Task(
                kind=self._job.kind,
                listed=self._job.listed,
                problem=self._job.problem,
                start=word_of(todo.span.start),
                until=word_of(todo.span.until),
                steps=0 if todo.factor > _MOST_FACTOR else steps,
                most=MOST_TEXT if self._job.listed and steps > 1 and not is_deep else 0,
            )
            number = next(self._number)
            self._runs[number] = (todo, steps, self._submit(task, partial(self._come, number)))

    def _come(self, number: int, outcome: Outcome) -> None:
        self._came.put((number, outcome))

    def _take(self, seconds: float) -> None:
        """Takes what has come back, or waits so long for the first."""
        try:
            came = self._came.get(timeout=seconds)
            while True:
                if came is not None:
                    number, outcome = came
                    todo, steps, _ = self._runs.pop(number)
                    self._take_one(outcome, todo, steps)
                came = self._came.get_nowait()
        except queue.Empty:
            pass

    def _take_one(self, outcome: Outcome, todo: _Todo, steps: int) -> None:
        if isinstance(outcome, BaseException):
            self._put(_once_more(todo, outcome))
        elif outcome.version != __version__:
            raise SearchFault(f"a worker has version {outcome.version} of this package, and here is {__version__}")
        elif outcome.is_too_long:
            self._pace.was_too_long(steps)
            self._put(todo)
        else:
            self._take_text(todo, outcome)

    def _take_text(self, todo: _Todo, ran: Ran) -> None:
        span = todo.span
        record = records.of_text(ran.text, span, self._job.listed, self._digest)
        self._digest = record.digest
        self._pace.took(record.steps, ran.seconds, len(ran.text))
        if not record.branches:
            self._done(Kept(span, ran.text, record.solutions, ran.seconds))
            return
        if len(word_of(record.until)) > _LONGEST_WORD:
            self._put(todo._replace(factor=todo.factor * _MORE))
            return
        stop = record.until or ()
        at = min(max(place(stop, record.branches), span.begins), span.ends)
        self._done(Kept(Span(span.start, stop, span.begins, at), ran.text, record.solutions, ran.seconds))
        rest = Span(stop, span.until, at, span.ends)
        for piece in cut(rest, record.branches, self._pieces(rest)):
            self._put(_Todo(piece))

    def _pieces(self, rest: Span) -> int:
        """Into how many pieces what a run left is cut: as many as keep the workers at work for a while."""
        workers = self._workers()
        waiting = workers - len(self._runs) - len(self._ready)
        missing = waiting + (_AHEAD - 1) * workers
        seconds = self._time_of(rest.ends - rest.begins, time.monotonic() - self._begun)
        if seconds is not None:
            # Near the end a piece for each worker that waits is enough: to begin a run takes longer than small ones.
            missing = max(min(missing, int(seconds * workers / SHORTEST)), waiting)
        return max(missing, 1)

    def _done(self, kept: Kept) -> None:
        self.parts += kept.span.ends - kept.span.begins
        self.solutions += kept.solutions
        self._keep(kept)


def submitting(executor: Executor) -> Submit:
    """What hands tasks to an executor. Only the package has to be where the workers are, and the program."""

    def submit(task: Task, done: Callable[[Outcome], object]) -> Callable[[], object]:
        future = executor.submit(run, task)
        future.add_done_callback(lambda ended: done(_outcome(ended)))
        return future.cancel

    return submit


def _outcome(future: Future[Ran]) -> Outcome:
    try:
        return future.result()
    except BaseException as error:
        return error


def _once_more(todo: _Todo, error: BaseException) -> _Todo:
    """What is to be searched again, after a run that failed. Raises the error where that would be in vain."""
    if not isinstance(error, Exception) or isinstance(error, (ProgramNotFound, SearchFault)):
        raise error
    if isinstance(error, ProgramFailed) and error.status in (1, 2) or todo.failed + 1 == _TRIES:
        raise error if isinstance(error, HelgrothyError) else _fault(error) from None
    return todo._replace(failed=todo.failed + 1)


def _fault(error: BaseException) -> SearchFault:
    if isinstance(error, MemoryError):
        reason = "out of memory"
    else:
        reason = reason_of(error) if isinstance(error, OSError) else f"{type(error).__name__}: {error}"
    return SearchFault(f"the workers: {reason}")

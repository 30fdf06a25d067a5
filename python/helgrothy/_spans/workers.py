"""Workers: this machine's processors, another executor of `concurrent.futures`, or those of Dask.

Workers elsewhere are an executor, not a queue in a folder with claims and signs of life: engines such as Dask hand out
work, survive lost workers and show what goes on. The cost: a machine that only sees the folder can't help. It runs
`dlx-span` between the rows of `helgrothy search --rows`.
"""

from __future__ import annotations

import errno
import os
import queue
import resource
import sys
import threading
import time
from collections.abc import Callable
from importlib import import_module
from typing import TYPE_CHECKING, Any

from .._run.programs import processors
from ..errors import SearchFault
from .loop import Outcome, Submit, submitting
from .pace import LONGEST, LONGEST_HERE
from .span import Stop, Task, run
from .threads import Thread, begin

if TYPE_CHECKING:
    from concurrent.futures import Executor

# More workers than any machine has processors aren't asked for.
MOST_JOBS = 4096
# What the system says where it gives no more processes, memory or open files, after how many seconds a worker more is
# tried, and how long the last one waits.
_LACKING = (errno.EAGAIN, errno.ENOMEM, errno.EMFILE, errno.ENFILE)
_TRY_AGAIN, _PAUSE = 10.0, 0.2
# A program that runs takes so many open files, and the command so many.
_FILES, _OTHER_FILES = 3, 32
# So many seconds a scheduler may take to answer.
_PATIENCE = 30
_SELDOM = 2.0


def _most_by_files() -> int:
    """For how many workers this process may open files."""
    soft = resource.getrlimit(resource.RLIMIT_NOFILE)[0]
    return MOST_JOBS if soft == resource.RLIM_INFINITY else max((soft - _OTHER_FILES) // _FILES, 1)


class Workers:
    """Those to whom `submit` hands tasks. As a context manager it lets nothing go on that it began here.

    ahead: so many tasks for each worker keep all of them at work. longest: about so many seconds a task takes at most.
    """

    ahead = 2
    # To hand out a task takes long.
    longest = LONGEST

    def __init__(self, submit: Submit, jobs: int) -> None:
        self._submit = submit
        self._jobs = jobs

    def submit(self, task: Task, done: Callable[[Outcome], object]) -> Callable[[], object]:
        return self._submit(task, done)

    def count(self) -> int:
        return self._jobs

    def __enter__(self) -> Workers:
        return self

    def __exit__(self, *_: object) -> None:
        self.close()

    def close(self) -> None:
        """The executor is its owner's."""


class Own(Workers):
    """Up to so many processors of this machine: a thread for each, which waits for its program.

    Where the system gives no more threads, processes or open files, fewer are at work, but at least one. Now and then
    one more is tried. Raises `SearchFault` where there is no thread at all.

    They aren't those of an executor, whose module loads much that a short search would wait for.
    """

    # A worker has its next task at once.
    ahead = 1
    longest = LONGEST_HERE

    def __init__(self, jobs: int) -> None:
        super().__init__(self._hand, min(jobs, _most_by_files()))
        self._stop = Stop()
        self._tasks: queue.SimpleQueue[tuple[Task, Callable[[Outcome], object]] | None] = queue.SimpleQueue()
        self._threads: list[Thread] = []
        self._lock = threading.Lock()
        # The threads that are at work, and how many there may be.
        self._working = 0
        self._most = self._jobs
        self._next_try = 0.0

    def count(self) -> int:
        with self._lock:
            if self._most < self._jobs and time.monotonic() >= self._next_try:
                self._most += 1
                self._next_try = time.monotonic() + _TRY_AGAIN
            return self._most

    def _hand(self, task: Task, done: Callable[[Outcome], object]) -> Callable[[], object]:
        self._tasks.put((task, done))
        with self._lock:
            is_new = self._working < self._most
            self._working += is_new
        if is_new:
            self._threads = [thread for thread in self._threads if thread.is_alive()]
            try:
                begin(self._work, self._threads)
            except SearchFault:
                if not self._is_too_much():
                    raise
        return _nothing

    def _work(self) -> None:
        while True:
            given = self._tasks.get()
            if given is None:
                return
            task, done = given
            outcome: Outcome
            try:
                outcome = run(task, self._stop)
            except BaseException as error:
                if isinstance(error, MemoryError) or isinstance(error, OSError) and error.errno in _LACKING:
                    if self._is_too_much():
                        self._tasks.put(given)
                        return
                    # The last one has it tried again, when others may have ended.
                    time.sleep(_PAUSE)
                outcome = error
            done(outcome)

    def _is_too_much(self) -> bool:
        """Whether one that lacks something leaves the work to others, if there are any."""
        with self._lock:
            if self._working < 2:
                return False
            self._working -= 1
            self._most = self._working
            self._next_try = time.monotonic() + _TRY_AGAIN
            return True

    def close(self) -> None:
        # What waits yet fails at once.
        self._stop.set()
        for _ in self._threads:
            self._tasks.put(None)
        for thread in self._threads:
            thread.join()


def _nothing() -> None:
    """What cancels a task of this machine: `close` ends all of them."""


class Dask(Workers):
    """The workers of a Dask cluster, as many as there are at the time. Raises `SearchFault`.

    The address is that of the scheduler, or the name of the file that it has written (`--scheduler-file`).
    """

    def __init__(self, address: str) -> None:
        import logging

        if sys.flags.no_site:
            # The command is started without the folders of other packages.
            import site

            site.main()
        try:
            distributed: Any = import_module("distributed")
        except ImportError:
            raise SearchFault(
                f"--dask needs Dask's package distributed, and {sys.executable} has none: install it there, or put a "
                "python3 that has it first on the path (python3-distributed of Debian is for /usr/bin/python3)"
            ) from None
        # What it would print of lost workers on standard error isn't of the listing's messages.
        logging.disable(logging.CRITICAL)
        try:
            self._client = distributed.Client(**_address(address), timeout=_PATIENCE)
        except SearchFault:
            raise
        except Exception as error:
            raise SearchFault(f"no scheduler of Dask answers at {address}: {error}") from None
        self._known = 1
        self._looked = -_SELDOM
        super().__init__(submitting(self._client.get_executor(pure=False)), 1)

    def submit(self, task: Task, done: Callable[[Outcome], object]) -> Callable[[], object]:
        try:
            return super().submit(task, done)
        except Exception as error:
            raise SearchFault(f"Dask takes no more work: {error}") from None

    def count(self) -> int:
        # To ask the scheduler takes a while.
        if time.monotonic() >= self._looked + _SELDOM:
            all_of_them = {"n_workers": -1} if _takes_number(self._client.scheduler_info) else {}
            try:
                workers = self._client.scheduler_info(**all_of_them)["workers"].values()
                self._known = max(sum(worker["nthreads"] for worker in workers), 1)
            except Exception:
                raise SearchFault("the scheduler of Dask is gone; the same command goes on") from None
            self._looked = time.monotonic()
        return self._known

    def close(self) -> None:
        try:
            self._client.close(timeout=2)
        except Exception:
            # Whoever has stopped the scheduler needs no farewell.
            pass


def _address(address: str) -> dict[str, str]:
    """How Dask gets to know a scheduler. Raises `SearchFault` where its file doesn't come."""
    if not address.endswith(".json"):
        return {"address": address}
    begun = time.monotonic()
    while not os.path.exists(address):
        if time.monotonic() - begun > _PATIENCE:
            raise SearchFault(f"{address}: no such file")
        time.sleep(0.1)
    return {"scheduler_file": address}


def _takes_number(scheduler_info: Any) -> bool:
    """Whether Dask names a few workers alone where it isn't asked for all."""
    import inspect

    return "n_workers" in inspect.signature(scheduler_info).parameters


def executor_jobs(executor: Executor) -> int:
    """How many workers an executor says that it has, or else as many as this machine has processors."""
    known = getattr(executor, "_max_workers", None)
    return known if isinstance(known, int) and known > 0 else processors()

"""Threads, where the system gives any."""

from __future__ import annotations

import mmap
import threading
from _thread import start_new_thread
from collections.abc import Callable

from ..errors import SearchFault

# A thread needs so many bytes to begin, beside its stack.
_ROOM = 1 << 22
# One that hasn't begun after so many seconds never does.
_PATIENCE = 10.0


class Thread:
    """A thread that does this, and ends with the process.

    Where memory is lacking a thread may die before its first line. `threading.Thread.start` of Python 3.11 waits for it
    forever; this one gives up. Locks show how far a thread is, since to release one takes no memory.
    """

    def __init__(self, act: Callable[[], None]) -> None:
        self._act = act
        # Whoever takes this first decides whether the thread acts: the thread, or `start`, which has waited in vain.
        self._claim = threading.Lock()
        # Held until it has begun.
        self._begun = threading.Lock()
        # Held from then until it has ended.
        self._at_work = threading.Lock()

    def start(self) -> None:
        """Begins it. Raises `RuntimeError`, `MemoryError` or `OSError` where the system gives none.

        Then it never acts, even if it begins later.
        """
        self._begun.acquire()
        # What the thread needs is kept free for it until it has its stack, so that hardly one dies.
        with mmap.mmap(-1, _ROOM):
            start_new_thread(self._run, ())
        if not self._begun.acquire(timeout=_PATIENCE) and self._claim.acquire(blocking=False):
            raise RuntimeError("the new thread doesn't begin")

    def join(self, timeout: float | None = None) -> None:
        """Waits for the end of one that has begun, at most so many seconds."""
        if self._at_work.acquire(timeout=-1 if timeout is None else timeout):
            self._at_work.release()

    def is_alive(self) -> bool:
        """Whether it has begun and hasn't ended."""
        return self._at_work.locked()

    def _run(self) -> None:
        with self._at_work:
            if self._claim.acquire(blocking=False):
                self._begun.release()
                self._act()


def begin(act: Callable[[], None], threads: list[Thread]) -> None:
    """A thread more that does this, and ends with the process. Raises `SearchFault` where the system gives none.

    It is among the threads before it starts: ^C may come at any time, and who ends all of them has to know each.
    """
    thread = Thread(act)
    threads.append(thread)
    try:
        thread.start()
    except (RuntimeError, MemoryError, OSError):
        threads.remove(thread)
        raise SearchFault("the system gives no more threads") from None

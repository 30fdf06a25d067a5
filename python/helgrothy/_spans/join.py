"""Texts of spans put together by the program dlx-join, which looks that their ends meet."""

from __future__ import annotations

import queue
import signal
import subprocess
from collections.abc import Callable, Iterable
from contextlib import suppress
from functools import partial
from typing import NamedTuple

from .._cli import console
from .._run.guard import let_go, start
from .._run.programs import find, last_line
from ..errors import ProgramFailed
from .rows import Until
from .threads import Thread, begin

PROGRAM = "dlx-join"
_CHUNK = 1 << 18


class Ending(NamedTuple):
    """How dlx-join ended, and what it said on standard error."""

    status: int
    messages: str


class Join:
    """A run of dlx-join that is given texts in their order. As a context manager it leaves no process behind.

    The solutions go to standard output, or nowhere with `out` as `subprocess.DEVNULL`. Texts are read by a thread of
    its own, so that nothing waits for who reads the listing. `wake` is called by that thread where it can't go on.

    Raises `ProgramNotFound`, `SearchFault` and `OSError`.
    """

    def __init__(self, listed: bool, out: int | None = None, wake: Callable[[], None] = lambda: None) -> None:
        self._wake = wake
        self._error: BaseException | None = None
        self._texts: queue.SimpleQueue[Callable[[], bytes] | None] = queue.SimpleQueue()
        # The row until which texts were given.
        self.at: Until = ()
        self._process = start(
            [find(PROGRAM), "m1" if listed else "m0"], stdin=subprocess.PIPE, stdout=out, stderr=subprocess.PIPE
        )
        self._threads: list[Thread] = []
        try:
            for act in (self._feed, self._print) if out == subprocess.PIPE else (self._feed,):
                begin(partial(self._try, act), self._threads)
        except BaseException:
            self._close()
            raise

    def give(self, text: Callable[[], bytes], until: Until) -> None:
        """The next text, which is read when it is its turn."""
        self._texts.put(text)
        self.at = until

    def check(self) -> None:
        """Raises what reading a text or printing has raised, and `ProgramFailed` where the program ended early."""
        if self._error is not None:
            raise self._error

    def end(self) -> Ending:
        """Waits for the end of all texts. Raises what `check` raises, but for an end with a status of its own."""
        self._texts.put(None)
        for thread in self._threads:
            thread.join()
        if self._error is None:
            messages = self._messages()
            return Ending(self._process.wait(), messages)
        if isinstance(self._error, ProgramFailed):
            return Ending(self._error.status, self._error.message)
        raise self._error

    def __enter__(self) -> Join:
        return self

    def __exit__(self, *_: object) -> None:
        self._close()

    def _close(self) -> None:
        self._texts.put(None)
        self._process.kill()
        self._process.wait()
        for thread in self._threads:
            thread.join()
        for pipe in (self._process.stdin, self._process.stdout, self._process.stderr):
            if pipe is not None:
                with suppress(OSError):
                    pipe.close()
        let_go(self._process.pid)

    def _try(self, act: Callable[[], None]) -> None:
        try:
            act()
        except BaseException as error:
            if self._error is None:
                self._error = error
            # What is written so far is a beginning, and no last line may follow.
            self._process.send_signal(signal.SIGKILL)
        self._wake()

    def _feed(self) -> None:
        assert self._process.stdin
        try:
            with self._process.stdin as into:
                while True:
                    text = self._texts.get()
                    if text is None:
                        return
                    into.write(text())
        except BrokenPipeError:
            messages = self._messages().strip()
            self._error = self._error or ProgramFailed(PROGRAM, self._process.wait(), messages)

    def _messages(self) -> str:
        """What the program says on standard error until its end: a line at most."""
        assert self._process.stderr
        return self._process.stderr.read().decode("utf-8", "replace")

    def _print(self) -> None:
        assert self._process.stdout
        out = self._process.stdout

        def pieces() -> Iterable[bytes]:
            while piece := out.read(_CHUNK):
                yield piece

        console.write_bytes(pieces())


def number_of(ending: Ending) -> int:
    """The number of solutions that the last line says. Raises `ProgramFailed`."""
    last = last_line(ending.messages) if ending.status == 0 else None
    if last is None:
        raise ProgramFailed(PROGRAM, ending.status, ending.messages.strip())
    return last[0]


def count(texts: Iterable[Callable[[], bytes]], listed: bool = False) -> Ending:
    """Texts that are counted, as many as there are."""
    with Join(listed, subprocess.DEVNULL) as join:
        for text in texts:
            join.give(text, None)
        return join.end()

"""One line on a terminal that says how far a command is, while it prints nothing else.

It is on standard error, is written anew some times a second, and is gone before anything else is printed and at the
end. Where standard error is no terminal there is none.
"""

from __future__ import annotations

import os
import sys
import threading
import time
from collections.abc import Iterator, Sequence
from contextlib import contextmanager, suppress

from .._run.programs import undisturbed
from .._text.clock import clock
from .._text.shown import shown

# It comes after so many seconds in which nothing was printed, and is written anew so often.
_QUIET_SECONDS, _OFTEN = 2.0, 0.2
# Where a terminal doesn't say how wide it is.
_COLUMNS = 80
_ERASED = "\r\033[K"


class Line:
    """The line of this process, which has one standard error."""

    def __init__(self) -> None:
        self._lock = threading.RLock()
        self._is_shown = False
        self._printed = 0.0

    @property
    def is_possible(self) -> bool:
        """Whether standard error is a terminal that can erase a line."""
        try:
            return sys.stderr.isatty() and os.environ.get("TERM") != "dumb"
        except ValueError:
            # It is closed.
            return False

    def show(self, text: str) -> None:
        """Writes it anew."""
        with self._lock:
            self._is_shown = self._write(_ERASED + shown(text)[: _columns() - 1])

    def show_unless(self, is_over: threading.Event, text: str, quiet: float) -> None:
        """The same, if it isn't over and nothing else was printed for so many seconds."""
        with self._lock:
            if not is_over.is_set() and time.monotonic() - self._printed >= quiet:
                self.show(text)

    def clear(self) -> None:
        """Erases it."""
        with self._lock:
            if self._is_shown:
                self._is_shown = False
                self._write(_ERASED)

    @contextmanager
    def hidden(self) -> Iterator[None]:
        """It is erased, and stays so while something else is printed."""
        with self._lock:
            self.clear()
            try:
                yield
            finally:
                self._printed = time.monotonic()

    def _write(self, text: str) -> bool:
        try:
            sys.stderr.write(text)
            sys.stderr.flush()
        except (OSError, ValueError):
            # What is at work goes on. That nobody could be shown how it ended is said by its status.
            return False
        return True


def _columns() -> int:
    with suppress(OSError, ValueError):
        return os.get_terminal_size(sys.stderr.fileno()).columns or _COLUMNS
    return _COLUMNS


LINE = Line()


class Report:
    """What is at work, how far it is and the best so far, as `Hear` gets it, and shown by the line meanwhile.

    is_shown: whether there is a line.
    """

    def __init__(self, at_work: Sequence[str], does: str = "search") -> None:
        """does: what all of these do, as a word that gets an ending where it is of one alone."""
        self._at_work = at_work
        self._does = does
        self._far = self._best = ""
        self._begun = time.monotonic()
        self._reported = 0.0
        self._is_over = threading.Event()
        self.is_shown = LINE.is_possible

    def __call__(
        self, *, at_work: Sequence[str] | None = None, far: str | None = None, best: str | None = None
    ) -> None:
        self._at_work = self._at_work if at_work is None else at_work
        self._far = self._far if far is None else far
        self._best = self._best if best is None else f"best so far {best}"

    def __enter__(self) -> Report:
        if self.is_shown:
            # Where the system gives no thread for it there is no line.
            with undisturbed(), suppress(RuntimeError):
                threading.Thread(target=self._show, daemon=True).start()
        return self

    def __exit__(self, *_: object) -> None:
        self._is_over.set()
        LINE.clear()

    @property
    def seconds(self) -> float:
        """How long it has taken so far."""
        return time.monotonic() - self._begun

    def is_due(self) -> bool:
        """Whether it is time to report how far it is, for who is asked more often than that is shown."""
        now = time.monotonic()
        if not self.is_shown or now - self._reported < _OFTEN:
            return False
        self._reported = now
        return True

    def __str__(self) -> str:
        *most, last = self._at_work
        who = f"{', '.join(most)} and {last} {self._does}" if most else f"{last} {_of_one(self._does)}"
        seconds = self.seconds
        passed = f"{int(seconds)} s" if seconds < 2 * 60 else clock(seconds)
        return "; ".join(filter(None, [passed, who, self._far, self._best]))

    def _show(self) -> None:
        while not self._is_over.wait(_OFTEN):
            if self.seconds >= _QUIET_SECONDS:
                LINE.show_unless(self._is_over, str(self), _QUIET_SECONDS)


def _of_one(does: str) -> str:
    return f"{does}es" if does.endswith("ch") else f"{does}s"

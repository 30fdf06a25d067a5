"""How far a search is, on standard error: one line that is written anew on a terminal, elsewhere one now and then."""

from __future__ import annotations

import sys
import time

from .._cli.line import LINE
from .loop import Progress

_OFTEN, _SELDOM = 0.2, 10.0


class Shown:
    """Shows progress. Who prints by other means than `console` asks for `clear` before."""

    def __init__(self, is_listed: bool) -> None:
        self._is_terminal = LINE.is_possible
        # A listing on the same terminal isn't mixed with it.
        self._is_silent = self._is_terminal and is_listed and sys.stdout.isatty()
        self._last = time.monotonic()

    def show(self, progress: Progress) -> None:
        now = time.monotonic()
        if self._is_silent or now - self._last < (_OFTEN if self._is_terminal else _SELDOM):
            return
        self._last = now
        if self._is_terminal:
            LINE.show(str(progress))
            return
        try:
            print(progress, file=sys.stderr, flush=True)
        except OSError:
            # The search goes on. That nobody could be shown how it ended is said by its status.
            self._is_silent = True

    def clear(self) -> None:
        LINE.clear()

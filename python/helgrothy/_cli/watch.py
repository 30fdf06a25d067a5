"""A count of the bounds beside a search that shows no solution for a while."""

from __future__ import annotations

import threading
from collections.abc import Callable
from contextlib import suppress
from typing import Any

from .._run.programs import undisturbed
from ..problem import Problem

# A search may show no solution for so long; the count takes as long.
_QUIET_SECONDS = 1.0


class Watch:
    """Counts the bounds beside a search, where that shows no solution for a while, and says where they can't work.

    has_shown: whether it has said that.
    """

    def __init__(self, problem: Problem[Any], say: Callable[[str], None]) -> None:
        self._problem = problem
        self._say = say
        self._timer = threading.Timer(_QUIET_SECONDS, self._count)
        self._timer.daemon = True
        self._is_over = False
        self.has_shown = False

    def __enter__(self) -> Watch:
        # Where the system gives no thread for it the search goes on without.
        with undisturbed(), suppress(RuntimeError):
            self._timer.start()
        return self

    def __exit__(self, *_: object) -> None:
        self.end()

    def wait(self) -> None:
        """Waits for the count to end."""
        # One that never began can't be waited for.
        with suppress(RuntimeError):
            self._timer.join(2 * _QUIET_SECONDS)

    def end(self) -> None:
        """Says nothing from now on."""
        self._is_over = True
        self._timer.cancel()

    def _count(self) -> None:
        # Most searches show a solution before.
        from .._reason import sums

        # Where there is no memory for it, or nobody to show it to, the search goes on all the same.
        with suppress(MemoryError, OSError):
            found = sums.search(self._problem, _QUIET_SECONDS)
            if found is not None and not self._is_over:
                self._say(f"{found.text(self._problem.name)}: there is no solution")
                self.has_shown = True

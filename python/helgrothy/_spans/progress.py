"""How far a search is, from the row of the last solution that it printed."""

from __future__ import annotations

import re
from collections.abc import Iterable, Sequence

from .._text.clock import clock, percent
from .._text.listing import Step
from .rows import place, share_of

_CHOICE = re.compile(rb"^ .* \(([0-9]{1,10}) of ([0-9]{1,10})\)$", re.MULTILINE)

# Before so much of a search is done nobody knows how long it takes.
_LEAST_SHARE = 0.001


class Reached:
    """How far the search is whose listing is read. number: that of its last solution, 0 before the first."""

    def __init__(self) -> None:
        self._rest = b""
        self._last = b""
        self.number = 0

    def read(self, chunk: bytes) -> None:
        """Takes the next part of a listing as a program prints it."""
        text = self._rest + chunk
        # No line but that of a solution's number ends with a colon.
        last = text.rfind(b":\n")
        if last < 0:
            self._rest = text
            return
        start = text.rfind(b"\n", 0, last) + 1
        before = text.rfind(b":\n", 0, start)
        if before >= 0:
            begin = text.rfind(b"\n", 0, before) + 1
            self._last = text[begin:start]
            self.number = int(text[begin:before])
        self._rest = text[start:]

    def share(self) -> float:
        """The share of the tree before the last solution, if all branches of a level are taken to be equally large."""
        return _share([(int(k), int(n)) for k, n in _CHOICE.findall(self._last)])


def share_before(steps: Iterable[Step]) -> float:
    """The same before the solution to which these steps led."""
    return _share([(step.branch, step.branches) for step in steps])


def _share(choices: Sequence[tuple[int, int]]) -> float:
    return share_of(place(tuple(k for k, _ in choices), tuple(n for _, n in choices)))


def how_far(number: int, share: float, seconds: float) -> str:
    """How far a search is that took so long to the solution of a number, where so much of the tree is before it."""
    if share < _LEAST_SHARE:
        return f"{number:,} found, less than {percent(_LEAST_SHARE)} of the tree"
    return f"{number:,} found, {percent(share)} of the tree, ~{clock(seconds * (1 / share - 1))} left"

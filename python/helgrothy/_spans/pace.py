"""How many steps a run is given: by the speed of those before it, and by how long the search has gone on.

A run takes a third of what each worker is likely to have left, from a fortieth to half of the time so far and from 0.1
seconds to a second, after hours and elsewhere to 10. To begin one takes 1 or 2 milliseconds of CPU time, the last ones
to end keep the others waiting, and what a run has done is lost if it is stopped. The cost: ten times as many records in
the first hours as with 10 seconds always. A program that writes its row when it is asked to stop would need a signal
heard amid the search's loop.
"""

from __future__ import annotations

# The first run takes so many, and gives the numbers of branches by which the rest is cut.
_FIRST = 500
# Before anything was measured, steps of a second.
_GUESS = 1_000_000.0
_MOST_STEPS = 1 << 62
# A run takes this share of what each worker has left, as far as that is known, and at least and at most such shares of
# the time that the search has taken, within these bounds. So runs are few, and the last ones to end keep the others
# waiting for a small share of the whole.
_SHARE = 1 / 3
_LEAST_SHARE, _MOST_SHARE = 1 / 40, 1 / 2
SHORTEST, LONGEST = 0.1, 10.0
# What a run that is stopped has done is lost: about a second, of a search of hours such a share of its time, and where
# it takes long to start, so much that to start takes this share of a run.
LONGEST_HERE, _LOST_SHARE, _LOST_START = 1.0, 1 / 3600, 1 / 33
# To start a program and to read the problem takes at most about this share of a run.
_START = 1 / 25
# A run that is the last in the time that a search has takes this share of what is left, so that it ends before that.
_IN_TIME = 0.8
# What was measured counts for less with each run.
_FADES = 0.8


class Pace:
    """Steps of runs, such that no text is likely to be longer than `most` bytes (0 for no bound), and no run of the
    first hours than `longest` seconds."""

    def __init__(self, most: int, longest: float = LONGEST) -> None:
        self._most = most
        self._longest = longest
        self._steps = 0.0
        self._seconds = 0.0
        # The steps and seconds of the shortest run.
        self._least: tuple[int, float] | None = None
        self._bytes_a_step = 0.0

    def steps(self, elapsed: float, rest: float | None, left: float) -> int:
        """The steps of a run that begins now.

        rest: how long the search is likely to take yet, None where nothing is known. left: how long it may take.
        """
        if self._least is None:
            return _FIRST
        rate = self._steps / self._seconds if self._seconds > 0 and self._steps > 0 else _GUESS
        wanted = elapsed * _MOST_SHARE
        if rest is not None:
            wanted = max(min(wanted, rest * _SHARE), elapsed * _LEAST_SHARE)
        least_steps, least_seconds = self._least
        start = least_seconds - least_steps / rate
        longest = max(self._longest, elapsed * _LOST_SHARE, start / _LOST_START)
        wanted = min(max(wanted, SHORTEST), longest, LONGEST)
        steps = rate * max(min(max(wanted, start / _START), left * _IN_TIME), 0.0)
        if self._most and self._bytes_a_step > 0:
            steps = min(steps, self._most / 2 / self._bytes_a_step)
        return int(min(max(steps, 1), _MOST_STEPS))

    def took(self, steps: int, seconds: float, size: int) -> None:
        """A run took so many steps and seconds of a processor, and printed so many bytes."""
        if self._least is None or seconds < self._least[1]:
            self._least = steps, seconds
        self._steps = _FADES * self._steps + steps
        self._seconds = _FADES * self._seconds + seconds
        if steps:
            self._bytes_a_step = max(_FADES * self._bytes_a_step, size / steps)

    def was_too_long(self, steps: int) -> None:
        """A run of so many steps had more than `most` bytes."""
        self._bytes_a_step = max(self._bytes_a_step, 4 * self._most / steps)

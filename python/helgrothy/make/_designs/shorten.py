"""Designs of fewer tests: a test is left out, and the others are changed for it.

A step takes values that don't come together yet and puts them into the test where most that is missing comes together
by it and least is lost. A value that had to go doesn't come back into this test for some steps, so that the search
doesn't go in a circle (tabu search; after L. Gonzalez-Hernandez, N. Rangel-Valdez, J. Torres-Jimenez, *Construction of
mixed covering arrays of variable strength using a tabu search approach*, 2010).
"""

from __future__ import annotations

import random
import time
from collections.abc import Sequence
from math import comb

from ...errors import OutOfTime
from .bits import places
from .quick import Places, Sets, Wanted

# After so many steps another test is left out.
_STEPS = 1_000
# For so many steps a value doesn't come back.
_AWAY = 10
# Where three or more values come together a test takes so many times as long for each of the others.
_LOOKS_OF_MORE = 4


class Shorter:
    """Makes designs shorter. looks: how many tests were looked at for that; one counts for more where more values come
    together."""

    def __init__(self, wanted: Wanted, deadline: float | None, rng: random.Random) -> None:
        self._wanted = wanted
        self._deadline = deadline
        self._rng = rng
        more = wanted.strength - 2
        self._look = _LOOKS_OF_MORE * comb(len(wanted.values.masks), more) if more > 0 else 1
        self.looks = 0

    def fewer(self, tests: Sequence[int], most_looks: int) -> list[int] | None:
        """A design of one test fewer, None where so many looks didn't find one. Raises `OutOfTime`."""
        end = self.looks + most_looks
        while self.looks < end:
            out = self._below(len(tests))
            found = self._mended([test for place, test in enumerate(tests) if place != out])
            if found is not None:
                return found
        return None

    def _mended(self, tests: list[int]) -> list[int] | None:
        """As many tests that are a design, in so many steps."""
        values = self._wanted.values
        known = _Known(self._wanted, tests)
        # Until which step a value, by its bit, doesn't come back into a test.
        away: dict[tuple[int, int], int] = {}
        for step in range(_STEPS):
            missing = known.missing()
            if not missing:
                return known.tests
            if self._deadline is not None and time.monotonic() > self._deadline:
                raise OutOfTime("no shorter design was found in the time")
            self.looks += self._look * (1 + len(tests))
            wanted = kept = apart = 0
            for place in missing[self._below(len(missing))]:
                wanted |= 1 << place
                kept |= values.masks[values.factors[place]]
                apart |= values.apart[place]
            best, found = 0, list[tuple[int, int]]()
            for place, test in enumerate(known.tests):
                rest = test & ~kept
                new = rest | wanted
                if apart & rest or away.get((place, new & ~test), -1) > step or values.has_larger_ban(new):
                    continue
                gain = known.gain(test, new)
                if not found or gain > best:
                    best, found = gain, [(place, new)]
                elif gain == best:
                    found.append((place, new))
            if found:
                place, new = found[self._below(len(found))]
                for old in places(known.tests[place] & ~new):
                    away[place, 1 << old] = step + _AWAY
                known.put(place, new)
        return None

    def _below(self, count: int) -> int:
        # Python promises to keep this for a seed.
        return int(self._rng.random() * count)


class _Known:
    """How often what is wanted comes together in some tests."""

    def __init__(self, wanted: Wanted, tests: Sequence[int]) -> None:
        self._wanted = wanted.sets
        self._times: dict[Places, int] = {}
        self._never, self._once = Sets(wanted.strength, wanted.missing), Sets(wanted.strength)
        self._missing = list(wanted.missing)
        self.tests = [0] * len(tests)
        for place, test in enumerate(tests):
            self.put(place, test)

    def missing(self) -> list[Places]:
        """What never comes together."""
        self._missing = [meeting for meeting in dict.fromkeys(self._missing) if self._never.has(meeting)]
        return self._missing

    def gain(self, test: int, new: int) -> int:
        """How much more comes together if a test becomes another one."""
        gain, at = 0, test
        for place in places(test & ~new):
            at ^= 1 << place
            gain -= self._once.with_one(place, at)
        for place in places(new & ~test):
            gain += self._never.with_one(place, at)
            at |= 1 << place
        return gain

    def put(self, at: int, new: int) -> None:
        """Puts a test in the place of another one."""
        test = self.tests[at]
        for place in places(test & ~new):
            test ^= 1 << place
            for meeting in self._wanted.beside(place, test):
                self._change(meeting, -1)
        for place in places(new & ~test):
            for meeting in self._wanted.beside(place, test):
                self._change(meeting, 1)
            test |= 1 << place
        self.tests[at] = new

    def _change(self, meeting: Places, by: int) -> None:
        before = self._times.get(meeting, 0)
        now = self._times[meeting] = before + by
        if before < 2:
            (self._once if before else self._never).drop(meeting)
        if now < 2:
            (self._once if now else self._never).add(meeting)
        if not now:
            self._missing.append(meeting)

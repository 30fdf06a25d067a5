"""A design of few tests without a search: each test takes up much of what is missing.

A test is put together value by value, with those by which most that is missing comes together and from which the rest
of the test can still be had.
"""

from __future__ import annotations

import itertools
import random
import time
from collections.abc import Iterable, Iterator, Sequence

from ...errors import OutOfTime
from ...shuffle import order
from .bits import Test, Values, ones, places
from .design import Meeting

# What comes together, by the places of its values.
Places = tuple[int, ...]

# Of so many tests the one is taken that has the most of what is missing.
_CANDIDATES = 5


def meetings_of(test: Test, strength: int) -> Iterator[Meeting]:
    """What comes together in a test."""
    return itertools.combinations(sorted(test.items()), strength)


class Wanted:
    """What has to come together in a design, and the tests that it begins with, in which it needn't."""

    def __init__(
        self, values: Values, strength: int, meetings: Sequence[Meeting], given: Sequence[Test] = ()
    ) -> None:
        self.values = values
        self.strength = strength
        begun = {meeting for test in given for meeting in meetings_of(test, strength)}
        self.missing: list[Places] = [
            tuple(places(values.bits(dict(meeting)))) for meeting in meetings if meeting not in begun
        ]
        self.sets = Sets(strength, self.missing)


class Sets:
    """Sets of what comes together: by all values of each but one, the bits of that one."""

    def __init__(self, strength: int, meetings: Iterable[Places] = ()) -> None:
        self._strength = strength
        self._last: dict[Places, int] = {}
        for meeting in meetings:
            self.add(meeting)

    def add(self, meeting: Places) -> None:
        for at, place in enumerate(meeting):
            others = meeting[:at] + meeting[at + 1 :]
            self._last[others] = self._last.get(others, 0) | 1 << place

    def drop(self, meeting: Places) -> None:
        for at, place in enumerate(meeting):
            others = meeting[:at] + meeting[at + 1 :]
            self._last[others] = self._last.get(others, 0) & ~(1 << place)

    def has(self, meeting: Places) -> bool:
        return bool(self._last.get(meeting[:-1], 0) >> meeting[-1] & 1)

    def with_one(self, place: int, bits: int) -> int:
        """How many are of this value and of some of those of a test."""
        last = self._last
        if self._strength == 2:
            return ones(last.get((place,), 0) & bits)
        if self._strength == 1:
            return last.get((), 0) >> place & 1
        total = 0
        for some in itertools.combinations(places(bits), self._strength - 2):
            total += ones(last.get(tuple(sorted((*some, place))), 0) & bits)
        # Each was counted once for each of its other values.
        return total // (self._strength - 1)

    def beside(self, place: int, bits: int) -> list[Places]:
        """The same, each with its values in their order."""
        found: list[Places] = []
        for some in itertools.combinations(places(bits), self._strength - 1):
            meeting = tuple(sorted((*some, place)))
            if self.has(meeting):
                found.append(meeting)
        return found

    def drop_all(self, bits: int) -> None:
        """Drops those that come together in a test."""
        for others in itertools.combinations(places(bits), self._strength - 1):
            if others in self._last:
                self._last[others] &= ~bits


class Greedy:
    """Makes designs, each another one."""

    def __init__(self, wanted: Wanted, deadline: float | None, rng: random.Random) -> None:
        self._wanted = wanted
        self._values = wanted.values
        self._deadline = deadline
        self._rng = rng

    def design(self) -> list[int]:
        """The tests of a design, as bits. Raises `OutOfTime` where the clock is beyond the deadline."""
        missing = Sets(self._wanted.strength, self._wanted.missing)
        left, tests = self._wanted.missing, []
        while left:
            if self._deadline is not None and time.monotonic() > self._deadline:
                raise OutOfTime("no design was found in the time")
            some = [left[int(self._rng.random() * len(left))] for _ in range(_CANDIDATES)]
            found = [self._test(meeting, missing) for meeting in some]
            tests.append(max(found, key=lambda pair: pair[0])[1])
            missing.drop_all(tests[-1])
            left = [meeting for meeting in left if missing.has(meeting)]
        return tests

    def _test(self, meeting: Places, missing: Sets) -> tuple[int, int]:
        """How much of what is missing comes together in a test, which has this, and the test.

        The other factors come in a random order.
        """
        values = self._values
        bits = sum(1 << place for place in meeting)
        open = values.open(bits)
        rest = [factor for factor, mask in enumerate(values.masks) if not mask & bits]
        rest = [rest[place] for place in order(len(rest), self._rng)]
        total = 1
        while rest:
            factor = rest.pop()
            choices = places(open & values.masks[factor])
            gains = [(missing.with_one(place, bits), self._rng.random(), place) for place in choices]
            for gain, _, place in sorted(gains, reverse=True):
                more = bits | 1 << place
                then = values.narrowed(open, more, place)
                if then == open or values.goes_on(more, rest, then):
                    bits, open = more, then
                    total += gain
                    break
        return total, bits

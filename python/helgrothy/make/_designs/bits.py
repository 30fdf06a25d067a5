"""Values of factors as bits: a test is a number that has a bit for each of its values."""

from __future__ import annotations

from collections.abc import Callable, Iterator, Sequence

from .design import Factor

# A test: the values that it has, by the number of the factor.
Test = dict[int, int]

# Python before 3.10 has no `bit_count`.
ones: Callable[[int], int] = getattr(int, "bit_count", lambda bits: bin(bits).count("1"))


def places(bits: int) -> Iterator[int]:
    """The places of the bits, rising."""
    while bits:
        low = bits & -bits
        yield low.bit_length() - 1
        bits ^= low


class Values:
    """The place of each value of each factor, and which values never come together in a test.

    count: how many values there are. factors: of each place the factor. masks: of each factor the bits of its values.
    apart: of each place the bits of the values that never come together with it, by a ban of two values.
    """

    def __init__(self, factors: Sequence[Factor], bans: Sequence[Test] = ()) -> None:
        levels = [len(factor.values) for factor in factors]
        self._first = [sum(levels[:factor]) for factor in range(len(levels))]
        self.count = sum(levels)
        self.factors = [factor for factor, level in enumerate(levels) for _ in range(level)]
        self.masks = [((1 << level) - 1) << first for level, first in zip(levels, self._first)]
        self.apart = [0] * self.count
        self._all = (1 << self.count) - 1
        self._safe = self._all
        # Bans of more than two values.
        self._larger: list[int] = []
        for ban in map(self.bits, bans):
            self._safe &= ~ban
            if ones(ban) == 2:
                for place in places(ban):
                    self.apart[place] |= ban ^ 1 << place
            else:
                self._larger.append(ban)

    def bits(self, test: Test) -> int:
        """A test, or a part of one, as bits."""
        return sum(1 << self._first[factor] + value for factor, value in test.items())

    def test(self, bits: int) -> Test:
        """The test of these bits."""
        return {self.factors[place]: place - self._first[self.factors[place]] for place in places(bits)}

    def has_ban(self, bits: int) -> bool:
        """Whether a test has values that never come together."""
        return any(self.apart[place] & bits for place in places(bits)) or self.has_larger_ban(bits)

    def has_larger_ban(self, bits: int) -> bool:
        """The same of bans of more than two values."""
        return any(ban & bits == ban for ban in self._larger)

    def open(self, bits: int) -> int:
        """The values that may be added to a test, one at a time."""
        barred = 0
        for place in places(bits):
            barred |= self.apart[place]
        return self._all & ~barred & ~self._last(bits)

    def narrowed(self, open: int, bits: int, place: int) -> int:
        """The same once a test has this value as well; `bits` has it already."""
        if self._safe >> place & 1:
            return open
        return open & ~self.apart[place] & ~self._last(bits)

    def _last(self, bits: int) -> int:
        """The values that alone are missing of a ban."""
        found = 0
        for ban in self._larger:
            rest = ban & ~bits
            if rest & rest - 1 == 0:
                found |= rest
        return found

    def goes_on(self, bits: int, rest: Sequence[int], open: int) -> bool:
        """Whether the factors that a test has no value of have some that go with its own and with each other."""
        tight: tuple[int, int, int] | None = None
        for factor in rest:
            left = open & self.masks[factor]
            if not left:
                return False
            # A value that is in no ban goes with all others.
            if not left & self._safe and (tight is None or ones(left) < tight[0]):
                tight = ones(left), factor, left
        if tight is None:
            return True
        _, factor, left = tight
        others = [one for one in rest if one != factor]
        for place in places(left):
            more = bits | 1 << place
            if self.goes_on(more, others, self.narrowed(open, more, place)):
                return True
        return False

    def may_be(self, bits: int) -> bool:
        """Whether a test may have these values: the other factors have some that go with them."""
        if self.has_ban(bits):
            return False
        rest = [factor for factor, mask in enumerate(self.masks) if not mask & bits]
        return self.goes_on(bits, rest, self.open(bits))

"""Clauses that say how many of some variables hold, with further variables that follow from these."""

from __future__ import annotations

from collections.abc import Sequence

# So many variables altogether count by chains, which solvers follow best. The rest is added up in binary numbers: of
# n variables at most k of which may hold, a chain has n times k more, and a sum 2 times n.
_MOST_CHAINED = 100_000


class Clauses:
    """Clauses as lines of DIMACS CNF."""

    def __init__(self, last: int) -> None:
        """last: the last variable that has a meaning already."""
        self.lines: list[str] = []
        self.count = 0
        self.last = last
        self._chained = 0

    def fresh(self) -> int:
        """A variable without a meaning yet."""
        self.last += 1
        return self.last

    def add(self, *literals: int) -> None:
        """A clause."""
        self.lines.append(f"{' '.join(map(str, (*literals, 0)))}\n")
        self.count += 1

    def bound(self, held: Sequence[int], low: int, high: int, let_off: Sequence[int]) -> None:
        """Says that at least `low`, where none of `let_off` holds, and at most `high` of these hold."""
        if low > len(held):
            self.add(*let_off)
            return
        if low == 1:
            self.add(*held, *let_off)
        if high >= len(held) and low < 2:
            return
        if high == 1 and len(held) <= 5:
            for k, a in enumerate(held):
                for b in held[:k]:
                    self.add(-a, -b)
            return
        most = min(high, len(held))
        cells = len(held) * most
        if most > 1 and self._chained + cells > _MOST_CHAINED:
            self._compare(self._number(held), low, most, let_off)
            return
        self._chained += cells if most > 1 else 0
        at_least = self._chain(held, most)
        if low > 1:
            self.add(at_least[low - 1], *let_off)

    def _chain(self, held: Sequence[int], most: int) -> list[int]:
        """At most so many hold. At j stands a variable that says that j + 1 do."""
        at_least: list[int] = []
        for variable in held:
            before = at_least
            if len(before) == most:
                self.add(-variable, -before[most - 1])
            at_least = [self.fresh() for _ in range(min(len(before) + 1, most))]
            for j, now in enumerate(at_least):
                # now holds exactly where it held before, or `variable` holds and one fewer held before.
                was = [before[j]] if j < len(before) else []
                fewer = [before[j - 1]] if j else []
                for old in was:
                    self.add(-old, now)
                self.add(-variable, *(-old for old in fewer), now)
                self.add(-now, *was, variable)
                for old in fewer:
                    self.add(-now, *was, old)
        return at_least

    def _number(self, held: Sequence[int]) -> list[int]:
        """How many hold, as a binary number whose lowest bit comes first."""
        bits = []
        column = list(held)
        while column:
            carries = []
            # Three become one at the end and one in the next column, so that all are as near to the front as can be.
            for at in range(0, len(column) * 2, 3):
                left = column[at : at + 3]
                if len(left) < 2:
                    break
                total, carry = self.fresh(), self.fresh()
                self._add_up(left, total, carry)
                column.append(total)
                carries.append(carry)
            bits.append(column[-1])
            column = carries
        return bits

    def _add_up(self, summed: Sequence[int], total: int, carry: int) -> None:
        """Two or three variables are `total` and twice `carry`."""
        if len(summed) == 2:
            a, b = summed
            self.lines.append(
                f"{a} {b} -{total} 0\n{a} -{b} {total} 0\n-{a} {b} {total} 0\n-{a} -{b} -{total} 0\n"
                f"-{a} -{b} {carry} 0\n{a} -{carry} 0\n{b} -{carry} 0\n"
            )
            self.count += 7
            return
        a, b, c = summed
        self.lines.append(
            f"{a} {b} {c} -{total} 0\n{a} {b} -{c} {total} 0\n{a} -{b} {c} {total} 0\n-{a} {b} {c} {total} 0\n"
            f"{a} -{b} -{c} -{total} 0\n-{a} {b} -{c} -{total} 0\n-{a} -{b} {c} -{total} 0\n-{a} -{b} -{c} {total} 0\n"
            f"-{a} -{b} {carry} 0\n-{a} -{c} {carry} 0\n-{b} -{c} {carry} 0\n"
            f"{a} {b} -{carry} 0\n{a} {c} -{carry} 0\n{b} {c} -{carry} 0\n"
        )
        self.count += 14

    def _compare(self, bits: Sequence[int], low: int, high: int, let_off: Sequence[int]) -> None:
        """A binary number is at least `low`, where none of `let_off` holds, and at most `high`."""
        for place, bit in enumerate(bits):
            above = list(enumerate(bits))[place + 1 :]
            if not high >> place & 1:
                self.add(-bit, *(-other for k, other in above if high >> k & 1))
            if low >> place & 1:
                self.add(bit, *(other for k, other in above if not low >> k & 1), *let_off)

"""Clauses that count: that they hold exactly within the bounds, and that all further variables follow."""

import itertools
import unittest
from unittest import mock

from helgrothy._reason import counting
from helgrothy._reason.counting import Clauses


def follows(clauses, known):
    """What follows from variables that are known, one clause after another; None where that can't be."""
    known = dict(known)
    changed = True
    while changed:
        changed = False
        for clause in clauses:
            if any(known.get(abs(one)) == (one > 0) for one in clause):
                continue
            left = {one for one in clause if abs(one) not in known}
            if not left:
                return None
            if len(left) == 1:
                one = left.pop()
                known[abs(one)] = one > 0
                changed = True
    return known


class Counting(unittest.TestCase):
    def compare(self, size: int, low: int, high: int, let_off: list) -> None:
        held = list(range(1, size + 1))
        last = size + len(let_off)
        found = Clauses(last)
        found.bound(held, low, high, let_off)
        clauses = [[int(word) for word in line.split()[:-1]] for line in "".join(found.lines).splitlines()]
        self.assertEqual(found.count, len(clauses))
        for values in itertools.product((False, True), repeat=last):
            known = follows(clauses, enumerate(values, 1))
            is_let_off = any(values[size:])
            is_within = (low <= sum(values[:size]) or is_let_off) and sum(values[:size]) <= high
            self.assertEqual(known is not None, is_within, (size, low, high, values))
            self.assertTrue(known is None or len(known) == found.last)

    def test_all_small_bounds(self):
        for most in (100_000, 0):
            with mock.patch.object(counting, "_MOST_CHAINED", most):
                for size in range(7):
                    for low, high in itertools.product(range(size + 2), range(1, size + 2)):
                        if low <= high:
                            self.compare(size, low, high, [])
                for size, low, high in ((5, 2, 3), (5, 0, 4), (4, 5, 6), (5, 1, 1), (6, 1, 1)):
                    self.compare(size, low, high, [size + 1])

    def test_large_bounds_take_a_few_clauses_for_each_variable(self):
        for low, high in ((20_000, 30_000), (1, 49_999), (0, 100)):
            found = Clauses(50_000)
            found.bound(range(1, 50_001), low, high, [])
            self.assertLess(found.count, 15 * 50_000)
            self.assertLess(found.last, 3 * 50_000)


if __name__ == "__main__":
    unittest.main()

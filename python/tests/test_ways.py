"""`solve` in a random order, with options that are given and forbidden, and by costs."""

import random
import unittest
from fractions import Fraction
from unittest import mock

from problems import problem_of

from helgrothy import Null, Problem, TableFault, cost, make, shuffle

BOARD = make.queens.problem(6)


def numbers(solutions):
    return [sorted(solution.numbers) for solution in solutions]


class Ways(unittest.TestCase):
    def test_random_problems(self):
        """Against those of all solutions that have the options, or cost least."""
        rng = random.Random(5)
        for case in range(60):
            problem = Problem.parse(problem_of(rng, case % 3 + 1))
            places = range(len(problem.options))
            held, dropped = (rng.sample(places, min(len(places), rng.randint(0, 1))) for _ in range(2))
            if set(held) & set(dropped):
                with self.assertRaisesRegex(ValueError, f"^option {held[0]} is both given and forbidden: "):
                    problem.solve(given=held, forbidden=dropped)
                continue
            wanted = [one for one in numbers(problem.solve()) if set(held) <= set(one) and not set(dropped) & set(one)]
            how = {"given": held, "forbidden": dropped}
            for seed in (None, case):
                found = problem.solve(seed=seed, **how)
                self.assertEqual(sorted(numbers(found)), sorted(wanted))
                self.assertEqual((found.total, found.complete), (len(wanted), True))
            self.assertEqual(problem.count(**how), len(wanted))
            costs = [rng.randint(-3, 9) for _ in places]
            found = [one.cost for one in problem.solve(cost=costs, **how)]
            self.assertEqual(found, [min(sum(costs[place] for place in one) for one in wanted)] if wanted else [])

    def test_a_seed(self):
        for seed in (0, 7):
            first = next(BOARD.solve(1, seed=seed))
            self.assertEqual(first, next(shuffle.solve(BOARD, seed, 1)))
        self.assertEqual(len({tuple(next(BOARD.solve(1, seed=seed)).numbers) for seed in range(20)}), 4)
        found = next(BOARD.solve(1, seed=7, given=["r1 c2"]))
        self.assertIn(1, found.numbers)
        self.assertEqual(found, [BOARD.options[number] for number in found.numbers])
        with self.assertRaisesRegex(ValueError, "^with a seed there are no nulls$"):
            BOARD.solve(seed=1, nulls=True)

    def test_options_that_are_given(self):
        found = BOARD.solve(given=["r1 c2"])
        self.assertEqual((numbers(found), found.total, found.complete), ([[1, 9, 17, 18, 26, 34]], 1, True))
        for wanted in BOARD.solve():
            self.assertEqual(numbers(BOARD.solve(given=wanted[:2])), [sorted(wanted.numbers)])
        self.assertEqual(len(numbers(BOARD.solve(forbidden=["r1 c2", 2]))), 2)
        first = next(iter(BOARD.solve(forbidden=["r1 c2"])))
        self.assertEqual([step.option for step in first.steps], first.numbers)
        self.assertIn("<svg", BOARD.solve(given=[1])._repr_html_())
        limited = BOARD.solve(1, forbidden=["r1 c2"])
        self.assertEqual((len(numbers(limited)), limited.total, limited.complete), (1, 1, False))

    def test_nulls(self):
        problem = Problem({"a": (0, 2), "b": 1}, options=["ab", "a", "b"])
        self.assertEqual(numbers(problem.solve(given=[0])), [[0, 1], [0]])
        found = [list(one) for one in problem.solve(given=[0], nulls=True)]
        self.assertEqual([[getattr(choice, "item", choice) for choice in one] for one in found], [["ab", "a"], ["ab", "a"]])
        self.assertIsInstance(found[1][1], Null)

    def test_the_cheapest(self):
        costs = [number % 7 + Fraction(1, 2) for number in range(36)]
        found = BOARD.solve(cost=costs)
        (cheapest,) = found
        self.assertEqual(cheapest.cost, 24)
        self.assertEqual((found.total, found.complete), (1, False))
        (cheapest,) = BOARD.solve(cost="r1 c2 -5\nr* c3 1\n", given=["r1 c3"])
        self.assertEqual((cheapest.cost, cheapest.numbers[:1]), (1, [2]))
        self.assertEqual(cheapest, [BOARD.options[number] for number in cheapest.numbers])
        found = make.queens.problem(3).solve(cost=[1] * 9)
        self.assertEqual((list(found), found.total, found.complete), ([], 0, True))
        with self.assertRaisesRegex(ValueError, "^1 costs, and the problem has 36 options$"):
            BOARD.solve(cost=[1], given=[1])
        with self.assertRaises(TableFault):
            BOARD.solve(cost="q 3")
        for how in ({"limit": 2}, {"spacing": 2}, {"nulls": True}, {"seed": 3}):
            with self.assertRaisesRegex(ValueError, "^the solution of least cost is one: without limit"):
                BOARD.solve(cost=costs, **how)

    def test_the_cheapest_one_in_the_time(self):
        """What had been found of the problem with options that are given is reported as of the problem itself."""
        inner = mock.Mock(numbers=[0, 2], cost=3, by="dlx3")
        problem = Problem("abc", options=["c", "ab", "a", "bc"])
        with mock.patch("helgrothy._run.cheapest.least", side_effect=cost.NotLeast(inner)):
            with self.assertRaises(cost.NotLeast) as raised:
                next(problem.solve(cost=[1, 2, 3, 4], forbidden=["ab"]))
        self.assertEqual((raised.exception.best.numbers, raised.exception.best.cost), ([0, 3], 3))


if __name__ == "__main__":
    unittest.main()

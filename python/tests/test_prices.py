"""Prices show that no solution costs less than the cheapest one, and never more than is true."""

import random
import shutil
import unittest
from unittest import mock

from problems import problem_of

from helgrothy import Problem, cost, make, wishes
from helgrothy._reason import bounds, prices, sat_solver
from helgrothy._reason.prices import Prices

# All have as many shifts as they must, and fay likes nights.
ROSTER = """\
-      mon tue wed thu fri sat sun
early  2   2   2   2   2   1   1
late   2   2   2   2   2   1   1
night  1   1   1   1   1   1   1

ann 4:5
bob 4:5 night=3
cat 4:5
dan 4:5 early=2
eve 4:5
fay 4:5 night=-1
gus 3:5
hal 4:5 sat=4 sun=4
"""


def shows(problem, costs, goal):
    return Prices(problem, costs).show(goal, 600.0)


class Shown(unittest.TestCase):
    def test_random_problems(self):
        """What they show is so, with bounds and colours and without; and mostly they show all that is so."""
        rng = random.Random(22)
        solved = shown = 0
        while solved < 150:
            problem = Problem.parse(problem_of(rng, rng.choice([1, 2, 3])))
            costs = [rng.randint(-5, 30) for _ in problem.options]
            wanted = min((sum(costs[place] for place in one.numbers) for one in problem.solve()), default=None)
            if wanted is not None:
                solved += 1
                shown += shows(problem, costs, wanted)
                for more in (1, 2, 50):
                    self.assertFalse(shows(problem, costs, wanted + more), (problem.text, costs))
        self.assertGreater(shown, 100)

    def test_goals(self):
        """One after another, as solutions get cheaper."""
        problem = Problem("abc", options=["ab", "c", "a", "bc", "b"])
        found = Prices(problem, [5, 1, 2, 3, 9])
        self.assertEqual([found.show(goal, 600.0) for goal in (12, 6, 5, 4)], [False, False, True, True])

    def test_a_roster(self):
        for words in ({}, {"rest": True}, {"rest": True, "in_a_row": 5, "days_off": 2}):
            problem = make.roster.problem(ROSTER, **words)
            costs = list(map(int, wishes.of_table(problem).numbers))
            self.assertEqual([shows(problem, costs, goal) for goal in (-3, -4, -5)], [False, True, True])

    def test_what_they_are_not_for(self):
        self.assertFalse(shows(Problem("a", options=["a"]), [1 << 1000], 0))
        with mock.patch.object(prices, "_MOST_USES", 2):
            self.assertFalse(shows(Problem("abc", options=["abc"]), [7], 7))
        self.assertTrue(shows(Problem("abc", options=["abc"]), [7], 7))
        # Without a solution anything may be shown, and an option without a primary item counts for nothing.
        with self.assertWarns(UserWarning):
            problem = Problem("a", "x", ["a", "x"])
        self.assertTrue(shows(problem, [3, -9], 3))

    @unittest.skipUnless(shutil.which("clasp"), "needs clasp")
    def test_beside_clasp(self):
        problem = make.roster.problem(ROSTER, rest=True)
        costs = wishes.of_table(problem).numbers
        with mock.patch.object(sat_solver, "path_of", lambda name: shutil.which(name) if name == "clasp" else None):
            with mock.patch.object(cost, "_ALONE_SECONDS", 0.1):
                found = cost.least(problem, costs)
        self.assertEqual((found.by, found.cost), ("prices", -4))
        self.assertEqual(found.cost, sum(costs[place] for place in found.numbers))

    @mock.patch.object(sat_solver, "path_of", lambda name: None)
    def test_without_clasp(self):
        """They narrow the bounds of dlx3, which came to no end in 18 seconds."""
        problem = make.roster.problem(ROSTER)
        costs = wishes.of_table(problem).numbers
        found = cost.least(problem, costs)
        self.assertEqual((found.cost, sum(costs[place] for place in found.numbers)), (-4, -4))

    @mock.patch.object(sat_solver, "path_of", lambda name: None)
    @mock.patch.object(bounds, "_MUCH_LESS", 1.0)
    @mock.patch.object(cost, "_ALONE_SECONDS", 0.0)
    def test_beside_dlx3(self):
        """As without them, whoever ends first."""
        rng = random.Random(23)
        for _ in range(20):
            problem = Problem.parse(problem_of(rng, 3))
            costs = [rng.randint(-5, 30) for _ in problem.options]
            wanted = min((sum(costs[place] for place in one.numbers) for one in problem.solve()), default=None)
            found = cost.least(problem, costs)
            self.assertEqual(None if found is None else found.cost, wanted)
        board = make.queens.problem(8)
        for _ in range(5):
            costs = [rng.randint(1, 64) for _ in board.options]
            wanted = min(sum(costs[place] for place in one.numbers) for one in board.solve())
            self.assertEqual(cost.least(board, costs).cost, wanted)


if __name__ == "__main__":
    unittest.main()

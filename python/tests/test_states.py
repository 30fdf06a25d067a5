"""The sweep over states finds the cheapest of all solutions, or says nothing."""

import random
import unittest
from unittest import mock

from problems import problem_of

from helgrothy import Problem, cost
from helgrothy._reason import sat_solver, states
from helgrothy._reason.prices import Prices
from helgrothy._reason.states import Sweep


def swept(problem, costs):
    """What the sweep finds, when it goes on until it is over."""
    sweep = Sweep(problem, costs)
    while not sweep.is_over:
        sweep.go_on(0.001)
    return sweep.numbers


def dominoes(rows, columns):
    cells = [(r, c) for r in range(rows) for c in range(columns)]
    pairs = [(at, to) for at in cells for to in ((at[0], at[1] + 1), (at[0] + 1, at[1])) if to in cells]
    return Problem(cells, options=pairs)


class States(unittest.TestCase):
    def test_random_problems(self):
        """As the cheapest of all, with colours and secondary items; where there is no solution it finds none."""
        rng = random.Random(16)
        solved = coloured = 0
        while solved < 200:
            problem = Problem.parse(problem_of(rng, rng.choice([1, 2, 2])))
            costs = [rng.randint(-5, 30) for _ in problem.options]
            wanted = min((sum(costs[place] for place in one.numbers) for one in problem.solve()), default=None)
            found = swept(problem, costs)
            self.assertEqual(None if found is None else sum(costs[place] for place in found), wanted, (problem.text, costs))
            if found:
                self.assertEqual(problem.check([[problem.options[place] for place in found]]), [True])
                solved += 1
                coloured += ":" in problem.text
        self.assertGreater(coloured, 50)

    def test_dominoes(self):
        rng = random.Random(17)
        problem = dominoes(4, 5)
        costs = [rng.randint(1, 50) for _ in problem.options]
        wanted = min(sum(costs[place] for place in one.numbers) for one in problem.solve())
        self.assertEqual(sum(costs[place] for place in swept(problem, costs)), wanted)
        self.assertIsNone(swept(dominoes(3, 3), [1] * 12))

    def test_what_it_is_not_for(self):
        for problem in (Problem({"a": (0, 1)}, options=["a"]), Problem({"a": (1, 2)}, options=["a", "a"])):
            self.assertIsNone(swept(problem, [1] * len(problem.options)))
        for name in ("_MOST_STATES", "_MOST_USES"):
            with mock.patch.object(states, name, 5):
                self.assertIsNone(swept(dominoes(4, 4), [1] * 24))

    def test_beside_the_programs(self):
        rng = random.Random(18)
        problem = dominoes(8, 8)
        costs = [rng.randint(1, 100) for _ in problem.options]
        with mock.patch.object(sat_solver, "path_of", lambda name: None), mock.patch.object(cost, "_ALONE_SECONDS", 0.0):
            with mock.patch.object(Prices, "show", lambda *words: False):
                found = cost.least(problem, costs)
            self.assertEqual((found.by, found.is_proved, len(found)), ("states", True, 32))
            self.assertEqual(found.cost, sum(costs[place] for place in found.numbers))
            # Bounds are for the others.
            bounded = Problem({"a": (1, 2), "b": (0, 2)}, options=["a", "ab", "b"])
            found = cost.least(bounded, [2, 1, 0])
            self.assertEqual((found.by in ("dlx3", "prices"), found.cost), (True, 1))
            self.assertIsNone(cost.least(dominoes(3, 3), [1] * 12))


if __name__ == "__main__":
    unittest.main()

"""Random solutions are solutions, the same for the same seed, and others for others."""

import random
import unittest

from problems import problem_of
from test_commands import run

from helgrothy import OutOfTime, Problem, make, shuffle


class Shuffle(unittest.TestCase):
    def test_order(self):
        # The same in every Python, since `random` is promised to be.
        self.assertEqual(shuffle.order(10, random.Random(7)), [2, 7, 4, 6, 8, 9, 0, 5, 1, 3])
        self.assertEqual(sorted(shuffle.order(1000, random.Random(1))), list(range(1000)))
        self.assertEqual((shuffle.order(0, random.Random(1)), shuffle.order(1, random.Random(1))), ([], [0]))
        first = {shuffle.order(5, random.Random(seed))[0] for seed in range(50)}
        self.assertEqual(first, set(range(5)))

    def test_all(self):
        """In another order they are the same solutions, of problems of all kinds."""
        rng = random.Random(5)
        for number in range(40):
            problem = Problem.parse(problem_of(rng, number % 3 + 1))
            wanted = sorted(sorted(solution.numbers) for solution in problem.solve())
            for limit in (None, len(wanted) + 1):
                stream = shuffle.solve(problem, number, limit)
                found = sorted(sorted(one.numbers) for one in stream)
                self.assertEqual((found, stream.total, stream.complete), (wanted, len(wanted), True))
            if wanted:
                stream = shuffle.solve(problem, number, 1)
                (one,) = stream
                self.assertIn(sorted(one.numbers), wanted)
                self.assertEqual(one, [problem.options[place] for place in one.numbers])
                self.assertEqual((stream.total, stream.complete), (1, False))

    def test_seeds(self):
        problem = make.sudoku.problem("." * 81)
        grids = [str(problem.draw(next(shuffle.solve(problem, seed, 1)))) for seed in (1, 2, 3, 1)]
        self.assertEqual(grids[0], grids[3])
        self.assertEqual(len(set(grids)), 3)
        # Of one seed this is the board, whatever the machine and the Python.
        board = make.queens.problem(6)
        self.assertEqual(sorted(next(shuffle.solve(board, 4, 1)).numbers), [1, 9, 17, 18, 26, 34])

    def test_restarts(self):
        """A search that is too long in one order comes to an end in another one."""
        problem = make.queens.problem(40)
        self.assertEqual(len(next(shuffle.solve(problem, 1, 1, seconds=60))), 40)
        with self.assertRaises(OutOfTime):
            list(shuffle.solve(make.langford.problem(18), 1, 1, seconds=0.3))

    def test_command(self):
        status, text, messages = run("queens", "6", "--shuffle", "4")
        self.assertEqual((status, text.splitlines()[0], messages), (0, ". Q . . . .", "Altogether 1 solution (limit).\n"))
        self.assertEqual(run("queens", "6", "--shuffle", "4", "--all")[2], "Altogether 4 solutions.\n")
        self.assertEqual(run("queens", "3", "--shuffle", "4")[0], 1)
        self.assertIn("<title>", run("queens", "6", "--shuffle", "4", "--all", "--html")[1])
        for seed in ("-1", "x", "1" * 21, "\u0663"):
            self.assertEqual(run("queens", "6", "--shuffle", seed)[0], 2)


if __name__ == "__main__":
    unittest.main()

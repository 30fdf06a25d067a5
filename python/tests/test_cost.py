"""The solution of least cost is the least of all, by each of the engines and without them."""

import os
import random
import shutil
import tempfile
import time
import unittest
from contextlib import ExitStack
from decimal import Decimal
from fractions import Fraction
from unittest import mock

from problems import problem_of
from test_commands import run

from helgrothy import Problem, TableFault, cost, engines, make
from helgrothy._reason import optimisers, sat_solver

ENGINES = [name for name in optimisers.NAMES if shutil.which(name)]
SOLVERS = ["dlx3", *ENGINES]


class Hanging:
    """A search of dlx3 that comes to no end."""

    def __init__(self, problem, costs, deadline, beside) -> None:
        self.look = beside.look

    def solutions(self):
        while True:
            self.look()
            time.sleep(0.01)
            yield from ()


def least(problem, costs, by, seconds=None):
    """The least by one of the ways."""
    # Engines aren't asked where there is nothing to choose.
    if by == "dlx3" or not problem.options:
        with mock.patch.object(sat_solver, "path_of", lambda name: None):
            return cost.least(problem, costs, seconds)
    with ExitStack() as stack:
        stack.enter_context(mock.patch.object(sat_solver, "path_of", lambda name: shutil.which(name) if name == by else None))
        stack.enter_context(mock.patch.object(cost, "Bounds", Hanging))
        stack.enter_context(mock.patch.object(cost._Reasoning, "look", lambda *words: None))
        stack.enter_context(mock.patch.multiple(cost, _ENGINE_SECONDS=-1.0, _PROOF_SECONDS=0.0, _NONE_SECONDS=0.0))
        try:
            return cost.least(problem, costs, seconds, print)
        except engines.Claimed as claim:
            assert claim.by == by
            return None


class Cost(unittest.TestCase):
    def test_random_problems(self):
        rng = random.Random(6)
        solved = 0
        number = 0
        while solved < 50:
            problem = Problem.parse(problem_of(rng, number % 3 + 1))
            number += 1
            kinds = [lambda: rng.randint(-4, 9), lambda: rng.randint(0, 1), lambda: Fraction(rng.randint(0, 40), 4)]
            costs = [rng.choice(kinds)() for _ in problem.options]
            wanted = min((sum(costs[place] for place in one.numbers) for one in problem.solve()), default=None)
            solved += wanted is not None
            for by in SOLVERS if number % 4 == 0 else ["dlx3"]:
                found = least(problem, costs, by)
                self.assertEqual(None if found is None else found.cost, wanted, (by, problem.text, costs))
                if found is not None:
                    # What is known from the beginning is by prices.
                    by = by if problem.options else "dlx3"
                    self.assertIn((found.by, found.is_proved), [(by, by == "dlx3"), ("prices", True)])
                    self.assertEqual(found.cost, sum(costs[place] for place in found.numbers))
                    self.assertEqual(found, [problem.options[place] for place in found.numbers])

    def test_board(self):
        rng = random.Random(7)
        problem = make.queens.problem(8)
        costs = [rng.randint(1, 64) for _ in problem.options]
        wanted = min(sum(costs[place] for place in one.numbers) for one in problem.solve())
        for by in SOLVERS:
            self.assertEqual(least(problem, costs, by).cost, wanted)

    def test_kinds_of_numbers(self):
        problem = Problem("ab", options=["a", "b", "ab"])
        for by in SOLVERS:
            for costs, wanted in (
                ([0.1, 0.2, 0.4], Fraction(3, 10)), ([Decimal("1e-9"), 0, 1], Fraction(1, 10**9)), ([-1, -1, -3], -3),
                ([10**30, 10**30, 10**31], 2 * 10**30), ([0, 0, 0], 0),
            ):  # fmt: skip
                # Engines don't take numbers that are too large.
                if by == "dlx3" or max(costs) < 10**30:
                    self.assertEqual(least(problem, costs, by).cost, wanted)
        for costs in ([1, 2], [1, 2, 3, 4], [1, 2, float("nan")]):
            with self.assertRaises(ValueError):
                cost.least(problem, costs)

    def test_alike_and_ignored(self):
        with self.assertWarns(UserWarning):
            problem = Problem("ab", "x", ["a", "a", "b", "x", "b"])
        for by in SOLVERS:
            found = least(problem, [5, 3, 2, -9, 4], by)
            self.assertEqual((found.cost, sorted(found.numbers)), (5, [1, 2]))

    def test_out_of_time(self):
        rng = random.Random(8)
        problem = make.queens.problem(20)
        costs = [rng.randint(1, 10**5) for _ in problem.options]
        with mock.patch.object(sat_solver, "path_of", lambda name: shutil.which(name) if name == "clasp" else None):
            with self.assertRaises(cost.NotLeast) as raised:
                cost.least(problem, costs, 1.0)
        best = raised.exception.best
        if best is not None:
            self.assertEqual(problem.check([best]), [True])

    def test_costs(self):
        self.assertEqual(cost.read("| a comment\n1 -2.5\n\t+0.25 .5 7.\n", 5), [1, Fraction(-5, 2), Fraction(1, 4), Fraction(1, 2), 7])
        for text, wanted in (
            ("1 2", "line 1: 2 costs, and the problem has 3 options"),
            ("", "line 1: 0 costs, and the problem has 3 options"),
            ("1\n2 3\n4", "line 3: 4: a cost too many: the problem has 3 options"),
            ("1 x 3", "line 1: x: no cost; one is a number such as 3, -2 or 0.5"),
            ("1 nan 3", "line 1: nan: no cost; one is a number such as 3, -2 or 0.5"),
            ("1\n1e5 3", "line 2: 1e5: no cost; one is a number such as 3, -2 or 0.5"),
            ("1 \u0663 3", "line 1: \u0663: no cost; one is a number such as 3, -2 or 0.5"),
            ("1/2 1 3", "line 1: 1/2: no cost; one is a number such as 3, -2 or 0.5"),
            ("1_0 1 3", "line 1: 1_0: no cost; one is a number such as 3, -2 or 0.5"),
            ("9" * 16 + " 1 3", "line 1: " + "9" * 16 + ": no cost; one is a number such as 3, -2 or 0.5"),
        ):
            with self.subTest(text=text), self.assertRaises(TableFault) as raised:
                cost.read(text, 3)
            self.assertEqual(str(raised.exception), wanted)

    def test_command(self):
        with tempfile.TemporaryDirectory() as folder:
            path = os.path.join(folder, "costs")

            def solve(costs, *words, given="A B\nA\nB\nA B\nA\n"):
                with open(path, "w") as file:
                    file.write(costs)
                with mock.patch.object(sat_solver, "path_of", lambda name: None):
                    return run("solve", "--cost", path, *words, given=given)

            self.assertEqual(solve("5 1.5 7 3.25"), (0, "B\nA\n", "The least cost is 4.75.\n"))
            self.assertEqual(solve("5 1 0 3", "--csv")[1].splitlines()[1:], ["1,3,A,B"])
            status, _, messages = solve("5", given="A B\nA\n")
            self.assertEqual((status, messages.splitlines()[0]), (1, "Altogether 0 solutions."))
            wanted = "helgrothy: this search finds one solution: without --all, --limit, --number, --random, --count, --chances and --unique\n"
            self.assertEqual(solve("5", "--all")[2], wanted)
            self.assertEqual(solve("5", "--html")[0], 2)
            wanted = f"helgrothy: {path}: line 1: 1 costs, and the problem has 4 options\n"
            self.assertEqual(solve("5"), (2, "", wanted))
            self.assertEqual(run("solve", "--cost", "-")[0], 2)
            rng = random.Random(9)
            costs = " ".join(str(rng.randint(1, 10**5)) for _ in range(400))
            status, text, messages = solve(costs, "--seconds", "2", given=make.queens.problem(20).text)
            self.assertEqual((status, text.count("Q") in (0, 20)), (2, True))
            self.assertRegex(messages, "is the least cost that was found; in 2 seconds it wasn't proved that there is no less|no solution|done")

    def test_a_solution_of_an_engine_narrows_the_bounds(self):
        """dlx3 proves what another way found, and prices begin before their time where it is urgent."""
        rng = random.Random(11)
        problem = make.queens.problem(9)
        costs = [rng.randint(1, 64) for _ in problem.options]
        wanted = min((sum(costs[at] for at in one.numbers), one.numbers) for one in problem.solve())

        class Finds:
            """Of an engine that finds it, and says no more."""

            name, numbers, cost = "clasp", wanted[1], wanted[0]
            is_over = is_least = is_none = False

            def hear(self):
                pass

            def end(self):
                pass

        with mock.patch.object(cost, "Optimiser", lambda *words: Finds()), mock.patch.object(cost, "_ENGINE_SECONDS", -1.0):
            with mock.patch.object(optimisers, "found", lambda costs: [sat_solver.Engine("clasp", "clasp")]):
                found = cost.least(problem, costs)
        self.assertEqual((found.cost, found.is_proved), (wanted[0], True))


if __name__ == "__main__":
    unittest.main()

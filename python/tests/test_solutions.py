"""Solutions are of one type however they were found, and copies keep what they say."""

import copy
import pickle
import unittest
from concurrent.futures import ProcessPoolExecutor
from fractions import Fraction
from unittest import mock

from helgrothy import Listed, OutOfTime, Problem, Solution, Solutions, Step, answers, cost, make, shuffle, symmetry
from helgrothy._reason import sat_solver
from helgrothy.draw import Pattern

BOARD = make.queens.problem(6)
CELL = make.KINDS["queens"].cell
PLAN = symmetry.plan(BOARD, symmetry.motions(BOARD, CELL))
STREAMS = {
    "solve": lambda **how: BOARD.solve(**how),
    "shuffle": lambda **how: shuffle.solve(BOARD, 3, **how),
    "symmetry": lambda **how: symmetry.solve(BOARD, PLAN, **how),
}


def least(problem, costs, has_clasp=True):
    with mock.patch.object(sat_solver, "path_of", sat_solver.path_of if has_clasp else lambda name: None):
        return cost.least(problem, costs)


def listing(problem, solution):
    return "7:\n" + "".join(f" {problem.line(option)} (1 of 1)\n" for option in solution)


def each():
    """A solution of the board by each way."""
    plain = next(BOARD.solve())
    chosen = " ".join(f"x({number + 1})" for number in plain.numbers)
    yield "solve", plain
    yield "a limit", next(shuffle.solve(BOARD, 5, limit=1))
    yield "shuffle", next(shuffle.solve(BOARD, 5))
    yield "symmetry", next(symmetry.solve(BOARD, PLAN))
    yield "cost", least(BOARD, range(36))
    yield "bounds", least(BOARD, range(36), has_clasp=False)
    yield "answers", next(answers.solutions("clasp", BOARD, [f"{chosen}\n".encode(), b"SATISFIABLE\n"]))
    yield "listed", next(BOARD.listed(listing(BOARD, plain)))


def of_seed(seed):
    """What a process gives back."""
    return next(shuffle.solve(BOARD, seed, limit=1))


class OneType(unittest.TestCase):
    def test_a_solution(self):
        for way, solution in each():
            with self.subTest(way=way):
                self.assertIsInstance(solution, Solution)
                options = [BOARD.options[number] for number in solution.numbers]
                self.assertTrue(solution == options and options == solution and list(solution) == options)
                self.assertTrue(all(one is other for one, other in zip(solution, options)))
                self.assertEqual((len(solution), len({solution, solution}), solution[:2]), (6, 1, options[:2]))
                self.assertEqual([step.option for step in solution.steps], solution.numbers)
                self.assertEqual(BOARD.check([solution]), [True])
                self.assertEqual(str(BOARD.draw(solution)).count("Q"), 6)
                self.assertEqual(solution._repr_svg_(), BOARD.draw(solution).svg())

    def test_a_stream(self):
        for way, stream in STREAMS.items():
            with self.subTest(way=way):
                solutions = stream()
                self.assertIsInstance(solutions, Solutions)
                self.assertEqual((solutions.total, solutions.complete), (None, None))
                found = [next(solutions), *solutions]
                self.assertEqual((solutions.total, solutions.complete), (len(found), True))
                self.assertEqual(list(stream(spacing=2)), found[1::2])
                with stream(limit=1) as solutions:
                    self.assertEqual((len(list(solutions)), solutions.total, solutions.complete), (1, 1, False))
                solutions = stream()
                solutions.close()
                self.assertEqual(list(solutions), [])
                html = stream()._repr_html_()
                self.assertIn(f"{len(found)} solution{'s' if len(found) > 1 else ''}<", html)
                self.assertTrue(all(solution._repr_svg_() in html for solution in found))
                for wrong in ({"limit": 0}, {"spacing": 0}):
                    with self.assertRaises(ValueError):
                        stream(**wrong)

    def test_pictures_are_those_of_the_stream(self):
        board = make.queens.problem(9)
        stream = shuffle.solve(board, 2, limit=40)
        html = stream._repr_html_()
        self.assertIn("the first 24 solutions", html)
        self.assertTrue(all(solution._repr_svg_() in html for solution, _ in zip(stream, range(24))))
        hard = make.langford.problem(18)
        self.assertIn("the time", shuffle.solve(hard, 1, limit=1, seconds=0.05)._repr_html_())

    def test_they_are_drawn_as_the_problem_is(self):
        cells = [(r, c) for r in (1, 2) for c in (1, 2)]
        tiling = Problem(cells, options=[(cells[0], cells[1]), (cells[2], cells[3]), (cells[0], cells[2]), (cells[1], cells[3])])
        tiling.pattern = Pattern(cell=r"(\d),(\d)")
        for solution in (next(shuffle.solve(tiling, 1)), least(tiling, [1, 1, 0, 0], False)):
            self.assertIn("<svg", solution._repr_svg_())

    def test_numbers_of_equal_options(self):
        problem = Problem({"a": 1, "b": (0, 1)}, options=["a", "b", "a", "ab", "b"])
        wanted = sorted(sorted(solution.numbers) for solution in problem.solve())
        for seed in range(4):
            found = list(shuffle.solve(problem, seed))
            self.assertEqual(sorted(sorted(solution.numbers) for solution in found), wanted)
            for solution in found:
                self.assertEqual(solution, [problem.options[number] for number in solution.numbers])
                self.assertEqual([step.option for step in solution.steps if step.option is not None], solution.numbers)

    def test_what_was_found_in_the_time(self):
        """Solutions that are left out count."""
        board = make.queens.problem(14)
        plan = symmetry.plan(board, symmetry.motions(board, CELL))
        for seconds in (0.3, 2, 20):
            for begin in (lambda **how: board.solve(**how), lambda **how: symmetry.solve(board, plan, **how)):
                shown = 0
                with self.assertRaises(OutOfTime) as raised:
                    for _ in begin(spacing=3, seconds=seconds):
                        shown += 1
                self.assertIn(raised.exception.found - 3 * shown, range(3))
            if raised.exception.found:
                break


class Copies(unittest.TestCase):
    def test_they_keep_what_it_says(self):
        bounds = Problem({"a": (1, 2), "b": None}, options=["a", "ab", "b"])
        ways = [*each(), ("nulls", list(bounds.solve(nulls=True))[1]), ("not read", next(BOARD.solve()))]
        for way, solution in ways:
            pickled = [pickle.loads(pickle.dumps(solution, protocol)) for protocol in range(pickle.HIGHEST_PROTOCOL + 1)]
            for copied in (*pickled, pickle.loads(pickle.dumps(pickled[-1])), copy.copy(solution), copy.deepcopy(solution)):
                with self.subTest(way=way):
                    self.assertIs(type(copied), type(solution))
                    self.assertEqual((copied, hash(copied)), (solution, hash(solution)))
                    self.assertEqual((copied.numbers, copied.steps), (solution.numbers, solution.steps))
                    for name in ("cost", "by", "number"):
                        self.assertEqual(getattr(copied, name, None), getattr(solution, name, None))
            if way != "nulls":
                self.assertEqual(str(BOARD.draw(pickled[0])), str(BOARD.draw(solution)))
                self.assertIsNone(pickled[0]._repr_svg_())

    def test_what_subclasses_say(self):
        found = pickle.loads(pickle.dumps(least(BOARD, [Fraction(k, 2) for k in range(36)], has_clasp=False)))
        self.assertEqual((type(found), found.cost, found.by), (cost.Least, sum(found.numbers, Fraction(0)) / 2, "dlx3"))
        found = pickle.loads(pickle.dumps(next(BOARD.listed(listing(BOARD, next(BOARD.solve()))))))
        self.assertEqual((type(found), found.number), (Listed, 7))

    def test_lists_of_them_are_copies_of_their_own(self):
        solution = pickle.loads(pickle.dumps(next(BOARD.solve())))
        solution.numbers.clear()
        solution.steps.clear()
        self.assertEqual((len(solution.numbers), len(solution.steps)), (6, 6))

    def test_other_processes_give_them_back(self):
        with ProcessPoolExecutor(2) as pool:
            for seed, solution in enumerate(pool.map(of_seed, range(3))):
                wanted = of_seed(seed)
                self.assertEqual((type(solution), solution), (Solution, wanted))
                self.assertEqual((solution.numbers, solution.steps), (wanted.numbers, wanted.steps))
                self.assertIsInstance(solution.steps[0], Step)


if __name__ == "__main__":
    unittest.main()

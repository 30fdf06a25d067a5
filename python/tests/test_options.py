"""Options: how they are given and added, and how solutions name them."""

import copy
import pickle
import unittest
import warnings
from fractions import Fraction

from helgrothy import OutOfTime, Problem, ProblemFault, make


class Secondary(unittest.TestCase):
    def test_the_rest_is_secondary(self):
        options = [("a", "x"), {"b": None, "y": "red", "x": None}, ["b", "z"]]
        problem = Problem("ab", options=options, secondary=True)
        self.assertEqual(list(problem.secondary), ["x", "y", "z"])
        self.assertEqual(list(problem.solve()), [[options[0], options[2]]])
        # Options that can be gone through once alone are so.
        self.assertEqual(list(Problem("a", True, iter([iter("ax"), iter("ay")])).secondary), ["x", "y"])
        self.assertEqual(list(Problem("a", False).secondary), [])

    def test_an_option_more(self):
        problem = Problem("ab", options=["a"], secondary=True)
        self.assertEqual(problem.count(), 0)
        self.assertEqual((problem.add_option("b"), problem.add_option({"b": None, "x": (1, "red")})), (1, 2))
        self.assertEqual((problem.count(), problem.kind, list(problem.secondary)), (2, 2, ["x"]))
        self.assertEqual(problem.text, "a b | x\na\nb\nb x:1,red\n")
        self.assertEqual(Problem.parse(problem.text).count(), 2)

    def test_an_option_that_is_refused_leaves_nothing(self):
        problem = Problem("ab", options=["a", "b"], secondary=True)
        for wrong in ({"a": None, "x": None, "b": "red"}, ["c", "a", "a"], ["y", []], 5, {"x": []}):
            with self.assertRaises(ProblemFault):
                problem.add_option(wrong)
        self.assertEqual((problem.text, problem.kind, problem.count()), ("a b\na\nb\n", 1, 1))
        with self.assertRaises(ProblemFault) as raised:
            Problem("ab").add_option("ax")
        self.assertEqual((raised.exception.option, raised.exception.token), (0, "x"))
        with self.assertWarnsRegex(UserWarning, "option 2 has no primary item") as warned:
            problem.add_option(["z"])
        self.assertEqual(warned.filename, __file__)

    def test_options_are_added_by_the_problem(self):
        problem = Problem("ab", options=["a", "b"])
        for change in (
            lambda options: options.append("ab"),
            lambda options: options.extend(["ab"]),
            lambda options: options.insert(0, "ab"),
            lambda options: options.__setitem__(0, "ab"),
            lambda options: options.__iadd__(["ab"]),
            lambda options: options.__imul__(2),
        ):
            with self.assertRaisesRegex(TypeError, "by add_option"):
                change(problem.options)
        self.assertEqual(problem.options, ["a", "b"])
        for copied in (copy.deepcopy(problem), pickle.loads(pickle.dumps(problem))):
            self.assertEqual((copied.text, copied.add_option("ab"), copied.count()), (problem.text, 2, 2))
            with self.assertRaises(TypeError):
                copied.options.append("ab")
        self.assertEqual(["c"] + Problem("a", options=["a"]).options, ["c", "a"])

    def test_options_that_go_while_solutions_come(self):
        problem = Problem("ab", options=["a", "b", "ab"])
        wanted = list(map(list, problem.solve()))
        solutions = problem.solve()
        first = next(solutions)
        del problem.options[0]
        self.assertEqual([first, *solutions], wanted)


class Faults(unittest.TestCase):
    def test_what_is_no_problem(self):
        for wanted, make_it in (
            ((None, "a", "bad bound"), lambda: Problem({"a": 1.5})),
            ((None, "a", "bad bound"), lambda: Problem({"a": "12"})),
            ((None, "a", "bad bound"), lambda: Problem({"a": {1: 2}})),
            ((0, "5", "bad option"), lambda: Problem("a", options=[5])),
            ((1, "None", "bad option"), lambda: Problem("a", options=["a", None])),
            ((0, "[1]", "unknown item"), lambda: Problem("a", options=[["a", [1]]])),
            ((0, "[1]", "bad colour"), lambda: Problem("a", "x", [{"a": None, "x": [1]}])),
            ((None, "[1]", "bad name"), lambda: Problem([[1]])),
            ((None, "{}", "bad name"), lambda: Problem("a", [{}])),
        ):
            with self.subTest(wanted=wanted), self.assertRaises(ProblemFault) as raised:
                make_it()
            self.assertEqual((raised.exception.option, raised.exception.token, raised.exception.reason), wanted)

    def test_values_that_were_meant_as_no_bounds(self):
        with self.assertRaises(ProblemFault) as raised:
            Problem({"E13": ["ann", "bob"]})
        self.assertIn("list(items) has its keys", str(raised.exception))
        self.assertEqual(Problem({"a": Fraction(2).numerator}).items["a"], (2, 2))


class Numbers(unittest.TestCase):
    def test_numbers(self):
        problem = make.queens.problem(6)
        for solution in problem.solve():
            self.assertEqual([problem.options[number] for number in solution.numbers], solution)
        alike = Problem("ab", options=["a", "b", "a"])
        self.assertEqual([sorted(solution.numbers) for solution in alike.solve()], [[0, 1], [1, 2]])
        bounds = Problem({"a": (1, 2), "b": None}, options=["a", "ab", "b"])
        self.assertEqual([solution.numbers for solution in bounds.solve()], [[0, 1], [0, 2], [1]])
        self.assertEqual([solution.numbers for solution in bounds.solve(nulls=True)], [[0, 1], [0, 2], [1]])

    def test_a_matrix(self):
        matrix = [[0, 0, 1, 0], [1, 0, 0, 1], [0, 1, 0, 0]]
        problem = Problem(range(4), options=[[j for j, one in enumerate(row) if one] for row in matrix])
        self.assertEqual([sorted(solution.numbers) for solution in problem.solve()], [[0, 1, 2]])


class Hashes(unittest.TestCase):
    def test_hashes(self):
        for options in (
            ["ab", "c", "a", "bc"],
            [["a", "b"], ("c",), ["a"], frozenset("bc")],
            [{"a": None, "b": None}, {"c": None}, {"a"}, {"b", "c"}],
        ):
            problem = Problem("abc", options=options)
            self.assertEqual(len({*problem.solve(), *problem.solve()}), 2)
        turned = [Problem("abc", options=[{a: None, b: None}, ["c"]]) for a, b in ("ab", "ba")]
        first, second = (next(problem.solve()) for problem in turned)
        self.assertEqual((first, hash(first)), (second, hash(second)))
        bounds = Problem({"a": (0, 2)}, options=["a"])
        self.assertEqual(len({*bounds.solve(nulls=True), *bounds.solve(nulls=True)}), 2)


class Found(unittest.TestCase):
    def test_what_was_found_in_the_time(self):
        problem = make.queens.problem(15)
        # A machine that does other things too finds none in a fifth of a second.
        for seconds in (0.2, 2, 20):
            with self.assertRaises(OutOfTime) as raised:
                problem.count(seconds=seconds)
            if raised.exception.found:
                break
        self.assertTrue(0 < raised.exception.found < 2279184 and raised.exception.found % 1000 == 0)
        shown = 0
        with self.assertRaises(OutOfTime) as raised:
            for _ in problem.solve(seconds=0.2):
                shown += 1
        self.assertEqual(raised.exception.found, shown)
        self.assertEqual((str(raised.exception), OutOfTime("x").found), ("dlx1 took longer than it was given", 0))
        self.assertEqual((problem.count(limit=3000, seconds=60), problem.count(limit=999, seconds=60)), (3000, 999))
        self.assertEqual(make.queens.problem(8).count(seconds=60), 92)


class Notebooks(unittest.TestCase):
    def test_pictures(self):
        problem = make.queens.problem(6)
        solution = next(problem.solve())
        self.assertEqual(solution._repr_svg_(), problem.draw(solution).svg())
        self.assertEqual(repr(problem.draw(solution)), str(problem.draw(solution)).rstrip("\n"))
        solutions = problem.solve()
        html = solutions._repr_html_()
        self.assertEqual((html.count("<svg"), html.count("4 solutions"), len(list(solutions))), (4, 1, 4))
        self.assertEqual(problem.solve(limit=2)._repr_html_().count("<svg"), 2)
        self.assertEqual(problem.solve(spacing=2)._repr_html_().count("<svg"), 2)
        self.assertIn("the first 24 solutions", make.queens.problem(8).solve()._repr_html_())
        self.assertIn("the time", make.langford.problem(14).solve(seconds=0.1)._repr_html_())

    def test_none(self):
        plain = Problem("ab", options=["a", "b"])
        self.assertEqual((plain.solve()._repr_html_(), next(plain.solve())._repr_svg_()), (None, None))
        self.assertIn("0 solutions", Problem("ab", options=["a"]).solve()._repr_html_())


if __name__ == "__main__":
    warnings.simplefilter("error")
    unittest.main()

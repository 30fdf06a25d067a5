"""Lint and the exports."""

import shutil
import subprocess
import unittest
from fractions import Fraction

from helgrothy import Problem, ProblemFault, export, make
from helgrothy._reason.sums import search
from helgrothy.lint import lint

NURSES = "- " + " ".join(f"d{day}" for day in range(9)) + "\nnight" + " 1" * 9 + "\n\n"
NURSES += "".join(f"nurse{number} 0:2\n" for number in range(3))


class Lint(unittest.TestCase):
    def test_remarks(self):
        for text, kind, wanted in (
            ("A B\nA\nB\n", 1, []),
            ("A B\nA C\nA A\nB:x\n", 3, [(2, "C"), (3, "A"), (4, "B:x")]),
            ("mon tue\nmoon\ntue\n", 1, [(1, "mon"), (2, "moon")]),
            ("A B\nA B\nB A\n", 1, [(3, "A B"), (3, "B A")]),
            ("2|A\nA\n", 1, [(1, "2|A"), (2, "A")]),
            ("2 | A\nA\n", 3, [(1, "2"), (1, "2 |"), (1, "A"), (2, "")]),
            ("| a b\na\na\n", 1, [(1, "| a b"), (3, "a")]),
            ("A B | x\nA x\n", 1, [(1, "B")]),
            ("\ufeffA B\nA B\n", 1, [(1, "\ufeffA"), (1, "\ufeffA"), (2, "A")]),
            ("", 1, [(1, "")]),
        ):
            with self.subTest(text=text):
                found = [(remark.line, remark.token) for remark in lint(text.encode(), kind)]
                self.assertTrue(set(found) <= set(wanted) and bool(found) == bool(wanted), found)

    def test_another_sign_of_a_comment(self):
        for text, line, others in (
            ("# a comment\nA B\nA\nB\n", "# a comment", 4),
            ("#exams\n# by me\nA\nA\n", "#exams", 5),
            ("# exams\n# of us: all\nA\nA\n", "# exams", 5),
            ("# A\nA\n", "# A", 1),
        ):
            with self.subTest(text=text):
                first, *rest = map(str, lint(text.encode()))
                self.assertEqual(first, f"line 1: {line}: taken for the items; a comment begins with |")
                self.assertEqual(len(rest), others)
        self.assertEqual(lint(b"#1 #2\n#1\n#2\n"), [])
        with self.assertRaises(ProblemFault) as raised:
            Problem.parse("# a comment\nA B\nA\nB\n")
        self.assertEqual(raised.exception.hint, "line 1 is taken for the items; a comment begins with |")

    def test_the_nearest_name(self):
        self.assertIn("is it tuesday?", str(lint(b"tuesday\ntusday\ntuesday\n")[0]))

    def test_sums(self):
        remarks = lint(make.roster.problem(NURSES).text.encode(), seconds=100.0)
        self.assertEqual(len(remarks), 1)
        self.assertRegex(remarks[0].text, r"the sums can't work: .* ask for 9 in all, and .* allow 6: there is no")
        area = search(make.polyominoes.problem("pentominoes", "\n".join(["." * 10] * 6 + ["."])))
        self.assertTrue(area is not None and area.is_proof)
        self.assertIsNone(search(make.queens.problem(6)))


@unittest.skipUnless(shutil.which("clasp") and shutil.which("gringo"), "needs clasp and gringo")
class Exports(unittest.TestCase):
    def test_counts(self):
        bounded = Problem({"a": (0, 2), "b": (2, 3), "c": 2}, "x", ["ab", "abx", "bc", "bcx", "a", "b", "c", "abc"])
        coloured = [{"a": None, "x": 1}, {"b": None, "x": 1, "y": 2}, {"b": None, "x": None}, {"a": None, "y": 2}]
        for problem in (bounded, Problem("ab", "xy", coloured), make.queens.problem(6), Problem({"a": 3}, options="a")):
            for name, write in export.FORMATS.items():
                if name == "lp":
                    continue
                with self.subTest(format=name, problem=problem.text):
                    self.assertEqual(count("".join(f"{line}\n" for line in write(problem)), name), problem.count())


class Programs(unittest.TestCase):
    """The LP format, whose rows are what an option may and has to do."""

    def test_rows(self):
        with self.assertWarns(UserWarning):
            bounded = Problem({"a": (0, 2), "b": (1, 2), "c": 2}, "x", ["ab", "bc", "c", "bcx", "a", "ac", "x"])
        self.assertEqual(
            list(export.lp(bounded, [3, Fraction(-5, 2), 0, 0, 0, 0, 1])),
            [
                "\\ x1 to x7 take the options in their order", "Minimize",
                " obj: + 3 x1 - 2.5 x2 + 0 x3 + 0 x4 + 0 x5 + 0 x6 + 1 x7", "Subject To", " + 1 x7 = 0",
                " + 1 x1 + 1 x5 + 1 x6 <= 2", " + 1 x1 + 1 x2 + 1 x4 >= 1", " + 1 x1 + 1 x2 + 1 x4 <= 2",
                " + 1 x2 + 1 x3 + 1 x4 + 1 x6 = 2", " + 1 x4 + 1 x7 <= 1", "Binary", " x1 x2 x3 x4 x5 x6 x7", "End",
            ],
        )  # fmt: skip
        coloured = Problem("a", "x", [{"a": None, "x": 1}, {"a": None, "x": 2}, {"a": None, "x": None}])
        self.assertEqual(
            list(export.lp(coloured))[4:-3],
            [
                " + 1 x1 + 1 x2 + 1 x3 = 1", " + 1 x4 - 1 x1 >= 0", " + 1 x1 - 1 x4 >= 0", " + 1 x5 - 1 x2 >= 0",
                " + 1 x2 - 1 x5 >= 0", " + 1 x3 + 1 x4 + 1 x5 <= 1",
            ],
        )  # fmt: skip

    def test_lines(self):
        """Readers of the format take lines of some hundred characters."""
        problem = make.queens.problem(12)
        self.assertLess(max(map(len, export.lp(problem, [10**12] * len(problem.options)))), 500)
        self.assertEqual(list(export.lp(Problem("ab")))[2:5], [" obj: + 0 x1", "Subject To", " + 0 x1 = 1"])


def count(text, name):
    """The number of solutions that clasp finds."""
    if name == "asp":
        text = subprocess.run(["gringo", "-W", "none"], input=text, capture_output=True, text=True, check=True).stdout
    run = subprocess.run(["clasp", "0", "-q"], input=text, capture_output=True, text=True)
    return next(int(line.split()[-1]) for line in run.stdout.splitlines() if "Models" in line)

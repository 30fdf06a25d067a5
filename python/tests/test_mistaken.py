"""What is given in a wrong form: each time a message says what is right."""

import re
import unittest

from helgrothy import Problem, make
from helgrothy.errors import TableFault
from helgrothy.lint import lint
from test_commands import run

ROWS = [[0] * 9] * 9
CALLS = (
    (lambda: make.queens.problem("8"), TypeError, "size is a whole number, and this is '8'; a picture of regions is given by its name, regions=.."),
    (lambda: make.queens.problem(regions=8), TypeError, "regions is a text, and this is of type int"),
    (lambda: make.langford.problem("7"), TypeError, "pairs is a whole number, and this is '7'"),
    (
        lambda: make.sudoku.problem(ROWS),
        TypeError,
        "clues is a text, and this is of type list; ''.join(str(digit) for row in rows for digit in row) is that of rows of digits",
    ),
    (lambda: make.sudoku.problem(cages=ROWS), TypeError, "cages is a text, and this is of type list"),
    (lambda: make.polyominoes.problem("pentominoes", (6, 10)), TypeError, "region is a text, and this is of type tuple"),
    (lambda: make.polycubes.problem("soma", 3), TypeError, "box is a text, and this is of type int"),
    (lambda: make.words.problem("..", "ab cd"), TypeError, "words are a list, and this is one text; text.split() gives its words"),
    (lambda: make.wordsearch.problem(["ab"]), TypeError, "words is a text, and this is of type list"),
    (lambda: make.nonogram.problem([[1], [1]]), TypeError, "clues is a text, and this is of type list"),
    (lambda: make.kakuro.problem(ROWS), TypeError, "grid is a text, and this is of type list"),
    (lambda: make.roster.problem(["- mon"]), TypeError, "table is a text, and this is of type list"),
    (lambda: make.roster.problem("- mon\ne 1\n\na\n", days_off="2"), TypeError, "days_off is a whole number, and this is '2'"),
    (lambda: make.timetable.problem(None), TypeError, "table is a text, and this is of type NoneType"),
    (lambda: make.roundrobin.problem("ann\nbob\n"), TypeError, "teams are lines, and this is one text; its lines are text.splitlines()"),
    (lambda: make.roundrobin.problem([1, 2]), TypeError, "a line of a team is a text, and this is of type int"),
    (lambda: make.tests.problem([3, 3], 9), TypeError, "factors is a text, and this is of type list"),
    (lambda: make.tests.few([3, 3]), TypeError, "factors is a text, and this is of type list"),
    (lambda: make.tests.problem("3,3", "9"), TypeError, "tests is a whole number, and this is '9'"),
    (lambda: make.polyominoes.problem("pentominoes", "6*10"), TableFault, "line 1: 6*10: neither ROWSxCOLUMNS nor a picture (is it 6x10?)"),
    (lambda: make.polyominoes.problem("pentominoes", "6 x 10"), TableFault, "line 1: 6 x 10: neither ROWSxCOLUMNS nor a picture (is it 6x10?)"),
    (lambda: make.polycubes.problem("soma", "3*3*3"), TableFault, "line 1: 3*3*3: neither LAYERSxROWSxCOLUMNS nor a picture (is it 3x3x3?)"),
    (lambda: make.wordsearch.problem("ab", "6X10"), TableFault, "line 1: 6X10: neither ROWSxCOLUMNS nor a picture (is it 6x10?)"),
    (
        lambda: lint(Problem("A", options=["A"])),
        TypeError,
        "a problem's text is looked at as bytes, and this is of type Problem: lint(problem.text.encode())",
    ),
    (lambda: lint("A\nA\n"), TypeError, "a problem's text is looked at as bytes, and this is of type str: lint(text.encode())"),
)  # fmt: skip
# Commands with what they are given, and what they say.
COMMANDS = (
    (["roundrobin", "8"], "", "8: there is no such file; TEAMS is a file with a line for each team, its name (of so many teams: seq 8 | helgrothy roundrobin -)"),
    (["roundrobin", "ann,bob"], "", "ann,bob: there is no such file; TEAMS is a file with a line for each team, its name"),
    *(
        (["solve"], given, f"standard input: line 2: {reason}: unknown item (items are parted by blanks, and a {sign} is part of a name)")
        for given, reason, sign in (
            ("A, B, C\nA, B\nC\n", "B", "comma"), ("A,B,C\nA,B\nC\n", "A,B", "comma"), ("A B C\nA, B\nC\n", "A,", "comma"),
            ("A B C\nA,B\n", "A,B", "comma"), ("A;B\nA\nB\n", "A", "semicolon"),
        )
    ),
    (["solve"], "mon,hall tue,hall\nmon\n", "standard input: line 2: mon: unknown item (is it mon,hall?)"),
    (["solve"], "mon,hall tue\nmon,hal\n", "standard input: line 2: mon,hal: unknown item (is it mon,hall?)"),
    *(
        (words, "A\nA\n", f"a pattern is wrong: {reason}; a sign that stands for itself has a backslash in front, such as \\(")
        for words, reason in (
            (["solve", "--cell", "("], "(: missing ), unterminated subpattern at character 1"),
            (["solve", "--row", "ab["], "ab[: unterminated character set at character 3"),
            (["solve", "--cell", r"(\d)", "--label", "*"], "*: nothing to repeat at character 1"),
            (["solve", "--up-to-symmetry", "--cell", "r)"], "r): unbalanced parenthesis at character 2"),
        )
    ),
)  # fmt: skip


class Mistaken(unittest.TestCase):
    def test_calls(self):
        for call, error, reason in CALLS:
            with self.subTest(reason=reason), self.assertRaisesRegex(error, f"^{re.escape(reason)}$"):
                call()

    def test_commands(self):
        for words, given, reason in COMMANDS:
            with self.subTest(words=words):
                self.assertEqual(run(*words, given=given), (2, "", f"helgrothy: {reason}\n"))

    def test_pictures_that_look_like_numbers(self):
        """What is a picture and nothing else stays one."""
        for region in ("11", "1 1", "1", "1\n1", "x1", "xx", "..", "1*", "*"):
            self.assertTrue(make.polyominoes.problem("A", region, some=True).items)


if __name__ == "__main__":
    unittest.main()

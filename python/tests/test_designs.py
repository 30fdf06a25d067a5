"""Test designs: all that has to come together does, known numbers of designs, as few tests as are known, bad tables."""

import itertools
import os
import random
import unittest
from unittest import mock

from folders import InFolder
from test_commands import run, run_until

from helgrothy import OutOfTime, Problem, make
from helgrothy._run import programs
from helgrothy.make._designs import fewest, quick
from helgrothy.make._designs.bits import Values
from helgrothy.make._designs.design import Design, read_factors

FACTORS = """\
# what is to be tested
system linux mac
browser firefox chrome

database postgresql mysql
network v4 v6
"""

# Each bad table or command with the sentence that says what is wrong.
BAD = (
    ("", ["--tests", "4"], "line 1: no factor: a line is the name of one and its values"),
    ("# a\n\n", ["--least"], "line 1: no factor: a line is the name of one and its values"),
    ("a x y\nb\n", ["--tests", "4"], "line 2: b: a factor without values: a line is the name of one and its values"),
    ("a x y\n\na p q\n", ["--tests", "4"], "line 3: a: the factor of line 1 has this name"),
    ("a x y\nb p q p\n", ["--tests", "4"], "line 2: p: b has this value twice"),
    ("a:b x y\nc p q\n", ["--tests", "4"], "line 1: a:b: the name of a factor has none of : | = and NUL"),
    ("a=b x y\nc p q\n", ["--tests", "4"], "line 1: a=b: the name of a factor has none of : | = and NUL"),
    (f"{'a' * 25} x y\nc p q\n", ["--tests", "4"], f"line 1: {'a' * 25}: the name of a factor has at most 24 bytes"),
    ("a x\0 y\nc p q\n", ["--tests", "4"], "line 1: x\\x00: a value has no NUL"),
    ("a x y\n", ["--tests", "4"], "the strength is 2, and there are 1 factors"),
    ("a x y\nb p q\n", ["--tests", "8", "--strength", "3"], "the strength is 3, and there are 2 factors"),
    ("a x y\nb p q\nc 1 2 3\n", ["--tests", "5"], "5 tests are too few: a and c have 6 combinations of values"),
    ("a x y\nc 1 2 3\n", ["--tests", "2", "--strength", "1"], "2 tests are too few: c has 3 values"),
    ("a x y\nb p q\n", [], "--tests N says how many; `helgrothy tests FACTORS --least` looks for as few as can be"),
    ("a x y\nb p q\n", ["--tests", "4", "--least"], "either --tests or --least"),
    ("a x y\nb p q\n", ["--least", "--all"], "this search finds one solution: without --all, --limit, --number, --random, --count, --chances and --unique"),
    ("a x y\nb p q\n", ["--least", "--shuffle", "7"], "this search has an order of its own: without --shuffle and --up-to-symmetry"),
    ("3,0,2", ["--tests", "9"], "line 1: 0: neither a number of values nor one with ^ and a number of factors"),
    ("3,2^0", ["--tests", "9"], "line 1: 2^0: neither a number of values nor one with ^ and a number of factors"),
    ("3^999999999", ["--least"], "the problem would have 2999999997 items, and may have 100000"),
    ("2^300", ["--tests", "9"], "the problem would have 182100 items, and may have 100000"),
    ("9,9", ["--tests", "99999999"], "the problem would have 200000079 items, and may have 100000"),
    ("2^40", ["--tests", "99", "--strength", "11"], "the strength is 11, and at most 10"),
)


def is_design(rows, factors, strength):
    """Whether values of any `strength` factors come together in the rows, where None is no value."""
    return all(
        {tuple(row[factor] for factor in chosen) for row in rows} >= set(itertools.product(*(factors[f] for f in chosen)))
        for chosen in itertools.combinations(range(len(factors)), strength)
    )


def rows_of(problem, solution):
    """The tests of a solution, as its picture shows them."""
    picture = problem.draw(solution)
    rows, columns = len(picture.rows), len(picture.columns)
    return [[picture.cells[r, c].label or None for c in range(columns)] for r in range(rows)]


class Designs(InFolder):
    def test_all_comes_together(self):
        for levels, tests, strength in (("3,3,3,2,2,2", 9, 2), ("2^10", 6, 2), ("2^6", 12, 3), ("4,3,2", 4, 1), ("3^4", 9, 2)):
            with self.subTest(levels=levels, strength=strength):
                problem = make.tests.problem(levels, tests, strength)
                rows = rows_of(problem, next(problem.solve()))
                values = [sorted({row[at] for row in rows} - {None}) for at in range(len(rows[0]))]
                self.assertEqual(len(rows), tests)
                self.assertTrue(is_design(rows, values, strength))
                with mock.patch.object(fewest, "_MOST_LOOKS", 100_000_000):
                    few = make.tests.few(levels, strength)
                self.assertTrue(is_design(rows_of(few.problem, [few.problem.options[n] for n in few.numbers]), values, strength))

    def test_known_numbers_of_designs(self):
        """Where the tests are as few as the values of two factors, the other factors are orthogonal Latin squares.

        There are 2, 12 and 576 Latin squares of 2, 3 and 4 rows (OEIS A002860), 72 pairs of orthogonal ones of 3 rows
        (12 squares, each with the 6 relabelings of its one mate), and 2 and 24 Latin cubes (OEIS A098679).
        """
        for levels, tests, strength, known in (
            ("2^3", 4, 2, 2), ("3^3", 9, 2, 12), ("4^3", 16, 2, 576), ("3^4", 9, 2, 72), ("2^4", 8, 3, 2), ("3^4", 27, 3, 24),
        ):  # fmt: skip
            with self.subTest(levels=levels):
                self.assertEqual(make.tests.problem(levels, tests, strength).count(), known)

    def test_least(self):
        """Ten factors of two values take 6 tests (Katona 1973; Kleitman and Spencer 1973), and 3,3,3,2,2,2 takes 9."""
        for levels, strength, known in (("3,3,3,2,2,2", 2, 9), ("2^10", 2, 6), ("2^4", 2, 5), ("2^4", 3, 8), ("3,2,2", 1, 3)):
            with self.subTest(levels=levels, strength=strength):
                few = make.tests.few(levels, strength)
                self.assertEqual((few.tests, few.least), (known, known))
                self.assertTrue(few.reason)
                self.assertEqual(few.problem.check([[few.problem.options[number] for number in few.numbers]]), [True])
        self.assertEqual(make.tests.problem("2^10", 5).count(), 0)
        self.assertEqual(make.tests.few("3^4").reason, "f1 and f2 have 9 combinations of values")
        # A number of tests may be harder than fewer tests are: 25 are found, and 26 to 30 hardly ever.
        self.assertEqual(make.tests.few("5^6").tests, 25)
        with self.assertRaises(OutOfTime):
            make.tests.few("4^9", 2, 0.0)

    def test_a_busy_machine_finds_the_same(self):
        """Each run of a program takes half a second more, as on a machine that does other things."""
        found = [make.tests.few(levels) for levels in ("4,3^3,2^4", "2^10")]
        for program in ("dlx2", "dlx-span"):
            os.chmod(self.file(program, f'#!/bin/sh\nsleep 0.5\nexec {programs.find(program)} "$@"\n'), 0o755)
        with mock.patch.dict(os.environ, {programs.VARIABLE: self.folder}):
            again = [make.tests.few(levels) for levels in ("4,3^3,2^4", "2^10")]
        self.assertEqual([few.tests for few in found], [12, 6])
        self.assertEqual([few.numbers for few in found], [few.numbers for few in again])

    def test_work_and_time_are_bounds(self):
        with mock.patch.object(fewest, "_MOST_LOOKS", 100_000_000):
            few, again = make.tests.few("4^7"), make.tests.few("4^7")
            messages = run("tests", "4^7", "--least")[2]
        self.assertEqual((few.tests, few.numbers, few.reason), (again.tests, again.numbers, ""))
        known = f"helgrothy: {few.tests} tests, the fewest that were found; whether {few.least} to {few.tests - 1} are enough isn't known"
        self.assertEqual(messages, f"{known}; --seconds S looks longer\n")
        expected = r"\Ahelgrothy: [0-9]+ tests, the fewest that were found in [0-9.]+ seconds; whether [0-9]+ to [0-9]+ are enough isn't known\n\Z"
        self.assertRegex(run_until(expected, "tests", "3^7", "--least")[2], expected)
        one_less = fewest.Few(few.problem, few.numbers, few.tests, few.tests - 1, "")
        wanted = f"helgrothy: {few.tests} tests, the fewest that were found in 3 seconds; whether {few.tests - 1} are enough isn't known"
        self.assertEqual((one_less.found(3).remark, one_less.found(3).is_proved), (wanted, False))

    def test_a_quick_design(self):
        for levels, strength, most in (("2^10", 2, 10), ("3^13", 2, 24), ("4^10", 2, 34), ("2^11", 3, 24)):
            with self.subTest(levels=levels):
                factors = read_factors(levels)
                values = Values(factors)
                wanted = quick.Wanted(values, strength, Design(factors, None, strength).meetings)
                tests = map(values.test, quick.Greedy(wanted, None, random.Random(1)).design())
                rows = [[test[factor] for factor in range(len(factors))] for test in tests]
                self.assertTrue(is_design(rows, [range(len(factor.values)) for factor in factors], strength))
                self.assertLessEqual(len(rows), most)

    def test_tries_of_all_lengths(self):
        self.assertEqual([fewest._length(n) for n in range(1, 16)], [1, 1, 2, 1, 1, 2, 4, 1, 1, 2, 1, 1, 2, 4, 8])

    def test_text_and_picture(self):
        problem = make.tests.problem(FACTORS, 5)
        first = next(problem.solve())
        again = Problem.parse(problem.text)
        self.assertEqual(again.text, problem.text)
        self.assertEqual(str(again.draw(next(again.solve()))), str(problem.draw(first)))
        self.assertIn("postgresql", problem.draw(first).svg())
        # Before a solution, and where a factor may have any value.
        self.assertEqual(str(make.tests.problem("2,2", 4).draw()), "  f1 f2\n1 .  .\n2 .  .\n3 .  .\n4 .  .\n")

    def test_commands(self):
        path = self.file("factors.txt", FACTORS)
        table = "  system browser database   network\n1 linux  firefox mysql      v4\n"
        status, out, messages = run("tests", path, "--least")
        self.assertEqual((status, out[: len(table)]), (0, table))
        self.assertEqual(messages, "5 tests; no fewer are enough: there is no design of 4.\n")
        status, out, messages = run("tests", "3,3,3,2,2,2", "--tests", "9")
        self.assertEqual((status, out.count("\n"), messages), (0, 10, "Altogether 1 solution (limit).\n"))
        self.assertEqual(run("tests", "3^3", "--tests", "9", "--all")[2], "Altogether 12 solutions.\n")
        self.assertTrue(run("tests", path, "--least", "--svg")[1].startswith("<svg"))
        self.assertIn('"tests": [{"system": "linux", "browser": "firefox", ', run("tests", path, "--least", "--json")[1])
        self.assertEqual(run("tests", path, "--least", "--json", "--options")[1].count('"t1/system": "linux"'), 1)
        self.assertEqual(run("make", "tests", path, "--tests", "5")[1], make.tests.problem(FACTORS, 5).text)

    def test_bad_tables(self):
        for number, (table, words, sentence) in enumerate(BAD):
            with self.subTest(table=table, words=words):
                path = table if table and table[0].isdigit() else self.file(f"{number}.txt", table)
                self.assertEqual(run("tests", path, *words), (2, "", f"helgrothy: {sentence}\n"))


if __name__ == "__main__":
    unittest.main()

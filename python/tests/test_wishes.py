"""Costs by names: which options a line is of, what a solution costs by each, and lines that are wrong."""

import random
import shutil
import unittest
from fractions import Fraction
from unittest import mock

from folders import InFolder
from test_commands import run

from helgrothy import Problem, TableFault, cost, make, wishes
from helgrothy._reason import sat_solver

ROSTER = """\
-      mon tue wed
early  1   1   1
late   1   1   0:1

ann    2:3 early=1
bob    2    -tue mon=-2 wed/late=0.5
cat    1:2  -late
"""
TIMETABLE = """\
day,mon,1 2
day,tue,1 2
room,hall,,,30
room,lab,,1=0.5,20
lesson,maths,ann 1a,tue=2,24
lesson,physics,bob 1a,lab
person,bob,,-tue-2 mon-2=3
"""
COLOURS = "a b [x] | x y\na x:r\na x:s y\nb x:r\nb x:s\nb y\n[x]\n"


def bare(text, head):
    """The options of a problem's text that a line of costs is of."""
    problem = Problem.parse(text)
    return sorted(*(wish.places for wish in wishes.read(head, problem).wishes))


def cheapest(problem, costs):
    return min(sum(costs.numbers[place] for place in one.numbers) for one in problem.solve())


class Lines(unittest.TestCase):
    def test_of_options(self):
        for head, wanted in (
            ("a 1", [0, 1]), ("a x 1", [0, 1]), ("a x:r 1", [0]), ("x:s 1", [1, 3]), ("x:* 1", [0, 1, 2, 3]), ("? y 1", [1, 4]),
            ("[ab] x:[rt] 1", [0, 2]), ("[x] 1", [5]), ("* y 2", [1, 4]), ("b* x:r -1.5", [2]),
        ):  # fmt: skip
            self.assertEqual(bare(COLOURS, head), wanted, head)

    def test_they_add_up(self):
        problem = Problem.parse(COLOURS)
        costs = wishes.read("| what is wished\n\na 3\n  a x:r -1.5\nb x .5\n* y +2\n", problem)
        self.assertEqual(costs.numbers, [Fraction(3, 2), 5, Fraction(1, 2), Fraction(1, 2), 2, 0])
        self.assertEqual(list(costs.lines([0, 3, 5])), ["3 by line 3: a 3", "-1.5 by line 4: a x:r -1.5", "0.5 by line 5: b x .5"])
        self.assertEqual(list(costs.lines([1, 4])), ["3 by line 3: a 3", "4 by line 6: * y +2 (2 times)"])

    def test_without(self):
        for head, wanted in (
            ("a without y 1", [0]), ("without x 1", [4, 5]), ("without x y 1", [5]), ("x:* without a x:r 1", [3]),
            ("? without [x] 1", [0, 1, 2, 3, 4]), ("without x:r 1", [1, 3, 4, 5]),
        ):  # fmt: skip
            self.assertEqual(bare(COLOURS, head), wanted, head)
        problem = Problem.parse(COLOURS)
        for text, wanted in (
            ("a without 1", "line 1: a without 1: behind `without` stand names of items that options don't have"),
            ("a without c 1", "line 1: a without c 1: c: no such item"),
            ("c without a 1", "line 1: c without a 1: c: no such item"),
            ("a without x 1", "line 1: a without x 1: each option with a has one of x"),
            ("without * 1", "line 1: without * 1: each option has one of *"),
        ):
            with self.subTest(text=text), self.assertRaises(TableFault) as raised:
                wishes.read(text, problem)
            self.assertEqual(str(raised.exception), wanted)
        named = Problem.parse("a without\na without\na\nwithout\n")
        self.assertEqual([sorted(one.places) for one in wishes.read("a [w]ithout 1\na without [w]ithout 2\n", named).wishes], [[0], [1]])

    def test_ten_lines_and_the_rest(self):
        problem = Problem([f"i{n}" for n in range(14)], options=[[f"i{n}"] for n in range(14)])
        costs = wishes.read("".join(f"i{n} {n - 4 or 50}\n" for n in range(14)), problem)
        lines = list(costs.folded().lines(range(14)))
        self.assertEqual(len(lines), 11)
        self.assertEqual((lines[0], lines[1]), ("-4 by line 1: i0 -4", "-3 by line 2: i1 -3"))
        self.assertEqual(lines[-1], "0 by 4 more lines; --all-costs shows each")
        self.assertEqual(len(list(costs.lines(range(14)))), 14)
        self.assertEqual(len(list(costs.folded().lines(range(11)))), 11)
        for most in (11, 12, 14):
            numbers = [Fraction(line.partition(" ")[0]) for line in costs.folded().lines(range(most))]
            self.assertEqual(sum(numbers), sum(costs.numbers[:most]))

    def test_pairs_that_cancel(self):
        problem = Problem.parse(COLOURS)
        costs = wishes.read("a 3\na x:r -3\n* x 2\nb -2\n* y 1\n", problem)
        self.assertEqual(list(costs.folded().lines([0, 4, 5])), ["2 by line 3: * x 2", "-2 by line 4: b -2", "1 by line 5: * y 1"])
        self.assertEqual(list(costs.folded().lines([1, 2])), ["3 by line 1: a 3", "2 by line 3: * x 2", "1 by line 5: * y 1"])
        self.assertEqual(list(costs.folded().lines([0, 2])), ["2 by line 3: * x 2"])
        self.assertEqual(len(list(costs.lines([0, 2]))), 4)

    def test_a_column_stays_one(self):
        problem = Problem("12", options=["1", "2", "12"])
        for text in ("1 2 3", "1\n2\n3\n", "| a b 3\n1 2\n3"):
            self.assertEqual(wishes.read(text, problem), wishes.Costs([1, 2, 3]))
        self.assertEqual(wishes.read("[1] 2\n[2] [1] 3\n", problem).numbers, [2, 0, 5])
        with self.assertRaisesRegex(TableFault, "line 2: x: no cost; one is a number such as 3, -2 or 0.5"):
            wishes.read("1\nx\n3\n", problem)

    def test_bad_lines(self):
        problem = Problem.parse(COLOURS)
        for text, wanted in (
            ("a 1\nc 2\n", "line 2: c 2: c: no such item"),
            ("a x:t 1", "line 1: a x:t 1: x:t: no option gives x this colour"),
            ("a b 1", "line 1: a b 1: no option has all of these; the nearest are a x:r; a x:s y; b x:r; and 2 more"),
            ("a b", "line 1: b: no cost; a line is names of items and then a number such as 3, -2 or 0.5"),
            ("a 1e3", "line 1: 1e3: no cost; a line is names of items and then a number such as 3, -2 or 0.5"),
            ("a 1\n\n7\n", "line 3: 7: a cost without names: a line is names of items and then a number"),
            ("a 1\nz* 1\n", "line 2: z* 1: z*: no such item"),
        ):
            with self.subTest(text=text), self.assertRaises(TableFault) as raised:
                wishes.read(text, problem)
            self.assertEqual(str(raised.exception), wanted)
        with self.assertRaisesRegex(TableFault, "line 1: r1=11 2: r1=11: no such item .is it r1=1.."):
            wishes.read("r1=11 2", make.sudoku.problem("." * 81))


class Tables(InFolder):
    def test_they_cost_as_they_say(self):
        for problem, wanted in (
            (make.roster.problem(ROSTER), {"ann early=1": 3, "bob mon=-2": 2, "bob wed/late=0.5": 1}),
            (make.timetable.problem(TIMETABLE), {"maths tue=2": 2, "lab 1=0.5": 2, "bob mon-2=3": 1}),
        ):
            costs = wishes.of_table(problem)
            self.assertEqual({wish.text: len(wish.places) for wish in costs.wishes}, wanted)
            again = wishes.of_table(Problem.parse(problem.text))
            self.assertEqual(again, costs)
            self.assertEqual(cost.least(problem, costs.numbers).cost, cheapest(problem, costs))
        self.assertIsNone(wishes.of_table(make.queens.problem(4)))
        self.assertIsNone(wishes.of_table(Problem("ab", options=["a", "b"], comments=["helgrothy make roster TABLE"])))

    def test_bad_wishes(self):
        for table, wanted in (
            (ROSTER.replace("early=1", "ealry=1"), "line 5: ealry=1: neither -DAY, -SHIFT nor -DAY/SHIFT of the table, nor one with =NUMBER"),
            (ROSTER.replace("early=1", "early=x"), "line 5: x: no cost; one is a number such as 3, -2 or 0.5"),
            (ROSTER.replace("mon=-2", "tue=2"), "line 6: bob tue=2: no shift of this person is one of these"),
        ):
            with self.subTest(table=table):
                done = run("roster", self.file("table", table))
                self.assertEqual(done, (2, "", f"helgrothy: {wanted}\n"))
        for table, wanted in (
            (TIMETABLE.replace("tue=2", "tus=2"), "line 5: tus=2: no day, hour, slot or room (is it tue?)"),
            (TIMETABLE.replace("tue=2", "tue="), "line 5: no cost; one is a number such as 3, -2 or 0.5"),
            (TIMETABLE.replace("mon-2=3", "tue-2=3"), "line 7: bob tue-2=3: no lesson or exam can be there"),
        ):
            with self.subTest(table=table):
                done = run("timetable", self.file("table", table))
                self.assertEqual(done, (2, "", f"helgrothy: {wanted}\n"))

    def test_random_rosters(self):
        rng = random.Random(5)
        days, shifts, people = "mon tue wed".split(), "early late".split(), "ann bob cat dan".split()
        for case in range(12):
            table = "- " + " ".join(days) + "\n" + "".join(f"{shift} 1 1 1\n" for shift in shifts) + "\n"
            given = {}
            for name in people:
                words = rng.sample([*days, *shifts, *(f"{day}/{shift}" for day in days for shift in shifts)], 3)
                given[name] = {word: rng.randint(-3, 5) for word in words}
                table += f"{name} 1:2 " + " ".join(f"{word}={number}" for word, number in given[name].items()) + "\n"
            problem = make.roster.problem(table)

            def price(option):
                slot, name, *_ = option
                return sum(number for word, number in given[name].items() if word in (slot, *slot.split("/")))

            wanted = min(sum(map(price, one)) for one in problem.solve())
            costs = wishes.of_table(problem)
            with mock.patch.object(sat_solver, "path_of", lambda name: shutil.which(name) if case % 2 else None):
                least = cost.least(problem, costs.numbers)
            self.assertEqual(least.cost, wanted)
            lines = [line.partition(" by ") for line in costs.lines(least.numbers)]
            self.assertEqual(sum(Fraction(number) for number, _, _ in lines), wanted)


class Command(InFolder):
    def test_in_tables(self):
        path = self.file("table", ROSTER)
        status, text, messages = run("roster", path)
        self.assertEqual((status, text.splitlines()[0].split()), (0, ["mon", "tue", "wed"]))
        head, *rest = messages.splitlines()
        self.assertEqual(head, "The least cost is -2.")
        self.assertIn("-2 by line 6 of the table: bob mon=-2", rest)
        made = run("make", "roster", path)[1]
        self.assertEqual(run("solve", given=made)[2], messages)
        note = "The wishes of the table don't count here: only where the cheapest solution is asked for.\n"
        for words in (["--all"], ["--limit", "3"], ["--number", "2"], ["--shuffle", "1"]):
            self.assertTrue(run("roster", path, *words)[2].startswith(f"{note}Altogether "))
        costs = self.file("costs", "*/late ann 4\n")
        self.assertRegex(run("roster", path, "--cost", costs)[2], "\n[48] by line 1: \\*/late ann 4")
        page = run("roster", path, "--html")[1]
        self.assertIn("-2 by line 6 of the table: bob mon=-2", page)

    def test_all_costs(self):
        costs = self.file("costs", "".join(f"r{n} 1\nr{n} c{n} 5\n" for n in range(1, 13)))
        lines = run("queens", "12", "--cost", costs)[2].splitlines()
        self.assertEqual((len(lines), lines[0], lines[-1]), (12, "The least cost is 12.", "2 by 2 more lines; --all-costs shows each"))
        self.assertIn("2 by 2 more lines", run("queens", "12", "--cost", costs, "--html")[1])
        lines = run("queens", "12", "--cost", costs, "--all-costs")[2].splitlines()
        self.assertEqual(lines[1:], [f"1 by line {2 * n - 1}: r{n} 1" for n in range(1, 13)])
        done = run("queens", "12", "--all-costs")
        self.assertEqual(done, (2, "", "helgrothy: --all-costs is of --cost, and of the wishes of a table\n"))

    def test_in_each_kind(self):
        costs = self.file("costs", "r1 c1 5\nr1 c2 -1\n")
        done = run("queens", "6", "--cost", costs)
        self.assertEqual(done[1].splitlines()[0], ". Q . . . .")
        self.assertEqual(done[2], "The least cost is -1.\n-1 by line 2: r1 c2 -1\n")
        wrong = self.file("wrong", "r1 c1 5\nr1 r2 1\n")
        status, text, messages = run("queens", "6", "--cost", wrong)
        self.assertEqual((status, text), (2, ""))
        self.assertTrue(messages.startswith(f"helgrothy: {wrong}: line 2: r1 r2 1: no option has all of these; the nearest are r1 c1 "))
        done = run("tests", "2,2", "--least", "--cost", costs)
        self.assertEqual(done, (2, "", "helgrothy: this search has a problem of its own: without --cost, --with and --without\n"))
        self.assertEqual(run("queens", "6", "--cost", costs, "--shuffle", "2")[0], 2)


if __name__ == "__main__":
    unittest.main()

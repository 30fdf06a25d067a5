"""In how many solutions each option is: against all solutions, and pictures of it."""

import collections
import json
import random
import xml.etree.ElementTree as ElementTree
from unittest import mock

from folders import InFolder
from problems import problem_of
from test_commands import run
from test_counter import dominoes

from helgrothy import OutOfTime, Problem, ProgramNotFound
from helgrothy._run import occurrences, programs
from helgrothy.draw import Pattern
from helgrothy.draw import _chances as chances


class Occurrences(InFolder):
    def tearDown(self):
        self.assertEqual(programs._running, set())

    def test_random_problems(self):
        rng = random.Random(5)
        solved = 0
        for case in range(36):
            problem = Problem.parse(problem_of(rng, case % 3 + 1))
            times = collections.Counter(number for one in problem.solve() for number in one.numbers)
            wanted = [times[number] for number in range(len(problem.options))]
            solved += sum(wanted)
            self.assertEqual(problem.occurrences(), wanted)
            with mock.patch.object(occurrences, "_FEW", -1):
                self.assertEqual(problem.occurrences(jobs=2), wanted)
        self.assertGreater(solved, 100)

    def test_options_that_are_alike(self):
        for problem, wanted in (
            (Problem("ab", options=["a", "b", "a", "ab"]), [1, 2, 1, 1]),
            (Problem({"a": (1, 2)}, options=["a", "a"]), [2, 2]),
        ):
            self.assertEqual(problem.occurrences(), wanted)
            with mock.patch.object(occurrences, "_FEW", -1):
                self.assertEqual(problem.occurrences(), wanted)
        with self.assertWarns(UserWarning):
            problem = Problem("a", "x", ["a", "x"])
        self.assertEqual(problem.occurrences(), [1, 0])

    def test_more_than_can_be_listed(self):
        problem = dominoes(8)
        times = problem.occurrences(seconds=300)
        # Each cell is in one domino of each of the 12,988,816 tilings (Kasteleyn, 1961).
        for cell in problem.items:
            held = [count for option, count in zip(problem.options, times) if cell in option]
            self.assertEqual(sum(held), 12988816)
        self.assertEqual(times[0], 12988816 // 2)

    def test_what_stops_it(self):
        with self.assertRaisesRegex(OutOfTime, "it was counted of [0-9]+ of 480 options in how many"):
            with mock.patch.object(Problem, "_count", lambda self, seconds: mock.Mock(total=10**9)):
                dominoes(16).occurrences(seconds=0.05, jobs=1)
        with self.assertRaises(ValueError):
            dominoes(4).occurrences(jobs=0)
        known = programs.find

        def find(program):
            if program == "dlx-count":
                raise ProgramNotFound("no")
            return known(program)

        with mock.patch.object(programs, "find", find):
            self.assertEqual(sum(dominoes(4).occurrences()), 36 * 8)
            with mock.patch.object(occurrences, "_FEW", 1), self.assertRaises(ProgramNotFound):
                dominoes(4).occurrences()
        with mock.patch.object(occurrences, "_FEW", 1), mock.patch.object(occurrences, "MOST_MEGABYTES", 0):
            # By the search alone.
            self.assertEqual(sum(dominoes(4).occurrences()), 36 * 8)


class Pictures(InFolder):
    def picture(self, *words, given=""):
        status, text, messages = run(*words, "--chances", given=given)
        self.assertEqual(status, 0, messages)
        ElementTree.fromstring(run(*words, "--chances", "--svg", given=given)[1])
        return text, messages

    def test_boards(self):
        # Four solutions, two of which are the other two mirrored (OEIS A000170).
        text, messages = self.picture("queens", "6")
        self.assertEqual(text.splitlines()[:2], [".  25 25 25 25 .", "25 .  25 25 .  25"])
        self.assertEqual(messages, "Altogether 4 solutions.\n")
        # 288 Sudokus (OEIS A107739), in which each digit is as often in each place.
        self.assertEqual(self.picture("sudoku", "." * 16)[0].splitlines()[0], "1 25% 1 25% | 1 25% 1 25%")
        text, _ = self.picture("sudoku", "1234341221434321".replace("2", "."))
        self.assertEqual(text.splitlines()[0], "1 2 | 3 4")
        svg = run("sudoku", "." * 16, "--chances", "--svg")[1]
        self.assertEqual(svg.count(">4</text>"), 16)
        self.assertEqual(self.picture("langford", "3")[0], "2 50% 1 50% 1 50% 1 50% 1 50% 2 50%\n")

    def test_several_options_show_a_cell(self):
        path = self.file("n.txt", "1\n1\n\n1\n1\n")
        self.assertEqual(self.picture("nonogram", path)[0].splitlines()[-2:], ["1  | 50 50", "1  | 50 50"])
        grid, words = self.file("g.txt", "..\n..\n"), self.file("w.txt", "ab cd ac bd")
        self.assertEqual(self.picture("words", grid, words)[0], "a     b 50%\nc 50% d\n")
        table = self.file("t.txt", "- mon tue\nearly 1 1\n\nann 0:2\nbob 0:2 -tue\n")
        self.assertEqual(self.picture("roster", table)[0], "    mon tue\nann 50  100\nbob 50  .\n")

    def test_pieces(self):
        path = self.file("d.dlx", dominoes(2).text)
        text, _ = self.picture("solve", path, "--cell", r"(\d),(\d)")
        self.assertEqual(text, "o  50 o\n50    50\no  50 o\n")
        text, _ = self.picture("polyominoes", "pentominoes", "3x20")
        self.assertEqual(text.splitlines()[1].split()[0], "100")
        board = dominoes(4)
        drawn = chances.picture(board, Pattern(r"(\d),(\d)").of(board), occurrences.find(board), chances.any_side)
        self.assertIsInstance(drawn, chances.Joins)
        self.assertAlmostEqual(sum(drawn.shares.values()), 8)

    def test_without_a_picture(self):
        given = "a b\na\nb\na b\n"
        self.assertEqual(self.listed("solve", given=given), "1  50% a\n1  50% b\n1  50% a b\n")
        self.assertEqual(len(self.listed("polycubes", "soma", "3x3x3").splitlines()), 488)
        self.assertEqual(run("solve", "--chances", "--svg", given=given)[0], 2)

    def listed(self, *words, given=""):
        return run(*words, "--chances", given=given)[1]

    def test_data(self):
        given = "a b\na\nb\na b\n"
        self.assertEqual(json.loads(self.listed("solve", "--json", given=given)), {"solutions": 2, "occurrences": [1, 1, 1]})
        csv = "solutions,option,item 1,item 2\n1,1,a,\n1,2,b,\n1,3,a,b\n"
        self.assertEqual(self.listed("solve", "--csv", given=given), csv)
        found = json.loads(self.listed("queens", "6", "--json", "--without", "r1 c2"))
        self.assertEqual((found["solutions"], found["occurrences"][1], len(found["occurrences"])), (3, 0, 36))

    def test_what_is_refused(self):
        self.assertEqual(run("queens", "3", "--chances"), (1, "", "Altogether 0 solutions; `helgrothy why` may say which items conflict.\n"))
        self.assertEqual(run("queens", "4", "--chances", "--html")[2], "helgrothy: --chances has no page: --svg is its picture\n")
        messages = run("queens", "4", "--chances", "--up-to-symmetry")[2]
        self.assertEqual(messages, "helgrothy: --chances is of all solutions: without --shuffle and --up-to-symmetry\n")
        with mock.patch.object(occurrences, "find", side_effect=OutOfTime("no")):
            done = run("queens", "4", "--chances")
        self.assertEqual(done, (2, "", "helgrothy: no; --seconds S gives it more than 60 seconds\n"))

    def test_percents(self):
        for times, wanted in ((0, "0"), (1, "<1"), (10, "1"), (500, "50"), (999, ">99"), (1000, "100")):
            self.assertEqual(chances.percent(times, 1000), wanted)

"""The solution of a number, and one of all by lot: with a dlx-count that finds it, and with one that can't."""

import collections
import os
import random
import sys
from unittest import mock

from folders import InFolder
from problems import problem_of
from test_commands import run
from test_counter import copies, dominoes

from helgrothy import OutOfTime, Problem, ProgramFailed, make
from helgrothy._run import numbered, programs

# A dlx-count that finds a solution by its number; it passes over those before it.
FINDS = """\
import subprocess, sys
kind, word = sys.argv[1], sys.argv[-1]
text = sys.stdin.buffer.read()
if word[0] != "n":
    done = subprocess.run(["{counter}", kind], input=text, stderr=subprocess.PIPE)
    sys.stderr.buffer.write(done.stderr)
    sys.exit(done.returncode)
number = word[1:]
done = subprocess.run(["{folder}/dlx" + kind, "m" + number, "t" + number], input=text, capture_output=True)
if not done.stdout:
    print("There is no such solution.", file=sys.stderr)
sys.stdout.buffer.write(done.stdout)
sys.exit(0 if done.stdout else 6)
"""
# One of an earlier release.
REFUSES = "for word; do case $word in n*) echo 'Usage: dlx-count 1|2|3 [bMEGABYTES]' >&2; exit 1 ;; esac; done\n"


class Numbered(InFolder):
    def setUp(self):
        super().setUp()
        self.known = programs.find
        patch = mock.patch.object(numbered, "_FEW", 0)
        patch.start()
        self.addCleanup(patch.stop)

    def tearDown(self):
        self.assertEqual(programs._running, set())

    def program(self, name, text):
        """Lets a script stand for a program."""
        path = self.file(name, text)
        os.chmod(path, 0o755)
        others = programs.find

        def find(program):
            return path if program == name else others(program)

        patch = mock.patch.object(programs, "find", find)
        patch.start()
        self.addCleanup(patch.stop)

    def finder(self):
        where = {"counter": self.known("dlx-count"), "folder": os.path.dirname(self.known("dlx1"))}
        script = FINDS
        for name, value in where.items():
            script = script.replace(f"{{{name}}}", value)
        self.program("dlx-count", f"#!{sys.executable}\n{script}")

    def refuser(self):
        self.program("dlx-count", f"#!/bin/sh\n{REFUSES}exec {self.known('dlx-count')} \"$@\"\n")

    def no_search(self):
        """Searches that come to no end."""
        for kind in "123":
            self.program(f"dlx{kind}", "#!/bin/sh\nexec /bin/sleep 1000\n")

    def test_random_problems(self):
        rng = random.Random(3)
        for case in range(24):
            problem = Problem.parse(problem_of(rng, case % 3 + 1))
            wanted = [(one.numbers, one.steps) for one in problem.solve(limit=20)]
            for number in sorted({1, 2, len(wanted)} - {0}):
                found = problem.solution(number)
                if number > len(wanted):
                    self.assertIsNone(found)
                else:
                    self.assertEqual((found.numbers, found.steps), wanted[number - 1])
        with self.assertRaises(ValueError):
            problem.solution(0)

    def test_by_dlx_count_alone(self):
        board = make.queens.problem(8)
        wanted = [one.numbers for one in board.solve()]
        self.finder()
        self.no_search()
        for number in (1, 50, 92):
            self.assertEqual(board.solution(number).numbers, wanted[number - 1])
        self.assertIsNone(board.solution(93))
        # More than a search takes.
        self.assertIsNone(board.solution(1 << 70))
        self.assertIn(board.random(7).numbers, wanted)
        self.assertIsNone(make.queens.problem(3).random())

    def test_without_help(self):
        wanted = [one.numbers for one in make.queens.problem(8).solve()]
        self.refuser()
        self.assertEqual(make.queens.problem(8).solution(92).numbers, wanted[91])
        self.assertIsNone(make.queens.problem(8).solution(93))
        self.no_search()
        with self.assertRaisesRegex(ProgramFailed, "dlx-count ended with status 1: Usage"):
            copies(100).solution(1 << 60)
        self.assertIsNone(copies(10).solution(1 << 60))
        with self.assertRaises(OutOfTime):
            copies(20).solution(1 << 19, seconds=0.2)

    def test_each_is_as_likely(self):
        times = collections.Counter(numbered.lot(36, seed) for seed in range(3600))
        self.assertEqual(sorted(times), list(range(1, 37)))
        # Of a binomial number of mean 100 and variance 97, five times the deviation.
        self.assertTrue(all(abs(count - 100) < 50 for count in times.values()), times)
        problem = dominoes(4)
        wanted = [one.numbers for one in problem.solve()]
        for seed in range(6):
            self.assertEqual(problem.random(seed).numbers, wanted[numbered.lot(36, seed) - 1])
        self.assertEqual([numbered.lot(10**40, 1) for _ in "ab"], [numbered.lot(10**40, 1)] * 2)

    def test_commands(self):
        text = make.queens.problem(8).text
        wanted = [run("solve", "--number", str(number), given=text) for number in (1, 92)]
        for prepare in (self.finder, self.refuser):
            prepare()
            self.assertEqual([run("solve", "--number", str(number), given=text) for number in (1, 92)], wanted)
            done = run("solve", "--number", "93", "--json", given=text)
            self.assertEqual(done, (1, "", "Altogether 92 solutions.\nhelgrothy: there is no solution 93: --number takes 1 to 92\n"))
        status, drawn, messages = run("queens", "8", "--random", "--seed", "4")
        self.assertEqual((status, drawn.count("Q"), messages), (0, 8, "This is number 31 of 92 solutions.\n"))
        self.assertEqual(run("queens", "8", "--number", "31")[1], drawn)
        self.assertTrue(run("queens", "8", "--random", "--svg")[1].startswith("<svg"))
        self.assertIn('"number": 31, ', run("queens", "8", "--random", "--seed", "4", "--json")[1])
        self.assertIn("92 solutions", run("queens", "8", "--random", "--with", "r1 c1")[2].replace(" 4 ", " 92 "))
        status, drawn, messages = run("queens", "3", "--random")
        self.assertEqual((status, drawn, messages.splitlines()[0]), (1, "", "Altogether 0 solutions."))
        self.assertEqual(run("queens", "4", "--seed", "1"), (2, "", "helgrothy: --seed is of --random\n"))
        words = ("queens", "4", "--random", "--shuffle", "1")
        self.assertEqual(run(*words)[2], "helgrothy: --random is of all solutions: without --shuffle and --up-to-symmetry\n")

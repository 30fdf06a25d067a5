"""Time, memory and what is shown: bounded by what a problem has, and nothing in a name steers a terminal or a browser."""

import contextlib
import os
import signal
import subprocess
import sys
import tempfile
import threading
import time
import unittest
import xml.etree.ElementTree
from unittest import mock

from test_commands import Pipe, run

from helgrothy import NoPicture, OutOfTime, Problem, make
from helgrothy._cli import console
from helgrothy._cli.watch import Watch
from helgrothy._reason import sat_solver
from helgrothy._run import programs
from helgrothy._text import syntax
from helgrothy._text.shown import shown
from helgrothy._text.syntax import read
from helgrothy.draw import Cell, Pattern, Picture
from helgrothy.lint import lint

# What would go on for ever is ended long before. Of a processor, so that it says nothing of what else a machine does; what
# runs into its own time gets more of it.
HANG, ENOUGH = 30, "200"

ESCAPES = "\x1b]0;pwn\x07"


def used() -> float:
    """The seconds of a processor that this process and the programs that it ran have taken."""
    return sum(os.times()[:4])


class Terminal(Pipe):
    def isatty(self) -> bool:
        return True


def on_terminal(*words: str, given: str = "") -> str:
    """What a command prints on a terminal."""
    with mock.patch("test_commands.Pipe", Terminal):
        return run(*words, given=given)[1]


class Shown(unittest.TestCase):
    def test_characters(self):
        for text, wanted in (
            ("plain ä 漢", "plain ä 漢"),
            ("\x1b[2J\x7f\x9b", r"\x1b[2J\x7f\x9b"),
            ("\udcff\u202e\ufeff\U000e0001", r"\xff\u202e\ufeff\U000e0001"),
            ("\ud800\n\t", r"\ud800\x0a\x09"),
        ):
            self.assertEqual(shown(text), wanted)

    def test_messages_and_remarks(self):
        name = shown(ESCAPES)
        text = f"{ESCAPES}A\n{ESCAPES}B\n"
        self.assertIn(f"line 2: {name}B: unknown item (is it {name}A?)", run("lint", given=text)[1])
        for command in ("solve", "why", "export"):
            words = (command, "cnf") if command == "export" else (command,)
            self.assertIn(f"line 2: {name}B: unknown item", run(*words, given=text)[2])
        self.assertIn(f"{name}: No such file", run("lint", ESCAPES)[2])
        for words, wanted in (([], "No such file"), (["--status"], "no such folder"), (["--result"], "no such folder")):
            self.assertIn(f"{name}nowhere: {wanted}", run("search", *words, f"{ESCAPES}nowhere")[2])
        self.assertIn(f"{name}: one argument too many", run("lint", "-", ESCAPES)[2])
        self.assertIn(f"--{name}: no such option", run("lint", f"--{ESCAPES}")[2])
        self.assertIn(f"{name}: no such command", run(ESCAPES)[2])
        with tempfile.NamedTemporaryFile("w", suffix=ESCAPES) as file:
            file.write(text)
            file.flush()
            self.assertIn(f"{shown(file.name)}: line 2: {name}B: unknown item", run("draw", file.name)[2])

    def test_names_on_a_terminal(self):
        text = f"{ESCAPES} B\n{ESCAPES}\nB\n"
        for words in (("solve",), ("export", "asp"), ("solve", "--csv"), ("why",), ("lint",)):
            self.assertTrue(all(line.isprintable() for line in on_terminal(*words, given=text).split("\n")), words)
        # Into a file they go as they are.
        self.assertEqual(run("solve", given=text)[1], f"{ESCAPES}\nB\n")
        self.assertIn(ESCAPES, run("export", "asp", given=text)[1])

    def test_pieces_of_characters(self):
        with mock.patch.object(sys, "stdout", Terminal()):
            console.write_bytes([b"a\xe2", b"\x82\xac\tb\x1b", b"\n\xe2"])
            self.assertEqual(sys.stdout.text(), "a€\tb\\x1b\n\\xe2")

    def test_pictures(self):
        label = "\x01\udcff<script>&\"'\ufffe"
        picture = Picture(label, {(0, 0): Cell(label, fill="#fff\" onload='x'")}, [label], [label])
        root = xml.etree.ElementTree.fromstring(picture.svg())
        self.assertEqual({element.tag.rpartition("}")[2] for element in root.iter()}, {"svg", "title", "rect", "path", "text"})
        self.assertNotIn("onload", {key for element in root.iter() for key in element.attrib})
        self.assertTrue(all(line.isprintable() for line in picture.text().split("\n")))
        roster = "- mo\x01n\nsh\x07 1\n\nann\x1b[2J 1\n"
        with tempfile.NamedTemporaryFile("w", suffix=".txt") as file:
            file.write(roster)
            file.flush()
            xml.etree.ElementTree.fromstring(run("roster", file.name, "--svg")[1])
            self.assertTrue(all(line.isprintable() for line in run("roster", file.name)[1].split("\n")))


class Pictures(unittest.TestCase):
    def test_numbers_in_names(self):
        start = used()
        for text in (
            "| helgrothy make queens 5\nr1 c999999999\nr1 c999999999\n",
            "| helgrothy make langford 4\n1 s99999999 s1\n1 s99999999 s1\n",
            "| helgrothy make polyominoes\nA r1c1 r9999999c1\nA r1c1 r9999999c1\n",
            "| helgrothy make roundrobin\nA-B A@1 B@1 C-D C@99999999 D@99999999\nA-B A@1 B@1\nC-D C@99999999 D@99999999\n",
            "| helgrothy make words\nacross-r1c1 | r1c1 r99999999c1\nacross-r1c1 r1c1:a r99999999c1:b\n",
            "| helgrothy make sudoku\nr1c1 r999999999c1 r1=1 r2=1 b1=1 b2=1\nr1c1 r1=1 b1=1\nr999999999c1 r2=1 b2=1\n",
        ):
            with self.assertRaises(NoPicture):
                problem = Problem.parse(text)
                problem.draw(next(problem.solve()))
            # The options are shown all the same.
            status, out, _ = run("solve", "--seconds", ENOUGH, given=text)
            self.assertEqual((status, out), (0, "\n".join(text.split("\n")[2 : -1 if "D@" in text or "sudoku" in text else 3]) + "\n"))
            status, _, error = run("solve", "--seconds", ENOUGH, "--svg", given=text)
            self.assertEqual((status, error.count("\n")), (2, 1))
        self.assertLess(used() - start, HANG)

    def test_more_teams_than_the_problem_has(self):
        start = used()
        teams = "".join(f"| t{team}\n" for team in range(30_000))
        text = f"| helgrothy make roundrobin\n|\n{teams}A-B A@1 B@1\nA-B A@1 B@1\n"
        for words in ((), ("--csv",), ("--html",)):
            self.assertEqual(run("solve", *words, given=text)[0], 0)
        self.assertLess(used() - start, HANG)

    def test_a_piece_without_cells(self):
        text = "| helgrothy make polyominoes\nA r1c1 | x\nA x\nr1c1\n"
        self.assertEqual(run("solve", given=text)[:2], (0, "A x\nr1c1\n"))
        with tempfile.NamedTemporaryFile("w", suffix=".dlx") as file:
            file.write(text)
            file.flush()
            status, out, error = run("draw", file.name, given="1:\n A x (1 of 1)\n r1c1 (1 of 1)\n")
        self.assertEqual((status, out), (2, ""))
        self.assertEqual(error, "helgrothy: the problem isn't as `helgrothy make polyominoes` made it\n")

    def test_patterns(self):
        for names, fits in (
            ("r1c1 r2c9", True),
            ("r1c1 r1c9999999", False),
            ("rac1 rzc1", True),
            ("rmonc1 rtuec1", False),
            ("r\u00b2c1 r1c1", False),
        ):
            problem = Problem.parse(f"{names}\n{names}\n")
            if fits:
                problem.draw(problem.options, Pattern(r"r(\w+)c(\w+)"))
            else:
                with self.assertRaises(NoPicture):
                    problem.draw(problem.options, Pattern(r"r(\w+)c(\w+)"))
        start = used()
        days = "maths art | mon-1 wednesday-1\nmaths mon-1\nart wednesday-1\n"
        status, _, error = run("solve", "--cell", r"(\w+)-(\d)", "--label", "maths|art", given=days)
        self.assertEqual(status, 2)
        self.assertIn("mon is no row or column: neither a number nor a single letter", error)
        self.assertLess(used() - start, HANG)

    def test_patterns_that_match_in_part(self):
        for cell in (r"r(\d+)(c(\d+))?", r"(?P<row>\d)?(?P<column>\d)?x?", "(a{99999999999})(b)", "(" * 200, r"(x)|(y)", "()()"):
            status, _, error = run("solve", "--cell", cell, given="r1 r1c1 x\nr1 r1c1 x\n")
            self.assertEqual((status, error.count("\n")), (2, 1), error)

    def test_two_labels_in_one_cell(self):
        cube = "a b | 0,0,0 0,0,1 1,0,0\na 0,0,0 1,0,0\nb 0,0,1\n"
        for words in (("--cell", r"(\d),(\d),(\d)"), ("--cell", r"(\d),(\d),\d", "--label", "[ab]")):
            status, out, error = run("solve", *words, given=cube)
            self.assertEqual((status, out), (2, ""))
            self.assertRegex(error, "both . and . are in row 0, column 0: a board has one label in a cell\n")
        # Where both are the same they are one, as letters of words that cross.
        cross = "a b | 1,1 1,2 2,1\na 1,1:x 1,2:y\nb 1,1:x 2,1:z\n"
        self.assertEqual(run("solve", "--cell", r"(\d),(\d)", given=cross)[1], "x y\nz\n")

    def test_places_below_0(self):
        with self.assertRaises(NoPicture):
            Picture("", {(-1, 0): Cell()})


class Time(unittest.TestCase):
    def test_a_command_ends_in_its_time(self):
        hard = make.langford.problem(14).text
        for words in (("solve", "--all", "--seconds", "0.3"), ("why", "--seconds", "0.3")):
            start = used()
            self.assertEqual(run(*words, given=hard)[0], 2)
            self.assertLess(used() - start, HANG)

        def slow(*_: object) -> None:
            while True:
                pass

        with mock.patch("helgrothy._cli.acts._problem", slow):
            status, _, error = run("solve", "--seconds", "0.1")
        self.assertEqual((status, error), (2, "helgrothy: it wasn't done in 0.1 seconds\n"))

    def test_times_and_numbers(self):
        for words in (
            *(("--seconds", time) for time in ("0", "-1", "nan", "1_0", "x")),
            *(("--number", number) for number in ("0", "1_0", "\u0663", "9" * 5000)),
        ):
            self.assertEqual(run("queens", "4", *words)[0], 2)
        self.assertEqual(run("queens", "4", "--number", "9" * 4000)[0], 1)
        for words in (("--seconds", "inf"), ("--seconds", "1e300"), ("--number", "1")):
            self.assertEqual(run("queens", "4", *words)[0], 0)
        self.assertEqual(Problem("a", options=["a"]).count(seconds=1e300), 1)

    def test_hints_take_a_part_of_a_second(self):
        near = "n" * 27
        text = " ".join(f"{near}{k:05d}" for k in range(19_000)) + "\n" + f"{near}xxxxx\n" * 30
        start = time.process_time()
        read(text.encode())
        with self.assertRaises(ValueError):
            Problem.parse(text)
        self.assertLess(time.process_time() - start, 3)
        self.assertIn("is it tuesday?", str(read(b"tuesday\ntusday\n").faults[0]))

    def test_many_faults(self):
        for text in (b"A\n" + b"b " * 490_000, b"A " + b"|" * 990_000, b"A\n" + b"\0\n" * 490_000):
            start = time.process_time()
            remarks = lint(text)
            self.assertEqual(len(remarks), syntax.MOST_FAULTS + 1)
            self.assertTrue(str(remarks[-1]).endswith("so many faults (1000) that the rest isn't read"))
            self.assertLess(time.process_time() - start, 3)
            with self.assertRaises(ValueError):
                Problem.parse(text)
        # Each colour is looked up, and not compared with all before it.
        start = time.process_time()
        Problem.parse("a | x\n" + "".join(f"a x:{k}\n" for k in range(50_000)))
        self.assertLess(time.process_time() - start, 5)

    def test_many_remarks(self):
        remarks = lint(b"a b\n" + b"a b\n" * 1_500)
        self.assertEqual((len(remarks), remarks[-1].text), (1_001, "499 more such remarks, the last one for this line"))

    def test_long_lines_and_texts(self):
        with tempfile.NamedTemporaryFile("w", suffix=".dlx") as file:
            file.write("A\nA\n")
            file.flush()
            with mock.patch.object(console, "_MOST_LINE", 100):
                self.assertIn("line 1 has more than", run("draw", file.name, "--json", given="1" * 1_000)[2])
        with mock.patch.object(console, "_MOST_TEXT", 100):
            self.assertIn("standard input has more than", run("lint", given="A" * 1_000)[2])

    def test_makers_count_before_they_make(self):
        start = time.process_time()
        for words in (
            ("queens", "99999"),
            ("queens", "999999999999"),
            ("langford", "99999"),
            ("langford", "9" * 30),
            ("polyominoes", "pentominoes", "99999x99999"),
        ):
            status, _, error = run("make", *words)
            self.assertEqual(status, 2)
            self.assertIn("the problem would have", error)
        self.assertIn("a board has at least one row", run("queens", "-3")[2])
        with self.assertRaises(ValueError):
            make.roundrobin.problem(f"t{k}" for k in range(1_000))
        days = 2_000
        table = "- " + " ".join(f"d{k}" for k in range(days)) + "\ns" + " 1" * days + "\n\n"
        with self.assertRaises(ValueError):
            make.roster.problem(table + "".join(f"p{k} 1 -s\n" for k in range(6_000)))
        self.assertLess(time.process_time() - start, 5)

    def test_many_levels_of_equal_options(self):
        start = used()
        options = [[k] for k in range(4_000) for _ in range(3)]
        self.assertEqual(next(Problem(range(4_000), options=options).solve()), options[::3])
        self.assertLess(used() - start, HANG)

    def test_one_long_option_makes_no_other_long(self):
        names = [f"{k:x}" for k in range(3_000)]
        text = " ".join(names) + "\n" + "\n".join([*names, " ".join(names), ""])
        self.assertLess(len(run("solve", "--csv", given=text)[1]), 4_000_000)

    def test_time_is_over_while_a_program_ends(self):
        with self.assertRaises(OutOfTime), console.limited(0.2):
            problem = make.queens.problem(30)
            for _ in problem.solve():
                pass
        self.assertEqual(len(programs._running), 0)

    def test_time_is_over_while_a_program_begins(self):
        """It would run on for ever: nobody knows of it yet."""
        begin, begun = subprocess.Popen, []

        def slow(*given, **named):
            begun.append(begin(*given, **named))
            signal.pthread_kill(threading.get_ident(), signal.SIGALRM)
            return begun[-1]

        clauses = sat_solver.Solver(make.langford.problem(4), sat_solver.Engine("cadical", "/bin/cat"))
        for act in (make.langford.problem(14).count, lambda: clauses.numbers(set(), 100)):
            with mock.patch.object(subprocess, "Popen", slow):
                with self.assertRaises(OutOfTime), console.limited(1000):
                    act()
            self.assertIsNotNone(begun[-1].returncode)
            self.assertEqual(len(programs._running), 0)

    def test_time_is_over_while_a_thread_begins(self):
        """In Python's own code, which then fails with a `KeyError`."""
        name = "_start_joinable_thread" if hasattr(threading, "_start_joinable_thread") else "_start_new_thread"
        begin = getattr(threading, name)

        def slow(*given, **named):
            found = begin(*given, **named)
            time.sleep(0.2)
            signal.pthread_kill(threading.get_ident(), signal.SIGALRM)
            return found

        with mock.patch.object(threading, name, slow), self.assertRaises(OutOfTime), console.limited(1000):
            with Watch(make.queens.problem(4), print):
                pass

    def test_time_is_over_where_an_exception_is_lost(self):
        class Slow:
            def __init__(self, fault: type) -> None:
                self.fault = fault

            def __del__(self) -> None:
                if self.fault is OutOfTime:
                    time.sleep(9)
                raise self.fault("lost")

        errors = Pipe()
        start = used()
        with contextlib.redirect_stderr(errors), self.assertRaises(OutOfTime), console.limited(0.1):
            Slow(OutOfTime)
            while True:
                pass
        self.assertEqual(errors.text(), "")
        with contextlib.redirect_stderr(errors), console.limited(9):
            Slow(KeyError)
        self.assertIn("KeyError", errors.text())
        self.assertLess(used() - start, HANG)

    def test_no_second_exception_comes_while_the_first_is_on_its_way(self):
        """On a machine that does other things an end may take seconds, and what was raised once isn't raised again."""
        done = []
        with self.assertRaises(OutOfTime), console.limited(0.05):
            try:
                while True:
                    pass
            finally:
                time.sleep(2.5)
                done.append(signal.getitimer(signal.ITIMER_REAL)[1])
        self.assertEqual(done, [1.0])
        self.assertEqual(signal.getitimer(signal.ITIMER_REAL), (0.0, 0.0))

    def test_time_is_over_where_an_exception_is_swallowed(self):
        """It is a `TimeoutError`, and so an `OSError`, which some code takes for one of a file."""
        with self.assertRaises(OutOfTime), console.limited(0.05):
            with contextlib.suppress(OSError):
                while True:
                    pass
            while True:
                pass


class Words(unittest.TestCase):
    def test_of_a_table_that_is_no_utf_8(self):
        with tempfile.NamedTemporaryFile(suffix=".txt") as file:
            file.write(b"ab\xff\n")
            file.flush()
            self.assertEqual(run("roster", file.name)[2], f"helgrothy: {file.name}: byte 3 isn't UTF-8 (save the file as UTF-8)\n")

    def test_of_a_program_that_lies(self):
        with tempfile.TemporaryDirectory() as folder:
            wrong = os.path.join(folder, "dlx1")
            with open(wrong, "w") as file:
                file.write("#!/bin/sh\nprintf '1:\\n wha\\033t (1 of 1)\\n2:\\n'\necho 'Altogether 2 solutions.' >&2\n")
            os.chmod(wrong, 0o755)
            with mock.patch.dict(os.environ, HELGROTHY_BIN=folder):
                status, _, error = run("queens", "4")
        self.assertEqual((status, error), (2, "helgrothy: a program printed what is no option of the problem: wha\\x1bt\n"))


if __name__ == "__main__":
    unittest.main()

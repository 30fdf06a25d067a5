"""Whether there is one solution, and clues that are dropped while there is."""

import itertools
import random
import re
import unittest
from unittest import mock

from folders import InFolder
from test_commands import run

from helgrothy import OutOfTime, Problem, TableFault, make, minimal
from helgrothy._cli import puzzle_commands

CLUES = "53..7....6..195....98....6.8...6...34..8.3..17...2...6.6....28....419..5....8..79"
SMALL = "12.4 3.12 2.43 4.21"
GRID = "#   4\\  16\\ #\n\\8  .   .   13\\\n\\17 .   .   .\n#   \\8  .   .\n"
SUMS = "#    17\\  24\\  #\n\\16  .    .    15\\\n\\23  .    .    .\n#    \\17  .    .\n"
HEART = "1 1\n5\n5\n3\n1\n\n2\n4\n4\n4\n2\n"
REGIONS = "aabb\naabb\nccdd\nccdd\n"


def is_minimal(clues):
    """Whether a Sudoku has one solution, and more without any of its clues."""
    if make.sudoku.problem(clues).count(limit=2) != 1:
        return False
    places = [place for place, mark in enumerate(clues) if mark not in ". \n"]
    return all(make.sudoku.problem(f"{clues[:at]}.{clues[at + 1 :]}").count(limit=2) == 2 for at in places)


def clues_of(marks, rows, columns):
    """The clues of a picture: those of its rows and then those of its columns."""
    lines = [marks[r * columns : (r + 1) * columns] for r in range(rows)] + [marks[c::columns] for c in range(columns)]
    return [tuple(len(run) for run in "".join(line).split(".") if run) for line in lines]


class Unique(InFolder):
    def test_commands(self):
        self.assertEqual(run("sudoku", CLUES, "--unique")[::2], (0, "There is exactly one solution.\n"))
        status, text, messages = run("queens", "4", "--unique")
        self.assertEqual((status, text.count("Q")), (1, 8))
        lines = [
            "There are several solutions. Of these two:",
            "only the first has r1 c3 a3 b6; r2 c1 a2 b3; r3 c4 a6 b5; and 1 more",
            "only the second has r1 c2 a2 b5; r2 c4 a5 b6; r3 c1 a3 b2; and 1 more",
        ]
        self.assertEqual(sorted(messages.splitlines()[1:]), sorted(lines[1:]) if "first has r1 c3" in messages else messages.splitlines()[1:])
        self.assertEqual(messages.splitlines()[0], lines[0])
        done = run("queens", "4", "--unique", "--up-to-symmetry")
        self.assertEqual((done[0], done[2]), (0, "There is exactly one solution up to 8 symmetries.\n"))
        self.assertEqual(run("queens", "4", "--unique", "--with", "r1 c2")[2], "There is exactly one solution.\n")
        done = run("solve", "--unique", given="A B\nA\n")
        self.assertEqual(done, (1, "", "There is no solution.\ncan't all be held: B\nit is in no option\n"))
        done = run("solve", "--unique", "--json", given="A B\nA\nB\nA B\n")
        self.assertEqual((done[0], done[1].count("number")), (1, 2))
        self.assertIn("only the first has A; B\nonly the second has A B\n", done[2])
        for words in (["--all"], ["--limit", "3"], ["--number", "2"]):
            self.assertEqual(run("queens", "4", "--unique", *words)[0], 2)
        self.assertEqual(run("queens", "4", "--unique", "--svg")[2], "helgrothy: an SVG is of one solution: --number says which\n")
        page = run("queens", "4", "--unique", "--html")
        self.assertEqual((page[0], '"total":2' in page[1]), (1, True))
        done = run("tests", "2,2", "--least", "--unique")
        self.assertEqual(done[2], "helgrothy: this search finds one solution: without --all, --limit, --number, --random, --count, --chances and --unique\n")


class Minimal(InFolder):
    def test_kinds(self):
        kinds = tuple(name for name, kind in make.KINDS.items() if kind.clues is not None)
        self.assertEqual(puzzle_commands.WITH_CLUES, kinds)

    def test_sudokus(self):
        for seed in ("0", "7"):
            status, text, messages = run("minimal", "sudoku", CLUES, "--seed", seed)
            self.assertEqual((status, len(text)), (0, 82))
            self.assertTrue(all(mark in (".", clue) for mark, clue in zip(text, CLUES)))
            self.assertTrue(is_minimal(text[:81]))
            left = 81 - text.count(".")
            self.assertEqual(messages, f"{left} of 30 clues are enough; none of them can go.\n")
        self.assertEqual(run("minimal", "sudoku", CLUES, "--seed", "7")[1], text)

    def test_layout(self):
        path = self.file("clues", SMALL.replace(" ", "\n") + "\n")
        status, text, messages = run("minimal", "sudoku", path)
        self.assertEqual((status, [len(line) for line in text.split("\n")]), (0, [4, 4, 4, 4, 0]))
        self.assertTrue(is_minimal("".join(text.split())))

    def test_new_sudokus(self):
        found = [run("minimal", "sudoku", "." * 16, "--seed", seed)[1] for seed in "123"]
        self.assertTrue(all(is_minimal(text.strip()) for text in found))
        self.assertGreater(len(set(found)), 1)
        status, text, _ = run("minimal", "sudoku", "--regions", self.file("regions", REGIONS))
        self.assertEqual((status, [len(line) for line in text.split("\n")]), (0, [4, 4, 4, 4, 0]))

    def test_no_single_solution(self):
        status, text, messages = run("minimal", "sudoku", CLUES.replace("3", ".").replace("5", "."))
        self.assertEqual((status, text, messages.splitlines()[0]), (1, "", "There are several solutions. Of these two:"))
        done = run("minimal", "sudoku", CLUES.replace("53", "52").replace("..7", ".27", 1))
        self.assertEqual(done, (1, "", "There is no solution.\n`helgrothy hint` may say where that shows.\n"))

    def test_kakuro(self):
        """Sums and digits are clues: each that is left is needed, and the layout of the file stays."""
        for grid, count in ((SUMS, 6), (SUMS.replace(".", "9", 1), 7), (GRID, 13)):
            for seed in ("0", "4"):
                path = self.file("grid", f"\n{grid}")
                status, text, messages = run("minimal", "kakuro", path, "--seed", seed)
                clues = list(re.finditer(r"\d+", text))
                enough = f"{len(clues)} of {count} clues are enough; none of them can go.\n"
                self.assertEqual((status, messages, re.sub(r"\S+", "", text)), (0, enough, re.sub(r"\S+", "", f"\n{grid}")))
                for left, before in zip(text.split(), grid.split()):
                    if "\\" in before:
                        self.assertRegex(before, re.escape(left).replace(r"\?", r"\d+") + r"\Z")
                    else:
                        self.assertIn(before, (".", left) if left != "." else (".", "9"))
                self.assertEqual(make.kakuro.problem(text).count(limit=2), 1)
                for clue in clues:
                    begin, end = clue.span()
                    mark = "." if not text[begin - 1 : end + 1].strip(" \n0123456789") else "?"
                    fewer = f"{text[:begin]}{mark}{text[end:]}"
                    self.assertEqual(make.kakuro.problem(fewer).count(limit=2), 2)
                self.assertEqual(run("minimal", "kakuro", self.file("less", text))[1], text)
        self.assertGreater(make.kakuro.problem(GRID).count(limit=2), 1)
        done = run("minimal", "kakuro", self.file("several", GRID.replace(".", "1", 1)))
        self.assertEqual((done[:2], done[2].splitlines()[0]), ((1, ""), "There are several solutions. Of these two:"))
        # A digit without a sum beside it stays.
        status, text, messages = run("minimal", "kakuro", self.file("beside", "5 # #\n# \\3 3\n"))
        self.assertEqual((status, messages), (0, "1 of 2 clues is enough; none of them can go.\n"))
        self.assertIn(text, ("5 # #\n# \\? 3\n", "5 # #\n# \\3 .\n"))

    def test_nonograms(self):
        """Each clue that is left is needed, and the layout of the file stays."""
        path = self.file("clues", HEART)
        for seed in ("0", "5"):
            status, text, messages = run("minimal", "nonogram", path, "--seed", seed)
            lines = text.split("\n")
            self.assertEqual((status, len(lines)), (0, len(HEART.split("\n"))))
            self.assertTrue(all(line in ("?", before) for line, before in zip(lines, HEART.split("\n"))))
            left = sum(line not in ("", "?") for line in lines)
            self.assertEqual(messages, f"{left} of 10 clues are enough; none of them can go.\n")
            self.assertEqual(make.nonogram.problem(text).count(limit=2), 1)
            for at, line in enumerate(lines):
                if line not in ("", "?"):
                    fewer = "\n".join([*lines[:at], "?", *lines[at + 1 :]])
                    self.assertEqual(make.nonogram.problem(fewer).count(limit=2), 2)
        self.assertEqual(run("minimal", "nonogram", self.file("less", text))[1], text)
        titled = f"title a heart\nrows\n{HEART.split(chr(10) * 2)[0]}\ncolumns\n2\n4\n4\n4\n2"
        text = run("minimal", "nonogram", self.file("titled", titled))[1]
        self.assertEqual([text.split("\n")[at] for at in (0, 1, 7)], ["title a heart", "rows", "columns"])
        done = run("minimal", "nonogram", self.file("open", "?\n?\n\n1\n1\n"))
        self.assertEqual((done[:2], done[2].splitlines()[0]), ((1, ""), "There are several solutions. Of these two:"))

    def test_nonograms_with_lines_unknown(self):
        """There are as many solutions as pictures that fit what is known, by whole lines and by runs."""
        rng = random.Random(21)
        for number in range(40):
            rows, columns = rng.randint(1, 3), rng.randint(1, 4)
            pictures = list(itertools.product("#.", repeat=rows * columns))
            known = [line if rng.random() < 0.6 else None for line in clues_of(rng.choice(pictures), rows, columns)]
            wanted = sum(
                all(own in (None, its) for own, its in zip(known, clues_of(one, rows, columns))) for one in pictures
            )
            lines = ["?" if line is None else " ".join(map(str, line)) or "0" for line in known]
            text = "\n".join([*lines[:rows], "", *lines[rows:]])
            with mock.patch.object(make.nonogram, "_are_shorter_by_runs", lambda lines, is_so=number % 2 > 0: is_so):
                problem = make.nonogram.problem(text)
            self.assertEqual(problem.count(), wanted, text)
            drawn = problem.draw(next(problem.solve())).text()
            self.assertEqual(drawn.count("?"), lines.count("?"))
            again = make.nonogram.problem("\n".join(problem.comments[2:]))
            self.assertEqual(again.count(), wanted)
        for text, wanted in (
            ("? 1\n1\n\n1\n1\n", "line 1: ?: no number"), ("3\n?\n\n1\n1\n", "it takes 3 squares"), ("2\n?\n\n0\n?\n", "no arrangement"),
        ):  # fmt: skip
            with self.assertRaisesRegex(TableFault, re.escape(wanted)):
                make.nonogram.problem(text)

    def test_problems(self):
        board = make.queens.problem(6)
        path = self.file("q.dlx", board.text)
        status, text, messages = run("minimal", path, "--seed", "3")
        kept = text.splitlines()
        self.assertEqual((status, messages.partition(" of 6 clues ")[0]), (0, str(len(kept))))
        words = [word for line in kept for word in ("--with", line)]
        self.assertEqual(run("queens", "6", "--unique", *words)[0], 0)
        self.assertEqual(run("minimal", path, *words)[1], text)
        self.assertEqual(run("minimal", "--with", "r1 c1", path)[:2], (1, ""))
        self.assertEqual(run("minimal", given="A\nA\n")[1:], ("", "0 of 1 clues are enough; none of them can go.\n"))

    def test_of_all_sets(self):
        problem = Problem("abcdef", options=["ab", "cd", "ef", "af", "bc", "de", "a", "b", "cdef"])
        covers = [frozenset(one.numbers) for one in problem.solve()]
        for cover in covers:
            for seed in range(5):
                kept = set(minimal.find(problem, sorted(cover), seed).kept)
                self.assertEqual([one for one in covers if one >= kept], [cover])
                for place in kept:
                    self.assertGreater(sum(one >= kept - {place} for one in covers), 1)
        with self.assertRaises(minimal.NotUnique) as raised:
            minimal.find(problem, [])
        self.assertEqual(len(raised.exception.solutions), 2)

    def test_time(self):
        asked = minimal.solutions
        calls = []

        def slow(problem, given, deadline):
            calls.append(given)
            if len(calls) > 4:
                raise OutOfTime("no")
            return asked(problem, given, deadline)

        with mock.patch.object(minimal, "solutions", slow):
            status, text, messages = run("minimal", "sudoku", CLUES, "--seconds", "20")
        self.assertRegex(messages, r"\A2[6789] of 30 clues are enough; 27 weren't tried in 20 seconds\.\n\Z")
        self.assertEqual((status, make.sudoku.problem(text).count(limit=2)), (0, 1))
        with self.assertRaises(OutOfTime):
            minimal.find(make.sudoku.problem(CLUES), [], seconds=0)

    def test_a_new_sudoku(self):
        status, text, _ = run("minimal", "sudoku", "--seed", "3", "--seconds", "4")
        self.assertEqual((status, len(text), make.sudoku.problem(text).count(limit=2)), (0, 82, 1))

    def test_mistakes(self):
        done = run("minimal", "queens", "x")
        self.assertEqual((done[0], done[2].partition(";")[0]), (2, "helgrothy minimal: queens: neither a problem nor sudoku, nonogram or kakuro"))
        done = run("minimal", "sudoku", CLUES, "--with", "r1c3 r1=4")
        self.assertEqual(done, (2, "", "helgrothy: the clues stand in the puzzle: without --with\n"))


if __name__ == "__main__":
    unittest.main()

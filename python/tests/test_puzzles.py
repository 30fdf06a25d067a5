"""Nonograms, Kakuro and Sudokus of regions and cages: known solutions, counts by a second search, and bad pictures."""

import itertools
import math
import random
import unittest
import xml.etree.ElementTree as ElementTree
from unittest import mock

from helgrothy import NoPicture, Problem, TableFault, make
from helgrothy.draw import Cell, Picture

# Problem 98 of W. Hett's "Ninety-Nine Prolog Problems", with the solution that he prints.
HETT = "3\n2 1\n3 2\n2 2\n6\n1 5\n6\n1\n2\n\n1 2\n3 1\n1 5\n7 1\n5\n3\n4\n3\n"
HETT_SOLVED = ".###.... ##.#.... .###..## ..##..## ..###### #.#####. ######.. ....#... ...##..."
# The easy example of Wikipedia's article "Kakuro", and its solution there.
KAKURO = r"""
#    23\  30\    #      #     27\  12\  16\
\16  .    .      #      17\24 .    .    .
\17  .    .      15\29  .     .    .    .
\35  .    .      .      .     .    12\  #
#    \7   .      .      7\8   .    .    7\
#    11\  10\16  .      .     .    .    .
\21  .    .      .      .     \5   .    .
\6   .    .      .      #     \3   .    .
"""
KAKURO_SOLVED = "97##879 89#8957 68597## #61#26# ##46132 8931#14 312##21"
# The example of Wikipedia's article "Killer sudoku", and its solution there.
KILLER = """\
3 r1c1 r1c2
15 r1c3 r1c4 r1c5
22 r1c6 r2c5 r2c6 r3c5
4 r1c7 r2c7
16 r1c8 r2c8
15 r1c9 r2c9 r3c9 r4c9
25 r2c1 r2c2 r3c1 r3c2
17 r2c3 r2c4
9 r3c3 r3c4 r4c4
8 r3c6 r4c6 r5c6
20 r3c7 r3c8 r4c7
6 r4c1 r5c1
14 r4c2 r4c3
17 r4c5 r5c5 r6c5
17 r4c8 r5c7 r5c8
13 r5c2 r5c3 r6c2
20 r5c4 r6c4 r7c4
12 r5c9 r6c9
27 r6c1 r7c1 r8c1 r9c1
6 r6c3 r7c2 r7c3
20 r6c6 r7c6 r7c7
6 r6c7 r6c8
10 r7c5 r8c4 r8c5 r9c4
14 r7c8 r7c9 r8c8 r8c9
8 r8c2 r9c2
16 r8c3 r9c3
15 r8c6 r8c7
13 r9c5 r9c6 r9c7
17 r9c8 r9c9
"""
KILLER_SOLVED = "215647398 368952174 794381652 586274931 142593867 973816425 821739546 659428713 437165289"


def clue_of(marks):
    return " ".join(str(len(list(run))) for mark, run in itertools.groupby(marks) if mark) or "0"


def clues_of(rows):
    return "\n".join(map(clue_of, rows)) + "\n\n" + "\n".join(map(clue_of, zip(*rows))) + "\n"


class Puzzles(unittest.TestCase):
    def solved(self, problem: Problem, limit=2):
        """The only solution's picture; both forms of it and the text of the problem have to be whole."""
        solutions = list(problem.solve(limit=limit))
        self.assertEqual(len(solutions), 1)
        picture = problem.draw(solutions[0])
        for drawn in (picture, problem.draw()):
            ElementTree.fromstring(drawn.svg())
        again = Problem.parse(problem.text)
        self.assertEqual(again.text, problem.text)
        self.assertEqual(str(again.draw(next(again.solve()))), str(picture))
        return picture

    def refused(self, make_one, cases):
        """Each text gets the sentence that stands behind it."""
        self.assertGreaterEqual(len(cases), 10)
        for text, wanted in cases.items():
            with self.subTest(text=text):
                with self.assertRaises(TableFault) as raised:
                    make_one(text)
                self.assertEqual(str(raised.exception), wanted)


class Pictures(unittest.TestCase):
    def test_numbers_in_names(self):
        """No picture grows with the numbers in names, or is drawn of what a maker didn't make."""
        for text in (
            "nonogram\nrow1 col1 col99999999 | r1c1 r1c99999999\nrow1 r1c1:#\ncol1 r1c1:#\ncol99999999 r1c99999999:#\n",
            "nonogram\nrow1 col1 x | r1c1\nrow1 r1c1:#\ncol1 r1c1:#\nx\n",
            "nonogram\nrow1 col1 | r1c1 r99999c1\nrow1 r1c1:# r99999c1:#\ncol1 r1c1:#\n",
            "kakuro\nr1c1 r1c99999999\nr1c1\nr1c99999999\n",
            "kakuro\nacross-r1c1 across-r1c1=1\nacross-r1c1 across-r1c1=1\n",
            "sudoku\nr1c1 r1=1 b1=1 k1 k1=1\nr1c1 r1=1 b1=1 k1=1\nk1\n",
            "sudoku\nk1 k1=1\nk1 k1=1\n",
        ):
            with self.subTest(text=text):
                problem = Problem.parse(f"| helgrothy make {text}")
                solution = next(problem.solve())
                if text.startswith("sudoku\nr1c1"):
                    self.assertEqual(str(problem.draw(solution)), "1\n")
                else:
                    with self.assertRaises(NoPicture):
                        problem.draw(solution)

    def test_walls(self):
        """Groups that no straight lines part are drawn with a line round each."""
        groups = ["aab", "abb", "ccc"]
        cells = {(r, c): Cell("x", groups[r][c]) for r in range(3) for c in range(3) if (r, c) != (2, 2)}
        wanted = "+-------+---+\n| x   x | x |\n|   +---+   |\n| x | x   x |\n+---+---+---+\n| x   x |\n+-------+\n"
        self.assertEqual(Picture("walls", cells, has_boxes=True).text(), wanted)

    def test_cages(self):
        """The dashed line of a cage goes round it, inside of its cells."""
        cells = {(r, c): Cell(cage=None if (r, c) == (0, 1) else "k") for r in range(2) for c in range(2)}
        svg = Picture("an L", cells).svg()
        (path,) = [line for line in svg.splitlines() if "dasharray" in line]
        self.assertEqual(path.split('"')[1].count("M"), 8)
        self.assertIn("M7 7h30", path)


class Nonograms(Puzzles):
    def test_known(self):
        picture = self.solved(make.nonogram.problem(HETT))
        rows = [line.replace("|", "").split()[-8:] for line in str(picture).splitlines()[3:] if "+" not in line]
        self.assertEqual(" ".join(map("".join, rows)), HETT_SOLVED)
        self.assertEqual(str(picture).splitlines()[2:5], ["----+-----------+------", "  3 | . # # # . | . . .", "2 1 | # # . # . | . . ."])
        # One square in each row and column: the permutations, n factorial.
        for size, wanted in ((1, 1), (4, 24), (6, 720)):
            self.assertEqual(make.nonogram.problem("1\n" * size + "\n" + "1\n" * size).count(), wanted)

    def test_count_by_a_second_search(self):
        rng = random.Random(1)
        for _ in range(30):
            high, wide = rng.randint(1, 3), rng.randint(1, 4)
            boards = [
                [bits[r * wide : r * wide + wide] for r in range(high)]
                for bits in itertools.product((0, 1), repeat=high * wide)
            ]
            clues = clues_of(rng.choice(boards))
            self.assertEqual(make.nonogram.problem(clues).count(), sum(clues_of(board) == clues for board in boards))

    def test_large(self):
        rng = random.Random(2)
        for side, share in ((25, 0.6), (30, 0.7)):
            board = [[rng.random() < share for _ in range(side)] for _ in range(side)]
            problem = make.nonogram.problem(clues_of(board))
            self.assertIn(clues_of(board), {clues_of(self.board(problem, one)) for one in problem.solve(limit=3)})

    def test_by_runs(self):
        """The same pictures, clues beside them, and as many; and lines with many arrangements are made so."""
        rng = random.Random(4)
        for _ in range(30):
            high, wide = rng.randint(1, 5), rng.randint(1, 5)
            clues = clues_of([[rng.random() < 0.5 for _ in range(wide)] for _ in range(high)])
            whole = make.nonogram.problem(clues)
            with mock.patch.object(make.nonogram, "_are_shorter_by_runs", lambda lines: True):
                runs = make.nonogram.problem(clues)
            self.assertTrue(all("/" in name for name in runs.item_names))
            pictures = [sorted(str(one.draw(solution)) for solution in one.solve()) for one in (whole, runs)]
            self.assertEqual(*pictures)
            self.assertEqual(len(pictures[0]), len(set(pictures[0])))
            again = Problem.parse(runs.text)
            self.assertEqual(sorted(str(again.draw(solution)) for solution in again.solve()), pictures[0])
            self.assertEqual(str(runs.draw()), str(whole.draw()))
        board = [[rng.random() < 0.5 for _ in range(25)] for _ in range(25)]
        large = make.nonogram.problem(clues_of(board))
        self.assertIn("row1/0", large.item_names)
        self.assertLess(len(large.options), 20_000)
        taken = [option for option in large.options if self.fits(option, board)]
        self.assertEqual(large.check([taken]), [True])

    def fits(self, option, board):
        """Whether a run lies as it does in a board, and the next one does."""
        for name, colour in option.items():
            if name[0] == "r" and name[1].isdigit():
                r, c = map(int, name[1:].split("c"))
                if board[r - 1][c - 1] != (colour == "#"):
                    return False
        line = next(iter(option))
        kind, number, part = line[:3], int(line[3:].split("/")[0]), int(line.split("/")[1])
        marks = board[number - 1] if kind == "row" else [row[number - 1] for row in board]
        begins = [i + 1 for i, mark in enumerate(marks) if mark and not (i and marks[i - 1])]
        at = {f"{line.split('/')[0]}@{k}": str(i) for k, i in enumerate(begins, 1)}
        return all(at[name] == colour for name, colour in option.items() if "@" in name) and part <= len(begins)

    def board(self, problem, solution):
        cells = {}
        for option in solution:
            for mark in problem.line(option).split():
                name, _, colour = mark.partition(":")
                if colour in ("#", "."):
                    r, c = name[1:].split("c")
                    cells[int(r), int(c)] = colour == "#"
        high, wide = max(cells)
        return [[cells[r, c] for c in range(1, wide + 1)] for r in range(1, high + 1)]

    def test_other_forms(self):
        wanted = make.nonogram.problem("2,1\n0\n\n1\n1\n0\n1\n").text
        for text in (
            "\n2 1\n 0\n\n\n1\n1\n0\n1\n\n",
            'title "none"\nby me\nwidth 4\nheight 2\n\nrows\n2,1\n0\n\ncolumns\n1\n1\n0\n1\n\ngoal "1101"\n',
        ):
            self.assertEqual(make.nonogram.problem(text).text, wanted)

    def test_bad_clues(self):
        self.refused(
            make.nonogram.problem,
            {
                "": "line 1: no clues: a line for each row, a blank line, a line for each column",
                "1\n1\n": "line 2: no columns: their clues follow those of the rows after a blank line",
                "1\n\n1\n\n1\n": "line 5: 1: a third part; there are rows, a blank line, and columns",
                "1\nx\n\n1\n": "line 2: x: no number; a clue has the lengths of the runs, such as 3 1 2",
                "1\n-1\n\n1\n": "line 2: -1: no number; a clue has the lengths of the runs, such as 3 1 2",
                "1 0 1\n\n1\n0\n1\n": "line 1: 0: a run of no squares; 0 stands alone, where a line has no runs",
                "1\n2 1\n\n1\n1\n2\n": "line 2: 2 1: it takes 4 squares, and a row has 3",
                "1\n\n2\n": "line 3: 2: it takes 2 squares, and a column has 1",
                "1\n1\n\n1\n0\n": "line 4: the rows have 2 filled squares in all, and the columns 1",
                "1\n\n1\n" + "0\n" * 100: "line 103: more than 100 columns",
                "columns\n1\n\nrows\n1\n": "line 1: columns: the headings are rows and then columns, each in a line of its own",
                "rows\n1\nrows\n1\n": "line 3: rows: the headings are rows and then columns, each in a line of its own",
                "width 3\nrows\n1\ncolumns\n1\n": "line 1: 3: width is 3, and there are clues for 1",
                "height x\n1\n\n1\n": "line 1: x: no number; a clue has the lengths of the runs, such as 3 1 2",
                "3\n0\n0\n\n0\n0\n3\n": "line 5: 0: no arrangement of this column fits what the clues of the rows leave",
                "2\n1\n1 1\n\n1\n3\n1\n": "line 6: 3: no arrangement of this column fits what the clues of the rows leave",
                "1 1\n1\n2\n\n2\n2\n1\n": "line 2: 1: no arrangement of this row fits what the clues of the columns leave",
            },
        )


class Kakuro(Puzzles):
    def test_known(self):
        picture = self.solved(make.kakuro.problem(KAKURO))
        rows = str(picture).splitlines()
        solved = ["".join(word if len(word) == 1 else "#" for word in row.split()[1:]) for row in rows[1:]]
        self.assertEqual(" ".join(solved), KAKURO_SOLVED)
        # The picture is a grid again, and with all digits given it has the same solution.
        self.assertEqual(str(self.solved(make.kakuro.problem(str(picture)))), str(picture))

    def test_count_by_a_second_search(self):
        grid = "#  {}\\ {}\\ {}\\\n\\{} . . .\n\\{} . . .\n"
        rng = random.Random(3)
        for _ in range(30):
            rows = [rng.sample(range(1, 10), 3) for _ in range(2)]
            if any(a == b for a, b in zip(*rows)):
                continue
            downs = list(map(sum, zip(*rows)))
            count = 0
            for first in itertools.permutations(range(1, 10), 3):
                second = [total - digit for total, digit in zip(downs, first)]
                fits = all(1 <= b <= 9 and a != b for a, b in zip(first, second)) and len(set(second)) == 3
                count += fits and sum(first) == sum(rows[0])
            problem = make.kakuro.problem(grid.format(*downs, *map(sum, rows)))
            self.assertEqual(problem.count(), count)

    def test_given_and_single(self):
        self.assertEqual(make.kakuro.problem("# 3\\ 4/\n\\4 . .\n/3 . .\n").count(), 1)
        self.assertEqual(make.kakuro.problem("\\10 . .\n").count(), 8)
        self.assertEqual(make.kakuro.problem("\\10 . 3\n").count(), 1)
        self.assertEqual(make.kakuro.problem("\\45 . . . . . . . . 9\n").count(), 40320)
        self.assertEqual(make.kakuro.problem("# 7\\\n# .\n").count(), 1)
        self.assertEqual(make.kakuro.problem("# # #\n# . #\n").count(), 9)

    def test_sums_that_are_not_given(self):
        for grid, wanted in (
            ("\\? . .\n", 72), ("\\? . 3\n", 8), ("\\? .\n", 9), ("# 3\\ ?\\\n\\? . .\n/? . .\n", 114), ("\\? . . . . . . . . 9\n", 40320),
        ):  # fmt: skip
            problem = make.kakuro.problem(grid)
            self.assertEqual(problem.count(), wanted, grid)
            drawn = str(problem.draw(next(problem.solve())))
            self.assertEqual(drawn.count("?"), 0 if wanted == 40320 else grid.count("?"))
            self.assertEqual(make.kakuro.problem("\n".join(problem.comments[2:])).text, problem.text)

    def test_bad_grids(self):
        top = "# 4\\ 3\\\n"
        self.refused(
            make.kakuro.problem,
            {
                "": "line 1: an empty picture",
                "# #\n# #\n": "line 1: there is no white cell",
                top + "\\4 . .\n\\3 .\n": "line 3: \\3 .: 2 cells, where other rows have 3",
                top + "\\4 . x\n\\3 . .\n": "line 2: x: neither a dot, a digit, # nor sums such as 17\\24",
                top + "4 . .\n\\3 . .\n": "line 2: the cells to the right from r2c1 on have no sum",
                top + "14 . .\n\\3 . .\n": "line 2: 14: neither a dot, a digit, # nor sums such as 17\\24 (a sum has \\ before it, "
                "\\14, or after it, 14\\)",
                top + "# . .\n\\3 . .\n": "line 2: #: no sum for the 2 cells to the right from r2c2 on",
                "# 4\\ #\n\\4 . .\n\\3 . .\n": "line 1: #: no sum for the 2 cells downwards from r2c3 on",
                ". .\n": "line 1: the cells to the right from r1c1 on have no sum",
                top + "\\4 . .\n\\4\\3 . .\n": "line 3: \\4\\3: neither a dot, a digit, # nor sums such as 17\\24",
                top + "\\2 . .\n\\3 . .\n": "line 2: \\2: the sum 2 is asked of 2 digits that differ to its right: 3 at least and 17 "
                "at most",
                top + "\\18 . .\n\\3 . .\n": "line 2: \\18: the sum 18 is asked of 2 digits that differ to its right: 3 at least and "
                "17 at most",
                "# 2\\ 3\\\n\\4 . .\n\\3 . .\n": "line 1: 2\\: the sum 2 is asked of 2 digits that differ below it: 3 at least and 17 "
                "at most",
                "\\12 .\n": "line 1: \\12: the sum 12 is asked of 1 digit to its right: 1 at least and 9 at most",
                "\\45 . . . . . . . . . .\n": "line 1: \\45: 10 cells to its right, and there are nine digits",
                top + "\\4 . .\n\\4 . .\n": "line 1: the sums across are 8 in all and those down 7, of the cells that are connected "
                "with r2c2".replace("line 1", "line 2"),
                top + "\\4 . .\n\\3 . .\n# # 5\\\n": "line 4: 5\\: there is no white cell below it that would have the sum 5",
                top + "\\4 . .\n\\3 . .\n# # ?\\\n": "line 4: ?\\: there is no white cell below it that would have a sum",
                "\\9 4 4 .\n": "line 1: 4: given twice in the run to the right from r1c2 on",
                "\\9 8 . .\n": "line 1: 8: given in the run to the right from r1c2 on, whose sum can't be 9 with it",
            },
        )


def latin_squares(regions):
    """How many squares have each digit once in each row, column and region: a search by rows.

    By renaming the digits each first row has as many.
    """
    size = len(regions)

    def count(rows):
        if len(rows) == size:
            return 1
        found = 0
        for row in itertools.permutations(range(size)):
            if all(row[c] != above[c] for above in rows for c in range(size)):
                used = [(regions[r][c], above[c]) for r, above in enumerate([*rows, row]) for c in range(size)]
                if len(set(used)) == len(used):
                    found += count([*rows, row])
        return found

    return math.factorial(size) * count([tuple(range(size))])


class Sudokus(Puzzles):
    def test_regions(self):
        # Regions that are rows ask for nothing new: Latin squares, 576 and 161,280 of them (OEIS, A002860).
        self.assertEqual(make.sudoku.problem(regions="aaaa\nbbbb\ncccc\ndddd\n").count(), 576)
        self.assertEqual(make.sudoku.problem(regions="aaaaa\nbbbbb\nccccc\nddddd\neeeee\n").count(), 161280)
        for regions in ("aaab\naccb\ndccb\ndddb\n", "aabbb\naabbc\nadccc\ndddce\ndeeee\n"):
            self.assertEqual(make.sudoku.problem(regions=regions).count(), latin_squares(regions.split()))
        clues = ["1234", "...."] + ["...."] * 2
        problem = make.sudoku.problem("\n".join(clues), regions="aaab\naccb\ndccb\ndddb\n")
        self.assertEqual(problem.count(), latin_squares("aaab accb dccb dddb".split()) // 24)
        first = str(problem.draw(next(problem.solve()))).splitlines()
        self.assertEqual(first[:3], ["+-----------+---+", "| 1   2   3 | 4 |", "|   +-------+   |"])

    def test_sizes(self):
        for size in (4, 6, 8, 9, 10, 12, 14, 15, 16, 18, 20, 21, 22, 24, 25):
            problem = make.sudoku.problem("." * size * size)
            self.assertEqual((len(problem.items), len(problem.options)), (4 * size**2, size**3))
        # OEIS, A107739: 288 of 4 rows; boxes of 2 by 3 with the first row and box given.
        self.assertEqual(make.sudoku.problem("." * 16).count(), 288)
        self.assertEqual(make.sudoku.problem(".123" + "." * 12).count(), 12)
        rows = ["".join("123456789ABCDEFGHIJKLMNOP"[(5 * r + r // 5 + c) % 25] for c in range(25)) for r in range(25)]
        self.assertEqual(make.sudoku.problem("\n".join(rows)).count(), 1)

    def test_cages(self):
        picture = self.solved(make.sudoku.problem(cages=KILLER))
        rows = [line.replace("|", "").split() for line in str(picture).splitlines() if "+" not in line]
        self.assertEqual(" ".join(map("".join, rows)), KILLER_SOLVED)
        self.assertEqual(picture.svg().count('font-size="11"'), 29)
        # Cages that are the boxes, in a picture, ask for nothing new.
        self.assertEqual(make.sudoku.problem(cages="aabb\naabb\nccdd\nccdd\n\na=10 b=10\nc=10 d=10\n").count(), 288)
        one = make.sudoku.problem("..4." + "." * 12, cages="a...\na...\n....\n....\n\na=3\n")
        wanted = sum(
            {solution[k * 4 : k * 4 + 4][0] for k in range(2)} == {"1", "2"} and solution[2] == "4" for solution in fours()
        )
        self.assertEqual(one.count(), wanted)

    def test_cages_and_regions(self):
        regions = "aaab\naccb\ndccb\ndddb\n"
        total = 0
        for cage in range(3, 8):
            total += make.sudoku.problem(regions=regions, cages=f"{cage} r1c1 r2c1\n").count()
        self.assertEqual(total, latin_squares(regions.split()))

    def test_bad_clues(self):
        nine = "." * 9
        self.refused(
            make.sudoku.problem,
            {
                "1234": "line 1: 4 places; a Sudoku of 9 rows has 81, one of 4 to 25 rows as many as its square",
                "." * 80: "line 1: 80 places; a Sudoku of 9 rows has 81, one of 4 to 25 rows as many as its square",
                "." * 676: "line 1: 676 places; a Sudoku of 9 rows has 81, one of 4 to 25 rows as many as its square",
                "." * 49: "line 1: a Sudoku of 7 rows has no boxes; --regions FILE draws its regions",
                "x" + "." * 80: "line 1: x: place 1 has neither a digit up to 9 nor a dot",
                "." * 79 + "A.": "line 1: A: place 80 has neither a digit up to 9 nor a dot",
                "1234\n341.\n5...\n....\n": "line 3: 5: place 9 has neither a digit up to 4 nor a dot",
                "....\n...\n....\n....\n": "line 2: ...: 3 places, where there are 4 rows",
                "\n".join([nine] * 8 + [nine + "."]): "line 9: ..........: 10 places, where there are 9 rows",
                "1\u0661" + "." * 14: "line 1: \u0661: place 2 has neither a digit up to 4 nor a dot",
            },
        )

    def test_bad_regions(self):
        self.refused(
            lambda regions: make.sudoku.problem(regions=regions),
            {
                "": "line 1: an empty picture",
                "aaa\nbbb\nccc\n": "line 1: 3 rows; a Sudoku has 4 to 25",
                "aaaa\nbbbb\ncccc\n": "line 1: 3 rows; a Sudoku has 4 to 25",
                "aaaa\nbbbb\nccc\ndddd\n": "line 3: ccc: 3 cells, where the picture has 4 rows",
                "aaaa\nbbbbb\ncccc\ndddd\n": "line 2: bbbbb: 5 cells, where the picture has 4 rows",
                "aaaa\nbbbb\n\ncccc\ndddd\n": "line 1: aaaa: 4 cells, where the picture has 5 rows",
                "aaaa\nbbb.\ncccc\ndddd\n": "line 2: .: no region; each cell has the letter of its region",
                "aaaa\nbbb#\ncccc\ndddd\n": "line 2: #: no region; each cell has the letter of its region",
                "aaaa\naabb\nccbb\nccdd\n": "line 1: regions have 4 cells each: a has 6, d has 2",
                "aaaa\nbbbb\ncccc\ndddc\n": "line 3: regions have 4 cells each: c has 5, d has 3",
                "aaaa\nbbbb\ncccc\ncccc\n": "line 3: regions have 4 cells each: c has 8",
                "aaab\nbccc\ndefg\nhijk\n": "line 1: regions have 4 cells each: a has 3, b has 2, c has 3, d has 1, e has 1 and 6 more "
                "are wrong",
            },
        )
        with self.assertRaises(TableFault) as raised:
            make.sudoku.problem("." * 81, regions="aaaa\nbbbb\ncccc\ndddd\n")
        self.assertEqual(str(raised.exception), "line 1: the regions have 4 rows, so there are 16 places, not 81")

    def test_bad_cages(self):
        drawn = "aabb\naabb\nccdd\nccdd\n\n"
        self.refused(
            lambda cages: make.sudoku.problem("." * 16, cages=cages),
            {
                "": "line 1: no cages",
                "r1c1 r1c2\n": "line 1: r1c1: a cage begins with its sum, such as 12 r1c1 r1c2",
                "5 r1c1 r1c2\n7\n": "line 2: 7: a sum without cells, such as 12 r1c1 r1c2",
                "5 r1c1 x2\n": "line 1: x2: no cell; one is named as r1c2",
                "5 r1c1 r0c1\n": "line 1: r0c1: rows and columns are counted from 1 on",
                "5 r1c1 r1c5\n": "line 1: r1c5: outside of the 4 rows and columns",
                "5 r1c1 r1c2\n\n6 r1c2 r1c3\n": "line 3: r1c2: in the cage of line 1 too: cages don't overlap",
                "5 r1c1 r1c1\n": "line 1: r1c1: twice in its cage",
                "5 r1c1 r1c3\n": "line 1: r1c3: not joined by a side to the cells of its cage before it",
                "8 r1c1 r1c2\n": "line 1: 8: 2 digits that differ are 3 at least and 7 at most",
                "2 r1c1 r1c2\n": "line 1: 2: 2 digits that differ are 3 at least and 7 at most",
                "5 r1c1\n": "line 1: 5: 1 digit is 1 at least and 4 at most",
                "15 r1c1 r1c2 r1c3 r1c4 r2c1\n": "line 1: a cage of 5 cells; its digits differ, and there are 4",
                drawn + "a=10 b=10 c=10\n": "line 3: d: the cage has no sum; after the picture it would be d=12",
                drawn + "a=10 b=10 c=10\nd=10 a=9\n": "line 7: a=9: the cage has its sum in line 6 already",
                drawn + "a=10 b=10 c=10 e=10\n": "line 6: e=10: no cell of the picture has this letter",
                drawn + "a=10 b=10 c=10 d 10\n": "line 6: d: no sum of a cage, such as a=12",
                drawn + "a=9 b=10 c=10 d=10\n": "line 6: 9: 4 digits that differ are 10 at least and 10 at most",
                "aab\naabb\nccdd\nccdd\n\na=10\n": "line 1: aab: 3 cells, where the picture has 4 rows",
                "aaaaa\n" + ".....\n" * 4: "line 1: the picture has 5 rows, where the Sudoku has 4",
                "aa..\n....\n....\n..a.\n\na=6\n": "line 6: r4c3: not joined by a side to the cells of its cage before it",
                "\n".join(f"{5 + (r < 2)} r{r}c{c} r{r}c{c + 1}" for r in (1, 2, 3, 4) for c in (1, 3)): "line 1: the sums are 42 in all; "
                "all digits of the Sudoku are 40",
            },
        )
        with self.assertRaises(TableFault):
            make.sudoku.problem("." * 81, cages="aabb\naabb\nccdd\nccdd\n\na=10 b=10 c=10 d=10\n")


def fours():
    """All Sudokus of 4 rows, as 16 digits each, by rows that fit each other."""
    rows = list(map("".join, itertools.permutations("1234")))
    halves = [a + b for a in rows for b in rows if len(set(a[:2] + b[:2])) == len(set(a[2:] + b[2:])) == 4]
    for upper, lower in itertools.product(halves, repeat=2):
        if all(len({upper[c], upper[c + 4], lower[c], lower[c + 4]}) == 4 for c in range(4)):
            yield upper + lower


if __name__ == "__main__":
    unittest.main()

"""Word searches: words in all directions, what is refused, and letters that are drawn for free squares."""

import itertools
import re

from folders import InFolder
from test_commands import run

from helgrothy import Problem, TableFault, make
from helgrothy.make import wordsearch

WORDS = "dancing links exact cover item option primary secondary purify tweak spacer"
WAYS = [(down, right) for down in (-1, 0, 1) for right in (-1, 0, 1) if down or right]

BAD = (
    ("", None, "line 1: no words"),
    ("tea a", None, "line 1: a: a word has two letters or more, and nothing else"),
    ("tea\no'neill", None, "line 2: o'neill: a word has two letters or more, and nothing else"),
    ("tea\ncup\nTea", None, "line 3: Tea: the word is in line 1 already"),
    ("w" * 33, None, f"line 1: {'w' * 33}: a word has at most 32 bytes"),
    ("tea\ncoffee", "4x5", "line 2: COFFEE: it fits nowhere in the grid"),
    ("tea", "0x5", "line 1: 0x5: an empty grid"),
    ("tea", "##\n##\n", "line 1: the grid has no square"),
)


def rows_of(text: str) -> "list[str]":
    return [line.replace(" ", "") for line in text.splitlines()]


def times(word: str, rows: "list[str]") -> int:
    """In how many rows of squares a word is written in a grid; one that is the same backwards counts once."""
    found = set()
    for r, c in itertools.product(range(len(rows)), range(len(rows[0]))):
        for down, right in WAYS:
            squares = [(r + k * down, c + k * right) for k in range(len(word))]
            if all(0 <= y < len(rows) and 0 <= x < len(rows[0]) and rows[y][x] == mark for (y, x), mark in zip(squares, word)):
                found.add(frozenset(squares))
    return len(found)


class WordSearches(InFolder):
    def test_how_many(self):
        # A word of two letters in a square of two: along each of four sides and two diagonals, either way.
        self.assertEqual(make.wordsearch.problem("ab", "2x2").count(), 12)
        self.assertEqual(make.wordsearch.problem("aa", "2x2").count(), 6)
        self.assertEqual(make.wordsearch.problem("ab", "2x2", forwards=True).count(), 2 + 2 + 2)
        self.assertEqual(make.wordsearch.problem("ab ba", "1x2").count(), 2)
        self.assertEqual(make.wordsearch.problem("ab cd", "1x3").count(), 0)
        self.assertEqual(make.wordsearch.problem("ab", "b.\n.#\n").count(), 4)
        crossed = make.wordsearch.problem("ab bc", "1x3")
        self.assertEqual({str(crossed.draw(one)) for one in crossed.solve()}, {"A B C\n", "C B A\n"})

    def test_each_word_is_there(self):
        words = WORDS.upper().split()
        for grid, forwards in ((None, False), ("9x12", False), ("13x13", True)):
            problem = make.wordsearch.problem(WORDS, grid, forwards=forwards)
            self.assertEqual(problem.kind, 2)
            again = Problem.parse(problem.text)
            picture = str(again.draw(next(again.solve())))
            self.assertEqual(picture, str(problem.draw(next(problem.solve()))))
            self.assertTrue(all(times(word, rows_of(picture)) == 1 for word in words))

    def test_filled(self):
        words = WORDS.upper().split()
        board = make.wordsearch.problem(WORDS, "10x10", fill=4)
        rows = rows_of(str(board.draw(next(board.solve()))))
        self.assertTrue(all(re.match("[A-Z]{10}$", row) for row in rows))
        self.assertTrue(all(times(word, rows) == 1 for word in words))
        self.assertEqual(rows, rows_of(str(board.draw(next(board.solve())))))
        # With two letters each one would make the word once more.
        self.assertEqual(wordsearch.filled({(1, 1): "A", (1, 2): "B", (1, 3): ""}, ["AB", "BA"], 1)[1, 3], "B")
        free = wordsearch.filled({(1, 1): "A", (1, 2): "A", (1, 3): ""}, ["AA"], 1)
        self.assertRegex(free[1, 3], "[B-Z]$")
        for words in ("ab", "aa", "ab ba", "\u0430\u0431"):
            tiny = make.wordsearch.problem(words, "4x4", fill=2)
            rows = rows_of(str(tiny.draw(next(tiny.solve()))))
            self.assertTrue(all(len(row) == 4 and row.isalpha() for row in rows), rows)

    def test_commands(self):
        path = self.file("words.txt", WORDS)
        status, text, messages = run("wordsearch", path, "12x12", "--shuffle", "3", "--fill", "3")
        self.assertEqual((status, len(rows_of(text)), messages), (0, 12, "Altogether 1 solution (limit).\n"))
        self.assertNotIn(".", text)
        made = self.file("w.dlx", run("make", "wordsearch", path, "12x12", "--fill", "3")[1])
        self.assertNotIn(".", run("solve", made)[1])
        self.assertIn(".", run("wordsearch", path, "12x12")[1])
        self.assertTrue(run("wordsearch", path, "--svg")[1].startswith("<svg"))

    def test_bad_lists(self):
        for words, grid, sentence in BAD:
            with self.subTest(words=words, grid=grid), self.assertRaises(TableFault) as raised:
                make.wordsearch.problem(words, grid)
            self.assertEqual(str(raised.exception), sentence)

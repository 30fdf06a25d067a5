"""Sudokus with diagonals."""

import itertools

from folders import InFolder
from test_commands import run

from helgrothy import Problem, make


class Diagonals(InFolder):
    def test_diagonals(self):
        # Of the 288 Sudokus of four rows (OEIS A107739) those with all digits on both diagonals, by trying all.
        known = [
            rows
            for rows in itertools.product(itertools.permutations("1234"), repeat=4)
            if all(len({row[c] for row in rows}) == 4 for c in range(4))
            and all(len({rows[r + y][c + x] for y in (0, 1) for x in (0, 1)}) == 4 for r in (0, 2) for c in (0, 2))
            and len({rows[k][k] for k in range(4)}) == len({rows[k][3 - k] for k in range(4)}) == 4
        ]
        problem = make.sudoku.problem("." * 16, diagonals=True)
        self.assertEqual(problem.count(), len(known))
        again = Problem.parse(problem.text)
        self.assertEqual(str(again.draw(next(again.solve()))), str(problem.draw(next(problem.solve()))))
        self.assertIn("#eceadf", problem.draw().svg())

    def test_with_cages(self):
        cages = self.file("c.txt", "3 r1c1 r1c2\n7 r1c3 r1c4\n")
        plain, crossed = (run("sudoku", "." * 16, "--cages", cages, *more, "--count")[1] for more in ((), ("--diagonals",)))
        self.assertLess(0, int(crossed))
        self.assertLess(int(crossed), int(plain))
        status, text, _ = run("minimal", "sudoku", "." * 16, "--diagonals")
        self.assertEqual(status, 0)
        self.assertEqual(make.sudoku.problem(text, diagonals=True).count(), 1)

"""Pieces that are left over, that are alike, and that have no names."""

from folders import InFolder
from test_commands import run

from helgrothy import Problem, make
from helgrothy.draw import Pattern


class Pieces(InFolder):
    def test_some(self):
        self.assertEqual(make.polyominoes.problem("I\n\nDD\n", "1x2", some=True).count(), 1)
        self.assertEqual(make.polyominoes.problem("I\n\nI\n\nDD\n", "1x2", some=True).count(), 1 + 1)
        five = make.polyominoes.problem("pentominoes", "5x5", some=True)
        self.assertEqual(sorted(map(len, next(five.solve()))), [6] * 5)
        pieces = self.file("p.txt", "IIII\n\nIIII\n\nOO\nOO\n\nOO\nOO\n")
        self.assertEqual(run("polyominoes", pieces, "2x4", "--some", "--all")[2], "Altogether 2 solutions.\n")

    def test_squares_that_are_too_few_or_too_many(self):
        """That is reported first: of pieces of several sizes the sums don't show it."""
        pieces = self.file("p.txt", "IIII\n\nIIII\n\nOOO\nOO\n")
        for region, words, wanted in (
            ("2x7", [], "The pieces have 13 squares, and the region has 14.\n"),
            ("2x7", ["--some"], "The pieces have 13 squares, and the region has 14.\n"),
            ("3x4", [], "The pieces have 13 squares, and the region has 12; --some lets pieces be left over.\n"),
            ("3x4", ["--some"], ""),
            ("1x13", [], ""),
        ):
            self.assertEqual(run("make", "polyominoes", pieces, region, *words)[2], wanted)
        self.assertTrue(run("polyominoes", pieces, "2x7")[2].startswith("The pieces have 13 squares"))

    def test_pieces_that_are_alike(self):
        wanted = "Pieces C and G are alike: each solution comes with them exchanged too; give them one letter.\n"
        pieces = self.file("p.txt", "CCC\nC..\n\n..G\nGGG\n")
        self.assertEqual(run("polyominoes", pieces, "2x4", "--all")[2], wanted + "Altogether 4 solutions.\n")
        self.assertEqual(run("make", "polyominoes", pieces, "2x4")[2], wanted)
        # Without mirrors they are two.
        self.assertEqual(run("make", "polyominoes", self.file("q.txt", "CCC\nC..\n\nGGG\n..G\n"), "2x4", "--no-mirrors")[2], "")
        self.assertEqual(run("make", "polyominoes", "pentominoes", "6x10")[2], "")
        cubes = self.file("c.txt", "CC\nC.\n\nGG\n.G\n")
        self.assertEqual(run("make", "polycubes", cubes, "1x2x3")[2], wanted)

    def test_pieces_without_names_are_coloured_as_maps(self):
        cells = [(r, c) for r in range(4) for c in range(4)]
        pairs = [((r, c), (r + down, c + 1 - down)) for r, c in cells for down in (0, 1)]
        problem = Problem(cells, options=[pair for pair in pairs if max(pair[1]) < 4])
        pattern = Pattern(r"(\d),(\d)")
        for solution in problem.solve():
            drawn = problem.draw(solution, pattern).cells
            for (r, c), cell in drawn.items():
                for beside in ((r + 1, c), (r, c + 1)):
                    other = drawn.get(beside, cell)
                    same = cell.group == other.group
                    self.assertEqual((cell.label == other.label, cell.fill == other.fill), (same, same))
            self.assertLessEqual(set("".join(str(problem.draw(solution, pattern)).split())), set("ABCD"))
        # Options of single cells stay stars, and so do those that lie over each other.
        single = Problem(cells, options=[[cell] for cell in cells])
        self.assertEqual(str(single.draw(single.options[:1], pattern))[:7], "* . . .")
        self.assertEqual(str(problem.draw(problem.options[:2], pattern))[:7], "* * . .")

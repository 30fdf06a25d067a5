"""Polyhexes and polyiamonds: known numbers of pieces and of solutions, pictures, and bad pictures."""

import unittest

from folders import InFolder
from test_commands import run

from helgrothy import NoPicture, Problem, TableFault, make
from helgrothy.draw._grids import HEX, TRIANGLE
from helgrothy.make import polyforms

# A hexagon of 24 triangles, and one of 7 hexagons without the middle.
HEXAGON = "  .....\n .......\n .......\n  .....\n"
RING = " . .\n. # .\n . .\n"
LOZENGES = "\n\n".join(["DD"] * 12)

# Bad pieces and regions, each with the sentence that says what is wrong.
BAD = (
    ("tetrahexes", "4x7", ["--grid", "triangle"], "tetrahexes are pieces of the grid hex"),
    ("A\n", "1x1", [], "pieces of your own have a grid: --grid hex or --grid triangle"),
    ("A\n", "1x1", ["--grid", "hex", "--one-sided"], "--one-sided is of sets with a name: draw both images, and give --no-mirrors"),
    ("A B\n", "1x2", ["--grid", "hex"], "line 1: A B: a piece is drawn by one letter"),
    ("\n A A\nA\n\nB   B\n", "1x2", ["--grid", "hex"], "line 5: B: a piece whose hexagons don't hang together"),
    ("A.A\n", "1x2", ["--grid", "triangle"], "line 1: A: a piece whose triangles don't hang together"),
    ("AA\n", "1x2", ["--grid", "hex"], "line 1: A: a hexagon that doesn't lie half of one beside those of the next row, with a blank between two"),
    ("A A\nA A\n", "1x2", ["--grid", "hex"], "line 2: A: a hexagon that doesn't lie half of one beside those of the next row, with a blank between two"),
    ("tetrahexes", "0x7", [], "line 1: 0x7: an empty region"),
    ("hexiamonds", "300x300", [], "the problem would have 180000 items, and may have 100000"),
    ("hexiamonds", "\n # #\n", [], "line 1: the region has no cell"),
    ("hexiamonds", "6*6", [], "6*6: neither ROWSxCOLUMNS nor a file"),
    ("hexiamond", "6x6", [], "hexiamond: neither a set of pieces nor a file (is it hexiamonds or heptiamonds or tetriamonds?)"),
    ("hexiamonds", "6x6", ["--copies", "I"], "I: how often a piece is there is written as C=2"),
    ("tetrahexes", "4x7", ["--copies", "I=1,Q=2"], "Q: no such piece (there are I, J, O, P, S, U and Y)"),
    ("tetrahexes", "4x7", ["--copies", "I=0 J=0 O=0 P=0 S=0 U=0 Y=0"], "no piece is left"),
)


def solutions(*words, **more):
    return make.polyforms.problem(*words, **more).count()


class Polyforms(InFolder):
    def test_known_numbers_of_pieces(self):
        """OEIS A000228 and A000577, and where mirror images are two A006535 and A006534."""
        for grid, free, sided in (
            (HEX, [1, 1, 3, 7, 22], [1, 1, 3, 10, 33]),
            (TRIANGLE, [1, 1, 1, 3, 4, 12, 24], [1, 1, 1, 4, 6, 19, 43]),
        ):
            for size, (count, one_sided) in enumerate(zip(free, sided), 1):
                forms = polyforms._free(grid, size)
                self.assertEqual(len(forms), count)
                mirrored = {image for form in forms for image in grid.images(form)}
                self.assertEqual(len({grid.images(form, mirrors=False)[0] for form in mirrored}), one_sided)
                names = [name for name, known in polyforms.SETS.items() if known == (grid, size)]
                for name in names:
                    for is_sided, known in ((False, count), (True, one_sided)):
                        held = [(letter, form) for _, letter, form in polyforms._set(name, is_sided)]
                        self.assertEqual(len({letter for letter, _ in held}), known)
                        self.assertEqual(len({grid.images(form, mirrors=not is_sided)[0] for _, form in held}), known)

    def test_known_numbers_of_solutions(self):
        """18 = 2 x 9 and 624 = 4 x 156, which a program of another hand gave too; lozenges by MacMahon's formula."""
        self.assertEqual(solutions("tetrahexes", "4x7"), 18)
        self.assertEqual(solutions("hexiamonds", "6x6"), 624)
        self.assertEqual(solutions(LOZENGES, HEXAGON, grid="triangle"), 20)
        self.assertEqual(solutions("D D\n\nD D\n\nD D", RING, grid="hex"), 2)
        # Two rows of hexagons are a strip in which each one is beside the two before: Fibonacci's numbers.
        self.assertEqual([solutions("\n\n".join(["D D"] * n), f"2x{n}", grid="hex") for n in (1, 2, 3, 4)], [1, 2, 3, 5])

    def test_up_to_symmetry(self):
        for words, wanted in (
            (("tetrahexes", "4x7"), "9 solutions up to 2 symmetries"),
            (("hexiamonds", "6x6"), "156 solutions up to 4 symmetries"),
            ((self.file("h", "D D\n\nD D\n\nD D"), self.file("r", RING), "--grid", "hex"), "1 solution up to 12 symmetries"),
        ):
            status, _, got = run("polyforms", *words, "--up-to-symmetry", "--all", "--json")
            self.assertEqual((status, got), (0, f"Altogether {wanted}.\n"))

    def test_pieces_may_be_turned_and_mirrored_or_not(self):
        crook = ".JJ\n..JJJ\n...J\n"
        for more, images in (({}, 12), ({"mirrors": False}, 6), ({"turns": False}, 2), ({"mirrors": False, "turns": False}, 1)):
            given = make.polyforms.problem(crook, "5x5", grid="triangle", some=True, **more)
            cells = [[tuple(map(int, name[1:].split("c"))) for name in option[1:]] for option in given.options]
            self.assertEqual(len(set(map(TRIANGLE.form, cells))), images)
        # A triangle that isn't turned lies on half of the cells.
        self.assertEqual(len(make.polyforms.problem("A", "3x3", grid="triangle", some=True).options), 18)
        self.assertEqual(len(make.polyforms.problem("A", "3x3", grid="triangle", some=True, turns=False).options), 9)

    def test_copies(self):
        self.assertEqual(solutions("tetrahexes", "2x2", copies="I=0,J=0,P=0,S=0,U=0,Y=0"), 1)
        box = make.polyforms.problem("tetrahexes", "4x4", copies="O=4 I=0 J=0 P=0 S=0 U=0 Y=0")
        self.assertEqual([bounds.high for bounds in list(box.items.values())[:2]], [4, 1])
        same = make.polyforms.problem("\n\n".join(["O O\n O O"] * 4), "4x4", grid="hex")
        self.assertEqual(box.count(), same.count())
        self.assertEqual(run("make", "polyforms", "hexiamonds", "6x5")[2].split(";")[0], "The pieces have 72 triangles, and the region has 60")

    def test_one_sided(self):
        problem = make.polyforms.problem("tetrahexes", "4x10", one_sided=True)
        self.assertEqual("".join(problem.item_names[:10]), "IJjOPpSsUY")
        self.assertEqual(len(next(problem.solve())), 10)

    def test_text_and_picture(self):
        for pieces, region, blank in (
            ("tetrahexes", "4x7", ". . . . . . .\n . . . . . . .\n  . . . . . . .\n   . . . . . . .\n"),
            ("hexiamonds", "2x3", "......\n ......\n"),
            ("hexiamonds", HEXAGON, HEXAGON[1:].replace("\n ", "\n")),
        ):
            problem = make.polyforms.problem(pieces, region, some=True)
            self.assertEqual(str(problem.draw()), blank)
            again = Problem.parse(problem.text)
            self.assertEqual((again.text, str(again.draw())), (problem.text, blank))
        self.assertEqual(run("polyforms", "tetrahexes", "4x7")[1], "I I I I Y U U\n J S Y Y U P U\n  J S S Y P O O\n   J J S P P O O\n")
        with self.assertRaises(NoPicture):
            Problem.parse("| helgrothy make polyforms PIECES REGION\nA r1c1\nA r1c1\n").draw()
        # A far larger picture than there are cells isn't made.
        self.assertEqual(len(make.polyforms.problem("A", "1200x1", grid="hex", some=True).comments), 2)

    def test_a_picture_that_hangs_together_only_the_other_way(self):
        sphinx = make.polyforms.problem(" P\nPPPPP", "##P\n#PPPPP", grid="triangle")
        self.assertEqual(sphinx.count(), 1)

    def test_which_triangles_of_a_region_point_up(self):
        wide = "   .........\n  ...........\n ....#####....\n....#######....\n....#######....\n ....#####....\n  ...........\n   .........\n"
        for region in (wide, "\n".join(f" {line}" for line in wide.splitlines())):
            path = self.file("region", region)
            messages = run("polyforms", self.file("p", "\n\n".join(["DD"] * 36)), path, "--grid", "triangle", "--up-to-symmetry")[2]
            self.assertEqual(messages, "Altogether 1 solution up to 12 symmetries (limit).\n")
        one = make.polyforms.problem("hexiamonds", "...\n...", some=True)
        self.assertEqual([option[0] for option in one.options], ["O"])
        for region in ("v..\n...", "...\n.v.", "v^v\n^v^"):
            self.assertEqual([option[0] for option in make.polyforms.problem("hexiamonds", region, some=True).options], ["X"])
        for region in ("v.^\n...", "vv.\n..."):
            with self.assertRaisesRegex(TableFault, "not all can be right"):
                make.polyforms.problem("hexiamonds", region)

    def test_commands(self):
        self.assertEqual(run("polyforms", "hexiamonds", "6x6", "--count")[1], "624\n")
        self.assertEqual(run("polyforms", "hexiamonds", "6x6", "--random", "--seed", "1")[2], "This is number 138 of 624 solutions.\n")
        self.assertIn("<title>a tiling by polyiamonds</title>", run("polyforms", "hexiamonds", "6x6", "--svg")[1])
        made = run("make", "polyforms", "tetrahexes", "4x7")[1]
        self.assertEqual(made, make.polyforms.problem("tetrahexes", "4x7").text)
        self.assertEqual(run("export", "cnf", given=made)[0], 0)
        pieces, region = self.file("p", "D D\n\nE\n E\n\nF F\n"), self.file("r", RING)
        self.assertEqual(run("polyforms", pieces, region, "--grid", "hex", "--some", "--limit", "1")[0], 0)

    def test_bad_pictures(self):
        for number, (pieces, region, words, sentence) in enumerate(BAD):
            with self.subTest(pieces=pieces, region=region):
                given = [self.file(f"p{number}", pieces) if "\n" in pieces else pieces]
                given.append(self.file(f"r{number}", region) if "\n" in region else region)
                self.assertEqual(run("polyforms", *given, *words), (2, "", f"helgrothy: {sentence}\n"))


if __name__ == "__main__":
    unittest.main()

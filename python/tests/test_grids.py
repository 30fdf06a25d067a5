"""Boards of hexagons and triangles: their motions, pictures by patterns, and solutions up to symmetry."""

import random
import unittest
import xml.etree.ElementTree as ElementTree

from folders import InFolder
from test_commands import run

from helgrothy import NoPicture, Problem, symmetry
from helgrothy.draw import Pattern
from helgrothy.draw._grids import HEX, TRIANGLE
from helgrothy.draw._turns import symmetries

CELL = r"r(\d+)c(\d+)"
# A hexagon of seven hexagons, and one of six triangles.
SEVEN = [(1, 2), (1, 3), (2, 1), (2, 2), (2, 3), (3, 1), (3, 2)]
SIX = [(1, 1), (1, 2), (1, 3), (2, 1), (2, 2), (2, 3)]


def name(cell):
    return "r{}c{}".format(*cell)


def pairs(grid, cells):
    """All ways to lay a piece of two cells."""
    return [(a, b) for a in cells for b in grid.beside(a) if b in cells and a < b]


def text(grid, cells):
    """The problem to fill a region by pieces of two cells."""
    lines = [" ".join(map(name, cells)), *(f"{name(a)} {name(b)}" for a, b in pairs(grid, cells))]
    return "".join(f"{line}\n" for line in lines)


class Motions(unittest.TestCase):
    def test_there_are_twelve(self):
        for grid, cells in ((HEX, SEVEN), (TRIANGLE, SIX)):
            self.assertEqual(len(set(grid.motions)), 12)
            self.assertEqual(sum(motion.is_turn for motion in grid.motions), 6)
            self.assertEqual(grid.motions[0].of((3, 5)), (3, 5))
            found = symmetries(map(grid.point, cells), ways=grid.motions)
            self.assertEqual(len(found), 12)
            self.assertEqual(len(symmetries(map(grid.point, cells), False, grid.motions)), 6)
            # Neighbours stay neighbours.
            for symmetry_of in found:
                for a, b in pairs(grid, cells):
                    other = grid.place(symmetry_of[grid.point(a)])
                    self.assertIn(grid.place(symmetry_of[grid.point(b)]), grid.beside(other))

    def test_points_and_places(self):
        for place in ((r, c) for r in range(-3, 4) for c in range(-5, 6)):
            self.assertEqual(TRIANGLE.place(TRIANGLE.point(place)), place)
            for grid in (HEX, TRIANGLE):
                self.assertTrue(all(place in grid.beside(other) for other in grid.beside(place)))


class Drawing(InFolder):
    def test_text_and_svg(self):
        given = text(HEX, [*SEVEN[:3], *SEVEN[4:]])
        status, printed, _ = run("solve", "--cell", CELL, "--grid", "hex", "--all", given=given)
        self.assertEqual((status, printed), (0, " A A\nB   C\n B C\n\n A B\nA   B\n C C\n"))
        status, printed, _ = run("solve", "--cell", CELL, "--grid", "triangle", "--all", given=text(TRIANGLE, SIX))
        self.assertEqual((status, printed), (0, "AAB\nCCB\n\nABB\nACC\n"))
        for grid, cells, corners in (("hex", [*SEVEN[:3], *SEVEN[4:]], 6), ("triangle", SIX, 3)):
            given = text(HEX if grid == "hex" else TRIANGLE, cells)
            svg = run("solve", "--cell", CELL, "--grid", grid, "--svg", given=given)[1]
            paths = [it.attrib for it in ElementTree.fromstring(svg) if it.tag.endswith("path")]
            filled = [it["d"] for it in paths if it["fill"] != "none"]
            self.assertEqual(sum(path.count("M") for path in filled), 6)
            self.assertEqual(sum(path.count("L") for path in filled), 6 * (corners - 1))
            # Of the six sides in the ring that two cells share, three are within a piece.
            (thick,) = [it["d"] for it in paths if it["fill"] == "none"]
            self.assertEqual(thick.count("M"), 6 * corners - 6 - 3)
            self.assertIn('"picture"', run("solve", "--cell", CELL, "--grid", grid, "--html", given=given)[1])

    def test_draw(self):
        path = self.file("p.dlx", text(HEX, SEVEN[:2]))
        listing = "1:\n r1c2 r1c3 (1 of 1)\n"
        self.assertEqual(run("draw", path, "--cell", CELL, "--grid", "hex", given=listing)[:2], (0, "A A\n"))

    def test_long_labels(self):
        problem = Problem.parse("r1c1 r1c2 r2c1\nr1c1 ten r1c2\nr2c1\n".replace("r1c1 r1c2 r2c1\n", "r1c1 r1c2 r2c1 | ten\n"))
        drawn = {grid: str(problem.draw(problem.options[:1], Pattern(CELL, "ten", grid))) for grid in ("hex", "triangle")}
        self.assertEqual(drawn, {"hex": "ten ten\n  .\n", "triangle": "ten ten\n.\n"})

    def test_coordinates_from_the_middle(self):
        """Axial coordinates of a hexagon often have its middle at 0."""
        around = HEX.beside((0, 0))
        lines = [" ".join(f"q{c}r{r}" for r, c in around)]
        lines += [f"q{a[1]}r{a[0]} q{b[1]}r{b[0]}" for a, b in pairs(HEX, around)]
        words = ("solve", "--cell", r"q(?P<column>-?\d)r(?P<row>-?\d)", "--grid", "hex", "--up-to-symmetry", "--all")
        done = run(*words, given="".join(f"{line}\n" for line in lines))
        self.assertEqual(done, (0, " A B\nA   B\n C C\n", "Altogether 1 solution up to 12 symmetries.\n"))

    def test_halves_of_a_rhombus(self):
        """By the names that people give them; the picture is the same."""
        lozenge = "r1c1u r1c1d r1c2u r1c2d\nr1c1u r1c1d\nr1c2u r1c2d\nr1c1d r1c2u\n"
        for words in (lozenge, lozenge.replace("u", "0").replace("d", "1")):
            for pattern in (r"r(\d)c(\d)([ud01])", r"r(?P<row>\d)c(?P<column>\d)(?P<half>[ud01])"):
                got = run("solve", "--cell", pattern, "--grid", "triangle", given=words)
                self.assertEqual(got[:2], (0, "AABB\n"))
        messages = run("solve", "--cell", r"r(\d)c(\d)([xu])", "--grid", "triangle", given="r1c1x\nr1c1x\n")[2]
        self.assertEqual(messages, "helgrothy: x: a triangle is half 0 (or u) or half 1 (or d) of a rhombus\n")
        messages = run("solve", "--up-to-symmetry", "--cell", r"r(\d)c(\d)(\d)", "--grid", "hex", given="r1c1x r1c11\nr1c11\n")[2]
        self.assertEqual(messages, "helgrothy: a cell of the grid hex has a row and a column, and this one 3 numbers\n")

    def test_faults(self):
        given = "r1c1\nr1c1\n"
        self.assertEqual(run("solve", "--grid", "hex", given=given)[2], "helgrothy: --grid is of the cells of --cell\n")
        self.assertIn("no such grid (is it hex?)", run("solve", "--cell", CELL, "--grid", "hexa", given=given)[2])
        for grid in ("cubes", ""):
            with self.assertRaises(NoPicture):
                Pattern(CELL, grid=grid).of(Problem.parse(given))
            with self.assertRaises(NoPicture):
                symmetry.motions(Problem.parse(given), CELL, grid)
        # A slanting picture far larger than its cells.
        far = Problem([f"r{r}c1" for r in range(1, 2001)], options=[[f"r{r}c1"] for r in range(1, 2001)])
        with self.assertRaises(NoPicture):
            far.draw([], Pattern(CELL, grid="hex"))


class Chances(unittest.TestCase):
    def test_cells_in_one_piece(self):
        ring = text(HEX, [*SEVEN[:3], *SEVEN[4:]])
        words = ("solve", "--cell", CELL, "--chances", "--grid")
        wanted = "    o  50   o\n 50          50\no               o\n 50          50\n    o  50   o\n"
        self.assertEqual(run(*words, "hex", given=ring)[1], wanted)
        self.assertEqual(run(*words, "triangle", given=text(TRIANGLE, SIX))[1], " o 50  o 50  o\n50          50\n o 50  o 50  o\n")
        svg = run(*words, "hex", "--svg", given=ring)[1]
        self.assertEqual((svg.count('stroke-opacity="0.50"'), svg.count(">50</text>")), (6, 6))
        self.assertEqual(run("polyforms", "tetrahexes", "4x7", "--chances")[1].count("o"), 28)

    def test_labels(self):
        given = "r1c1 r1c2 r2c1 a b\n"
        given += "".join(f"{cell} {name}\n" for cell in ("r1c1", "r1c2") for name in "ab") + "r2c1\n"
        words = ("solve", "--cell", CELL, "--label", "[ab]", "--grid", "hex", "--chances")
        status, printed, _ = run(*words, given=given)
        self.assertEqual((status, printed.split()), (0, ["a", "50%", "a", "50%", "*"]))
        self.assertEqual(run(*words, "--svg", given=given)[1].count(">a 50%</text>"), 2)


class UpToSymmetry(unittest.TestCase):
    def test_one_of_each_set(self):
        """Against images of whole solutions, on regions with and without symmetries."""
        rng = random.Random(5)
        sizes = set()
        for grid, whole in ((HEX, [*SEVEN[:3], *SEVEN[4:]]), (TRIANGLE, SIX)):
            for trial in range(12):
                cells = list(whole)
                while trial and len(cells) < 12:
                    cells.append(rng.choice([cell for at in cells for cell in grid.beside(at) if cell not in cells and min(cell) > 0]))
                problem = Problem.parse(text(grid, sorted(set(cells))))
                plan = symmetry.plan(problem, symmetry.motions(problem, CELL, grid.name))
                sizes.add(len(plan.motions))
                found = [frozenset(one.numbers) for one in symmetry.solve(problem, plan)]
                orbits = {
                    frozenset(frozenset(motion[number] for number in solution.numbers) for motion in plan.motions)
                    for solution in problem.solve()
                }
                self.assertEqual(len(found), len(orbits))
                self.assertTrue(all(sum(one in orbit for one in found) == 1 for orbit in orbits))
        self.assertLessEqual({1, 2, 12}, sizes)

    def test_command(self):
        words = ("solve", "--cell", CELL, "--grid", "triangle", "--up-to-symmetry", "--all")
        got = run(*words, given=text(TRIANGLE, SIX))
        self.assertEqual((got[0], got[2]), (0, "Altogether 1 solution up to 12 symmetries.\n"))
        # As squares they hang together in another way.
        messages = run(*words[:3], *words[5:], given=text(TRIANGLE, SIX))[2]
        self.assertNotIn("12", messages)


if __name__ == "__main__":
    unittest.main()

"""Polycubes: known numbers of pieces and of solutions, pictures, and bad pictures of pieces and boxes."""

import unittest
import xml.etree.ElementTree as ElementTree

from folders import InFolder
from test_commands import run

from helgrothy import NoPicture, Problem, make
from helgrothy.draw._turns import images
from helgrothy.make import polycubes
from helgrothy.make._cubes import SETS

# Bad pieces and boxes, each with the sentence that says what is wrong.
BAD = (
    ("", "1x1x1", "line 1: no piece"),
    ("\n..\n", "1x1x1", "line 2: a piece is drawn by one letter"),
    ("AA\n\nAB\n", "1x2x2", "line 3: A B: a piece is drawn by one letter"),
    ("AA\n\nBB\n\n\nAAA\n", "1x2x4", "line 6: A: the piece of line 1 has this letter, and is another one"),
    ("AA .A\nA.\n", "2x2x2", "line 2: A.: 1 layer, where line 1 has 2"),
    ("BB\n\nA. .A\n", "2x2x1", "line 3: A: a piece whose cubes don't hang together"),
    ("AA\n", "1x1x3", "the pieces have 2 cubes, and there are 3 cells to be filled"),
    ("AA\n\nAA\n", "1x1x3", "the pieces have 4 cubes, and there are 3 cells to be filled; --some lets pieces be left over"),
    ("B\n\nAAA\n", "1x2x2", "line 3: A: this piece fits nowhere"),
    ("soma", "3x3", "line 1: 3x3: a box has three numbers: LAYERSxROWSxCOLUMNS"),
    ("soma", "3x3x3x3", "line 1: 3x3x3x3: a box has three numbers: LAYERSxROWSxCOLUMNS"),
    ("soma", "27", "line 1: 27: a box has three numbers: LAYERSxROWSxCOLUMNS"),
    ("soma", "3x0x3", "line 1: 3x0x3: an empty box"),
    ("soma", "99x99x99", "the problem would have 970299 items, and may have 100000"),
    ("soma", "\n\n", "line 1: an empty picture"),
    ("soma", "\n## ##\n", "line 2: the region has no cell"),
    ("soma", "... ...\n... ... ...\n", "line 2: ... ... ...: 3 layers, where line 1 has 2"),
    ("soma", "2x4x4", "the pieces have 27 cubes, and there are 32 cells to be filled"),
)


class Polycubes(InFolder):
    def test_known_numbers_of_pieces(self):
        """8 tetracubes and 29 pentacubes where mirror images are two (OEIS A000162), 7 and 23 else (A038119)."""
        for name, size, count, mirrored in (("tetracubes", 4, 8, 7), ("pentacubes", 5, 29, 23), ("soma", None, 7, 6)):
            forms = [form for _, _, form in polycubes._pieces(SETS[name])]
            self.assertEqual({len(form) for form in forms} - {size or 3, size or 4}, set())
            self.assertEqual(len({images(form, mirrors=False)[0] for form in forms}), count)
            self.assertEqual(len({images(form)[0] for form in forms}), mirrored)
            self.assertEqual(len({letter for _, letter, _ in polycubes._pieces(SETS[name])}), count)

    def test_known_numbers_of_solutions(self):
        """Each number is that of the literature times the turns of the box, or its turns and mirror images.

        The Soma cube: 240 and 48 images each (Conway and Guy 1961). The eight tetracubes: 1390 and 224, with 8 turns
        each. The twelve pentominoes: 12 and 264, with 8 images each (Bouwkamp 1969); 3x4x5, 3940, takes longer.
        """
        for pieces, box, known in (
            ("soma", "3x3x3", 240 * 48),
            ("tetracubes", "2x4x4", 1390 * 8),
            ("tetracubes", "2x2x8", 224 * 8),
            ("pentominoes", "2x3x10", 12 * 8),
            ("pentominoes", "10x3x2", 12 * 8),
        ):
            with self.subTest(pieces=pieces, box=box):
                self.assertEqual(make.polycubes.problem(pieces, box).count(), known)

    def test_pieces_that_are_there_more_often(self):
        """Slothouber and Graatsma: six 1x2x2 and three cubes have one solution; it has 6 of the 48 motions of the box."""
        graatsma = "\n\n".join(["AA\nAA"] * 6 + ["B"] * 3)
        self.assertEqual(make.polycubes.problem(graatsma).count(), 48 // 6)
        # Dominoes in 2x2x2 and 2x2x3 (OEIS A006253).
        self.assertEqual(make.polycubes.problem("\n\n".join(["D D"] * 4), "2x2x2").count(), 9)
        self.assertEqual(make.polycubes.problem("\n\n".join(["DD"] * 6), "2x2x3").count(), 32)
        # Some of them: ten dominoes are as good as six.
        self.assertEqual(make.polycubes.problem("\n\n".join(["DD"] * 10), "2x2x3", some=True).count(), 32)

    def test_up_to_symmetry(self):
        """The numbers of the literature themselves, and one solution of Slothouber and Graatsma's puzzle."""
        graatsma = self.file("graatsma", "\n\n".join(["AA\nAA"] * 6 + ["B"] * 3))
        for pieces, box, known in (
            ("soma", "3x3x3", "240 solutions up to 48 symmetries"),
            ("pentominoes", "2x3x10", "12 solutions up to 8 symmetries"),
            (graatsma, "3x3x3", "1 solution up to 48 symmetries"),
        ):
            with self.subTest(pieces=pieces):
                status, _, messages = run("polycubes", pieces, box, "--up-to-symmetry", "--all")
                self.assertEqual((status, messages), (0, f"Altogether {known}.\n"))

    def test_some_and_mirrors(self):
        # Any 2 of the 8 tetracubes fill 2x2x2: counted by trying all pairs.
        pieces = SETS["tetracubes"].split("\n\n")
        pairs = [f"{a}\n\n{b}" for n, a in enumerate(pieces) for b in pieces[:n]]
        tried = 0
        for pair in pairs:
            try:
                tried += make.polycubes.problem(pair, "2x2x2").count()
            except ValueError as error:
                self.assertIn("fits nowhere", str(error))
        self.assertEqual(make.polycubes.problem("tetracubes", "2x2x2", some=True).count(), tried)
        screw = "AA .A\nA. ..\n\nAA .A\nA. ..\n"
        self.assertEqual(make.polycubes.problem(screw, "2x2x2").count(), 12 // 2)
        # One screw and its mirror image don't fill the cube, so mirror images add 12 placements and 6 solutions.
        self.assertEqual(make.polycubes.problem(screw, "2x2x2", mirrors=True).count(), 12)

    def test_regions(self):
        # A ring of eight cells in one layer, and the same upright.
        self.assertEqual(make.polycubes.problem("\n\n".join(["DD"] * 4), "...\n.#.\n...\n").count(), 2)
        self.assertEqual(make.polycubes.problem("\n\n".join(["DD"] * 4), "... .#. ...\n").count(), 2)

    def test_text_and_picture(self):
        problem = make.polycubes.problem()
        solution = next(problem.solve())
        again = Problem.parse(problem.text)
        self.assertEqual(again.text, problem.text)
        self.assertEqual(str(again.draw(next(again.solve()))), str(problem.draw(solution)))
        self.assertEqual(str(problem.draw()), "... ... ...\n" * 3)
        picture = problem.draw(solution)
        self.assertEqual(str(picture), "VVL AAL TTT\nAVL ABB PTB\nZZL PZZ PPB\n")
        root = ElementTree.fromstring(picture.svg())
        letters = [element.text for element in root if element.tag.endswith("text")]
        # Each piece has its letter in each layer in which it is.
        self.assertEqual(sorted(letters), sorted("VALZ" + "ABLPZ" + "TPB"))
        # 27 faces of the cube and 9 + 3 + 3 of each layer.
        self.assertEqual(sum("stroke-width" in it.attrib and it.get("fill") != "none" for it in root), 27 + 3 * 15)

    def test_holes_are_shown(self):
        problem = make.polycubes.problem("DD\n\nDD\n\nDD\n\nDD\n", "... ###\n.#. ###\n... ###\n\n")
        self.assertEqual(str(problem.draw()), "...\n.#.\n...\n")
        # Of 8 cubes round a hole: 8 faces above, and 3 + 1 in front and to the right, of which one of each is in the hole.
        root = ElementTree.fromstring(problem.draw().svg())
        self.assertEqual(sum("stroke-width" in it.attrib and it.get("fill") != "none" for it in root), 8 + 4 + 4)

    def test_pictures_are_bounded(self):
        far = "| helgrothy make polycubes soma BOX\nA l1r1c1 l99999r1c1\nA l1r1c1 l99999r1c1\n"
        with self.assertRaises(NoPicture):
            Problem.parse(far).draw()
        with self.assertRaises(NoPicture):
            Problem.parse("| helgrothy make polycubes soma BOX\nA B\nA B\n").draw()

    def test_commands(self):
        self.assertEqual(run("polycubes", "soma", "3x3x3")[:2], (0, "VVL AAL TTT\nAVL ABB PTB\nZZL PZZ PPB\n"))
        self.assertEqual(run("polycubes", "soma", "3x3x3", "--limit", "2")[2], "Altogether 2 solutions (limit).\n")
        made = run("make", "polycubes", "pentominoes", "2x3x10")[1]
        self.assertEqual(made, make.polycubes.problem("pentominoes", "2x3x10").text)
        pieces, box = self.file("pieces", "AA\n\nB\n"), self.file("box", ".. #.\n## ##\n")
        self.assertEqual(run("polycubes", pieces, box, "--all")[1], "AA #B\n\nBA #A\n")

    def test_bad_pictures(self):
        for number, (pieces, box, sentence) in enumerate(BAD):
            with self.subTest(pieces=pieces, box=box):
                given = pieces if pieces in SETS else self.file(f"p{number}", pieces)
                words = (given, self.file(f"b{number}", box) if "\n" in box else box)
                self.assertEqual(run("polycubes", *words), (2, "", f"helgrothy: {sentence}\n"))


if __name__ == "__main__":
    unittest.main()

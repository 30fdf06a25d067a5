"""Solutions up to symmetry are as many as are known, and one of each set of images."""

import os
import random
import unittest

from test_commands import run

from helgrothy import NoPicture, OutOfTime, Problem, make, symmetry
from helgrothy.draw._turns import motions

EXAMPLES = os.path.join(os.path.dirname(os.path.dirname(os.path.dirname(os.path.abspath(__file__)))), "examples")
SQUARE, QUEEN = r"r(\d+)c(\d+)", r"r(\d+) c(\d+)"


def plan_of(problem, cell):
    return symmetry.plan(problem, symmetry.motions(problem, cell))


def count(problem, cell):
    stream = symmetry.solve(problem, plan_of(problem, cell))
    found = sum(1 for _ in stream)
    assert (stream.total, stream.complete) == (found, True)
    return found


class Symmetry(unittest.TestCase):
    def test_queens(self):
        # OEIS, A002562.
        wanted = [1, 0, 0, 1, 2, 1, 6, 12, 46]
        self.assertEqual([count(make.queens.problem(size), QUEEN) for size in range(1, 10)], wanted)

    def test_pieces(self):
        # Knuth, The Art of Computer Programming 4B, 7.2.2.1: 2339 boxes of 6 by 10, 2 of 3 by 20.
        for box, images, wanted in (("6x10", 4, 2339), ("3x20", 4, 2)):
            problem = make.polyominoes.problem("pentominoes", box)
            plan = plan_of(problem, SQUARE)
            self.assertEqual((len(plan.motions), {len(own) for own in plan.kept.values()}), (images, {1}))
            self.assertEqual(count(problem, SQUARE), wanted)
        # The Soma cube, 240 ways (Berlekamp, Conway and Guy, Winning Ways): its two screws change places.
        with open(os.path.join(EXAMPLES, "soma.dlx")) as file:
            soma = Problem.parse(file.read())
        self.assertEqual(count(soma, r"(\d)(\d)(\d)"), 240)
        self.assertEqual(count(make.polycubes.problem("soma", "3x3x3"), make.KINDS["polycubes"].cell), 240)

    def test_langford(self):
        # OEIS, A014552.
        self.assertEqual([count(make.langford.problem(pairs), r"s(\d+)") for pairs in (3, 4, 7, 8)], [1, 1, 26, 150])

    def test_one_of_each_set(self):
        """Against images of whole pictures, on regions with and without symmetries and by pieces of all kinds."""
        rng = random.Random(4)
        for _ in range(25):
            region = rng.choice(["...\n...\n...\n", "..\n..\n..\n", "...\n.#.\n...\n", "....\n....\n", ".#\n..\n", ".....\n", ".#.\n...\n"])
            squares = region.count(".")
            pieces = []
            while squares:
                size = min(squares, rng.choice([1, 1, 2, 2, 3]))
                pieces.append(rng.choice({1: ["*"], 2: ["**"], 3: ["***", "**\n*"]}[size]))
                squares -= size
            named = {form: "ABCDE"[k] for k, form in enumerate(dict.fromkeys(pieces))}
            text = "\n\n".join(form.replace("*", named[form]) for form in pieces)
            mirrors = rng.random() < 0.7
            problem = make.polyominoes.problem(text, region, turns=rng.random() < 0.7, mirrors=mirrors)
            plan = plan_of(problem, SQUARE)
            found = [frozenset(one.numbers) for one in symmetry.solve(problem, plan)]
            orbits = {
                frozenset(frozenset(motion[number] for number in solution.numbers) for motion in plan.motions)
                for solution in problem.solve()
            }
            self.assertEqual(len(found), len(orbits))
            for orbit in orbits:
                self.assertEqual(sum(one in orbit for one in found), 1)

    def test_what_is_no_symmetry(self):
        # The motions of a square that take all of the options to options.
        self.assertEqual(len(symmetry.motions(make.polyominoes.problem("LLL\nL\n\nO\n\nO\n", "..\n..\n.."), SQUARE)), 4)
        one_sided = make.polyominoes.problem("LLL\nL\n\nOOO\n", "...\n...\n...", mirrors=False)
        self.assertEqual(len(symmetry.motions(one_sided, SQUARE)), len(motions(2, mirrors=False)))
        # A bound, a colour, or an option that is missing breaks it.
        self.assertEqual(len(symmetry.motions(Problem(["s1", "s2"], options=[["s1"], ["s2"]]), r"s(\d)")), 2)
        self.assertEqual(len(symmetry.motions(Problem({"s1": 1, "s2": (0, 1)}, options=[["s1"], ["s2"]]), r"s(\d)")), 1)
        coloured = Problem(["s1", "s2"], "x", [{"s1": None, "x": "a"}, {"s2": None, "x": "b"}])
        self.assertEqual(len(symmetry.motions(coloured, r"s(\d)")), 2)
        coloured = Problem(["s1", "s2"], "x", [{"s1": None, "x": "a"}, {"s2": None, "x": None}])
        self.assertEqual(len(symmetry.motions(coloured, r"s(\d)")), 1)
        self.assertEqual(len(symmetry.motions(Problem(["s1", "s2", "s3"], options=[["s1"], ["s2", "s3"]]), r"s(\d)")), 1)

    def test_limits(self):
        problem = make.queens.problem(8)
        plan = plan_of(problem, QUEEN)
        stream = symmetry.solve(problem, plan, 5)
        self.assertEqual((sum(1 for _ in stream), stream.total, stream.complete), (5, 5, False))
        self.assertEqual(len(list(symmetry.solve(problem, plan, 9, 3))), 3)
        with self.assertRaises(OutOfTime):
            list(symmetry.solve(make.queens.problem(14), plan_of(make.queens.problem(14), QUEEN), seconds=0.01))

    def test_faults(self):
        for options, cell in (
            ([["s1"], ["s1"]], r"s(\d)"), ([["s1"]], r"t(\d)"), ([["s1"], ["s1", "s2"]], r"s(1)|(s)(2)"), ([["s1"]], r"()s1"),
        ):  # fmt: skip
            with self.subTest(cell=cell), self.assertRaises(NoPicture):
                symmetry.motions(Problem(["s1", "s2"], options=options), cell)
        # By its line, since a command counts options from 1 on, and a caller from 0.
        with self.assertRaisesRegex(NoPicture, "^two options lie in the same cells and are alike: s1 s2$"):
            symmetry.motions(Problem(["s1", "s2"], options=[["s1", "s2"], ["s1", "s2"]]), r"s(\d)")

    def test_command(self):
        status, text, messages = run("queens", "6", "--up-to-symmetry", "--all")
        self.assertEqual((status, text.count("Q"), messages), (0, 6, "Altogether 1 solution up to 8 symmetries.\n"))
        messages = run("queens", "8", "--up-to-symmetry", "--number", "12")[2]
        self.assertEqual(messages, "Altogether 12 solutions up to 8 symmetries (limit).\n")
        messages = run("solve", "--cell", r"s(\d)", "--up-to-symmetry", "--json", given="s1 s2 s3\ns1\ns2 s3\n")[2]
        self.assertEqual(messages, "Altogether 1 solution, and no symmetry of its cells but that of no change (limit).\n")
        done = run("solve", "--up-to-symmetry", given="s1\ns1\n")
        own = "of a problem of your own, --cell says which cells an option has"
        wanted = f"helgrothy: --up-to-symmetry is for boards and boxes; {own}\n"
        self.assertEqual(done, (2, "", wanted))
        self.assertEqual(run("solve", "--up-to-symmetry", "--cell", "(", given="s1\ns1\n")[0], 2)
        self.assertIn("<title>", run("queens", "6", "--up-to-symmetry", "--all", "--html")[1])
        layered = r"(?P<layer>\d)(?P<row>\d)(?P<column>\d)"
        status, text, messages = run("solve", os.path.join(EXAMPLES, "soma.dlx"), "--cell", layered, "--up-to-symmetry")
        self.assertEqual((status, text.count("\n"), messages), (0, 7, "Altogether 1 solution up to 48 symmetries (limit).\n"))


if __name__ == "__main__":
    unittest.main()

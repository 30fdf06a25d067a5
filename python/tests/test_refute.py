"""Proofs and weights that dlx-none judges, by `Problem.refute`."""

import io
import os
import random
import shutil
import subprocess
import unittest
from unittest import mock

from folders import InFolder

from helgrothy import OutOfTime, Problem, ProblemFault, ProgramFailed, ProgramNotFound, make, why
from helgrothy._reason import proofs
from helgrothy._run import programs, refutation

PIGEONS = "a b c | x y\na x\na y\nb x\nb y\nc x\nc y\n"
WEIGHTS = {"a": 1, "b": 1, "c": 1, "x": -1, "y": -1}
# Three queens: wherever the first is the others have no place.
PROOF = "-1 0\n-2 0\n-3 0\n0\n"
PROVED = "no solution, proved: dlx-none has checked a proof by cadical"
SUMS = "no solution, proved: dlx-none has checked the sums"
CADICAL = shutil.which("cadical")


def pigeons() -> "Problem[dict[str, str | None]]":
    return Problem.parse(PIGEONS)


def without_judge():
    """There is no dlx-none meanwhile."""
    real = programs.find

    def find(name: str) -> str:
        if name == "dlx-none":
            raise ProgramNotFound(name)
        return real(name)

    return mock.patch.object(programs, "find", find)


class Judged(InFolder):
    """By calls."""

    def test_weights(self):
        self.assertTrue(pigeons().refute(WEIGHTS))
        for wrong in ({}, {**WEIGHTS, "x": -2}, {"a": 1}, dict.fromkeys("abc", -1)):
            self.assertFalse(pigeons().refute(wrong), wrong)
        with self.assertRaisesRegex(ProblemFault, "item z: unknown item"):
            pigeons().refute({"z": 1})
        with self.assertRaisesRegex(ProgramFailed, "dlx-none ended with status 2: Weights line 1: no weight"):
            pigeons().refute({"a": 10**9})
        self.assertTrue(Problem({("a", 1): 2, None: (1, 3)}, options=[[("a", 1)], [None]]).refute({("a", 1): 1}))

    def test_proofs(self):
        queens = make.queens.problem(3)
        path = self.file("proof", PROOF)
        with open(path) as text, open(path, "rb") as raw:
            for proof in (PROOF, PROOF.encode(), io.StringIO(PROOF), io.BytesIO(PROOF.encode()), text, raw):
                self.assertTrue(queens.refute(proof))
        for wrong in ("", "0\n", PROOF[:5], "hello", b"\xff"):
            self.assertFalse(queens.refute(wrong))
        self.assertFalse(make.queens.problem(4).refute(PROOF))
        self.assertFalse(make.queens.problem(6).refute(PROOF))

    def test_time_and_memory(self):
        for act in (lambda: pigeons().refute("0", seconds=0), lambda: pigeons().clauses(seconds=0)):
            with self.assertRaises(OutOfTime):
                act()
        with mock.patch.object(refutation, "MEMORY", 1 << 25), self.assertRaises(ProgramFailed):
            pigeons().refute("1 " * 10**7 + "0\n0\n")
        self.assertEqual(programs._running, set())

    def test_no_program(self):
        with without_judge():
            for act in (pigeons().clauses, lambda: pigeons().refute(WEIGHTS)):
                with self.assertRaises(ProgramNotFound):
                    act()
            self.assertEqual(list(why.find(pigeons()).lines(pigeons()))[2:], ["without any one of them the others can be held"])

    @unittest.skipUnless(CADICAL, "needs cadical")
    def test_random_problems(self):
        """A proof is right exactly where there is no solution."""
        rng = random.Random(5)
        found = set()
        for _ in range(40):
            items = {name: rng.choice([None, None, 2, (0, 2), (1, 3)]) for name in "abcdef"[: rng.randint(2, 6)]}
            options = []
            for _ in range(rng.randint(2, 12)):
                options.append({name: None for name in items if rng.random() < 0.4} or {"a": None})
                options[-1].update({f"s{k}": rng.choice([None, 1, 2]) for k in range(3) if rng.random() < 0.4})
            problem = Problem(items, True, options)
            clauses, proof = self.file("p.cnf", problem.clauses().decode()), os.path.join(self.folder, "p.drat")
            status = subprocess.run([CADICAL, "-q", clauses, proof], stdout=subprocess.DEVNULL).returncode
            with self.subTest(problem=problem.text), open(proof, "rb") as file:
                is_none = problem.count(limit=1) == 0
                self.assertEqual((status == 20, problem.refute(file), proofs.prove(problem, 300)), (is_none,) * 3)
                found.add(is_none)
        self.assertEqual(found, {True, False})


class Whys(unittest.TestCase):
    """By `why`, which finds weights."""

    def test_sums(self):
        for problem in (pigeons(), Problem("ab", options=["b"]), make.polyominoes.problem("pentominoes", "6x9")):
            conflict = why.find(problem, 600)
            self.assertIn(SUMS, list(conflict.lines(problem)))
            self.assertNotIn(SUMS, list(conflict.lines(problem, is_known=True)))

    def test_words(self):
        """What is proved, and what an engine says that isn't."""
        problem, rest = pigeons(), "dlx1, which would prove it, came to no end in the time"
        for proof, by, is_known, wanted in (
            ("", "dlx1", False, []),
            (PROVED, "clasp", False, [PROVED]),
            (PROVED, "clasp", True, []),
            ("", "clasp", False, [f"no solution, says clasp; {rest}"]),
            ("", "clasp", True, [f"these conflict, says clasp; {rest}"]),
            (SUMS, "clasp", False, [SUMS, f"these conflict, says clasp; {rest}"]),
        ):
            conflict = why.Conflict(["a", "b", "c"], True, by=by, proof=proof)
            self.assertEqual(list(conflict.lines(problem, is_known))[1:-1], wanted)

    def test_sums_that_are_wrong(self):
        self.assertEqual(why._weighed(pigeons(), {**WEIGHTS, "x": -2}, 300), "")


if __name__ == "__main__":
    unittest.main()

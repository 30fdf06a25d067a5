"""Answers of other solvers come back as the solutions that they are."""

import shutil
import subprocess
import unittest
from fractions import Fraction

from folders import InFolder
from test_commands import run

from helgrothy import AnswerFault, Problem, make
from helgrothy.answers import begins, solutions
from helgrothy.export import FORMATS, asp, lp, opb

PAIR = Problem("abc", options=["ab", "c", "a", "bc"])


class Answers(InFolder):
    def read(self, solver, text, problem=PAIR):
        return [found.numbers for found in solutions(solver, problem, text.encode().splitlines(keepends=True))]

    def test_forms(self):
        for solver, text in (
            ("cadical", "c a comment\ns SATISFIABLE\nv 1 2 -3\nv -4 5 -6 0\n"),
            ("cadical", "v 1\nv 2\nv -3 -4 0"),
            ("clasp", "c Answer: 1\nv 1 2 -3 -4 0\ns SATISFIABLE\nc \nc Models : 1+\n"),
            ("clasp", "c Answer: 1\nv x1 x2 -x3\nv -x4\ns SATISFIABLE\n"),
            ("clasp", "o 3\nv x1 x2 -x3 -x4\ns OPTIMUM FOUND\n"),
            ("clasp", "clasp version 3.3.5\nSolving...\nAnswer: 1\nx(2) x(1)\nSATISFIABLE\n\nModels       : 1\nCPU Time     : 0.001s\n"),
            ("clasp", "x(1) x(2)\nSATISFIABLE\n"),
            ("clasp", "% Answer: 1\nANSWER\nx(1). x(2).\n% \n"),
        ):
            with self.subTest(text=text):
                self.assertEqual(self.read(solver, text), [[0, 1]])
        self.assertEqual(self.read("clasp", "v 1 2 -3 -4 0\nc Answer: 2\nv -1 -2 3 4 0\n"), [[0, 1], [2, 3]])
        self.assertEqual(self.read("clasp", "Answer: 1\n\nSATISFIABLE\n", Problem({"a": (0, 1)}, options=["a"])), [[]])
        for text in ("s UNSATISFIABLE\n", "UNSATISFIABLE\n", "INCONSISTENT\n"):
            self.assertEqual(self.read("clasp", text), [])

    def test_programs(self):
        """cbc, glpsol and HiGHS, with what stands around their values."""
        for solver, text in (
            ("cbc", "log\nOptimal - objective value 2.00000000\n      0 x1  1  3\n      1 x2  0.9999999  0\n"),
            ("cbc", "Stopped on time - objective value 2\n** 0 x2  1  3\n      1 x1  1  0\n      5 x9 1 0\nTotal time\n"),
            ("glpsol", "c\ns mip 3 5 o 2\ni 1 1\nj 1 1\nj 2 1\nj 3 0\nj 4 1e-9\nj 5 1\ne o f\n"),
            ("glpsol", "s mip 3 5 f 2\nj 1 1\nj 2 1\nj 3 0\nj 4 0\ne o f\n"),
            (
                "highs",
                "Model status\nOptimal\n\n# Primal solution values\nFeasible\nObjective 2\n# Columns 5\nx1 1\nx2 1\nx3 0\nx4 -0\n"
                "x5 1\n# Rows 1\nr1 1\n\n# Dual solution values\nNone\n# Columns 5\nx3 1\n",
            ),
        ):
            with self.subTest(text=text):
                self.assertEqual(self.read(solver, text), [[0, 1]])
        for solver, text in (
            ("cbc", "Infeasible - objective value 1\n 0 x1 1 0\n"),
            ("cbc", "Integer infeasible - objective value 1\n** 0 x1 0.5 0\n"),
            ("glpsol", "s mip 3 4 n 0\nj 1 0\ne o f\n"),
            ("highs", "Model status\nInfeasible\n\n# Primal solution values\nNone\n"),
        ):
            with self.subTest(text=text):
                self.assertEqual(self.read(solver, text), [])
        for solver, text, wanted in (
            ("cbc", "hello\n", "line 2: there is no answer of cbc"),
            ("cbc", "Stopped on time (no integer solution - continuous used) - objective value 1\n", "it found none in its time"),
            ("cbc", "Optimal - objective value 1\n 0 x1 0.5 0\n", "line 2: 0.5: a variable is 0 or 1"),
            ("glpsol", "s mip 3 4 u 0\nj 1 0\ne o f\n", "it found none in its time"),
            ("glpsol", "s mip 3 4 o 0\nj 1 x\ne o f\n", "line 2: x: a variable is 0 or 1"),
            ("highs", "Model status\nTime limit reached\n\n# Primal solution values\nNone\n", "it found none in its time"),
        ):
            with self.subTest(text=text), self.assertRaises(AnswerFault) as raised:
                self.read(solver, text)
            self.assertIn(wanted, str(raised.exception))

    def test_costs(self):
        costs = [Fraction(1, 2), 0, -1, 2]
        self.assertIn("#minimize { 1,1 : x(1); -2,3 : x(3); 4,4 : x(4) }.", list(asp(PAIR, costs)))
        self.assertEqual(list(opb(PAIR, costs))[2], "min: +1 x1 -2 x3 +4 x4 ;")
        for form in (asp, opb):
            self.assertEqual(list(form(PAIR, [0] * 4)), list(form(PAIR)))

    @unittest.skipUnless(shutil.which("clasp") and shutil.which("gringo"), "needs clasp and gringo")
    def test_the_least_cost_of_an_engine(self):
        """Of options that cost the same each counts."""
        problem = make.queens.problem(6)
        costs = [1 + number % 3 for number in range(36)]
        wanted = min(sum(costs[number] for number in one.numbers) for one in problem.solve())
        for form, words in ((asp, "gringo exported | clasp"), (opb, "clasp exported")):
            path = self.file("exported", "".join(f"{line}\n" for line in form(problem, costs)))
            done = subprocess.run(words.replace("exported", path), shell=True, capture_output=True)
            *_, found = solutions("clasp", problem, done.stdout.splitlines(keepends=True))
            self.assertEqual((problem.check([found]), sum(costs[it] for it in found.numbers)), ([True], wanted))

    @unittest.skipUnless(shutil.which("cbc") or shutil.which("glpsol"), "needs cbc or glpsol")
    def test_real_programs(self):
        """What they print for `export lp`, by their options for that."""
        problem = make.queens.problem(6)
        costs = [number % 5 for number in range(36)]
        wanted = min(sum(costs[number] for number in one.numbers) for one in problem.solve())
        path = self.file("exported.lp", "".join(f"{line}\n" for line in lp(problem, costs)))
        out = path.replace("exported.lp", "answer")
        for solver, words in (("cbc", [path, "solve", "solution", out]), ("glpsol", ["--lp", path, "-w", out])):
            if shutil.which(solver):
                subprocess.run([solver, *words], capture_output=True)
                with open(out, "rb") as file:
                    (found,) = solutions(solver, problem, file)
                self.assertEqual(problem.check([found]), [True])
                self.assertEqual(sum(costs[number] for number in found.numbers), wanted)

    def test_faults(self):
        for solver, text, wanted in (
            ("cadical", "", "line 1: there is no answer: cadical says whether there is a solution"),
            ("cadical", "s SATISFIABLE\n", "line 2: SATISFIABLE: no values; without -n it prints the values"),
            ("clasp", "s SATISFIABLE\n", "line 2: SATISFIABLE: no values; without -q it prints the answers"),
            ("clasp", "UNKNOWN\n", "line 2: UNKNOWN: it found none in its time"),
            ("cadical", "v 1 2 x 0\n", "line 1: x: no variable such as 3, -3, x3 or -x3"),
            ("cadical", "v 1 2 -2 0\n", "line 1: -2: the variable is both true and false"),
            ("cadical", "v 1 2 -3 0\n", "line 1: the answer has no value of variable 4, and the problem has 4 options"),
            ("cadical", "v 1 2 -3\n", "line 2: the answer has no value of variable 4, and the problem has 4 options"),
            ("clasp", "x(1) x(5)\n", "line 1: x(5): the problem has 4 options"),
            ("clasp", "x(0)\n", "line 1: x(0): the problem has 4 options"),
            ("cadical", "x(1)\n", "line 1: x(1): no line of an answer of cadical"),
            ("clasp", "\x1b[2J\n", "line 1: \\x1b[2J: no line of an answer of clasp"),
            ("clasp", "1:\n a (1 of 1)\n", "line 1: 1:: no line of an answer of clasp"),
        ):
            with self.subTest(text=text), self.assertRaises(AnswerFault) as raised:
                self.read(solver, text)
            self.assertEqual(str(raised.exception), wanted)

    def test_command(self):
        path = self.file("q.dlx", make.queens.problem(4).text)
        problem = make.queens.problem(4)
        (solution,) = problem.solve(limit=1)
        values = " ".join(str(k + 1 if k in solution.numbers else -k - 1) for k in range(16))
        answer = f"s SATISFIABLE\nv {values} 0\n"
        drawn = str(problem.draw(solution))
        self.assertEqual(run("draw", path, given=answer), (0, drawn, ""))
        status, listing, messages = run("draw", path, "--listing", given=answer)
        self.assertEqual((status, messages), (0, ""))
        self.assertEqual(problem.check(listing), [True])
        self.assertEqual(run("draw", path, given=listing)[1], drawn)
        ones = {number + 1: int(number in solution.numbers) for number in range(16)}
        for file in (
            "Optimal - objective value 0\n" + "".join(f"0 x{k} {one} 0\n" for k, one in ones.items() if one),
            "c Problem:    q\ns mip 8 16 o 0\n" + "".join(f"j {k} {one}\n" for k, one in ones.items()) + "e o f\n",
            "Model status\nOptimal\n\n# Primal solution values\nFeasible\nObjective 0\n# Columns 16\n"
            + "".join(f"x{k} {one}\n" for k, one in ones.items()),
        ):
            self.assertEqual(run("draw", path, given=file), (0, drawn, ""))
        # What isn't a solution is none for dlxcheck, and isn't drawn.
        wrong = f"v {values.replace('-1 ', '1 ', 1)} 0\n"
        self.assertEqual(problem.check(run("draw", path, "--listing", given=wrong)[1]), [False])
        wanted = "helgrothy: answer 1 of the other solver is no solution, as dlxcheck judges it\n"
        self.assertEqual(run("draw", path, given=wrong), (2, "", wanted))
        self.assertEqual(run("draw", path, given=answer + wrong), (2, drawn, wanted.replace("1", "2")))
        for words in ([], ["--listing"], ["--json"]):
            wanted = (1, "", "helgrothy: the other solver reports that there is no solution\n")
            self.assertEqual(run("draw", path, *words, given="UNSATISFIABLE\n"), wanted)
        wanted = (1, "", "helgrothy: the other solver gave no solution 2\n")
        self.assertEqual(run("draw", path, "--number", "2", given=answer), wanted)
        self.assertEqual(run("draw", path, "--listing", given=listing)[0], 2)
        self.assertEqual(run("draw", "-", given="UNSATISFIABLE\n")[0], 2)

    def test_no_picture(self):
        """What can be done with an answer that can't be drawn."""
        path = self.file("a.dlx", "A\nA\nA\n")
        answer, listing = "v 1 -2 0\n", "1:\n A (1 of 1)\n"
        none = "helgrothy: no comment of the problem says that `helgrothy make` made it; patterns can draw it"
        listed = "; --listing prints the answer as a listing\n"
        for words in ([], ["--svg"]):
            self.assertEqual(run("draw", path, *words, given=answer), (2, "", none + listed))
            self.assertEqual(run("draw", path, *words, given=listing), (2, "", f"{none}\n"))
        ran = run("draw", path, "--cell", r"(x)(\d)", given=answer)
        self.assertEqual((ran[:2], ran[2].endswith(listed)), ((2, ""), True))
        self.assertEqual(run("draw", path, "--listing", given=answer), (0, listing, ""))
        # Data has the options, and needs no picture.
        self.assertEqual(run("draw", path, "--json", given=answer)[0], 0)

    def test_many_answers(self):
        """As many as dlxcheck doesn't judge in one run."""
        problem = make.queens.problem(9)
        text = "".join(f"Answer: {k}\n{' '.join(f'x({n + 1})' for n in it.numbers)}\n" for k, it in enumerate(problem.solve(), 1))
        status, printed, _ = run("draw", self.file("q.dlx", problem.text), "--json", given=f"Solving...\n{text}SATISFIABLE\n")
        self.assertEqual((status, printed.count("\n")), (0, 352))

    def test_what_an_answer_begins_with(self):
        for line in ("c x", "s SATISFIABLE", "v 1 0", "UNSATISFIABLE", "clasp version 3.3.5", "Answer: 1", "x(1) x(2)", "o 3", "% x"):
            self.assertTrue(begins(line.encode() + b"\n"), line)
        for line, solver in (("Infeasible - objective value 0", "cbc"), ("c Problem:    q", "glpsol"), ("Model status", "highs")):
            self.assertEqual(begins(line.encode() + b"\n"), solver)
        for line in ("", "\n", "1:\n", " a (1 of 1)\n", "x\n", "\x1b[2J"):
            self.assertFalse(begins(line.encode()), line)

    @unittest.skipUnless(all(map(shutil.which, ("cadical", "clasp"))), "no other solvers")
    def test_solvers(self):
        problem = make.queens.problem(6)
        for solver, form, words in (
            ("cadical", "cnf", []), ("cadical", "cnf", ["-q"]), ("clasp", "cnf", ["0"]), ("clasp", "opb", ["1"]),
            ("clasp", "asp", ["0"]), ("clasp", "asp", ["0", "-V0"]), ("clasp", "asp", ["--outf=1"]),
        ):  # fmt: skip
            if form == "asp" and not shutil.which("gringo"):
                continue
            path = self.file("exported", "".join(f"{line}\n" for line in FORMATS[form](problem)))
            first = f"gringo {path} |" if form == "asp" else ""
            command = f"{first} {solver} {' '.join(words)} {'' if first else path}"
            printed = subprocess.run(["sh", "-c", command], capture_output=True).stdout
            found = list(solutions(solver, problem, printed.splitlines()))
            self.assertEqual(problem.check(found), [True] * len(found))
            self.assertEqual(len(found), 4 if words[:1] == ["0"] else 1)


if __name__ == "__main__":
    unittest.main()

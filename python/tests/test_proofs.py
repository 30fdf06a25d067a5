"""That there is no solution, proved by cadical beside the programs; and engines that lie about it."""

import os
import unittest
from contextlib import ExitStack
from unittest import mock

from test_commands import run
from test_engines import NO_SOLUTION, NONE, Hanging, WithEngines
from test_refute import CADICAL, PROOF, PROVED, without_judge

from helgrothy import Problem, cost, engines, lint, why
from helgrothy._cli import acts, solving
from helgrothy._page.answer import Request, answer
from helgrothy._reason import proofs
from helgrothy._run import refutation

WRITES = f"printf '%s\\n' '{PROOF}' > \"$3\""
HINT = "`helgrothy why` may say which items conflict"

# What an engine does where it is asked for a proof, its third argument being the file of it.
FALSE = {
    "no proof": "exit 20",
    "an empty proof": ': > "$3"; exit 20',
    "the empty clause alone": 'echo 0 > "$3"; exit 20',
    "the empty clause after others": "printf '%s\\n' '-1 0' '-2 0' 0 > \"$3\"; exit 20",
    "a proof of another formula": f"{WRITES}; exit 20",
    "a cut proof": "printf '%s\\n' '-2 0' '1 0' > \"$3\"; exit 20",
    "a padded proof": "printf '0\\n%s' 'x y z' > \"$3\"; exit 20",
    "what is no step": "echo hello > \"$3\"; exit 20",
    "bytes": "printf 'a\\002\\000a\\000\\377' > \"$3\"; exit 20",
    "a clause of its own": 'echo "p cnf 1 2" > "$2"; echo 1 0 >> "$2"; echo -1 0 >> "$2"; echo 0 > "$3"; exit 20',
    "a problem of its own": "printf 'A B\\nA\\n' > problem.dlx; echo 0 > \"$3\"; exit 20",
    "a link to what has no end": '/bin/ln -s /dev/zero "$3"; exit 20',
    "a pipe": '/usr/bin/mkfifo "$3"; exit 20',
    "a folder": '/bin/mkdir "$3"; exit 20',
    "dies": 'echo 0 > "$3"; kill -9 $$',
    "fails": "exit 1",
    "finds a solution": "echo s SATISFIABLE; exit 10",
    "floods": "exec /usr/bin/yes '1 0' > \"$3\"",
    "swells": "x=0123456789abcdef; while :; do x=$x$x; done",
    "leaves a child": '/bin/sleep 1000 & echo $! >> PIDS; echo 0 > "$3"; exit 20',
}
HANG = "trap '' TERM HUP INT PIPE; while :; do /bin/sleep 1000; done"


class Solving(WithEngines):
    """By `solve` and the kinds, beside a program that comes to no end."""

    def setUp(self) -> None:
        super().setUp()
        patch = mock.patch.object(proofs, "_MOST_FILE", 1 << 20)
        patch.start()
        self.addCleanup(patch.stop)
        patch = mock.patch.object(refutation, "MEMORY", 1 << 28)
        patch.start()
        self.addCleanup(patch.stop)

    def claims(self, proof: str, *names: str) -> None:
        """Engines that report that there is none, and do this where they are asked for a proof."""
        self.engine(f'if test $# = 1; then echo s UNSATISFIABLE; exit 20; fi\n{proof}', *names or ["cadical"])

    def right(self) -> None:
        self.claims(f"{WRITES}; exit 20")

    def link_to_cadical(self) -> None:
        os.symlink(CADICAL, os.path.join(self.folder, "path", "cadical"))

    def test_a_right_proof(self):
        self.program("exec /bin/sleep 1000")
        self.right()
        with mock.patch.object(solving, "_REASON_SECONDS", 0.1):
            for words in (("solve", self.none), ("queens", "3"), ("solve", self.none, "--seconds", "300")):
                status, out, messages = run(*words)
                self.assertEqual((status, out), (1, ""))
                self.assertEqual(messages.splitlines()[:2], [PROVED, "Altogether 0 solutions."])
                self.assertEqual(messages.count("no solution,"), 1)
                self.nothing_is_left()
            self.assertIn(PROVED, run("solve", self.none, "--html")[1])
        solutions = engines.solve(Problem.parse(NONE))
        self.assertEqual((list(solutions), solutions.total, solutions.complete, solutions.proof), ([], 0, True, PROVED))
        with self.assertRaises(engines.Claimed):
            list(engines.solve(Problem.parse(NONE), is_proof_wanted=False))

    def test_a_claim_of_the_other_one(self):
        """clasp writes no proof, so cadical is asked for one."""
        self.program("exec /bin/sleep 1000")
        self.claims("exit 1", "clasp")
        self.assertEqual(run("solve", self.none), (1, "", f"no solution, says clasp; dlx1 hasn't proved it; {HINT}\n"))
        self.right()
        self.assertEqual(run("solve", self.none)[2].splitlines()[0], PROVED)

    def test_false_ones(self):
        self.program("exec /bin/sleep 1000")
        for name, proof in FALSE.items():
            with self.subTest(name):
                self.claims(proof)
                wanted = f"no solution, says cadical; dlx2 hasn't proved it; {HINT}"
                status, out, messages = run("solve", self.problem, "--seconds", "600")
                self.assertEqual((status, out, messages.splitlines()[-1:]), (1, "", [wanted]), messages)
                self.assertNotIn("proved:", messages)
                self.nothing_is_left()

    def test_a_cut_proof_and_a_wrong_status(self):
        """Also where there is no solution."""
        self.program("exec /bin/sleep 1000")
        for proof in ("echo -1 0 > \"$3\"; exit 20", *(f"{WRITES}; {end}" for end in ("exit 0", "exit 10", "kill -9 $$"))):
            self.claims(proof)
            self.assertIn("no solution, says cadical", run("solve", self.none, "--seconds", "600")[2])

    def test_one_that_hangs(self):
        """Where the time is over, and where the program is first."""
        self.claims(HANG)
        self.program("exec /bin/sleep 1000")
        status, out, messages = run("solve", self.problem, "--seconds", "1")
        self.assertEqual((status, out), (1, ""))
        self.assertIn("no solution, says cadical; dlx2 hasn't proved it", messages)
        with mock.patch.object(proofs, "MOST_SECONDS", 0.3), mock.patch.object(engines, "_QUIET_SECONDS", 0.0):
            messages = run("solve", self.problem)[2].splitlines()
        self.assertEqual(messages[0], "cadical reports that there is no solution; cadical is asked for a proof")
        self.assertEqual(len(messages), 2)

    def test_where_there_is_a_solution(self):
        self.claims(HANG)
        self.program("/bin/sleep 1")
        status, _, messages = run("solve", self.problem, "--seconds", "600")
        said = messages.splitlines()
        self.assertEqual((status, said[-1]), (0, "Altogether 1 solution (limit)."))
        self.assertEqual(said[-2], "cadical reports that there is no solution, and there is one")

    def test_no_judge(self):
        self.right()
        self.program("exec /bin/sleep 1000")
        with without_judge():
            self.assertIn("no solution, says cadical", run("solve", self.none)[2])

    def test_no_folder_is_left(self):
        self.program("exec /bin/sleep 1000")
        folder = os.path.join(self.folder, "temporary")
        os.mkdir(folder)
        with mock.patch("tempfile.tempdir", folder), mock.patch.object(solving, "_REASON_SECONDS", 0.1):
            for proof in (f"{WRITES}; exit 20", "exit 20", HANG):
                self.claims(f"echo > left; {proof}")
                run("solve", self.none, "--seconds", "1")
                self.assertEqual(os.listdir(folder), [])

    @mock.patch.object(acts, "_SEARCH_SECONDS", 60.0)
    def test_lint(self):
        self.program("exec /bin/sleep 1000")
        self.right()
        self.assertEqual(run("lint", self.none), (1, f"line 3: {PROVED}\n", ""))
        self.assertEqual([f"{it}" for it in lint.lint(NONE.encode(), searching=60)], [f"line 3: {PROVED}"])

    def test_why(self):
        """Of the items that can't all be held, where an engine names them."""
        self.program("exec /bin/sleep 1000")
        said = "no solution, says cadical; dlx1, which would prove it, came to no end in the time"
        for proof, wanted in ((f"{WRITES}; exit 20", PROVED), ("exit 20", said), (HANG, said)):
            # It answers once, so that all items are named, and then it is asked for a proof.
            once = os.path.join(self.folder, "once")
            self.engine(
                f"if test $# = 1; then test -e {once} && exit 1; : > {once}; echo s UNSATISFIABLE; exit 20; fi\n{proof}",
                "cadical",
            )
            with mock.patch.object(why, "_PROVED", 0.5 if proof == HANG else 0.9):
                status, out, _ = run("why", self.none, "--seconds", "4" if proof == HANG else "30")
            self.assertEqual((status, out.splitlines()[:2]), (0, ["can't all be held: r2 c2 r1 c1 r3 c3", wanted]))
            os.remove(once)

    @unittest.skipUnless(CADICAL, "needs cadical")
    def test_the_real_one(self):
        self.program("exec /bin/sleep 1000")
        self.link_to_cadical()
        self.assertEqual(run("solve", self.none)[2].splitlines()[0], PROVED)
        self.assertEqual(run("why", self.none, "--seconds", "300")[1].splitlines()[1], PROVED)
        self.claims("exit 1", "clasp")
        self.assertEqual(run("solve", self.none)[2].splitlines()[0], PROVED)
        # It finds that the other one lies, and writes no proof.
        os.remove(os.path.join(self.folder, "path", "clasp"))
        liar = self.script("liar", f'if test $# = 1; then echo s UNSATISFIABLE; exit 20; fi\nexec {CADICAL} "$@"')
        os.replace(liar, os.path.join(self.folder, "path", "cadical"))
        self.assertIn("no solution, says cadical", run("solve", self.problem)[2])


class Costs(WithEngines):
    """The same where the cheapest solution is asked for."""

    def setUp(self) -> None:
        super().setUp()
        self.costs = self.file("costs", "r1 1\n")
        stack = ExitStack()
        self.addCleanup(stack.close)
        stack.enter_context(mock.patch.multiple(cost, _ENGINE_SECONDS=-1.0, _NONE_SECONDS=0.2, Bounds=Hanging))
        stack.enter_context(mock.patch.object(cost._Reasoning, "look", lambda *words: None))
        self.engine(NO_SOLUTION["clasp"], "clasp")

    def test_a_right_proof(self):
        self.engine(f"{WRITES}; exit 20", "cadical")
        status, out, messages = run("solve", self.none, "--cost", self.costs)
        self.assertEqual((status, out, messages.splitlines()[:2]), (1, "", [PROVED, "Altogether 0 solutions."]))
        self.assertEqual(messages.count("no solution,"), 1)
        self.assertIsNone(cost.least(Problem.parse(NONE), [0] * 9))

    def test_false_ones(self):
        wanted = f"no solution, says clasp; dlx1 hasn't proved it; {HINT}"
        for proof in ("exit 20", 'echo 0 > "$3"; exit 20', HANG):
            self.engine(proof, "cadical")
            status, out, messages = run("solve", self.none, "--cost", self.costs, "--seconds", "1")
            self.assertEqual((status, out, messages.splitlines()), (1, "", [wanted]))
            self.nothing_is_left()

    def test_a_page(self):
        """It says the same."""
        request = Request(what="solve", text=NONE, way="cheapest", costs="r1 1\n", seconds=5.0)
        self.assertIn("no solution, says clasp; dlx1 hasn't proved it", list(answer(request))[-1])
        self.engine(f"{WRITES}; exit 20", "cadical")
        last = list(answer(request))[-1]
        self.assertIn(PROVED, last)
        self.assertEqual(last.count("no solution,"), 1)


if __name__ == "__main__":
    unittest.main()

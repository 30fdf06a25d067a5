"""Other engines beside the programs: right ones, none, and false ones, which answer nonsense, hang, die or flood."""

import os
import shutil
import signal
import stat
import subprocess
import sys
import time
import unittest
from contextlib import ExitStack
from unittest import mock

from folders import InFolder
from test_commands import Pipe, run, run_until

from helgrothy import OutOfTime, Problem, cost, engines, make
from helgrothy._cli import acts, console
from helgrothy._reason import optimisers, proofs, sat_solver
from helgrothy._run import programs

# A problem with one solution, options 1, 4 and 5; and one without, of which no sum says so.
TEXT = "A B C D | x\nA C x:1\nA B x:2\nC D x:1\nB\nD\n"
VALUES = [str(value) for value in (1, -2, -3, 4, 5, *(-variable for variable in range(6, 10)))]
NUMBERS, FOUND = [0, 3, 4], "A C x:1\nB\nD\n"
NONE = make.queens.problem(3).text
PATH = os.environ.get("PATH", os.defpath)
REAL = [name for name in sat_solver.SOLVERS if shutil.which(name)]
REAL_FOR_COSTS = [name for name in optimisers.NAMES if shutil.which(name)]

# What an engine does in place of an answer, and what is printed of it.
FALSE = {
    "a flood of literals": ("while :; do echo v 1 -2 -3 4 -5 1 -2 -3 4 -5; done", "calls a solution is none, as dlxcheck judges it"),
    "nonsense": ("echo hello", "line 1: hello: no line of an answer"),
    "bytes": ("printf '\\377\\000\\033[2J\\n'", "no line of an answer"),
    "nothing": ("exit 0", "there is no answer"),
    "a wrong solution": ("echo s SATISFIABLE; echo v 1 2 3 4 5 0", "calls a solution is none, as dlxcheck judges it"),
    "a part of a solution": ("echo s SATISFIABLE; echo v 1 -2 -3 4 -5 0", "calls a solution is none, as dlxcheck judges it"),
    "no choice": ("echo s SATISFIABLE; echo v -1 -2 -3 -4 -5 0", "calls a solution is none, as dlxcheck judges it"),
    "too few values": ("echo s SATISFIABLE; echo v 1 -2 0", "no value of variable 3"),
    "both": ("echo v 1 -1 0", "both true and false"),
    "none, with a wrong status": ("echo s UNSATISFIABLE", "didn't end as it does where there is no solution"),
    "none, and dies": ("echo s UNSATISFIABLE; kill -9 $$", "didn't end as it does where there is no solution"),
    "fails": ("exit 20", "there is no answer"),
    "dies": ("kill -9 $$", "there is no answer"),
    "unknown": ("echo s UNKNOWN; exit 0", "it found none in its time"),
    "floods": ("while :; do echo c $$ $$ $$ $$ $$ $$ $$ $$ $$ $$ $$; done", "gave no answer"),
    "floods standard error": ("n=0; while test $n -lt 9999; do echo $n >&2; n=$((n + 1)); done", "there is no answer"),
    "swells": ("x=0123456789abcdef; while :; do x=$x$x; done", "there is no answer"),
    "leaves a child": ("/bin/sleep 1000 & echo $! >> PIDS; echo s SATISFIABLE", "no values"),
    "leaves a child of a deaf one": ("(trap '' TERM; echo $$ >> PIDS; /bin/sleep 1000) & exit 3", "there is no answer"),
}
HANG = "trap '' TERM HUP INT PIPE; echo s SATISFIABLE; while :; do /bin/sleep 1000; done"


class WithEngines(InFolder):
    """The path has the engines that a test writes, and no other."""

    def setUp(self) -> None:
        super().setUp()
        self.pids = os.path.join(self.folder, "pids")
        self.problem = self.file("p.dlx", TEXT)
        self.none = self.file("none.dlx", NONE)
        os.mkdir(os.path.join(self.folder, "path"))
        stack = ExitStack()
        self.addCleanup(stack.close)
        stack.enter_context(mock.patch.dict(os.environ, PATH=os.path.join(self.folder, "path")))
        # The engine begins at once, and needs no 4 GB before it swells too much.
        stack.enter_context(mock.patch.multiple(engines, _ALONE_SECONDS=-1.0, _ALONE_SHARE=-1.0, _MOST_TURN=0.3))
        stack.enter_context(mock.patch.object(sat_solver, "_MEMORY", 1 << 28))
        self.addCleanup(self.nothing_is_left)

    def script(self, path: str, text: str) -> str:
        path = self.file(path, f"#!/bin/sh\necho $$ >> {self.pids}\n{text.replace('PIDS', self.pids)}\n")
        os.chmod(path, stat.S_IRWXU)
        return path

    def engine(self, text: str, *names: str) -> None:
        for name in names or sat_solver.SOLVERS:
            self.script(f"path/{name}", text)

    def program(self, before: str) -> None:
        """The programs do something first, such as to sleep."""
        bin = os.path.join(self.folder, "bin")
        os.mkdir(bin)
        self.real = {name: programs.find(name) for name in programs.PROGRAMS}
        for name, real in self.real.items():
            if name in ("dlx1", "dlx2", "dlx3"):
                self.script(f"bin/{name}", f'{before}\nexec "{real}" "$@"')
            else:
                os.symlink(real, os.path.join(bin, name))
        patch = mock.patch.dict(os.environ, {programs.VARIABLE: bin})
        patch.start()
        self.addCleanup(patch.stop)

    def after_the_engine(self):
        """The programs begin once something is printed of the engine."""
        done, say = os.path.join(self.folder, "done"), console.say
        self.program(f"until test -e {done}; do /bin/sleep 0.05; done")

        def said(line: str) -> None:
            say(line)
            self.file("done", "")

        patch = mock.patch.object(console, "say", said)
        patch.start()
        self.addCleanup(patch.stop)
        return lambda: os.path.exists(done) and os.remove(done)

    def nothing_is_left(self) -> None:
        """No process that wrote its number runs any more, a moment after."""
        numbers = self.numbers()
        deadline = time.monotonic() + 60
        while any(map(self.runs, numbers)) and time.monotonic() < deadline:
            time.sleep(0.05)
        self.assertEqual([number for number in numbers if self.runs(number)], [])
        self.assertEqual(len(programs._running), 0)

    def numbers(self) -> "list[int]":
        try:
            with open(self.pids) as file:
                return [int(line) for line in file]
        except FileNotFoundError:
            return []

    def runs(self, number: int) -> bool:
        try:
            with open(f"/proc/{number}/stat", "rb") as file:
                return file.read().rpartition(b")")[2].split()[0] != b"Z"
        except (FileNotFoundError, ProcessLookupError):
            return False


class Solving(WithEngines):
    def test_a_right_one(self):
        self.program("exec /bin/sleep 1000")
        self.engine("echo s SATISFIABLE; echo v 1 -2 -3 4 5 6 7 0; exit 10")
        status, out, messages = run("solve", self.problem)
        self.assertEqual((status, out), (0, FOUND))
        self.assertRegex(
            messages,
            r"\Acadical found a solution, and dlxcheck judges it to be one; dlx2 had none in [0-9.e+]+ seconds\n"
            r"Altogether 1 solution \(limit\)\.\n\Z",
        )
        for words in (["--limit", "1"], ["--json"], ["--html"], ["--csv"]):
            status, _, messages = run("solve", self.problem, *words)
            self.assertIn("cadical found a solution", messages)
            self.assertEqual(status, 0)
        solutions = engines.solve(Problem.parse(TEXT))
        solution = next(solutions)
        self.assertEqual((solution.numbers, [step.item for step in solution.steps]), (NUMBERS, ["", "", ""]))
        self.assertEqual((list(solutions), solutions.total, solutions.complete), ([], 1, False))

    def test_none_is_a_claim(self):
        self.program("exec /bin/sleep 1000")
        self.engine("echo s UNSATISFIABLE; exit 20")
        status, out, messages = run("solve", self.problem, "--seconds", "300")
        self.assertEqual((status, out), (1, ""))
        hint = "`helgrothy why` may say which items conflict"
        self.assertEqual(messages, f"no solution, says cadical; dlx2 hasn't proved it; {hint}\n")
        self.assertIn("no solution, says cadical", run("solve", self.problem, "--html")[1])
        with self.assertRaises(engines.Claimed) as raised:
            next(engines.solve(Problem.parse(TEXT)))
        self.assertEqual(raised.exception.by, "cadical")

    def test_what_is_asked_of_the_programs_alone(self):
        self.program("/bin/sleep 0.5")
        self.engine("echo s UNSATISFIABLE; exit 20")
        for words in (["--number", "1"], ["--limit", "2"], ["--all"], ["--shuffle", "1"]):
            status, out, messages = run("solve", self.problem, *words)
            self.assertEqual((status, out), (0, FOUND), words)
            self.assertNotIn("cadical", messages)

    def test_false_ones(self):
        forget = self.after_the_engine()
        for name, (script, wanted) in FALSE.items():
            with self.subTest(name):
                forget()
                self.engine(script, "cadical")
                status, out, messages = run("solve", self.problem, "--seconds", "600")
                self.assertEqual((status, out), (0, FOUND), messages)
                first, *rest = messages.splitlines()
                self.assertTrue(first.startswith(("cadical gave no answer (", "what cadical calls")), messages)
                self.assertIn(wanted, first)
                self.assertTrue(first.endswith("; dlx2 goes on"))
                self.assertEqual(rest, ["Altogether 1 solution (limit)."])
                self.nothing_is_left()

    def test_one_that_hangs(self):
        self.engine(HANG)
        self.program("/bin/sleep 1")
        self.assertEqual(run("solve", self.problem), (0, FOUND, "Altogether 1 solution (limit).\n"))

    def test_one_that_hangs_lets_the_others_go_on(self):
        """Its turn ends where it takes no time of a processor."""
        self.program("exec /bin/sleep 1000")
        self.engine(HANG, "cadical")
        self.engine("echo s SATISFIABLE; echo v 1 -2 -3 4 5 6 7 0; exit 10", "clasp")
        with mock.patch.multiple(engines, _MOST_TURN=600.0, _IDLE_SECONDS=0.2):
            status, out, messages = run("solve", self.problem, "--seconds", "600")
        self.assertEqual((status, out), (0, FOUND))
        self.assertIn("clasp found a solution", messages)
        self.engine(HANG)
        for name in ("dlx1", "dlx2", "dlx3"):
            os.remove(os.path.join(self.folder, "bin", name))
            os.symlink(self.real[name], os.path.join(self.folder, "bin", name))
        with mock.patch.multiple(engines, _MOST_TURN=600.0, _IDLE_SECONDS=0.2):
            self.assertEqual(run("solve", self.problem, "--seconds", "600")[:2], (0, FOUND))

    def test_the_other_one_where_the_first_fails(self):
        self.program("exec /bin/sleep 1000")
        self.engine("echo hello", "cadical")
        self.engine("echo s UNSATISFIABLE; exit 20", "clasp")
        status, _, messages = run("solve", self.problem, "--seconds", "600")
        self.assertEqual(status, 1)
        first, second = messages.splitlines()
        self.assertIn("cadical gave no answer", first)
        self.assertIn("no solution, says clasp; dlx2 hasn't proved it", second)

    def test_one_that_hangs_until_its_time_is_over(self):
        self.engine(HANG, "cadical")
        self.after_the_engine()
        with mock.patch.object(engines, "_MOST_SECONDS", 0.5):
            messages = run("solve", self.problem)[2]
        self.assertEqual(messages.splitlines()[0], "cadical gave no answer in its time; dlx2 goes on")

    def test_one_that_hangs_until_all_time_is_over(self):
        self.engine(HANG)
        self.program("exec /bin/sleep 1000")
        status, out, messages = run("solve", self.problem, "--seconds", "1")
        self.assertEqual((status, out), (2, ""))
        self.assertRegex(messages, "0 solutions till then, and cadical(?: and clasp)? had none either\n")

    def test_one_that_would_take_too_long_to_write_to(self):
        self.program("/bin/sleep 1")
        self.engine(HANG)
        with mock.patch.object(engines, "_ALONE_SECONDS", 0.0), mock.patch.object(engines, "_MOST_WRITING", 0.0):
            messages = run("solve", self.problem)[2]
        self.assertIn(f"no solution yet; the problem is too large for cadical here; {engines._ORDER}\n", messages)

    def test_kinds(self):
        self.after_the_engine()
        clues = self.file("clues.txt", "1\n1\n\n1\n1\n")
        self.engine("echo hello", "cadical")
        status, out, messages = run("nonogram", clues)
        self.assertEqual((status, out.count("#")), (0, 2))
        self.assertIn("cadical gave no answer (line 1: hello: no line of an answer of cadical); dlx2 goes on\n", messages)

    def test_which_one_is_asked(self):
        self.engine("exit 1")
        for text, name in ((TEXT, "cadical"), (NONE, "clasp"), ("2|A\nA\nA\n", "clasp")):
            self.assertEqual(sat_solver.find(Problem.parse(text)).name, name)
        os.remove(os.path.join(self.folder, "path/clasp"))
        self.assertEqual(sat_solver.find(Problem.parse(NONE)).name, "cadical")
        with mock.patch.dict(os.environ, PATH="path"), mock.patch.object(os, "getcwd", lambda: self.folder):
            self.assertIsNone(sat_solver.find(Problem.parse(TEXT)))
        with mock.patch.object(programs, "has", lambda name: name != "dlxcheck"):
            self.assertIsNone(sat_solver.find(Problem.parse(TEXT)))

    def test_no_engine(self):
        """The line comes once, soon where there is a terminal, and else at the end of the time."""
        self.program("/bin/sleep 1")
        line = "no solution yet; cadical, which isn't on the path, may find one"
        self.assertEqual(sat_solver.missing("cadical"), line)
        with mock.patch.object(engines, "_LONG_SECONDS", 0.0), mock.patch.object(engines, "_ALONE_SECONDS", 0.0):
            for is_terminal, wanted in ((True, f"{line}\n"), (False, "")):
                with mock.patch.object(Pipe, "isatty", lambda pipe: is_terminal):
                    self.assertEqual(run("solve", self.problem)[2], f"{wanted}Altogether 1 solution (limit).\n")
                    messages = run("solve", self.problem, "--seconds", "0.4")[2]
                    self.assertEqual((messages.count(line), messages.splitlines()[0]), (1, line))
        self.assertEqual(run("solve", self.problem)[2], "Altogether 1 solution (limit).\n")

    def test_no_engine_for_a_kind(self):
        self.program("/bin/sleep 0.5")
        with mock.patch.object(engines, "_LONG_SECONDS", 0.0), mock.patch.object(Pipe, "isatty", lambda pipe: True):
            messages = run("queens", "6")[2]
        self.assertEqual(messages.splitlines()[0], "no solution yet; clasp, which isn't on the path, may find one")

    def test_where_the_command_is_killed(self):
        """The guard ends the engine, and what it has begun."""
        self.program("exec /bin/sleep 30")
        self.engine(f"/bin/sleep 1000 & echo $! >> PIDS; {HANG}")
        code = "from helgrothy import engines; engines._ALONE_SECONDS = -1.0; from helgrothy.__main__ import main; main()"
        where = {**os.environ, "PYTHONPATH": os.path.dirname(os.path.dirname(engines.__file__))}
        command = subprocess.Popen([sys.executable, "-c", code, "solve", self.problem], env=where)
        deadline = time.monotonic() + 300
        while len(self.numbers()) < 3 and time.monotonic() < deadline:
            time.sleep(0.1)
        command.kill()
        command.wait()

    @unittest.skipUnless(REAL, "needs cadical or clasp")
    def test_real_ones(self):
        self.program("exec /bin/sleep 1000")
        for name in REAL:
            os.symlink(shutil.which(name, path=PATH), os.path.join(self.folder, "path", name))
            with self.subTest(name):
                status, out, messages = run("solve", self.problem)
                self.assertEqual((status, out), (0, FOUND))
                self.assertIn(f"{name} found a solution", messages)
                wanted = proofs.PROVED if name == proofs.SOLVER else f"no solution, says {name}; dlx1 hasn't proved it"
                self.assertIn(wanted, run("solve", self.none)[2])
            os.remove(os.path.join(self.folder, "path", name))


# An answer that is right, one that is none, and what clasp does in place of a search, with what is printed of it.
GOOD, WORSE = "echo v x1 -x2 -x3 x4 x5; echo o 2", "echo v x1 x2 -x3 -x4 x5; echo o 5"
FALSE_COSTS = {
    "nonsense": ("echo hello", "gave no answer (line 1: hello: no line of an answer"),
    "nonsense, and hangs": ("echo hello; exec /bin/sleep 1000", "gave no answer (line 1: hello: no line of an answer"),
    "nonsense, and goes on unheard": ("echo hello; exec /bin/sleep 1000 >&-", "gave no answer (line 1: hello"),
    "nothing": ("exit 0", "gave no answer (line 1: there is no answer"),
    "a wrong solution": ("echo v x1 x2 x3 x4 x5; echo s OPTIMUM FOUND; exit 30", "is none, as dlxcheck judges it"),
    "a wrong solution, and dies": ("echo v x1 -x2 -x3 -x4 -x5; echo o 1; exit 3", "is none, as dlxcheck judges it"),
    "an answer, and dies": (f"{GOOD}; kill -9 $$", "before it knew which costs least"),
    "an answer, and none": (f"{GOOD}; echo s UNSATISFIABLE; exit 20", "before it knew which costs least"),
    "none, where there is one": ("echo s UNSATISFIABLE; exit 20", "reports that there is no solution, and there is one"),
    "dies": ("kill -9 $$", "gave no answer (line 1: there is no answer"),
    "fails": ("echo '*** ERROR: too large' >&2; exit 1", "gave no answer (*** ERROR: too large)"),
    "a flood without an end of its line": ("exec /usr/bin/tr '\\0' c < /dev/zero", "gave no answer (a line of it has no end)"),
    "an answer without an end": ("printf 'v x1 -x2'; exec /usr/bin/tr '\\0' ' ' < /dev/zero", "(a line of it has no end)"),
    "a flood of lines": (FALSE["floods"][0], "writes on and on, and no better answer"),
    "a flood of ends of lines": ("exec /usr/bin/yes ''", "writes on and on, and no better answer"),
    "a flood of values": ("exec /usr/bin/yes 'v x1 -x2'", "writes on and on, and no better answer"),
    "a flood of an answer": (f"while :; do {GOOD}; done", "writes on and on, and no better answer"),
    "a flood of worse answers": (f"{GOOD}; while :; do {WORSE}; done", "writes on and on, and no better answer"),
    "a flood of standard error": ("while :; do echo $$ $$ $$ $$ $$ $$ $$ $$ >&2; done", "gave no answer ("),
    "swells": ("x=0123456789abcdef; while :; do x=$x$x; done", "gave no answer ("),
    "leaves a child": ("/bin/sleep 1000 & echo $! >> PIDS; exit 3", "there is no answer"),
    "leaves a child of a deaf one": (f"(trap '' TERM; echo $$ >> PIDS; /bin/sleep 1000) & {GOOD}; exit 3", "costs least"),
}
LEAST = "The least cost is 2."
HINT = "`helgrothy why` may say which items conflict"


def lines(*texts: str, to: str = "") -> str:
    return "; ".join(f"echo '{text}' {to}" for text in texts)


def of_highs(status: str, *more: str) -> str:
    return lines("Model status", status, "", "# Primal solution values", *more, to=">&3")


# What the engines say of a right answer, that there is none, that they found one, and that they found none in time.
RIGHT = {
    "clasp": f"{GOOD}; echo s OPTIMUM FOUND; exit 30",
    "highs": "echo log; "
    + of_highs("Optimal", "Feasible", "Objective 2", "# Columns 7", "x1 1", "x2 0", "x3 -0", "x4 1", "x5 1", "x6 1", "x7 0", "# Rows 9", "r1 1"),
    "cbc": lines("log", "Optimal - objective value 2", "  0 x1  1  3", "  3 x4  0.99999999  -1", "  4 x5 1 0", "  5 x6 1 0", ""),
    "glpsol": lines("c log", "s mip 9 7 o 2", "i 1 1", "j 1 1", "j 2 0", "j 3 0", "j 4 1", "j 5 1", "j 6 1", "j 7 0", "e o f", to=">&3"),
}
NO_SOLUTION = {
    "clasp": "echo s UNSATISFIABLE; exit 20",
    "highs": of_highs("Infeasible", "None", "# Dual solution values", "None"),
    "cbc": lines("Problem is infeasible", "Integer infeasible - objective value 1.5", "** 0 x1 0.5 0"),
    "glpsol": lines("s mip 9 7 n 0", "j 1 0", "j 2 0", "j 3 0", "j 4 0", "j 5 0", "e o f", to=">&3"),
}
FOUND_ONLY = {
    "clasp": f"{GOOD}; {HANG}",
    "highs": RIGHT["highs"].replace("Optimal", "Time limit reached"),
    "cbc": RIGHT["cbc"].replace("Optimal", "Stopped on time"),
    "glpsol": RIGHT["glpsol"].replace(" o 2", " f 2"),
}
IN_VAIN = {
    "clasp": "echo s UNKNOWN; exit 0",
    "highs": of_highs("Time limit reached", "None"),
    "cbc": lines("Stopped on time (no integer solution - continuous used) - objective value 1.5", "  0 x1  0.5  3"),
    "glpsol": lines("s mip 9 7 u 0", "j 1 0", "e o f", to=">&3"),
}
# What else they do wrong, with what is printed of it.
FALSE_PROGRAMS = (
    ("highs", of_highs("Optimal", "Feasible", "# Columns 7", "x1 1", "x2 1", "# Rows 9"), "is none, as dlxcheck judges it"),
    ("highs", "echo hello; exit 3", "gave no answer (line 1: there is no answer of highs)"),
    ("cbc", lines("Optimal - objective value 2", "  0 x1  1  3"), "is none, as dlxcheck judges it"),
    ("cbc", lines("Optimal - objective value 2", "  0 x1  0.5  3"), "0.5: a variable is 0 or 1"),
    ("cbc", "/usr/bin/yes hello", "writes on and on, and no better answer"),
    ("glpsol", lines("s mip 9 7 o 2", "j 1 nan", to=">&3"), "nan: a variable is 0 or 1"),
    ("glpsol", lines("s mip 9 7 o 2", "j 1 1", "j 2 1", "e o f", to=">&3"), "is none, as dlxcheck judges it"),
    ("glpsol", "echo 'no such format' >&2; exit 1", "gave no answer (no such format)"),
)
# Of six options 1 and 2 cost least, 2 in all. An engine that says that 3 and 6, which cost 14, do.
SMALL, SMALL_COSTS = "a b c\na b\nc\na\nb\nc\nb c\n", "1 1 5 5 5 9"
LIES = "echo v -x1 -x2 x3 -x4 -x5 x6; echo s OPTIMUM FOUND; exit 30"


class Hanging:
    """A search of dlx3 that comes to no end."""

    def __init__(self, problem, costs, deadline, beside) -> None:
        self.look = beside.look
        self.deadline = deadline

    def solutions(self):
        while self.deadline is None or time.monotonic() < self.deadline:
            self.look()
            time.sleep(0.01)
        raise OutOfTime("the time is over")
        yield


class Costs(WithEngines):
    """The same for the solution of least cost, which dlx3 looks for beside all engines."""

    def setUp(self) -> None:
        super().setUp()
        self.costs = self.file("costs", "A 3\nB -1\n")
        stack = ExitStack()
        self.addCleanup(stack.close)
        stack.enter_context(mock.patch.multiple(cost, _ENGINE_SECONDS=-1.0, _PROOF_SECONDS=0.0, _NONE_SECONDS=0.2))
        # What shows it beside dlx3 would be the first, in the end.
        stack.enter_context(mock.patch.object(cost._Reasoning, "look", lambda *words: None))

    def solve(self, *words: str):
        return run("solve", self.problem, "--cost", self.costs, *words)

    def dlx3_hangs(self) -> None:
        """Nor do bounds alone show anything."""
        patch = mock.patch.object(cost, "Bounds", Hanging)
        patch.start()
        self.addCleanup(patch.stop)

    def test_right_ones(self):
        """What they report is printed as theirs."""
        self.dlx3_hangs()
        for name, script in RIGHT.items():
            with self.subTest(name):
                self.engine(script, name)
                status, out, messages = self.solve()
                messages = messages.splitlines()[0]
                self.assertEqual((status, out), (0, FOUND))
                self.assertEqual(messages, f"2 is the least cost that was found; {name} reports that none is cheaper.")
                found = cost.least(Problem.parse(TEXT), [3, 2, 0, -1, 0])
                self.assertEqual((found.by, found.is_proved, found.cost), (name, False, 2))
                self.nothing_is_left()
                os.remove(os.path.join(self.folder, "path", name))
        for end in ("exec /bin/sleep 1000", "while :; do echo; done", "/bin/sleep 1000 & echo $! >> PIDS"):
            self.engine(f"{GOOD}; echo s OPTIMUM FOUND; {end}", "clasp")
            status, out, messages = self.solve()
            self.assertEqual((status, out), (0, FOUND))
            self.nothing_is_left()

    def test_all_at_once(self):
        """One that hangs stops no other."""
        self.dlx3_hangs()
        for name in RIGHT:
            with self.subTest(name):
                self.engine(HANG, *RIGHT)
                self.engine(RIGHT[name], name)
                status, out, messages = self.solve("--seconds", "600")
                self.assertEqual((status, out), (0, FOUND))
                self.assertIn(f"; {name} reports that none is cheaper.", messages)
                self.nothing_is_left()

    def test_what_dlx3_shows_is_no_report(self):
        """In the time that it has after a report, and where it is the first."""
        for script in (RIGHT["clasp"], HANG):
            self.engine(script, "clasp")
            with mock.patch.multiple(cost, _PROOF_SECONDS=600.0, _LEAST_PROOF_SECONDS=600.0):
                status, out, messages = self.solve("--seconds", "600")
            self.assertEqual((status, out, messages.splitlines()[0]), (0, FOUND, LEAST))
            self.nothing_is_left()

    def test_a_wrong_report(self):
        """dlx3 shows it to be wrong, before it is printed and after."""
        small, costs = self.file("small.dlx", SMALL), self.file("small.cost", SMALL_COSTS)
        self.engine(LIES, "clasp")
        with mock.patch.multiple(cost, _PROOF_SECONDS=600.0, _LEAST_PROOF_SECONDS=600.0):
            status, _, messages = run("solve", small, "--cost", costs)
        self.assertEqual(status, 0)
        self.assertIn(LEAST, messages.splitlines())
        self.after_the_engine()
        self.engine(LIES.replace("echo s", "echo c; echo s"), "clasp")
        self.engine("/bin/sleep 1; " + lines("Optimal - objective value 2", " 0 x1 1 1", " 1 x2 1 1"), "cbc")
        with mock.patch.multiple(cost, _PROOF_SECONDS=600.0, _LEAST_PROOF_SECONDS=600.0):
            status, _, messages = run("solve", small, "--cost", costs, "--seconds", "600")
        first, second, *_ = messages.splitlines()
        wanted = "clasp reports that none costs less than its solution, and one does; dlx3 goes on"
        self.assertEqual((status, first, second), (0, wanted, LEAST))

    def test_none_is_a_claim(self):
        for name, script in NO_SOLUTION.items():
            with self.subTest(name):
                self.engine(script, name)
                none = self.file("none.costs", "r1 1\n")
                status, out, messages = run("solve", self.none, "--cost", none)
                self.assertEqual((status, out, messages.splitlines()[0]), (1, "", "Altogether 0 solutions."))
                os.remove(os.path.join(self.folder, "path", name))
        self.dlx3_hangs()
        for name, script in NO_SOLUTION.items():
            with self.subTest(name):
                self.engine(script, name)
                wanted = f"no solution, says {name}; dlx1 hasn't proved it; {HINT}\n"
                self.assertEqual(run("solve", self.none, "--cost", none), (1, "", wanted))
                os.remove(os.path.join(self.folder, "path", name))

    def test_none_where_there_is_one(self):
        self.dlx3_hangs()
        self.engine("/bin/sleep 1; " + RIGHT["cbc"], "cbc")
        for name in ("clasp", "glpsol"):
            self.engine(NO_SOLUTION[name], name)
            with mock.patch.object(cost, "_NONE_SECONDS", 600.0):
                status, out, messages = self.solve("--seconds", "600")
            first, second, *_ = messages.splitlines()
            self.assertEqual((status, out), (0, FOUND))
            self.assertEqual(first, f"{name} reports that there is no solution, and there is one; dlx3 goes on")
            self.assertEqual(second, "2 is the least cost that was found; cbc reports that none is cheaper.")
            os.remove(os.path.join(self.folder, "path", name))

    def test_no_proof(self):
        """What was found is shown, if it is a solution."""
        self.dlx3_hangs()
        wanted = "helgrothy: 2 is the least cost that was found; in 0.5 seconds it wasn't proved that there is no less; --seconds gives more"
        for name, script in FOUND_ONLY.items():
            with self.subTest(name), mock.patch.object(cost, "MOST_SECONDS", 0.5):
                self.engine(script, name)
                status, out, messages = self.solve()
                self.assertEqual((status, out, messages.splitlines()[0]), (2, FOUND, wanted))
                os.remove(os.path.join(self.folder, "path", name))
        for name, script in IN_VAIN.items():
            with self.subTest(name):
                self.engine(script, name)
                status, out, messages = self.solve("--seconds", "1")
                self.assertEqual((status, out), (2, ""))
                self.assertIn("it found none in its time); dlx3 goes on\n", messages)
                self.assertTrue(messages.endswith("helgrothy: no solution was found in 1 seconds\n"), messages)
                os.remove(os.path.join(self.folder, "path", name))

    def test_false_ones(self):
        forget = self.after_the_engine()
        cases = [("clasp", script, wanted) for name, (script, wanted) in FALSE_COSTS.items() if not name.startswith("none")]
        for name, script, wanted in [*cases, *FALSE_PROGRAMS]:
            with self.subTest(name=name, script=script):
                forget()
                self.engine(script, name)
                status, out, messages = self.solve("--seconds", "600")
                first, *rest = messages.splitlines()
                self.assertEqual((status, out, rest[:1]), (0, FOUND, [LEAST]), messages)
                self.assertIn(wanted, first)
                self.assertTrue(first.endswith("; dlx3 goes on"), messages)
                self.assertLess(len(first), 400)
                self.nothing_is_left()
                os.remove(os.path.join(self.folder, "path", name))

    def test_one_that_leaves_a_child_out_of_reach(self):
        """It isn't waited for, though it holds the output."""
        self.after_the_engine()
        other = os.path.join(self.folder, "other")
        self.engine(f"setsid /bin/sleep 1000 & echo $! > {other}; {GOOD}; exit 3", "clasp")
        with mock.patch.dict(os.environ, PATH=f"{os.environ['PATH']}:/usr/bin:/bin"):
            path = [name for name in RIGHT if name != "clasp" and shutil.which(name)]
            with mock.patch.object(sat_solver, "path_of", lambda name: None if name in path else shutil.which(name)):
                status, out, messages = self.solve()
        with open(other) as file:
            os.kill(int(file.read()), signal.SIGKILL)
        self.assertEqual((status, out, messages.splitlines()[1]), (0, FOUND, LEAST))

    def test_one_that_hangs(self):
        """dlx3 answers beside it, and without seconds an engine has a time of its own."""
        deaf = "trap '' XFSZ; while :; do echo $$ $$ $$ $$ $$ $$ $$ $$ $$ $$ >&2; done 2> /dev/null"
        hanging = (HANG, f"/bin/sleep 1000 & echo $! >> PIDS; {HANG}", deaf)
        for script in hanging:
            self.engine(script, *RIGHT)
            status, out, messages = self.solve("--seconds", "600")
            self.assertEqual((status, out, messages.splitlines()[0]), (0, FOUND, LEAST))
            self.nothing_is_left()
        self.after_the_engine()
        for name in list(RIGHT)[1:]:
            os.remove(os.path.join(self.folder, "path", name))
        self.engine(HANG, "clasp")
        with mock.patch.object(sat_solver, "MOST_SECONDS", 0.5):
            messages = self.solve()[2]
        self.assertEqual(messages.splitlines()[:2], ["clasp gave no answer in its time; dlx3 goes on", LEAST])

    def test_where_all_hang(self):
        self.dlx3_hangs()
        self.engine(HANG, *RIGHT)
        self.assertEqual(self.solve("--seconds", "1"), (2, "", "helgrothy: no solution was found in 1 seconds\n"))

    def test_one_that_would_take_too_long_to_write_to(self):
        self.after_the_engine()
        self.engine(HANG, "cbc")
        with mock.patch.object(cost, "_MOST_WRITING", 0.0):
            messages = self.solve()[2]
        self.assertEqual(messages.splitlines()[:2], ["the problem is too large for cbc here; dlx3 goes on", LEAST])

    def test_no_engine(self):
        """The line comes once, soon where there is a terminal, and else at the end."""
        self.dlx3_hangs()
        line = "no solution yet; clasp or cbc, which aren't on the path, may find one"
        for is_terminal in (True, False):
            with mock.patch.object(cost, "_LONG_SECONDS", 0.0), mock.patch.object(Pipe, "isatty", lambda pipe: is_terminal):
                messages = self.solve("--seconds", "1")[2]
            self.assertEqual(messages, f"{line}\nhelgrothy: no solution was found in 1 seconds\n")

    def test_memory(self):
        """A flood takes no more than an answer does, and a little."""
        code = "from helgrothy import cost; cost.MOST_SECONDS = 1.0; from helgrothy.__main__ import main; main()"
        where = {**os.environ, "PYTHONPATH": os.path.dirname(os.path.dirname(engines.__file__))}
        words = [sys.executable, "-c", code, "solve", self.problem, "--cost", self.costs]
        used = {}
        self.program("/bin/sleep 1")
        for name in ("nothing", *(name for name in FALSE_COSTS if "flood" in name or name.endswith("without an end"))):
            self.engine(FALSE_COSTS[name][0], "clasp")
            command = subprocess.Popen(words, env=where, stdout=subprocess.DEVNULL, stderr=subprocess.DEVNULL)
            _, command.returncode, used_by = os.wait4(command.pid, 0)
            self.assertEqual(command.returncode, 0)
            used[name] = used_by.ru_maxrss >> 10
        self.assertLess(max(used.values()), used["nothing"] + 60, used)

    def test_no_folder_is_left(self):
        self.dlx3_hangs()
        folder = os.path.join(self.folder, "temporary")
        os.mkdir(folder)
        with mock.patch("tempfile.tempdir", folder):
            for name, script in RIGHT.items():
                self.engine(f"echo > left; {script}", name)
            self.solve()
        self.assertEqual(os.listdir(folder), [])

    @unittest.skipUnless(REAL_FOR_COSTS, "needs clasp, cbc, glpsol or highs")
    def test_real_ones(self):
        self.dlx3_hangs()
        for name in REAL_FOR_COSTS:
            os.symlink(shutil.which(name, path=PATH), os.path.join(self.folder, "path", name))
            with self.subTest(name):
                self.assertIn(f"; {name} reports that none is cheaper.", self.solve("--seconds", "600")[2])
                messages = run("solve", self.none, "--cost", self.file("none.costs", "r1 1\n"))[2]
                self.assertIn(f"no solution, says {name}; dlx1 hasn't proved it", messages)
            os.remove(os.path.join(self.folder, "path", name))


class Whys(WithEngines):
    """The same for `why` and `lint`."""

    def test_why_with_a_right_one(self):
        self.program("exec /bin/sleep 1000")
        self.engine("echo s UNSATISFIABLE; exit 20")
        status, out, messages = run("why", self.none, "--seconds", "300")
        self.assertEqual(status, 0)
        self.assertIn("no solution, says clasp; dlx1, which would prove it, came to no end in the time\n", out)
        # The problem's options, and a variable for each item that lets it off.
        self.engine(f"echo s SATISFIABLE; echo v {' '.join(VALUES)} 0; exit 10")
        messages = run("why", self.problem, "--seconds", "300")[2]
        self.assertRegex(messages, r"\Acadical found a solution, and dlxcheck judges it .*\nhelgrothy: there is a solution\n\Z")

    def test_why_with_false_ones(self):
        forget = self.after_the_engine()
        for name in ("nonsense", "a wrong solution", "a part of a solution", "dies", "floods", "leaves a child"):
            script, wanted = FALSE[name]
            with self.subTest(name):
                forget()
                self.engine(script, "cadical")
                status, out, messages = run("why", self.problem, "--seconds", "600")
                self.assertEqual((status, out), (1, ""), messages)
                self.assertIn(wanted, messages)
                self.assertTrue(messages.endswith("; dlx2 goes on\nhelgrothy: there is a solution\n"), messages)
                self.nothing_is_left()

    def test_why_with_one_that_hangs(self):
        self.program("exec /bin/sleep 1000")
        self.engine(HANG)
        status, out, messages = run("why", self.problem, "--seconds", "1")
        self.assertEqual((status, out), (2, ""))
        # A machine that does other things too may not come to say more than that the time is over.
        self.assertRegex(messages, "in 1 seconds it isn't known whether there is a solution|it wasn't done in 1 seconds")

    def test_why_without_one(self):
        self.program("exec /bin/sleep 1000")
        messages = run_until("isn't known", "why", self.problem)[2]
        self.assertIn(f"{sat_solver.missing('cadical')}\nhelgrothy: in ", messages)

    @mock.patch.object(acts, "_SEARCH_SECONDS", 60.0)
    def test_lint(self):
        self.assertEqual(run("lint", self.none)[:2], (1, "line 3: dlx1 finds that there is no solution\n"))
        forget = self.after_the_engine()
        self.engine("echo s UNSATISFIABLE; exit 20", "cadical")
        wanted = "line 1: no solution, says cadical; dlx2 hasn't proved it\n"
        self.assertEqual(run("lint", self.problem), (1, wanted, ""))
        for name in ("nonsense", "a wrong solution", "dies", "floods"):
            with self.subTest(name):
                forget()
                self.engine(FALSE[name][0], "cadical")
                status, out, messages = run("lint", self.problem)
                self.assertEqual((status, out), (0, ""))
                self.assertIn(FALSE[name][1], messages)
                self.nothing_is_left()

    @mock.patch.object(acts, "_SEARCH_SECONDS", 1.0)
    def test_lint_with_one_that_hangs(self):
        self.program("exec /bin/sleep 1000")
        self.engine(HANG)
        self.assertEqual(run("lint", self.problem), (0, "", ""))


if __name__ == "__main__":
    unittest.main()

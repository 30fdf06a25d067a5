"""The commands: what they print, and their statuses."""

import contextlib
import gc
import io
import os
import re
import subprocess
import sys
from unittest import mock

from folders import InFolder

from helgrothy import OutOfTime, Problem, export, make, why
from helgrothy.__main__ import main
from helgrothy._cli import solving
from helgrothy._reason import sums

# Each mistake with the line that says what is wrong, and what to do.
MISTAKES = (
    (["sudku"], "helgrothy: sudku: no such command (is it sudoku?); see helgrothy --help"),
    (["xyzzy"], "helgrothy: xyzzy: no such command; see helgrothy --help"),
    (["--all", "sudoku"], "helgrothy: --all: no such option; those of a command come after it; see helgrothy --help"),
    (["make", "kakoru"], "helgrothy make: kakoru: no such kind (is it kakuro?); see helgrothy make --help"),
    (["make", "queens", "8", "--all"], "helgrothy make queens: --all: no such option; see helgrothy make queens --help"),
    (
        ["queens", "8", "--wherever", "3"],
        "helgrothy queens: --wherever: no such option (there are --number, --random, --limit, --all, --count, --chances, --unique, --svg, --html, --json, "
        "--csv, --options, --seed, --seconds, --with, --without, --shuffle, --up-to-symmetry, --cost and --all-costs); see "
        "helgrothy queens --help",
    ),
    (["queens", "8", "--limt=3"], "helgrothy queens: --limt: no such option (is it --limit?); see helgrothy queens --help"),
    (["queens", "8", "--al"], "helgrothy queens: --al: no such option (is it --all or --all-costs?); see helgrothy queens --help"),
    (
        ["count", "queens", "8"],
        "helgrothy count: queens: a problem stands here, and this makes one: helgrothy make queens 8 | helgrothy count; "
        "see helgrothy count --help",
    ),
    (["queens", "8", "9"], "helgrothy queens: 9: one argument too many; see helgrothy queens --help"),
    (["queens"], "helgrothy queens: the following arguments are required: N|REGIONS; see helgrothy queens --help"),
    (["search", "x.dlx", "--lis"], "helgrothy search: --lis: no such option (is it --list?); see helgrothy search --help"),
    (["search", "--fr", "dlx1"], "helgrothy search: --fr: no such option (is it --for?); see helgrothy search --help"),
    (["search"], "helgrothy search: the following arguments are required: PROBLEM; see helgrothy search --help"),
    (["search", "--status", "f", "--list"], "helgrothy search: --status: without --list; see helgrothy search --help"),
    (["search", "--rows", "3", "x.dlx", "--jobs", "2"], "helgrothy search: --rows: without --jobs; see helgrothy search --help"),
    (["export", "cmf"], "helgrothy export: cmf: no such format (is it cnf?); see helgrothy export --help"),
    (["export", "xml"], "helgrothy export: xml: no such format (there are asp, cnf, lp and opb); see helgrothy export --help"),
    (["queens", "abc"], "helgrothy: abc: neither a number nor a file"),
    (["tests", "3,3,x", "--least"], "helgrothy: 3,3,x: neither numbers of values nor a file"),
    (["sudoku", f"{'1' * 299}!"], f"helgrothy: {'1' * 60} ..: neither clues nor a file"),
    (["polyominoes", "pentomino", "6x10"], "helgrothy: pentomino: neither a set of pieces nor a file (is it pentominoes?)"),
    (["polyominoes", "pentominoes", "6x"], "helgrothy: 6x: neither ROWSxCOLUMNS nor a file"),
    (["polycubes", "somma", "3x3x3"], "helgrothy: somma: neither a set of pieces nor a file (is it soma?)"),
    (["polycubes", "soma", "3x3 x3"], "helgrothy: 3x3 x3: neither LAYERSxROWSxCOLUMNS nor a file"),
    (["langford", "x"], "helgrothy langford: argument N: x: it has to be a number; see helgrothy langford --help"),
    (["kakuro", "nowhere"], "helgrothy: nowhere: No such file or directory"),
)

PACKAGE = os.path.dirname(os.path.dirname(os.path.abspath(__file__)))


class Pipe(io.TextIOWrapper):
    def __init__(self, raw: bytes = b"") -> None:
        super().__init__(io.BytesIO(raw), encoding="utf-8", write_through=True)

    def text(self) -> str:
        return self.buffer.getvalue().decode()


def run(*words: str, given: str = ""):
    """A command's status, standard output and standard error."""
    out, error = Pipe(), Pipe()
    with mock.patch.object(sys, "stdin", Pipe(given.encode())):
        with contextlib.redirect_stdout(out), contextlib.redirect_stderr(error):
            try:
                status = main(words)
            except SystemExit as ended:
                status = ended.code
    return status, out.text(), error.text()


def run_until(pattern: str, *words: str, given: str = ""):
    """The same, with ever more seconds, until standard error says this: a machine that does other things takes longer."""
    for seconds in ("0.5", "5", "50"):
        done = run(*words, "--seconds", seconds, given=given)
        if re.search(pattern, done[2]):
            break
    return done


class Commands(InFolder):
    def test_make_solve_and_draw(self):
        status, text, _ = run("make", "queens", "4")
        self.assertEqual((status, text), (0, make.queens.problem(4).text))
        board = ". . Q .\nQ . . .\n. . . Q\n. Q . .\n"
        self.assertEqual(run("solve", given=text), (0, board, "Altogether 1 solution (limit).\n"))
        self.assertEqual(run("queens", "4", "--all")[1].count("\n\n"), 1)
        self.assertEqual(run("queens", "4", "--number", "2")[1][:7], ". Q . .")
        status, _, messages = run("queens", "3")
        self.assertEqual((status, messages.splitlines()[0]), (1, "Altogether 0 solutions."))
        path = self.file("q.dlx", text)
        listing = "2:\n r1 c3 a3 b6 (1 of 2)\n"
        self.assertEqual(run("draw", path, given=listing)[:2], (0, ". . Q .\n" + ". . . .\n" * 3))
        self.assertEqual(run("draw", path, "--number", "1", given=listing)[0], 1)
        self.assertTrue(run("draw", path, "--svg", given=listing)[1].startswith("<svg"))

    def test_patterns(self):
        path = self.file("p.dlx", "a1 a2 b1 b2 | F G\na1 a2 F\nb1 b2 G\n")
        listing = "1:\n a2 F a1 (1 of 1)\n b1 b2 G (1 of 1)\n"
        words = ("draw", path, "--cell", r"(?P<column>[ab])(?P<row>\d)", "--label", "[FG]")
        self.assertEqual(run(*words, given=listing)[:2], (0, "F G\nF G\n"))
        self.assertEqual(run("draw", path, "--cell", "(", given=listing)[0], 2)
        self.assertEqual(run("draw", path, given=listing)[0], 2)
        self.assertEqual(run("solve", path)[1], "a1 a2 F\nb1 b2 G\n")

    def test_lint_why_export(self):
        self.assertEqual(run("lint", given="A\nA\n"), (0, "", ""))
        self.assertEqual(run("lint", given="A\nB\n")[:2], (1, "line 1: A: in no option: there is no solution\nline 2: B: unknown item\n"))
        self.assertEqual(run("lint", "--for", "dlx1", given="2|A\nA\nA\n")[0], 1)
        self.assertEqual(run("why", given="A\nA\n"), (1, "", "helgrothy: there is a solution\n"))
        self.assertEqual(run("why", given="A B\nA\n")[1].splitlines()[0], "can't all be held: B")
        self.assertEqual(run("export", "cnf", given="A\nA\n")[1].splitlines()[1:], ["p cnf 1 1", "1 0"])
        path = self.file("costs", "A 2.5\nB -1\n")
        status, text, messages = run("export", "lp", "--cost", path, given="A B\nA\nB\nA B\n")
        self.assertEqual((status, text.splitlines()[2], messages), (0, " obj: + 2.5 x1 - 1 x2 + 1.5 x3", ""))
        self.assertEqual(run("export", "cnf", "--cost", path, given="A\nA\n")[2], "helgrothy: --cost isn't of cnf, which has no costs; asp, opb and lp have them\n")
        self.assertEqual(run("export", "lp", "--cost", "-")[0], 2)
        wishes = run("make", "roster", self.file("roster", "- mon\nearly 1\n\nann 0:1 early=3\nbob 0:1\n"))[1]
        self.assertIn("+ 3 x", run("export", "lp", given=wishes)[1])

    def test_many_lines(self):
        """They are written at once by a thousand, and come as the calls give them."""
        self.assertEqual(run("make", "langford", "11")[1], make.langford.problem(11).text)
        for items in (499, 999, 1000, 2345):
            problem = Problem(range(items), options=[[number] for number in range(items)])
            for name, form in export.FORMATS.items():
                lines = "".join(f"{line}\n" for line in form(Problem.parse(problem.text)))
                self.assertEqual(run("export", name, given=problem.text), (0, lines, ""))
        self.assertTrue(gc.isenabled())

    # A machine that does other things too finds none in a second or two.
    @mock.patch.object(solving, "_REASON_SECONDS", 99.0)
    @mock.patch.object(sums, "search", lambda problem, _, search=sums.search: search(problem, 100.0))
    @mock.patch("helgrothy.lint.search", lambda problem, _: sums.search(problem, 100.0))
    def test_no_solution_has_its_reason(self):
        wanted = "Altogether 0 solutions.\ncan't all be held: B\nit is in no option\n"
        self.assertEqual(run("solve", given="A B\nA\n"), (1, "", wanted))
        status, _, messages = run("sudoku", "55" + "." * 79)
        self.assertIn("r1c1 r1c2 ask for 2 in all, and r1=5 allows 1\n", messages)
        remarks = run("lint", given=run("make", "sudoku", "55" + "." * 79)[1])[1]
        self.assertIn("the sums can't work: r1c1 r1c2 ask for 2 in all, and r1=5 allows 1: there is no solution\n", remarks)
        grid, words = self.file("grid.txt", "..#\n#.#\n"), self.file("words.txt", "cat dog")
        messages = run("words", grid, words)[2]
        self.assertIn("can't all be held: across-r1c1\nit is in no option\n", messages)
        box = "F I L N P T U V W X Y Z ask for 60 in all, 5 each, and the 54 items r1c1 r1c2 r1c3 .. allow 54"
        self.assertIn(f"{box}: there is no solution\n", run("polyominoes", "pentominoes", "6x9")[2])
        self.assertIn(f"{box}: there is no solution\n", run("lint", given=run("make", "polyominoes", "pentominoes", "6x9")[1])[1])
        with mock.patch.object(why, "find", side_effect=OutOfTime("no")):
            messages = run("queens", "3")[2]
        self.assertRegex(messages, "no reason was found in [0-9.]+ seconds; `helgrothy why` may look longer\n")
        found = r"[0-9]+ solutions? till then\n\Z"
        status, _, messages = run_until(found, "langford", "15", "--all")
        self.assertEqual(status, 2)
        self.assertRegex(messages, found)

    def test_failures(self):
        for words, wanted in (
            (("solve", "missing.dlx"), "helgrothy: missing.dlx: No such file or directory\n"),
            (("sudoku", "12"), "helgrothy: line 1: 2 places; a Sudoku of 9 rows has 81, one of 4 to 25 rows as many as its square\n"),
            (("draw", "-"), "helgrothy: the problem is a file; the listing or answer comes from standard input\n"),
            (("solve",), "helgrothy: standard input: line 1: no items\n"),
            (("queens", "4", "--svg", "--all"), "helgrothy: an SVG is of one solution: --number says which\n"),
        ):
            with self.subTest(words=words):
                self.assertEqual(run(*words), (2, "", wanted))
        for words in ((), ("nothing",), ("queens", "4", "--limit", "0")):
            self.assertEqual(run(*words)[0], 2)
        self.assertEqual(run("--help")[0], 0)

    def test_mistakes(self):
        for words, wanted in MISTAKES:
            with self.subTest(words=words):
                self.assertEqual(run(*words), (2, "", f"{wanted}\n"))

    def test_no_such_solution(self):
        for words in ((), ("--json",), ("--shuffle", "3")):
            done = run("queens", "6", "--number", "9", *words)
            self.assertEqual(done, (1, "", "Altogether 4 solutions.\nhelgrothy: there is no solution 9: --number takes 1 to 4\n"))
        self.assertIn("no solution 5000: --number takes 1 alone\n", run("queens", "1", "--number", "5000")[2])
        self.assertNotIn("no solution 9", run("queens", "3", "--number", "9")[2])
        board = make.queens.problem(6)
        path = self.file("q.dlx", board.text)
        for given, wanted in (
            ([2, 4], "the listing has no solution 9: its numbers are 2 to 4"),
            ([3], "the listing has no solution 9: its numbers are 3"),
            ([], "the listing has no solution to draw; with m1 a program lists each, with m1 t1 the first"),
        ):
            listing = b"".join(line for number in given for line in board._listing([board.solution(number)], number))
            wanted = (1, "", f"helgrothy: {wanted}\n")
            self.assertEqual(run("draw", path, "--number", "9", given=listing.decode()), wanted)

    def test_help_has_groups(self):
        def groups(*words):
            printed = run(*words, "--help")[1].partition("\n\n")[2]
            parts = re.findall(r"^([\w ]+):\n((?:(?: .*)?\n)+)", printed, re.MULTILINE)
            return {title: re.findall(r"^  (?:-h, )?(--[\w-]+|[A-Z|]+)", text, re.MULTILINE) for title, text in parts}

        own = groups("polyominoes")
        self.assertEqual(list(own)[1:], ["of this kind", "which solutions", "what to show"])
        self.assertEqual(own["of this kind"], ["PIECES", "REGION", "--no-turns", "--no-mirrors", "--some"])
        self.assertEqual(own["what to show"][:4], ["--svg", "--html", "--json", "--csv"])
        self.assertLess({"--number", "--all", "--with", "--cost"}, set(own["which solutions"]))
        self.assertIn("--least", groups("tests")["of this kind"])
        self.assertIn("--cell", groups("solve")["what to show"])
        self.assertEqual(groups("hint", "roundrobin")["of this kind"], ["TEAMS", "--double", "--in-a-row"])

    def test_as_a_program(self):
        how = {"cwd": PACKAGE, "capture_output": True, "text": True}
        done = subprocess.run([sys.executable, "-m", "helgrothy", "--version"], **how)
        self.assertEqual(done.stdout, "helgrothy 0.1.0\n")
        script = f"{sys.executable} -m helgrothy queens 10 --all | head -n 1"
        done = subprocess.run(["sh", "-c", script], **how)
        self.assertEqual((done.stdout.count("\n"), done.stderr), (1, ""))

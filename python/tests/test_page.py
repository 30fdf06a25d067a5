"""Pages of solutions: what stands in them, whatever the names are, and how the search went to each."""

import base64
import contextlib
import errno
import glob
import hashlib
import html.parser
import http.client
import json
import os
import re
import resource
import selectors
import shutil
import signal
import socket
import subprocess
import sys
import tempfile
import threading
import time
import unittest
import urllib.parse
from unittest import mock

from test_commands import run

from helgrothy import HelgrothyError, Problem, cost, make
from helgrothy._page import answer, answering, folders, forms, server, terms, waiting
from helgrothy._page.document import document, frame
from helgrothy._page.examples import examples, first_of
from helgrothy._page.record import Record
from helgrothy._page.start import start
from helgrothy._run.programs import Run
from helgrothy._run.wire import OfNumbers
from helgrothy._text.listing import branch_of

EVIL = [
    "</script><script>alert(1)</script>", "<img/src=x/onerror=alert(2)>", "<!--", "]]>", "{{data}}", "&lt;b>", "\"onload='x'",
    "\x1b[2J", "\u202egnp", "javascript.alert(3)", "<svg/onload=alert(4)>", "__proto__", "constructor", "null",
]  # fmt: skip


# What a picture needs of a browser, and four pictures one after another; the second one's options are opened.
DOCUMENT = """
const parts = {};
function part() {
  const names = new Set();
  const toggle = (name, on) => (on ? names.add(name) : names.delete(name));
  return { names, open: true, style: {}, classList: { contains: (name) => names.has(name), toggle }, replaceChildren() {} };
}
globalThis.document = { getElementById: (id) => (parts[id] ??= part()), documentElement: { dataset: {} } };
globalThis.localStorage = { getItem: () => null };
globalThis.matchMedia = () => ({ matches: false, addEventListener() {} });
"""
SIZES = """
const seen = [];
function show(wide) {
  const picture = { style: {}, querySelectorAll: () => [], querySelector: () => null, classList: part().classList };
  const viewer = { picture: () => picture, sizeOf: () => [wide, 400], widen: Viewer.prototype.widen };
  Viewer.prototype.showPicture.call(viewer, {}, false);
  seen.push([[...parts.single.names], parts.chosen?.open ?? true]);
}
show(400);
show(1400);
parts.chosen.open = true;
show(1300);
show(300);
console.log(JSON.stringify(seen));
"""


class Document(html.parser.HTMLParser):
    """A document's elements, its scripts and style, and what it says in them."""

    def __init__(self, text: str) -> None:
        super().__init__()
        self.elements = []
        self.texts = {}
        self.policy = ""
        self._inside = ""
        self.feed(text)

    def handle_starttag(self, tag, attributes):
        given = dict(attributes)
        self.elements.append((tag, given))
        self._inside = given.get("type", tag)
        if given.get("http-equiv") == "Content-Security-Policy":
            self.policy = given["content"]

    def handle_data(self, text):
        self.texts[self._inside] = self.texts.get(self._inside, "") + text

    def handle_endtag(self, tag):
        self._inside = ""

    def lines(self):
        return json.loads(self.texts["application/json"])


def evil() -> Problem:
    """Each evil name in an option of its own, as an item and, as far as it may be one, as a colour."""
    return Problem(EVIL, True, [{name: None, f"at{number}": name[:8]} for number, name in enumerate(EVIL)])


class Steps(unittest.TestCase):
    PROBLEMS = [
        make.queens.problem(6),
        make.words.problem("...\n...\n", "tea ear tar ate eat rat art oat era are".split()),
        make.roster.problem("- mon tue\nearly 1 1\nlate 1 0:1\n\nann 1:2\nbob 1 -tue\ncat 0:2 -late\n"),
        Problem({"a": (1, 3), "b": (0, 2)}, "x", [("a",), ("a", "x"), ("a", "b"), ("b", "x")]),
        evil(),
    ]

    def test_steps_are_those_of_the_program(self):
        for problem in self.PROBLEMS:
            with Run(f"dlx{problem.kind}", ["m1"], [problem.text.encode("utf-8", "surrogateescape")]) as going:
                lines = b"".join(going.chunks()).splitlines(True)
            listed = list(problem.listed(lines))
            wanted = [
                (int(k), int(n)) for k, n in re.findall(rb" \(([0-9]+) of ([0-9]+)\)\n", b"".join(lines))
            ]
            steps = [solution.steps for solution in problem.solve()]
            self.assertEqual([(step.branch, step.branches) for one in steps for step in one], wanted)
            self.assertEqual([one.steps for one in listed], steps)
            for solution, its in zip(problem.solve(), steps):
                self.assertEqual([step.option for step in its if step.option is not None], solution.numbers)

    def test_a_step_of_none(self):
        problem = self.PROBLEMS[3]
        steps = [step for solution in problem.solve() for step in solution.steps]
        self.assertIn(None, [step.option for step in steps])
        for step in steps:
            self.assertIn(step.item, ("a", "b"))
            self.assertLessEqual(step.branch, step.branches)
        self.assertEqual(branch_of(b" null a b (2 of 3)", False), (b"null", 2, 3))
        self.assertEqual(branch_of(b" null a (2 of 3)", True), (b"a", 2, 3))


class File(unittest.TestCase):
    def page(self, *words, given="", status=0):
        got, text, messages = run(*words, "--html", given=given)
        self.assertEqual(got, status, messages)
        return Document(text)

    def test_all_of_it_stands_in_the_file(self):
        page = self.page("queens", "6", "--all")
        first, *solutions, last = page.lines()
        board = make.queens.problem(6)
        self.assertEqual(first["problem"]["text"], board.text.splitlines())
        self.assertEqual((first["problem"]["primary"], first["problem"]["secondary"]), (12, 18))
        self.assertEqual(last, {"end": {"total": 4, "complete": True, "notes": []}})
        options, elements = {}, []
        for line, solution in zip(solutions, board.solve()):
            found = line["solution"]
            options.update(found.get("options", {}))
            elements += found.get("elements", [])
            self.assertEqual(found["steps"], [[it.item, it.option + 1, it.branch, it.branches] for it in solution.steps])
            lines = [options[str(option)] for _, option, _, _ in found["steps"]]
            self.assertEqual(lines, [board.line(option) for option in solution])
            drawn = [elements[number] for number in found["picture"]]
            svg = board.draw(solution).svg()
            self.assertEqual(len(drawn), len(re.findall("<(?!/|title)", svg)) + 1)
            self.assertEqual(drawn[0][:1], ["svg"])
            self.assertEqual(drawn[1], ["title", {}, "queens on a board"])
        self.assertNotIn("src", {key for _, attributes in page.elements for key in attributes})
        self.assertNotIn("href", {key for _, attributes in page.elements for key in attributes})

    def test_the_policy_is_that_of_its_script_and_style(self):
        status, text, _ = run("queens", "4", "--html")
        policy = Document(text).policy
        self.assertEqual(status, 0)
        for kind, inside in (("script", re.findall(r"<script>(.*?)</script>", text, re.DOTALL)), ("style", re.findall(r"<style>(.*?)</style>", text, re.DOTALL))):
            digest = base64.b64encode(hashlib.sha256(inside[0].encode()).digest()).decode()
            self.assertEqual(len(inside), 1)
            self.assertIn(f"{kind}-src 'sha256-{digest}'", policy)
        self.assertTrue(policy.startswith("default-src 'none'; "))
        for word in ("unsafe", "http", "data:", "*", "connect-src"):
            self.assertNotIn(word, policy)

    def test_what_is_around_the_data(self):
        before, between, behind = frame(["viewer.html"], ["viewer.js", "file.js"])
        whole = document(["viewer.html"], "a <b>", ["viewer.js", "file.js"], ['"</script>"'])
        self.assertEqual(whole, f'{before}a &lt;b&gt;{between}["\\u003c/script\\u003e"]{behind}')

    def test_the_options_are_in_a_fold(self):
        elements = Document(run("queens", "4", "--html")[1]).elements
        self.assertIn(("details", {"id": "chosen", "open": None}), elements)
        ids = [attributes.get("id") for _, attributes in elements]
        self.assertLess(ids.index("picture"), ids.index("chosen"))
        self.assertLess(ids.index("chosen"), ids.index("steps"))

    @unittest.skipUnless(shutil.which("node"), "needs node")
    def test_a_wide_picture_has_the_whole_width(self):
        """And the options are folded under it, until they are opened."""
        with open(os.path.join(os.path.dirname(answer.__file__), "parts", "viewer.js"), encoding="utf-8") as file:
            script = file.read()
        asked = subprocess.run(["node", "-"], input=DOCUMENT + script + SIZES, capture_output=True, text=True, check=True)
        narrow, wide, opened, again = json.loads(asked.stdout)
        self.assertEqual(narrow, [[], True])
        self.assertEqual(wide, [["wide"], False])
        self.assertEqual(opened, [["wide"], True])
        self.assertEqual(again, [[], True])

    def test_names_are_text(self):
        problem = evil()
        usual = [tag for tag, _ in self.page("solve", given="A\nA\n").elements]
        for more in ((), ("--cell", r"at(\d+)"), ("--row", r"at\d+", "--label", r"\S+")):
            page = self.page("solve", *more, given=problem.text)
            self.assertEqual([tag for tag, _ in page.elements], usual)
            solution = page.lines()[1]["solution"]
            self.assertEqual(len(solution["steps"]), len(EVIL))
            self.assertIn(r"\x1b[2J", [step[0] for step in solution["steps"]])
            self.assertNotIn("<", page.texts["application/json"])

    def test_choice_and_end(self):
        self.assertEqual(len(self.page("queens", "6").lines()), 3)
        self.assertEqual(self.page("queens", "6").lines()[-1]["end"]["complete"], False)
        lines = self.page("queens", "6", "--number", "3").lines()
        self.assertEqual([it["solution"]["number"] for it in lines[1:-1]], [3])
        lines = self.page("solve", given="A B\nA\n", status=1).lines()
        self.assertEqual(lines[-1]["end"], {"total": 0, "complete": True, "notes": ["can't all be held: B", "it is in no option"]})
        lines = self.page("langford", "15", "--all", "--seconds", "5", status=2).lines()
        self.assertRegex(lines[-1]["end"]["notes"][0], "took longer than it was given|wasn't done in 5 seconds")
        self.assertEqual(lines[-1]["end"]["total"] > 0, len(lines) > 2)
        self.assertEqual(run("solve", "--html", "--svg", given="A\nA\n")[0], 2)
        self.assertEqual(run("solve", "--html", "--cell", "(z)(z)", given="A\nA\n")[:2], (2, ""))

    def test_of_a_listing(self):
        problem = make.queens.problem(4)
        with tempfile.NamedTemporaryFile("w", suffix=".dlx") as file:
            file.write(problem.text)
            file.flush()
            listing = "1:\n r1 c3 a3 b6 (1 of 2)\n null r2 (7 of 9)\n"
            lines = self.page("draw", file.name, given=listing).lines()
        self.assertEqual(lines[1]["solution"]["steps"], [["r1", 3, 1, 2], ["r2", 0, 7, 9]])

    def test_a_long_problem_is_cut(self):
        problem = Problem(["a"], True, [["a", f"x{number}"] for number in range(60_000)])
        shown = json.loads(Record(problem, None).problem())["problem"]
        self.assertTrue(shown["more"])
        self.assertLess(len("".join(shown["text"])), 300_000)


class Forms(unittest.TestCase):
    def setUp(self):
        folder = tempfile.TemporaryDirectory()
        self.addCleanup(folder.cleanup)
        self.folder = folder.name
        self.addCleanup(os.chdir, os.getcwd())
        self.leave()

    def leave(self):
        """Goes to a folder that is empty."""
        os.chdir(tempfile.mkdtemp(dir=self.folder))

    def test_examples_are_problems_with_solutions_and_pictures(self):
        known = {form["name"]: form for form in forms.forms()}
        self.assertEqual(set(known), set(make.KINDS))
        titles = [example["title"] for example in examples()]
        self.assertEqual(len(titles), len(set(titles)))
        for example in examples():
            with self.subTest(title=example["title"]):
                self.leave()
                ways = {name: example[name] for name in ("kind", "values", "text", "cell", "grid", "row", "column", "label", "costs")}
                ways["way"] = "cheapest" if example["costs"] else ""
                lines = list(answer.answer(answer.Request("solve", limit=1, seconds=60.0, **ways)))
                found = json.loads(lines[1])["solution"]
                has_patterns = any(example[name] for name in ("cell", "row", "column", "label"))
                self.assertEqual("picture" in found, bool(example["kind"]) or has_patterns)
                if example["kind"]:
                    fields = {field["name"] for field in known[example["kind"]]["fields"]}
                    self.assertLessEqual(set(example["values"]), fields)
        json.dumps(start())

    def test_all_is_called_by_words(self):
        """Each kind has a title, and each field a label and no help that speaks of files."""
        for form in forms.forms():
            with self.subTest(kind=form["name"]):
                self.assertIn(form["name"], terms.TITLES)
                self.assertEqual({field["name"] for field in form["fields"]} - set(terms.FIELDS[form["name"]]), set())
                for field in form["fields"]:
                    self.assertRegex(field["label"], r"\A[A-Z][a-z']+( |\Z)")
                    self.assertNotRegex(field["help"], r"\bfile|standard input|--|^[a-z].*[^.]$")
        polyominoes = next(form for form in forms.forms() if form["name"] == "polyominoes")
        self.assertEqual([it["label"] for it in polyominoes["fields"] if it["forbids"]], ["Pieces may be turned", "Pieces may be mirrored"])

    def test_options_and_texts(self):
        region = forms.problem("polyominoes", {"pieces": "L\nLL\n\nII", "region": "...\n.#.\n", "no_turns": True})
        self.assertIn("...", region.comments)
        with self.assertRaises(FileExistsError):
            forms.problem("polyominoes", {"pieces": "L\nLL", "region": "..."})
        self.leave()
        self.assertEqual(forms.problem("queens", {"board": "5"}).text, make.queens.problem(5).text)
        self.leave()
        rows = first_of("sudoku")["clues"]
        clues = rows.replace("\n", "")
        self.assertEqual(forms.problem("sudoku", {"clues": rows}).text, forms.problem("sudoku", {"clues": clues}).text)

    def test_the_text_of_a_kind(self):
        (line,) = answer.answer(answer.Request("make", kind="queens", values={"board": "6"}))
        self.assertEqual(json.loads(line), {"text": make.queens.problem(6).text})

    def test_no_other_file_is_read(self):
        with tempfile.NamedTemporaryFile("w", suffix=".txt") as file:
            file.write("aabb\naabb\nccdd\nccdd\n")
            file.flush()
            name = os.path.basename(file.name)
            os.symlink(file.name, "link")
            with self.assertRaises(FileExistsError):
                forms.problem("queens", {"board": "link"})
            for word in (file.name, f"../{name}", f"/{file.name}", "/dev/stdin", "/proc/self/environ", ".."):
                self.leave()
                with self.subTest(word=word), self.assertRaises((ValueError, HelgrothyError)) as caught:
                    forms.problem("queens", {"board": word})
                # It is taken for a picture of one row.
                self.assertIn("line 1", str(caught.exception))
        for word in ("-", ".", "~"):
            self.leave()
            self.assertEqual(len(forms.problem("queens", {"board": word}).options), 1)

    def test_faults(self):
        for kind, values in (
            ("nothing", {}), ("queens", {}), ("queens", {"board": "-3"}), ("queens", {"board": "--help"}), ("queens", {"board": 8}),
            ("langford", {"pairs": "x"}), ("polyominoes", {"pieces": "pentominoes"}), ("sudoku", {"clues": "\udcff\0"}),
            ("roster", {"table": "a" * 5000}), ("words", {"grid": "..", "list": "\x1b[2J"}),
        ):  # fmt: skip
            self.leave()
            with self.subTest(kind=kind, values=values), self.assertRaises((ValueError, HelgrothyError)):
                problem = forms.problem(kind, values)
                raise ValueError(f"{len(problem.options)} options") if kind == "words" else AssertionError


class Requests(unittest.TestCase):
    def test_what_is_no_request(self):
        for raw in (
            b"", b"[]", b"null", b"{", b"\xff", b'{"what":"read"}', b'{"what":"__init__"}', b'{"way":"x"}', b'{"text":1}', b'{"limit":0}', b'{"limit":1001}', b'{"limit":true}',
            b'{"limit":1.5}', b'{"seconds":0}', b'{"seconds":1e9}', b'{"seconds":NaN}', b'{"values":[]}', b'{"file":"x"}',
            b'{"limit":' + b"9" * 5000 + b"}",
        ):  # fmt: skip
            with self.subTest(raw=raw[:30]), self.assertRaises(ValueError):
                answer.Request.of(raw)
        self.assertEqual(answer.Request.of(b'{"text":"a","limit":7}'), answer.Request(text="a", limit=7))

    def test_the_text_of_a_problem(self):
        self.assertEqual(self.answer(what="make", text="a b\na b\n"), [{"text": "a b\na b\n"}])
        self.assertIn("unknown item", self.answer(what="make", text="a\nb\n")[0]["error"])
        with mock.patch.object(answer, "_MOST_BYTES", 3):
            self.assertIn("too large for a page", self.answer(what="make", text="a b\na b\n")[0]["error"])

    def test_chances(self):
        *_, last = self.answer(what="chances", text=make.queens.problem(6).text, seconds=60.0)
        self.assertEqual((last["chances"]["total"], last["chances"]["elements"][0][0]), ("4", "svg"))
        *_, last = self.answer(what="chances", text="a b\na b\n", seconds=60.0)
        self.assertIn("this problem has no picture", last["error"])

    def test_cells_of_a_grid(self):
        given = {"what": "solve", "text": "r1c1 r1c2 r2c1\nr1c1 r1c2\nr2c1\n", "cell": r"r(\d)c(\d)"}
        polygons = []
        for grid in ("", "hex", "triangle"):
            _, solution, _ = self.answer(**given, grid=grid)
            polygons.append(sum("fill" in it[1] and it[0] == "path" and "L" in it[1]["d"] for it in solution["solution"]["elements"]))
        self.assertEqual([polygons[0], min(polygons[1:]) > 0], [0, True])
        self.assertEqual(self.answer(**given, grid="cubes"), [{"error": "cubes: no such grid"}])
        del given["cell"]
        self.assertNotIn("error", self.answer(**given, grid="hex")[-1])
        *_, last = self.answer(what="solve", text=make.polyforms.problem("tetrahexes", "4x7").text, way="symmetry")
        self.assertEqual(last["end"]["total"], 9)

    def test_one_of_all_solutions(self):
        given = {"what": "solve", "text": make.queens.problem(6).text, "way": "one"}
        some = list(make.queens.problem(6).solve())
        with mock.patch.object(Problem, "random", lambda self, *, seconds: some[2]):
            _, solution, *last = self.answer(**given, seconds=60.0)
        self.assertEqual([it[1] - 1 for it in solution["solution"]["steps"]], some[2].numbers)
        self.assertEqual(last, [{"end": {"total": 1, "complete": False, "notes": []}}, {"counting": True}, {"count": "4"}])
        with mock.patch.object(Problem, "random", lambda self, *, seconds: None):
            lines = self.answer(what="solve", text="a b\na\n", way="one")
        self.assertEqual(lines[-1]["end"]["notes"], ["can't all be held: b", "it is in no option"])

    def test_the_cheapest(self):
        given = {"what": "solve", "text": "A B\nA\nB\nA B\n", "way": "cheapest", "seconds": 60.0}
        _, solution, last = self.answer(**given, costs="A 3\r\nB 2\r\nA B -1\r\n")
        self.assertEqual(solution["solution"]["options"], {"3": "A B"})
        self.assertEqual(last["end"]["total"], 1)
        found, *wishes = last["end"]["notes"]
        self.assertRegex(found, r"\Athe least cost is 4, as [\w ]+ (?:found|show)\Z")
        self.assertEqual(wishes, ["3 by line 1: A 3", "2 by line 2: B 2", "-1 by line 3: A B -1"])

        def least(problem, costs, seconds, say):
            say("clasp gave no answer in its time; dlx3 goes on")
            found = cost.Least(OfNumbers(problem), [2], 4, by)
            found.is_proved = by == "states"
            return found

        for by, wanted in (
            ("states", "the least cost is 4, as a sweep over states found"),
            ("cbc", "4 is the least cost that was found; cbc reports that none is cheaper"),
        ):
            with mock.patch.object(answer.cost, "least", least):
                first, second, *_ = self.answer(**given, costs="A 4")[-1]["end"]["notes"]
            self.assertEqual((first, second), ("clasp gave no answer in its time; dlx3 goes on", wanted))
        # Negative numbers, colours, patterns, and a number for each option.
        for text, costs, wanted in (
            ("A B\nA\nB\nA B\n", "A B 9\nB -1\n", "-1"), ("A B\nA\nB\nA B\n", "1 2 4\n", "3"),
            ("A | x\nA x:a\nA x:b\n", "x:a 0.5\nA 1\n", "1"), ("a1 a2\na1 a2\n", "a? 7\n", "7"),
        ):  # fmt: skip
            *_, last = self.answer(**{**given, "text": text}, costs=costs)
            self.assertIn(f"the least cost is {wanted}, ", last["end"]["notes"][0])
        for costs, wanted in (("", "no costs are given"), ("A\n", "costs: line 1: A: no cost"), ("C 1", "costs: line 1: C 1: C: no such item")):
            self.assertIn(wanted, self.answer(**given, costs=costs)[-1]["error"])
        *_, last = self.answer(**{**given, "text": "A B\nA\n"}, costs="A 1")
        self.assertEqual(last["end"], {"total": 0, "complete": True, "notes": ["can't all be held: B", "it is in no option"]})

    def test_the_cheapest_of_a_kind(self):
        table = "-     mon tue\nearly 1   1\n\nann 0:2 tue=2\nbob 0:2\n"
        given = {"what": "solve", "kind": "roster", "values": {"table": table}, "way": "cheapest", "seconds": 60.0}
        notes = {}
        for costs in ("", "bob 3"):
            with tempfile.TemporaryDirectory() as folder, contextlib.ExitStack() as stack:
                stack.callback(os.chdir, os.getcwd())
                os.chdir(folder)
                notes[costs] = self.answer(**given, costs=costs)[-1]["end"]["notes"]
        self.assertEqual([text.partition(",")[0] for text in (notes[""][0], notes["bob 3"][0])], ["the least cost is 0", "the least cost is 2"])
        self.assertEqual(notes["bob 3"][1:], ["2 by line 4 of the table: ann tue=2"])

    def answer(self, **request):
        return [json.loads(line) for line in answer.answer(answer.Request(**request))]

    def test_answers(self):
        remarks = self.answer(what="lint", text="a b\na\nb\nc\n")
        self.assertEqual(remarks, [{"remarks": [{"line": 4, "token": "c", "name": "c", "text": "unknown item", "fault": True}]}])
        first, *solutions, last = self.answer(what="solve", text=make.queens.problem(6).text)
        self.assertEqual((first["problem"]["options"], len(solutions)), (36, 4))
        self.assertEqual(last, {"end": {"total": 4, "complete": True, "notes": []}})
        self.assertEqual(self.answer(what="solve", text="a\nb\n")[0]["error"], "the text has faults")
        lines = self.answer(what="solve", text=make.queens.problem(8).text, limit=3, seconds=60.0)
        self.assertEqual(len(lines), 7)
        self.assertEqual(lines[-3:], [{"end": {"total": 3, "complete": False, "notes": []}}, {"counting": True}, {"count": "92"}])
        self.assertEqual(len(self.answer(what="solve", text=make.queens.problem(8).text, way="symmetry")), 14)
        shuffled = self.answer(what="solve", text=make.queens.problem(6).text, way="random")[1]["solution"]["steps"]
        self.assertEqual(len(shuffled), 6)
        self.assertIn("takes a board", self.answer(what="solve", text="a\na\n", way="symmetry")[-1]["error"])
        self.assertEqual(self.answer(what="solve", text="a\na\n", cell="(")[0]["error"][:19], "a pattern is wrong:")
        ended = self.answer(what="solve", text="a b\na\n")[-1]["end"]
        self.assertEqual(ended["notes"], ["can't all be held: b", "it is in no option"])
        ended = self.answer(what="solve", text=make.langford.problem(14).text, seconds=4.0)[-1]["end"]
        self.assertEqual(ended, {"total": 0, "complete": False, "notes": ["4 seconds are over"]})


class Served(unittest.TestCase):
    """The server, asked by someone who isn't a browser."""

    @classmethod
    def setUpClass(cls):
        cls.server = server.Server(0, "[]")
        cls.thread = threading.Thread(target=cls.server.serve_forever, args=[0.05])
        cls.thread.start()

    @classmethod
    def tearDownClass(cls):
        cls.server.shutdown()
        cls.thread.join()
        cls.server.close()

    def ask(self, method="POST", path="/{word}/answer", body=b'{"what":"lint","text":"a\\na\\n"}', leave_out=(), **headers):
        port = self.server.port
        usual = {"Host": f"127.0.0.1:{port}", "Origin": f"http://127.0.0.1:{port}", "Content-Type": "application/json"}
        sent = {**usual, "Content-Length": str(len(body)), **{name.replace("_", "-"): value for name, value in headers.items()}}
        connection = http.client.HTTPConnection("127.0.0.1", port, timeout=60)
        connection.putrequest(method, path.format(word=self.server.word), skip_host=True, skip_accept_encoding=True)
        for name, value in sent.items():
            if name not in leave_out:
                connection.putheader(name, value.format(port=port))
        connection.endheaders(body)
        try:
            response = connection.getresponse()
            return response.status, response.read().decode(), response.headers
        except (http.client.BadStatusLine, ConnectionResetError):
            return 0, "", {}
        finally:
            connection.close()

    def test_who_is_welcome(self):
        status, text, headers = self.ask("GET", "/{word}/", b"")
        self.assertEqual(status, 200)
        self.assertEqual(Document(text).lines(), [[]])
        self.assertIn("frame-ancestors 'none'", headers["Content-Security-Policy"])
        self.assertTrue(headers["Content-Security-Policy"].startswith(Document(text).policy))
        self.assertEqual((headers["Cache-Control"], headers["Referrer-Policy"]), ("no-store", "no-referrer"))
        status, text, headers = self.ask()
        self.assertEqual((status, text), (200, '{"remarks":[]}\n'))
        self.assertEqual(headers["Content-Security-Policy"], "default-src 'none'")

    def test_who_is_not(self):
        for how in (
            {"path": "/answer"}, {"path": "//answer"}, {"path": "//{word}/answer"}, {"path": "/{word}x/answer"}, {"path": "/{word}"}, {"path": "/{word}/../answer"},
            {"path": "/{word}/solve"}, {"path": "/{word}/answer?x"}, {"path": "http://127.0.0.1/{word}/answer"},
            {"Host": "evil.example"}, {"Host": "127.0.0.1"}, {"Host": "127.0.0.1:{port}.evil.example"}, {"leave_out": ["Host"]},
            {"Origin": "http://evil.example"}, {"Origin": "null"}, {"Origin": "http://127.0.0.1:1"}, {"leave_out": ["Origin"]},
            {"Sec_Fetch_Site": "cross-site"}, {"Sec_Fetch_Site": "none"}, {"Content_Type": "text/plain"},
            {"Content_Type": "application/x-www-form-urlencoded"}, {"leave_out": ["Content-Type"]},
        ):  # fmt: skip
            with self.subTest(how=how):
                status, text, headers = self.ask(**how)
                self.assertEqual((status, text), (404, "nothing is here"))
                self.assertNotIn(self.server.word, str(headers))
        for path in ("/", "/{word}", "/{word}/answer", "/{word}/etc/passwd", "/{word}/../../etc/passwd", "/{word}//etc/passwd", "/favicon.ico"):
            with self.subTest(path=path):
                self.assertEqual(self.ask("GET", path, b"")[:2], (404, "nothing is here"))
        for method in ("PUT", "OPTIONS", "HEAD", "DELETE", "<script>"):
            with self.subTest(method=method):
                status, text, _ = self.ask(method)
                self.assertEqual((status, text), (501, ""))

    def test_sizes(self):
        self.assertEqual(self.ask(leave_out=["Content-Length"])[0], 411)
        for length in ("-1", "x", "+5", "", "1" * 30):
            self.assertEqual(self.ask(Content_Length=length)[0], 411)
        self.assertEqual(self.ask(content_length="2")[0], 411)
        self.assertEqual(self.ask(Content_Length="99999999")[0], 413)
        self.assertEqual(self.ask(Transfer_Encoding="chunked")[0], 411)
        self.assertEqual(json.loads(self.ask(body=b"[]")[1]), {"error": "a request that isn't one"})
        self.assertIn("error", json.loads(self.ask(body=b"[" * 100_000)[1]))

    def asked(self, request, port=0, word=""):
        """A connection on which this is asked."""
        port, word = port or self.server.port, word or self.server.word
        body = json.dumps(request)
        head = f"POST /{word}/answer HTTP/1.1\r\nHost: 127.0.0.1:{port}\r\nOrigin: http://127.0.0.1:{port}\r\n"
        head += f"Content-Type: application/json\r\nContent-Length: {len(body)}\r\n\r\n"
        connection = socket.create_connection(("127.0.0.1", port), 60)
        connection.sendall(f"{head}{body}".encode())
        return connection

    def test_a_search_ends_when_nobody_waits(self):
        request = {"what": "solve", "text": make.langford.problem(14).text, "seconds": 600}
        for end in ("close", "shutdown"):
            connection = self.asked(request)
            self.wait(lambda: self.server._answers)
            (going,) = self.server._answers
            group = going._process.pid
            self.wait(lambda: len(members(group)) == 2)
            connection.shutdown(socket.SHUT_WR) if end == "shutdown" else connection.close()
            self.wait(lambda: not self.server._answers and not members(group))
            self.assertFalse(os.path.exists(going._folder.path))
            connection.close()

    def connect(self, said=b""):
        """A connection on which this is said."""
        connection = socket.create_connection(("127.0.0.1", self.server.port), 60)
        self.addCleanup(connection.close)
        connection.sendall(said)
        return connection

    def begun(self, said=""):
        """The head of a request whose text doesn't come."""
        head = f"POST /{self.server.word}/answer HTTP/1.1\r\nHost: 127.0.0.1:{self.server.port}\r\n{said}"
        head += f"Origin: http://127.0.0.1:{self.server.port}\r\nContent-Type: application/json\r\nContent-Length: 9\r\n\r\n"
        return self.connect(head.encode())

    def be_patient(self, seconds):
        """Requests have so many seconds to come."""
        patience = mock.patch.object(waiting, "PATIENCE", seconds)
        patience.start()
        self.addCleanup(patience.stop)

    def test_who_says_nothing_shuts_nobody_out(self):
        with tempfile.TemporaryDirectory() as place, command(place) as (process, address):
            with Strangers(address.port, 300) as strangers:
                self.assertLess(len(os.listdir(f"/proc/{process.pid}/task")), 50)
                for _ in range(30):
                    connection = http.client.HTTPConnection(address.netloc, timeout=60)
                    connection.request("GET", address.path)
                    self.assertEqual(connection.getresponse().status, 200)
                    connection.close()
                connection = self.asked({"what": "lint", "text": "a\na\n"}, address.port, address.path.strip("/"))
                with connection, connection.makefile("rb") as answered:
                    self.assertTrue(answered.read().endswith(b'\r\n\r\n{"remarks":[]}\n'))
            self.assertGreaterEqual(strangers.came, 300)

    def test_who_says_nothing_has_one_of_few_threads(self):
        """And who doesn't know the word. Who knows it has a thread of its own, which they don't take."""
        self.be_patient(600)
        self.wait(lambda: threading.active_count() == 2)
        known = self.begun()
        self.wait(lambda: threading.active_count() == 3)
        for said in (b"", b"GET / HTTP/1.1\r\n", b"GET / HTTP/1.1\r\n\r\n"):
            for _ in range(40):
                self.connect(said)
        self.assertEqual(self.ask("GET", "/", b"")[0], 404)
        self.wait(lambda: threading.active_count() <= 3 + self.server.waiting.most)
        known.sendall(b"123456789")
        self.assertIn(b" 200 ", known.recv(1 << 16))

    def test_a_request_has_a_few_seconds(self):
        """Whether nothing comes, or a byte now and then, and of its head or of what follows that."""
        self.be_patient(0.5)
        for connection, drop in ((self.connect(), b""), (self.connect(b"GET /"), b"x"), (self.begun(), b"x")):
            with self.subTest(drop=drop):
                ended = time.monotonic() + 60
                answered = b""
                connection.settimeout(0.1)
                while not answered and time.monotonic() < ended:
                    with contextlib.suppress(socket.timeout):
                        answered = connection.recv(1 << 16)
                    with contextlib.suppress(OSError):
                        connection.sendall(drop)
                self.assertIn(b" 408 ", answered)
                self.assertIn(b"\r\n\r\na request comes within 5 seconds", answered)

    def test_who_comes_too_many_is_refused(self):
        self.be_patient(600)
        with mock.patch.object(self.server.waiting, "most", 3):
            first, *_ = [self.connect() for _ in range(4)]
            self.assertIn(b"\r\n\r\ntoo much is asked at once", first.recv(1 << 16))
        known = [self.begun() for _ in range(server._MOST_AT_ONCE)]
        self.wait(lambda: not self.server._requests._value)
        self.assertEqual(self.ask()[:2], (503, "too much is asked at once"))
        # Those who don't know the word don't count.
        self.assertEqual(self.ask("GET", "/", b"")[:2], (404, "nothing is here"))
        for connection in known:
            connection.close()
        self.wait(lambda: self.server._requests._value)
        self.assertEqual(self.ask()[0], 200)

    def test_what_is_no_request(self):
        long = b"a: %b\r\n" % (b"b" * 60_000)
        for raw in (b"GET / HTTP/1.1\r\n" + long + long + b"\r\n", b"\x16\x03\x01\x02", b"\r\n\r\n", b"GET\r\n\r\n", b"GET / HTTP/9.9\r\n\r\n", b"GET / HTTP/1.1\r\n" + b"a: b\r\n" * 200 + b"\r\n", b"a" * 70_000):
            with self.subTest(raw=raw[:20]):
                answered = self.connect(raw).recv(1 << 16)
                self.assertTrue(answered.startswith(b"HTTP/1.1 400 ") and answered.endswith(b"\r\n\r\n"), answered)

    def test_where_no_answer_can_be_made(self):
        fault = OSError(errno.ENOSPC, os.strerror(errno.ENOSPC))
        with mock.patch.object(answering, "Folder", side_effect=fault):
            self.assertEqual(self.ask()[:2], (503, "no answer can be made: No space left on device"))
        with mock.patch.object(threading.Thread, "start", side_effect=RuntimeError):
            self.assertEqual(self.ask()[:2], (503, "too much is asked at once"))
        self.assertEqual(self.ask()[0], 200)

    def test_a_search_ends_with_the_server(self):
        """Whichever way it ends: at once, by ^C or by a signal. What the first leaves is removed by the next one."""
        with tempfile.TemporaryDirectory() as place:
            for number, status in ((signal.SIGKILL, -9), (signal.SIGINT, 130), (signal.SIGTERM, 143)):
                with command(place) as (process, address):
                    self.assertEqual(os.listdir(place), [])
                    word = address.path.strip("/")
                    self.assertRegex(word, r"[\w-]{43}\Z")
                    request = {"what": "solve", "text": make.langford.problem(14).text, "seconds": 600}
                    connection = self.asked(request, address.port, word)
                    self.wait(lambda: children(process.pid))
                    (group,) = children(process.pid)
                    # The process that answers, and the program.
                    self.wait(lambda: len(members(group)) == 2)
                    (name,) = os.listdir(place)
                    self.assertEqual(os.readlink(f"/proc/{group}/cwd"), os.path.join(place, name, "work"))
                    process.send_signal(number)
                    self.assertEqual(process.wait(120), status)
                    self.wait(lambda: not members(group))
                    self.assertEqual(os.listdir(place), [name] if number == signal.SIGKILL else [])
                    # The page hears of no other end.
                    with contextlib.suppress(ConnectionResetError):
                        self.assertNotIn(b"error", b"".join(iter(lambda: connection.recv(1 << 16), b"")))
                    connection.close()

    def test_few_files(self):
        """A process that may open 64 files answers all the same."""
        with tempfile.TemporaryDirectory() as place, command(place, files=64) as (process, address):
            with Strangers(address.port, 100):
                connection = self.asked({"what": "lint", "text": "a\na\n"}, address.port, address.path.strip("/"))
                with connection, connection.makefile("rb") as answered:
                    self.assertTrue(answered.read().endswith(b'\r\n\r\n{"remarks":[]}\n'))
            process.terminate()
            self.assertEqual(process.wait(120), 143)

    def test_a_port_in_use(self):
        port = self.server.port
        wanted = f"helgrothy: port {port}: it is in use; name another one by --port, or none for one that is free\n"
        self.assertEqual(run("page", "--port", str(port)), (2, "", wanted))

    def test_a_pattern_without_an_end(self):
        """One that keeps Python from everything else is ended all the same."""
        text = f"{'a' * 30}\n{'a' * 30}\n"
        connection = self.asked({"what": "solve", "text": text, "cell": "(a+)+b(x)", "seconds": 600})
        self.wait(lambda: self.server._answers)
        (going,) = self.server._answers
        time.sleep(1)
        connection.close()
        self.wait(lambda: not self.server._answers and not members(going._process.pid))

    def wait(self, holds):
        deadline = time.monotonic() + 300
        while not holds():
            self.assertLess(time.monotonic(), deadline, "it never came to it")
            time.sleep(0.05)


class Folders(unittest.TestCase):
    """The folders of answers, and what is left over of them where a page was killed."""

    def setUp(self):
        place = tempfile.TemporaryDirectory()
        self.addCleanup(place.cleanup)
        self.place = os.path.join(place.name, "place")
        self.other = os.path.join(place.name, "other")
        for path in (self.place, self.other):
            os.mkdir(path)
        self.write(self.other, "file")
        here = mock.patch.object(tempfile, "tempdir", self.place)
        here.start()
        self.addCleanup(here.stop)

    def write(self, *names):
        with open(os.path.join(*names), "w") as file:
            file.write("x")

    def left(self):
        """A folder that nobody holds any longer."""
        folder = folders.Folder()
        os.close(folder.lock)
        return folder.path

    def test_what_is_left_over_goes(self):
        for what in ("as it was", "files", "a link", "before all was made", "before anything was"):
            with self.subTest(what=what):
                path = self.left()
                if what == "files":
                    os.makedirs(os.path.join(path, "work", "a", "b"))
                    self.write(path, "work", "file")
                    self.write(path, "work", "a", "b", "file")
                elif what == "a link":
                    os.symlink(self.other, os.path.join(path, "work", "link"))
                elif what.startswith("before"):
                    os.rmdir(os.path.join(path, "work"))
                if what == "before anything was":
                    os.unlink(os.path.join(path, "lock"))
                folders.sweep()
                self.assertEqual(os.listdir(self.place), [])
                self.assertEqual(os.listdir(self.other), ["file"])

    def test_what_is_held_stays(self):
        """By the page, or by a process that answers."""
        folder = folders.Folder()
        folders.sweep()
        self.assertEqual(sorted(os.listdir(folder.path)), ["lock", "work"])
        with subprocess.Popen(["sleep", "600"], pass_fds=[folder.lock]) as process:
            os.close(folder.lock)
            folders.sweep()
            self.assertEqual(sorted(os.listdir(folder.path)), ["lock", "work"])
            process.kill()
        folders.sweep()
        self.assertEqual(os.listdir(self.place), [])
        folder = folders.Folder()
        self.write(folder.work, "file")
        folder.remove()
        self.assertEqual(os.listdir(self.place), [])

    def test_what_is_not_certainly_left_over_stays(self):
        def spoil(path, what):
            lock, work, name = os.path.join(path, "lock"), os.path.join(path, "work"), path
            if what in ("no lock", "a link as lock", "a pipe as lock"):
                os.unlink(lock)
            if what == "a link as lock":
                os.symlink(os.path.join(self.other, "file"), lock)
            elif what == "a pipe as lock":
                os.mkfifo(lock, 0o600)
            elif what == "more":
                self.write(path, "thesis.tex")
            elif what == "a link to what is elsewhere":
                os.rmdir(work)
                os.symlink(self.other, work)
            elif what == "other rights":
                os.chmod(path, 0o755)
            elif what == "another user's":
                os.chown(path, 1, 1)
            elif what == "a link to such a folder":
                name = os.path.join(self.other, "folder")
                os.rename(path, name)
                os.symlink(name, path)
            elif what == "another name":
                name = os.path.join(self.place, "helgrothy-page-of-mine")
                os.rename(path, name)
            return name

        cases = ["no lock", "a link as lock", "a pipe as lock", "more", "a link to what is elsewhere", "other rights",
                 "a link to such a folder", "another name", *(["another user's"] if os.geteuid() == 0 else [])]  # fmt: skip
        for what in cases:
            with self.subTest(what=what):
                path = spoil(self.left(), what)
                before = sorted(os.listdir(path))
                folders.sweep()
                self.assertEqual(sorted(os.listdir(path)), before)
                self.assertTrue(os.path.exists(os.path.join(self.other, "file")))

    def test_pages_that_begin_at_once(self):
        """Some make folders while others look for what is left over: none loses one, and nothing is left."""
        ended = time.monotonic() + 1
        lost, made = [], []

        def make_some():
            while time.monotonic() < ended:
                folder = folders.Folder()
                time.sleep(0)
                made.append(folder)
                if sorted(os.listdir(folder.path)) != ["lock", "work"]:
                    lost.append(folder)
                folder.remove()
                self.left()

        def look():
            while time.monotonic() < ended:
                folders.sweep()

        threads = [threading.Thread(target=what) for what in (make_some, look) * 3]
        for thread in threads:
            thread.start()
        for thread in threads:
            thread.join()
        folders.sweep()
        self.assertEqual((lost, os.listdir(self.place)), ([], []))
        self.assertGreater(len(made), 3)


class Strangers:
    """Connections that say nothing, or a byte now and then. One that is ended comes again, while this is entered."""

    def __init__(self, port, count):
        self.came = 0
        self._port, self._count = port, count
        self._is_over = threading.Event()
        self._thread = threading.Thread(target=self._stay)

    def __enter__(self):
        self._thread.start()
        while self.came < self._count:
            time.sleep(0.01)
        return self

    def __exit__(self, *_):
        self._is_over.set()
        self._thread.join()

    def _stay(self):
        with selectors.DefaultSelector() as selector:
            while not self._is_over.wait(0.01):
                for key, _ in selector.select(0):
                    selector.unregister(key.fileobj).fileobj.close()
                there = [key.fileobj for key in selector.get_map().values()]
                for connection in there[::2]:
                    with contextlib.suppress(OSError):
                        connection.send(b"x")
                for _ in range(self._count - len(there)):
                    self.came += 1
                    with contextlib.suppress(OSError):
                        selector.register(socket.create_connection(("127.0.0.1", self._port), 10), selectors.EVENT_READ)
            for key in list(selector.get_map().values()):
                key.fileobj.close()


@contextlib.contextmanager
def command(place, files=0):
    """The command `helgrothy page` with its temporary files in this place, and its address."""

    def prepare():
        heed_interrupt()
        if files:
            resource.setrlimit(resource.RLIMIT_NOFILE, (files, files))

    words = [sys.executable, "-m", "helgrothy", "page"]
    how = {"stdout": subprocess.PIPE, "stderr": subprocess.DEVNULL, "text": True, "preexec_fn": prepare}
    top = os.path.dirname(os.path.dirname(os.path.abspath(__file__)))
    with subprocess.Popen(words, cwd=top, env={**os.environ, "TMPDIR": place}, **how) as process:
        try:
            yield process, urllib.parse.urlsplit(process.stdout.readline().strip())
        finally:
            # It is waited for, whatever goes wrong.
            process.kill()


def heed_interrupt():
    """What a shell starts in the background ignores ^C, and so does all that this starts."""
    signal.signal(signal.SIGINT, signal.SIG_DFL)


def processes():
    """Each process: its number, its parent's and its group's."""
    for path in glob.glob("/proc/[0-9]*/stat"):
        with contextlib.suppress(OSError), open(path) as file:
            number, rest = file.read().split(" (", 1)
            state, parent, group = rest.rpartition(") ")[2].split()[:3]
            if state != "Z":
                yield int(number), int(parent), int(group)


def members(group):
    return [number for number, _, its in processes() if its == group]


def children(parent):
    return [number for number, its, _ in processes() if its == parent]


if __name__ == "__main__":
    unittest.main()

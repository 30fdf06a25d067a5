#!/usr/bin/env python3
"""page.py [-v]: pages of solutions in a headless Chromium, which is typed and pressed in and looked at.

Without a browser it says so, and nothing is tested. The programs are found as the Python package finds them.
"""

import contextlib
import json
import os
import re
import signal
import subprocess
import sys
import tempfile
import time
import unittest
from xml.etree import ElementTree

TOP = os.path.dirname(os.path.dirname(os.path.dirname(os.path.abspath(__file__))))
sys.path[:0] = [os.path.join(TOP, "python"), os.path.join(TOP, "tests")]
sys.dont_write_bytecode = True

from browser.chromium import PATIENCE, Browser, program  # noqa: E402

from helgrothy import Problem, make  # noqa: E402
from helgrothy._page.examples import examples, first_of  # noqa: E402
from helgrothy._run.programs import Run  # noqa: E402
from helgrothy.draw._solid import _darker as darker  # noqa: E402

OWNED = "window.owned = () => { owned.times++; }; owned.times = 0;"
SCRIPT = os.path.join(TOP, "scripts", "helgrothy")
SVG = "{http://www.w3.org/2000/svg}"
# What names may try: each runs `owned` where it is taken for more than text.
EVIL = [
    "</script><script>owned()//", "<img/src=x/onerror=owned()>", "<svg/onload=owned()>", "<!--<script>", "]]>",
    "'onerror='owned()", '"onload="owned()', "{{script}}", "</title><script>owned()<", "<iframe/src=javascript.owned()>",
    "`${owned()}`", "__proto__", "constructor", "toString", "\x1b[2J", "\u202egnp", "&lt;script>", "url(#x)",
]  # fmt: skip
# So many seconds of a processor a page of 200 boxes may take until it is seen, the least of three times.
SECONDS = 0.5
DARK, LIGHT = "rgb(23, 25, 28)", "rgb(252, 252, 250)"
INK = "rgb(29, 31, 33)"
PAPER = "rgb(255, 255, 255)"


def helgrothy(*words, given=""):
    """What a command prints."""
    environment = {**os.environ, "PATH": f"{os.path.dirname(sys.executable)}:{os.environ['PATH']}"}
    done = subprocess.run([SCRIPT, *words], input=given.encode(), capture_output=True, env=environment)
    if done.returncode not in (0, 1):
        raise RuntimeError(f"{words}: {done.stderr.decode()}")
    return done.stdout


def reasons(words):
    """What a command says of a problem without solutions."""
    done = subprocess.run([SCRIPT, *words], capture_output=True, text=True)
    return done.stderr.splitlines()[1:]


def elements(element):
    """An element of SVG as nested tuples, without the blanks between them."""
    return element.tag, sorted(element.items()), (element.text or "").strip(), [elements(it) for it in element]


def luminance(colour):
    """How light a colour such as rgb(1, 2, 3) is, from 0 to 1."""
    parts = [int(part) / 255 for part in re.findall(r"\d+", colour)[:3]]
    red, green, blue = (part / 12.92 if part <= 0.04045 else ((part + 0.055) / 1.055) ** 2.4 for part in parts)
    return 0.2126 * red + 0.7152 * green + 0.0722 * blue


def level(node):
    """The level of a heading in a tree for screen readers; 0 of what is none."""
    return next((it["value"]["value"] for it in node.get("properties", []) if it["name"] == "level"), 0)


def legal(name):
    return name.replace(":", ".").replace("|", ".")[:32]


class Pages(unittest.TestCase):
    """A browser, and a folder for files."""

    @classmethod
    def setUpClass(cls):
        cls.browser = Browser()
        cls.addClassCleanup(cls.browser.__exit__)
        folder = tempfile.TemporaryDirectory()
        cls.addClassCleanup(folder.cleanup)
        cls.folder = folder.name

    def setUp(self):
        self.tab = self.browser.tab()
        self.tab.size(1280, 900)
        self.addCleanup(self.tab.close)

    def file(self, name, content):
        path = os.path.join(self.folder, name)
        with open(path, "wb") as file:
            file.write(content)
        return path

    def is_quiet(self):
        """Nothing went wrong, was refused, or was asked from elsewhere."""
        self.assertEqual(self.tab.complaints(), [])
        self.assertFalse(self.tab.value("'owned' in window && window.owned.times > 0"))

    def unfold(self):
        """Opens what is folded of the steps and cut of their options."""
        self.tab.value("document.querySelectorAll('#chosen, #steps details').forEach((it) => it.open = true)")
        self.tab.value("document.querySelectorAll('#steps .rest').forEach((it) => it.click())")

    def wait(self, holds):
        deadline = time.monotonic() + PATIENCE
        while not holds():
            self.assertLess(time.monotonic(), deadline, "it never came to it")
            time.sleep(0.05)

    def saved(self, selector, name):
        """What a file has that is saved by pressing a button."""
        path = os.path.join(self.folder, name)
        self.browser.call("Browser.setDownloadBehavior", behavior="allow", downloadPath=self.folder)
        self.tab.click(selector)
        self.wait(lambda: os.path.exists(path))
        with open(path, "rb") as file:
            content = file.read()
        os.unlink(path)
        return content


class File(Pages):
    @classmethod
    def setUpClass(cls):
        super().setUpClass()
        cls.boxes = helgrothy("polyominoes", "pentominoes", "6x10", "--limit", "200", "--html")
        cls.problem = make.polyominoes.problem("pentominoes", "6x10")
        cls.solutions = list(cls.problem.solve(limit=200))

    def open(self, content=None):
        self.address = f"file://{self.file('box.html', content or self.boxes)}"
        self.tab.go(self.address)

    def place(self):
        return int(self.tab.value("document.querySelector('#place').value"))

    def seen_steps(self):
        rows = "[...document.querySelectorAll('#steps tr:not(.across)')]"
        return self.tab.value(f"{rows}.map((row) => [...row.children].map((cell) => cell.innerText.trim()))")

    def test_200_boxes_are_small_and_quick(self):
        self.assertLess(len(self.boxes), 1_000_000)
        times = []
        for _ in range(3):
            self.open()
            # Until the picture was painted.
            self.tab.value("new Promise((done) => requestAnimationFrame(() => setTimeout(done)))")
            self.assertTrue(self.tab.is_shown("#picture svg"))
            times.append(self.tab.worked())
        self.assertLess(min(times), SECONDS, times)
        self.assertEqual(self.tab.value("document.querySelectorAll('#picture svg').length"), 1)
        self.assertEqual(set(self.tab.asked()), {self.address})
        self.is_quiet()

    def test_what_is_told(self):
        self.open()
        self.assertEqual(self.tab.text("#title"), "A tiling by polyominoes")
        self.assertEqual(self.tab.text("#summary"), "200 solutions; there may be more.")
        self.assertEqual(self.tab.value("document.title"), "A tiling by polyominoes")
        # Each step of the first solutions, as the program went.
        for solution in self.solutions[:3]:
            rows = self.seen_steps()
            self.assertEqual([row[1] for row in rows], [f"{it.branch} of {it.branches}" for it in solution.steps])
            self.assertEqual([row[2] for row in rows], [str(number + 1) for number in solution.numbers])
            for row, step, option in zip(rows, solution.steps, solution):
                self.assertEqual(row[3].split()[0], step.item)
                self.assertEqual(sorted(row[3].split()), sorted(option))
            self.tab.press("ArrowRight")
        self.assertFalse(self.tab.is_shown("#given"))
        self.tab.press("p")
        self.assertTrue(self.tab.is_shown("#given"))
        self.assertEqual(self.tab.text("#given").strip(), self.problem.text.strip())
        self.is_quiet()

    def test_what_is_saved(self):
        self.open()
        listed = self.saved("#save-solutions", "tiling-by-polyominoes-solutions.txt")
        self.assertEqual(list(self.problem.listed(listed)), self.solutions)
        self.tab.press("End")
        picture = self.saved("#save-picture", "tiling-by-polyominoes-200.svg")
        drawn = ElementTree.fromstring(self.problem.draw(self.solutions[-1]).svg())
        self.assertEqual(elements(ElementTree.fromstring(picture))[3][1:], elements(drawn)[3][1:])
        self.is_quiet()

    def test_keys(self):
        self.open()
        for key, place in (
            ("ArrowRight", 2), ("j", 3), ("k", 2), ("ArrowLeft", 1), ("ArrowLeft", 1), ("End", 200), ("ArrowRight", 200),
            ("ArrowLeft", 199), ("Home", 1),
        ):  # fmt: skip
            self.tab.press(key)
            self.assertEqual(self.place(), place, key)
        letters = self.tab.value("[...document.querySelectorAll('#picture text')].map((it) => it.textContent).sort().join('')")
        self.assertEqual(letters, "FILNPTUVWXYZ")
        self.tab.click("#place")
        self.tab.type("17")
        self.tab.press("Enter")
        self.assertIn("Solution 17:", self.tab.text("#caption"))
        self.tab.press("?")
        self.assertTrue(self.tab.is_shown("#keys"))
        self.tab.press("j")
        self.tab.press("Escape")
        self.assertFalse(self.tab.is_shown("#keys"))
        self.assertEqual(self.place(), 17)
        self.is_quiet()

    def test_all_at_a_glance(self):
        self.open()
        self.tab.press("g")
        self.assertFalse(self.tab.is_shown("#single"))
        self.assertEqual(self.tab.value("document.querySelectorAll('.card').length"), 200)
        self.tab.wait("document.querySelectorAll('.card svg').length > 30")
        self.tab.press("ArrowRight")
        self.assertEqual(self.tab.text("[aria-current] .name"), "2")
        self.tab.press("End")
        self.assertEqual(self.tab.text("[aria-current] .name"), "200")
        # What is far from there has no picture.
        self.tab.wait("document.querySelector('.card:last-child svg') && !document.querySelector('.card:first-child svg')")
        self.tab.press("Enter")
        self.assertIn("Solution 200:", self.tab.text("#caption"))
        self.tab.click("#all")
        self.tab.click(".card:nth-child(5)")
        self.assertIn("Solution 5:", self.tab.text("#caption"))
        self.is_quiet()

    def test_only_with_items_or_an_option(self):
        self.open()
        self.tab.press("/")
        self.tab.type("V r1c10")
        wanted = [number for number, it in enumerate(self.solutions, 1) if any({"V", "r1c10"} <= set(one) for one in it)]
        self.assertTrue(0 < len(wanted) < 200)
        self.assertEqual(self.tab.text("#count"), str(len(wanted)))
        self.assertIn(f"; {len(wanted)} with V r1c10.", self.tab.text("#summary"))
        self.tab.press("Enter")
        self.assertIn(f"Solution {wanted[0]}:", self.tab.text("#caption"))
        self.tab.press("End")
        self.assertIn(f"Solution {wanted[-1]}:", self.tab.text("#caption"))
        self.tab.press("/")
        self.tab.press("Escape")
        self.assertEqual(self.tab.text("#count"), "200")
        # An option, by its number, and an item of another one.
        self.tab.press("Home")
        self.tab.click("#steps tr:nth-child(4) .number")
        option = self.solutions[0].numbers[3]
        wanted = [it for it in self.solutions if option in it.numbers]
        self.assertEqual(self.tab.text("#count"), str(len(wanted)))
        self.tab.click("#steps tr:nth-child(4) .number")
        self.assertEqual(self.tab.text("#count"), "200")
        self.tab.press("/")
        self.tab.type("nowhere")
        self.assertEqual(self.tab.text("#none"), "No option of these solutions has nowhere.")
        self.assertFalse(self.tab.is_shown("#single"))
        self.is_quiet()

    def test_light_dark_and_print(self):
        for scheme, colour, other in (("light", LIGHT, DARK), ("dark", DARK, LIGHT)):
            self.tab.media(prefers_color_scheme=scheme)
            self.open()
            self.tab.value("localStorage.clear()")
            self.tab.value("delete document.documentElement.dataset.theme")
            ground = "getComputedStyle(document.documentElement).backgroundColor"
            self.assertEqual(self.tab.value(ground), colour)
            self.tab.press("d")
            self.assertEqual(self.tab.value(ground), other)
            self.tab.click("#theme")
            self.assertEqual(self.tab.value(ground), colour)
            self.tab.value("localStorage.clear()")
            self.tab.media("print", prefers_color_scheme=scheme)
            self.assertEqual(self.tab.value(ground), PAPER)
            self.assertEqual(self.tab.value("getComputedStyle(document.querySelector('#picture svg')).filter"), "none")
            for hidden in ("#bar", ".tools"):
                self.assertFalse(self.tab.is_shown(hidden))
            for shown in ("#title", "#picture svg", "#steps"):
                self.assertTrue(self.tab.is_shown(shown))
            self.tab.media()
        self.tab.press("g")
        drawn = "document.querySelectorAll('.card svg').length"
        self.tab.value(f"addEventListener('afterprint', () => {{ window.printed = {drawn}; }})")
        self.tab.call("Page.printToPDF")
        self.assertEqual(self.tab.value("window.printed"), 200)
        # What is far from what is seen has no picture again.
        self.tab.wait(f"{drawn} < 200")
        self.is_quiet()

    def test_every_kind(self):
        for words in (
            ["sudoku", "53..7....6..195....98....6.8...6...34..8.3..17...2...6.6....28....419..5....8..79"],
            ["queens", "8", "--all"],
            ["langford", "4"],
            ["polyforms", "hexiamonds", "6x6"],
            ["polycubes", "soma", "3x3x3"],
            ["kakuro", self.file("kakuro.txt", first_of("kakuro")["grid"].encode())],
            ["timetable", self.file("exams.csv", first_of("timetable")["table"].encode())],
        ):
            self.open(helgrothy(*words, "--html"))
            self.assertTrue(self.tab.is_shown("#picture svg"))
            count = self.tab.value("document.querySelectorAll('#picture svg *').length")
            self.assertGreater(count, 10)
            # What the list of elements and attributes lets through is all that the picture has.
            svg = helgrothy(*[word for word in words if word != "--all"], "--svg").decode()
            parsed = f"new DOMParser().parseFromString({json.dumps(svg)}, 'image/svg+xml').documentElement"
            plain = self.browser.tab()
            plain.go("data:text/html,")
            # Both its colours are in styles of the page's own.
            told = "[...it.attributes].filter((one) => !['class', 'style'].includes(one.name)).map((one) => one.name + '=' + one.value)"
            drawn = f"(it) => [it.tagName, {told}.sort()]"
            wanted = plain.value(f"[...{parsed}.querySelectorAll(':not(title)')].map({drawn})")
            plain.close()
            self.assertEqual(self.tab.value(f"[...document.querySelectorAll('#picture svg *')].map({drawn})"), wanted)
        self.is_quiet()

    def test_solutions_without_steps(self):
        """Those of a search of another kind."""
        costs = self.file("costs", "".join(f"{place}\n" for place in range(36)).encode())
        self.open(helgrothy("solve", "--cost", costs, "--html", given=make.queens.problem(6).text))
        self.assertEqual(self.tab.text("#summary"), "1 solution; there may be more. The least cost is 105.")
        self.assertEqual((self.tab.text("#went"), self.tab.text("#caption")), ("Its options", "Solution 1: 6 options."))
        self.assertFalse(self.tab.is_shown("#steps .branch"))
        self.assertTrue(self.tab.is_shown("#picture svg"))
        self.tab.click("#steps .items button")
        self.assertEqual(self.tab.text("#count"), "1")
        self.is_quiet()

    def test_without_a_picture_and_without_a_solution(self):
        self.open(helgrothy("solve", "--html", "--all", given="a b | x\na x:1\nb x:1\nb x:2\na\n"))
        self.assertFalse(self.tab.value("document.querySelector('#picture').hasChildNodes()"))
        self.assertEqual(self.tab.text("#summary"), "3 solutions; all that there are.")
        self.tab.press("/")
        self.tab.type("x:2")
        self.assertEqual(self.tab.text("#count"), "1")
        self.tab.press("Escape")
        self.tab.press("g")
        self.assertEqual(self.tab.text(".card pre").split("\n"), ["a x:1", "b x:1"])
        self.open(helgrothy("solve", "--html", given="A B\nA\n"))
        self.assertEqual(self.tab.text("#none"), "There is no solution.\ncan't all be held: B\nit is in no option")
        self.is_quiet()

    def test_hostile_names_run_nothing(self):
        names = list(map(legal, EVIL))
        problem = Problem(names, True, [{name: None, f"at{place}": name[:8]} for place, name in enumerate(names)])
        problem = Problem(names, True, problem.options, comments=[*EVIL, "helgrothy make </script>"])
        for more in ([], ["--cell", r"at(\d+)"], ["--row", r"at\d+", "--label", r"\S+"], ["--column", ".+"]):
            self.tab.call("Page.addScriptToEvaluateOnNewDocument", source=OWNED)
            self.open(helgrothy("solve", "--html", "--all", *more, given=problem.text))
            self.tab.press("p")
            self.unfold()
            for name in ("</script><script>owned()//", "<svg/onload=owned()>", r"\x1b[2J", "__proto__"):
                self.assertIn(name, self.tab.text("#steps"))
                self.assertIn(name, self.tab.text("#given"))
            self.tab.click("#steps tr:nth-child(2) .items button")
            self.assertEqual(self.tab.text("#count"), "1")
            self.tab.press("g")
            self.tab.press("/")
            self.tab.type(" | <img")
            for element, count in (("script", 2), ("img", 0), ("iframe", 0), ("main", 1)):
                self.assertEqual(self.tab.value(f"document.querySelectorAll('{element}').length"), count, element)
            handlers = "[...document.querySelectorAll('*')].some((it) => it.getAttributeNames().some((one) => /^on/.test(one)))"
            self.assertFalse(self.tab.value(handlers))
            self.assertEqual(set(self.tab.asked()), {self.address})
            self.is_quiet()

    def test_a_picture_that_is_forged_draws_nothing_else(self):
        """A file whose record was changed: its elements and attributes are let through by a list."""
        evil = [
            ["script", {}, "owned()"], ["image", {"href": "x", "onerror": "owned()"}, ""],
            ["a", {"href": "javascript:owned()"}, "A"], ["rect", {"onclick": "owned()", "fill": "url(http://127.0.0.1:9/x)"}, ""],
            ["foreignObject", {}, [["script", {}, "owned()"]]], ["g", {}, [["script", {}, "owned()"], ["text", {}, "<b>B</b>"]]],
            ["animate", {"attributeName": "href"}, ""], ["style", {}, "*{background:url(http://127.0.0.1:9/)}"],
        ]  # fmt: skip
        told = [{"solution": {"number": 1, "steps": [["<b>", 1, 1, 1]], "options": {"1": "<b> <i>"}, "picture": [0, *range(1, 9)],
                              "elements": [["svg", {"width": "9", "height": "9", "onload": "owned()"}, ""], *evil]}}]  # fmt: skip
        start, _, rest = self.boxes.partition(b'id="data">')
        end = rest.partition(b"</script>")[2]
        data = json.dumps(told).replace("<", "\\u003c").encode()
        self.tab.call("Page.addScriptToEvaluateOnNewDocument", source=OWNED)
        self.open(b'%sid="data">%s</script>%s' % (start, data, end))
        names = self.tab.value("[...document.querySelectorAll('#picture svg *')].map((it) => it.tagName)")
        self.assertEqual(names, ["rect", "g", "text"])
        self.assertEqual(self.tab.value("document.querySelector('#picture text').textContent"), "<b>B</b>")
        self.assertEqual(self.tab.value("document.querySelector('#picture rect').getAttributeNames()"), [])
        self.assertEqual(self.tab.value("getComputedStyle(document.querySelector('#picture rect')).fill"), INK)
        # A script that is put into it isn't the one that the policy names.
        self.open(self.boxes.replace(b"</body>", b"<script>owned()</script><img src=x onerror=owned()></body>"))
        self.assertEqual(self.tab.value("owned.times"), 0)


class Page(Pages):
    """The page of `helgrothy page`."""

    def setUp(self):
        super().setUp()
        environment = {**os.environ, "PATH": f"{os.path.dirname(sys.executable)}:{os.environ['PATH']}"}
        self.server = subprocess.Popen(
            [SCRIPT, "page"], stdout=subprocess.PIPE, stderr=subprocess.DEVNULL, text=True, env=environment
        )
        self.addCleanup(self.end)
        self.address = self.server.stdout.readline().strip()
        self.tab.call("Page.addScriptToEvaluateOnNewDocument", source=OWNED)
        self.tab.go(self.address)

    def end(self):
        self.server.terminate()
        status = self.server.wait(PATIENCE)
        self.server.stdout.close()
        self.assertEqual(status, 143)

    def is_quiet(self):
        super().is_quiet()
        self.assertLessEqual(set(self.tab.asked()), {self.address, f"{self.address}answer"})

    def type_problem(self, text):
        self.tab.click("#text")
        self.tab.press("a", ctrl=True)
        self.tab.type(text)
        self.assertEqual(self.tab.value("document.querySelector('#text').value"), text)

    def choose(self, kind, **values):
        self.tab.click("#as-kind")
        self.tab.value(f"document.querySelector('#kind').value = {json.dumps(kind)}")
        self.tab.value("document.querySelector('#kind').dispatchEvent(new Event('change'))")
        for name, value in values.items():
            self.tab.click(f"#value-{name}")
            self.tab.press("a", ctrl=True)
            self.tab.type(value)

    def solve(self):
        self.tab.press("Enter", ctrl=True)
        self.tab.wait("document.querySelector('#stop').disabled")

    def running(self):
        """The processes of the answers, and the programs that these run, without the shells that guard them."""
        told, programs = {}, set()
        for name in filter(str.isdigit, os.listdir("/proc")):
            with contextlib.suppress(OSError), open(f"/proc/{name}/stat") as file:
                begun, _, rest = file.read().rpartition(") ")
                state, parent = rest.split()[:2]
                if state != "Z":
                    told.setdefault(int(parent), []).append(int(name))
                    programs |= {int(name)} if "(dlx" in begun else set()
        answers = told.get(self.server.pid, [])
        return answers, [one for answer in answers for one in told.get(answer, []) if one in programs]

    def example(self, title):
        """Fills in the example of this title."""
        place = [example["title"] for example in examples()].index(title)
        self.tab.value(f"document.querySelector('#example').value = {place}")
        self.tab.value("document.querySelector('#example').dispatchEvent(new Event('change', {bubbles: true}))")

    def typed(self, *names):
        """What stands in these fields."""
        return [self.tab.value(f"document.querySelector('#{name}').value") for name in names]

    def test_what_is_typed_is_there_after_a_reload(self):
        self.type_problem("a b\na b\n")
        self.tab.click("#patterns summary")
        self.tab.click("#cell")
        self.tab.type(r"x(\d)")
        self.choose("polyominoes", pieces="tetrominoes", region="4x5")
        self.tab.click("#value-no_mirrors")
        self.choose("queens", board="5")
        self.tab.click("#limit")
        self.tab.press("a", ctrl=True)
        self.tab.type("7")
        self.tab.go(self.address)
        wanted = ["a b\na b\n", r"x(\d)", "queens", "5", "7"]
        self.assertEqual(self.typed("text", "cell", "kind", "value-board", "limit"), wanted)
        self.assertFalse(self.tab.is_shown("#text"))
        self.choose("polyominoes")
        self.assertEqual(self.typed("value-pieces", "value-region"), ["tetrominoes", "4x5"])
        boxes = [self.tab.value(f"document.querySelector('#value-{name}').checked") for name in ("no_turns", "no_mirrors")]
        self.assertEqual(boxes, [True, False])
        self.tab.go(self.address)
        self.solve()
        self.assertEqual(self.tab.text("#none"), self.reason(["tetrominoes", "4x5", "--no-mirrors"]))
        # What another page has left there is no more than text, and what isn't typed so isn't taken.
        for kept in ("{", "7", '{"text":7,"kind":"__proto__","values":{"queens":["x"],"__proto__":{}},"fields":{"order":"x"}}'):
            self.tab.value(f"window.onpagehide = () => localStorage.setItem('helgrothy-typed', {json.dumps(kept)})")
            self.tab.go(self.address)
            self.assertEqual(self.typed("text", "order"), [next(it["text"] for it in examples() if it["text"]), ""])
            self.choose("queens")
            self.assertEqual(self.typed("value-board"), ["8"])
        self.is_quiet()

    def reason(self, words):
        """What is said where a kind with these words has no solution."""
        return "\n".join(["There is no solution.", *reasons(["polyominoes", *words])])

    def test_examples(self):
        self.type_problem("mine\nmine\n")
        self.example("Dominoes on 4 by 5")
        self.solve()
        self.assertEqual(self.tab.text("#summary"), "95 solutions; 20 of them here.")
        self.assertTrue(self.tab.is_shown("#picture svg"))
        self.tab.click("#undo")
        self.assertEqual(self.typed("text", "cell"), ["mine\nmine\n", ""])
        self.assertFalse(self.tab.is_shown("#undo"))
        # Who goes on from one to another without typing gets the same back.
        self.example("Pentominoes in 6 by 10")
        self.example("Queens in coloured regions")
        self.assertEqual(self.typed("kind", "value-board"), ["queens", "BCAAAA\nBCCCAA\nBCCCFF\nDDCCFF\nFFFFFE\nFFFFEE"])
        self.solve()
        self.assertEqual(self.tab.text("#summary"), "1 solution; all that there are.")
        self.tab.click("#undo")
        self.assertTrue(self.tab.is_shown("#text"))
        self.choose("queens")
        self.assertEqual(self.typed("text", "value-board"), ["mine\nmine\n", "8"])
        # None is named any longer where another kind is chosen, or a text.
        kind = "document.querySelector('#kind')"
        for turn in (
            lambda: self.tab.value(f"{kind}.value = 'sudoku', {kind}.dispatchEvent(new Event('change'))"),
            lambda: self.tab.click("#as-text"),
        ):
            self.example("Queens in coloured regions")
            turn()
            self.assertEqual(self.typed("example"), [""])
        self.is_quiet()

    def test_a_problem_is_saved_and_opened(self):
        text = "ann bob | dör\nann dör:rot\nbob dör:rot\n"
        self.type_problem(text)
        self.assertEqual(self.saved("#save-problem", "problem.dlx").decode(), text)
        self.choose("queens", board="6")
        saved = self.saved("#save-problem", "queens.dlx")
        self.assertEqual(saved.decode(), make.queens.problem(6).text)
        self.open("mine.dlx", saved.replace(b"\n", b"\r\n"))
        self.tab.wait("document.querySelector('#state').innerText === 'mine.dlx was opened.'")
        self.assertEqual(self.typed("text")[0], saved.decode())
        self.solve()
        self.assertEqual(self.tab.text("#summary"), "4 solutions; all that there are.")
        self.assertTrue(self.tab.is_shown("#picture svg"))
        self.tab.click("#undo")
        self.assertEqual(self.typed("text"), [text])
        self.open("large.dlx", b"a" * (1 << 21))
        self.tab.wait("document.querySelector('#state').innerText.includes('large.dlx has more than 1 MB')")
        self.assertEqual(self.typed("text"), [text])
        self.choose("queens", board="-1")
        self.tab.click("#save-problem")
        self.tab.wait("document.querySelector('#state').matches('.wrong:not(:empty)')")
        self.is_quiet()

    def open(self, name, content):
        """Chooses a file to be opened."""
        self.tab.call("Page.setInterceptFileChooserDialog", enabled=True)
        self.tab.click("#open")
        told = self.tab.call("Runtime.evaluate", expression="document.querySelector('#file')")["result"]
        self.tab.call("DOM.setFileInputFiles", files=[self.file(name, content)], objectId=told["objectId"])

    def test_solutions_are_saved(self):
        self.choose("queens", board="6")
        self.solve()
        self.tab.click("#on")
        board = make.queens.problem(6)
        second = list(board.solve())[1]
        wanted = ElementTree.fromstring(board.draw(second).svg())
        title = wanted.find(f"{SVG}title")
        title.text = f"{title.text}, solution 2"
        saved = ElementTree.fromstring(self.saved("#save-picture", "queens-on-a-board-2.svg"))
        self.assertEqual([saved.attrib.pop(name) for name in ("role", "aria-label")], ["img", title.text])
        self.assertEqual(elements(saved), elements(wanted))
        self.tab.press("/")
        self.tab.type("r1 c2")
        with Run("dlx1", ["m1"], [board.text.encode()]) as run:
            listed = b"".join(run.chunks())
        places = [number for number, it in enumerate(board.solve(), 1) if any({"r1", "c2"} <= set(one) for one in it)]
        found = [listed[listed.index(b"%d:\n" % number) :].partition(b"\n%d:\n" % (number + 1))[0] for number in places]
        saved = self.saved("#save-solutions", "queens-on-a-board-solutions.txt")
        self.assertEqual(saved.rstrip(b"\n"), b"\n".join(found).rstrip(b"\n"))
        self.assertEqual([it.number for it in board.listed(saved)], places)
        other = self.browser.tab()
        self.addCleanup(other.close)
        other.go(f"file://{self.file('saved.html', self.saved('#save-page', 'queens-on-a-board.html'))}")
        self.assertEqual(other.text("#summary"), "4 solutions; all that there are.")
        self.assertEqual(other.value("document.title"), "Queens on a board")
        self.assertTrue(other.is_shown("#picture svg"))
        self.assertFalse(other.is_shown("#save-page"))
        self.assertEqual(other.complaints(), [])
        self.is_quiet()

    def test_one_at_random_and_chances(self):
        self.choose("queens", board="6")
        for what in ("random", "chances"):
            self.assertTrue(self.tab.is_shown(f"#{what}"))
        self.press_and_wait("#random")
        self.assertEqual(self.tab.text("#summary"), "4 solutions; 1 of them here.")
        self.press_and_wait("#chances")
        self.assertEqual(self.tab.text("#summary"), "Of 4 solutions, in percent.")
        self.assertEqual([self.tab.is_shown(it) for it in ("#picture svg", "#way", "#bar")], [True, False, False])
        self.solve()
        self.assertTrue(self.tab.is_shown("#way"))
        self.is_quiet()

    def press_and_wait(self, button):
        self.tab.click(button)
        self.tab.wait("document.querySelector('#stop').disabled")

    def test_all_solutions_are_counted(self):
        self.example("Eight queens")
        self.solve()
        self.assertEqual(self.tab.text("#summary"), "92 solutions; 20 of them here.")
        self.tab.value("document.querySelector('#limit').value = 92")
        self.solve()
        self.assertEqual(self.tab.text("#summary"), "92 solutions; all that there are.")
        self.is_quiet()

    def test_costs(self):
        """They are asked for where they count, and the answer says what each wish cost."""
        self.type_problem("A B\nA\nB\nA B\n")
        self.assertFalse(self.tab.is_shown("#costs"))
        self.tab.value("document.querySelector('#order').value = 'cheapest'")
        self.tab.value("document.querySelector('#order').dispatchEvent(new Event('input', {bubbles: true}))")
        self.tab.click("#costs")
        self.tab.type("A B -1")
        self.solve()
        told = r"\A1 solution; there may be more\. The least cost is -1, as [\w ]+ (?:found|show)\. -1 by line 1: A B -1\.\Z"
        self.assertRegex(self.tab.text("#summary"), told)
        self.example("A roster with wishes")
        self.solve()
        self.assertRegex(self.tab.text("#summary"), r"The least cost is -1, as [\w ]+ (?:found|show)\. -1 by line 3: wed/early cat -1\.\Z")
        # What is wrong is seen at once, although the form is longer than the window.
        self.tab.value("document.querySelector('#costs').value = 'mon/noon ann 3'")
        self.solve()
        self.assertIn("costs: line 1: mon/noon ann 3: ", self.tab.text("#state"))
        box = "document.querySelector('#state').getBoundingClientRect()"
        top, bottom, height = self.tab.value(f"[{box}.top, {box}.bottom, innerHeight]")
        self.assertTrue(0 <= top < bottom <= height, (top, bottom, height))
        self.example("Eight queens")
        self.assertFalse(self.tab.is_shown("#costs"))
        self.is_quiet()

    def test_forced_steps_and_long_options_are_folded(self):
        self.example("Sudoku")
        self.solve()
        self.assertEqual(self.tab.text("#steps").strip(), "Steps 1 to 81, each one forced")
        self.tab.click("#steps summary")
        self.assertEqual(self.tab.value("document.querySelectorAll('#steps tr:not(.across)').length"), 81)
        self.assertTrue(self.tab.is_shown("#steps tr:not(.across) .items"))
        self.example("A nonogram of 12 by 12")
        self.solve()
        self.tab.click("#steps summary")
        row = "#steps tr:not(.across) .items"
        self.assertEqual(self.tab.value(f"document.querySelectorAll('{row}')[0].querySelectorAll('button:not(.rest)').length"), 8)
        self.assertEqual(self.tab.text(f"{row} .rest"), "and 5 more")
        self.tab.click(f"{row} .rest")
        self.assertEqual(self.tab.value(f"document.querySelectorAll('{row}')[0].querySelectorAll('button').length"), 13)
        self.is_quiet()

    def test_pictures_on_a_dark_page(self):
        """Each has colours of its own: no filter, cubes with the light above, and nonograms black on white."""
        self.tab.media(prefers_color_scheme="dark")
        fills = "[...document.querySelectorAll('#picture NAME')].map((it) => getComputedStyle(it).fill)"
        self.example("The Soma cube")
        self.solve()
        self.assertEqual(self.tab.value("getComputedStyle(document.querySelector('#picture svg')).filter"), "none")
        self.assertEqual(self.tab.value("getComputedStyle(document.querySelector('#picture .ground')).fill"), "none")
        seen = [fill for fill in self.tab.value(fills.replace("NAME", "path")) if fill != "none"]
        own = self.tab.value("[...document.querySelectorAll('#picture path')].map((it) => it.getAttribute('fill'))")
        own = [fill for fill in own if fill != "none"]
        light = dict(zip(own, map(luminance, seen)))
        self.assertGreater(min(light.values()), luminance(DARK))
        self.assertLess(max(light.values()), 0.2)
        # The faces of a piece, by how light they are where the page is light.
        letters = make.polycubes.problem("soma", "3x3x3").draw(next(make.polycubes.problem("soma", "3x3x3").solve()))
        for fill in {cell.fill for cell in letters.cells.values()}:
            faces = [light[face] for face in (darker(fill, 1.0), darker(fill, 0.88), darker(fill, 0.74)) if face in light]
            self.assertEqual(faces, sorted(faces, reverse=True))
        self.example("A small nonogram")
        self.solve()
        self.assertIn("rgb(34, 34, 34)", self.tab.value(fills.replace("NAME", "rect")))
        self.assertEqual(self.tab.value("getComputedStyle(document.querySelector('#picture .ground')).fill"), PAPER)
        self.example("Sudoku")
        self.solve()
        self.assertGreater(luminance(self.tab.value(fills.replace("NAME", "text"))[0]), 0.6)
        strokes = "[...document.querySelectorAll('#picture path')].map((it) => getComputedStyle(it).stroke)"
        self.assertGreater(luminance(self.tab.value(strokes)[1]), 0.5)
        self.tab.click("#theme")
        self.assertEqual(self.tab.value(fills.replace("NAME", "text"))[0], INK)
        self.assertEqual(self.tab.value(strokes)[1], "rgb(34, 34, 34)")
        self.is_quiet()

    def test_a_phone(self):
        self.tab.call("Emulation.setTouchEmulationEnabled", enabled=True)
        for width, height in ((360, 740), (412, 915)):
            self.tab.call("Emulation.setDeviceMetricsOverride", width=width, height=height, deviceScaleFactor=1, mobile=True)
            self.tab.go(self.address)
            for title in ("Sudoku", "Pentominoes in 6 by 10", "The Soma cube", "A nonogram of 12 by 12", "Eight queens"):
                with self.subTest(title=title, width=width):
                    self.tab.value("document.querySelector('#form').open = true")
                    self.example(title)
                    self.are_large()
                    self.tab.press("Enter", ctrl=True)
                    self.tab.wait("document.querySelector('#picture svg')?.checkVisibility()")
                    self.tab.press(".", ctrl=True)
                    x, y, wide, high = self.tab.value(
                        "(() => { const it = document.querySelector('#picture svg').getBoundingClientRect();"
                        " return [it.x, it.y, it.width, it.height]; })()"
                    )
                    self.assertEqual(self.tab.value("[scrollX, scrollY]"), [0, 0])
                    self.assertTrue(0 <= x and x + wide <= width and y + high <= height, (x, y, wide, high))
                    self.assertFalse(self.tab.is_shown("#values"))
                    self.are_large()
            self.tab.click("#form summary")
            self.assertTrue(self.tab.is_shown("#values"))
        self.is_quiet()

    def are_large(self):
        """What is typed into and pressed is large enough for fingers, and nothing is wider than the screen."""
        small = self.tab.value(
            "[...document.querySelectorAll('button, input, select, textarea, summary')].filter((it) => it.checkVisibility())"
            ".map((it) => it.type === 'checkbox' ? it.parentElement : it).filter((it) => {"
            " const box = it.getBoundingClientRect(); const isTyped = it.matches('input, select, textarea');"
            " return box.right > innerWidth || (isTyped && parseFloat(getComputedStyle(it).fontSize) < 16)"
            " || (it.tagName !== 'TEXTAREA' && box.height < 44); }).map((it) => it.outerHTML.slice(0, 80))"
        )
        self.assertEqual(small, [])
        self.assertLessEqual(*self.tab.value("[document.documentElement.scrollWidth, innerWidth]"))

    def test_by_keys_alone(self):
        """All is reached, in order and visibly, and has a name; what is reached is seen to be reached."""
        self.tab.value("document.querySelector('#example').focus()")
        reached = []
        for _ in range(12):
            reached.append(self.tab.value("document.activeElement.id || document.activeElement.tagName"))
            self.tab.press("Tab")
            style = "getComputedStyle(document.activeElement.id === 'text' ? document.querySelector('.editor') : document.activeElement)"
            self.assertTrue(self.tab.value(f"{style}.outlineStyle !== 'none' || {style}.boxShadow !== 'none'"), reached)
        wanted = ["example", "as-kind", "as-text", "text", "SUMMARY", "open", "save-problem", "limit", "order", "seconds", "solve"]
        self.assertEqual(reached[: len(wanted)], wanted)
        self.example("Eight queens")
        self.solve()
        self.tab.press("g")
        self.tab.call("Accessibility.enable")
        nodes = self.tab.call("Accessibility.getFullAXTree")["nodes"]
        roles = {"button", "textbox", "searchbox", "combobox", "spinbutton", "checkbox", "image", "dialog", "region", "table"}
        named = [(it["role"]["value"], it.get("name", {}).get("value", "")) for it in nodes if not it["ignored"]]
        self.assertEqual([it for it in named if it[0] in roles and not it[1]], [])
        self.assertEqual([it["name"]["value"] for it in nodes if level(it) == 1], ["Exact cover problems"])
        self.is_quiet()

    def test_a_problem_is_typed_and_solved(self):
        self.type_problem("ann bob | door\nann door:red\nbob door:green\nbob door:red\n")
        self.solve()
        self.assertEqual(self.tab.text("#summary"), "1 solution; all that there are.")
        self.assertEqual(self.tab.text("#steps").split(), "1 1 of 1 1 ann door:red 2 1 of 1 3 bob door:red".split())
        self.type_problem("a b\na\n")
        self.solve()
        self.assertEqual(self.tab.text("#none"), "There is no solution.\ncan't all be held: b\nit is in no option")
        self.type_problem("r1c1 r1c2 r2c1 r2c2 | A B C D\nA r1c1 r1c2\nB r2c1 r2c2\nC r1c1 r2c1\nD r1c2 r2c2\n")
        self.tab.click("#patterns summary")
        self.tab.click("#cell")
        self.tab.type(r"r(\d)c(\d)")
        self.tab.click("#label")
        self.tab.type("[A-D]")
        self.tab.click("#solve")
        self.tab.wait("document.querySelector('#stop').disabled")
        self.assertEqual(self.tab.text("#summary"), "2 solutions; all that there are.")
        letters = "[...document.querySelectorAll('#picture text')].map((it) => it.textContent).join('')"
        self.assertEqual(self.tab.value(letters), "AABB")
        self.tab.press("ArrowRight")
        self.assertEqual(self.tab.value(letters), "CDCD")
        self.is_quiet()

    def test_faults_are_at_their_tokens(self):
        self.type_problem("ann bob | room key\nann room\nbob room room\nann kay\nbob\nbob\n")
        self.tab.wait("document.querySelectorAll('#remarks li').length === 4")
        remarks = self.tab.value("[...document.querySelectorAll('#remarks li')].map((it) => it.innerText)")
        wanted = ["line 1 key: in no option", "line 3 room: item repeated in option",
                  "line 4 kay: unknown item (is it key?)", "line 6 bob: the same option as that of line 5"]  # fmt: skip
        self.assertEqual(remarks, wanted)
        lint = helgrothy("lint", given=self.tab.value("document.querySelector('#text').value")).decode().splitlines()
        self.assertEqual([line.replace(": ", " ", 1) for line in lint], wanted)
        marks = self.tab.value("[...document.querySelectorAll('#marks mark')].map((it) => [it.className, it.textContent])")
        self.assertEqual(marks, [["odd", "key"], ["wrong", "room"], ["wrong", "kay"], ["odd", "bob"]])
        # Marks stand where the tokens are seen: the layer of marks has the text, in the same place.
        text = "document.querySelector('#text')"
        self.assertEqual(self.tab.value(f"document.querySelector('#marks').textContent.trim() === {text}.value.trim()"), True)
        for one in ("font", "letterSpacing", "paddingLeft", "paddingTop", "whiteSpace", "tabSize"):
            styles = [f"getComputedStyle(document.querySelector('{it}')).{one}" for it in ("#text", "#marks")]
            self.assertEqual(*map(self.tab.value, styles), one)
        self.tab.click("#remarks li:nth-child(2) button")
        selected = self.tab.value(f"{text}.value.slice({text}.selectionStart, {text}.selectionEnd)")
        self.assertEqual(selected, "room")
        self.assertEqual(self.tab.value(f"{text}.value.slice(0, {text}.selectionStart).split('\\n').length"), 3)
        self.tab.press("Enter", ctrl=True)
        self.tab.wait("document.querySelector('#state').innerText === 'the text has faults'")
        self.type_problem("ann\nann\n")
        self.tab.wait("document.querySelectorAll('#remarks li').length === 0")
        self.is_quiet()

    def test_kinds(self):
        self.choose("polyominoes")
        self.solve()
        self.assertEqual(self.tab.text("#title"), "A tiling by polyominoes")
        self.assertRegex(self.tab.text("#summary"), r"^(20 solutions; there may be more|9,356 solutions; 20 of them here)\.$")
        self.choose("queens", board="BCAAAA\nBCCCAA\nBCCCFF\nDDCCFF\nFFFFFE\nFFFFEE")
        self.solve()
        self.assertEqual(self.tab.text("#summary"), "1 solution; all that there are.")
        self.assertEqual(self.tab.value("document.querySelectorAll('#picture path[transform]').length"), 6)
        for kind in self.tab.value("[...document.querySelector('#kind').options].map((it) => it.value)"):
            self.choose(kind)
            self.assertTrue(self.tab.is_shown("#values label"), kind)
            if first_of(kind):
                self.tab.press("Enter", ctrl=True)
                self.tab.wait("document.querySelector('#picture svg')?.checkVisibility()")
                self.tab.press(".", ctrl=True)
        self.choose("queens", board="8")
        self.tab.value("document.querySelector('#order').value = 'symmetry'")
        self.solve()
        self.assertEqual(self.tab.text("#summary"), "12 solutions; all that there are.")
        self.tab.value("document.querySelector('#order').value = ''")
        self.choose("queens", board="/etc/passwd")
        self.solve()
        self.assertIn("line 1: /etc/passwd:", self.tab.text("#state"))
        self.is_quiet()

    def type_one_that_is_found(self):
        """A problem whose first option is a solution; for others it searches long, and there are none."""
        items, *options = make.langford.problem(14).text.splitlines()[2:]
        self.type_problem("\n".join([items, items, *options, ""]))
        self.tab.value("document.querySelector('#seconds').value = 600")
        self.tab.press("Enter", ctrl=True)
        self.tab.wait("document.querySelector('#count').innerText === '1'")
        self.assertEqual(self.tab.text("#summary"), "1 solution; and it searches on.")
        return items

    def test_solutions_come_as_they_are_found_and_it_stops(self):
        items = self.type_one_that_is_found()
        self.unfold()
        self.assertEqual(sorted(self.tab.text("#steps .items").split()), sorted(items.split()))
        self.wait(lambda: [len(it) for it in self.running()] == [1, 1])
        self.tab.press(".", ctrl=True)
        self.assertEqual(self.tab.text("#state"), "Stopped.")
        self.assertEqual(self.tab.text("#summary"), "1 solution; there may be more. It was stopped.")
        self.wait(lambda: self.running() == ([], []))
        self.assertTrue(self.tab.is_shown("#steps"))
        # Another one ends the one before; a page that goes ends its own.
        self.choose("langford", pairs="14")
        self.tab.press("Enter", ctrl=True)
        self.wait(lambda: [len(it) for it in self.running()] == [1, 1])
        before = self.running()
        self.tab.press("Enter", ctrl=True)
        self.wait(lambda: [len(it) for it in self.running()] == [1, 1] and self.running() != before)
        self.tab.press(".", ctrl=True)
        self.assertEqual(self.tab.text("#none"), "No solution was found.\nit was stopped")
        self.tab.press("Enter", ctrl=True)
        self.assertEqual(self.tab.text("#none"), "Solutions come here as they are found.")
        self.wait(lambda: [len(it) for it in self.running()] == [1, 1])
        self.is_quiet()
        self.tab.call("Page.navigate", url="data:text/html,gone")
        self.wait(lambda: self.running() == ([], []))

    def test_hostile_names_run_nothing(self):
        names = [name for name in map(legal, EVIL) if name.isprintable()]
        lines = [" ".join(names) + " | " + " ".join(f"at{place}" for place in range(len(names)))]
        lines += [f"{name} at{place}:{name[:8]}" for place, name in enumerate(names)]
        self.type_problem("\n".join([*(f"| {name}" for name in EVIL if name.isprintable()), *lines, "<img/src=x/onerror=owned()>x", ""]))
        self.tab.wait("document.querySelectorAll('#remarks li').length > 0")
        self.assertIn("<img/src=x/onerror=owned()>x", self.tab.text("#remarks"))
        self.tab.value("document.querySelector('#text').setSelectionRange(1e9, 1e9)")
        self.type_problem("\n".join(lines))
        self.tab.click("#patterns summary")
        self.tab.click("#cell")
        self.tab.type(r"at(\d+)")
        self.solve()
        self.assertEqual(self.tab.text("#summary"), "1 solution; all that there are.")
        self.unfold()
        self.assertIn("<svg/onload=owned()>", self.tab.text("#steps"))
        ElementTree.fromstring(self.saved("#save-picture", "solution-1.svg"))
        saved = self.browser.tab()
        self.addCleanup(saved.close)
        saved.call("Page.addScriptToEvaluateOnNewDocument", source=OWNED)
        saved.go(f"file://{self.file('saved.html', self.saved('#save-page', 'solution.html'))}")
        self.assertEqual(saved.text("#summary"), "1 solution; all that there are.")
        self.assertEqual((saved.value("owned.times"), saved.complaints()), (0, []))
        for tab in (self.tab, saved):
            for element, count in (("script", 2), ("img", 0), ("iframe", 0), ("main", 1)):
                self.assertEqual(tab.value(f"document.querySelectorAll('{element}').length"), count, element)
        self.is_quiet()

    def test_other_pages_get_nothing(self):
        """One that even knows the address: it can't ask, and it can't put the page into itself."""
        self.wait(lambda: self.running() == ([], []))
        other = self.browser.tab()
        self.addCleanup(other.close)
        other.go(f"file://{self.file('other.html', b'<!doctype html><p>other')}")
        ask = f"fetch({json.dumps(self.address + 'answer')}, {{method: 'POST', body: '{{}}', HOW}})"
        for how in ("mode: 'cors', headers: {'Content-Type': 'application/json'}", "mode: 'cors'"):
            got = other.value(f"{ask.replace('HOW', how)}.then((it) => it.text(), () => 'refused')")
            self.assertEqual(got, "refused", how)
        other.value(f"{ask.replace('HOW', 'mode: `no-cors`')}.then(() => 0, () => 0)")
        self.assertEqual(self.running(), ([], []))
        other.value(
            f"new Promise((done) => {{ const it = document.createElement('iframe'); it.src = {json.dumps(self.address)};"
            " it.onload = done; document.body.append(it); })"
        )
        self.assertTrue(any("frame-ancestors" in it for it in other.complaints()), other.complaints())

    def test_a_server_that_has_ended(self):
        other = subprocess.Popen([SCRIPT, "page"], stdout=subprocess.PIPE, stderr=subprocess.DEVNULL, text=True)
        with other, contextlib.ExitStack() as stack:
            # It is waited for, whatever goes wrong here.
            stack.callback(other.kill)
            self.tab.go(other.stdout.readline().strip())
            self.type_one_that_is_found()
            other.send_signal(signal.SIGTERM)
            self.assertEqual(other.wait(PATIENCE), 143)
        ended = "document.querySelector('#state').innerText.startsWith('The page\\'s server has ended')"
        self.tab.wait(ended)
        self.assertEqual(self.tab.text("#summary"), "1 solution; there may be more.")
        self.tab.value("document.querySelector('#state').textContent = ''")
        self.tab.press("Enter", ctrl=True)
        self.tab.wait(ended)


if __name__ == "__main__":
    if program() is None:
        print("test-page: no chromium is installed, so pages aren't tried")
        sys.exit(0)
    unittest.main()

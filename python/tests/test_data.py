"""Solutions as data and as tables."""

import csv
import io
import json
import os
import random
import re
import tempfile
import unittest

from folders import InFolder

from helgrothy import NoPicture, Problem, data, make
from helgrothy.draw import Pattern
from helgrothy.table import Table
from test_commands import run

ROOMS = "ann bob | door\nann door:red\nbob door:green\nbob door:red\n"
LESSONS = "maths art | mon1,hall tue1,hall mon1,lab ann,mon1\nmaths tue1,hall\nmaths mon1,hall ann,mon1\nart mon1,lab\n"


def exams():
    """A timetable as someone writes it: exams in slots and rooms, and students who sit one exam at a time."""
    rng = random.Random(5)
    sits = {f"E{k:02d}": [] for k in range(1, 16)}
    for student in range(1, 61):
        base = rng.choice([0, 5, 10])
        for k in {*rng.sample(range(base, base + 5), 2)}:
            sits[f"E{k + 1:02d}"].append(f"s{student:02d}")
    slots = ["mon1", "mon2", "tue1", "tue2", "wed1", "wed2"]
    rooms = {"hall": 20, "aula": 15, "lab": 12}
    options = [
        (exam, (slot, room), *((who, slot) for who in sitting))
        for exam, sitting in sits.items()
        for slot in slots
        for room, seats in rooms.items()
        if len(sitting) <= seats
    ]
    return Problem(list(sits), True, options)


class Json(unittest.TestCase):
    def test_lines(self):
        status, text, messages = run("solve", "--json", "--all", given=ROOMS)
        self.assertEqual((status, messages), (0, "Altogether 1 solution.\n"))
        self.assertEqual(
            json.loads(text),
            {"number": 1, "options": [1, 3], "items": [["ann", "door"], ["bob", "door"]], "colours": {"door": "red"}},
        )
        lines = run("queens", "6", "--json", "--all")[1].splitlines()
        board = make.queens.problem(6)
        self.assertEqual([json.loads(line)["number"] for line in lines], [1, 2, 3, 4])
        for line, solution in zip(lines, board.solve()):
            self.assertEqual([board.options[number - 1] for number in json.loads(line)["options"]], solution)
        self.assertEqual(run("queens", "6", "--json", "--number", "3")[1], f"{lines[2]}\n")
        self.assertEqual(run("queens", "6", "--json", "--limit", "2")[1].splitlines(), lines[:2])
        self.assertEqual(run("queens", "3", "--json")[:2], (1, ""))

    def test_names_of_any_bytes(self):
        with tempfile.NamedTemporaryFile() as file:
            file.write(b"a\xff\x1b \xc3\xa4\na\xff\x1b\n\xc3\xa4\n")
            file.flush()
            text = run("solve", file.name, "--json")[1]
        self.assertTrue(text.isascii() and text.count("\n") == 1 and "\x1b" not in text)
        self.assertEqual(json.loads(text)["items"], [["a\ufffdff\x1b"], ["ä"]])

    def test_any_bytes_come_back(self):
        """No text of JSON has half of a character, which strict readers refuse, and no two names are written alike."""
        names = ["a", "\ufffd", "\ufffdff", "\udcff", "ff", "\udcef\udcbf", "ä\udcc3\ufffd", "\U0001f600\udc80", "\\xff"]
        written = [data.to_json(name) for name in names]
        self.assertEqual([data.of_json(text) for text in written], names)
        self.assertEqual(len(set(written)), len(names))
        for text in written:
            text.encode()
        problem = Problem(names, ["x"], [{name: None, "x": "\udcfe"} for name in names])
        self.assertEqual(json.loads(data.Json(problem).solution(1, [3]))["colours"], {"x": "\ufffdfe"})

    def test_a_listing(self):
        with tempfile.TemporaryDirectory() as folder:
            path = os.path.join(folder, "rooms.dlx")
            with open(path, "w") as file:
                file.write(ROOMS)
            text = run("draw", path, "--json", given="7:\n door:red bob (1 of 1)\n ann door:red (1 of 1)\n")[1]
            self.assertEqual((json.loads(text)["number"], json.loads(text)["options"]), (7, [3, 1]))
            text = run("draw", path, "--csv", given="7:\n ann door:red (1 of 1)\n")[1]
            self.assertEqual(text, "solution,option,item 1,item 2\n7,1,ann,door:red\n")


class Csv(unittest.TestCase):
    def test_lines(self):
        text = run("solve", "--csv", "--all", given=LESSONS)[1]
        rows = list(csv.reader(io.StringIO(text)))
        self.assertEqual(rows[0], ["solution", "option", "item 1", "item 2", "item 3"])
        self.assertEqual(rows[1:3], [["1", "3", "art", "mon1,lab", ""], ["1", "1", "maths", "tue1,hall", ""]])
        self.assertEqual({len(row) for row in rows}, {5})
        for other in ("--json", "--svg"):
            self.assertEqual(run("queens", "6", "--csv", other)[0], 2)

    def test_no_cell_is_a_formula(self):
        cells = {
            "=1+1": "'=1+1", "@x": "'@x", "-mon": "'-mon", "--5": "'--5", "+1e9": "'+1e9", "'=1": "''=1", "''-5": "'''-5",
            **{word: word for word in ("+1", "-5", "-1.5", "5", "'s", "'", "a=1")},
        }  # fmt: skip
        self.assertEqual({word: data.to_csv(word) for word in cells}, cells)
        self.assertEqual({data.of_csv(cell): cell for cell in cells.values()}, cells)
        text = run("solve", "--csv", given='=CALL("x") -7 | @y\n=CALL("x") @y:=1\n-7\n')[1]
        rows = list(csv.reader(io.StringIO(text)))[1:]
        self.assertEqual(sorted(row[2:] for row in rows), [["'=CALL(\"x\")", "'@y:=1"], ["-7", ""]])


FACTORS = "cache memcached redis\ndatabase postgresql14 postgresql15 sqlite\nsystem windows11home linux\n"
LONG = "a-person-with-a-name-of-more-than-32-bytes"
ROSTER = f"-     mon tue wed\nearly 1   1   1\nlate  1   1   0:1\n\n{LONG} 2:3\nbob 2 -tue\ncat 1:2\n"
SLOTS = "day,mon,1 2\nroom,hall,,,30\nroom,the-old-laboratory-of-the-town,,,20\nlesson,maths,ann 1a,hall,24\nlesson,art,bob 1a\n" \
    "lesson,music,ann,-hall\nbefore,maths,art\n"  # fmt: skip
# What a kind's command takes, in which the file's name stands for TABLE; the file; the form; and the columns of rows.
KINDS = {
    "tests": (["TABLE", "--tests", "6"], FACTORS, ["test", "cache", "database", "system"]),
    "roster": (["TABLE", "--rest", "--in-a-row", "2", "--days-off", "1"], ROSTER, ["person", "day", "shift"]),
    "roundrobin": (["TABLE"], f"{LONG} home:1\nbob\ncat\n", ["round", "home", "away"]),
    "timetable": (["TABLE", "--daily", "1"], SLOTS.replace("1 2", "1 2\nday,tue,1"), ["lesson", "day", "hour", "room"]),
}


class Kinds(InFolder):
    """Of a kind that draws tables these are what JSON and CSV have: with whole names, and none of the problem's own."""

    def asked(self, kind, *words):
        given, table, _ = KINDS[kind]
        path = self.file("table", table)
        return run(kind, *(path if word == "TABLE" else word for word in given), *words)

    def rows(self, kind, *words):
        """The cells of the rows of CSV, without the columns that number them, after those of JSON were found the same."""
        head, *rows = csv.reader(io.StringIO(self.asked(kind, "--csv", *words)[1]))
        self.assertEqual(head, ["solution", *KINDS[kind][2]])
        self.assertEqual({row[0] for row in rows}, {"1"})
        read = json.loads(self.asked(kind, "--json", *words)[1])
        self.assertEqual(read.pop("number"), 1)
        ((_, objects),) = read.items()
        start = 2 if kind == "tests" else 1
        self.assertEqual([list(each) for each in objects], [head[start:]] * len(rows))
        cells = [["" if cell is None else str(cell) for cell in each.values()] for each in objects]
        self.assertEqual(cells, [row[start:] for row in rows])
        return cells

    def test_they_are_what_is_drawn(self):
        for kind in KINDS:
            drawn = self.asked(kind)[1].split()
            rows = self.rows(kind)
            self.assertGreater(len(rows), 2)
            for row in rows:
                if kind == "roundrobin":
                    self.assertIn("-".join(row[1:]), drawn)
                    continue
                for cell in row if kind == "tests" else [row[0], row[-1]]:
                    self.assertIn(cell or ".", drawn)

    def test_names_are_whole(self):
        self.assertEqual({row[1] for row in self.rows("tests")}, {"postgresql14", "postgresql15", "sqlite"})
        self.assertEqual({row[0] for row in self.rows("roster")}, {LONG, "bob", "cat"})
        self.assertIn(LONG, [row[1] for row in self.rows("roundrobin")])
        self.assertIn("the-old-laboratory-of-the-town", [row[-1] for row in self.rows("timetable")])
        least = run("tests", self.file("table", FACTORS), "--least", "--csv")[1]
        self.assertEqual(len(least.splitlines()), 7)
        self.assertIn(",memcached,postgresql15,", least)

    def test_each_solution_and_each_cell(self):
        head, *rows = csv.reader(io.StringIO(self.asked("roster", "--all", "--csv")[1]))
        self.assertEqual(len(rows) % 9, 0)
        self.assertEqual(int(rows[-1][0]), len(rows) // 9)
        self.assertEqual([row[1:3] for row in rows[:9]], [row[1:3] for row in rows[-9:]])
        self.assertEqual(self.asked("roster", "--all", "--json")[1].count("\n"), len(rows) // 9)

    def test_options_are_there_too(self):
        for kind in KINDS:
            self.assertIn('"options": [', self.asked(kind, "--json", "--options")[1])
            self.assertTrue(self.asked(kind, "--csv", "--options")[1].startswith("solution,option,item 1,"))
        for words in ((), ("--html",), ("--csv", "--count"), ("--json", "--chances")):
            status, _, messages = self.asked("roster", "--options", *words)
            self.assertEqual((status, messages.startswith("helgrothy: --options is of ")), (2, True))

    def test_a_problem_of_a_file(self):
        made = run("make", "tests", self.file("table", FACTORS), "--tests", "6")[1]
        self.assertIn("1,1,memcached,postgresql14,", run("solve", "--csv", given=made)[1])
        broken = made.replace("| system windows11home linux", "| system windows linux")
        messages = run("solve", "--csv", given=broken)[2]
        self.assertIn("isn't as `helgrothy make tests` made it; with --options there are its options", messages)
        self.assertEqual(run("solve", "--csv", "--options", given=broken)[0], 0)

    def test_no_item_of_a_rule_is_shown(self):
        signs = re.compile(r">>|>early|-off|\.\.|~[0-9]|@@|home=|@mon\b|t[0-9]/")
        for kind in KINDS:
            page = self.asked(kind, "--html", "--limit", "3")[1]
            lines = json.loads(re.search(r'<script type="application/json" id="data">(.*?)</script>', page, re.DOTALL).group(1))
            self.assertIsNone(signs.search("\n".join(lines[0]["problem"]["text"][2:])), kind)
            words = [text for line in lines if "solution" in line for text in line["solution"]["words"].values()]
            self.assertTrue(words)
            shown = [text for text in words if not text.startswith("days-off")]
            self.assertIsNone(signs.search("\n".join(shown)), kind)
        self.assertIn("only the first has ", self.asked("roster", "--unique")[2])
        self.assertIsNone(signs.search(self.asked("roster", "--unique")[2]))
        self.assertIn("% test1 cache=memcached database=postgresql14\n", self.asked("tests", "--chances")[1])


class Cells(unittest.TestCase):
    def test_one_without_a_colour_has_no_label(self):
        for kind in ("words", "wordsearch"):
            given = f"| helgrothy make {kind}\na | r1c1 r1c2\na r1c1:x r1c2\n"
            for words, wanted in (((), "x ."), (("--svg",), ">x</text>"), (("--html",), '"a r1c1:x r1c2"')):
                status, out, messages = run("solve", *words, given=given)
                self.assertEqual((status, messages), (0, "Altogether 1 solution (limit).\n"), (kind, words))
                self.assertIn(wanted, out)


class Tables(unittest.TestCase):
    def test_a_timetable(self):
        problem = exams()
        with tempfile.NamedTemporaryFile("w", suffix=".dlx") as file:
            file.write(problem.text)
            file.flush()
            words = ("solve", file.name, "--row", r"[a-z]{3}\d", "--column", "hall|aula|lab")
            status, text, _ = run(*words, "--label", r"E\d+")
            self.assertEqual(status, 0)
            rows = [line.split() for line in text.splitlines()]
            self.assertEqual(rows[0], ["hall", "aula", "lab"])
            self.assertEqual([row[0] for row in rows[1:]], ["mon1", "mon2", "tue1", "tue2", "wed1", "wed2"])
            self.assertEqual(sorted(re.findall(r"E\d+", text)), [f"E{k:02d}" for k in range(1, 16)])
            picture = run(*words, "--svg")[1]
            self.assertEqual(picture.count(">E"), 15)
            self.assertTrue(all(f">{name}</text>" in picture for name in ("mon1", "wed2", "hall", "lab")))

    def test_names(self):
        problem = Problem.parse(LESSONS)
        solution = next(problem.solve())
        for table, wanted in (
            (Table(r"mon\d|tue\d", "hall|lab", "maths|art"), "     hall  lab\nmon1 .     art\ntue1 maths .\n"),
            (Table(r"(mon|tue)\d", "hall|lab"), "    hall  lab\nmon .     art\ntue maths .\n"),
            (Table(row="hall|lab"), "hall maths\nlab  art\n"),
            (Table(column=r"\w+\d", label="maths|art"), "mon1 tue1\nart  maths\n"),
            (Table(r"\w+\d", "maths|art", "hall|lab"), "     maths art\nmon1 .     lab\ntue1 hall  .\n"),
        ):
            with self.subTest(table=table):
                self.assertEqual(str(problem.draw(solution, table)), wanted)
        problem.pattern = Table("hall|lab")
        self.assertEqual(str(problem.draw(solution)), "hall maths\nlab  art\n")
        self.assertIn(">maths</text>", solution._repr_svg_())

    def test_letters_that_are_no_neighbours(self):
        days = "maths art | m-1 w-1\nmaths m-1\nart w-1\n"
        words = ("--row", "[mtw]", "--column", r"\d", "--label", "maths|art")
        self.assertEqual(run("solve", *words, given=days)[1], "  1\nm maths\nw art\n")

    def test_several_in_one_cell(self):
        options = ["a mon".split(), "b mon".split(), "c tue".split()]
        days = Problem({"a": 1, "b": 1, "c": 1, "mon": 2, "tue": 1}, options=options)
        self.assertEqual(str(days.draw(next(days.solve()), Table("mon|tue"))), "mon a b\ntue c\n")

    def test_patterns_that_do_not_fit(self):
        problem = Problem.parse(LESSONS)
        for drawn, wanted in (
            (Table("mo", "hall"), r"no row is found by mo: .* such as maths tue1,hall$"),
            (Table("mon1", "hal"), r"no column is found by hal: .* such as maths tue1,hall$"),
            (Table("mon1", "hall", "x"), r"no label is found by x: .* such as maths tue1,hall$"),
            (Pattern(r"(\d)-(\d)"), r"no cell is found by \(\\d\)-\(\\d\): .* whole words .* such as maths tue1,hall$"),
            (Pattern(r"\w\w\w(\d),(\w)\w+", "nobody"), r"no label is found by nobody: .* whole words"),
        ):
            with self.subTest(drawn=drawn), self.assertRaisesRegex(NoPicture, wanted):
                problem.draw((), drawn)
        with self.assertRaisesRegex(NoPicture, r"tue is no row or column: .*\(--row, --column\)"):
            problem.draw((), Pattern(r"(mon|tue)(\d),\w+"))
        self.assertEqual(run("solve", "--row", "(", given=LESSONS)[0], 2)
        messages = run("solve", "--row", "mon", "--cell", r"(\d)", given=LESSONS)[2]
        self.assertIn("not both", messages)
        with self.assertRaisesRegex(NoPicture, "none"):
            Problem({"a": (0, 1)}).draw((), Table("a"))


if __name__ == "__main__":
    unittest.main()

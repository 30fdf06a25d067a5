"""Rules of rosters and of timetables: against all ways by hand."""

import itertools
import random
import unittest

from folders import InFolder
from test_commands import run

from helgrothy import Problem, TableFault, make

DAYS = "day,mon,1 2\nday,tue,1 2\n"


class Roster:
    """A random roster of a shift a day, as a table and as all ways to work."""

    def __init__(self, rng: random.Random) -> None:
        self.days = rng.randint(2, 5)
        self.needs = [(low, low + rng.randint(0, 1) or 1) for low in (rng.randint(0, 1) for _ in range(self.days))]
        self.people = [(low, low + rng.randint(1, 2)) for low in (rng.randint(0, 2) for _ in range(rng.randint(1, 3)))]
        self.in_a_row = rng.choice([None, 1, 2])
        self.days_off = rng.choice([None, 2, 1, 3])

    def table(self) -> str:
        heads = " ".join(f"d{day}" for day in range(self.days))
        needs = " ".join(f"{low}:{high}" for low, high in self.needs)
        people = [f"p{number} {low}:{high}" for number, (low, high) in enumerate(self.people)]
        return "\n".join([f"- {heads}", f"s {needs}", "", *people])

    def may(self, works: "tuple[bool, ...]", bounds: "tuple[int, int]") -> bool:
        if not bounds[0] <= sum(works) <= bounds[1]:
            return False
        runs = [(is_work, len(list(run))) for is_work, run in itertools.groupby(works)]
        if self.in_a_row and any(is_work and length > self.in_a_row for is_work, length in runs):
            return False
        return not self.days_off or any(not is_work and length >= self.days_off for is_work, length in runs)

    def count(self) -> int:
        ways = list(itertools.product((False, True), repeat=self.days))
        own = [[works for works in ways if self.may(works, bounds)] for bounds in self.people]
        return sum(
            all(low <= sum(day) <= high for day, (low, high) in zip(zip(*chosen), self.needs))
            for chosen in itertools.product(*own)
        )


class Rosters(InFolder):
    def test_random_rosters(self):
        rng = random.Random(8)
        solved = 0
        for _ in range(60):
            roster = Roster(rng)
            how = {"in_a_row": roster.in_a_row, "days_off": roster.days_off}
            if roster.days_off and roster.days_off > roster.days:
                with self.assertRaisesRegex(TableFault, "together are to be off"):
                    make.roster.problem(roster.table(), **how)
                continue
            with self.subTest(table=roster.table(), **how):
                self.assertEqual(make.roster.problem(roster.table(), **how).count(), roster.count())
            solved += roster.count()
        self.assertGreater(solved, 100)

    def test_command(self):
        table = self.file("t.txt", "- mon tue wed thu\nearly 1 1 1 1\n\nann 2 mon=1\nbob 2\n")
        words = ("roster", table, "--rest", "--in-a-row", "2", "--days-off", "2")
        status, text, messages = run(*words, "--all")
        self.assertEqual(status, 0)
        week = ["mon   tue   wed   thu", "ann early early .     .", "bob .     .     early early"]
        self.assertIn("\n".join(["    " + week[0], *week[1:]]), text)
        self.assertIn("Altogether 2 solutions.\n", messages)
        self.assertIn("The least cost is 0.", run(*words)[2])
        made = run("make", *words)[1]
        self.assertEqual(made.splitlines()[0], "| helgrothy make roster --rest --in-a-row 2 --days-off 2 TABLE")
        self.assertEqual(Problem.parse(made).text, made)


class Timetables(unittest.TestCase):
    def count(self, *lines: str) -> int:
        return make.timetable.problem(DAYS + "".join(f"{line}\n" for line in lines)).count()

    def test_before_and_same(self):
        self.assertEqual(self.count("lesson,x", "lesson,y", "before,x,y"), 6)
        self.assertEqual(self.count("lesson,x", "lesson,y", "lesson,z", "before,x,y z"), 3 * 3 + 2 * 2 + 1)
        self.assertEqual(self.count("lesson,x", "lesson,y", "lesson,z", "before,x,y", "before,y,z"), 4)
        self.assertEqual(self.count("lesson,x", "lesson,y", "same,x,y"), 4)
        self.assertEqual(self.count("lesson,x", "lesson,y", "lesson,z", "same,x,y z"), 4)
        # x twice, and y behind both.
        self.assertEqual(self.count("lesson,x,,,,2", "lesson,y", "before,x,y"), 1 + 3)
        self.assertEqual(self.count("lesson,x", "lesson,y", "before,x,y", "before,y,x"), 0)
        self.assertEqual(self.count("room,a", "room,b", "lesson,x", "lesson,y", "same,x,y"), 4 * 2)

    def test_what_is_refused(self):
        for lines, sentence in (
            (["lesson,x", "before,x"], "line 4: x: no lesson or exam after it"),
            (["lesson,x", "before,x,x"], "line 4: x: twice in this line"),
            (["lesson,maths", "same,maths,math"], "line 4: math: no lesson or exam (is it maths?)"),
            (["lesson,x,ann", "lesson,y,ann", "same,x,y"], "line 5: ann: in x and in y, which can't be in one slot"),
            (["lesson,x,,,,2", "lesson,y", "same,x,y"], "line 5: x: held 2 times; a lesson of the same slot is held once"),
        ):
            with self.subTest(lines=lines), self.assertRaises(TableFault) as raised:
                self.count(*lines)
            self.assertEqual(str(raised.exception), sentence)

    def test_text_and_picture(self):
        problem = make.timetable.problem(DAYS + "lesson,x,ann\nlesson,y\nlesson,z\nbefore,x,y\nsame,y,z\n")
        self.assertEqual(Problem.parse(problem.text).text, problem.text)
        self.assertEqual(str(problem.draw(next(problem.solve()))), "  mon tue\n1 x   .\n2 y z .\n")


if __name__ == "__main__":
    unittest.main()

"""Timetables: numbers that are known, a second program on random tables, pictures, and bad tables."""

import itertools
import os
import random
import tempfile
import unittest
import xml.etree.ElementTree as ElementTree

from helgrothy import Problem, make
from test_commands import run

TABLE = """\
# what,name,who,places,number
day,mon,1 2
day,tue,1 2
room,hall,,,30
room,lab,,-mon-2,20

lesson,maths,ann 1a,,24
lesson,physics,bob 1a,lab
lesson,chess,,hall -tue
person,bob,,-tue
"""
DAYS = "day,mon,1 2\nday,tue,1\n"

# Each bad table with the sentence that says what is wrong.
BAD = (
    ("", "line 1: no line `day,NAME,HOURS`"),
    (DAYS, "line 1: no line `lesson,NAME,PEOPLE` or `exam,NAME,PEOPLE`"),
    (DAYS + "lessons,maths,ann\n", "line 3: lessons: a line begins with day, room, lesson, exam, person, before or same"),
    (DAYS + "\n# no name\nlesson,,ann\n", "line 5: lesson: a name is missing after this"),
    (DAYS + "lesson,maths 1a,ann\n", "line 3: maths 1a: a name has no blank and no : | / @, and begins with no minus"),
    (DAYS + "lesson,maths,ann/bob\n", "line 3: ann/bob: a name has no blank and no : | / @, and begins with no minus"),
    (DAYS + "room,-lab\n", "line 3: -lab: a name has no blank and no : | / @, and begins with no minus"),
    (DAYS + f"lesson,{'m' * 33},ann\n", f"line 3: {'m' * 33}: this name is made here, and would have more than 32 bytes"),
    (DAYS + f"lesson,maths,{'a' * 27}\n", f"line 3: {'a' * 27}@mon-1: this name is made here, and would have more than 32 bytes"),
    (DAYS + "day,mon,3\n", "line 3: mon: there is a day of this name"),
    (DAYS + "room,1\n", "line 3: 1: there is an hour of this name"),
    (DAYS + "room,mon-1\n", "line 3: mon-1: there is a slot of this name"),
    ("day,mon,1 2 1\n", "line 1: 1: twice among the hours of mon"),
    (DAYS + "lesson,maths,ann\nlesson,art,bob\nexam,maths,cat\n", "line 5: maths: the lesson of line 3 has this name"),
    (DAYS + "lesson,maths,ann bob ann\n", "line 3: ann: twice among the people of maths"),
    (DAYS + "lesson,maths,ann\nlesson,ann,bob\n", "line 3: ann: the lesson of line 4 has this name, and this is a person"),
    (DAYS + "lesson,maths,ann,tues\n", "line 3: tues: no day, hour, slot or room (is it tue?)"),
    (DAYS + "lesson,maths,ann,-3\n", "line 3: -3: no day, hour, slot or room"),
    (DAYS + "room,lab,,,many\nlesson,maths,ann\n", "line 3: many: the seats of lab: not a number from 1 on"),
    (DAYS + "lesson,maths,ann,,,0\n", "line 3: 0: the times of maths: not a number from 1 on"),
    (DAYS + "lesson,maths,ann\nperson,ann,,,few\n", "line 4: few: the limit of ann: not a number from 1 on"),
    (DAYS + "room,lab,20\n", "line 3: 20: in cell 3, and a line of a room has nothing there"),
    (DAYS + "lesson,maths,ann,,20,1,lab\n", "line 3: lab: in cell 7, and a line of a lesson has nothing there"),
    (DAYS + "lesson,maths,ann\nperson,ann\nperson,ann\n", "line 5: ann: the person of line 4 has this name"),
    (DAYS + "lesson,maths,ann\nperson,bob,,-mon\n", "line 4: bob: a person without a lesson or exam"),
    (DAYS + "exam,E01\nperson,bob,E02 E01\n", "line 4: E02: no lesson or exam (is it E01?)"),
    (DAYS + 'lesson,maths,"ann" bob\n', "line 3: no CSV: ',' expected after '\"'"),
    (DAYS + "room,lab,,,20\nroom,hall,,,30\nlesson,maths,ann,,31\n", "line 5: maths: 31 seats, and the largest room has 30"),
    (DAYS + "lesson,maths,ann,mon -1 -2\n", "line 3: maths: its seats, its places and those of its people leave it no slot and room"),
    (DAYS + "lesson,maths,ann,,,4\n", "line 3: maths: 4 times in 3 slots"),
    (DAYS + "lesson,a,ann\nlesson,b,ann\nlesson,c,ann,,,2\n", "line 3: ann: 4 lessons in 3 slots"),
    (DAYS + "lesson,a,ann,,,3\nperson,ann,,,1\n", "line 4: ann: 3 lessons in 3 slots, and at most 1 a day"),
    (DAYS + "room,lab,,-tue\nlesson,a\nlesson,b\nlesson,c\n", "line 6: 3 lessons up to here, and 2 slots of rooms"),
)


def exams_of(edges, slots):
    """A table in which each edge is a person with two exams, and each slot a day."""
    days = "".join(f"day,d{slot}\n" for slot in range(slots))
    exams = "".join(f"exam,E{one}\n" for one in sorted({one for edge in edges for one in edge}))
    return days + exams + "".join(f"person,p{n},E{a} E{b}\n" for n, (a, b) in enumerate(edges))


class Random:
    """A random table, as a text and as what it says."""

    def __init__(self, rng: random.Random) -> None:
        self.slots = [(day, hour) for day in ("mon", "tue") for hour in "123"[: rng.randint(1, 3)]]
        self.rooms = {f"room{n}": rng.randint(1, 3) for n in range(rng.randint(0, 2))}
        self.lessons = {}
        for n in range(rng.randint(1, 4)):
            people = [one for one in ("ann", "bob", "cat") if rng.random() < 0.4]
            barred = [f"{day}-{hour}" for day, hour in self.slots if rng.random() < 0.15]
            self.lessons[f"L{n}"] = (people, barred, rng.choice([1, 1, 2]))
        self.daily = rng.choice([None, None, 1, 2])

    def text(self) -> str:
        lines = [f"day,{day},{' '.join(h for d, h in self.slots if d == day)}" for day in ("mon", "tue")]
        lines += [f"room,{name},,,{seats}" for name, seats in self.rooms.items()]
        for name, (people, barred, times) in self.lessons.items():
            lines.append(f"lesson,{name},{' '.join(people)},{' '.join('-' + slot for slot in barred)},,{times}")
        return "\n".join([*lines, ""])

    def count(self) -> int:
        """How many timetables there are, by trying all: each lesson in a set of as many places as it is held."""
        places = [(slot, room) for slot in self.slots for room in self.rooms or [None]]
        choices = []
        for people, barred, times in self.lessons.values():
            fit = [
                (slot, room)
                for slot, room in places
                if "-".join(slot) not in barred and (room is None or self.rooms[room] >= len(people))
            ]
            choices.append(list(itertools.combinations(fit, times)))
        return sum(map(self.is_timetable, itertools.product(*choices)))

    def is_timetable(self, chosen) -> bool:
        held = [(place, people) for places, (people, _, _) in zip(chosen, self.lessons.values()) for place in places]
        rooms = [place for place, _ in held if place[1] is not None]
        slots = [(who, slot) for (slot, _), people in held for who in people]
        days = [(who, day) for who, (day, _) in slots]
        own = [(name, slot) for places, name in zip(chosen, self.lessons) for slot, _ in places]
        return (
            len(set(rooms)) == len(rooms)
            and len(set(slots)) == len(slots)
            and len(set(own)) == len(own)
            and (self.daily is None or all(days.count(one) <= self.daily for one in days))
        )


class Timetables(unittest.TestCase):
    def file(self, name: str, text: str) -> str:
        folder = tempfile.TemporaryDirectory()
        self.addCleanup(folder.cleanup)
        path = os.path.join(folder.name, name)
        with open(path, "w", newline="") as file:
            file.write(text)
        return path

    def test_colourings(self):
        """Exams that share a person are in different slots, so without rooms a timetable is a colouring of a graph.

        A cycle of n has (k - 1)^n + (-1)^n (k - 1) colourings by k colours, a complete graph of n has k! / (k - n)!, and
        the Petersen graph has 120 by three colours (its chromatic polynomial: Biggs, Algebraic Graph Theory).
        """
        cycle = [(n, (n + 1) % 5) for n in range(5)]
        self.assertEqual(make.timetable.problem(exams_of(cycle, 3)).count(), 2**5 - 2)
        self.assertEqual(make.timetable.problem(exams_of(cycle, 4)).count(), 3**5 - 3)
        complete = list(itertools.combinations(range(4), 2))
        self.assertEqual(make.timetable.problem(exams_of(complete, 5)).count(), 5 * 4 * 3 * 2)
        petersen = [*cycle, *((n, n + 5) for n in range(5)), *((n + 5, (n + 2) % 5 + 5) for n in range(5))]
        self.assertEqual(make.timetable.problem(exams_of(petersen, 3)).count(), 120)

    def test_by_hand(self):
        # Physics is in the lab on Monday at 1. Chess is in the hall on Monday at 1, and then maths at one of the three
        # other slots, or it is there at 2, and then maths on Tuesday.
        problem = make.timetable.problem(TABLE)
        self.assertEqual(problem.count(), 3 + 2)
        # One lesson a day for 1a: maths isn't on Monday.
        self.assertEqual(make.timetable.problem(TABLE, daily=1).count(), 2 * 2)
        # Two rooms of the same size, two lessons that share nobody: 4 places each, and not the same one.
        rooms = DAYS.replace("day,tue,1\n", "") + "room,a\nroom,b\nlesson,x,ann\nlesson,y,bob\n"
        self.assertEqual(make.timetable.problem(rooms).count(), 4 * 3)
        # A lesson that is held twice: in two of three slots, whichever is first.
        self.assertEqual(make.timetable.problem(DAYS + "room,a\nroom,b\nlesson,x,,,,2\n").count(), 3 * 2 * 2)
        self.assertEqual(make.timetable.problem(DAYS + "lesson,x,,,,2\n").count(), 3)

    def test_second_program(self):
        rng = random.Random(59)
        solved = 0
        for number in range(60):
            table = Random(rng)
            known = table.count()
            with self.subTest(number=number, table=table.text()):
                try:
                    problem = make.timetable.problem(table.text(), daily=table.daily)
                except ValueError:
                    self.assertEqual(known, 0)
                    continue
                self.assertEqual(problem.count(), known)
                solved += known > 0
        self.assertGreater(solved, 20)

    def test_places(self):
        def count(line: str, more: str = "") -> int:
            return make.timetable.problem(f"{DAYS}room,hall\nroom,lab\n{line}\n{more}").count()

        self.assertEqual(count("lesson,maths"), 6)
        self.assertEqual(count("lesson,maths,,mon"), 4)
        self.assertEqual(count("lesson,maths,,mon lab"), 2)
        self.assertEqual(count("lesson,maths,,mon-2 tue-1 lab"), 2)
        self.assertEqual(count("lesson,maths,,1 -lab"), 2)
        self.assertEqual(count("lesson,maths,ann", "person,ann,,-tue\n"), 4)
        self.assertEqual(count("lesson,maths,,mon-1 lab"), 1)

    def test_apostrophes_of_spreadsheets(self):
        plain, written = make.timetable.problem(TABLE), make.timetable.problem(TABLE.replace(",-", ",'-"))
        self.assertEqual((written.items, written.secondary, written.options), (plain.items, plain.secondary, plain.options))

    def test_other_signs(self):
        for text in (TABLE.replace(",", ";"), TABLE.replace(",", "\t"), "\ufeff" + TABLE, TABLE.replace("\n", "\r\n"),
                     TABLE.replace("ann 1a", '"ann 1a"'), TABLE.replace("\n\n", "\n,,,,\n")):  # fmt: skip
            problem = make.timetable.problem(text)
            self.assertEqual(problem.count(), 5)
            self.assertEqual(Problem.parse(problem.text).draw().rows, ["mon-1", "mon-2", "tue-1", "tue-2"])

    def test_text_and_picture(self):
        problem = make.timetable.problem(TABLE)
        again = Problem.parse(problem.text)
        self.assertEqual(again.text, problem.text)
        picture = problem.draw(next(problem.solve()))
        self.assertEqual(str(again.draw(next(again.solve()))), str(picture))
        self.assertEqual(str(picture).splitlines()[:2], ["      hall  lab", "mon-1 chess physics"])
        ElementTree.fromstring(picture.svg())
        problem = make.timetable.problem("day,mon,1 2\nday,tue,2\nlesson,x,ann\nlesson,y,bob\nlesson,z,ann bob,tue\n")
        labels = {str(problem.draw(solution)) for solution in problem.solve()}
        self.assertIn("  mon tue\n1 x y\n2 .   z\n", labels)
        self.assertEqual(len(labels), 4)
        days = make.timetable.problem("day,mon\nday,tue\nexam,x,ann\nexam,y,ann\n")
        self.assertEqual(str(days.draw(next(days.solve()))), "mon tue\nx   y\n")

    def test_commands(self):
        path = self.file("t.csv", TABLE)
        status, out, messages = run("timetable", path, "--daily", "1", "--all")
        self.assertEqual((status, out.count("hall"), messages), (0, 4, "Altogether 4 solutions.\n"))
        self.assertEqual(run("make", "timetable", path, "--daily", "1")[1], make.timetable.problem(TABLE, daily=1).text)
        self.assertTrue(run("timetable", path, "--svg")[1].startswith("<svg"))

    def test_bad_tables(self):
        for number, (table, sentence) in enumerate(BAD):
            with self.subTest(table=table):
                words = ("timetable", self.file(f"{number}.csv", table))
                self.assertEqual(run(*words), (2, "", f"helgrothy: {sentence}\n"))


if __name__ == "__main__":
    unittest.main()

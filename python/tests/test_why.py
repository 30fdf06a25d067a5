"""Why there is no solution: counting, searches, and SAT solvers where they are installed."""

import itertools
import os
import random
import stat
import tempfile
import time
import unittest
from unittest import mock

from helgrothy import OutOfTime, Problem, make, why
from helgrothy._cli import watch
from helgrothy._reason import sat_solver, sums
from helgrothy._reason.matching import Matching
from helgrothy._reason.sums import Count, Sums, search

# Pictures of nine regions that were meant to have nine cells each.
JIGSAWS = (
    "aaaabbbbc adaabbbcc dddaebccc dddeeecff ddgeeefff gggeeefhh gggiihhff giiihhhhf iiiihhhhf",
    "aabbbbccc aaabbbccc aaaabbbcc ddeeeefff dddeeefff ddddeefff gghhhhiii ggghhhiii gggghhiii",
    "aabbbbccc aaabbbccc aaaabbccc ddeeeefff dddeeefff ddddeefff gghhhhiii ggghhhhii gggghhiii",
)
PROVED = "no solution, proved: dlx-none has checked the sums"
NURSES = "- " + " ".join(f"d{day}" for day in range(9)) + "\nnight" + " 1" * 9 + "\n\n"
NURSES += "".join(f"nurse{number} 0:2\n" for number in range(3))


def find(problem):
    """The reason, with so much time that it is found on a machine that does other things too."""
    return why.find(problem, 600)


def jigsaw(picture):
    """The Sudoku without clues over regions that are drawn by letters, as someone writes it."""
    regions = picture.split()
    options = [
        ((r, c), ("r", r, d), ("c", c, d), (regions[r][c], d))
        for r in range(9)
        for c in range(9)
        for d in range(1, 10)
    ]
    return Problem(dict.fromkeys(item for option in options for item in option), options=options)


class Counting(unittest.TestCase):
    def test_jigsaws(self):
        for picture in JIGSAWS:
            with self.subTest(picture=picture):
                begun = time.process_time()
                problem = jigsaw(picture)
                conflict = find(problem)
                self.assertLess(time.process_time() - begun, 2)
                self.assertTrue(conflict.is_least and len({item[0] for item in conflict.items}) == 1)
                text = conflict.sums.text(problem.name)
                self.assertRegex(text, r": (\w),1 .* \1,9 ask for 9 in all, and .* allow 8$")

    def test_a_whole_class(self):
        box = make.polyominoes.problem("pentominoes", "6x9")
        lines = list(find(box).lines(box))
        self.assertEqual(lines[0], "can't all be held: F I L N P T U V W X Y Z")
        self.assertIn("ask for 60 in all, 5 each, and the 54 items r1c1 r1c2 r1c3 .. allow 54", lines[1])
        self.assertEqual(lines[2:], [PROVED])
        nurses = find(make.roster.problem(NURSES))
        self.assertEqual((len(nurses.items), nurses.sums.low, nurses.sums.high), (9, 9, 6))
        self.assertIsNone(search(make.roster.problem(NURSES.replace("0:2", "0:3"))))

    def test_words(self):
        for weights, wanted in (
            ({"a": 2, "b": 2, "c": -1}, "a b ask for 9 in all, 2 each, and c allows 8"),
            ({"a": 2, "b": 1, "c": -1, "d": -1}, "2 x a b ask for 9 in all, each by its weight, and c d allow 8"),
            ({"a": 1, "c": -5, "d": -5}, "a asks for 9 in all, and c d allow 8, 5 each"),
            ({**dict.fromkeys(range(20), 1)}, "the 20 items 0 1 2 .. ask for 9 in all, and the options give 1"),
        ):
            self.assertEqual(Sums(weights, 9, 7, 1).text(str), f"the sums can't work: {wanted}")

    def test_items_that_share_one(self):
        fives = make.sudoku.problem("55" + "." * 79)
        lines = list(find(fives).lines(fives))
        self.assertIn("r1c1 r1c2 ask for 2 in all, and r1=5 allows 1", lines[1])
        self.assertEqual(lines[2:], [PROVED, "without any one of them the others can be held"])
        both = Problem([None, ("b",)], ["x"], [[None, "x"], [("b",), "x"]])
        self.assertEqual(find(both).items, [None, ("b",)])
        # Two that give an item one colour may share it.
        shared = Problem("ab", ["x"], [{"a": None, "x": 1}, {"b": None, "x": 1}])
        self.assertIsNone(search(shared, 0.1))

    def test_hall(self):
        """Against the condition as it is stated, over all sets of what asks."""
        rng = random.Random(1)
        for _ in range(300):
            asked = {left: rng.randint(0, 3) for left in range(rng.randint(1, 5))}
            room = {right: rng.randint(0, 4) for right in range(rng.randint(1, 5))}
            near = {left: [right for right in room if rng.random() < 0.5] for left in asked}
            short = Matching(asked, room, near).short(time.monotonic() + 300)

            def is_short(lefts):
                beside = {right for left in lefts for right in near[left]}
                return sum(asked[left] for left in lefts) > sum(room[right] for right in beside)

            sets = (lefts for size in range(1, 6) for lefts in itertools.combinations(asked, size))
            self.assertEqual(short is not None, any(map(is_short, sets)))
            if short is not None:
                self.assertTrue(is_short(short[0]))
                self.assertEqual(short[1], {right for left in short[0] for right in near[left]})

    def test_problems_made_to_hurt(self):
        rng = random.Random(3)
        names = ["".join(rng.choices("abcdefgh", k=9)) for _ in range(9000)]
        two = [f"a{k}" for k in range(5000)] + [f"b{k}c" for k in range(5000)]
        long = [two[k : k + 5001] for k in range(0, 5000, 99)]
        for items, options in ((names, [names]), (two, [two] * 8), (two, long)):
            problem = Problem(dict.fromkeys(items), options=[list(dict.fromkeys(option)) for option in options])
            begun = time.process_time()
            search(problem, 0.5)
            self.assertLess(time.process_time() - begun, 3)

    def test_no_time(self):
        self.assertIsNone(search(jigsaw(JIGSAWS[0]), 0))


class Conflicts(unittest.TestCase):
    def test_conflicts(self):
        clash = find(Problem("abcd", ["x"], [["a", "x"], ["b", "x"], ["c"], ["d"]]))
        self.assertEqual((clash.items, clash.is_least, clash.sums.high), (["a", "b"], True, 1))
        self.assertIsNone(find(make.queens.problem(6)))
        queens = find(make.queens.problem(3))
        self.assertEqual((len(queens.items), queens.is_least, queens.sums), (3, True, None))

    def test_random_problems(self):
        """What is reported can't be held, and can without any one of the items where it is said to be least."""
        rng = random.Random(4)
        for _ in range(60):
            names = [f"p{k}" for k in range(rng.randint(2, 6))]
            items = {name: rng.choice([None, None, 2, (0, 2), (1, 3)]) for name in names}
            options = []
            for _ in range(rng.randint(2, 12)):
                options.append({name: None for name in names if rng.random() < 0.4} or {"p0": None})
                options[-1].update({f"s{k}": rng.choice([None, 1, 2]) for k in range(3) if rng.random() < 0.3})
            problem = Problem(items, True, options)

            def can_be_held(kept):
                bounds = {item: (low if item in kept else 0, high) for item, (low, high) in problem.items.items()}
                return Problem(bounds, problem.secondary, options).count(limit=1) > 0

            conflict = find(problem)
            with self.subTest(problem=problem.text, conflict=conflict):
                self.assertEqual(conflict is None, can_be_held(set(items)))
                if conflict is not None:
                    self.assertFalse(can_be_held(set(conflict.items)))
                    for item in conflict.items if conflict.is_least else ():
                        self.assertTrue(can_be_held(set(conflict.items) - {item}))

    def test_too_few_options(self):
        for problem, wanted in (
            (Problem("ab", options=["b"]), ["can't all be held: a", PROVED, "it is in no option"]),
            (
                Problem({"a": 2}, options=["a"]),
                ["can't all be held: a", PROVED, "it is in 1 option, and to be held 2 times"],
            ),
        ):
            self.assertEqual(list(find(problem).lines(problem)), wanted)

    def test_time(self):
        with mock.patch.dict(os.environ, PATH=""), self.assertRaises(OutOfTime):
            why.find(make.langford.problem(14), 0.2)

    def test_a_search_that_shows_nothing_is_counted(self):
        said = []
        # The count takes as long as the search was quiet: here longer, on a machine that does other things too.
        long = mock.patch.object(sums, "search", lambda problem, _: search(problem, 300))
        with long, mock.patch.object(watch, "_QUIET_SECONDS", 0.2), watch.Watch(jigsaw(JIGSAWS[0]), said.append):
            deadline = time.monotonic() + 300
            while not said and time.monotonic() < deadline:
                time.sleep(0.1)
        self.assertEqual(len(said), 1)
        self.assertTrue(said[0].endswith("there is no solution"), said)
        with mock.patch.object(watch, "_QUIET_SECONDS", 0.2), watch.Watch(jigsaw(JIGSAWS[0]), said.append) as beside:
            beside.end()
            time.sleep(0.5)
        self.assertEqual(len(said), 1)


SOLVERS = [name for name in sat_solver.SOLVERS if sat_solver.shutil.which(name)]


class Solvers(unittest.TestCase):
    @unittest.skipUnless(SOLVERS, "needs cadical or clasp")
    def test_answers(self):
        rng = random.Random(2)
        for _ in range(40):
            items = {name: rng.choice([None, 2, (0, 2), (1, 3)]) for name in "abcd"[: rng.randint(1, 4)]}
            options = []
            for _ in range(rng.randint(1, 8)):
                option = {item: None for item in items if rng.random() < 0.5} or {"a": None}
                options.append({**option, **{"x": rng.choice([None, 1, 2]) for _ in range(rng.randint(0, 1))}})
            problem = Problem(items, "x", options)
            kept = {item for item in items if rng.random() < 0.7}
            relaxed = {
                item: (bounds.low if item in kept else 0, bounds.high) for item, bounds in problem.items.items()
            }
            wanted = Problem(relaxed, "x", options).count() > 0
            for name in SOLVERS:
                engine = sat_solver.Engine(name, sat_solver.shutil.which(name))
                with self.subTest(name=name, problem=problem.text, kept=kept):
                    numbers = sat_solver.Solver(problem, engine).numbers(kept, 300)
                    self.assertEqual(numbers is not None, wanted)
                    held = [item for number in numbers or () for item in options[number]]
                    for item, (low, high) in problem.items.items():
                        self.assertLessEqual(held.count(item), high)
                        self.assertTrue(numbers is None or item not in kept or held.count(item) >= low)

    @unittest.skipUnless(SOLVERS, "needs cadical or clasp")
    def test_where_the_programs_come_to_no_end(self):
        problem = jigsaw(JIGSAWS[0])
        with mock.patch.multiple(Count, by_matching=lambda *_: None, by_climbing=lambda *_: None):
            # It leaves items out as long as it may; a machine that does other things too needs longer for the first.
            for seconds in (30, 300):
                conflict = why.find(problem, seconds)
                if len(conflict.items) < 324:
                    break
        self.assertIn(conflict.by, SOLVERS + ["dlx1"])
        self.assertIsNone(conflict.sums)
        self.assertLess(len(conflict.items), 324)

    def test_a_solver_that_fails(self):
        with tempfile.TemporaryDirectory() as folder:
            wrong = os.path.join(folder, "cadical")
            with open(wrong, "w") as file:
                file.write("#!/bin/sh\nexit 1\n")
            os.chmod(wrong, stat.S_IRWXU)
            with mock.patch.dict(os.environ, PATH=folder):
                self.assertEqual(sat_solver.find(make.queens.problem(6)), ("cadical", wrong))
                with self.assertRaises(OutOfTime):
                    why.find(make.langford.problem(14), 0.5)
            with mock.patch.dict(os.environ, PATH=os.path.relpath(folder)):
                self.assertIsNone(sat_solver.find(make.queens.problem(6)))

"""Options that are given and forbidden, and hints: against all solutions of random problems."""

import random
import unittest
from unittest import mock

from folders import InFolder
from problems import problem_of
from test_commands import run

from helgrothy import OutOfTime, Problem, hint, make, symmetry
from helgrothy.given import Given, forbidden, given

CLUES = "53..7....6..195....98....6.8...6...34..8.3..17...2...6.6....28....419..5....8..79"
DAYS = "mon tue | ann bob\nmon ann\nmon bob\ntue ann\ntue bob\n"


def all_of(problem):
    return [frozenset(one.numbers) for one in problem.solve()]


class Choices(InFolder):
    def test_random_problems(self):
        rng = random.Random(11)
        solved = 0
        for case in range(150):
            problem = Problem.parse(problem_of(rng, case % 3 + 1))
            places = range(len(problem.options))
            held, dropped = (rng.sample(places, min(len(places), rng.randint(0, 2))) for _ in range(2))
            asked = Given(problem, held, dropped)
            wanted = [one for one in all_of(problem) if one.issuperset(held) and one.isdisjoint(dropped)]
            solved += len(wanted)
            found = [asked.outer(one) for one in asked.inner.solve()]
            self.assertEqual(sorted(map(sorted, wanted)), sorted(sorted(one.numbers) for one in found))
            for one in found:
                self.assertEqual(list(one), [problem.options[number] for number in one.numbers])
                self.assertEqual([step.option for step in one.steps if step.option is not None], one.numbers)
            self.assertEqual(problem.check(found), [True] * len(found))
        self.assertGreater(solved, 50)

    def test_nothing_is_asked(self):
        problem = Problem("abc", options=["ab", "c", "a", "bc"])
        asked = Given(problem)
        self.assertIs(asked.inner, problem)
        one = next(problem.solve())
        self.assertIs(asked.outer(one), one)

    def test_names(self):
        problem = Problem(["with1", "b"], options=[["with1"], ["b"], ["with1", "b"]])
        self.assertEqual(all_of(Given(problem, [2]).inner), [{2}])
        self.assertEqual(Given(problem, [2]).marks, {"with'1": 2})
        self.assertEqual(given(problem, ["b with1"]), [2])
        self.assertEqual(forbidden(problem, ["with*"]), {0, 2})
        for words, wanted in (
            (["b"], "--with b: 2 options have this, name more items of one: b; with1 b"),
            (["c"], "--with c: c: no such item"),
            ([""], "--with : it names no item"),
        ):
            with self.assertRaises(ValueError) as raised:
                given(problem, words, "--with", by_names=True)
            self.assertEqual(str(raised.exception), wanted)
        with self.assertRaisesRegex(ValueError, "--without b x: x: no such item"):
            forbidden(problem, ["b", "b x"], "--without")

    def test_ways_to_say_an_option(self):
        """By its number, as it was passed, or by names; a text that is an option of its letters is that option."""
        letters = Problem("abc", options=["ab", "c", "a", "bc"])
        self.assertEqual(given(letters, ["c", "a", 3, ("b", "c"), {"b": None, "a": None}]), [1, 2, 3, 3, 0])
        self.assertEqual(forbidden(letters, ["a", "bc"]), {2, 3})
        self.assertEqual((given(letters, ["a b"]), forbidden(letters, ["b "])), ([0], {0, 3}))
        doors = Problem("AB", ["x"], [{"A": None, "x": "red"}, {"A": None, "x": 2}, "B"])
        self.assertEqual(given(doors, [{"x": 2, "A": None}, "A x:red", "B"]), [1, 0, 2])
        same = Problem([(0, "s"), (1, "s")], options=[[(0, "s")], [(0, "s")], [(1, "s")]])
        self.assertEqual((forbidden(same, [[(0, "s")]]), given(same, [1, same.options[2]])), ({0, 1}, [1, 2]))
        for options, wanted in (
            ([[(0, "s")]], "given [(0, 's')]: the options 0 1 are equal; a number says one"),
            ([3], "given 3: the problem has the options 0 to 2"),
            ([-1], "given -1: the problem has the options 0 to 2"),
            ([[(0, "s"), (1, "s")]], "given [(0, 's'), (1, 's')]: no option is this; a text of names says one by some of its items"),
            ([[["s"]]], "given [['s']]: no option is this; a text of names says one by some of its items"),
        ):
            with self.assertRaises(ValueError) as raised:
                given(same, options)
            self.assertEqual(str(raised.exception), wanted)
        with self.assertRaisesRegex(TypeError, "^given is of options, and this is a text: \\['ab'\\]$"):
            letters.solve(given="ab")

    def test_commands(self):
        self.assertEqual(run("solve", "--with", "mon bob", given=DAYS)[1], "mon bob\ntue ann\n")
        self.assertEqual(run("solve", "--without", "mon b*", given=DAYS)[1], "mon ann\ntue bob\n")
        printed = run("solve", "--with", "mon bob", "--json", given=DAYS)[1]
        self.assertEqual(printed, '{"number": 1, "options": [2, 3], "items": [["mon", "bob"], ["tue", "ann"]], "colours": {}}\n')
        status, text, messages = run("solve", "--with", "mon bob", "--with", "tue bob", given=DAYS)
        self.assertEqual((status, text, messages.splitlines()[0]), (1, "", "Altogether 0 solutions."))
        self.assertIn("is what is given: mon bob\n", messages)
        for words, wanted in (
            (["--with", "mon"], "--with mon: 2 options have this, name more items of one: mon ann; mon bob"),
            (["--with", "mon bbo"], "--with mon bbo: bbo: no such item (is it bob?)"),
            (["--with", "bo"], "--with bo: bo: no such item (is it bob?)"),
            (["--with", "mon tue"], "--with mon tue: no option has all of these; the nearest are mon ann; mon bob; tue ann; and 1 more"),
            (["--with", "mon bob", "--without", "bob"], "--with mon bob: a --without forbids this option"),
            (["--without", "x:r"], "--without x:r: x: no such item"),
        ):
            self.assertEqual(run("solve", *words, given=DAYS), (2, "", f"helgrothy: {wanted}\n"))
        done = run("tests", "2,2", "--least", "--with", "x")
        self.assertEqual(done[2], "helgrothy: this search has a problem of its own: without --cost, --with and --without\n")

    def test_a_beginning_of_names(self):
        problem = Problem.parse("mon/hall mon/lab tue\nmon/hall\nmon/lab\ntue\n")
        with self.assertRaisesRegex(ValueError, r"^given mon: mon: no such item \(2 begin so; mon\* is any of them\)$"):
            given(problem, ["mon"])

    def test_other_ways(self):
        board = make.queens.problem(6)
        wanted = [one for one in all_of(board) if 3 in one]
        self.assertEqual(run("queens", "6", "--with", "r1 c4", "--all", "--json")[1].count("\n"), len(wanted))
        shuffled = run("queens", "6", "--with", "r1 c4", "--shuffle", "5")
        self.assertEqual((shuffled[0], shuffled[1].splitlines()[0]), (0, ". . . Q . ."))
        # A board with a queen in a corner keeps one mirror.
        words = ("queens", "8", "--with", "r1 c1", "--all", "--json")
        every, few = run(*words)[1].count("\n"), run(*words, "--up-to-symmetry")
        self.assertEqual((every, few[1].count("\n")), (4, 2))
        self.assertIn("up to 2 symmetries", few[2])
        inner = Given(make.queens.problem(8), [0]).inner
        self.assertEqual(len(symmetry.motions(inner, make.KINDS["queens"].cell)), 2)
        costs = self.file("costs", "r1 c2 -5\nr* c3 1\n")
        self.assertEqual(run("queens", "6", "--cost", costs, "--with", "r1 c3")[2], "The least cost is 1.\n1 by line 2: r* c3 1\n")
        page = run("queens", "6", "--with", "r1 c4", "--html")
        self.assertEqual((page[0], '["with1",4,1,1]' in page[1]), (0, True))


class Hints(InFolder):
    def test_random_problems(self):
        rng = random.Random(12)
        times = {"single": 0, "trial": 0, "search": 0, "free": 0, "solved": 0, "none": 0}
        for case in range(400):
            problem = Problem.parse(problem_of(rng, case % 3 + 1, 9, 24, 0.25))
            covers = all_of(problem)
            held = [] if not covers or case % 2 else rng.sample(sorted(rng.choice(covers)), 1)
            if covers and not all(covers):
                continue
            wanted = [one for one in covers if one.issuperset(held)]
            try:
                found = hint.find(problem, held, (), 30.0)
            except hint.NoHint as none:
                left = frozenset.intersection(*wanted) - set(held) if wanted else None
                if none.is_solved:
                    times["solved"] += 1
                    self.assertIn(frozenset(held), wanted)
                elif wanted:
                    times["free"] += 1
                    self.assertEqual(left, frozenset(), none)
                else:
                    times["none"] += 1
                    self.assertRegex(str(none), "there is no solution")
                continue
            for one in wanted:
                self.assertIn(found.option, one)
            self.assertNotIn(found.option, held)
            reason = found.reasons[0]
            times["search" if "search" in reason else "trial" if "works" in reason else "single"] += 1
        self.assertGreater(min(times["single"], times["search"], times["free"], times["none"]), 3, times)

    def test_a_sudoku_is_solved_by_hints(self):
        problem = make.sudoku.problem(CLUES)
        (answer,) = all_of(problem)
        held = []
        while True:
            try:
                found = hint.find(problem, held, has_clues=True)
            except hint.NoHint as end:
                self.assertTrue(end.is_solved)
                break
            self.assertIn(found.option, answer)
            held.append(found.option)
        self.assertEqual(len(held), CLUES.count("."))

    def test_reasons(self):
        done = run("hint", given="a b c\na b\nb c\na\nc\n")
        self.assertEqual(done, (1, "", "helgrothy: nothing is forced: no option that is left is in all solutions\n"))
        done = run("hint", given="a b c | x\na x\nb\nb x\nc\nc x\n")
        self.assertEqual(done, (0, "a x\na has one option left\n", ""))
        done = run("hint", "--with", "a x", given="a b c | x\na x\nb\nb x\nc\nc x\n")
        self.assertEqual(done[1], "b\nb has one option left: 1 option ruled out by a x\n")
        done = run("hint", "--without", "b c", given="a b c\na b\nb c\na\nb\nc\n")
        self.assertEqual(done[1], "c\nc has one option left: 1 option ruled out by what is forbidden\n")
        done = run("hint", given="2|a b | x\na x\na x\na\na\nb\nb\n")
        self.assertEqual(done[0], 1)
        done = run("hint", "--with", "a", given="a b\na\nb a\n")
        self.assertEqual(done[2], "helgrothy: --with a: 2 options have this, name more items of one: a; b a\n")
        done = run("hint", given="a b\na\n")
        self.assertEqual(done, (1, "", "helgrothy: there is no solution: b has no option left\n"))
        done = run("hint", "--with", "mon ann", "--with", "tue ann", given=DAYS)
        self.assertEqual(done[2], "helgrothy: there is no solution: tue ann and mon ann don't go together, by ann\n")
        done = run("hint", "--with", "mon ann", "--with", "tue bob", given=DAYS)
        self.assertEqual(done, (1, "", "helgrothy: nothing is left to choose: what is chosen is a solution\n"))

    def test_kinds_and_places_of_words(self):
        wanted = "r7c1 r7=9 c1=9 b7=9\nc1=9 has one option left: 3 options ruled out by r3c2 r3=9 c2=9 b1=9; "
        for words in ((), ("--seconds", "9")):
            for done in (run("hint", *words, "sudoku", CLUES), run("hint", "sudoku", CLUES, *words)):
                self.assertEqual((done[0], done[1][: len(wanted)], done[2]), (0, wanted, ""))
        path = self.file("q.dlx", make.queens.problem(6).text)
        for words in ((path, "--with", "r1 c4"), ("--with", "r1 c4", path), ("queens", "6", "--with", "r1 c4")):
            status, text, _ = run("hint", *words)
            self.assertEqual((status, text.splitlines()[1]), (0, "without this option there is no solution, as a search says"))
        self.assertEqual(run("hint", "nowhere.dlx")[2], "helgrothy: nowhere.dlx: No such file or directory\n")
        with mock.patch.object(hint, "find", side_effect=OutOfTime("no")):
            done = run("hint", path)
        self.assertEqual(done, (2, "", "helgrothy: in 5 seconds nothing was found that is forced\n"))


if __name__ == "__main__":
    unittest.main()

"""Each maker's problems have the known numbers of solutions, and their pictures show them."""

import itertools
import random
import unittest
import xml.etree.ElementTree as ElementTree

from helgrothy import Problem, TableFault, make

SUDOKU = "53..7....6..195....98....6.8...6...34..8.3..17...2...6.6....28....419..5....8..79"
TABLE = """
-     mon tue wed
early 1   1   1
late  1   1   0:1

ann   2
bob   1:2 -tue
cat   1:3 -late -wed/early
"""
REGIONS = "AABB\nAABB\nCCDB\nCCDD\n"


class Makers(unittest.TestCase):
    def shown(self, problem: Problem) -> str:
        """The text of the first solution's picture; the SVG and the text of the problem have to be whole too."""
        picture = problem.draw(next(problem.solve()))
        for drawn in (picture, problem.draw()):
            ElementTree.fromstring(drawn.svg())
        again = Problem.parse(problem.text)
        self.assertEqual(again.text, problem.text)
        self.assertEqual(str(again.draw(next(again.solve()))), str(picture))
        return str(picture)

    def test_sudoku(self):
        problem = make.sudoku.problem(SUDOKU)
        self.assertEqual(problem.count(limit=2), 1)
        lines = self.shown(problem).splitlines()
        self.assertEqual(lines[0], "5 3 4 | 6 7 8 | 9 1 2")
        self.assertEqual(lines[3], "------+-------+------")
        # OEIS A107739.
        self.assertEqual(make.sudoku.problem("." * 16).count(), 288)
        self.assertEqual(make.sudoku.problem("." * 36).count(limit=10), 10)
        for clues in ("1234", "x" + SUDOKU[1:]):
            with self.assertRaises(TableFault):
                make.sudoku.problem(clues)
        for clues in ("", " \n\n"):
            with self.assertRaisesRegex(TableFault, "^line 1: the clues are missing; only with regions or cages"):
                make.sudoku.problem(clues)

    def test_queens(self):
        # OEIS A000170.
        self.assertEqual([make.queens.problem(n).count() for n in range(1, 9)], [1, 0, 0, 2, 10, 4, 40, 92])
        self.assertEqual(self.shown(make.queens.problem(4)), ". . Q .\nQ . . .\n. . . Q\n. Q . .\n")

    def test_regions(self):
        # Regions that are rows leave permutations in which neighbours differ by more than 1 (OEIS A002464).
        for size, known in ((4, 2), (5, 14), (6, 90)):
            rows = "".join(f"{letter * size}\n" for letter in "ABCDEF"[:size])
            self.assertEqual(make.queens.problem(regions=rows).count(), known)
        problem = make.queens.problem(regions=REGIONS)
        self.assertEqual(problem.count(), 1)
        self.assertEqual(self.shown(problem), ". Q . .\n. . . Q\nQ . . .\n. . Q .\n")
        for regions in ("AB\nA\n", "AA\nAA\n", ""):
            with self.assertRaises(TableFault):
                make.queens.problem(regions=regions)

    def test_langford(self):
        # Twice OEIS A014552, whose lines aren't read backwards too.
        self.assertEqual([make.langford.problem(n).count() for n in range(1, 8)], [0, 0, 2, 2, 0, 0, 52])
        self.assertEqual(self.shown(make.langford.problem(3)), "3 1 2 1 3 2\n")

    def test_polyominoes(self):
        # Two boxes with 4 images each (Knuth, The Art of Computer Programming 4B, 7.2.2.1).
        self.assertEqual(make.polyominoes.problem("pentominoes", "3x20").count(), 8)
        self.assertEqual(make.polyominoes.problem("DD\n\nDD\n\nDD\n", "2x3").count(), 3)
        one_sided = make.polyominoes.problem("LLL\nL\n", "...\n##.\n", mirrors=False)
        self.assertEqual(one_sided.count(), 0)
        self.assertEqual(self.shown(make.polyominoes.problem("LLL\nL\n\nI\n", "...\n#..\n")), "L L L\n  I L\n")
        for pieces, region in (("AB\n", "1x2"), ("A\n\nAA\n", "1x2"), ("A\n", "0x2"), ("A\n", "##\n")):
            with self.assertRaises(TableFault):
                make.polyominoes.problem(pieces, region)
        for pieces, line in (("BB\n\nA.A\n", 3), ("A\n.A\n", 1), ("B\n\nAAA\n\n..C\nC.C\n", 5)):
            with self.assertRaisesRegex(TableFault, f"^line {line}: [AC]: a piece whose squares don't hang together$"):
                make.polyominoes.problem(pieces, "2x3")

    def test_words(self):
        # The six words of three letters: of the 12 Latin squares (OEIS A002860) those in which no line comes twice,
        # whose rows are even permutations and whose columns are odd ones or the other way round.
        orders = list(map("".join, itertools.permutations("abc")))
        self.assertEqual(make.words.problem("...\n...\n...\n", orders).count(), 6)
        words = "area bear body dial ease else fire hour keen less loan mass must oral rare same shut sole".split()
        problem = make.words.problem("....\n....\n....\n....\n", words)
        self.assertEqual(problem.count(), 2)
        self.assertEqual(self.shown(problem), "s a m e\no r a l\nl e s s\ne a s e\n")
        self.assertEqual(make.words.problem("...\n#.#\na.e\n", ["Cat", "add", "ale", "dot"]).count(), 0)
        self.assertEqual(self.shown(make.words.problem("C..\n#.#\n", ["cat", "at"])), "c a t\n# t #\n")

    def test_roster(self):
        # Two people a day for two days each: matrices with two ones in each row and column (OEIS A001499).
        for days, known in ((3, 6), (4, 90), (5, 2040)):
            names = [f"p{day}" for day in range(days)]
            table = [f"- {' '.join(names)}", "shift" + " 2" * days, "", *(f"{name} 2" for name in names)]
            self.assertEqual(make.roster.problem("\n".join(table)).count(), known)
        problem = make.roster.problem(TABLE, rest=True)
        lines = self.shown(problem).splitlines()
        self.assertEqual([line.split()[0] for line in lines], ["mon", "ann", "bob", "cat"])
        for solution in problem.solve():
            self.assert_rests(problem.draw(solution).cells)
        self.assertGreater(make.roster.problem(TABLE).count(), problem.count())
        for table in ("- mon\n", "- mon\nearly 1 2\n\nann\n", "- mon\nearly 1\n\nann -sun\n", "- mon\nearly x\n\nann\n"):
            with self.assertRaises(TableFault):
                make.roster.problem(table)

    def test_names_of_a_roster(self):
        for days, shift, people, wanted in (
            ("mon tue", "s 1 1", "ann 2\nann 1", "line 5: ann: this name is in line 4 already"),
            ("mon mon", "s 1 1", "ann 2", "line 1: mon: this name is in line 1 already"),
            ("mon tue", "s 1 1\ns 1 1", "ann 2", "line 3: s: this name is in line 2 already"),
            ("mon tue", "s 1 1", "a/b 2", "line 4: a/b: a name in a table has no /, which is for a shift on a day"),
            ("mon tue", "s 1 1", "a-mon 2\na 1", "line 5: a: a-mon would be two things; take another name"),
            ("mon off", "s 1 1", "a 1", "line 4: a: a-off would be two things; take another name"),
            ("mon tue", "s 1 2:1", "a 1", "line 2: 2:1: the least comes first"),
            ("mon tue", "s 1 1", "a 2:0", "line 4: 2:0: the least comes first"),
        ):
            with self.subTest(wanted=wanted), self.assertRaises(TableFault) as raised:
                make.roster.problem(f"- {days}\n{shift}\n\n{people}\n", days_off=1)
            self.assertEqual(str(raised.exception), wanted)
        self.assertEqual(
            self.shown(make.roster.problem("- mon tue\ns 1 1\n\nann 0\nbob 2\n")), "    mon tue\nann .   .\nbob s   s\n"
        )

    def assert_rests(self, cells):
        for (row, column), cell in cells.items():
            after = cells.get((row, column + 1))
            self.assertFalse(cell.label == "late" and after is not None and after.label == "early")

    def test_round_robin(self):
        # 4 teams have one one-factorization and 6 have 6 (OEIS A000438), whose rounds come in any order; of 5 teams the
        # one that rests plays a sixth. Home and away make a tournament of even scores: a regular one of 5 teams, or one
        # that a further team makes regular (OEIS A007079: 24 of 5 teams, 2640 of 7).
        for teams, known in (("abcd", 1 * 6 * 24), ("abcde", 6 * 120 * 24), ("abcdef", 6 * 120 * 2640)):
            self.assertEqual(make.roundrobin.problem(teams).count(), known)
        problem = make.roundrobin.problem(["ann home:1", "bob", "cat", "dan away:3"])
        for solution in problem.solve():
            self.assertTrue(self.is_round_robin([problem.line(option) for option in solution], 4))
        self.assertEqual(self.shown(problem).splitlines()[0].split()[:2], ["round", "1"])
        double = make.roundrobin.problem(["a", "b", "c", "d"], double=True)
        self.assertEqual(len(next(double.solve())), 12)
        self.assertEqual(len(next(make.roundrobin.problem("abcde").solve())), 10)
        for teams in (["one"], ["one", "two upstairs:1"]):
            with self.assertRaises(TableFault):
                make.roundrobin.problem(teams)
        with self.assertRaisesRegex(TableFault, "^line 3: ann: the team of line 1 has this name$"):
            make.roundrobin.problem(["ann home:1", "bob", "ann"])

    def test_wishes_of_teams(self):
        """Wishes leave those round robins without wishes that meet them, and what is refused can't be."""
        rng = random.Random(2)
        refused = 0
        for names, double, tries in (("abcd", False, 30), ("abc", True, 15), ("abcde", False, 6)):
            bare = make.roundrobin.problem(names, double=double)
            sheet = make.roundrobin.sheet(bare)
            plans = [sheet.rows([bare.line(option) for option in solution]) for solution in bare.solve()]
            rounds = max(number for number, _, _ in plans[0])
            for _ in range(tries):
                wishes = [self.wish(rng, names, rounds) for _ in range(rng.randint(1, 4))]
                in_a_row = rng.choice([None, None, 1, 2])
                lines = [" ".join([name, *(word for own, word in wishes if own == name)]) for name in names]
                wanted = sum(self.is_met(plan, wishes, in_a_row, names, rounds) for plan in plans)
                with self.subTest(lines=lines, double=double, in_a_row=in_a_row):
                    try:
                        problem = make.roundrobin.problem(lines, double=double, in_a_row=in_a_row)
                    except ValueError as fault:
                        refused += 1
                        # That a team is at home and away is refused also where it may rest.
                        self.assertTrue(wanted == 0 or "in this line too" in str(fault), fault)
                    else:
                        self.assertEqual(problem.count(), wanted)
        self.assertGreater(refused, 5)

    @staticmethod
    def wish(rng, names, rounds):
        """The team of a line and a word of it."""
        own, other = rng.sample(names, 2)
        at = rng.randint(1, rounds)
        return own, rng.choice([f"home:{at}", f"away:{at}", f"not:{other}@{at}", f"shares:{other}"])

    @staticmethod
    def is_met(plan, wishes, in_a_row, names, rounds):
        where = {(team, at): place for at, *both in plan for team, place in zip(both, ("home", "away"))}
        for own, word in wishes:
            kind, _, what = word.partition(":")
            if kind in ("home", "away") and where.get((own, int(what)), kind) != kind:
                return False
            other, _, at = what.partition("@")
            if kind == "not" and any(int(at) == number and {own, other} == set(both) for number, *both in plan):
                return False
            if kind == "shares" and any(
                where.get((own, at)) == where.get((other, at)) == "home" for at in range(1, rounds + 1)
            ):
                return False
        runs = ["".join(where.get((name, at), "rest")[0] for at in range(1, rounds + 1)) for name in names]
        return in_a_row is None or not any(letter * (in_a_row + 1) in run for letter in "ha" for run in runs)

    def test_wishes_of_teams_that_cannot_be(self):
        four = ["ann", "bob", "cat", "dan"]
        for lines, wanted in (
            (["ann", "bob home:9"], "line 2: home:9: no such round: 4 teams play rounds 1 to 3"),
            (["ann away:4"], "line 1: away:4: no such round: 4 teams play rounds 1 to 3; with --double there are 6"),
            (["ann not:bob@0"], "line 1: not:bob@0: no such round: 4 teams play rounds 1 to 3"),
            (["ann home:1 away:1"], "line 1: away:1: home:1 is in this line too"),
            (["ann away:1 away:2 away:3"], "line 1: ann: 3 rounds away, and each of 4 teams has 1 or 2 games there"),
            (["ann home:1", "bob home:1", "cat home:1"], "line 3: home:1: 3 of 4 teams are at home in round 1, and 2 can be"),
            (
                ["ann shares:bob home:2", "bob home:2"],
                "line 2: home:2: ann (line 1) is at home in round 2 too, and shares the place",
            ),
            (["ann not:bop@1"], "line 1: not:bop@1: no team bop (is it bob?)"),
            (["ann", "bob shares:bob"], "line 2: shares:bob: this is the team itself"),
            (["ann upstairs:1"], "line 1: upstairs:1: neither home:ROUND, away:ROUND, not:TEAM@ROUND nor shares:TEAM"),
            (["ann not:cat@1 not:cat@2 not:cat@3"], "line 3: ann-cat: the wishes of the two leave no round for this game"),
            (["ann not:bob@1 not:cat@1 not:dan@1"], "line 1: ann: the wishes leave no game for it in round 1"),
        ):
            with self.subTest(lines=lines), self.assertRaises(TableFault) as raised:
                make.roundrobin.problem([*lines, *four[len(lines) :]])
            self.assertEqual(str(raised.exception), wanted)
        wanted = "line 3: c: a, b, c share a place, each has 2 games there at least, and there are 5 rounds"
        with self.assertRaises(TableFault) as raised:
            make.roundrobin.problem(["a shares:b shares:c", "b", "c shares:b", *"def"])
        self.assertEqual(str(raised.exception), wanted)
        with self.assertRaisesRegex(TableFault, "^line 1: a: at home in rounds 2 to 4, and 2 in a row are allowed$"):
            make.roundrobin.problem(["a home:2 home:3 home:4", *"bcdef"], in_a_row=2)
        with self.assertRaisesRegex(ValueError, "^at most one round in a row: then two teams are at home in the same"):
            make.roundrobin.problem(four, in_a_row=1)
        again = make.roundrobin.problem(["ann shares:bob not:cat@2", *four[1:]], in_a_row=2)
        self.assertEqual(again.comments[0], "helgrothy make roundrobin --in-a-row 2 TEAMS")
        self.assertEqual(again.comments[2], "ann shares:bob not:cat@2")
        self.shown(again)

    def is_round_robin(self, lines, teams):
        played = [word for line in lines for word in line.split()[1:3]]
        home = {line.split()[1] for line in lines}
        return (
            len(lines) == teams * (teams - 1) // 2
            and len(set(played)) == len(played)
            and "ann@1" in home
            and "dan@3" not in home
        )

"""Problems over the real programs."""

import glob
import os
import pickle
import stat
import tempfile
import unittest
from unittest import mock

from helgrothy import (
    ListingFault,
    NoPicture,
    Null,
    OutOfTime,
    Problem,
    ProblemFault,
    ProgramFailed,
    ProgramNotFound,
    Step,
    make,
)
from helgrothy._run import programs
from helgrothy._text import listing

EXAMPLES = os.path.join(os.path.dirname(os.path.abspath(__file__)), "..", "..", "examples")


def children():
    """The processes that this one has, ended ones that nobody waited for among them."""
    found = []
    for path in glob.glob("/proc/[0-9]*/stat"):
        try:
            with open(path) as file:
                if int(file.read().rpartition(")")[2].split()[1]) == os.getpid():
                    found.append(path)
        except OSError:
            pass
    return found


class Solving(unittest.TestCase):
    def test_options_come_back_as_they_were_given(self):
        first, second = [("x", 1), frozenset("y")], (frozenset("y"), 2.5)
        third = {("x", 1): None, 2.5: None}
        problem = Problem([("x", 1), frozenset("y"), 2.5], options=[first, second, third, [2.5], iter([("x", 1)])])
        found = list(problem.solve())
        self.assertIn(first, found[0])
        self.assertTrue(all(any(option is given for given in problem.options) for s in found for option in s))
        self.assertEqual(len(found), 2)

    def test_rotations_and_equal_options_are_distinguished(self):
        options = [["a", "b"], ["b", "a"], ["a", "b"], ["c"]]
        found = list(Problem("abc", options=options).solve())
        self.assertEqual([sorted(map(id, s)) for s in found], [sorted([id(o), id(options[3])]) for o in options[:3]])

    def test_equal_options_take_no_item(self):
        many = [["a"] for _ in range(100_000)]
        problem = Problem("a", options=many)
        last = list(problem.solve())[-1]
        self.assertIs(last[0], many[-1])
        items = range(600)
        pairs = [(k, k + 1) for k in range(0, 600, 2)] * 200
        self.assertEqual(len(next(Problem(items, options=pairs + pairs).solve())), 300)
        # As many items as there may be.
        self.assertEqual(len(list(Problem(range(100_000), options=[range(100_000)] * 2).solve())), 2)

    def test_equal_options_with_bounds_and_colours(self):
        options = [["a"], ["a", "b"], ["a"], {"b": None, "x": 1}, ["a"], {"x": 1, "b": None}, {"a": None, "x": 2}]
        place = {id(option): k for k, option in enumerate(options)}
        found = [[place[id(o)] for o in s] for s in Problem({"a": (1, 3), "b": (0, 2)}, "x", options).solve()]
        self.assertEqual(len(set(map(frozenset, found))), len(found))
        with_numbers = [{**(o if isinstance(o, dict) else dict.fromkeys(o)), k: None} for k, o in enumerate(options)]
        distinguished = Problem({"a": (1, 3), "b": (0, 2)}, ["x", *range(7)], with_numbers)
        wanted = [[with_numbers.index(o) for o in s] for s in distinguished.solve()]
        self.assertEqual(found, wanted)

    def test_colours_of_any_kind(self):
        red, long = object(), "a colour longer than 8 bytes"
        problem = Problem(
            "ab", ["x", "y z"], [{"a": None, "x": red, "y z": long}, {"b": None, "x": red}, {"b": None, "y z": 7}]
        )
        self.assertEqual(problem.kind, 2)
        self.assertEqual([len(s) for s in problem.solve()], [2])

    def test_bounds_and_choices_of_none(self):
        problem = Problem({"a": (1, 2), "b": None}, options=["a", "ab", "b"])
        self.assertEqual(list(problem.solve()), [["a", "ab"], ["a", "b"], ["ab"]])
        with_nulls = list(problem.solve(nulls=True))
        self.assertEqual(with_nulls[1:], [["a", Null("a"), "b"], ["ab", Null("a")]])
        self.assertEqual(problem.check(with_nulls), [True] * 3)
        self.assertEqual(list(Problem({"a": (0, 1)}).solve()), [[]])

    def test_an_item_named_null(self):
        options = [["null", "a"], ["a"], ["null"]]
        problem = Problem({"null": (0, 1), "a": (0, 1)}, options=options)
        self.assertEqual(sorted(map(len, problem.solve())), [0, 1, 1, 1, 2])

    def test_limit_spacing_and_end(self):
        problem = make.queens.problem(6)
        solutions = problem.solve()
        self.assertIsNone(solutions.total)
        all_four = list(solutions)
        self.assertEqual((len(all_four), solutions.total, solutions.complete), (4, 4, True))
        self.assertEqual(list(problem.solve(spacing=2)), all_four[1::2])
        some = problem.solve(limit=3)
        self.assertEqual((list(some), some.total, some.complete), (all_four[:3], 3, False))
        self.assertEqual((problem.count(), problem.count(limit=3)), (4, 3))
        for wrong in ({"limit": 0}, {"spacing": 0}):
            with self.assertRaises(ValueError):
                problem.solve(**wrong)

    def test_a_loop_that_is_left_leaves_no_process(self):
        # The shell that ends programs stays.
        make.queens.problem(4).count()
        before = children()
        problem = make.queens.problem(20)
        for _ in problem.solve():
            break
        with problem.solve() as solutions:
            next(solutions)
        with self.assertRaises(OutOfTime):
            problem.count(seconds=0.05)
        with self.assertRaises(OutOfTime):
            list(make.langford.problem(17).solve(seconds=0.05))
        self.assertEqual(children(), before)

    def test_a_solution_comes_before_the_next_is_found(self):
        # The second solution is behind all of Langford's pairs for 14, of which there are none.
        hard = make.langford.problem(14)
        options = [["easy", *hard.items]] + [["easy", "late"]] + hard.options
        problem = Problem(["easy", *hard.items], ["late"], options)
        with problem.solve(seconds=100) as solutions:
            self.assertEqual(next(solutions), [options[0]])

    def test_a_solution_is_as_a_list(self):
        problem = Problem("abc", options=["ab", "c", "a", "bc"])
        first, second = problem.solve()
        for equal in (["ab", "c"], next(problem.solve())):
            self.assertTrue(first == equal and equal == first and not first != equal)
        self.assertTrue(first != second and first != ("ab", "c") and first != ["ab"])
        self.assertEqual((first[0], first[-1], first[:1], len(first)), ("ab", "c", ["ab"], 2))
        self.assertEqual(([*first], list(reversed(first)), repr(first)), (["ab", "c"], ["c", "ab"], "['ab', 'c']"))
        self.assertTrue("c" in first and "bc" not in first and first.index("c") == first.count("c") == 1)
        self.assertEqual(sorted(problem.solve()), [second, first])
        self.assertTrue(second < first and first >= second and ["a"] < first)
        self.assertEqual({first: 1, second: 2}[next(problem.solve())], 1)

    def test_solutions_that_are_kept(self):
        problem = make.queens.problem(8)
        kept = list(problem.solve())
        self.assertEqual(kept, [list(solution) for solution in problem.solve()])
        self.assertEqual(problem.check(kept), [True] * 92)

    def test_more_items_and_colours_than_bytes(self):
        pairs = [(k, k + 1) for k in range(0, 600, 2)]
        self.assertEqual([sorted(solution) for solution in Problem(range(600), options=pairs).solve()], [pairs])
        coloured = [{"a": None, "x": colour} for colour in range(600)]
        self.assertEqual(list(Problem("a", "x", coloured).solve()), [[option] for option in coloured])

    def test_options_without_primary_items(self):
        with self.assertWarnsRegex(UserWarning, "option 1 has no primary item"):
            problem = Problem("a", "x", ["ax", "x", ""])
        self.assertEqual(list(problem.solve()), [["ax"]])

    def test_names(self):
        items = ["plain", "two words", "two_words", "x" * 40, "x" * 41, (1, 2), object(), "ä" * 17, ""]
        problem = Problem(items, options=[items])
        names = problem.item_names
        self.assertEqual(names[:3], ["plain", "two_words~2", "two_words"])
        self.assertEqual(names[5], "1,2")
        self.assertEqual(len(set(names)), len(items))
        self.assertEqual(Problem.parse(problem.text).item_names, names)
        self.assertEqual(list(problem.solve()), [[items]])

    def test_names_that_are_no_text(self):
        problem = Problem(["\ud800", "\ud800b"], ["\udfff"], [{"\ud800": None, "\udfff": "\ud801"}, ["\ud800b"]])
        self.assertEqual(list(problem.solve()), [problem.options])
        self.assertEqual(Problem.parse(problem.text).item_names, problem.item_names)

    def test_examples(self):
        for path in sorted(glob.glob(os.path.join(EXAMPLES, "*.dlx"))):
            with open(path, "rb") as file:
                text = file.read()
            with self.subTest(path=path):
                problem = Problem.parse(text)
                self.assertEqual(problem.text.encode(), text)
                lines = [problem.line(option) for option in next(problem.solve())]
                self.assertEqual(problem.check([[option.split() for option in []]]), [False])
                self.assertTrue(all(f"{line}\n".encode() in text for line in lines))


class Streaming(unittest.TestCase):
    solutions = [b" a b:x (1 of 2)\n c (1 of 1)\n", b" ( a (2 of 2)\n", b" c (3 of 3)\n"]
    text = b"9:\n%b10:\n%b11:\n%b" % tuple(solutions)

    def stream(self, text, size):
        """The solutions of a text that comes in pieces of a size, and whether it ends within one."""
        is_cut = None

        def run():
            nonlocal is_cut
            chunks = (text[at : at + size] for at in range(0, len(text), size))
            is_cut = yield from listing.stream(chunks, self.lines, lambda lines: lines in self.solutions)

        return list(run()), is_cut

    @staticmethod
    def lines(text):
        return text[: text.rindex(b"\n") + 1]

    def test_pieces_of_any_size(self):
        for size in range(1, len(self.text) + 1):
            self.assertEqual(self.stream(self.text, size), (self.solutions, False))

    def test_a_text_that_is_cut(self):
        for end in range(len(self.text)):
            for size in (1, 7, len(self.text)):
                given, is_cut = self.stream(self.text[:end], size)
                self.assertEqual(given, self.solutions[: len(given)])
                self.assertEqual(is_cut, self.text.count(b":\n", 0, end) > len(given))
            whole = [solution for solution in self.solutions if solution in self.text[:end]]
            self.assertEqual(self.stream(self.text[:end], 1)[0], whole)

    def test_a_line_that_is_no_option(self):
        with tempfile.TemporaryDirectory() as folder:
            wrong = os.path.join(folder, "dlx1")
            with open(wrong, "w") as file:
                file.write("#!/bin/sh\nprintf '1:\\n what (1 of 1)\\n2:\\n'\necho 'Altogether 2 solutions.' >&2\n")
            os.chmod(wrong, stat.S_IRWXU)
            with mock.patch.dict(os.environ, HELGROTHY_BIN=folder):
                with Problem("a", options=["a"]).solve() as solutions:
                    with self.assertRaisesRegex(KeyError, "a program printed what is no option of the problem: what"):
                        list(next(solutions))


class Judging(unittest.TestCase):
    problem = Problem("abc", options=["ab", "c", "a", "bc"])

    def test_texts_and_solutions(self):
        self.assertEqual(self.problem.check("7:\n b a (9 of 9)\n c (1 of 1)\n8:\n"), [True, False])
        self.assertEqual(self.problem.check(b""), [])
        self.assertEqual(self.problem.check(self.problem.solve()), [True, True])
        with tempfile.TemporaryFile("w+") as file:
            file.write("1:\n a (1 of 1)\n")
            file.seek(0)
            self.assertEqual(self.problem.check(file), [False])

    def test_faults(self):
        with self.assertRaises(ListingFault) as raised:
            self.problem.check("1:\n a (1 of 1)\n b (1 of 1)\n")
        self.assertEqual((raised.exception.line, raised.exception.reason), (3, "unknown option"))
        with self.assertRaises(ListingFault) as raised:
            list(self.problem.listed([b"Altogether 2 solutions.\n"]))
        self.assertIn("standard error", str(raised.exception))
        with self.assertRaises(ProblemFault):
            self.problem.check([["xy"]])

    def test_listed(self):
        text = "3:\n b a (1 of 2)\n null a (1 of 1)\n4:"
        bounded = Problem({"a": (0, 2), "b": 1}, options=["ab", "a"])
        with tempfile.TemporaryFile("w+") as file:
            file.write(text)
            file.seek(0)
            for given in (text, text.encode(), file, text.encode().splitlines(keepends=True)):
                first, second = bounded.listed(given)
                self.assertEqual((first.number, first, first.numbers), (3, ["ab"], [0]))
                self.assertEqual(first.steps, [Step("b", 0, 1, 2), Step("a", None, 1, 1)])
                self.assertEqual((second.number, second, second.numbers, second.steps), (4, [], [], []))
        self.assertEqual(list(bounded.listed(text, nulls=True)), [["ab", Null("a")], []])
        self.assertEqual(list(self.problem.listed("")), [])


class Faults(unittest.TestCase):
    def test_of_problems(self):
        """In Python a fault has the number of an option or the name of an item, in a text a line."""
        for wanted, make_it in {
            ("option 0: c: unknown item", 0, 0, "c"): lambda: Problem("ab", options=[["a", "c"]]),
            ("option 1: a: item repeated in option", 0, 1, "a"): lambda: Problem("ab", options=["ab", "aa"]),
            ("option 0: a: colour on a primary item", 0, 0, "a"): lambda: Problem("ab", options=[{"a": 1}], comments=["one"]),
            ("item a: name repeated", 0, None, "a"): lambda: Problem("aba"),
            ("item b: name repeated", 0, None, "b"): lambda: Problem("ab", "b", comments=["one"]),
            ("item a: bound order", 0, None, "a"): lambda: Problem({"a": (2, 1)}),
            ("item a: bad bound", 0, None, "a"): lambda: Problem({"a": -1}),
            ("no items", 0, None, ""): lambda: Problem(""),
            ("line 2: no items", 2, None, ""): lambda: Problem.parse("| a b\n"),
            ("line 2: B-: unknown item (is it B?)", 2, None, "B-"): lambda: Problem.parse("A B\nA B-\n"),
            ("option 1: C: unknown item", 0, 1, "C"): lambda: Problem.parse("A B\nA B\n").add_option(["C"]),
            ("bad items (5 is no iterable)", 0, None, ""): lambda: Problem(5),
            ("bad secondary (5 is no iterable)", 0, None, ""): lambda: Problem("a", 5),
            ("bad options (None is no iterable)", 0, None, ""): lambda: Problem("a", options=None),
            ("NUL byte (line 2 of the comments)", 0, None, ""): lambda: Problem("a", comments=["one", "\0"]),
            ("bad text (line 1 of the comments)", 0, None, ""): lambda: Problem("a", comments=["\ud800"]),
            ("item b: unknown item", 0, None, "b"): lambda: Problem("a").line(["b"]),
            ("item x: unknown colour (2)", 0, None, "x"): lambda: Problem("a", "x", [{"a": None, "x": 1}]).line({"x": 2}),
        }.items():
            with self.subTest(wanted=wanted), self.assertRaises(ProblemFault) as raised:
                make_it()
            fault = raised.exception
            self.assertEqual((str(fault), fault.line, fault.option, fault.token), wanted)
            again = pickle.loads(pickle.dumps(fault))
            self.assertEqual((str(again), again.option, again.args), (str(fault), fault.option, fault.args))

    def test_values_that_look_alike(self):
        with self.assertRaises(ProblemFault) as raised:
            Problem([1, 2], options=[[1], ["2"]])
        wanted = "option 1: 2: unknown item (here of type str, among the items of type int)"
        self.assertEqual(str(raised.exception), wanted)
        with self.assertRaises(ProblemFault) as raised:
            Problem(["maths", "latin", 5], options=[["latim"]])
        self.assertEqual(str(raised.exception), "option 0: latim: unknown item (is it latin?)")

    def test_of_programs(self):
        problem = Problem("a", options=["a"])
        with tempfile.TemporaryDirectory() as folder:
            with mock.patch.object(programs, "folders", lambda program: []), mock.patch.dict(os.environ, PATH=folder):
                with self.assertRaises(ProgramNotFound):
                    problem.count()
            wrong = os.path.join(folder, "dlx1")
            with open(wrong, "w") as file:
                file.write("#!/bin/sh\nprintf '1:\\n'\necho Out of memory. >&2\nexit 4\n")
            os.chmod(wrong, stat.S_IRWXU)
            # A dlx-count from elsewhere could end first.
            with mock.patch.object(programs, "folders", lambda program: [folder]), mock.patch.dict(os.environ, PATH=""):
                for run in (problem.count, lambda: list(problem.solve())):
                    with self.assertRaises(ProgramFailed) as raised:
                        run()
                    self.assertEqual((raised.exception.status, raised.exception.message), (4, "Out of memory."))

    def test_of_pictures(self):
        problem = Problem("a", options=["a"])
        self.assertIsNone(problem._repr_svg_())
        edited = Problem("ab", options=["ab"], comments=["helgrothy make sudoku ?"])
        for without in (problem, edited):
            with self.assertRaises(NoPicture):
                without.draw()

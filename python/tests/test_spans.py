"""Searches in spans: rows, cuts, what a folder refuses, the loop over executors, and the commands."""

import contextlib
import io
import itertools
import os
import queue
import random
import resource
import shutil
import subprocess
import sys
import tempfile
import threading
import time
import unittest
from concurrent.futures import Executor, Future, ProcessPoolExecutor, ThreadPoolExecutor
from unittest import mock

from helgrothy import OutOfTime, Problem, ProgramFailed, ProgramNotFound, SearchFault, make
from helgrothy.__main__ import main
from helgrothy._run import guard, programs
from helgrothy._spans import about, cuts
from helgrothy._spans import folder as folders
from helgrothy._spans import held, join, loop, record, rows, show, span, text, threads, workers
from helgrothy._spans.commands import NOT_DONE
from helgrothy._spans.folder import Folder
from helgrothy._spans.loop import Job, Kept, Loop
from helgrothy._spans.pace import Pace
from helgrothy._spans.rows import PARTS, WHOLE, Span, cut, place, read, share_of, word_of
from tests.problems import digest_of, narrow, problem_of

QUEENS = make.queens.problem(7).text.encode()
DIGEST = digest_of(QUEENS)
FIFTH = PARTS // 5


def whole(kind: int, problem: bytes, *words: str):
    """The listing and the messages of a search in one."""
    run = subprocess.run([programs.find(f"dlx{kind}"), *words], input=problem, capture_output=True)
    assert run.returncode == 0, run.stderr
    return run.stdout, run.stderr.decode()


def texts(kind: int, problem: bytes, listed: bool, edges) -> bytes:
    """The texts of spans between rows, joined: what dlx-join prints and says."""
    found = [
        span.run(span.Task(kind, listed, problem, word_of(start), word_of(until), 0, 0)).text
        for start, until in zip([(), *edges], [*edges, None])
    ]
    words = [programs.find("dlx-join"), "m1" if listed else "m0"]
    joined = subprocess.run(words, input=b"".join(found), capture_output=True)
    assert joined.returncode == 0, joined.stderr
    return joined.stdout, joined.stderr.decode()


class Rows(unittest.TestCase):
    def test_words(self):
        right = (("-", ()), ("3.1.7", (3, 1, 7)), ("0", (0,)), ("4294967295", (4294967295,)), ("007.2", (7, 2)))
        for word, row in right:
            self.assertEqual(read(word), row)
        self.assertEqual([word_of(()), word_of(None), word_of((3, 1))], ["-", "-", "3.1"])
        self.assertIsNone(rows.read_until("-"))
        for word in ("", ".", "3.", ".3", "3..1", "-1", "4294967296", "9" * 5000, "3 1", "3\n", "\u0663", "1_0"):
            with self.subTest(word=word), self.assertRaises(SearchFault):
                read(word)

    def test_places_rise(self):
        rng = random.Random(1)
        branches = (3, 4, 2, 5)
        found = sorted(tuple(rng.randint(1, n) for n in branches[: rng.randint(0, 4)]) for _ in range(200))
        places = [rows.place(row, branches) for row in found]
        self.assertEqual(places, sorted(places))
        self.assertEqual((places[0], max(places) < PARTS), (0, True))
        # Branches that there aren't have no parts.
        self.assertEqual([place((k, 1), (3, 4)) for k in (0, 1, 2, 3, 4, 9)], [0, 0, PARTS // 3, 2 * PARTS // 3, PARTS, PARTS])

    def test_places_are_exact(self):
        """Where the places of the pieces of a span stand nearer to one another than the numbers of a processor do."""
        rng = random.Random(11)
        for _ in range(2000):
            branches = tuple(rng.randint(1, 10) for _ in range(rng.randint(16, 30)))
            start = tuple(rng.randint(1, n) for n in branches)
            level = rng.randint(len(start) // 2, len(start) - 1)
            until = (*start[:level], rng.randint(start[level], branches[level]) + 1)
            narrow = Span(start, until, place(start, branches), place(until, branches))
            pieces = cut(narrow, branches, rng.choice([2, 8, 64]))
            places = [piece.begins for piece in pieces] + [narrow.ends]
            self.assertEqual(places, sorted(set(places)))
            self.assertEqual(places, [place(piece.start, branches) for piece in pieces] + [place(until, branches)])

    def test_places_are_cheap(self):
        """Of rows of many levels, which meet no other way; of what no number of parts can say, nothing is said."""
        branches = (1,) * 20_000 + (2,) * 20_000
        start = (1,) * len(branches)
        deep = Span(start, (*start[:-1], 2), place(start, branches), place((*start[:-1], 2), branches))
        self.assertEqual((deep.begins, deep.ends), (0, 0))
        pieces = cut(deep._replace(until=(*start[:-2], 2)), branches, 8)
        self.assertEqual([piece.until for piece in pieces], [(*start[:-1], 2), (*start[:-2], 2)])
        self.assertEqual({piece.begins for piece in pieces}, {0})

    def test_shares(self):
        self.assertEqual([share_of(PARTS // 4), share_of(0), share_of(-1)], [0.25, 0.0, 0.0])
        for parts in (PARTS - 1, PARTS, PARTS + 1):
            self.assertLess(share_of(parts), 1)
            self.assertEqual(loop.percent(share_of(parts)), "99.9 %")
            self.assertEqual(loop.percent(share_of(parts, is_done=True)), "100 %")

    def test_cut(self):
        """Pieces meet, rise and are as many as can be."""
        rng = random.Random(2)
        for _ in range(2000):
            branches = tuple(rng.randint(1, 6) for _ in range(rng.randint(1, 5)))
            start = tuple(rng.randint(1, n) for n in branches)
            until = rng.choice([None, tuple(rng.randint(1, 6) for _ in range(rng.randint(1, 5)))])
            if until is not None and until <= start:
                continue
            wanted = rng.randint(1, 20)
            pieces = cut(Span(start, until, 0, PARTS), branches, wanted)
            self.assertLessEqual(len(pieces), wanted)
            self.assertEqual((pieces[0].start, pieces[-1].until), (start, until))
            for one, other in zip(pieces, pieces[1:]):
                self.assertEqual((one.until, one.ends), (other.start, other.begins))
                self.assertLess(one.start, other.start)
            self.assertTrue(until is None or pieces[-1].start < until)
        self.assertEqual([piece.start for piece in cut(WHOLE._replace(start=(1,)), (8,), 4)], [(1,), (3,), (5,), (7,)])
        self.assertEqual(len(cut(WHOLE._replace(start=(1, 1)), (2, 3), 9)), 4)
        self.assertEqual(len(cut(WHOLE._replace(start=(1,)), (1,), 9)), 1)

    def test_a_level_of_many_branches_is_cut(self):
        """Though each branch is a small part of the span, some of them together aren't."""
        rest = Span((2831,), None, place((2831,), (9000,)), PARTS)
        pieces = cut(rest, (9000,), 8)
        self.assertEqual([len(piece.start) for piece in pieces], [1] * 8)
        sizes = [piece.ends - piece.begins for piece in pieces]
        self.assertLess(max(sizes) / min(sizes), 1.01)
        # No level is cut whose branches are a small part of it even together.
        self.assertEqual(cut(rest._replace(start=(2831, 1, 5)), (9000, 1, 9), 8)[0].until, (3603,))
        last = Span((8999, 2000), None, place((8999, 2000), (9000, 2001)), PARTS)
        self.assertEqual([piece.start for piece in cut(last, (9000, 2001), 8)], [(8999, 2000), (9000,)])

    def test_rows_of_many_numbers_are_cheap(self):
        """What is done for a record takes twice as long where its rows are twice as long."""

        def used(levels):
            row, branches = (1,) * levels, (2,) * levels
            line = f"from {word_of(row)} until {word_of((*row[1:], 2))} of {word_of(branches)} solutions 7 steps 9 problem {DIGEST} text {DIGEST}\n"
            part = Span(row, None, place(row, branches), PARTS)
            begun = time.process_time()
            found = record.of_text(line.encode(), part, False)
            at = place(found.until, found.branches)
            cut(Span(found.until, None, at, PARTS), found.branches, 8)
            return time.process_time() - begun

        short, long = (min(used(levels) for _ in range(5)) for levels in (10_000, 40_000))
        self.assertLess(long / short, 10)

    def test_gaps(self):
        self.assertEqual(folders.gaps([]), [WHOLE])
        done = [Span((), (2,), 0, 50), Span((3,), (4,), 60, 70)]
        self.assertEqual(folders.gaps(done), [Span((2,), (3,), 50, 60), Span((4,), None, 70, PARTS)])
        self.assertEqual(folders.gaps([*done, Span((4,), None, 70, PARTS)]), [Span((2,), (3,), 50, 60)])

    def test_rows_that_cut(self):
        rng = random.Random(3)
        for kind in (1, 2, 3):
            for _ in range(8):
                problem = problem_of(rng, kind)
                edges = cuts.rows(problem, kind, rng.randint(1, 12))
                self.assertEqual(edges, sorted(set(edges)))
                self.assertEqual(texts(kind, problem, True, edges)[0], whole(kind, problem, "m1")[0])
        self.assertEqual(len(cuts.rows(make.queens.problem(9).text.encode(), 1, 50, 60)), 50)


class Records(unittest.TestCase):
    def test_what_is_refused(self):
        part = Span((3,), (4, 1), 0, PARTS)
        right = [
            (b"from 3 until 4.1 solutions 7 steps 9%s text 89abcdef01234567\n", False, ((4, 1), (), 7)),
            (b"from 3 until 3.2.1 of 8.9.2 solutions 0 steps 9%s text 89abcdef01234567\n", False, ((3, 2, 1), (8, 9, 2), 0)),
            (b"from 3%s\n1:\n a (1 of 1)\nfrom 3 until 4.1 solutions 1 steps 9%s text 89abcdef01234567\n", True, ((4, 1), (), 1)),
        ]
        digest = "0123456789abcdef"
        of, other = (b" problem " + word.encode() for word in (digest, "f" * 16))
        for line, listed, wanted in right:
            given = line.replace(b"%s", of)
            for known in ("", digest):
                found = record.of_text(given, part, listed, known)
                self.assertEqual((found.until, found.branches, found.solutions, found.digest), (*wanted, digest))
            with self.assertRaisesRegex(SearchFault, "a text of another problem"):
                record.of_text(given, part, listed, "f" * 16)
            # Some of it, all without a digest, and one of another problem in a line of two.
            for wrong in (line.replace(b"%s", b""), given.replace(digest.encode(), digest.upper().encode()), given[:-2] + b"\n"):
                with self.assertRaises(SearchFault):
                    record.of_text(wrong, part, listed)
            if listed:
                with self.assertRaises(SearchFault):
                    record.of_text(given.replace(of, other, 1), part, listed)
            for at in range(len(given)):
                with self.assertRaises(SearchFault):
                    record.of_text(given[:at], part, listed)
        for given in (
            b"from 3 until 4 solutions 7 steps 9%s text 89abcdef01234567\n",
            b"from 2 until 4.1 solutions 7 steps 9%s text 89abcdef01234567\n",
            b"from 3 until 4.1 of 8.8 solutions 7 steps 9%s text 89abcdef01234567\n",
            b"from 3 until 3 of 8 solutions 7 steps 9%s text 89abcdef01234567\n",
            b"from 3 until 5 of 8 solutions 7 steps 9%s text 89abcdef01234567\n",
            b"from 3 until 3.1 of 8 solutions 7 steps 9%s text 89abcdef01234567\n",
            b"from 3 until 4.1 solutions -7 steps 9%s text 89abcdef01234567\n",
            b"from 3%s\nfrom 3 until 4.1 solutions 7 steps 9%s text 89abcdef01234567\n",
            b"\n",
        ):
            with self.subTest(given=given), self.assertRaises(SearchFault):
                record.of_text(given.replace(b"%s", of), part, False)

    def test_the_digest_of_a_problem(self):
        """It is that of the problem as it was read, and not of its text."""
        rng = random.Random(12)
        for kind in (1, 2, 3):
            for _ in range(20):
                problem = problem_of(rng, kind)
                for listed in (False, True):
                    ran = span.run(span.Task(kind, listed, problem, "-", "-", rng.randint(0, 9), 0))
                    self.assertEqual(record.of_text(ran.text, WHOLE, listed).digest, digest_of(problem), problem)
        self.assertEqual(digest_of(b"| a remark\n\nA  | x\n\tx A\r\nx\n"), digest_of(b"A |x\nx A"))
        self.assertNotEqual(digest_of(b"A B\nA B\n"), digest_of(b"A B\nB A\n"))


class Paces(unittest.TestCase):
    def test_steps_follow_the_speed(self):
        pace = Pace(0)
        few = pace.steps(0.0, None, float("inf"))
        pace.took(few, 0.002 + few / 500_000, 50)
        for _ in range(30):
            steps = pace.steps(1.0, None, float("inf"))
            pace.took(steps, 0.002 + steps / 500_000, 50)

        def seconds(elapsed, rest, left=float("inf")):
            return pace.steps(elapsed, rest, left) / 500_000

        # Half of the time that it has taken, where nothing is known of the rest, and else a third of that; and not all
        # of what is left of the time that it may take.
        self.assertAlmostEqual(seconds(2.0, None), 1.0, delta=0.1)
        self.assertAlmostEqual(seconds(2.0, 100.0), 1.0, delta=0.1)
        self.assertAlmostEqual(seconds(2.0, 1.5), 0.5, delta=0.05)
        self.assertAlmostEqual(seconds(20.0, 0.0), 0.5, delta=0.05)
        self.assertAlmostEqual(seconds(0.0, None), 0.1, delta=0.01)
        self.assertAlmostEqual(seconds(1e6, 1e6), 10, delta=1)
        self.assertLessEqual(seconds(1e6, 1e6, 0.5), 0.45)
        self.assertEqual(pace.steps(1e6, None, -1.0), 1)

    def test_little_is_lost_where_a_run_is_stopped(self):
        """A second, of a search of hours a 3600th of its time, and no more than 33 times what it takes to start."""
        for start, elapsed, least, most in ((0.001, 12.0, 0.9, 1.1), (0.001, 7200.0, 1.8, 2.2), (0.1, 12.0, 2.5, 3.4)):
            pace = Pace(0, workers.Own.longest)
            for _ in range(30):
                steps = pace.steps(elapsed, None, float("inf"))
                pace.took(steps, start + steps / 500_000, 50)
            seconds = pace.steps(elapsed, 1e6, float("inf")) / 500_000
            self.assertTrue(least < seconds < most, (start, elapsed, seconds))

    def test_a_slow_start(self):
        pace = Pace(0)
        for _ in range(30):
            steps = pace.steps(0.1, None, float("inf"))
            pace.took(steps, 2.0 + steps / 500_000, 50)
        self.assertGreater(pace.steps(0.1, None, float("inf")) / 500_000, 20)

    def test_texts_that_are_too_long(self):
        pace = Pace(1000)
        pace.took(100, 0.001, 100)
        self.assertLessEqual(pace.steps(1.0, None, 1.0), 500)
        pace.was_too_long(400)
        self.assertLessEqual(pace.steps(1.0, None, 1.0), 50)


class Texts(unittest.TestCase):
    def test_kinds_and_ignored_lines(self):
        for given, kind in (
            (b"A B | x\nA x\n", 1),
            (b"| 1:2\n\nA B |x\nA x:r\n", 2),
            (b"A 2|B\nA\n", 3),
            (b"1|A\nA x:r\n", 3),
            (b"", 1),
            (b"| alone", 1),
        ):
            self.assertEqual(text.kind_of(given), kind, given)
        rng = random.Random(4)
        for kind in (1, 2, 3):
            for _ in range(20):
                problem = problem_of(rng, kind)
                listing = whole(kind, problem)[1].splitlines()[:-1]
                found = [f"Option ignored (no primary items): line {line}" for line in text.ignored(problem)]
                self.assertEqual(found, listing)


class Reversed(Executor):
    """Runs tasks when it is asked for more of them, the last first; some fail at first."""

    def __init__(self, fails: float = 0.0, most: int = 6):
        self._waiting = []
        self._rng = random.Random(5)
        self._fails, self._most = fails, most

    def submit(self, act, *given, **named):
        future: Future = Future()
        self._waiting.append((future, act, given))
        if len(self._waiting) >= self._most:
            self._go()
        else:
            threading.Timer(0.02, self._go).start()
        return future

    def _go(self):
        while self._waiting:
            try:
                future, act, given = self._waiting.pop()
            except IndexError:
                return
            try:
                if self._rng.random() < self._fails:
                    raise RuntimeError("a worker was lost")
                future.set_result(act(*given))
            except BaseException as error:
                future.set_exception(error)


def snapshot(folder):
    """The files of a folder and what is in them."""
    found = {}
    for name in os.listdir(folder):
        with open(os.path.join(folder, name), "rb") as file:
            found[name] = file.read()
    return found


def killed(call: int, act) -> bool:
    """Whether a process that does this makes so many calls of C from the modules of folders; there it is ended."""
    child = os.fork()
    if child:
        return os.waitstatus_to_exitcode(os.waitpid(child, 0)[1]) == 9
    made = 0

    def count(frame, event, _):
        nonlocal made
        if event.startswith("c_") and frame.f_code.co_filename in (folders.__file__, held.__file__):
            made += 1
            if made > call:
                os._exit(9)

    sys.setprofile(count)
    try:
        act()
    finally:
        os._exit(0)


@contextlib.contextmanager
def belongs_to(path, user):
    """A file or folder of another user, for this process."""
    if os.geteuid() == 0:
        os.chown(path, user, -1, follow_symlinks=False)
        yield
        os.chown(path, 0, -1, follow_symlinks=False)
        return
    own, right = os.stat_result, (os.stat, os.lstat, os.fstat)
    there = os.lstat(path)

    def changed(call):
        def stat(*given, **named):
            found = call(*given, **named)
            return own((*found[:4], user, *found[5:])) if os.path.samestat(found, there) else found

        return stat

    with mock.patch.multiple(held.os, stat=changed(right[0]), lstat=changed(right[1]), fstat=changed(right[2])):
        yield


def taken(found, kept: Kept) -> None:
    found[kept.span.start] = kept


class Loops(unittest.TestCase):
    def test_executors(self):
        problem = make.queens.problem(8)
        self.assertEqual(problem.count(jobs=1), 92)
        self.assertEqual(problem.count(jobs=3), 92)
        with ThreadPoolExecutor(2) as executor:
            self.assertEqual(problem.count(executor=executor), 92)
        with ProcessPoolExecutor(2) as executor:
            self.assertEqual(problem.count(executor=executor, jobs=2), 92)
        self.assertEqual(problem.count(executor=Reversed(), jobs=3), 92)
        self.assertEqual(problem.count(executor=Reversed(0.2), jobs=3), 92)
        with self.assertRaisesRegex(SearchFault, "a worker was lost"):
            problem.count(executor=Reversed(1.0), jobs=3)
        for given in ({"limit": 3, "jobs": 2}, {"jobs": 0}):
            with self.assertRaises(ValueError):
                problem.count(**given)

    def test_kinds_and_names(self):
        rng = random.Random(6)
        for kind in (1, 2, 3):
            for _ in range(5):
                problem = Problem.parse(problem_of(rng, kind))
                self.assertEqual(problem.count(jobs=2), problem.count())

    def test_progress(self):
        reports = []
        with mock.patch.object(loop, "_TICK", 0.0):
            self.assertEqual(make.queens.problem(9).count(jobs=2, progress=reports.append), 352)
        self.assertTrue(reports)
        shares, solutions = [one.share for one in reports], [one.solutions for one in reports]
        self.assertEqual((shares, solutions), (sorted(shares), sorted(solutions)))
        self.assertTrue(all(0 <= share <= 1 for share in shares))
        line = r"\A[0-9.]+ %   [0-9,]+ solutions   [0-9:]+(, about [0-9:]+ left)?   [0-2] at work\Z"
        self.assertRegex(str(reports[-1]), line)

    def test_seconds(self):
        with self.assertRaises(OutOfTime):
            make.queens.problem(17).count(jobs=2, seconds=0.3)
        self.assertEqual(make.queens.problem(6).count(jobs=2, seconds=60), 4)

    def test_random_cuts_give_the_listing(self):
        """Any number of steps, and any order in which spans come back."""
        rng = random.Random(7)
        for kind, number in itertools.product((1, 2, 3), range(7)):
            problem = problem_of(rng, kind) if number else narrow(rng, 5)
            found = {}
            most = 9 if number else 60
            with mock.patch.object(Pace, "steps", lambda *_: rng.randint(1, most)):
                job = Job(problem, kind, listed=True)
                executor = Reversed(0.05, rng.randint(1, 9))
                search = Loop(job, loop.submitting(executor), lambda: 3, lambda kept: taken(found, kept), None)
                self.assertTrue(search.search([WHOLE]))
            listing = b"".join(kept.text for _, kept in sorted(found.items()))
            joined = subprocess.run([programs.find("dlx-join"), "m1"], input=listing, capture_output=True)
            self.assertEqual((joined.returncode, joined.stdout), (0, whole(kind, problem, "m1")[0]), joined.stderr)
            self.assertEqual(search.parts, PARTS)

    def test_long_texts_and_long_rows(self):
        problem = make.queens.problem(6).text.encode()
        for changed in ({"MOST_TEXT": 200}, {"_LONGEST_WORD": 3}, {"MOST_TEXT": 200, "_LONGEST_WORD": 3}):
            found = {}
            with mock.patch.multiple(loop, **changed), mock.patch("helgrothy._spans.pace._FIRST", 5):
                submit = loop.submitting(ThreadPoolExecutor(2))
                search = Loop(Job(problem, 1, True), submit, lambda: 2, lambda kept: taken(found, kept), None)
                self.assertTrue(search.search([WHOLE]))
            listing = b"".join(kept.text for _, kept in sorted(found.items()))
            joined = subprocess.run([programs.find("dlx-join"), "m1"], input=listing, capture_output=True)
            self.assertEqual(joined.stdout, whole(1, problem, "m1")[0])

    def test_a_long_text_of_a_program_that_has_ended(self):
        def read(process, _):
            text = process.stdout.read()
            os.waitid(os.P_PID, process.pid, os.WEXITED | os.WNOWAIT)
            return text

        with mock.patch.object(span, "_read", read):
            self.assertTrue(span.run(span.Task(1, True, QUEENS, "-", "-", 0, 10)).is_too_long)

    def test_workers_of_another_version(self):
        with mock.patch.object(loop, "__version__", "0.0.9"), self.assertRaisesRegex(SearchFault, "version"):
            make.queens.problem(6).count(jobs=1)

    def test_texts_of_another_problem(self):
        """As by a worker that reads another file; the first text says which it is, or who began the search."""
        others = iter([QUEENS, b"A\nA\n"])

        def submit(task, done):
            done(span.run(task._replace(problem=next(others))))
            return lambda: None

        for job, count in ((Job(QUEENS, 1, False), 1), (Job(b"", 1, False, digest_of(b"A\nA\nA\n")), 0)):
            kept: list = []
            with mock.patch.object(Pace, "steps", lambda *_: 2), self.assertRaisesRegex(SearchFault, "of another problem"):
                Loop(job, submit, lambda: 1, kept.append, None).search([WHOLE])
            self.assertEqual(len(kept), count)
            others = iter([QUEENS])

    def test_a_fault_comes_at_once(self):
        job = Job(b"A\nB\n", 1, False)
        search = Loop(job, loop.submitting(Reversed(0.0, 1)), lambda: 1, lambda _: None, None)
        with self.assertRaises(ProgramFailed) as raised:
            search.search([WHOLE])
        self.assertEqual((raised.exception.status, raised.exception.message), (2, "Line 2: unknown item."))

    def test_no_program(self):
        with mock.patch.object(span, "find", side_effect=ProgramNotFound("dlx-span")), self.assertRaises(ProgramNotFound):
            make.queens.problem(6).count(jobs=1)


class Guards(unittest.TestCase):
    def test_an_interrupt_at_the_very_end(self):
        """It isn't reported: what there was to do is done."""
        right, raised = os.close, []

        def close(number):
            if not raised:
                raised.append(number)
                raise KeyboardInterrupt
            right(number)

        one = guard._Guard()
        with mock.patch("os.close", close):
            one._end_at_exit()
        self.assertEqual((one.pipe, one._shell.returncode), (-1, 0))
        self.assertRaises(ProcessLookupError, os.kill, one._shell.pid, 0)


class FewWorkers(unittest.TestCase):
    """Where the system gives fewer threads, processes or open files than workers were asked for."""

    def setUp(self) -> None:
        self.problem = make.queens.problem(8)

    def threads(self, most):
        """So many threads are to be had at once."""
        right, lock, given = threads.Thread.start, threading.Lock(), []

        def start(thread):
            with lock:
                if sum(one.is_alive() for one in given) >= most:
                    raise RuntimeError("can't start new thread")
                given.append(thread)
                right(thread)

        return mock.patch.object(threads.Thread, "start", start)

    def dying_threads(self, most):
        """So many threads are at work at once, and each further one dies before its first line."""
        right, given = threads.start_new_thread, []

        def start(run, words):
            is_dying = sum(thread.is_alive() for thread in given) >= most
            # One that begins may take a while to do so.
            threads._PATIENCE = 0 if is_dying else 600
            if not is_dying:
                given.append(run.__self__)
                right(run, words)

        return mock.patch.multiple(threads, start_new_thread=start, _PATIENCE=0)

    def processes(self, most, error):
        """So many programs run at once."""
        right, lock, running = span._start, threading.Lock(), set()

        def start(command):
            with lock:
                if len(running) >= most:
                    raise error
                process = right(command)
                running.add(process.pid)
                return process

        def let_go(process):
            with lock:
                running.discard(process)

        return mock.patch.multiple(span, _start=start, let_go=let_go)

    def test_threads(self):
        # The last one puts the texts together.
        for most in (1, 2, 5):
            with self.threads(most):
                self.assertEqual(self.problem.count(jobs=4), 92)
        with self.threads(0), self.assertRaisesRegex(SearchFault, "the system gives no more threads"):
            self.problem.count(jobs=4)

    def test_threads_that_never_begin(self):
        """As where memory is lacking: the system gives them, and nothing comes of it."""
        for most in (1, 2):
            with self.dying_threads(most):
                self.assertEqual(self.problem.count(jobs=4), 92)
        with self.dying_threads(0), self.assertRaisesRegex(SearchFault, "the system gives no more threads"):
            self.problem.count(jobs=4)

    def test_threads_without_room(self):
        with mock.patch.object(threads, "_ROOM", 1 << 60):
            with self.assertRaisesRegex(SearchFault, "the system gives no more threads"):
                self.problem.count(jobs=4)

    def test_a_thread_that_begins_too_late_does_nothing(self):
        late, acts, begun = [], [], []
        with mock.patch.multiple(threads, start_new_thread=lambda run, words: late.append(run), _PATIENCE=0):
            with self.assertRaisesRegex(SearchFault, "the system gives no more threads"):
                threads.begin(lambda: acts.append("done"), begun)
        (run,) = late
        run()
        self.assertEqual((acts, begun), ([], []))

    def test_ends_of_threads(self):
        lock, begun = threading.Lock(), []
        with lock:
            threads.begin(lock.acquire, begun)
            (thread,) = begun
            thread.join(0.01)
            self.assertTrue(thread.is_alive())
        thread.join()
        self.assertFalse(thread.is_alive())

    def test_processes(self):
        for error in (BlockingIOError(11, "Resource temporarily unavailable"), OSError(24, "Too many open files"), MemoryError()):
            for most in (1, 2):
                with self.processes(most, error), mock.patch.object(workers, "_PAUSE", 0.01):
                    self.assertEqual(self.problem.count(jobs=4), 92)
        with self.processes(0, error), mock.patch.object(workers, "_PAUSE", 0.01):
            with self.assertRaisesRegex(SearchFault, "the workers: out of memory"):
                self.problem.count(jobs=4)

    def test_more_are_tried_later(self):
        with workers.Own(4) as own:
            came: queue.SimpleQueue = queue.SimpleQueue()
            task = span.Task(1, False, QUEENS, "-", "-", 0, 0)
            with self.threads(1):
                for _ in range(2):
                    own.submit(task, came.put)
            self.assertEqual(own.count(), 1)
            with mock.patch.object(workers.time, "monotonic", lambda: float("inf")):
                self.assertEqual(own.count(), 2)
            own.submit(task, came.put)
            self.assertEqual({came.get(timeout=60).text for _ in range(3)}, {span.run(task).text})
            self.assertEqual(own._working, 2)

    def test_stopped_as_a_worker_begins(self):
        right, begun = threads.Thread.start, []

        def start(thread):
            right(thread)
            begun.append(thread)
            if len(begun) == 2:
                raise KeyboardInterrupt

        own, came = workers.Own(2), queue.SimpleQueue()
        task = span.Task(1, False, QUEENS, "-", "-", 0, 0)
        with mock.patch.object(threads.Thread, "start", start):
            own.submit(task, came.put)
            with self.assertRaises(KeyboardInterrupt):
                own.submit(task, came.put)
        closing = threading.Thread(target=own.close, daemon=True)
        closing.start()
        for thread in (closing, *begun):
            thread.join(60)
            self.assertFalse(thread.is_alive())

    def test_no_more_than_there_can_be(self):
        self.assertEqual(self.problem.count(jobs=workers.MOST_JOBS), 92)
        with self.assertRaisesRegex(ValueError, "jobs must be at most 4096"):
            self.problem.count(jobs=workers.MOST_JOBS + 1)
        with mock.patch("resource.getrlimit", return_value=(64, 64)):
            self.assertEqual(workers.Own(50).count(), 10)

    def test_a_join_without_threads_leaves_no_program(self):
        begun = []
        right = join.start

        def start(*given, **named):
            begun.append(right(*given, **named))
            return begun[-1]

        with self.threads(0), mock.patch.object(join, "start", start), self.assertRaisesRegex(SearchFault, "no more threads"):
            join.Join(True)
        self.assertIsNotNone(begun[0].returncode)


class Folders(unittest.TestCase):
    def setUp(self) -> None:
        top = tempfile.TemporaryDirectory()
        self.addCleanup(top.cleanup)
        self.path = os.path.join(top.name, "q.search")
        self.job = Job(QUEENS, 1, False, DIGEST, "q.dlx")

    def fill(self, job=None, flushes=1):
        """Some spans that are done, of which the second is left."""
        job = job or self.job
        with Folder(self.path, job) as folder:
            for start, until, at, ends in (((), (2,), 0, FIFTH), ((3,), (4,), 2 * FIFTH, 3 * FIFTH), ((4,), None, 3 * FIFTH, PARTS)):
                task = span.Task(1, job.listed, QUEENS, word_of(start), word_of(until), 0, 0)
                ran = span.run(task)
                read = record.of_text(ran.text, Span(start, until, at, ends), job.listed)
                folder.keep(Kept(Span(start, until, at, ends), ran.text, read.solutions, 0.5))
                if flushes > 1:
                    folder.flush()
            folder.flush()
        return sorted(name for name in os.listdir(self.path) if name.endswith(".span"))

    def test_files_follow_one_another(self):
        self.assertEqual(len(self.fill()), 2)
        with Folder(self.path, self.job) as folder:
            self.assertEqual(folder.todo(), [Span((2,), (3,), FIFTH, 2 * FIFTH)])
            self.assertEqual(folder.parts, PARTS - FIFTH)
            self.assertEqual(folder.seconds, 1.5)
            folder.check()
            gap = folder.todo()[0]
            ran = span.run(span.Task(1, False, QUEENS, "2", "3", 0, 0))
            folder.keep(Kept(gap, ran.text, record.of_text(ran.text, gap, False).solutions, 0.5))
            folder.flush()
            self.assertEqual((folder.todo(), folder.solutions), ([], 40))
            # What is counted is put together.
            self.assertEqual(len([name for name in os.listdir(self.path) if name.endswith(".span")]), 1)
            self.assertEqual(len(list(folder.chain())), 1)
            folder.remove()
        self.assertFalse(os.path.exists(self.path))

    def test_no_file_is_refused_for_its_places(self):
        self.fill()
        with Folder(self.path, self.job) as folder:
            ran = span.run(span.Task(1, False, QUEENS, "2", "3", 0, 0))
            solutions = record.of_text(ran.text, folder.todo()[0], False).solutions
            folder.keep(Kept(Span((2,), (3,), 2 * FIFTH, FIFTH), ran.text, solutions, 0.5))
            folder.flush()
        with Folder(self.path, is_read=True) as folder:
            folder.check()
            self.assertEqual((folder.todo(), folder.solutions), ([], 40))

    def test_what_is_left_is_not_100_percent(self):
        """Also if it is too little for a number."""
        with Folder(self.path, self.job) as folder:
            folder.keep(Kept(Span((), (2, 1), 0, FIFTH), b"", 0, 0.5))
            folder.flush()
            folder.keep(Kept(Span((2, 1, 1), None, FIFTH, PARTS), b"", 0, 0.5))
            folder.flush()
        out = io.StringIO()
        with contextlib.redirect_stdout(out), mock.patch("helgrothy._cli.console.write", lambda lines: out.writelines(lines)):
            self.assertEqual(main(["search", "--status", self.path]), 0)
        self.assertIn("99.9 % done", out.getvalue())

    def test_a_listing_stays_in_files(self):
        self.assertEqual(len(self.fill(self.job._replace(listed=True), flushes=3)), 3)

    def test_another_search_is_refused(self):
        self.fill()
        for change, what in (
            ({"problem": b"A\nA\n", "digest": digest_of(b"A\nA\n"), "name": "a.dlx"}, "another problem than a.dlx"),
            ({"kind": 2}, "the program dlx1, not dlx2"),
            ({"listed": True}, "a search that counts solutions"),
        ):
            job = self.job._replace(**change)
            with self.assertRaisesRegex(SearchFault, f"{self.path}: it is of {what}"):
                Folder(self.path, job)
        wanted = "of version 0.1.0"
        with mock.patch.object(about, "__version__", "0.0.9"), self.assertRaisesRegex(SearchFault, wanted):
            Folder(self.path, self.job)

    def test_a_text_with_other_remarks_is_the_same_problem(self):
        self.fill()
        changed = self.job._replace(problem=b"| a remark\n" + QUEENS)
        for job in (changed, self.job):
            with Folder(self.path, job) as folder:
                self.assertEqual((folder.problem(), len(folder.todo())), (QUEENS, 1))
                folder.check()
        path = os.path.join(self.path, "problem.dlx")
        os.remove(path)
        with self.assertRaisesRegex(SearchFault, f"{path}: it is gone, and q.dlx isn't as it was"):
            Folder(self.path, changed)
        with Folder(self.path, self.job) as folder:
            self.assertEqual(folder.problem(), QUEENS)

    def test_a_folder_of_another_form(self):
        """As an earlier version wrote it, whose number may be the same."""
        self.fill()
        path = os.path.join(self.path, "helgrothy.search")
        with open(path) as file:
            right = file.read()
        for first in ("helgrothy search", "helgrothy search, form 2", "helgrothy search, form 4"):
            with open(path, "w") as file:
                file.write(right.replace(right.partition("\n")[0], first))
            for how in ({"job": self.job}, {"is_read": True}):
                with self.assertRaisesRegex(SearchFault, f"{self.path}: another version made it, in another form"):
                    Folder(self.path, **how)
        # The first form had this name for it.
        os.rename(path, os.path.join(self.path, "search"))
        with open(os.path.join(self.path, "search"), "w") as file:
            file.write(right.replace(right.partition("\n")[0], "helgrothy search"))
        before = snapshot(self.path)
        for how in ({"job": self.job}, {"is_read": True}):
            with self.assertRaisesRegex(SearchFault, f"{self.path}: another version made it, in another form"):
                Folder(self.path, **how)
        self.assertEqual(snapshot(self.path), before)

    def test_one_command_holds_it(self):
        with Folder(self.path, self.job):
            with self.assertRaisesRegex(SearchFault, "another command is at work"):
                Folder(self.path, self.job)
            with self.assertRaisesRegex(SearchFault, "another command is at work"):
                Folder(self.path, is_read=True)
            self.assertTrue(held.is_at_work(self.path))
            self.assertEqual(folders.Look(self.path).todo(), [WHOLE])
        self.assertFalse(held.is_at_work(self.path))
        with Folder(self.path, is_read=True), Folder(self.path, is_read=True):
            pass

    def test_a_folder_that_is_not_locked_is_left_as_it_was(self):
        error = OSError(37, "No locks available")
        wanted = "No locks available.*--folder"
        for is_there in (False, True):
            if is_there:
                os.mkdir(self.path)
            with mock.patch("fcntl.flock", side_effect=error), self.assertRaisesRegex(SearchFault, wanted):
                Folder(self.path, self.job)
            self.assertEqual(os.listdir(self.path) if is_there else os.path.exists(self.path), [] if is_there else False)
        self.fill()
        before = snapshot(self.path)
        with mock.patch("fcntl.flock", side_effect=error), self.assertRaisesRegex(SearchFault, wanted):
            Folder(self.path, self.job)
        self.assertEqual(snapshot(self.path), before)

    def test_two_that_begin_at_once(self):
        """One of them gets the folder, and the others say so."""
        for number in range(20):
            path = f"{self.path}{number}"
            if number % 2:
                os.mkdir(path)
            barrier, began, errors = threading.Barrier(4), [], []

            def begin():
                barrier.wait()
                try:
                    began.append(Folder(path, self.job))
                except SearchFault as error:
                    errors.append(str(error))

            threads = [threading.Thread(target=begin) for _ in range(4)]
            with mock.patch.object(held, "_WAIT", 0.005):
                for thread in threads:
                    thread.start()
                for thread in threads:
                    thread.join()
            self.assertEqual((len(began), set(errors)), (1, {f"{path}: another command is at work there"}))
            began[0].close()
            with Folder(path, self.job) as folder:
                self.assertEqual(folder.problem(), QUEENS)

    def test_a_command_that_is_killed_as_it_makes_a_folder(self):
        """In whatever call it was, the same command takes the folder again."""
        seen = set()
        for _ in self.kills(lambda: Folder(self.path, self.job)):
            seen.add(tuple(sorted(os.listdir(self.path))) if os.path.exists(self.path) else None)
            self.goes_on()
        first, second = "helgrothy.search", "problem.dlx"
        self.assertEqual(seen, {None, (), (first,), (first, second), (first, f"{second}.helgrothy-new")})

    def test_a_command_that_is_killed_as_it_removes_a_folder(self):
        self.fill()
        full = f"{self.path}.full"
        shutil.move(self.path, full)
        shutil.copytree(full, self.path)
        for _ in self.kills(lambda: Folder(self.path, self.job).remove()):
            self.goes_on()
            shutil.copytree(full, self.path)

    def kills(self, act):
        """Has something done in a process that is killed, each time in another call."""
        with mock.patch("os.fsync"):
            for call in itertools.count():
                if not killed(call, act):
                    return
                yield call

    def goes_on(self):
        with Folder(self.path, self.job) as folder:
            folder.check()
            folder.problem()
            folder.remove()
        self.assertFalse(os.path.exists(self.path))

    def test_a_folder_that_can_not_be_made(self):
        def fail(*_):
            raise OSError(28, "No space left on device")

        for name in ("os.fsync", "os.ftruncate"):
            with mock.patch(name, fail), self.assertRaisesRegex(OSError, "No space left"):
                Folder(self.path, self.job)
            self.assertFalse(os.path.exists(self.path))
            os.mkdir(self.path)
            with mock.patch(name, fail), self.assertRaisesRegex(OSError, "No space left"):
                Folder(self.path, self.job)
            os.rmdir(self.path)

    def test_folders_of_others_stay_as_they_are(self):
        """With files whose names are like the command's own too."""
        for names in (
            ["thesis.tex", "20261128.tmp"],
            ["12345678.tmp"],
            ["search.tmp", "problem.dlx.tmp"],
            ["problem.dlx"],
            ["problem.dlx", "lock"],
            ["lock"],
            ["search"],
            ["00000001.span"],
            ["problem.dlx.helgrothy-new", "00000001.span.helgrothy-new"],
            ["helgrothy.search"],
            ["helgrothy.search", "thesis.tex"],
        ):
            with self.subTest(names=names):
                shutil.rmtree(self.path, ignore_errors=True)
                os.mkdir(self.path)
                for name in names:
                    with open(os.path.join(self.path, name), "w") as file:
                        file.write(f"mine: {name}\n")
                before = snapshot(self.path)
                for how in ({"job": self.job}, {"is_read": True}):
                    with self.assertRaisesRegex(SearchFault, f"{self.path}.*: it is (no folder of a search|damaged)"):
                        Folder(self.path, **how)
                    self.assertEqual(snapshot(self.path), before)

    def test_files_of_others_in_a_folder_of_a_search(self):
        self.fill()
        mine = {name: b"mine" for name in ("20261128.tmp", "search.tmp", "problem.dlx.tmp", "lock", "search", "notes")}
        other = self.path + ".other"
        self.path, path = other, self.path
        name = self.fill(self.job._replace(listed=True), flushes=2)[-1]
        self.path = path
        for one, given in mine.items():
            with open(os.path.join(self.path, one), "wb") as file:
                file.write(given)
        with open(os.path.join(other, name), "rb") as file:
            # Of another search, and of what is done.
            mine["00000099.span"] = file.read()
        shutil.copy(os.path.join(other, name), os.path.join(self.path, "00000099.span"))
        left = "00000003.span.helgrothy-new"
        with open(os.path.join(self.path, left), "wb") as file:
            file.write(b"span 12")
        with Folder(self.path, self.job) as folder:
            self.assertNotIn(left, os.listdir(self.path))
            folder.remove()
        self.assertEqual(snapshot(self.path), mine)

    def test_a_problem_that_was_written_over_stays(self):
        self.fill()
        with open(os.path.join(self.path, "problem.dlx"), "wb") as file:
            file.write(b"mine")
        with Folder(self.path, self.job) as folder:
            folder.remove()
        self.assertEqual(snapshot(self.path), {"problem.dlx": b"mine"})

    def test_folders_that_belong_to_others(self):
        """In a place that the user hasn't chosen they aren't used, nor are others' files in a folder of one's own."""
        self.fill()
        name = max(name for name in os.listdir(self.path) if name.endswith(".span"))
        paths = [self.path, *(os.path.join(self.path, name) for name in (name, "helgrothy.search"))]
        for path in paths:
            with self.subTest(path=path), belongs_to(path, 54321):
                with self.assertRaisesRegex(SearchFault, f"{path}: it belongs to another user; name a folder by --folder"):
                    Folder(self.path, self.job, is_own=True)
                # One that is named is used whoever owns it.
                Folder(self.path, self.job).close()
                if os.geteuid() == 0:
                    # So is that of who is behind sudo.
                    with mock.patch.dict(os.environ, {"SUDO_UID": "54321"}):
                        Folder(self.path, self.job, is_own=True).close()
        Folder(self.path, self.job, is_own=True).close()
        link = f"{self.path}.link"
        os.symlink(self.path, link)
        Folder(link, self.job, is_own=True).close()
        with belongs_to(link, 54321), self.assertRaisesRegex(SearchFault, f"{link}: it belongs to another user"):
            Folder(link, self.job, is_own=True)

    def test_a_file_system_that_says_that_another_one_owns_all(self):
        owners = held.Owners(is_own=True)
        owners._users = {54321}
        with self.assertRaisesRegex(SearchFault, "another user"):
            os.mkdir(self.path)
            held.Hold(self.path, owners)
        os.rmdir(self.path)
        # What was made just now is the user's.
        held.Hold(self.path, owners).close()

    def test_strange_folders(self):
        with self.assertRaisesRegex(SearchFault, "no such folder"):
            Folder(self.path, is_read=True)
        os.mkdir(self.path)
        with self.assertRaisesRegex(SearchFault, "no folder of a search"):
            Folder(self.path, is_read=True)
        with Folder(self.path, self.job) as folder:
            with open(os.path.join(self.path, "mine.txt"), "w"):
                pass
            folder.remove()
        self.assertEqual(os.listdir(self.path), ["mine.txt"])
        shutil.rmtree(self.path)
        with open(self.path, "w"):
            pass
        with self.assertRaisesRegex(SearchFault, "it is no folder"):
            Folder(self.path, self.job)

    def test_each_changed_byte_is_reported(self):
        """Of a file of spans: by the file's name, or, where the digest alone shows it, when it is read."""
        name = os.path.join(self.path, self.fill()[0])
        with open(name, "rb") as file:
            right = file.read()
        for at in range(len(right)):
            before, after = right[:at], right[at:]
            for changed in (before, before + bytes([right[at] ^ 1]) + after[1:], before + b"0" + after):
                with open(name, "wb") as file:
                    file.write(changed)
                with self.assertRaisesRegex(SearchFault, name), Folder(self.path, self.job) as folder:
                    folder.check()
                    if changed == right:
                        raise SearchFault(name)

    def test_a_file_of_another_search_is_reported(self):
        name = self.fill()[0]
        other = f"{self.path}.other"
        shutil.move(self.path, other)
        with Folder(self.path, self.job._replace(problem=QUEENS + b"| the same\n")):
            pass
        shutil.copy(os.path.join(other, name), self.path)
        with self.assertRaisesRegex(SearchFault, f"{name}: it is damaged, or of another search"):
            with Folder(self.path, is_read=True) as folder:
                folder.check()

    def test_a_file_twice(self):
        name = self.fill()[0]
        shutil.copy(os.path.join(self.path, name), os.path.join(self.path, "00000077.span"))
        with Folder(self.path, self.job) as folder:
            self.assertEqual(folder.parts, PARTS - FIFTH)

    def test_what_is_no_file(self):
        name = os.path.join(self.path, self.fill()[0])
        os.remove(name)
        for make_it, what in (
            (lambda: os.symlink("/dev/zero", name), "it is a link"),
            (lambda: os.symlink(name, name), "it is a link"),
            (lambda: os.mkfifo(name), "it is no file"),
            (lambda: os.mkdir(name), "it is no file"),
        ):
            make_it()
            # It says what to do, and this is so.
            for how in ({"job": self.job}, {"is_read": True}):
                with self.assertRaisesRegex(SearchFault, f"{name}: {what}; without it the search goes on$"):
                    Folder(self.path, **how)
            os.rmdir(name) if os.path.isdir(name) and not os.path.islink(name) else os.remove(name)
            with Folder(self.path, self.job) as folder:
                self.assertTrue(folder.todo())

    def test_names_that_only_look_like_its_own(self):
        self.fill()
        names = ["\u00b2.span", "\u0661" * 8 + ".span", "9" * 60 + ".span", "1.span", "00000077.span.old"]
        for name in [*names, "-00000077.span", "\udcff"]:
            with open(os.path.join(self.path, name), "wb") as file:
                file.write(b"[" * 100_000)
        with Folder(self.path, self.job) as folder:
            folder.check()
            self.assertEqual(folder.parts, PARTS - FIFTH)

    def test_heads_of_another_form(self):
        """As another version might write them: a word more, a word less, and words of another kind."""
        name = os.path.join(self.path, self.fill()[0])
        with open(name, "rb") as file:
            head, _, text = file.read().partition(b"\n")
        words = head.split(b" ")
        odd = [b"", b"x", b"nan", b"inf", b"-1", b"1e999", b"0x1", b"9" * 400, b"1." * 5_000 + b"1", b"[" * 5_000, b"\xff", b"0 0"]
        heads = [[*words[:at], one, *words[at + 1 :]] for at in range(len(words)) for one in odd]
        heads += [words[:at] + words[at + 1 :] for at in range(len(words))]
        for changed in heads:
            with open(name, "wb") as file:
                file.write(b" ".join(changed) + b"\n" + text)
            with self.assertRaisesRegex(SearchFault, name), Folder(self.path, self.job) as folder:
                folder.check()

    def test_a_problem_that_changes_while_it_is_searched(self):
        """Workers get the text that was compared, and no name of a file that another one may write."""
        path = os.path.join(self.path, "problem.dlx")

        def submit(task, done):
            with open(path, "wb") as file:
                file.write(b"A\nA\n")
            done(span.run(task))
            return lambda: None

        with Folder(self.path, self.job) as folder:
            self.assertTrue(Loop(self.job, submit, lambda: 1, folder.keep, None).search(folder.todo()))
            folder.flush()
            self.assertEqual((folder.todo(), folder.solutions), ([], 40))
            with self.assertRaisesRegex(SearchFault, f"{path}: it was changed"):
                folder.problem()


class Commands(unittest.TestCase):
    def setUp(self) -> None:
        top = tempfile.TemporaryDirectory()
        self.addCleanup(top.cleanup)
        self.path = os.path.join(top.name, "q.dlx")
        with open(self.path, "wb") as file:
            file.write(QUEENS)

    def run_it(self, *words, memory=None):
        """A command as a process, perhaps of so much memory: its status, standard output and standard error."""
        package = os.path.dirname(os.path.dirname(os.path.abspath(__file__)))
        bound = None if memory is None else lambda: resource.setrlimit(resource.RLIMIT_AS, (memory, memory))
        command = [sys.executable, "-m", "helgrothy", *words]
        done = subprocess.run(command, capture_output=True, cwd=package, preexec_fn=bound, timeout=300)
        return done.returncode, done.stdout, done.stderr.decode()

    def test_search(self):
        listing, messages = whole(1, QUEENS, "m1")
        self.assertEqual(self.run_it("search", self.path), (0, b"", messages))
        self.assertEqual(self.run_it("search", self.path, "--list", "--jobs", "2"), (0, listing, messages))
        self.assertEqual(os.listdir(os.path.dirname(self.path)), ["q.dlx"])
        folder = f"{self.path}.found"
        for _ in range(2):
            self.assertEqual(self.run_it("search", self.path, "--list", "--folder", folder), (0, listing, messages))
        self.assertEqual(self.run_it("search", "--result", folder, "--list"), (0, listing, messages))
        self.assertEqual(self.run_it("search", "--result", folder), (0, b"", messages))
        status, printed, message = self.run_it("search", "--status", folder)
        self.assertEqual((status, message), (0, ""))
        self.assertRegex(printed.decode(), r"\A100 % done: 40 solutions, [0-9.]+ seconds of a processor\n\Z")
        status, printed, message = self.run_it("search", self.path, "--folder", folder)
        self.assertEqual((status, printed), (2, b""))
        self.assertIn("a search that lists solutions", message)

    def test_more_workers_than_there_is_memory_for(self):
        with open(self.path, "wb") as file:
            file.write(make.queens.problem(11).text.encode())
        status, _, error = self.run_it("search", self.path, "--jobs", "50", memory=100 << 20)
        self.assertEqual((status, error), (0, "Altogether 2680 solutions.\n"))
        for jobs in ("4097", "18446744073709551615"):
            status, printed, error = self.run_it("search", self.path, "--jobs", jobs)
            self.assertEqual((status, printed), (2, b""))
            self.assertIn(f"{jobs}: it has to be a number from 1 to 4096", error)

    def test_the_folder_beside_the_problem_belongs_to_the_user(self):
        folder, error = f"{self.path}.search", io.StringIO()
        os.mkdir(folder)
        with belongs_to(folder, 54321), contextlib.redirect_stderr(error):
            self.assertEqual(main(["search", self.path]), 2)
            self.assertIn(f"{folder}: it belongs to another user; name a folder by --folder", error.getvalue())
            self.assertEqual(os.listdir(folder), [])
            self.assertEqual(main(["search", self.path, "--folder", folder]), 0)

    def test_folders_that_no_search_can_have(self):
        for folder, wanted in (("/proc", "isn't empty"), ("/proc/self/x", "No such file"), ("", "No such file"), (self.path, "no folder")):
            error = io.StringIO()
            with self.subTest(folder=folder), contextlib.redirect_stderr(error):
                self.assertEqual(main(["search", self.path, "--folder", folder]), 2)
                self.assertIn(wanted, error.getvalue())

    def test_nothing_is_printed_of_what_is_damaged(self):
        listing, _ = whole(1, QUEENS, "m1")
        folder = f"{self.path}.found"
        search = ["search", self.path, "--list", "--folder", folder]
        self.assertEqual(self.run_it(*search)[0], 0)
        name = max(os.path.join(folder, name) for name in os.listdir(folder) if name.endswith(".span"))
        with open(name, "rb") as file:
            right = file.read()
        # Another solution, as the record says it; and what another user made of it.
        at = right.rindex(b" (1 of ")
        for wrong in (right[:at] + b" (2 of " + right[at + 7 :], right[:-9], b"span\n", b"["):
            with open(name, "wb") as file:
                file.write(wrong)
            for words in (["search", "--result", folder, "--list"], ["search", "--result", folder], search):
                with self.subTest(words=words, wrong=wrong[-9:]):
                    status, printed, messages = self.run_it(*words)
                    self.assertEqual((status, printed, messages.count("\n")), (2, b"", 1))
                    self.assertIn(f"{name}: it is damaged", messages)
        os.remove(name)
        self.assertEqual(self.run_it(*search)[:2], (0, listing))

    def test_not_done(self):
        with open(self.path, "wb") as file:
            file.write(make.queens.problem(17).text.encode())
        folder = f"{self.path}.search"
        # A machine that does other things does little in two seconds.
        for seconds in ("2", "10", "50"):
            status, _, messages = self.run_it("search", self.path, "--seconds", seconds)
            self.assertEqual(status, NOT_DONE)
            line = r"\Ahelgrothy: not done in {} seconds: [0-9.]+ %; the same command goes on \(.*q.dlx.search\)\n\Z"
            self.assertRegex(messages, line.format(seconds))
            if b"left" in self.run_it("search", "--status", folder)[1]:
                break
        self.assertEqual(self.run_it("search", "--result", folder)[:2], (NOT_DONE, b""))
        self.assertEqual(self.run_it("search", "--result", folder, "--list")[:2], (NOT_DONE, b""))
        line = r"\A[0-9.]+ % done: [0-9,]+ solutions, .*\nleft: about .*\n\Z"
        self.assertRegex(self.run_it("search", "--status", folder)[1].decode(), line)

    def test_a_problem_that_does_not_come(self):
        """The time that a command is given is for reading too."""
        pipe, folder = f"{self.path}.pipe", f"{self.path}.found"
        os.mkfifo(pipe)
        wanted = f"helgrothy: not done in 0.5 seconds: {pipe} wasn't read by then\n"
        words = ["search", pipe, "--folder", folder, "--seconds", "0.5"]
        self.assertEqual(self.run_it(*words), (NOT_DONE, b"", wanted))
        self.assertFalse(os.path.exists(folder))

    def test_faults(self):
        for given, kind, message in (
            (b"A\nB\n", "dlx1", "Line 2: unknown item.\n"),
            (b"A | x\nA x:y\n", "dlx1", "Line 2: colour not allowed here.\n"),
            (b"", "dlx3", "Line 1: no items.\n"),
        ):
            with open(self.path, "wb") as file:
                file.write(given)
            self.assertEqual(self.run_it("search", self.path, "--for", kind), (2, b"", message))
            self.assertEqual(self.run_it("search", self.path, "--rows", "9", "--for", kind), (2, b"", message))
            self.assertEqual(os.listdir(os.path.dirname(self.path)), ["q.dlx"])
        for words in (
            ["search", "-"],
            ["search", f"{self.path}.no"],
            ["search", "--status", self.path],
            ["search", "--result", self.path],
            ["search", self.path, "--status", self.path],
            ["search", "--status", self.path, "--result", self.path],
            ["search", "--status", self.path, "--list"],
            ["search", self.path, "--rows", "9", "--jobs", "2"],
            ["search", "--rows", "9"],
            ["status", self.path],
            ["search"],
            ["search", self.path, "--jobs", "0"],
            ["search", self.path, "--jobs", "1_0"],
            ["search", self.path, "--jobs", "9" * 5_000],
            ["search", self.path, "--seconds", "0"],
            ["search", self.path, "--jobs", "2", "--dask", "x"],
            ["search", self.path, "--rows", "0"],
        ):
            with self.subTest(words=words):
                status, printed, messages = self.run_it(*words)
                self.assertEqual((status, printed), (2, b""))
                self.assertNotIn("Traceback", messages)

    def test_a_python_without_dask(self):
        wanted = f"^--dask needs Dask's package distributed, and {sys.executable} has none: install it there, or put a python3"
        with mock.patch.object(workers, "import_module", side_effect=ImportError):
            with self.assertRaisesRegex(SearchFault, wanted):
                workers.Dask("tcp://first:8786")

    def test_a_listing_that_cannot_be_written(self):
        package = os.path.dirname(os.path.dirname(os.path.abspath(__file__)))
        words = [sys.executable, "-m", "helgrothy", "search", self.path, "--list", "--folder", f"{self.path}.full"]
        with open("/dev/full", "w") as full:
            ended = subprocess.run(words, stdout=full, stderr=subprocess.PIPE, text=True, cwd=package)
        self.assertEqual((ended.returncode, ended.stderr), (3, "Write failed.\n"))

    def test_nobody_sees_the_progress(self):
        with open("/dev/full", "w") as full, mock.patch.object(sys, "stderr", full):
            shown = show.Shown(False)
            shown._last = -100.0
            shown.show(loop.Progress(0.5, 7, 1.0, 1.0, 4))
            self.assertTrue(shown._is_silent)
            with contextlib.suppress(OSError):
                full.close()

    def test_rows(self):
        out = io.TextIOWrapper(io.BytesIO(), write_through=True)
        with mock.patch.object(sys, "stdout", out):
            self.assertEqual(main(["search", self.path, "--rows", "5"]), 0)
        edges = [read(word) for word in out.buffer.getvalue().decode().split()]
        self.assertEqual(len(edges), 5)
        self.assertEqual(texts(1, QUEENS, True, edges), whole(1, QUEENS, "m1"))


if __name__ == "__main__":
    unittest.main()

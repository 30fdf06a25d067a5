"""Counts by dlx-count beside a search, and the command `count`."""

import itertools
import json
import os
import sys
import time
from unittest import mock

from folders import InFolder
from test_commands import run

from helgrothy import OutOfTime, Problem, ProgramFailed, ProgramNotFound, make
from helgrothy._run import counter, programs


def dominoes(size):
    cells = list(itertools.product(range(size), repeat=2))
    pairs = [((r, c), (r + down, c + 1 - down)) for r, c in cells for down in (0, 1)]
    return Problem(cells, options=[pair for pair in pairs if max(pair[1]) < size])


def copies(times):
    """A problem with 2^times solutions."""
    return Problem(range(times), options=[[k] for k in range(times) for _ in "ab"])


class Counts(InFolder):
    def program(self, name, does):
        """Lets a script stand for a program."""
        path = self.file(name, f"#!/bin/sh\n{does}\n")
        os.chmod(path, 0o755)
        known = programs.find

        def find(program):
            return path if program == name else known(program)

        patch = mock.patch.object(programs, "find", find)
        patch.start()
        self.addCleanup(patch.stop)

    def tearDown(self):
        self.assertEqual(programs._running, set())

    def test_a_number_that_no_search_comes_to(self):
        counted = dominoes(12)._count(None)
        self.assertEqual(counted, counter.Count(53060477521960000, "dlx-count"))
        self.assertEqual(dominoes(12).count(), 53060477521960000)

    def test_all_kinds_and_none(self):
        self.assertEqual(make.queens.problem(8).count(), 92)
        coloured = Problem("ab", "x", [{"a": None, "x": 1}, {"a": None, "x": 2}, {"b": None, "x": 2}])
        self.assertEqual(coloured.count(), 1)
        self.assertEqual(Problem({"a": (1, 2)}, options=["a", "a"]).count(), 3)
        self.assertEqual(Problem("ab", options=["a"]).count(), 0)

    def test_numbers_of_any_size(self):
        self.assertEqual(copies(15000).count(), 2**15000)
        for digits in ("0", "7", "9" * 4000, "1" + "0" * 4000, "12345" * 3000):
            value = 0
            for at in range(0, len(digits), 1000):
                part = digits[at : at + 1000]
                value = value * 10 ** len(part) + int(part)
            self.assertEqual(programs.read_number(digits), value)

    def test_a_count_without_memory_for_states(self):
        messages = []
        counted = make.queens.problem(8)._count(None, megabytes=0, gives_up=messages.append)
        self.assertEqual((counted.total, messages), (92, []))

    def test_a_sweep_that_gives_up_is_reported_at_once(self):
        messages = []
        self.program("dlx-count", f"echo {counter.GAVE_UP} >&2; exec sleep 1000")
        # The search ends once that was reported.
        done = os.path.join(self.folder, "done")
        self.program("dlx1", f"until test -e {done}; do sleep 0.1; done; echo Altogether 92 solutions. >&2")

        def gives_up(message):
            messages.append(message)
            self.file("done", "")

        counted = make.queens.problem(8)._count(100.0, gives_up=gives_up)
        self.assertEqual((counted, messages), (counter.Count(92, "dlx1"), [counter.GAVE_UP]))

    def test_a_number_behind_other_messages(self):
        self.program("dlx-count", "echo Option 3 is ignored. >&2; echo Altogether 92 solutions. >&2")
        self.program("dlx1", "exec sleep 1000")
        self.assertEqual(make.queens.problem(8)._count(100.0), counter.Count(92, "dlx-count"))
        for messages in (f"{counter.GAVE_UP}\nAltogether 92 solutions.", "Altogether 92 solutions.\n"):
            self.assertEqual(programs.last_line(messages), (92, True))

    def test_a_search_that_is_faster_gives_the_number(self):
        self.program("dlx-count", "exec sleep 1000")
        begun = time.monotonic()
        self.assertEqual(make.queens.problem(8)._count(None), counter.Count(92, "dlx1"))
        self.assertLess(time.monotonic() - begun, 100)

    def test_a_count_that_is_faster_gives_the_number(self):
        self.program("dlx1", "echo 1000: && exec sleep 1000")
        self.assertEqual(make.queens.problem(8)._count(100.0), counter.Count(92, "dlx-count"))

    def test_what_dlx_count_says_amiss_counts_for_nothing(self):
        for does in ("exit 4", "kill -9 $$", "echo Altogether 7 solutions. >&2; exit 6", "echo Altogether 7 >&2", ":"):
            with self.subTest(does):
                self.program("dlx-count", does)
                self.assertEqual(make.queens.problem(6).count(), 4)

    def test_without_dlx_count_the_search_counts(self):
        known = programs.find

        def find(program):
            if program == "dlx-count":
                raise ProgramNotFound(program)
            return known(program)

        with mock.patch.object(programs, "find", find):
            self.assertEqual(make.queens.problem(6)._count(None), counter.Count(4, "dlx1"))

    def test_a_search_that_fails_is_reported(self):
        self.program("dlx1", "echo Out of memory. >&2; exit 4")
        self.program("dlx-count", "exec sleep 1000")
        with self.assertRaisesRegex(ProgramFailed, "dlx1 ended with status 4: Out of memory."):
            make.queens.problem(6).count()

    def test_time_runs_out_for_both(self):
        self.program("dlx-count", "exec sleep 1000")
        with self.assertRaises(OutOfTime) as raised:
            dominoes(12).count(seconds=2.0)
        self.assertGreater(raised.exception.found, 0)

    def test_a_limit_is_for_the_search_alone(self):
        self.assertEqual(dominoes(12).count(limit=7), 7)


class Command(InFolder):
    def test_number(self):
        path = self.file("dominoes.dlx", dominoes(12).text)
        self.assertEqual(run("count", path), (0, "53060477521960000\n", ""))
        status, out, error = run("count", path, "--json", "--seconds", "1000")
        self.assertEqual((status, json.loads(out), error), (0, {"solutions": 53060477521960000, "program": "dlx-count"}, ""))

    def test_many_digits(self):
        path = self.file("copies.dlx", copies(15000).text)
        limit = getattr(sys, "get_int_max_str_digits", lambda: None)()
        try:
            status, out, error = run("count", path)
            self.assertEqual((status, out, error), (0, f"{2**15000}\n", ""))
        finally:
            if limit is not None:
                sys.set_int_max_str_digits(limit)

    def test_a_sweep_that_gives_up(self):
        # Ten couples draw lots. The states take more than a megabyte.
        people = range(20)
        lots = [(f"g{i}", f"r{j}") for i in people for j in people if i // 2 != j // 2]
        path = self.file("lots.dlx", Problem([f"{side}{i}" for side in "gr" for i in people], options=lots).text)
        status, out, error = run("count", path, "--megabytes", "1", "--seconds", "5")
        self.assertEqual((status, out), (2, ""))
        self.assertRegex(error, rf"^helgrothy: {counter.GAVE_UP}\nhelgrothy: .*; \d+ solutions? till then\n$")

    def test_none(self):
        self.assertEqual(run("count", given="a b\na\n"), (1, "0\n", ""))

    def test_out_of_time(self):
        path = self.file("dominoes.dlx", dominoes(12).text)
        status, out, error = run("count", path, "--megabytes", "0", "--seconds", "5")
        self.assertEqual((status, out), (2, ""))
        self.assertRegex(error, r"^helgrothy: .*; \d+ solutions? till then\n$")

    def test_kinds(self):
        self.assertEqual(run("queens", "8", "--count"), (0, "92\n", ""))
        self.assertEqual(run("queens", "3", "--count"), (1, "0\n", ""))
        for words, wanted in (
            (["--svg"], "a number is printed as it is or by --json"),
            (["--csv"], "a number is printed as it is or by --json"),
            (["--shuffle", "3"], "all solutions are counted: without --shuffle and --up-to-symmetry"),
            (["--up-to-symmetry"], "all solutions are counted: without --shuffle and --up-to-symmetry"),
        ):
            self.assertEqual(run("queens", "8", "--count", *words), (2, "", f"helgrothy: {wanted}\n"))

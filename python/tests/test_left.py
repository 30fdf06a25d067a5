"""No program runs on after the Python that started it, however that ended."""

import os
import signal
import subprocess
import sys
import time
import unittest
from concurrent.futures import ThreadPoolExecutor

from folders import InFolder

import helgrothy

PACKAGES = os.path.dirname(os.path.dirname(os.path.abspath(helgrothy.__file__)))
PROGRAMS = ("dlx1", "dlx2", "dlx3", "dlxcheck", "dlx-count", "dlx-span", "dlx-join")
ENGINES = ("clasp", "cadical")
# What a program does that never ends, and one that has found the first solution before.
HANGS = "echo $$ >> {pids}; exec /bin/sleep 1000"
BEGINS = "echo $$ >> {pids}; printf '1:\\n A (1 of 1)\\n B (1 of 1)\\n'; exec /bin/sleep 1000"
PROBLEM = "A B\nA\nB\nA B\n"
START = """
import time
from helgrothy import Problem, cost, engines, hint, make, minimal, shuffle, symmetry, why
from helgrothy._run import occurrences
from helgrothy.draw import _chances as chances
from helgrothy.__main__ import main
p = Problem("AB", options=["A", "B", "AB"])
"""
WAITING = "engines._LONG_SECONDS = engines._ALONE_SECONDS = -1.0; "
# Calls that wait for a program, and what the programs do.
CALLS = {
    "count": ("p.count()", HANGS),
    "count in parts": ("p.count(jobs=2)", HANGS),
    "solve": ("next(p.solve())", HANGS),
    "between two solutions": ("found = p.solve(); next(found); time.sleep(1000)", BEGINS),
    "the next solution": ("list(p.solve())", BEGINS),
    "a solution by its number": ("p.solution(2)", HANGS),
    "a random solution": ("p.random()", HANGS),
    "how often": ("p.occurrences()", HANGS),
    "check": ("p.check(b'1:\\n A (1 of 1)\\n')", HANGS),
    "shuffled": ("next(shuffle.solve(p, 1))", HANGS),
    "why": ("why.find(p, 600)", HANGS),
    "hint": ("hint.find(make.queens.problem(8), [], set(), 600)", HANGS),
    "minimal": ("minimal.find(p, [0, 1], seconds=600)", HANGS),
    "the cheapest": ("cost.least(p, [1, 2, 4])", HANGS),
    "engines": (f"{WAITING}next(engines.solve(p))", HANGS),
    "few tests": ("make.tests.few('3^5', seconds=600)", HANGS),
    "a thread": ("import threading; threading.Thread(target=p.count).start(); time.sleep(1000)", HANGS),
    "the command count": ("main(['count', PROBLEM])", HANGS),
    "the command solve": ("main(['solve', PROBLEM])", HANGS),
    "the command search": ("main(['search', PROBLEM])", HANGS),
}


def runs(process: int) -> bool:
    """Whether there is such a process, and it hasn't ended."""
    try:
        with open(f"/proc/{process}/stat") as file:
            return file.read().rpartition(")")[2].split()[0] not in "ZX"
    except OSError:
        return False


def numbers_of(folder: str) -> "list[int]":
    """The processes of programs so far."""
    path = os.path.join(folder, "pids")
    if not os.path.exists(path):
        return []
    with open(path) as file:
        return [int(line) for line in file if line.endswith("\n")]


def begun(folder: str, call: str, does: str, by: signal.Signals) -> "list[int]":
    """The programs that a call has begun, once Python was ended while it waits for them."""
    os.mkdir(folder)
    for name in (*PROGRAMS, *ENGINES):
        path = os.path.join(folder, name)
        with open(path, "w") as file:
            what = HANGS if name in ENGINES else does
            file.write(f"#!/bin/sh\n{what.format(pids=os.path.join(folder, 'pids'))}\n")
        os.chmod(path, 0o755)
    with open(os.path.join(folder, "p.dlx"), "w") as file:
        file.write(PROBLEM)
    where = {**os.environ, "PYTHONPATH": PACKAGES, "HELGROTHY_BIN": folder, "PATH": f"{folder}:/usr/bin:/bin"}
    code = f"{START}PROBLEM = {os.path.join(folder, 'p.dlx')!r}\n{call}\n"
    python = subprocess.Popen([sys.executable, "-c", code], env=where, cwd=folder, stderr=subprocess.DEVNULL)
    try:
        deadline = time.monotonic() + 60
        while not numbers_of(folder) and python.poll() is None and time.monotonic() < deadline:
            time.sleep(0.05)
        # There may be a second program beside the first one.
        time.sleep(0.5)
    finally:
        python.send_signal(by)
        python.wait()
    return numbers_of(folder)


def left(programs: "list[int]", seconds: float) -> "list[int]":
    """Those that run after so many seconds, or sooner if none does; they are ended."""
    deadline = time.monotonic() + seconds
    while any(map(runs, programs)) and time.monotonic() < deadline:
        time.sleep(0.02)
    those = [program for program in programs if runs(program)]
    for program in those:
        os.kill(program, signal.SIGKILL)
    return those


@unittest.skipUnless(os.path.exists("/proc/self/stat"), "needs /proc")
class Left(InFolder):
    def test_each_call(self):
        tries = [(name, by) for name in CALLS for by in (signal.SIGKILL, signal.SIGTERM)]

        def tried(number: int) -> "tuple[list[int], list[int]]":
            name, by = tries[number]
            programs = begun(os.path.join(self.folder, str(number)), *CALLS[name], by)
            return programs, left(programs, 2.0)

        with ThreadPoolExecutor(4) as pool:
            for (name, by), (programs, those) in zip(tries, pool.map(tried, range(len(tries)))):
                with self.subTest(call=name, by=by.name):
                    self.assertTrue(programs, "no program was begun")
                    self.assertEqual(those, [])


if __name__ == "__main__":
    unittest.main()

#!/usr/bin/env python3
"""stream.py [REPEAT [NAME..]]: what it costs to have solutions in Python, by `Problem.solve` of the package helgrothy.

Of each of some problems the first 1,000,000 solutions, or all where there are fewer, are had in four ways, which take
turns, REPEAT times (5):

own      the program prints them into /dev/null
read     Python reads what the program prints, and does nothing with it
loop     `for solution in problem.solve(): pass`
touch    the same loop looks at each option of each solution

Told are ratios to the program's own time, medians: of elapsed time, in which Python and the program have a processor
each, and of the user and system time that Python takes for its part. The latter says what the former comes to where
nothing else runs: the greater of 1 and of it. Bind it to two processors that have nothing else to do:

    taskset -c 2,3 /usr/bin/python3 scripts/bench/stream.py
"""

import io
import os
import resource
import statistics
import subprocess
import sys
import tempfile
import time

import problems

TOP = os.path.dirname(os.path.dirname(os.path.dirname(os.path.abspath(__file__))))
sys.path.insert(0, os.path.join(TOP, "python"))

from helgrothy import Problem  # noqa: E402
from helgrothy._run.programs import Run, find  # noqa: E402

LIMIT = 1_000_000
HEAD = """\
| Problem | Choices in a solution | Solutions | Elapsed: read | loop | touch | Python's part: loop | touch |
|---|---|---|---|---|---|---|---|"""


MADE = {case.name: (case.kind, case.make) for case in problems.PROBLEMS}
CASES = {
    "squares4": MADE["squares4"],
    "queens16": (1, lambda: problems.queens(16)),
    "sudoku_many": MADE["sudoku_many"],
    "dominoes2x30": MADE["dominoes2x30"],
}


class Case:
    """A problem, and the ways in which its solutions are had. Each way tells how many there were."""

    def __init__(self, name):
        self.kind, make = CASES[name]
        text = io.StringIO()
        problems.write(*make(), text)
        self.text = text.getvalue().encode()
        self.problem = Problem.parse(self.text, self.kind)
        self.words = ["m1", f"t{LIMIT}"]

    def own(self):
        with tempfile.TemporaryFile() as given:
            given.write(self.text)
            given.seek(0)
            command = [find(f"dlx{self.kind}"), *self.words]
            subprocess.run(command, stdin=given, stdout=subprocess.DEVNULL, stderr=subprocess.DEVNULL, check=True)

    def read(self):
        with Run(f"dlx{self.kind}", self.words, [self.text]) as run:
            for _ in run.chunks():
                pass
            run.status()

    def loop(self):
        for _ in self.problem.solve(LIMIT):
            pass

    def touch(self):
        for solution in self.problem.solve(LIMIT):
            for _ in solution:
                pass


def timed(way):
    """The elapsed time of a call, and the used times of Python and of the program under it."""

    def used(whose):
        spent = resource.getrusage(whose)
        return spent.ru_utime + spent.ru_stime

    def now():
        return time.monotonic(), used(resource.RUSAGE_SELF), used(resource.RUSAGE_CHILDREN)

    start = now()
    way()
    return [end - begin for begin, end in zip(start, now())]


def main():
    repeat = int(sys.argv[1]) if len(sys.argv) > 1 else 5
    print(f"Python {sys.version.split()[0]}, load {' '.join(f'{load:.2f}' for load in os.getloadavg())}\n\n{HEAD}")
    for name in sys.argv[2:] or CASES:
        case = Case(name)
        choices, total = len(next(case.problem.solve())), case.problem.count(LIMIT)
        ways = (case.own, case.read, case.loop, case.touch)
        rounds = [[timed(way) for way in ways] for _ in range(repeat)]
        elapsed, python, program = (
            [statistics.median(times[way][kind] for times in rounds) for way in range(len(ways))] for kind in range(3)
        )
        ratios = [spent / elapsed[0] for spent in elapsed[1:]] + [spent / program[0] for spent in python[2:]]
        cells = [name, str(choices), f"{total:,}", *(f"{ratio:.2f}" for ratio in ratios)]
        print(f"| {' | '.join(cells)} |", flush=True)


if __name__ == "__main__":
    main()

#!/usr/bin/env python3
"""planned.py: what dlx-count takes to find an order of the items: time for items in any order of the file, and memory
within the bound of `b`.

Each run is limited to so many seconds of a processor. The last line is `N passed, M failed`.
"""

from __future__ import annotations

import os
import random
import resource
import subprocess
import sys
import tempfile

from problems import Problem
from running import LAST_LINE, programs, read_number

SECONDS = 20
# A run's memory counts from that of the Python that begins it, some 12 megabytes.
MEGABYTE = 1_000_000


def ladder(rungs: int) -> Problem:
    """The perfect matchings of a ladder: Fibonacci's numbers."""
    sides = [[f"{side}{k}", f"{side}{k + 1}"] for side in "ab" for k in range(rungs - 1)]
    steps = [[f"a{k}", f"b{k}"] for k in range(rungs)]
    return Problem(1, [f"{side}{k}" for k in range(rungs) for side in "ab"], [], steps + sides)


def fibonacci(place: int) -> int:
    last, this = 0, 1
    for _ in range(place):
        last, this = this, last + this
    return this


def wide(uses: int) -> Problem:
    """Two options for one item, one of them with so many secondary items: as many lists of as many near items."""
    names = [f"s{k}" for k in range(uses)]
    return Problem(2, ["p"], names, [["p", *names], ["p"]])


def cost(made: Problem, word: str) -> tuple[int | None, float]:
    """The number of solutions that dlx-count prints, and the megabytes that it takes."""

    def limit() -> None:
        resource.setrlimit(resource.RLIMIT_CPU, (SECONDS, SECONDS))

    with tempfile.TemporaryFile() as text, tempfile.TemporaryFile() as said:
        text.write(made.text())
        text.seek(0)
        run = subprocess.Popen(
            [programs.find("dlx-count"), str(made.kind), word], stdin=text, stderr=said, preexec_fn=limit
        )
        _, _, used = os.wait4(run.pid, 0)
        run.returncode = 0
        said.seek(0)
        found = LAST_LINE.search(said.read().decode())
    return read_number(found.group(1)) if found else None, used.ru_maxrss * 1024 / MEGABYTE


def main() -> int:
    shuffled = ladder(20_000).shuffled(random.Random(1))
    rows = [
        ("a ladder of 20,000 rungs, shuffled", shuffled, "b512", fibonacci(20_000), 100),
        ("an option of 6,000 uses, without a plan", wide(6000), "b0", 2, 40),
        ("an option of 5,000 uses, with too little memory for a plan", wide(5000), "b50", 2, 40),
        ("the same with enough", wide(5000), "b512", 2, 512),
    ]
    failed = 0
    for name, made, word, wanted, most in rows:
        count, megabytes = cost(made, word)
        if count != wanted or megabytes > most:
            failed += 1
            told = "another number" if count is not None else "no number"
            print(f"{name}: {'' if count == wanted else told + ', '}{megabytes:.0f} megabytes, and not {most}")
    print(f"{len(rows) - failed} passed, {failed} failed")
    return 1 if failed else 0


sys.exit(main())

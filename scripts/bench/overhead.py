#!/usr/bin/env python3
"""overhead.py OURS [--turns N] [NAME..]: what dlx-count takes at most where the search ends first.

OURS is a folder with dlx1, dlx2, dlx3 and dlx_count. For each problem of problems.py, or those named, it prints how
much of 1.35 times the solver's time and 20 milliseconds dlx-count takes, elapsed and as CPU time. The two take turns,
and the least of each counts: 20 turns where other machines share the processor.
"""

from __future__ import annotations

import argparse
import time
from pathlib import Path

import problems
from bench import CommandRun
from instructions import text_of

MOST = 100
FACTOR, BESIDE = 1.35, 0.02


def turn(program: Path, words: list[str], problem: problems.Problem) -> tuple[float, float]:
    """The elapsed and the CPU time of a run."""
    begun = time.perf_counter()
    done = CommandRun([str(program), *words], MOST, text_of(problem.name))
    elapsed = time.perf_counter() - begun
    if done.seconds is None or f"Altogether {problem.count} " not in done.output:
        raise SystemExit(f"{program.name} on {problem.name}: not {problem.count} solutions")
    return elapsed, done.seconds


def parts(ours: Path, problem: problems.Problem, turns: int) -> list[float]:
    """The parts of the bound that dlx-count takes, by elapsed and by CPU time."""
    counts, searches = [], []
    for _ in range(turns):
        searches.append(turn(ours / f"dlx{problem.kind}", [], problem))
        counts.append(turn(ours / "dlx_count", [str(problem.kind)], problem))
    return [min(count) / (FACTOR * min(search) + BESIDE) for count, search in zip(zip(*counts), zip(*searches))]


def main() -> None:
    parser = argparse.ArgumentParser(description=__doc__, formatter_class=argparse.RawDescriptionHelpFormatter)
    parser.add_argument("ours", type=Path)
    parser.add_argument("names", nargs="*", metavar="NAME")
    parser.add_argument("--turns", type=int, default=3, metavar="N")
    given = parser.parse_args()
    for problem in problems.PROBLEMS:
        if not given.names or problem.name in given.names:
            elapsed, cpu = parts(given.ours, problem, given.turns)
            print(f"{problem.name} {elapsed:.2f} elapsed, {cpu:.2f} CPU", flush=True)


if __name__ == "__main__":
    main()

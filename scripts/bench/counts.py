#!/usr/bin/env python3
"""counts.py OURS [--page PAGE]: CPU times of dlx-count, as ratios to those of the solvers that count each solution.

OURS is a folder with dlx1, dlx2, dlx3 and dlx_count. The problems are those of problems.py that have many solutions,
and those of larger.py. All take turns, and the least of three times counts. Each number has to be right. A solver may
take 100 seconds: where it takes longer, the ratio is at most the one told. Where it would take years, the time is
compared with that of the smallest such problem. With --page the table takes the place of that with the same head in a
page.
"""

from __future__ import annotations

import argparse
import re
from pathlib import Path

import problems
from bench import CommandRun
from instructions import text_of
from larger import ENDLESS, LARGER
from page import put

# Those with fewer solutions are for reading.
FEWEST = 1000
TURNS, MOST = 3, 100
HEAD = ["| Counts | Solutions | dlx-count to the solver |", "|---|---|---|"]


def turn(program: Path, words: list[str], problem: problems.Problem) -> float:
    """The time of a run, which has to give the number of solutions; MOST where it takes as long."""
    done = CommandRun([str(program), *words], MOST, text_of(problem.name))
    if done.seconds is None:
        return MOST
    found = re.search(r"^Altogether (\d+) ", done.output, re.M)
    if not found or int(found.group(1)) != problem.count:
        raise SystemExit(f"{program.name} on {problem.name}: not {problem.count} solutions")
    return done.seconds


def counted(ours: Path, problem: problems.Problem) -> float:
    # The system tells times in thousandths of a second.
    return max(turn(ours / "dlx_count", [str(problem.kind)], problem), 0.001)


def row(ours: Path, problem: problems.Problem) -> str:
    count = search = float(MOST)
    for _ in range(TURNS):
        count = min(count, counted(ours, problem))
        search = min(search, turn(ours / f"dlx{problem.kind}", [], problem))
        if search == MOST:
            return line(problem, f"at most {count / MOST:.1g}")
    return line(problem, f"{count / search:.2g}")


def line(problem: problems.Problem, ratio: str) -> str:
    return f"| {problem.name} | {problem.count} | {ratio} |"


def table(ours: Path) -> list[str]:
    """The lines of the table."""
    rows = [row(ours, it) for it in [*problems.PROBLEMS, *LARGER] if it.count >= FEWEST]
    first, *others = (min(counted(ours, it) for _ in range(TURNS)) for it in ENDLESS)
    rows += [line(it, f"{time / first:.0f} of {ENDLESS[0].name}") for it, time in zip(ENDLESS[1:], others)]
    return HEAD + rows


def main() -> None:
    parser = argparse.ArgumentParser(description=__doc__, formatter_class=argparse.RawDescriptionHelpFormatter)
    parser.add_argument("ours", type=Path)
    parser.add_argument("--page")
    given = parser.parse_args()
    lines = table(given.ours)
    print("\n".join(lines))
    if given.page:
        put(given.page, lines)


if __name__ == "__main__":
    main()

#!/usr/bin/env python3
"""times.py [--repeat K] [--core C] [--only NAME,..] FOLDER..: user time of programs, beside their instructions.

Each folder has dlx1, dlx2 and dlx3, or those of them that it is asked for. They take turns, all on one core, K rounds
(7) of the runs below. For each problem the first column has the seconds of the first folder, the least of its rounds,
and each other one the ratios to it of the least and of the median. All have to end with the same last line. Times are
worth something only where the machine has nothing else to do; instructions.py counts what doesn't depend on that.
"""

from __future__ import annotations

import argparse
import os
import statistics
import subprocess
from pathlib import Path

from instructions import Run, mean, runs, text_of

# So many first solutions that a run takes a tenth of a second or more; `t0` stands for all.
RUNS = runs(
    "dominoes2x30 t0, matchings14 t0, latin5 t0, langford11 t0, planes3 t150000, sudoku_many t120000, queens12 t0,"
    " pentominoes6x10 t150, prism20 t100000, squares4 t0, factorizations8 t1500, bounded_queens11 t0,"
    " two_factors6x8 t600000, tetrominoes5x8 t0, dominating_queens t150, coverings8 t200"
)


def timed(folder: Path, run: Run) -> tuple[float, str]:
    """The user time of one run, and its last line."""
    words = [] if run.words == "t0" else run.words.split()
    with open(text_of(run.problem)) as given:
        command = [str(folder / run.program), *words]
        process = subprocess.Popen(command, stdin=given, stdout=subprocess.DEVNULL, stderr=subprocess.PIPE, text=True)
    assert process.stderr
    with process.stderr as told:
        ending = told.read().splitlines()[-1]
    _, process.returncode, used = os.wait4(process.pid, 0)
    return used.ru_utime, ending


def measured(folders: list[Path], run: Run, repeat: int) -> list[list[float]]:
    """The times of each folder, whose order turns round by round."""
    times: dict[Path, list[float]] = {it: [] for it in folders}
    endings = set()
    for turn in range(repeat):
        for folder in folders[:: 1 if turn % 2 else -1]:
            time, ending = timed(folder, run)
            times[folder].append(time)
            endings.add(ending)
    if len(endings) != 1:
        raise SystemExit(f"{run.problem} ends with {endings}")
    return list(times.values())


def main() -> None:
    parser = argparse.ArgumentParser(description=__doc__, formatter_class=argparse.RawDescriptionHelpFormatter)
    parser.add_argument("--repeat", type=int, default=7)
    parser.add_argument("--core", type=int, default=max(os.sched_getaffinity(0)))
    parser.add_argument("--only", default="")
    parser.add_argument("folder", nargs="+", type=Path)
    given = parser.parse_args()
    folders = [it.resolve() for it in given.folder]
    only: set[str] = set(filter(None, given.only.split(",")))
    for run in RUNS:
        text_of(run.problem)
    os.sched_setaffinity(0, {given.core})
    print("| Seconds | " + " | ".join(it.name for it in folders) + " |")
    print("|" + "---|" * (1 + len(folders)))
    ratios: list[list[float]] = []
    for run in RUNS:
        if only and run.problem not in only:
            continue
        first, *others = measured(folders, run, given.repeat)
        ratios.append([min(it) / min(first) for it in others])
        medians = [statistics.median(it) / statistics.median(first) for it in others]
        cells = [f"{least:.2f}, {median:.2f}" for least, median in zip(ratios[-1], medians)]
        print("| " + " | ".join([run.problem, f"{min(first):.3f}", *cells]) + " |", flush=True)
    print("| " + " | ".join(["**geometric mean**", "", *(f"{mean(list(it)):.3f}" for it in zip(*ratios))]) + " |")


if __name__ == "__main__":
    main()

#!/usr/bin/env python3
"""search.py [--rounds K] [--only NAME/..] [--dask] [--four] [--page PAGE]: what `helgrothy search` takes.

For each problem the program, and the command by one, two and four workers, take turns K times (5). Printed is a row:
the elapsed seconds of the program, the median; of each number of workers the elapsed seconds and, in brackets, their
share of the program's, both medians; and last the processor seconds of four workers, the command's included, as a
share of the program's. With --dask a column more has four workers of Dask on this machine, which are begun before.
With --four a last column has the processor seconds of one of four programs that run at once, as a share of those of one
alone: what the machine itself makes of work on four processors. Python is the one that runs this, and has its modules
compiled, as an installed command has.
The numbers of solutions have to agree. With --page the rows take the place of those of the table with the same head in
a page. Times are worth something only where the machine has nothing else to do.
"""

from __future__ import annotations

import argparse
import os
import statistics
import subprocess
import sys
import tempfile
import time
from collections.abc import Iterator
from pathlib import Path
from typing import NamedTuple, TextIO

from page import put
from problems import Dice, Made, write

TOP = Path(__file__).resolve().parent.parent.parent
BIN = TOP / "bin"
PROBLEMS = {
    "12 queens": ["queens", "12"],
    "14 queens": ["queens", "14"],
    "pentominoes 6x10": ["polyominoes", "pentominoes", "6x10"],
    "16 queens": ["queens", "16"],
}
WIDE = "2 items of 9,000 options"
WORKERS = (1, 2, 4)
ENVIRONMENT = {
    **{name: value for name, value in os.environ.items() if name != "PYTHONDONTWRITEBYTECODE"},
    # No script that chooses a Python is run.
    "PATH": f"{os.path.dirname(sys.executable)}{os.pathsep}{os.environ.get('PATH', os.defpath)}",
}


class Took(NamedTuple):
    """Elapsed and processor seconds of a run, and its last line."""

    elapsed: float
    used: float
    told: str


def wide(options: int) -> Made:
    """Two items with so many options each, and one more, each option with 20 of 300 secondary items: a first level of
    many branches, with few levels below."""
    dice, secondary = Dice(5), [f"s{k}" for k in range(300)]
    made = [[item, *dice.sample(secondary, 20)] for item in ("A", "B") for _ in range(options + (item == "B"))]
    return ["A", "B"], secondary, made


def make(name: str, file: TextIO) -> None:
    if name == WIDE:
        write(*wide(9000), file)
    else:
        subprocess.run([str(BIN / "helgrothy"), "make", *PROBLEMS[name]], stdout=file, check=True, env=ENVIRONMENT)


def start(command: list[str], given: Path) -> subprocess.Popen[str]:
    with open(given) as file:
        return subprocess.Popen(
            command, stdin=file, stdout=subprocess.DEVNULL, stderr=subprocess.PIPE, text=True, env=ENVIRONMENT
        )


def timed(command: list[str], given: Path) -> Took:
    """A run that has to succeed."""
    begun = time.monotonic()
    return ended(start(command, given), command, begun)


def ended(process: subprocess.Popen[str], command: list[str], begun: float) -> Took:
    assert process.stderr
    with process.stderr as told:
        last = told.read().splitlines()[-1]
    _, status, used = os.wait4(process.pid, 0)
    process.returncode = status
    if status != 0:
        raise SystemExit(f"{' '.join(command)}: {last}")
    return Took(time.monotonic() - begun, used.ru_utime + used.ru_stime, last)


def searching(problem: Path, *words: str) -> list[str]:
    return [str(BIN / "helgrothy"), "search", str(problem), *words]


def crowded(problem: Path) -> float:
    """The processor seconds of a program while three others do the same, the mean."""
    command = [str(BIN / "dlx1")]
    begun = time.monotonic()
    processes = [start(command, problem) for _ in range(4)]
    return statistics.mean(ended(process, command, begun).used for process in processes)


def measure(name: str, problem: Path, rounds: int, address: str | None, by_four: bool) -> str:
    commands = [[str(BIN / "dlx1")], *(searching(problem, "--jobs", str(jobs)) for jobs in WORKERS)]
    if address is not None:
        commands.append(searching(problem, "--dask", address))
    runs = [[timed(command, problem) for command in commands] for _ in range(rounds)]
    if len({run.told for turn in runs for run in turn}) != 1:
        raise SystemExit(f"{name}: the numbers of solutions differ: {runs}")
    alone, *others = [statistics.median(turn[k].elapsed for turn in runs) for k in range(len(commands))]
    used, searched = [statistics.median(turn[k].used for turn in runs) for k in (0, len(WORKERS))]
    cells = [f"{elapsed:.2f} ({elapsed / alone:.2f})" for elapsed in others]
    cells.insert(len(WORKERS), f"{searched / used:.2f}")
    if by_four:
        cells.append(f"{statistics.median(crowded(problem) for _ in range(rounds)) / used:.2f}")
    return f"| {name}, {runs[0][0].told.split()[1]} solutions | {alone:.2f} | {' | '.join(cells)} |"


def cluster(count: int) -> Iterator[str]:
    """The address of a scheduler of Dask with so many workers on this machine, while it is asked for."""
    environment = {**ENVIRONMENT, "PYTHONPATH": str(TOP / "python"), "HELGROTHY_BIN": str(BIN)}
    with tempfile.TemporaryDirectory() as folder:
        where = os.path.join(folder, "scheduler.json")
        begun = []
        for words in (
            ["dask-scheduler", "--host", "127.0.0.1", "--port", "0", "--no-dashboard"],
            ["dask-worker", "--nthreads", "1", "--nworkers", str(count), "--no-dashboard"],
        ):
            command = [*words, "--scheduler-file", where]
            log = subprocess.DEVNULL
            begun.append(subprocess.Popen(command, env=environment, cwd=folder, stdout=log, stderr=log))
            while not os.path.exists(where):
                time.sleep(0.1)
        # The workers come soon.
        time.sleep(10)
        try:
            yield where
        finally:
            for process in reversed(begun):
                process.terminate()
                process.wait()


def main() -> None:
    parser = argparse.ArgumentParser(description=__doc__, formatter_class=argparse.RawDescriptionHelpFormatter)
    parser.add_argument("--rounds", type=int, default=5)
    parser.add_argument("--only", default="/".join([*PROBLEMS, WIDE]))
    parser.add_argument("--dask", action="store_true")
    parser.add_argument("--four", action="store_true")
    parser.add_argument("--page")
    given = parser.parse_args()
    heads = ["Search", "`dlx1`", *(f"{n} worker{'s' if n > 1 else ''}" for n in WORKERS), "Processor time of four"]
    if given.dask:
        heads.append("4 of Dask")
    if given.four:
        heads.append("Processor time of one of four `dlx1`")
    lines = [f"| {' | '.join(heads)} |", "|---" * len(heads) + "|"]
    print("\n".join(lines), flush=True)
    with tempfile.TemporaryDirectory() as folder:
        addresses = cluster(4) if given.dask else iter([None])
        address = next(addresses)
        for name in given.only.split("/"):
            problem = Path(folder) / f"{name.replace(' ', '-')}.dlx"
            with open(problem, "w") as file:
                make(name, file)
            lines.append(measure(name, problem, given.rounds, address, given.four))
            print(lines[-1], flush=True)
        next(addresses, None)
    if given.page:
        put(given.page, lines)


if __name__ == "__main__":
    sys.exit(main())

#!/usr/bin/env python3
"""instructions.py [--set NAME] [--page PAGE] FOLDER..: instructions of programs, counted by cachegrind.

Each folder has dlx1, dlx2 and dlx3, or those of them that the set asks for. For each problem the first column has the
millions of instructions of the first folder, and the others have ratios to it. Counts repeat to a thousandth or better,
whatever else the machine does. What was counted once of a program, a text and words is kept in scripts/bench/out. With
--page the table takes the place of that with the same head in a page.
"""

from __future__ import annotations

import argparse
import hashlib
import math
import os
import re
import subprocess
import sys
import tempfile
from pathlib import Path
from typing import NamedTuple

import problems
from larger import ENDLESS, LARGER
from page import put

OUT = Path(__file__).resolve().parent / "out"


class Run(NamedTuple):
    """A problem and the words that a program gets; with `less`, what a run with these words takes less is counted."""

    problem: str
    words: str
    less: str | None = None

    @property
    def program(self) -> str:
        return f"dlx{next(it.kind for it in problems.PROBLEMS if it.name == self.problem)}"


def runs(text: str) -> list[Run]:
    return [Run(*it.split()) for it in text.split(", ")]


# So many first solutions that a run takes some seconds under cachegrind.
SETS = {
    "all": runs(
        "dominoes2x30 t60000, matchings14 t135135, latin5 t12000, langford11 t6000, planes3 t9000, sudoku_many t15000,"
        " queens12 t3000, pentominoes6x10 t12, prism20 t12000, squares4 t60, factorizations8 t4,"
        " bounded_queens11 t1000, two_factors6x8 t20000, tetrominoes5x8 t400, dominating_queens t100, coverings8 t100"
    ),
    "plain": runs(
        "dominoes2x30 t40000, matchings14 t60000, latin5 t6000, langford11 t4000, sudoku_many t4000, pentominoes6x10 t4"
    ),
    "colours": runs("prism20 t3000, squares4 t60, factorizations8 t4"),
    "coverings": runs("dominating_queens t30, coverings8 t30, bounded_queens11 t500"),
    "bounds": runs("bounded_queens11 t500, two_factors6x8 t10000, tetrominoes5x8 t200"),
    "uses": runs("many_uses t1"),
    "coloured": runs("many_colours t1"),
    "reading": runs("many_uses t1, many_colours t1"),
}
# Whole runs that print each solution.
SETS["listings"] = [Run("matchings14", "m1 t20000"), Run("latin5", "m1 t5000"), Run("queens12", "m1 t500")]
# What a form of printing gains: a run that prints each solution, less one that counts as many. The latter may be by
# words, so this has some of the search in it.
SETS["printing"] = [Run("matchings14", "m1 t20000", "t20000"), Run("latin5", "m1 t5000", "t5000")]


def text_of(name: str) -> Path:
    """The file of a problem, which is written where it isn't there yet."""
    file = OUT / "problems" / f"{name}.dlx"
    if not file.exists():
        file.parent.mkdir(parents=True, exist_ok=True)
        near = file.with_suffix(f".{os.getpid()}")
        with open(near, "w") as made:
            made_so = next(it for it in [*problems.PROBLEMS, *LARGER, *ENDLESS] if it.name == name)
            primary, secondary, options = made_so.make()
            problems.write(primary, secondary, options, made)
        os.replace(near, file)
    return file


def digest(file: Path) -> str:
    return hashlib.sha256(file.read_bytes()).hexdigest()[:16]


def counted(program: Path, text: Path, words: str) -> tuple[int, str]:
    """How many instructions a program takes for a problem, and its last line."""
    key = f"{program.name}-{digest(program)}-{text.stem}-{digest(text)}-{words.replace(' ', '-')}"
    kept = OUT / "counts" / key
    if not kept.exists():
        kept.parent.mkdir(parents=True, exist_ok=True)
        near = kept.with_name(f"{key}.{os.getpid()}")
        near.write_text("\n".join(map(str, count(program, text, words))))
        os.replace(near, kept)
    found, _, ending = kept.read_text().partition("\n")
    return int(found), ending


def count(program: Path, text: Path, words: str) -> tuple[int, str]:
    """The same, by a run under cachegrind."""
    with tempfile.NamedTemporaryFile("r") as log, open(text) as given:
        command = ["valgrind", "--tool=cachegrind", "--cache-sim=no", "--cachegrind-out-file=/dev/null"]
        command += [f"--log-file={log.name}", str(program), *words.split()]
        ran = subprocess.run(command, stdin=given, stdout=subprocess.DEVNULL, stderr=subprocess.PIPE, text=True)
        found = re.search(r"I\s+refs:\s+([\d,]+)", log.read())
    if ran.returncode or not found or "Altogether" not in ran.stderr:
        raise SystemExit(f"{' '.join(command)} <{text}: {ran.stderr}")
    return int(found[1].replace(",", "")), ran.stderr.splitlines()[-1]


def ending(folder: Path, run: Run) -> str:
    """The last line of a folder's program."""
    return counted(folder / run.program, text_of(run.problem), run.words)[1]


def taken(folder: Path, run: Run) -> int:
    """How many instructions a folder's program takes for a run."""
    program, text = folder / run.program, text_of(run.problem)
    found = counted(program, text, run.words)[0]
    return found - counted(program, text, run.less)[0] if run.less else found


def mean(ratios: list[float]) -> float:
    return math.exp(sum(map(math.log, ratios)) / len(ratios))


def table(folders: list[Path], name: str) -> list[str]:
    """A row for each run of a set, and one of geometric means."""
    names = [it.name for it in folders]
    title = "Instructions" if name == "all" else f"Instructions of {name}"
    lines = [f"| {title} | Arguments | {names[0]}, millions | " + " | ".join(names[1:]) + " |"]
    lines.append("|" + "---|" * (2 + len(folders)))
    all_ratios: list[list[float]] = []
    for run in SETS[name]:
        first, *others = (taken(it, run) for it in folders)
        all_ratios.append([it / first for it in others])
        cells = [run.problem, f"`{run.words}`", f"{first / 1e6:.1f}", *(f"{it:.3f}" for it in all_ratios[-1])]
        lines.append("| " + " | ".join(cells) + " |")
        print(lines[-1], file=sys.stderr, flush=True)
    means = [f"{mean(list(it)):.3f}" for it in zip(*all_ratios)]
    return [*lines, "| " + " | ".join(["**geometric mean**", "", "", *means]) + " |"]


def main() -> None:
    parser = argparse.ArgumentParser(description=__doc__, formatter_class=argparse.RawDescriptionHelpFormatter)
    parser.add_argument("--set", default="all", choices=sorted(SETS))
    parser.add_argument("--page")
    parser.add_argument("folder", nargs="+", type=Path)
    given = parser.parse_args()
    lines = table([it.resolve() for it in given.folder], given.set)
    print("\n".join(lines))
    if given.page:
        put(given.page, lines)


if __name__ == "__main__":
    main()

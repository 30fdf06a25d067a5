#!/usr/bin/env python3
"""tables.py [--unproved] [--no-times] [--page PAGE] [WORD..]: the tables of docs/BENCH.md, instructions first.

The marks in C are built, and ours are the programs that `make all` built or, where one of them isn't there and with
--unproved, builds without proofs, which take half a minute each; the first line says which. Then come the tables of
instructions, which are steady, that of counts.py, and those of times from bench.py, which gets the other words, as
--core 3. All that is made is in scripts/bench/out. With --page the tables take the places of those with the same heads
in a page.
"""

from __future__ import annotations

import argparse
import shutil
import subprocess
import sys
from pathlib import Path

import counts
import problems
from instructions import OUT, table, text_of
from page import put
from unproved import built

HERE = Path(__file__).resolve().parent
TOP = HERE.parent.parent
PROGRAMS = ["dlx1", "dlx2", "dlx3", "dlx_count"]


def ours(is_unproved: bool) -> Path:
    """A folder with our programs."""
    folder = OUT / "ours"
    folder.mkdir(parents=True, exist_ok=True)
    made = [TOP / "crates" / name / "out" / name for name in PROGRAMS]
    if is_unproved or not all(it.exists() for it in made):
        print("Ours are builds without proofs.\n", flush=True)
        made = [built(TOP, name, OUT / "unproved") for name in PROGRAMS]
    else:
        print("Ours are the programs in crates/*/out.\n", flush=True)
    for program in made:
        shutil.copy(program, folder)
    return folder


def main() -> None:
    parser = argparse.ArgumentParser(description=__doc__, formatter_class=argparse.RawDescriptionHelpFormatter)
    parser.add_argument("--unproved", action="store_true")
    parser.add_argument("--no-times", action="store_true")
    parser.add_argument("--page")
    given, words = parser.parse_known_args()
    subprocess.run([str(HERE / "c" / "build"), str(OUT)], check=True)
    folders = [OUT / "fast", ours(given.unproved)]
    for name in ("all", "reading", "listings"):
        lines = table(folders, name)
        print("\n".join(lines), end="\n\n", flush=True)
        if given.page:
            put(given.page, lines)
    if given.no_times:
        return
    lines = counts.table(folders[1])
    print("\n".join(lines), end="\n\n", flush=True)
    if given.page:
        put(given.page, lines)
    for problem in problems.PROBLEMS:
        text_of(problem.name)
    command = [sys.executable, str(HERE / "bench.py"), str(OUT / "problems"), "--ours", str(folders[1]), "--c-alone"]
    command += ["--c", f"fast={OUT / 'fast'}"]
    command += ["--page", given.page] if given.page else []
    sys.exit(subprocess.run([*command, *words]).returncode)


if __name__ == "__main__":
    main()

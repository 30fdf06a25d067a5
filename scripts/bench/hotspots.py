#!/usr/bin/env python3
"""hotspots.py [--asm] [--least SHARE] PROGRAM PROBLEM [WORD..]: where the instructions of a run go, by callgrind.

PROBLEM is one of problems.py, and the words are the program's. Printed are the functions with a hundredth or more of
all instructions, and with --asm each instruction of the program that was met for at least such a share of them
(0.0002), with how often it was. Needs valgrind, and objdump for --asm.
"""

from __future__ import annotations

import argparse
import re
import subprocess
import tempfile
from collections import Counter
from pathlib import Path

from instructions import text_of


def profiled(program: Path, problem: str, words: list[str]) -> tuple[Counter[int], Counter[str]]:
    """How often each place of the program was met, and how many instructions each function took."""
    places: Counter[int] = Counter()
    functions: Counter[str] = Counter()
    with tempfile.NamedTemporaryFile("r") as made, open(text_of(problem)) as given:
        command = ["valgrind", "--tool=callgrind", "--dump-instr=yes", "--dump-line=no", "--compress-pos=no"]
        command += ["--compress-strings=no", f"--callgrind-out-file={made.name}", str(program), *words]
        subprocess.run(command, stdin=given, stdout=subprocess.DEVNULL, stderr=subprocess.DEVNULL, check=True)
        file = function = before = ""
        for line in made:
            if line.startswith("ob="):
                file = line[3:].rstrip("\n")
            elif line.startswith("fn="):
                function = line[3:].rstrip("\n")
            # Behind `calls=` comes what the callee took, which is counted there.
            elif line.startswith("0x") and not before.startswith("calls="):
                place, *_, count = line.split()
                functions[function] += int(count)
                if file == str(program):
                    places[int(place, 16)] += int(count)
            before = line
    return places, functions


def instructions_of(program: Path) -> list[tuple[int, str]]:
    words = ["objdump", "-d", "--no-show-raw-insn", "-M", "intel", str(program)]
    told = subprocess.run(words, capture_output=True, text=True, check=True).stdout
    return [(int(place, 16), text) for place, text in re.findall(r"^ +([0-9a-f]+):\s+(.*)$", told, re.MULTILINE)]


def main() -> None:
    parser = argparse.ArgumentParser(description=__doc__, formatter_class=argparse.RawDescriptionHelpFormatter)
    parser.add_argument("--asm", action="store_true")
    parser.add_argument("--least", type=float, default=0.0002)
    parser.add_argument("program", type=Path)
    parser.add_argument("problem")
    parser.add_argument("word", nargs="*")
    given = parser.parse_args()
    program = given.program.resolve()
    places, functions = profiled(program, given.problem, given.word)
    total = sum(functions.values())
    print(f"{total:14,}")
    for function, count in functions.most_common():
        if count * 100 >= total:
            print(f"{count:14,} {100 * count / total:5.1f} % {function[:100]}")
    if not given.asm:
        return
    is_gap = True
    for place, text in instructions_of(program):
        count = places[place]
        if count >= given.least * total:
            print(f"{count:14,} {place:6x}: {text}")
        elif not is_gap:
            print(f"{'...':>14}")
        is_gap = count < given.least * total


if __name__ == "__main__":
    main()

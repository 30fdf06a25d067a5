#!/usr/bin/env python3
"""numbered.py CASES SEED: solutions by their numbers (`dlx-count K nN`), and in how many solutions each option is
(`dlx-count K o`), against the listings of dlx1, dlx2 and dlx3.

Random problems of all kinds, up to 20 numbers of each, and one more than there are solutions. Then tilings of 8 by 8
with dominoes, by a listing of every 500,000th, and by the numbers of solutions that dlx-span counts between the rows of
100 random ones; and 11 queens, where the search is the first. The last line is `N passed, M failed`.
"""
from __future__ import annotations

import random
import re
import subprocess
import sys
import tempfile
from collections import Counter

from problems import Problem, dominoes, drawn, queens
from running import HANG, programs


class Failed:
    """How many runs passed, and how many did not; tells each that did not."""

    def __init__(self) -> None:
        self.passed = self.failed = 0

    def expect(self, what: str, found: tuple[int, bytes], wanted: tuple[int, bytes]) -> bool:
        if found == wanted:
            self.passed += 1
            return True
        self.failed += 1
        print(f"{what}: {found}, and not {wanted}", flush=True)
        return False


def output(program: str, arguments: list[str], text: bytes) -> tuple[int, bytes]:
    """The status and the standard output of a run."""
    done = subprocess.run([programs.find(program), *arguments], input=text, capture_output=True, timeout=HANG)
    return done.returncode, done.stdout


def listed(kind: int, text: bytes, spacing: int = 1) -> list[bytes]:
    """The texts of the solutions of a listing."""
    solutions: list[bytes] = []
    for line in output(f"dlx{kind}", [f"m{spacing}"], text)[1].splitlines(keepends=True):
        if line.startswith(b" "):
            solutions[-1] += line
        else:
            solutions.append(line)
    return solutions


def turned(tokens: list[str]) -> tuple[str, ...]:
    """The tokens of an option as a ring, from the least one on."""
    least = tokens.index(min(tokens))
    return (*tokens[least:], *tokens[:least])


def lines_of_options(made: Problem, solutions: list[bytes]) -> bytes:
    """The lines of `o` by a listing, where no two options are alike."""
    lines = [line for solution in solutions for line in solution.decode().splitlines() if line.startswith(" ")]
    times = Counter(turned(line.rpartition(" (")[0].split()) for line in lines)
    primary = {item.rpartition("|")[2] for item in made.primary}
    kept = [turned(option) for option in made.options if primary.intersection(option)]
    return "".join(f"{number} {times[option]}\n" for number, option in enumerate(kept, 1)).encode()


def are_alike(made: Problem) -> bool:
    """Whether two options are."""
    return len({turned(option) for option in made.options}) < len(made.options)


def random_problems(cases: int, rng: random.Random, tally: Failed) -> None:
    for case in range(cases):
        made = drawn(rng)
        text = made.text()
        solutions = listed(made.kind, text)
        last = len(solutions)
        right = tally.expect(
            f"problem {case}, n{last + 1}", output("dlx-count", [str(made.kind), f"n{last + 1}"], text), (5, b"")
        )
        if not are_alike(made):
            found = output("dlx-count", [str(made.kind), "o"], text)
            right &= tally.expect(f"problem {case}, o", found, (0, lines_of_options(made, solutions)))
        for number in sorted(rng.sample(range(1, last + 1), min(last, 20))):
            found = output("dlx-count", [str(made.kind), f"n{number}"], text)
            right &= tally.expect(f"problem {case}, n{number}", found, (0, solutions[number - 1]))
        if not right:
            with tempfile.NamedTemporaryFile(prefix=f"dlx{made.kind}-", suffix=".dlx", delete=False) as file:
                file.write(text)
            print(f"problem {case} is in {file.name}", flush=True)


def tilings(rng: random.Random, tally: Failed) -> None:
    """Some of the 12,988,816 tilings of 8 by 8, by a listing of every 500,000th."""
    text = dominoes(8, 8).text()
    solutions = listed(1, text, 500_000)
    for place in rng.sample(range(len(solutions)), 5):
        number = (place + 1) * 500_000
        found = output("dlx-count", ["1", f"n{number}"], text)
        tally.expect(f"tiling {number}", found, (0, solutions[place]))


def by_turns(rng: random.Random, tally: Failed) -> None:
    """Some of the 2,680 ways for 11 queens, and more than there are: beside the counts, with few states, and alone."""
    text = queens(11).text()
    solutions = listed(1, text)
    wanted = {number: (0, solutions[number - 1]) for number in (1, *rng.sample(range(1, 2681), 4), 2680)}
    wanted |= {number: (5, b"") for number in (2681, 10**18 - 1, 10**18)}
    for number, answer in wanted.items():
        for bound in ([], ["b1"], ["b0"]):
            words = [*bound, f"n{number}"]
            tally.expect(f"11 queens, {' '.join(words)}", output("dlx-count", ["1", *words], text), answer)
    each = {output("dlx-count", ["1", *bound, "o"], text) for bound in ([], ["b1"], ["b0"])}
    tally.expect("11 queens, o", (0, b"%d" % len(each)), (0, b"1"))


def spans(rng: random.Random, tally: Failed) -> None:
    """From the row of one of these tilings to that of the next, dlx-span counts as many as their numbers differ by."""
    text = dominoes(8, 8).text()
    before, last = 1, "-"
    for number in sorted(rng.sample(range(2, 12_988_817), 100)):
        found = output("dlx-count", ["1", f"n{number}"], text)[1].decode()
        row = ".".join(re.findall(r"\((\d+) of", found))
        status, record = output("dlx-span", ["1", "m0", "0", last, row], text)
        counted = re.findall(rb"solutions \d+", record)
        tally.expect(f"tilings from {before} to {number}", (status, b"".join(counted)), (0, b"solutions %d" % (number - before)))
        before, last = number, row


def main() -> int:
    cases, seed = map(int, sys.argv[1:])
    tally, rng = Failed(), random.Random(seed)
    random_problems(cases, rng, tally)
    tilings(rng, tally)
    by_turns(rng, tally)
    spans(rng, tally)
    print(f"{tally.passed} passed, {tally.failed} failed")
    return 1 if tally.failed else 0


sys.exit(main())

#!/usr/bin/env python3
"""bounds.py: that dlx-count keeps to its bound of memory, and has fair turns.

- The states of numbers of 6,000 digits take no more than 1.3 times the bound and 12 megabytes, where the bound is less
  than what they need.
- Where a sweep has nothing to gain, the count takes hardly longer than the solver: with options of 1,000 uses that a
  sweep reads for each state, and with one item whose 99,999 options have a secondary item each.
- Colours that gave 16,384 states one hash, when it had no seed, take no longer than other colours.
- Where the states take more than the bound, that is reported, whatever was asked, and where it can't be written the
  search doesn't go on. With `b0` there are no states, and nothing is reported.

The last line is `N passed, M failed`.
"""
from __future__ import annotations

import os
import random
import resource
import select
import subprocess
import sys
import tempfile
import time
from collections.abc import Iterator
from pathlib import Path

from problems import Problem
from running import HANG, programs

# For each of 14 groups of four items, two rows of colours whose sums of hashed marks were equal.
COLLIDING = [
    ((6, 135, 326, 280), (309, 94, 414, 224)),
    ((4, 158, 269, 441), (5, 143, 463, 379)),
    ((3, 143, 241, 419), (491, 103, 14, 464)),
    ((1, 19, 289, 58), (171, 322, 67, 63)),
    ((3, 468, 259, 160), (39, 11, 296, 390)),
    ((1, 118, 292, 442), (75, 56, 348, 338)),
    ((5, 199, 104, 135), (159, 86, 152, 102)),
    ((4, 189, 59, 282), (28, 181, 99, 322)),
    ((2, 194, 466, 223), (431, 239, 411, 252)),
    ((2, 123, 268, 201), (146, 395, 68, 385)),
    ((2, 355, 133, 363), (377, 226, 95, 469)),
    ((3, 369, 191, 219), (147, 140, 31, 224)),
    ((1, 360, 490, 199), (189, 140, 435, 4)),
    ((3, 393, 350, 36), (394, 74, 102, 270)),
]
COLOURS = 500
# A problem with an option of so many uses is swept in the order of the file.
MANY = 6000

GAVE_UP = "The states take too much memory: the search goes on alone.\n"
BOUND = 10
MEGABYTE = 1_000_000


def long_numbers(choices: int, kept: int) -> Problem:
    """So many choices of two that leave one state, and then some that are all told apart until the last item."""
    alone = [f"w{k}" for k in range(choices)]
    items, secondary = [f"p{k}" for k in range(kept)], [f"s{k}" for k in range(kept)]
    options = [[name] for name in alone for _ in range(2)]
    options += [option for p, s in zip(items, secondary) for option in ([p], [p, s])]
    return Problem(1, [*alone, *items, "z"], secondary, [*options, ["z"], ["z", *secondary]])


def long_options(choices: int, options: int, uses: int) -> Problem:
    """Choices of two that are all told apart, and options of an item each of which disagrees in its last use."""
    names = [f"u{k}" for k in range(choices)]
    secondary = [f"s{k}" for k in range(uses)] + ["t"]
    lines: list[list[str]] = []
    for k in range(choices):
        last = ["t"] if k == 0 else []
        lines += [[f"p{k}", f"u{k}", *last], [f"p{k}", *last]]
    lines += [["q", *secondary]] * options + [["q"], ["r", *names], ["r"]]
    return Problem(1, [*(f"p{k}" for k in range(choices)), "q", "r"], secondary + names, lines)


def star(options: int) -> Problem:
    """One item, with a secondary item in each of its options."""
    names = [f"i{k}" for k in range(options)]
    return Problem(1, ["h"], names, [["h", name] for name in names])


def coloured(rows: list[tuple[tuple[int, ...], tuple[int, ...]]]) -> Problem:
    """Groups of items that have one of two rows of colours, all of them told apart until the last item but few."""
    groups = [[f"s{group}.{k}" for k in range(4)] for group in range(len(rows))]
    names = [name for group in groups for name in group]
    many = [f"e{k}" for k in range(MANY)]
    options = [["z", "s0.0", f"q:{colour:x}"] for colour in range(1, COLOURS + 1)]
    options += [["z", *many], ["z"], ["z", *names]]
    for group, pair in enumerate(rows):
        for colours in pair:
            options.append([f"p{group}", *(f"{name}:{colour:x}" for name, colour in zip(groups[group], colours))])
    free = [f"w{k}" for k in range(14)]
    options += [[name] for name in free for _ in range(2)]
    primary = [*(f"p{group}" for group in range(len(rows))), "z", *free]
    return Problem(2, primary, ["q", *names, *many], options)


def other_colours(rng: random.Random) -> list[tuple[tuple[int, ...], tuple[int, ...]]]:
    def drawn() -> tuple[int, ...]:
        return tuple(rng.sample(range(1, COLOURS + 1), 4))

    return [(drawn(), drawn()) for _ in COLLIDING]


def seconds(program: str, words: list[str], text: bytes) -> float:
    """The least seconds of a processor that three runs take."""

    def one() -> float:
        before = resource.getrusage(resource.RUSAGE_CHILDREN)
        subprocess.run([programs.find(program), *words], input=text, capture_output=True, timeout=HANG, check=True)
        after = resource.getrusage(resource.RUSAGE_CHILDREN)
        return after.ru_utime + after.ru_stime - before.ru_utime - before.ru_stime

    return min(one() for _ in range(3))


def peak(words: list[str], text: bytes, limit: float) -> int:
    """The most bytes that a run of dlx-count has in memory until it ends, or until so many seconds of a processor."""
    most, ticks = 0, os.sysconf("SC_CLK_TCK")
    with tempfile.TemporaryFile() as file:
        file.write(text)
        file.seek(0)
        with subprocess.Popen(
            [programs.find("dlx-count"), *words], stdin=file, stdout=subprocess.DEVNULL, stderr=subprocess.DEVNULL
        ) as process:
            folder, spent = Path(f"/proc/{process.pid}"), 0.0
            while process.poll() is None and spent < limit:
                fields = (folder / "stat").read_text().rpartition(")")[2].split()
                spent = (int(fields[11]) + int(fields[12])) / ticks
                found = [line for line in (folder / "status").read_text().splitlines() if line.startswith("VmHWM:")]
                most = max([most, *(int(line.split()[1]) * 1024 for line in found)])
                time.sleep(0.002)
            process.kill()
    return most


def lots(people: int) -> Problem:
    """Couples draw lots: each gives to one, and neither to themselves nor to their partner."""
    gives, gets = ([f"{side}{k}" for k in range(people)] for side in "gr")
    both = range(people)
    return Problem(1, [*gives, *gets], [], [[gives[i], gets[j]] for i in both for j in both if i // 2 != j // 2])


def reported(words: list[str], text: bytes, patience: float) -> str:
    """What dlx-count reports first in so many seconds."""
    with tempfile.TemporaryFile() as file:
        file.write(text)
        file.seek(0)
        with subprocess.Popen(
            [programs.find("dlx-count"), "1", *words], stdin=file, stdout=subprocess.DEVNULL, stderr=subprocess.PIPE
        ) as process:
            assert process.stderr is not None
            ready = select.select([process.stderr], [], [], patience)[0]
            line = process.stderr.readline() if ready else b""
            process.kill()
    return line.decode()


def unread(words: list[str], text: bytes) -> int | None:
    """The status where standard error takes nothing; None where the search goes on all the same."""
    with open("/dev/full", "wb") as full:
        command = [programs.find("dlx-count"), "1", *words]
        try:
            return subprocess.run(command, input=text, stdout=subprocess.DEVNULL, stderr=full, timeout=60).returncode
        except subprocess.TimeoutExpired:
            return None


def gives_up() -> Iterator[str | None]:
    text = lots(20).text()
    for words in (["b1"], ["b1", "o"], ["b1", "n500000000"]):
        line = reported(words, text, 60)
        yield None if line == GAVE_UP else f"lots, {words}: {line!r}"
        status = unread(words, text)
        yield None if status == 3 else f"lots, {words}, standard error full: status {status}"
    line = reported(["b0"], text, 1)
    yield None if not line else f"lots, no memory for states: {line!r}"


def failures() -> Iterator[str | None]:
    yield from gives_up()
    most = peak(["1", f"b{BOUND}"], long_numbers(20_000, 14).text(), 1.5)
    allowed = (1.3 * BOUND + 12) * MEGABYTE
    yield None if most <= allowed else f"long numbers: {most / MEGABYTE:.0f} megabytes with b{BOUND}"
    for name, made in (("long options", long_options(12, 1000, 1000)), ("a star", star(99_999))):
        text = made.text()
        alone, beside = seconds("dlx1", [], text), seconds("dlx-count", ["1"], text)
        yield None if beside <= 1.5 * alone + 0.03 else f"{name}: {beside:.2f} seconds, and dlx1 takes {alone:.2f}"
    times = [coloured(rows).text() for rows in (other_colours(random.Random(1)), COLLIDING)]
    other, colliding = (seconds("dlx-count", ["2"], text) for text in times)
    yield None if colliding <= 2 * other else f"colliding states: {colliding:.2f} seconds, and others take {other:.2f}"


def main() -> int:
    passed = failed = 0
    for failure in failures():
        passed, failed = passed + (failure is None), failed + (failure is not None)
        if failure is not None:
            print(failure, flush=True)
    print(f"{passed} passed, {failed} failed")
    return 1 if failed else 0


sys.exit(main())

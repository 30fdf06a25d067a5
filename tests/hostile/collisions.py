#!/usr/bin/env python3
"""collisions.py [DIR]: reads names and colours that collide under the fixed seed by the programs, which draw a random
one: each has to take at most three times the time that it takes for words by chance. Prints what is slower.

DIR holds the programs; without it they are taken from where the gate leaves them.
"""

from __future__ import annotations

import random
import resource
import subprocess
import sys
import tempfile
from pathlib import Path
from typing import Iterator

TOP = Path(__file__).resolve().parent.parent.parent
LETTERS = b"abcdefghijklmnopqrstuvwxyzABCDEFGHIJKLMNOPQRSTUVWXYZ0123456789-_"
ENDS = [bytes((a, b)) for a in LETTERS for b in LETTERS]
WORDS = 9000
MOST = 3

# `Seed::FIXED`, and how it hashes: crates/xc_text/src/seed.rt. A table takes the low 32 bits of both halves together.
STATE, MULTIPLIER = 0x243F_6A88_85A3_08D3, 0x9E37_79B9_7F4A_7C15
LOW = 2**64 - 1


def folded(state: int) -> int:
    product = state * MULTIPLIER
    return (product ^ product >> 64) & LOW


def hash_of(word: bytes) -> int:
    """The hash that a table takes of a name or colour by the fixed seed."""
    state = STATE
    for number in [len(word), *word]:
        state = folded(state ^ number)
    return (folded(state) ^ folded(state) >> 32) & 0xFFFF_FFFF


def groups_of(count: int) -> int:
    """How many groups a table of so many words has: a power of two, with nine words to a group at most."""
    return 1 << (-(-count // 9) - 1).bit_length()


def colliding(count: int) -> list[bytes]:
    """So many words of eight letters whose look-ups begin at one group of their table, by the fixed seed.

    Of a thousand words one is taken, so 4,096 are hashed at once, as lanes of 128 bits of one number.
    """
    lanes = len(LETTERS) ** 2
    ones = sum(1 << 128 * lane for lane in range(lanes))
    last_letters = sum(LETTERS[lane % len(LETTERS)] << 128 * lane for lane in range(lanes))
    low, last_group = LOW * ones, (groups_of(count) - 1) * ones

    def fold(states: int) -> int:
        products = states * MULTIPLIER
        return (products ^ products >> 64) & low

    words: list[bytes] = []
    some = random.Random(1)
    while len(words) < count:
        front = bytes(some.choices(LETTERS, k=6))
        state = STATE
        for number in [8, *front]:
            state = folded(state ^ number)
        states = b"".join(folded(state ^ letter).to_bytes(16, "little") * len(LETTERS) for letter in LETTERS)
        hashes = fold(fold(int.from_bytes(states, "little") ^ last_letters))
        groups = ((hashes ^ hashes >> 32) & last_group).to_bytes(16 * lanes, "little")
        words += [front + ENDS[lane] for lane in zeros(groups[::16]) if groups[16 * lane + 1] == 0]
    return words[:count]


def zeros(numbers: bytes) -> Iterator[int]:
    """The places of the zeros."""
    place = numbers.find(0)
    while place >= 0:
        yield place
        place = numbers.find(0, place + 1)


def by_chance(count: int) -> list[bytes]:
    some = random.Random(2)
    return [bytes(some.choices(LETTERS, k=8)) for _ in range(count)]


def of_names(words: list[bytes]) -> bytes:
    """A problem of these items, with an option of each, and a fault behind them, so that no search follows."""
    return b" ".join(words) + b"\n" + b"\n".join(words) + b"\n?\n"


def of_colours(words: list[bytes]) -> bytes:
    """The same of a problem of these colours."""
    return b"A | x\n" + b"".join(b"A x:" + word + b"\n" for word in words) + b"?\n"


def seconds(words: list[str], text: bytes) -> float:
    """The least time of a processor that a run took of some."""
    least = float("inf")
    for _ in range(7):
        before = resource.getrusage(resource.RUSAGE_CHILDREN)
        done = subprocess.run(words, input=text, capture_output=True)
        after = resource.getrusage(resource.RUSAGE_CHILDREN)
        assert (done.returncode, done.stderr[-15:]) == (2, b" unknown item.\n"), (words, done)
        least = min(least, after.ru_utime + after.ru_stime - before.ru_utime - before.ru_stime)
    return least


def words_of(program: str, file: str) -> list[str]:
    """The arguments with which a program reads a problem with colours: `dlxcheck` by its file's name."""
    words = {"dlxcheck": [file, "3"], "dlx_span": ["2", "m0", "0", "-", "-"], "dlx_count": ["2"]}
    return words.get(program, [])


def ratios(folder: Path | None) -> Iterator[tuple[str, float]]:
    """For each program the time for words that collide, by that for words by chance."""
    collide, chance = colliding(WORDS), by_chance(WORDS)
    assert len(set(collide)) == WORDS and {hash_of(word) % groups_of(WORDS) for word in collide} == {0}
    assert hash_of(b"zywtca") == 0x636B_03C0  # as `names_have_one_hash` of crates/library_tests/src/reading/seeds.rt
    with tempfile.NamedTemporaryFile() as file:
        for what, text_of, programs in (
            ("names", of_names, ("dlx1", "dlx2", "dlx3", "dlxcheck", "dlx_span", "dlx_count")),
            ("colours", of_colours, ("dlx2", "dlx3", "dlxcheck", "dlx_span", "dlx_count")),
        ):
            for program in programs:
                path = folder / program.replace("_", "-") if folder else TOP / "crates" / program / "out" / program
                words = words_of(program, file.name)
                times = []
                for them in (collide, chance):
                    text = text_of(them)
                    Path(file.name).write_bytes(text)
                    times.append(seconds([str(path), *words], text))
                yield f"{program}, {what}", times[0] / times[1]


def main() -> int:
    folder = Path(sys.argv[1]) if len(sys.argv) > 1 else None
    slow = [f"{what}: {ratio:.1f} times" for what, ratio in ratios(folder) if ratio > MOST]
    for line in slow:
        print(line)
    return 1 if slow else 0


if __name__ == "__main__":
    sys.exit(main())

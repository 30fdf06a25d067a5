#!/usr/bin/env python3
"""problems.py FOLDER [NAME..]: writes the problems of the benchmark into a folder, as NAME.dlx.

Each is for the program of its kind, and its number of solutions is known from elsewhere. They are made without a
clock or a system's randomness, so they are the same everywhere.
"""

from __future__ import annotations

import itertools
import os
import sys
from collections.abc import Callable, Iterable, Iterator
from dataclasses import dataclass
from typing import TextIO, TypeVar


# The primary items, the secondary items and the options.
Made = tuple[list[str], list[str], Iterable[Iterable[str]]]
Make = Callable[[], Made]
Cell = tuple[int, int]


@dataclass(frozen=True)
class Problem:
    name: str
    kind: int
    count: int
    source: str
    make: Make


PROBLEMS: list[Problem] = []
T = TypeVar("T")


def problem(kind: int, count: int, source: str) -> Callable[[Make], Make]:
    """Registers a function that gives the primary items, the secondary items and the options."""

    def register(make: Make) -> Make:
        PROBLEMS.append(Problem(make.__name__, kind, count, source, make))
        return make

    return register


def write(primary: list[str], secondary: list[str], options: Iterable[Iterable[str]], file: TextIO) -> None:
    bar = " | " + " ".join(secondary) if secondary else ""
    print(" ".join(primary) + bar, file=file)
    for option in options:
        print(" ".join(option), file=file)


class Dice:
    """A generator of numbers of our own (a linear congruence), so that problems don't depend on Python's."""

    def __init__(self, seed: int) -> None:
        self.state = (seed * 2862933555777941757 + 3037000493) % 2**64

    def below(self, n: int) -> int:
        self.state = (self.state * 6364136223846793005 + 1442695040888963407) % 2**64
        return (self.state >> 33) * n >> 31

    def sample(self, among: Iterable[T], count: int) -> list[T]:
        mixed = list(among)
        for i in range(len(mixed) - 1, 0, -1):
            j = self.below(i + 1)
            mixed[i], mixed[j] = mixed[j], mixed[i]
        return mixed[:count]


def cells(rows: int, columns: int) -> list[Cell]:
    return list(itertools.product(range(rows), range(columns)))


# Kind 1: items alone.


def queens(n: int) -> Made:
    """Ranks and files from the middle outwards, and the diagonals of more than one square."""
    order = sorted(range(n), key=lambda i: (abs(2 * i - n + 1), i))
    rows_and_columns = [name for i in order for name in (f"r{i}", f"c{i}")]
    diagonals = [f"{way}{d}" for way in "ab" for d in range(1, 2 * n - 2)]
    options = []
    for i, j in cells(n, n):
        option = [f"r{i}", f"c{j}", f"a{i + j}", f"b{n - 1 - i + j}"]
        options.append([name for name in option if name in rows_and_columns or name in diagonals])
    return rows_and_columns, diagonals, options


@problem(1, 14200, "literature")
def queens12() -> Made:
    return queens(12)


@problem(1, 35584, "literature, both directions")
def langford11() -> Made:
    n = 11
    options = [(str(k), f"s{j}", f"s{j + k + 1}") for k in range(1, n + 1) for j in range(1, 2 * n - k)]
    return [str(k) for k in range(1, n + 1)] + [f"s{j}" for j in range(1, 2 * n + 1)], [], options


PENTOMINOES = {
    "F": ".XX XX. .X.", "I": "XXXXX", "L": "X... XXXX", "N": "XXX. ..XX", "P": "XX XX X.", "T": "XXX .X. .X.",
    "U": "X.X XXX", "V": "X.. X.. XXX", "W": "X.. XX. .XX", "X": ".X. XXX .X.", "Y": ".X.. XXXX", "Z": "XX. .X. .XX",
}
TETROMINOES = {"I": "XXXX", "O": "XX XX", "T": "XXX .X.", "S": "XX. .XX", "L": "X.. XXX"}


def forms(shape: str) -> list[tuple[Cell, ...]]:
    """The different forms of a shape, turned and mirrored."""
    now = [(r, c) for r, row in enumerate(shape.split()) for c, mark in enumerate(row) if mark == "X"]
    found = set()
    for turn in range(8):
        now = [(r, -c) for r, c in now] if turn == 4 else [(c, -r) for r, c in now]
        top, left = min(r for r, _ in now), min(c for _, c in now)
        found.add(tuple(sorted((r - top, c - left) for r, c in now)))
    return sorted(found)


def placements(shapes: dict[str, str], board: list[Cell]) -> Iterator[list[str]]:
    for piece in sorted(shapes):
        for form in forms(shapes[piece]):
            for down, right in board:
                held = [(down + r, right + c) for r, c in form]
                if set(held) <= set(board):
                    yield [piece] + [f"{r:x}{c:x}" for r, c in held]


@problem(1, 9356, "literature, each tiling in four images")
def pentominoes6x10() -> Made:
    board = cells(6, 10)
    return sorted(PENTOMINOES) + [f"{r:x}{c:x}" for r, c in board], [], placements(PENTOMINOES, board)


@problem(1, 4897344, "Sage", )
def sudoku_many() -> Made:
    """A puzzle of 17 clues less two of them."""
    grid = "000000010400000000020000000000050407008000300001090000300400200050100000000806000"
    clues = [i for i, digit in enumerate(grid) if digit != "0"]
    given = {divmod(i, 9): grid[i] for i in clues if i not in (clues[3], clues[9])}

    def uses(r: int, c: int, d: str) -> list[str]:
        return [f"p{r}{c}", f"r{r}{d}", f"c{c}{d}", f"b{r // 3 * 3 + c // 3}{d}"]

    held = {item for (r, c), d in given.items() for item in uses(r, c, d)}
    options = [uses(r, c, d) for r, c in cells(9, 9) for d in "123456789"]
    items = dict.fromkeys(sorted(item for option in options for item in option))
    return [i for i in items if i not in held], [], [o for o in options if not held & set(o)]


@problem(1, 135135, "literature, 13!!")
def matchings14() -> Made:
    people = [f"v{i}" for i in range(14)]
    return people, [], itertools.combinations(people, 2)


@problem(1, 1346269, "literature, a Fibonacci number")
def dominoes2x30() -> Made:
    pairs = [((0, c), (1, c)) for c in range(30)] + [((r, c), (r, c + 1)) for r in range(2) for c in range(29)]
    return [f"{r}.{c}" for r, c in cells(2, 30)], [], [[f"{r}.{c}" for r, c in pair] for pair in pairs]


@problem(1, 161280, "literature, Latin squares of order 5")
def latin5() -> Made:
    items = [f"{way}{i}{j}" for way in "prc" for i, j in cells(5, 5)]
    return items, [], [[f"p{i}{j}", f"r{i}{k}", f"c{j}{k}"] for i, j in cells(5, 5) for k in range(5)]


@problem(1, 1108800, "literature, 13!/5616")
def planes3() -> Made:
    """Projective planes of order 3: each pair of 13 points in one of the blocks of four."""
    def pairs(points: Iterable[int]) -> list[str]:
        return ["".join(f"{x:x}" for x in pair) for pair in itertools.combinations(points, 2)]

    return pairs(range(13)), [], [pairs(block) for block in itertools.combinations(range(13), 4)]


# Kind 2: secondary items with colours.


def words(count: int, length: int, seed: int) -> list[str]:
    """Made-up words, of consonants and vowels by turns."""
    dice, found = Dice(seed), dict[str, int]()
    while len(found) < count:
        first = dice.below(2)
        letters = ("aeiou"[dice.below(5)] if (k + first) % 2 else "bdlmnrst"[dice.below(8)] for k in range(length))
        found["".join(letters)] = 1
    return sorted(found)


@problem(2, 31053, "brute force")
def squares4() -> Made:
    """Squares of four words across and four down, of 250 words."""
    lines = [f"{way}{i}" for way in "AD" for i in range(4)]
    options = []
    for word in words(250, 4, 4):
        for i in range(4):
            options.append([f"A{i}"] + [f"{i}{k}:{word[k]}" for k in range(4)])
            options.append([f"D{i}"] + [f"{k}{i}:{word[k]}" for k in range(4)])
    return lines, [f"{r}{c}" for r, c in cells(4, 4)], options


@problem(2, 6240, "literature, one-factorizations of K8 with the colours at one point fixed")
def factorizations8() -> Made:
    def edge(a: int, b: int) -> str:
        return f"e{min(a, b)}{max(a, b)}"

    options = []
    for v in range(1, 8):
        others = [u for u in range(8) if u != v]
        for colours in itertools.permutations("1234567"):
            if colours[0] == str(v):
                options.append([f"v{v}"] + [f"{edge(v, u)}:{x}" for u, x in zip(others, colours)])
    return [f"v{v}" for v in range(1, 8)], [edge(*pair) for pair in itertools.combinations(range(8), 2)], options


@problem(2, 2**20 + 8, "transfer matrix")
def prism20() -> Made:
    """Colourings of the edges of a prism of 20 sides by three colours."""
    edges = {}
    for i in range(20):
        j = (i + 1) % 20
        edges[f"o{i}"], edges[f"s{i}"], edges[f"i{i}"] = (i, j), (i, 20 + i), (20 + i, 20 + j)
    at = [sorted(name for name, ends in edges.items() if v in ends) for v in range(40)]
    options = [
        [f"v{v}"] + [f"{name}:{x}" for name, x in zip(at[v], colours)]
        for v in range(40)
        for colours in itertools.permutations("RGB")
    ]
    return [f"v{v}" for v in range(40)], sorted(edges), options


# Kind 3: bounds on primary items.


@problem(3, 4860, "literature")
def dominating_queens() -> Made:
    """Five queens that attack or stand on each of the 64 squares."""
    def attacked(a: Cell) -> list[str]:
        return [f"{r}{c}" for r, c in cells(8, 8) if a[0] == r or a[1] == c or abs(a[0] - r) == abs(a[1] - c)]

    return ["5|#"] + [f"1:5|{r}{c}" for r, c in cells(8, 8)], [], [["#"] + attacked(a) for a in cells(8, 8)]


@problem(3, 2680, "literature")
def bounded_queens11() -> Made:
    """Queens whose diagonals are primary items that may be left out."""
    primary, diagonals, options = queens(11)
    return primary + [f"0:1|{d}" for d in diagonals], [], options


def grid_edges(rows: int, columns: int, bounds: str) -> Made:
    pairs = [((r, c), (r, c + 1)) for r in range(rows) for c in range(columns - 1)]
    pairs += [((r, c), (r + 1, c)) for r in range(rows - 1) for c in range(columns)]
    return [f"{bounds}|{r}{c}" for r, c in cells(rows, columns)], [], [[f"{r}{c}" for r, c in p] for p in pairs]


@problem(3, 972080, "transfer matrix")
def two_factors6x8() -> Made:
    """Sets of edges of a grid of which each point has two."""
    return grid_edges(6, 8, "2")


@problem(3, 3106, "by dlx1 with two copies of each piece")
def tetrominoes5x8() -> Made:
    board = cells(5, 8)
    items = [f"2|{piece}" for piece in sorted(TETROMINOES)] + [f"{r:x}{c:x}" for r, c in board]
    return items, [], placements(TETROMINOES, board)


@problem(3, 4725, "brute force")
def coverings8() -> Made:
    """Six blocks of four of eight points that have each pair."""
    def pairs(points: Iterable[int]) -> list[str]:
        return ["".join(map(str, pair)) for pair in itertools.combinations(points, 2)]

    blocks = [["#"] + pairs(block) for block in itertools.combinations(range(8), 4)]
    return ["6|#"] + [f"1:6|{pair}" for pair in pairs(range(8))], [], blocks


# What is large: reading, many items, many levels.


@problem(1, 1, "by construction")
def many_items() -> Made:
    """100,000 items, a solution of 10,000 options."""
    dice, options = Dice(1), []
    for group in range(10000):
        options.append([f"i{10 * group + k}" for k in range(10)])
        for _ in range(3):
            others = dice.sample(range(9), 2 + dice.below(3))
            options.append([f"i{10 * dice.below(10000) + k}" for k in others])
    return [f"i{i}" for i in range(100000)], [], dice.sample(options, len(options))


@problem(1, 1, "by construction")
def many_uses() -> Made:
    """5,000,000 uses: most of the time is reading."""
    dice, items = Dice(2), [f"item{i:03}" for i in range(1000)]

    def options() -> Iterator[list[str]]:
        for o in range(100000):
            if o % 5000 == 2500:
                yield items[o // 5000 * 50 : o // 5000 * 50 + 50]
                continue
            a, b, more = dice.below(20), dice.below(20), dice.below(25)
            b = (a + 1) % 20 if a == b else b
            yield items[50 * a + 1 : 50 * a + 25 + more] + items[50 * b + 1 : 50 * b + 27 - more]

    return items, [], options()


@problem(1, 1, "by construction")
def many_levels() -> Made:
    items = [f"d{i}" for i in range(50000)]
    return items, [], [[item] for item in items]


@problem(2, 1, "by construction")
def many_colours() -> Made:
    """200,000 words of eight letters in a grid of 40 by 50, as uses with colours: most of the time is reading."""
    dice, words = Dice(3), [f"word{i}" for i in range(100)]
    grid = [f"r{r}c{c}" for r, c in cells(40, 50)]

    def options() -> Iterator[list[str]]:
        yield ["all"] + words
        for o in range(200000):
            at, step = dice.below(2000), 50 if dice.below(2) else 1
            places = [grid[(at + k * step) % 2000] for k in range(8)]
            yield [words[o % 100]] + [f"{place}:{chr(ord('A') + dice.below(26))}" for place in places]

    return ["all"] + words, grid, options()


def main() -> None:
    if len(sys.argv) < 2:
        sys.exit(__doc__)
    os.makedirs(sys.argv[1], exist_ok=True)
    for p in PROBLEMS:
        if len(sys.argv) == 2 or p.name in sys.argv[2:]:
            with open(os.path.join(sys.argv[1], p.name + ".dlx"), "w") as file:
                write(*p.make(), file)


if __name__ == "__main__":
    main()

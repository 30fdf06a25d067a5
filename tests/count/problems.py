"""Problems whose numbers of solutions are known from the literature, and random ones.

A problem is its primary items, each as it stands in the item line, its secondary items, and its options.
"""

from __future__ import annotations

import itertools
import math
import random
from collections.abc import Callable, Iterable, Iterator
from dataclasses import dataclass
from functools import partial

Cell = tuple[int, int]


@dataclass
class Problem:
    """A problem for the program dlx`kind`."""

    kind: int
    primary: list[str]
    secondary: list[str]
    options: list[list[str]]

    def text(self) -> bytes:
        bar = ["|", *self.secondary] if self.secondary else []
        lines = [[*self.primary, *bar], *self.options]
        return "".join(f"{' '.join(line)}\n" for line in lines).encode()

    def shuffled(self, rng: random.Random) -> Problem:
        """The same items and options in another order."""

        def mixed(names: Iterable[str]) -> list[str]:
            listed = list(names)
            rng.shuffle(listed)
            return listed

        options = [mixed(option) for option in self.options]
        rng.shuffle(options)
        return Problem(self.kind, mixed(self.primary), mixed(self.secondary), options)


# ---- known numbers


def dominoes(rows: int, columns: int) -> Problem:
    cells = list(itertools.product(range(rows), range(columns)))
    pairs = [((r, c), (r + down, c + 1 - down)) for r, c in cells for down in (0, 1)]
    options = [[_cell(a), _cell(b)] for a, b in pairs if b[0] < rows and b[1] < columns]
    return Problem(1, [_cell(cell) for cell in cells], [], options)


def _cell(cell: Cell) -> str:
    return f"{cell[0]}.{cell[1]}"


def domino_tilings(rows: int, columns: int) -> int:
    """By Kasteleyn 1961: the determinant of a matrix of the edges from black to white cells, with signs such that all
    terms have the same one: those down of every second column are negative."""
    cells = list(itertools.product(range(rows), range(columns)))
    black = [cell for cell in cells if sum(cell) % 2 == 0]
    white = {cell: k for k, cell in enumerate(cell for cell in cells if sum(cell) % 2)}
    if len(black) != len(white):
        return 0
    matrix = [[0] * len(white) for _ in black]
    for k, (r, c) in enumerate(black):
        for beside, sign in (((r, c + 1), 1), ((r, c - 1), 1), ((r + 1, c), (-1) ** c), ((r - 1, c), (-1) ** c)):
            if beside in white:
                matrix[k][white[beside]] = sign
    return abs(_determinant(matrix))


def _determinant(matrix: list[list[int]]) -> int:
    """By Bareiss: each division is exact."""
    size, before, sign = len(matrix), 1, 1
    for k in range(size - 1):
        pivot = next((row for row in range(k, size) if matrix[row][k]), None)
        if pivot is None:
            return 0
        if pivot != k:
            matrix[k], matrix[pivot], sign = matrix[pivot], matrix[k], -sign
        top = matrix[k]
        for row in matrix[k + 1 :]:
            first, lead = row[k], top[k]
            if first or lead != before:
                for j in range(k + 1, size):
                    row[j] = (row[j] * lead - first * top[j]) // before
        before = top[k]
    return sign * matrix[-1][-1] if size else 1


def matchings(points: int) -> Problem:
    """The perfect matchings of a complete graph: (points - 1)!! of an even number of points."""
    names = [f"v{k}" for k in range(points)]
    return Problem(1, names, [], [list(pair) for pair in itertools.combinations(names, 2)])


def double_factorial(odd: int) -> int:
    return math.prod(range(odd, 0, -2))


def permutations(size: int) -> Problem:
    lines = [f"r{k}" for k in range(size)], [f"c{k}" for k in range(size)]
    return Problem(1, lines[0] + lines[1], [], [list(pair) for pair in itertools.product(*lines)])


def set_partitions(size: int) -> Problem:
    """The partitions of a set: Bell's numbers."""
    names = [f"x{k}" for k in range(size)]
    parts = itertools.chain.from_iterable(itertools.combinations(names, n) for n in range(1, size + 1))
    return Problem(1, names, [], [list(part) for part in parts])


def bell(size: int) -> int:
    """By Bell's triangle (Peirce 1880)."""
    row = [1]
    for _ in range(size):
        row = list(itertools.accumulate([row[-1], *row]))
    return row[0]


def latin_squares(size: int) -> Problem:
    cells = list(itertools.product(range(size), repeat=2))
    names = [f"{what}{i}{j}" for what in "prc" for i, j in cells]
    options = [[f"p{i}{j}", f"r{i}{k}", f"c{j}{k}"] for i, j in cells for k in range(size)]
    return Problem(1, names, [], options)


def monomers_and_dimers(rows: int, columns: int) -> Problem:
    """The matchings of a grid, perfect or not."""
    made = dominoes(rows, columns)
    return Problem(1, made.primary, [], made.options + [[name] for name in made.primary])


def queens(size: int) -> Problem:
    lines = [f"{what}{k}" for what in "rc" for k in range(size)]
    diagonals = [f"{way}{k}" for way in "ab" for k in range(2 * size - 1)]
    cells = itertools.product(range(size), repeat=2)
    options = [[f"r{r}", f"c{c}", f"a{r + c}", f"b{r - c + size - 1}"] for r, c in cells]
    return Problem(1, lines, diagonals, options)


def prism(size: int) -> Problem:
    """The colourings of a prism's edges with three colours, those at a corner different: 2^n + 8 for an even n."""
    edges: dict[str, tuple[int, int]] = {}
    for i in range(size):
        j = (i + 1) % size
        edges |= {f"o{i}": (i, j), f"s{i}": (i, size + i), f"i{i}": (size + i, size + j)}
    at = [[name for name, ends in edges.items() if corner in ends] for corner in range(2 * size)]
    options = [
        [f"v{corner}", *(f"{name}:{colour}" for name, colour in zip(at[corner], colours))]
        for corner in range(2 * size)
        for colours in itertools.permutations("RGB")
    ]
    return Problem(2, [f"v{corner}" for corner in range(2 * size)], list(edges), options)


def colourings_of_a_path(length: int, colours: int) -> Problem:
    """Colours of points one behind the other, neighbours different: k (k - 1)^(n - 1)."""
    names = [f"c{k}" for k in range(length)]
    options = [
        [f"e{k}", f"c{k}:{a}", f"c{k + 1}:{b}"]
        for k in range(length - 1)
        for a, b in itertools.permutations(range(colours), 2)
    ]
    return Problem(2, [f"e{k}" for k in range(length - 1)], names, options)


def subsets(size: int, low: int, high: int) -> Problem:
    """One item with bounds, in so many equal options: a sum of binomial coefficients."""
    return Problem(3, [f"{low}:{high}|A"], [], [["A"]] * size)


def regular_tables(size: int, times: int) -> Problem:
    """The square tables of zeros and ones with so many ones in each row and column."""
    lines = [f"r{k}" for k in range(size)], [f"c{k}" for k in range(size)]
    options = [list(pair) for pair in itertools.product(*lines)]
    return Problem(3, [f"{times}|{name}" for name in lines[0] + lines[1]], [], options)


def copies(made: Problem, times: int) -> Problem:
    """So many problems beside each other."""

    def named(names: list[str], k: int) -> list[str]:
        return [f"{name}_{k}" for name in names]

    options = [named(option, k) for k in range(times) for option in made.options]
    primary = [name for k in range(times) for name in named(made.primary, k)]
    return Problem(made.kind, primary, [name for k in range(times) for name in named(made.secondary, k)], options)


def known() -> Iterator[tuple[str, int, Callable[[], Problem]]]:
    """Problems by name, each with its number of solutions."""
    for rows, columns in [(1, 2), (2, 2), (3, 3), (2, 60), (4, 40), (8, 8), (7, 10), (12, 12), (16, 16), (20, 20)]:
        yield f"dominoes {rows}x{columns}", domino_tilings(rows, columns), partial(dominoes, rows, columns)
    # OEIS A004003, which is from Kasteleyn.
    for size, count in ((8, 12988816), (12, 53060477521960000)):
        yield f"dominoes {size}x{size}, OEIS", count, partial(dominoes, size, size)
    for points in range(1, 25):
        count = 0 if points % 2 else double_factorial(points - 1)
        yield f"matchings of {points} points", count, partial(matchings, points)
    for size in range(1, 17):
        yield f"permutations of {size}", math.factorial(size), partial(permutations, size)
    for size in range(1, 13):
        yield f"partitions of {size}", bell(size), partial(set_partitions, size)
    # OEIS A002860 (Wells 1967 and before), A000170 and A028420.
    for size, count in enumerate((1, 2, 12, 576, 161280), 1):
        yield f"latin squares of {size}", count, partial(latin_squares, size)
    for size, count in enumerate((1, 0, 0, 2, 10, 4, 40, 92, 352, 724), 1):
        yield f"queens {size}", count, partial(queens, size)
    for size, count in enumerate((1, 7, 131, 10012, 2810694, 2989126727), 1):
        yield f"matchings of a grid {size}x{size}", count, partial(monomers_and_dimers, size, size)
    for size in (4, 6, 12, 20, 60):
        yield f"prism {size}", 2**size + 8, partial(prism, size)
    for length, colours in ((2, 3), (5, 3), (9, 4), (60, 5)):
        count = colours * (colours - 1) ** (length - 1)
        yield f"path {length} in {colours} colours", count, partial(colourings_of_a_path, length, colours)
    yield "92^5", 92**5, partial(copies, queens(8), 5)
    yield "2^5000", 2**5000, partial(copies, Problem(1, ["A"], [], [["A"], ["A"]]), 5000)
    for size, low, high in ((5, 0, 5), (20, 3, 7), (64, 0, 64), (9, 10, 12)):
        count = sum(math.comb(size, k) for k in range(low, min(high, size) + 1))
        yield f"{low} to {high} of {size}", count, partial(subsets, size, low, high)
    # OEIS A001499 and A001501.
    for size, count in ((2, 1), (3, 6), (4, 90), (5, 2040), (6, 67950), (7, 3110940)):
        yield f"tables of {size} with 2 ones", count, partial(regular_tables, size, 2)
    for size, count in ((3, 1), (4, 24), (5, 2040), (6, 297200)):
        yield f"tables of {size} with 3 ones", count, partial(regular_tables, size, 3)


# ---- random problems


def drawn(rng: random.Random) -> Problem:
    """A small problem of any kind, such that it often has solutions: some are hidden in it."""
    kind = rng.choice((1, 1, 2, 2, 3))
    names = [f"i{k}" for k in range(rng.randint(1, 9))]
    secondary = [f"s{k}" for k in range(rng.choice((0, 1, 3, 5)))]
    colours = "RGB"[: rng.randint(1, 3)]
    options = []
    for _ in range(rng.randint(1, 4)):
        options += _hidden(rng, names)
    for _ in range(rng.randint(0, 12)):
        options.append(rng.sample(names, rng.randint(1, min(4, len(names)))))
    for option in options:
        for name in secondary:
            if rng.random() < 0.25:
                option.append(f"{name}:{rng.choice(colours)}" if kind > 1 and rng.random() < 0.8 else name)
        rng.shuffle(option)
    options += [list(rng.choice(options)) for _ in range(rng.randint(0, 2))]
    return Problem(kind, [_with_bounds(rng, name, kind) for name in names], secondary, options).shuffled(rng)


def _hidden(rng: random.Random, names: list[str]) -> Iterator[list[str]]:
    """Options that have each name once."""
    left = rng.sample(names, len(names))
    while left:
        size = rng.randint(1, min(4, len(left)))
        yield left[:size]
        del left[:size]


def _with_bounds(rng: random.Random, name: str, kind: int) -> str:
    if kind < 3 or rng.random() < 0.5:
        return name
    low = rng.randint(0, 2)
    return f"{low}:{low + rng.randint(0 if low else 1, 2)}|{name}"

"""Problems for counts.py that have more solutions than anyone reads. Their numbers are known from elsewhere, or the
solver finds as many."""

from __future__ import annotations

import itertools
from collections.abc import Callable, Iterator

from problems import TETROMINOES, Cell, Made, Problem, cells, forms


def placed(shapes: list[str], rows: int, columns: int) -> Made:
    """Tilings of a rectangle by shapes, each as often as you like."""

    def options() -> Iterator[list[str]]:
        for form in (form for shape in shapes for form in forms(shape)):
            for down, right in cells(rows, columns):
                here = [(down + r, right + c) for r, c in form]
                if all(r < rows and c < columns for r, c in here):
                    yield [name(cell) for cell in here]

    def name(cell: Cell) -> str:
        return f"{cell[0]}.{cell[1]}"

    return [name(cell) for cell in cells(rows, columns)], [], options()


def bricks(size: int) -> Made:
    """Packings of a cube by bricks of 1 x 1 x 2."""
    cubes = list(itertools.product(range(size), repeat=3))
    options = [
        ["{}.{}.{}".format(*cube), "{}.{}.{}".format(*other)]
        for cube in cubes
        for axis in range(3)
        if (other := tuple(at + (k == axis) for k, at in enumerate(cube))) in set(cubes)
    ]
    return ["{}.{}.{}".format(*cube) for cube in cubes], [], options


def matchings(points: int) -> Made:
    names = [f"v{k}" for k in range(points)]
    return names, [], itertools.combinations(names, 2)


def partitions(size: int) -> Made:
    names = [f"x{k}" for k in range(size)]
    return names, [], itertools.chain.from_iterable(itertools.combinations(names, n) for n in range(1, size + 1))


def larger(name: str, count: int, source: str, make: Callable[[], Made]) -> Problem:
    return Problem(name, 1, count, source, make)


LARGER = [
    larger("dominoes8x8", 12988816, "Kasteleyn 1961", lambda: placed(["XX"], 8, 8)),
    larger("matchings18", 34459425, "17!!", lambda: matchings(18)),
    larger("partitions12", 4213597, "Bell", lambda: partitions(12)),
    larger("trominoes9x9", 1193600, "the solver", lambda: placed(["XX X."], 9, 9)),
    larger("tetrominoes6x8", 22483347, "the solver", lambda: placed(list(TETROMINOES.values()), 6, 8)),
    larger("bricks4x4x4", 5051532105, "a transfer matrix", lambda: bricks(4)),
]
# No search ends on these.
ENDLESS = [
    larger("dominoes12x12", 53060477521960000, "Kasteleyn 1961", lambda: placed(["XX"], 12, 12)),
    larger("dominoes16x16", 2444888770250892795802079170816, "Kasteleyn 1961", lambda: placed(["XX"], 16, 16)),
    larger(
        "dominoes20x20",
        1269984011256235834242602753102293934298576249856,
        "Kasteleyn 1961",
        lambda: placed(["XX"], 20, 20),
    ),
]

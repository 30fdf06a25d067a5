"""Langford's pairs: two of each number 1 to n in a row, with i numbers between the two i."""

from __future__ import annotations

import argparse
import re
from collections.abc import Sequence
from typing import Any

from ..draw import Cell, Drawing, Picture, Shades, check_size
from ..problem import Problem
from ._kind import Counted, Kind, check_items, check_numbers

__all__ = ["problem"]

_NUMBER = re.compile(r"-?[0-9]{1,99}\Z")


def problem(pairs: int) -> Problem[list[str]]:
    """The pairs 1 to `pairs` in twice as many places. There are solutions where pairs is 3 or 0 more than a
    multiple of 4, each in two images.

    Raises `ValueError` for fewer pairs than 1.
    """
    check_numbers(pairs=pairs)
    if pairs < 1:
        raise ValueError("there has to be a pair")
    places = 2 * pairs
    check_items(pairs + places)
    options: Counted[list[str]] = Counted()
    for i in range(1, pairs + 1):
        for first in range(1, places - i):
            options.add([str(i), f"s{first}", f"s{first + i + 1}"])
    return Problem(
        [*(str(i) for i in range(1, pairs + 1)), *(f"s{place}" for place in range(1, places + 1))],
        options=options,
        comments=[
            f"helgrothy make langford {pairs}",
            "Each number twice in the places s, with i numbers between the two numbers i.",
        ],
    )


def drawing(problem: Problem[Any]) -> Drawing:
    """A row of numbers."""
    numbers = [int(item[1:]) for item in problem.item_names if item.startswith("s")]
    places = max(numbers)
    check_size(1, places, len(numbers))
    shades = Shades()

    def draw(lines: Sequence[str]) -> Picture:
        cells = {(0, place): Cell(group=place) for place in range(places)}
        for line in lines:
            number, *held = line.split()
            for name in held:
                place = int(name[1:]) - 1
                cells[0, place] = Cell(number, place, shades[int(number)])
        return Picture("Langford's pairs", cells)

    return draw


def _number(word: str) -> int:
    if not _NUMBER.match(word):
        raise argparse.ArgumentTypeError(f"{word}: it has to be a number")
    return int(word)


def _add_arguments(parser: argparse.ArgumentParser) -> None:
    parser.add_argument("pairs", metavar="N", type=_number, help="how many pairs")


KIND = Kind(
    "langford",
    "Langford's pairs",
    _add_arguments,
    lambda arguments: problem(arguments.pairs),
    drawing,
    cell=r"s(\d+)",
)


def __dir__() -> list[str]:
    return __all__

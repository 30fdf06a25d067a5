"""Puzzles with one solution: whether there is exactly one, and which of the options that are given it takes.

Options are let go one by one, in a random order, while there still is one solution. A second solution doesn't go away
when further options are let go, so each one is tried once, and none of those that stay can go.
"""

from __future__ import annotations

import random
import time
from collections.abc import Callable, Collection, Sequence
from dataclasses import dataclass
from typing import Any

from ._text.named import in_words
from ._text.sheet import labelling
from .errors import OutOfTime
from .given import Given
from .problem import Problem
from .shuffle import order
from .shuffle import solve as shuffled

__all__ = ["Minimal", "NotUnique", "differences", "drop", "find", "some"]


class NotUnique(Exception):
    """With all that is given there is no solution, or there are several. solutions: two of these, or none."""

    solutions: list[list[int]]

    def __init__(self, solutions: list[list[int]]) -> None:
        super().__init__("there are several solutions" if solutions else "there is no solution")
        self.solutions = solutions


@dataclass(frozen=True)
class Minimal:
    """kept: the places of the options that are given still. untried: how many of them weren't tried in the time."""

    kept: list[int]
    untried: int = 0


def find(problem: Problem[Any], given: Sequence[int], seed: int = 0, seconds: float = 30.0) -> Minimal:
    """Of the options that are given, by their places, as few as letting go leaves; a seed says in which order.

    Raises `NotUnique`, and `OutOfTime` where so many seconds don't show that.
    """
    return drop(given, lambda kept, deadline: solutions(problem, kept, deadline), seed, seconds)


def drop(
    given: Sequence[int],
    solutions: Callable[[Sequence[int], float], list[list[int]]],
    seed: int = 0,
    seconds: float = 30.0,
) -> Minimal:
    """The same of clues of any sort, by their numbers.

    solutions: of the puzzle with some of them its solutions, two at most, or `OutOfTime` from a time on, as
    `time.monotonic` has it.
    """
    deadline = time.monotonic() + seconds
    found = solutions(given, deadline)
    if len(found) != 1:
        raise NotUnique(found)
    kept = list(dict.fromkeys(given))
    tried = [kept[place] for place in order(len(kept), random.Random(seed))]
    for number, place in enumerate(tried):
        fewer = [one for one in kept if one != place]
        try:
            if len(solutions(fewer, deadline)) == 1:
                kept = fewer
        except OutOfTime:
            return Minimal(kept, len(tried) - number)
    return Minimal(kept)


def some(problem: Problem[Any], seed: int = 0, seconds: float = 30.0) -> list[int]:
    """The options of a random solution, to be given. Raises `NotUnique` where there is none, and `OutOfTime`."""
    with shuffled(problem, seed, limit=1, seconds=seconds) as found:
        for solution in found:
            return solution.numbers
    raise NotUnique([])


def solutions(problem: Problem[Any], given: Sequence[int], deadline: float) -> list[list[int]]:
    """The solutions with these options, two at most. Raises `OutOfTime`."""
    left = deadline - time.monotonic()
    if left <= 0:
        raise OutOfTime("the time was over before it was known whether there is one solution")
    return [one.numbers for one in Given(problem, given).solve(2, seconds=left)]


def differences(problem: Problem[Any], first: Collection[int], second: Collection[int]) -> list[str]:
    """What two solutions don't have in common, in words."""
    label = labelling(problem)
    return [
        f"only the {name} has {in_words(problem, [place for place in own if place not in other], label)}"
        for name, own, other in (("first", sorted(first), set(second)), ("second", sorted(second), set(first)))
        if not set(own) <= other
    ]

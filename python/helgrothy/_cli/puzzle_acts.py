"""What the commands do for who solves or makes puzzles by hand; their arguments are in `puzzle_commands`."""

from __future__ import annotations

import time
from typing import TYPE_CHECKING, Any

from ..errors import OutOfTime
from ..given import forbidden, given
from ..make._kind import kind_of
from ..problem import Problem
from . import console
from .puzzle_commands import CLUES_AS_OPTIONS

if TYPE_CHECKING:
    import argparse
    from collections.abc import Callable, Sequence

    from ..make._clues import Clues
    from ..minimal import Minimal


def choices(problem: Problem[Any], arguments: argparse.Namespace) -> tuple[list[int], set[int]]:
    """The places of options that are given and forbidden. Raises `ValueError`."""
    held = given(problem, arguments.given, "--with", by_names=True)
    dropped = forbidden(problem, arguments.forbidden, "--without", by_names=True)
    for text, place in zip(arguments.given, held):
        if place in dropped:
            raise ValueError(f"--with {text}: a --without forbids this option")
    return held, dropped


# ---- hint


def hint(problem: Problem[Any], arguments: argparse.Namespace) -> int:
    from .. import hint as hints

    held, dropped = choices(problem, arguments)
    has_clues = kind_of(problem.comments) in CLUES_AS_OPTIONS
    try:
        found = hints.find(problem, held, dropped, arguments.seconds * console.SHARE, has_clues=has_clues)
    except hints.NoHint as none:
        for line in f"helgrothy: {none}".split("\n"):
            console.say(line)
        return 1
    except OutOfTime:
        console.say(f"helgrothy: in {arguments.seconds:g} seconds nothing was found that is forced")
        return 2
    console.write(f"{line}\n" for line in hints.lines(problem, found))
    return 0


# ---- unique, minimal


def uniqueness(problem: Problem[Any], found: Sequence[Sequence[int]], among: str = "") -> list[str]:
    """Whether there is exactly one solution, of two at most that were found: in words."""
    if len(found) == 1:
        return [f"There is exactly one solution{among}."]
    if not found:
        return ["There is no solution."]
    from ..minimal import differences

    return [f"There are several solutions{among}. Of these two:", *differences(problem, *found)]


def clues_of(problem: Problem[Any], arguments: argparse.Namespace) -> Clues:
    """Options of a problem as clues, of which those are given that the command says."""
    from ..make._clues import Clues

    return Clues(
        problem,
        given(problem, arguments.given),
        list(range(len(problem.options))),
        lambda kept: "".join(f"{problem.line(problem.options[place])}\n" for place in kept),
    )


def _of_problems(left: Callable[[Sequence[int]], Problem[Any]]) -> Callable[[Sequence[int], float], list[list[int]]]:
    """What `minimal.drop` asks, where each set of clues is a problem of its own."""
    from .. import minimal as minimals

    return lambda kept, deadline: minimals.solutions(left(kept), [], deadline)


def _least(clues: Clues, seed: int, seconds: float) -> tuple[list[int], Minimal]:
    """The clues that it begins with, and what is left of them. Raises what `minimal.find` does."""
    from .. import minimal as minimals

    deadline = time.monotonic() + seconds

    def some() -> list[int]:
        cells = set(clues.cells)
        return [one for one in minimals.some(clues.problem, seed, seconds) if one in cells]

    if clues.left is None:
        held = clues.given or some()
        return held, minimals.find(clues.problem, held, seed, deadline - time.monotonic())
    held, solutions = clues.given, _of_problems(clues.left)
    try:
        return held, minimals.drop(held, solutions, seed, seconds)
    except minimals.NotUnique as none:
        # Sums alone, as of a new Kakuro, have the digits of one of their solutions beside them.
        if not none.solutions or not clues.cells or set(held) & set(clues.cells):
            raise
    held = [*held, *some()]
    return held, minimals.drop(held, solutions, seed, deadline - time.monotonic())


def minimal(clues: Clues, arguments: argparse.Namespace) -> int:
    from .. import minimal as minimals

    try:
        held, found = _least(clues, arguments.seed, arguments.seconds * console.SHARE)
    except minimals.NotUnique as none:
        for line in uniqueness(clues.problem, none.solutions):
            console.say(line)
        if not none.solutions:
            console.say("`helgrothy hint` may say where that shows.")
        return 1
    console.write([clues.write(found.kept)])
    enough = f"{len(found.kept)} of {len(held)} clues {'is' if len(found.kept) == 1 else 'are'} enough"
    untried = f"{found.untried} weren't tried in {arguments.seconds:g} seconds"
    console.say(f"{enough}; {untried if found.untried else 'none of them can go'}.")
    return 0

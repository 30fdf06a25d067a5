"""How the types of the package come out for those who use it. Mypy looks at it, and nobody runs it."""

from __future__ import annotations

from collections.abc import Hashable
from fractions import Fraction

import helgrothy
from helgrothy import Listed, OutOfTime, Problem, Progress, Solution, Solutions, Step, cost


def names() -> int:
    """All public names are there behind `import helgrothy`, and no others."""
    board: Problem[list[str]] = helgrothy.make.queens.problem(8)
    pattern: helgrothy.draw.Pattern = helgrothy.draw.Pattern(r"r(\d+) c(\d+)")
    picture: helgrothy.draw.Picture = board.draw(pattern=pattern)
    helgrothy.problems  # type: ignore[attr-defined]
    helgrothy.make.chess  # type: ignore[attr-defined]
    return len(picture.cells)


def solutions() -> None:
    """A solution has the type of its options, however it was found."""
    problem: Problem[str] = Problem("abc", options=["ab", "c"])
    plan: helgrothy.symmetry.Plan = helgrothy.symmetry.plan(problem, helgrothy.symmetry.motions(problem, "(.)"))
    streams: list[Solutions[str]] = [
        problem.solve(),
        problem.solve(2, seed=7, given=[0, "ab"], forbidden=["c"]),
        helgrothy.shuffle.solve(problem, 3),
        helgrothy.symmetry.solve(problem, plan),
    ]
    for stream in streams:
        one(next(stream))
    for answer in helgrothy.answers.solutions("clasp", problem, []):
        one(answer)
    for listed in problem.listed(""):
        same: Listed[str] = listed
        one(same)
    for drawn in (problem.solution(2), problem.random(), problem.random(1, seconds=2.0)):
        if drawn is not None:
            one(drawn)
    times: list[int] = problem.occurrences(jobs=2)
    times.sort()
    try:
        least: cost.Least[str] | None = cost.least(problem, [1, 2])
        if least is not None:
            total: Fraction = least.cost
            one(least)
            total += 1
        for cheapest in problem.solve(cost=[1, Fraction(1, 2)], given=["ab"], seconds=2.0):
            own: Fraction = cheapest.cost
            one(cheapest)
            total = own
        problem.solve(3, cost=[1, 2])  # type: ignore[call-overload]
    except OutOfTime as error:
        found: int = error.found
        found += 1


class Ring:
    """A graph as others have it."""

    edges = [(1, 2), (2, 3), (3, 1)]


def of_graphs() -> None:
    """What a graph's problem has as options."""
    for matching in helgrothy.graphs.perfect_matchings(Ring()).solve():
        pairs: list[tuple[object, ...]] = list(matching)
        pairs.sort(key=len)
    for found in helgrothy.graphs.colourings(Ring(), 3, positions={1: (0, 0), 2: (0, 1), 3: (1, 1)}).solve():
        first: helgrothy.graphs.Coloured = found[0]
        colours: dict[Hashable, Hashable] = helgrothy.graphs.colouring(found)
        assert colours[first.node] == first.colour


def one(solution: Solution[str]) -> None:
    option: str = solution[0]
    options: list[str] = [*solution, *solution[:1], option]
    numbers: list[int] = solution.numbers
    steps: list[Step] = solution.steps
    assert len(options) + len(numbers) + len(steps)


def shown(progress: Progress) -> None:
    share: float = progress.share
    assert share

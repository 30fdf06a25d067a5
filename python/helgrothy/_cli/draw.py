"""What the command `draw` does: the solutions of a listing, or of another solver's answer, drawn or put in other forms.

What another solver calls a solution is handed to dlxcheck, and drawn only where that judges it to be one.
"""

from __future__ import annotations

from collections.abc import Iterable, Iterator
from itertools import chain, islice
from typing import TYPE_CHECKING, Any

from .. import answers
from ..errors import NoPicture
from ..problem import Problem
from . import console
from .console import fail, write
from .showing import page_of, showing

if TYPE_CHECKING:
    import argparse

    from .._run.solution import Listed, Solution

# A run of dlxcheck judges so many answers at most.
_MOST_AT_ONCE = 256


def draw(problem: Problem[Any], arguments: argparse.Namespace) -> int:
    """Draws what standard input has, or writes it as a listing; gives the status."""
    lines = console.input_lines()
    first = next(lines, b"")
    lines = chain([first] if first else [], lines)
    solver = answers.begins(first)
    if solver is None:
        if arguments.listing:
            raise ValueError("--listing is of another solver's answer, which standard input hasn't")
        numbers: list[int] = []
        listed = ((found.number, found) for found in _noted(problem.listed(lines), numbers))
        shown = _draw(problem, _wanted(listed, arguments), arguments)
        return 0 if shown else fail(_none_of(arguments.number, numbers), 1)
    found = enumerate(answers.solutions(solver, problem, lines), 1)
    wanted = _wanted(found, arguments)
    shown = _list(problem, wanted) if arguments.listing else _draw_answers(problem, wanted, arguments)
    if shown:
        return 0
    none = "reports that there is no solution" if arguments.number is None else f"gave no solution {arguments.number}"
    return fail(f"the other solver {none}", 1)


def _wanted(
    found: Iterable[tuple[int, Solution[Any]]], arguments: argparse.Namespace
) -> Iterator[tuple[int, Solution[Any]]]:
    """The solutions that are asked for, each with its number."""
    for number, solution in found:
        if arguments.number in (None, number):
            yield number, solution
            if arguments.number is not None:
                return


def _noted(listed: Iterable[Listed[Any]], numbers: list[int]) -> Iterator[Listed[Any]]:
    """The solutions of a listing; `numbers` gets the first number that it has, and the last one so far."""
    for solution in listed:
        numbers[1:] = [solution.number]
        yield solution


def _none_of(number: int | None, ends: list[int]) -> str:
    """What to say where a listing has no solution of a number, or none; `ends`: the first number that it has, and the
    last one."""
    if not ends:
        return "the listing has no solution to draw; with m1 a program lists each, with m1 t1 the first"
    return f"the listing has no solution {number}: its numbers are {' to '.join(map(str, dict.fromkeys(ends)))}"


def _judged(
    problem: Problem[Any], found: Iterator[tuple[int, Solution[Any]]]
) -> Iterator[tuple[int, Solution[Any]]]:
    """Answers that dlxcheck has judged to be solutions, by more and more of them. Raises `ValueError` for another."""
    size = 1
    while part := list(islice(found, size)):
        for (number, solution), is_one in zip(part, problem.check([solution for _, solution in part])):
            if not is_one:
                raise ValueError(f"answer {number} of the other solver is no solution, as dlxcheck judges it")
            yield number, solution
        size = min(2 * size, _MOST_AT_ONCE)


def _draw(problem: Problem[Any], found: Iterator[tuple[int, Solution[Any]]], arguments: argparse.Namespace) -> int:
    """Draws solutions; how many there were."""
    page = page_of(problem, arguments)
    show = showing(problem, arguments, None, page)
    shown = 0
    for number, solution in found:
        show(number, solution, lambda _: solution.numbers, lambda: solution.steps)
        shown += 1
        if arguments.svg or page is not None and page.is_full:
            break
    if page is not None and shown:
        write([page.text(shown, False)])
    return shown


def _draw_answers(
    problem: Problem[Any], found: Iterator[tuple[int, Solution[Any]]], arguments: argparse.Namespace
) -> int:
    """Draws answers that dlxcheck judges to be solutions; how many there were. Raises `NoPicture`, with what to do."""
    try:
        return _draw(problem, _judged(problem, found), arguments)
    except NoPicture as error:
        # The options of a solver's own answer are variables with numbers.
        if arguments.data is not None:
            raise
        raise NoPicture(f"{error}; --listing prints the answer as a listing") from None


def _list(problem: Problem[Any], found: Iterator[tuple[int, Solution[Any]]]) -> int:
    """Writes answers as a listing, which dlxcheck judges; how many there were."""
    shown = 0
    for shown, (number, solution) in enumerate(found, 1):
        console.write_bytes(problem._listing([solution], number))
    return shown

"""What the commands of `helgrothy` do that make, solve, draw and judge problems; their arguments are in `commands`.

What only some of them need they load themselves.
"""

from __future__ import annotations

from typing import TYPE_CHECKING, Any

from ..errors import HelgrothyError, OutOfTime
from ..problem import Problem
from . import console
from . import count as count_command
from .console import fail, write, write_lines
from .line import Report

if TYPE_CHECKING:
    import argparse

    from ..make._kind import Kind

# `lint` looks for a solution so long.
_SEARCH_SECONDS = 5.0


def make(arguments: argparse.Namespace) -> int:
    write_lines(_made(arguments)._lines())
    return 0


def solve(arguments: argparse.Namespace) -> int:
    from . import solving

    return solving.solve(_problem(arguments.problem), arguments)


def make_and_solve(arguments: argparse.Namespace) -> int:
    from . import solving

    kind: Kind = arguments.kind
    search = kind.search(arguments)
    if search is None:
        return solving.solve(_made(arguments), arguments)
    solving.check_one(arguments)
    if arguments.cost is not None or arguments.given or arguments.forbidden:
        raise ValueError("this search has a problem of its own: without --cost, --with and --without")
    with Report(["helgrothy"]) as report:
        found = search(None if arguments.seconds is None else arguments.seconds * console.SHARE, report)
    solving.show_found(found, arguments)
    return 0 if found.is_proved else 2


def _made(arguments: argparse.Namespace) -> Problem[Any]:
    """The problem of a kind; prints a warning of what may have been meant otherwise."""
    kind: Kind = arguments.kind
    problem = kind.make(arguments)
    for remark in kind.remarks(problem):
        console.say(remark)
    return problem


# ---- draw


def draw(arguments: argparse.Namespace) -> int:
    from . import draw as drawn

    if arguments.problem == "-":
        raise ValueError("the problem is a file; the listing or answer comes from standard input")
    return drawn.draw(_problem(arguments.problem), arguments)


# ---- lint, export, why, count, hint, minimal


def lint(arguments: argparse.Namespace) -> int:
    from ..lint import lint as remarks_of

    text = console.read(arguments.problem)
    remarks = remarks_of(text, int(arguments.program[-1]), searching=_SEARCH_SECONDS, say=console.say)
    write(f"{remark}\n" for remark in remarks)
    return 1 if remarks else 0


def export(arguments: argparse.Namespace) -> int:
    with console.nothing_collected():
        return _export(arguments)


def _export(arguments: argparse.Namespace) -> int:
    from .. import export as forms

    problem = _problem(arguments.problem)
    if arguments.format == "cnf":
        if arguments.cost is not None:
            raise ValueError("--cost isn't of cnf, which has no costs; asp, opb and lp have them")
        write_lines(forms.cnf(problem))
        return 0
    from .solving import costs_of

    costs = costs_of(problem, arguments)
    form = forms.FORMATS[arguments.format]
    write_lines(form(problem, () if costs is None else costs.numbers))
    return 0


def why(arguments: argparse.Namespace) -> int:
    from .. import why as reasons

    problem = _problem(arguments.problem)
    try:
        conflict = reasons.find(problem, arguments.seconds * console.SHARE, console.say)
    except OutOfTime:
        return fail(f"in {arguments.seconds:g} seconds it isn't known whether there is a solution")
    if conflict is None:
        return fail("there is a solution", 1)
    write(f"{line}\n" for line in conflict.lines(problem))
    return 0


def count(arguments: argparse.Namespace) -> int:
    return count_command.show(_problem(arguments.problem), arguments)


def hint(arguments: argparse.Namespace) -> int:
    from . import puzzle_acts

    return puzzle_acts.hint(_problem_or_made(arguments), arguments)


def minimal(arguments: argparse.Namespace) -> int:
    from . import puzzle_acts

    if arguments.kind is None:
        clues = puzzle_acts.clues_of(_problem(arguments.problem), arguments)
    elif arguments.given:
        raise ValueError("the clues stand in the puzzle: without --with")
    else:
        clues = arguments.kind.clues(arguments)
    return puzzle_acts.minimal(clues, arguments)


# ---- what commands have in common


def _problem(path: str) -> Problem[Any]:
    text = console.read(path)
    try:
        return Problem.parse(text)
    except HelgrothyError as error:
        raise ValueError(f"{'standard input' if path == '-' else path}: {error}") from None


def _problem_or_made(arguments: argparse.Namespace) -> Problem[Any]:
    kind: Kind | None = arguments.kind
    return _problem(arguments.problem) if kind is None else kind.make(arguments)

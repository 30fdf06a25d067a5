"""The command `count`, and the option `--count` of those that solve."""

from __future__ import annotations

from collections.abc import Callable
from typing import TYPE_CHECKING, Any

from .._run.programs import has
from ..errors import OutOfTime
from . import console
from .console import number, seconds, write
from .line import Report

if TYPE_CHECKING:
    import argparse

    from .._run.counter import Count
    from ..problem import Problem

# On a terminal the search prints one of so many solutions, which says how far it is.
_SPACING = 100


def add(commands: Any, act: Callable[[argparse.Namespace], int]) -> None:
    """Adds the command, which does what `act` does."""
    from .._run.counter import MOST_MEGABYTES

    parser = commands.add_parser(
        "count",
        help="count the solutions of a problem",
        description="Prints how many solutions a problem has, exactly: by dlx-count, which makes none of them, and at "
        "the same time by a search that makes each; the first that ends gives the number. Status 1 says that there is "
        "no solution.",
    )
    console.add_problem(parser)
    parser.add_argument(
        "--json",
        dest="data",
        action="store_const",
        const="json",
        help="a line of JSON: the number, and the program that counted",
    )
    parser.add_argument(
        "--megabytes",
        type=number,
        default=MOST_MEGABYTES,
        metavar="M",
        help=f"the memory of dlx-count (default: {MOST_MEGABYTES})",
    )
    parser.add_argument("--seconds", type=seconds, metavar="S", help="give up after S seconds")
    parser.set_defaults(command=act)


def add_option(which: Any) -> None:
    """Adds `--count` to the options of solving that say which solutions are shown."""
    which.add_argument("--count", action="store_true", help="only how many solutions there are")


def show(problem: Problem[Any], arguments: argparse.Namespace) -> int:
    """Prints how many solutions a problem has."""
    memory = {"megabytes": arguments.megabytes} if "megabytes" in arguments else {}
    try:
        counted = counted_with_line(problem, arguments.seconds, **memory)
    except OutOfTime as error:
        console.say(f"helgrothy: {error}; {error.found} solution{'' if error.found == 1 else 's'} till then")
        return 2
    console.write_long_numbers()
    if arguments.data == "json":
        import json

        write([json.dumps({"solutions": counted.total, "program": counted.program}) + "\n"])
    else:
        write([f"{counted.total}\n"])
    return 0 if counted.total else 1


def counted_with_line(problem: Problem[Any], seconds: float | None, **memory: int) -> Count:
    """How many solutions a problem has, with a line on a terminal meanwhile."""
    from .._run.counter import GAVE_UP

    program = f"dlx{problem.kind}"
    with Report([*(["dlx-count"] if has("dlx-count") else []), program], "count") as report:

        def give_up(messages: str) -> None:
            report(at_work=[program])
            reason = messages.splitlines()[-1] if messages else "dlx-count failed"
            console.say(f"helgrothy: {reason}" if reason == GAVE_UP else f"helgrothy: {reason} The search goes on.")

        if not report.is_shown:
            return problem._count(seconds, gives_up=give_up, **memory)
        from .._spans.progress import Reached, how_far

        reached = Reached()

        def printed(chunk: bytes) -> None:
            reached.read(chunk)
            if reached.number and report.is_due():
                report(far=how_far(reached.number, reached.share(), report.seconds))

        report(far=f"fewer than {_SPACING} found")
        return problem._count(seconds, _SPACING, gives_up=give_up, printed=printed, **memory)


def check(arguments: argparse.Namespace) -> None:
    """Raises `ValueError` where a count can't be shown in the form that is asked for."""
    if arguments.shuffle is not None or arguments.up_to_symmetry:
        raise ValueError("all solutions are counted: without --shuffle and --up-to-symmetry")
    if arguments.svg or arguments.html or arguments.data == "csv":
        raise ValueError("a number is printed as it is or by --json")

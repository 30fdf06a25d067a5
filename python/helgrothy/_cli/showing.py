"""How the commands show solutions: drawn, as data, or on a page."""

from __future__ import annotations

from collections.abc import Callable, Sequence
from typing import TYPE_CHECKING, Any

from .._text.listing import Step
from ..draw import drawing_of
from ..errors import NoPicture
from ..problem import Problem
from .console import write

if TYPE_CHECKING:
    import argparse

    from .._page.file import File
    from ..data import Form
    from ..draw import Drawing

# Shows a solution: its number, its options, what gives the places of these among the problem's, and what gives the
# steps of the search.
Show = Callable[[int, Sequence[Any], Callable[[Sequence[Any]], list[int]], Callable[[], list[Step]]], None]
# What is shown of the lines of a solution's options where there is no picture; None where that is a failure.
Otherwise = Callable[[Sequence[str]], Any]


def check(arguments: argparse.Namespace) -> None:
    """Raises `ValueError` where options of how solutions are shown don't go together."""
    if arguments.options and arguments.data is None:
        raise ValueError("--options is of --json and --csv: with it they have the options, also where there is a table")


def showing(
    problem: Problem[Any], arguments: argparse.Namespace, otherwise: Otherwise | None, page: File | None
) -> Show:
    """What shows solutions one after another: on a page, as data, or drawn."""
    check(arguments)
    if page is not None:
        onto = page
        return lambda number, options, places, steps: onto.add(number, steps())
    if arguments.data is not None:
        from ..data import FORMATS, as_table

        table = None if arguments.options else as_table(arguments.data, problem)
        data: Form = FORMATS[arguments.data](problem) if table is None else table
        write([data.head()])

        def solution(number: int, places: Sequence[int]) -> str:
            try:
                return data.solution(number, places)
            except NoPicture as error:
                raise NoPicture(f"{error}; with --options there are its options") from None

        return lambda number, options, places, steps: write([solution(number, places(options))])
    draw = drawing(problem, arguments, otherwise)
    between = iter([""])

    def show(number: int, options: Sequence[Any], places: object, steps: object) -> None:
        picture = draw([problem.line(option) for option in options])
        write([next(between, "\n"), picture.svg() if arguments.svg else str(picture)])

    return show


def page_of(problem: Problem[Any], arguments: argparse.Namespace) -> File | None:
    """The page that is asked for, if one is."""
    if not arguments.html:
        return None
    from .._page.file import File

    try:
        return File(problem, drawing(problem, arguments, None))
    except NoPicture:
        if (arguments.cell, arguments.row, arguments.column) != (None, None, None):
            raise
        return File(problem, None)


def listed_options(lines: Sequence[str]) -> str:
    """What is shown of a solution without a picture."""
    return "".join(f"{line}\n" for line in lines)


def drawing(
    problem: Problem[Any], arguments: argparse.Namespace, otherwise: Otherwise | None
) -> Callable[[Sequence[str]], Any]:
    """What draws solutions: by the patterns that are given, else as the problem was made, else otherwise."""
    if arguments.cell is not None and "(?P<layer>" in arguments.cell and otherwise is not None:
        # The cells of a box are for its symmetries; they have no picture by a pattern.
        return otherwise
    from ..table import by_patterns

    patterns = arguments.cell, arguments.row, arguments.column, arguments.label, arguments.cell_grid
    by_them = by_patterns(problem, *patterns)
    if by_them is not None:
        return by_them
    try:
        as_made: Drawing = drawing_of(problem)
    except NoPicture:
        if otherwise is None or arguments.svg:
            raise
        return otherwise
    return as_made if otherwise is None or arguments.svg else _drawn_or(as_made, otherwise)


def _drawn_or(draw: Drawing, otherwise: Otherwise) -> Callable[[Sequence[str]], Any]:
    """A drawing, or what else is shown of a solution that it doesn't draw."""

    def draw_it(lines: Sequence[str]) -> Any:
        try:
            return draw(lines)
        except NoPicture:
            return otherwise(lines)

    return draw_it

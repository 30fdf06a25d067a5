"""The option `--chances`: in how many of all solutions each option is, as a picture, a list or data."""

from __future__ import annotations

from typing import TYPE_CHECKING, Any

from .._run import occurrences
from .._run.occurrences import Occurrences
from .._text.sheet import labelling
from ..data import FORMATS
from ..draw import _chances as chances
from ..errors import NoPicture, OutOfTime, ProgramFailed
from ..make import KINDS
from ..make._kind import kind_of
from . import console
from .console import fail, write
from .line import Report
from .showing import drawing

if TYPE_CHECKING:
    import argparse
    from collections.abc import Iterator

    from ..given import Given
    from ..problem import Problem

# It is counted for so long where the command has no time of its own.
_SECONDS = 60.0


def show(asked: Given[Any], arguments: argparse.Namespace) -> int:
    """Shows them, and gives the status."""
    if arguments.html:
        raise ValueError("--chances has no page: --svg is its picture")
    seconds = _SECONDS if arguments.seconds is None else arguments.seconds * console.SHARE
    try:
        with Report(["dlx-count", f"dlx{asked.inner.kind}"], "count"):
            found = occurrences.find(asked.inner, seconds)
    except OutOfTime as error:
        return fail(f"{error}; --seconds S gives it more than {seconds:g} seconds")
    except ProgramFailed as error:
        return fail(f"how many solutions have an option isn't known: {error}")
    console.write_long_numbers()
    if found.total:
        _write(asked.problem, _of_problem(asked, found), arguments)
    more = "" if found.total else "; `helgrothy why` may say which items conflict"
    console.say(f"Altogether {found.total} solution{'' if found.total == 1 else 's'}{more}.")
    return 0 if found.total else 1


def _of_problem(asked: Given[Any], found: Occurrences) -> Occurrences:
    """Those of the problem's own options, of which some may be left out of what was searched."""
    times = [0] * len(asked.problem.options)
    for place, count in zip(asked.places, found.by_option):
        times[place] = count
    return Occurrences(times, found.total)


def _write(problem: Problem[Any], found: Occurrences, arguments: argparse.Namespace) -> None:
    if arguments.data is not None:
        write([FORMATS[arguments.data](problem).chances(found.total, found.by_option)])
        return
    try:
        picture = chances.picture(problem, drawing(problem, arguments, None), found, _view(problem))
    except NoPicture:
        if arguments.svg or (arguments.cell, arguments.row, arguments.column) != (None, None, None):
            raise
        write(_listed(problem, found))
    else:
        write([picture.svg() if arguments.svg else str(picture)])


def _view(problem: Problem[Any]) -> chances.View | None:
    """From which side an option shows the cells of the picture, as the problem's kind says."""
    kind = KINDS.get(kind_of(problem.comments) or "")
    return chances.any_side if kind is None else kind.view


def _listed(problem: Problem[Any], found: Occurrences) -> Iterator[str]:
    """A line for each option that is in a solution."""
    wide = len(str(found.total))
    label = labelling(problem)
    for option, times in zip(problem.options, found.by_option):
        if times:
            share = f"{chances.percent(times, found.total)}%"
            yield f"{times:{wide}} {share:>4} {label(problem.line(option))}\n"

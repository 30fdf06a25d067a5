"""Counts by the program dlx-count, beside a search by the solver.

Where much repeats dlx-count is faster than any search. Where little does, it searches by turns, and the solver alone is
somewhat faster and knows how many solutions it has found. So both run at once, and the first that ends gives the
number. On a single processor the solver has nine tenths of it. Where the states take too much memory dlx-count is
ended, since its search alone has no use beside the solver's.
"""

from __future__ import annotations

from collections.abc import Callable, Sequence
from contextlib import ExitStack
from dataclasses import dataclass

from .._text.listing import last_number
from ..errors import OutOfTime, ProgramNotFound
from .programs import Ending, Run, last_line

PROGRAM = "dlx-count"
# What it says where it counts no states any more.
GAVE_UP = "The states take too much memory: the search goes on alone."
# What dlx-count may take for its states, in megabytes.
MOST_MEGABYTES = 512


@dataclass(frozen=True)
class Count:
    """How many solutions there are, and the program that counted them."""

    total: int
    program: str


def count(
    text: bytes,
    kind: int,
    words: Sequence[str] = (),
    seconds: float | None = None,
    *,
    megabytes: int = MOST_MEGABYTES,
    gives_up: Callable[[str], object] = lambda message: None,
    printed: Callable[[bytes], object] = lambda chunk: None,
) -> Count:
    """How many solutions the problem of a text has.

    words: arguments of the search. gives_up: gets what dlx-count said where it has no number; the search goes on.
    printed: gets what the search prints.

    Raises `ProgramNotFound`, `ProgramFailed` and `OutOfTime`, whose `found` is the last number that the search printed.
    """
    found, line = 0, b""
    with ExitStack() as both:
        search = both.enter_context(Run(f"dlx{kind}", words, [text], seconds))
        counter = _begun(both, text, kind, megabytes)

        def look(_: Run) -> None:
            if counter is not None and GAVE_UP in counter.messages():
                counter.stop()

        try:
            while not search.has_ended:
                for chunk in search.chunks(look, counter):
                    look(search)
                    found = last_number(line + chunk) or found
                    line = (line + chunk).rpartition(b"\n")[2]
                    printed(chunk)
                if counter is not None and not search.has_ended:
                    last = last_line(counter.messages()) if counter.status() == 0 else None
                    if last is not None:
                        return Count(last[0], PROGRAM)
                    gives_up(counter.messages())
                    counter = None
            total = Ending(search).total
        except OutOfTime as error:
            error.found = found
            raise
    return Count(total, search.program)


def _begun(both: ExitStack, text: bytes, kind: int, megabytes: int) -> Run | None:
    """A run of dlx-count, if it can be had."""
    try:
        counter = both.enter_context(Run(PROGRAM, [str(kind), f"b{megabytes}"], [text]))
    except (ProgramNotFound, OSError):
        return None
    counter.go_behind()
    return counter

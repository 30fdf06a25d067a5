"""Problems that people know, by a module for each kind: its `problem(..)` makes one, and `Problem.draw` draws it.

    from helgrothy import make

    board = make.queens.problem(8)
    print(board.draw(next(board.solve())))

The kinds; `help(make.sudoku)` says what one takes:

    sudoku       a Sudoku from its clues
    queens       queens on a board, or in coloured regions
    langford     Langford's pairs
    polyominoes  pieces of squares that fill a region
    polyforms    pieces of hexagons or triangles that fill a region
    polycubes    pieces of cubes that fill a box
    words        words across and down in a grid
    wordsearch   words hidden in a grid of letters
    nonogram     a nonogram from its clues
    kakuro       a Kakuro from its grid
    roster       shifts of people on days
    roundrobin   a round robin at home and away
    tests        tests in which values of factors come together
    timetable    lessons or exams in slots and rooms

`KINDS` has them by name; the `cell` of one is the pattern of its cells that `symmetry.motions` takes.
"""

from collections.abc import Iterator, Mapping
from importlib import import_module
from typing import TYPE_CHECKING, Any

if TYPE_CHECKING:
    from . import (
        kakuro,
        langford,
        nonogram,
        polycubes,
        polyforms,
        polyominoes,
        queens,
        roster,
        roundrobin,
        sudoku,
        tests,
        timetable,
        words,
        wordsearch,
    )
    from ._kind import Kind

__all__ = [
    "KINDS",
    "kakuro",
    "langford",
    "nonogram",
    "polycubes",
    "polyforms",
    "polyominoes",
    "queens",
    "roster",
    "roundrobin",
    "sudoku",
    "tests",
    "timetable",
    "words",
    "wordsearch",
]
# What each kind is, in the order of lists: known without loading any of them.
HELPS = {
    "sudoku": "a Sudoku from its clues",
    "queens": "queens on a board, or in coloured regions",
    "langford": "Langford's pairs",
    "polyominoes": "pieces of squares that fill a region",
    "polyforms": "pieces of hexagons or triangles that fill a region",
    "polycubes": "pieces of cubes that fill a box",
    "words": "words across and down in a grid",
    "wordsearch": "words of a list hidden in a grid of letters",
    "nonogram": "a nonogram from its clues",
    "kakuro": "a Kakuro from its grid",
    "roster": "shifts of people on days",
    "roundrobin": "a round robin at home and away",
    "tests": "tests in which values of factors come together",
    "timetable": "lessons or exams in slots and rooms",
}


class _Kinds(Mapping[str, "Kind"]):
    """The kinds by their names, each with its module, which is loaded when it is first asked for."""

    def __getitem__(self, name: str) -> "Kind":
        if name not in HELPS:
            raise KeyError(name)
        kind: Kind = _load(name).KIND
        return kind

    def __contains__(self, name: object) -> bool:
        return name in HELPS

    def __iter__(self) -> Iterator[str]:
        return iter(HELPS)

    def __len__(self) -> int:
        return len(HELPS)


KINDS: Mapping[str, "Kind"] = _Kinds()


def _load(name: str) -> Any:
    """The module of a kind."""
    if name not in HELPS:
        raise AttributeError(f"module {__name__!r} has no attribute {name!r}")
    return import_module(f"{__name__}.{name}")


def _names() -> list[str]:
    """The public names, whether they are loaded or not."""
    return [*__all__, *(name for name in globals() if name[:2] == "__" and name not in ("__dir__", "__getattr__"))]


# A checker of types knows the names from above, and finds those that aren't there.
if not TYPE_CHECKING:
    __dir__, __getattr__ = _names, _load

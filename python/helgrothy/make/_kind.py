"""What a maker of problems has: a name, arguments, and a drawing."""

from __future__ import annotations

import argparse
import errno
import re
from collections.abc import Callable, Iterable, Sequence, Sized
from dataclasses import dataclass
from typing import TYPE_CHECKING, Any, TypeVar

from .._cli.console import did_you_mean, read
from .._run.report import Hear
from .._text.syntax import MOST_ITEMS, MOST_USES
from ..draw import Drawing
from ..errors import TableFault
from ..problem import Problem

if TYPE_CHECKING:
    from .._text.sheet import Sheet
    from ..wishes import Wish
    from ._clues import Clues

T = TypeVar("T", bound=Sized)

_MOST_SHOWN = 60
# Numbers with another sign between them than the x of sizes.
_SIZES = re.compile(r"\s*[0-9]+(?:\s*(?:[*X×,;/]|by)\s*[0-9]+|\s+x\s*[0-9]+|x\s+[0-9]+)+\s*\Z")
_MADE = re.compile(r"helgrothy make ([a-z]+)(?: |\Z)")


@dataclass(frozen=True)
class Found:
    """A solution that a kind's own search found: the problem, the places of the options, and what is known of it.

    is_proved: whether it is proved to be what was asked for, and not only the best that was found.
    """

    problem: Problem[Any]
    numbers: list[int]
    remark: str
    is_proved: bool = True


@dataclass(frozen=True)
class Kind:
    """A kind of problem: its name and help on the command line, its arguments, how it is made and drawn.

    cell, grid: of a board or a box the pattern that finds the cells of an option, and the grid of a problem's cells, as
        `symmetry.motions` takes them.
    add_search_arguments, search: of a kind that has a search of its own the arguments of that search, and what searches
    for so many seconds, or for its own time without a number, and reports how far it is; None where the arguments don't
    ask for it.
    wishes: of a kind whose table may have wishes those of a problem, from the table in its comments.
    clues: of a kind whose clues are options what these are, for who makes such puzzles.
    remarks: what is no fault of a problem that was made, and yet may be meant otherwise.
    sheet: of a kind that draws tables these, by whole names.
    view: from which side the option of a line shows cells, where several options may show one, as a row and a column
        do; None where pictures of single options say nothing.
    """

    name: str
    help: str
    add_arguments: Callable[[argparse.ArgumentParser], None]
    make: Callable[[argparse.Namespace], Problem[Any]]
    drawing: Callable[[Problem[Any]], Drawing]
    add_search_arguments: Callable[[argparse.ArgumentParser], None] = lambda parser: None
    search: Callable[[argparse.Namespace], Callable[[float | None, Hear], Found] | None] = lambda arguments: None
    cell: str | None = None
    grid: Callable[[Problem[Any]], str] = lambda problem: "square"
    wishes: Callable[[Problem[Any]], list[Wish]] = lambda problem: []
    clues: Callable[[argparse.Namespace], Clues] | None = None
    remarks: Callable[[Problem[Any]], list[str]] = lambda problem: []
    sheet: Callable[[Problem[Any]], Sheet] | None = None
    view: Callable[[str], str] | None = lambda line: ""


def kind_of(comments: Sequence[str]) -> str | None:
    """The name of the kind that the comments of a problem name."""
    made = _MADE.match(comments[0]) if comments else None
    return made.group(1) if made else None


def check_texts(hint: str = "", **given: object) -> None:
    """Raises `TypeError` for an argument that is no text, with what is right instead."""
    for name, value in given.items():
        if not isinstance(value, str):
            more = f"; {hint}" if hint else ""
            raise TypeError(f"{name} is a text, and this is of type {type(value).__name__}{more}")


def check_numbers(hint: str = "", **given: object) -> None:
    """Raises `TypeError` for an argument that is no whole number, with what is right instead."""
    for name, value in given.items():
        if not hasattr(value, "__index__"):
            more = f"; {hint}" if hint else ""
            raise TypeError(f"{name} is a whole number, and this is {value!r:.60}{more}")


def check_sizes(text: str, form: str) -> None:
    """Raises `TableFault` for a text that stands for a picture and reads as numbers with another sign than x."""
    if _SIZES.match(text):
        meant = "x".join(re.findall("[0-9]+", text))
        raise TableFault(1, text.strip(), f"neither {form} nor a picture", f"is it {meant}?")


def read_text(path: str, otherwise: str = "", words: Iterable[str] = (), asked: str = "") -> str:
    """The text of a file, or of standard input where its name is `-`.

    otherwise: what a word may be that isn't the name of a file, and `words` are those that it may be. asked: what the
    file is, which is reported where there is none.

    Raises `OSError` and `ValueError`.
    """
    try:
        return read(path).decode()
    except OSError as error:
        # A word that was meant as something else may be too long for a name.
        if not (otherwise or asked) or error.errno not in (errno.ENOENT, errno.ENAMETOOLONG):
            raise
        if asked:
            raise ValueError(f"{cut(path)}: there is no such file; {asked}") from None
        raise ValueError(f"{cut(path)}: neither {otherwise} nor a file{did_you_mean(path, words)}") from None
    except UnicodeDecodeError as error:
        name = "standard input" if path == "-" else path
        raise ValueError(f"{name}: byte {error.start + 1} isn't UTF-8 (save the file as UTF-8)") from None


class Counted(list[T]):
    """Options as they are made: no more than a problem may have. Raises `ValueError`."""

    def __init__(self) -> None:
        super().__init__()
        self._uses = 0

    def add(self, option: T) -> None:
        self._uses += len(option)
        if self._uses > MOST_USES:
            raise ValueError(f"the problem would have more than {MOST_USES} uses of items")
        super().append(option)


def check_items(items: int) -> None:
    """Raises `ValueError` for more items than a problem may have."""
    if items > MOST_ITEMS:
        raise ValueError(f"the problem would have {items} items, and may have {MOST_ITEMS}")


def is_one(cells: Iterable[tuple[int, ...]]) -> bool:
    """Whether one can go from each of the cells to each other one through their sides, in any number of dimensions."""
    left = set(cells)
    reached = [left.pop()]
    while reached:
        at = reached.pop()
        for axis in range(len(at)):
            for step in (-1, 1):
                beside = (*at[:axis], at[axis] + step, *at[axis + 1 :])
                if beside in left:
                    left.remove(beside)
                    reached.append(beside)
    return not left


def cut(text: str) -> str:
    """The beginning of a text, for a message."""
    return text if len(text) <= _MOST_SHOWN else f"{text[:_MOST_SHOWN]} .."


def numbered(text: str) -> list[tuple[int, str]]:
    """The lines of a text with their numbers, without blanks at their ends."""
    return [(number, line.rstrip()) for number, line in enumerate(text.splitlines(), 1)]


def picture(text: str) -> list[tuple[int, str]]:
    """The lines of a picture: those from the first to the last that isn't blank. Raises `TableFault`."""
    lines = numbered(text)
    while lines and not lines[0][1]:
        lines.pop(0)
    while lines and not lines[-1][1]:
        lines.pop()
    if not lines:
        raise TableFault(1, "", "an empty picture")
    return lines

"""Solutions of a kind as tables of whole names: what is drawn of them, and written for other programs.

A name in a problem has 32 bytes at most, and a colour 8, so that of a longer one an item has only the beginning. The
whole names are in the table that the problem was made from, which is in its comments.
"""

from __future__ import annotations

from collections.abc import Callable, Sequence
from dataclasses import dataclass
from typing import TYPE_CHECKING, Any, Union

from ..errors import NoPicture
from .names import item_names

if TYPE_CHECKING:
    from ..problem import Problem

# The cells of a row: names, numbers, and None for an empty one.
Row = list[Union[str, int, None]]

# A name that is made of another begins like it; at its end may be a number.
_ALIKE = 16


@dataclass(frozen=True)
class Sheet:
    """The tables of a problem's solutions.

    name: what the rows are. columns: the names of the columns. rows: those of a solution, in order, by the lines of its
    options. number: the name of a column with the numbers of the rows, where these have no other name.
    label: an option by whole names, without the items that only the rules of the problem need, by its line.
    """

    name: str
    columns: Sequence[str]
    rows: Callable[[Sequence[str]], list[Row]]
    label: Callable[[str], str]
    number: str = ""


def sheet_of(problem: Problem[Any]) -> Sheet | None:
    """The tables of a problem that a kind made which draws tables; None for another problem."""
    from ..make import KINDS
    from ..make._kind import kind_of

    name = kind_of(problem.comments)
    make = None if name is None or name not in KINDS else KINDS[name].sheet
    if name is None or make is None:
        return None
    try:
        sheet = as_made(name, make)(problem)
    except NoPicture:
        return None
    return Sheet(sheet.name, sheet.columns, as_made(name, sheet.rows), as_made(name, sheet.label), sheet.number)


def labelling(problem: Problem[Any]) -> Callable[[str], str]:
    """What makes a label of an option's line: whole names where the problem is of a kind that draws tables."""
    sheet = sheet_of(problem)
    own: Callable[[str], str] = (lambda line: line) if sheet is None else sheet.label

    def label(line: str) -> str:
        try:
            return own(line)
        except NoPicture:
            return line

    return label


def as_made(name: str, act: Callable[[Any], Any]) -> Callable[[Any], Any]:
    """What is done with a problem of a kind. Raises `NoPicture` where the problem isn't as it was made."""

    def acted(given: Any) -> Any:
        try:
            return act(given)
        except NoPicture:
            raise
        except (StopIteration, LookupError, ValueError, ArithmeticError):
            raise NoPicture(f"the problem isn't as `helgrothy make {name}` made it") from None

    return acted


def whole_names(items: Sequence[str], names: Sequence[str]) -> dict[str, str]:
    """The whole name of each item, where the items were made of these names, in their order."""
    known = set(items)
    found = {name: name for name in names if name in known}
    for item, name in zip(items, names):
        if name not in known and item not in found and item_names([name])[name][:_ALIKE] == item[:_ALIKE]:
            found[item] = name
    return found

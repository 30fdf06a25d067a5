"""Solutions as data: a line of JSON for each solution, or a line of CSV for each choice.

Options are given by their numbers, from 1 on, as the variables of exports are. `of_json` and `of_csv` give back a name
that isn't written as it is.

Of a kind that draws tables, `as_table` writes those: their rows, with whole names.
"""

from __future__ import annotations

import csv
import io
import json
import re
from abc import ABC, abstractmethod
from collections.abc import Callable, Iterable, Iterator, Mapping, Sequence
from typing import Any, Optional

from ._text.sheet import Row, Sheet, sheet_of
from ._text.shown import bytes_of, text_of
from .problem import Problem

__all__ = ["FORMATS", "Csv", "Data", "Form", "Json", "as_table", "of_csv", "of_json", "to_csv", "to_json"]

Uses = Mapping[str, Optional[str]]

# Lines of CSV are filled up to so many items: one long option doesn't make all others long.
_MOST_FILLED = 1_000
# A byte of a name as JSON has it, after what stands there for a character that isn't known.
_BYTE = re.compile("\ufffd([0-9a-f]{2})")
_NOT_IN_JSON = re.compile("[\ufffd\udc80-\udcff]")
# What a spreadsheet takes for a formula where it isn't a number, or begins with apostrophes and then so.
_FORMULA = re.compile(r"'*[=+@-]")
_NUMBER = re.compile(r"[+-]?[0-9]+(?:\.[0-9]+)?\Z")


def to_json(name: str) -> str:
    """A name of any bytes as a text that JSON may have.

    Each byte that isn't UTF-8 is U+FFFD and its two hexadecimal digits; so are the bytes of a U+FFFD.
    """
    return _NOT_IN_JSON.sub(lambda found: "".join(f"\ufffd{byte:02x}" for byte in bytes_of(found.group())), name)


def of_json(text: str) -> str:
    """The name that is written so."""
    parts = _BYTE.split(text)
    return text_of(b"".join(bytes.fromhex(part) if place % 2 else bytes_of(part) for place, part in enumerate(parts)))


def to_csv(word: str) -> str:
    """A word as a cell that no spreadsheet takes for a formula.

    One that begins with = + - or @ and isn't a number gets an apostrophe in front; so does one that has it already.
    """
    return f"'{word}" if _FORMULA.match(word) and not _NUMBER.match(word) else word


def of_csv(cell: str) -> str:
    """The word that is written so."""
    return cell[1:] if cell.startswith("'") and _FORMULA.match(cell) else cell


class Form(ABC):
    """A form of solutions."""

    @abstractmethod
    def head(self) -> str:
        """What stands above all solutions."""

    @abstractmethod
    def solution(self, number: int, places: Sequence[int]) -> str:
        """A solution of this number, with the options of these places."""


class Data(Form):
    """A form of solutions as options. Those of a problem are written by their names, which are made once."""

    def __init__(self, problem: Problem[Any]) -> None:
        self._problem = problem
        self._uses: dict[int, Uses] = {}

    @abstractmethod
    def chances(self, total: int, times: Sequence[int]) -> str:
        """Of each option in how many of all solutions it is."""

    def _named(self, place: int) -> Uses:
        """The names of an option's items, each with its colour's name or None."""
        found = self._uses.get(place)
        if found is None:
            uses = self._problem._uses(self._problem.options[place]).items()
            found = {self._written(item): None if colour is None else self._written(colour) for item, colour in uses}
            self._uses[place] = found
        return found

    def _written(self, name: str) -> str:
        """A name as this form has it."""
        return name


class Json(Data):
    """A line for each solution: its number, the numbers of its options, their items, and what has which colour."""

    def head(self) -> str:
        return ""

    def _written(self, name: str) -> str:
        return to_json(name)

    def solution(self, number: int, places: Sequence[int]) -> str:
        uses = [self._named(place) for place in places]
        fields = {
            "number": number,
            "options": [place + 1 for place in places],
            "items": [list(option) for option in uses],
            # Options of one solution agree about the colour of an item.
            "colours": {item: colour for option in uses for item, colour in option.items() if colour is not None},
        }
        return f"{json.dumps(fields)}\n"

    def chances(self, total: int, times: Sequence[int]) -> str:
        return f"{json.dumps({'solutions': total, 'occurrences': list(times)})}\n"


class Csv(Data):
    """A line for each choice: the solution's number, the option's number, and the option's items."""

    def __init__(self, problem: Problem[Any]) -> None:
        super().__init__(problem)
        self._width = max((len(list(problem._pairs(option))) for option in problem.options), default=0)

    def head(self) -> str:
        return self._heads("solution")

    def solution(self, number: int, places: Sequence[int]) -> str:
        return self._lines(self._row(number, place) for place in places)

    def chances(self, total: int, times: Sequence[int]) -> str:
        return self._heads("solutions") + self._lines(self._row(count, place) for place, count in enumerate(times))

    def _heads(self, first: str) -> str:
        return self._lines([[first, "option", *(f"item {place}" for place in range(1, self._width + 1))]])

    def _row(self, first: int, place: int) -> list[object]:
        words = list(self._words(place))
        return [first, place + 1, *words, *[""] * (min(self._width, _MOST_FILLED) - len(words))]

    def _words(self, place: int) -> Iterator[str]:
        for item, colour in self._named(place).items():
            yield to_csv(item if colour is None else f"{item}:{colour}")

    @staticmethod
    def _lines(rows: Iterable[Sequence[object]]) -> str:
        return _csv(rows)


def _csv(rows: Iterable[Sequence[object]]) -> str:
    """Rows as lines of CSV."""
    text = io.StringIO()
    csv.writer(text, lineterminator="\n").writerows(rows)
    return text.getvalue()


class _Table(Form):
    """A form of solutions as tables."""

    def __init__(self, problem: Problem[Any], sheet: Sheet) -> None:
        self._problem = problem
        self._sheet = sheet

    def solution(self, number: int, places: Sequence[int]) -> str:
        lines = [self._problem.line(self._problem.options[place]) for place in places]
        return self._rows(number, self._sheet.rows(lines))

    @abstractmethod
    def _rows(self, number: int, rows: Sequence[Row]) -> str:
        """The rows of a solution of this number."""


class _JsonTable(_Table):
    """A line for each solution: its number, and its rows, each with the cells by the names of the columns."""

    def head(self) -> str:
        return ""

    def _rows(self, number: int, rows: Sequence[Row]) -> str:
        columns = list(map(to_json, self._sheet.columns))
        found = [dict(zip(columns, (to_json(cell) if isinstance(cell, str) else cell for cell in row))) for row in rows]
        return f"{json.dumps({'number': number, self._sheet.name: found})}\n"


class _CsvTable(_Table):
    """A line for each row: the solution's number, and the cells."""

    def head(self) -> str:
        numbered = [self._sheet.number] if self._sheet.number else []
        return _csv([["solution", *numbered, *map(to_csv, self._sheet.columns)]])

    def _rows(self, number: int, rows: Sequence[Row]) -> str:
        is_numbered = bool(self._sheet.number)
        return _csv(
            [number, *([at] if is_numbered else []), *(to_csv(cell) if isinstance(cell, str) else cell for cell in row)]
            for at, row in enumerate(rows, 1)
        )


_TABLES: dict[str, Callable[[Problem[Any], Sheet], _Table]] = {"json": _JsonTable, "csv": _CsvTable}


def as_table(form: str, problem: Problem[Any]) -> Form | None:
    """The tables of a problem that a kind made which draws tables, `json` or `csv`; None for another problem."""
    sheet = sheet_of(problem)
    return None if sheet is None else _TABLES[form](problem, sheet)


FORMATS: dict[str, Callable[[Problem[Any]], Data]] = {"json": Json, "csv": Csv}

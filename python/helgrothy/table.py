"""Tables of solutions: names in rows and columns, such as a timetable's slots and rooms.

A `Table` finds the names of a row, a column and a label by patterns, in the words of an option's line. They stand in
the order of the file.
"""

from __future__ import annotations

import re
from collections.abc import Iterable, Sequence
from dataclasses import dataclass
from typing import TYPE_CHECKING, Any

from .draw import Cell, Drawing, Pattern, Picture, Shades, check_size, compiled, no_match

if TYPE_CHECKING:
    from .problem import Problem

__all__ = ["Table"]

_PARTS = "words, and parts of them between signs,"


@dataclass(frozen=True)
class Table:
    """A drawing by patterns (regular expressions) for the names of rows, of columns and of what stands in the cells.

    Each is looked for in the words of an option's line, as a word or a part of one between signs: in `mon1,hall` both
    `mon1` and `hall` are found, and `on` isn't. A name is a match's first group, or else all of it. An option fills
    the cells whose row and column stand in one word; where no word has both, each of its rows in each of its columns.
    Without a pattern for rows or for columns there is one of them. Without one for the label it is the first word
    that has neither.
    """

    row: str | None = None
    column: str | None = None
    label: str | None = None

    def of(self, problem: Problem[Any]) -> Drawing:
        """The drawing for a problem. Raises `NoPicture` where no option has a cell, or `re.error`."""
        lines = [problem.line(option).split() for option in problem.options]
        names = [*problem.item_names, *problem.secondary_names]
        rows, columns, label = _Names("row", self.row), _Names("column", self.column), _Names("label", self.label)
        for axis in (rows, columns):
            axis.take(names, lines)
        if label.pattern is not None and not any(label.of(word) for line in lines for word in line):
            raise no_match("label", self.label or "", _PARTS, map(" ".join, lines))
        check_size(len(rows.order), len(columns.order), len(lines))
        shades = Shades()

        def draw(solution: Sequence[str]) -> Picture:
            cells = {(r, c): Cell() for r in range(len(rows.order)) for c in range(len(columns.order))}
            for line in solution:
                words = line.split()
                named = _label(words, rows, columns, label)
                for r, c in sorted(_places(words, rows, columns)):
                    cell = cells[r, c]
                    cell.label = f"{cell.label} {named}" if cell.label else named
                    cell.fill = shades[named]
            return Picture("a table", cells, rows.heads(), columns.heads())

        return draw


def by_patterns(
    problem: Problem[Any],
    cell: str | None,
    row: str | None,
    column: str | None,
    label: str | None,
    grid: str | None = None,
) -> Drawing | None:
    """The drawing by patterns for a board or a table; None where there are none. Raises `ValueError`, `NoPicture`."""
    if cell is not None and (row is not None or column is not None):
        raise ValueError("--cell is for a board, --row and --column are for a table: not both")
    if cell is None and grid is not None:
        raise ValueError("--grid is of the cells of --cell")
    try:
        if cell is not None:
            return Pattern(cell, label or r"(?!)", grid or "square").of(problem)
        return None if row is None and column is None else Table(row, column, label).of(problem)
    except (re.error, OverflowError, RecursionError) as error:
        raise ValueError(f"a pattern is wrong: {error}") from None


class _Names:
    """The names that a pattern finds, in their order; without a pattern there is one, which is nowhere."""

    def __init__(self, what: str, pattern: str | None) -> None:
        self.what = what
        self.given = pattern or ""
        self.pattern = None if pattern is None else compiled(pattern, r"(?<!\w)", r"(?!\w)")
        # Most words stand in many options.
        self._known: dict[str, list[str]] = {}
        self.order: dict[str, int] = {} if pattern is not None else {"": 0}

    def of(self, word: str) -> list[str]:
        """The names in a word."""
        known = self._known.get(word)
        if known is None:
            known = self._known[word] = self._found(word)
        return known

    def _found(self, word: str) -> list[str]:
        if self.pattern is None:
            return []
        group = 1 if self.pattern.groups else 0
        return [found.group(group) for found in self.pattern.finditer(word) if found.group(group)]

    def take(self, items: Iterable[str], lines: Sequence[Sequence[str]]) -> None:
        """Orders the names that options have as the items do, and then as the options. Raises `NoPicture`."""
        if self.pattern is None:
            return
        held = dict.fromkeys(name for line in lines for word in line for name in self.of(word))
        if not held:
            raise no_match(self.what, self.given, _PARTS, map(" ".join, lines))
        for name in [*(name for item in items for name in self.of(item)), *held]:
            if name in held:
                self.order.setdefault(name, len(self.order))

    def heads(self) -> list[str]:
        return [] if self.pattern is None else list(self.order)


def _places(words: Sequence[str], rows: _Names, columns: _Names) -> set[tuple[int, int]]:
    """The cells that an option fills."""
    found = [(rows.of(word), columns.of(word)) for word in words]
    if rows.pattern is None or columns.pattern is None or not any(r and c for r, c in found):
        all_rows = [name for names, _ in found for name in names] if rows.pattern else [""]
        all_columns = [name for _, names in found for name in names] if columns.pattern else [""]
        found = [(all_rows, all_columns)]
    return {(rows.order[row], columns.order[column]) for r, c in found for row in r for column in c}


def _label(words: Sequence[str], rows: _Names, columns: _Names, label: _Names) -> str:
    if label.pattern is not None:
        return next((name for word in words for name in label.of(word)), "*")
    return next((word for word in words if not rows.of(word) and not columns.of(word)), "*")

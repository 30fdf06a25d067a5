"""Words of a list across and down in a grid, as in a crossword."""

from __future__ import annotations

import argparse
import re
from collections import Counter
from collections.abc import Iterable, Iterator, Sequence
from typing import Any, Optional

from .._text.syntax import MOST_USES
from ..draw import Cell, Drawing, Picture, check_size
from ..problem import Problem
from ._kind import Counted, Kind, check_texts, picture, read_text

__all__ = ["problem"]

Square = tuple[int, int]
Option = dict[str, Optional[str]]

_CELL = re.compile(r"r(\d+)c(\d+)(?::(.+))?\Z")


def problem(grid: str, words: Iterable[str]) -> Problem[Option]:
    """The grid filled by words of the list, each used once at most.

    The picture of the grid has # for a black square, a letter for one that is given, and anything else for one that
    is to be filled. Two or more squares in a row, across or down, hold a word. Words of other than letters are left
    out; small and large letters are the same.

    An option is a word in its squares, `across-rRcC rRcC:a rRcC:b .. =word`: a square has its letter as a colour.
    Raises `TableFault`.
    """
    check_texts(grid=grid)
    if isinstance(words, str):
        raise TypeError("words are a list, and this is one text; text.split() gives its words")
    rows = [line for _, line in picture(grid)]
    marks = {(r, c): mark for r, row in enumerate(rows, 1) for c, mark in enumerate(row, 1) if mark != "#"}
    slots = {f"{way}-{_name(squares[0])}": squares for way, squares in _slots(marks)}
    lexicon = _Lexicon(words)
    fitting = {slot: lexicon.fitting([marks[at] for at in squares]) for slot, squares in slots.items()}
    if sum((1 + len(slots[slot])) * len(words) for slot, words in fitting.items()) > MOST_USES:
        raise ValueError(f"the problem would have more than {MOST_USES} uses of items")
    times = Counter(word for words in fitting.values() for word in words)
    options: Counted[Option] = Counted()
    for slot, squares in slots.items():
        for word in fitting[slot]:
            option: Option = {slot: None, **{_name(at): letter for at, letter in zip(squares, word)}}
            if times[word] > 1:
                option[f"={word}"] = None
            options.add(option)
    return Problem(
        list(slots),
        [*(_name(at) for at in marks), *(f"={word}" for word, count in times.items() if count > 1)],
        options,
        comments=[
            "helgrothy make words GRID LIST",
            "A word in each place across and down; a letter is a colour of its square rRcC, =word is used once. "
            "The grid:",
            *rows,
        ],
    )


def _name(at: Square) -> str:
    return f"r{at[0]}c{at[1]}"


def _slots(marks: dict[Square, str]) -> Iterator[tuple[str, list[Square]]]:
    """The places of words, each with its squares."""
    for way, down, right in (("across", 0, 1), ("down", 1, 0)):
        for r, c in marks:
            if (r - down, c - right) in marks:
                continue
            squares = []
            while (r, c) in marks:
                squares.append((r, c))
                r, c = r + down, c + right
            if len(squares) > 1:
                yield way, squares


class _Lexicon:
    """A list of words, each once, that is asked for those that fit given letters."""

    def __init__(self, words: Iterable[str]) -> None:
        self._words = list(dict.fromkeys(word.lower() for word in words if word.isalpha()))
        # The words of a length; with a letter at a place; and what was found for the letters of places.
        self._of_length: dict[int, list[str]] = {}
        self._with: dict[tuple[int, int, str], list[str]] = {}
        self._fitting: dict[tuple[str, ...], list[str]] = {}
        for word in self._words:
            self._of_length.setdefault(len(word), []).append(word)
            for place, letter in enumerate(word):
                self._with.setdefault((len(word), place, letter), []).append(word)

    def fitting(self, marks: Sequence[str]) -> list[str]:
        """The words for a row of squares with these marks, of which letters are given, in their order."""
        letters = tuple(mark.lower() if mark.isalpha() else "" for mark in marks)
        found = self._fitting.get(letters)
        if found is None:
            given = [(place, letter) for place, letter in enumerate(letters) if letter]
            rows = [self._with.get((len(letters), place, letter), []) for place, letter in given]
            candidates = min(rows, key=len, default=self._of_length.get(len(letters), []))
            found = [word for word in candidates if all(word[place] == letter for place, letter in given)]
            self._fitting[letters] = found
        return found


def drawing(problem: Problem[Any]) -> Drawing:
    """The grid with its letters and black squares."""
    found = map(_CELL.match, problem.secondary_names)
    board = {(int(cell.group(1)) - 1, int(cell.group(2)) - 1) for cell in found if cell}
    rows, columns = max(r for r, _ in board) + 1, max(c for _, c in board) + 1
    check_size(rows, columns, len(board))

    def draw(lines: Sequence[str]) -> Picture:
        cells = {
            (r, c): Cell() if (r, c) in board else Cell("#", fill="#222", is_quiet=True)
            for r in range(rows)
            for c in range(columns)
        }
        for line in lines:
            for cell in filter(None, map(_CELL.match, line.split())):
                cells[int(cell.group(1)) - 1, int(cell.group(2)) - 1].label = cell.group(3) or ""
        return Picture("a grid of words", cells)

    return draw


def _add_arguments(parser: argparse.ArgumentParser) -> None:
    parser.add_argument(
        "grid", metavar="GRID", help="a file with a picture: # a black square, a letter a given one, else to be filled"
    )
    parser.add_argument("list", metavar="LIST", help="a file of words parted by white space")


def _make(arguments: argparse.Namespace) -> Problem[Option]:
    return problem(read_text(arguments.grid), read_text(arguments.list).split())


# A word across shows its squares, and so do the words down.
KIND = Kind(
    "words",
    "words across and down in a grid",
    _add_arguments,
    _make,
    drawing,
    view=lambda line: line.partition("-")[0],
)


def __dir__() -> list[str]:
    return __all__

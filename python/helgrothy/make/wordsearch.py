"""A word search: words of a list hidden in a grid of letters, along a row, a column or a diagonal."""

from __future__ import annotations

import argparse
import math
import re
import sys
from collections.abc import Iterable, Iterator, Mapping, Sequence
from typing import TYPE_CHECKING, Any, Optional

from .._cli.console import number
from .._text.shown import bytes_of
from .._text.syntax import MOST_COLOUR, MOST_NAME, MOST_USES
from ..draw import Cell, Drawing, Picture, Shades, check_size
from ..errors import TableFault
from ..problem import Problem
from ._kind import (
    Counted,
    Kind,
    check_items,
    check_numbers,
    check_sizes,
    check_texts,
    cut,
    numbered,
    picture,
    read_text,
)

if TYPE_CHECKING:
    import random

__all__ = ["problem"]

Square = tuple[int, int]
Option = dict[str, Optional[str]]

_BOX = re.compile(r"([0-9]{1,9})x([0-9]{1,9})\Z")
_CELL = re.compile(r"r(\d+)c(\d+)(?::(.+))?\Z")
_FILLED = re.compile(r"helgrothy make wordsearch .*--fill ([0-9]+)")
# Right, down and the two diagonals between; the others are these backwards.
_FORWARDS = ((0, 1), (1, 1), (1, 0), (-1, 1))
_WAYS = _FORWARDS + tuple((-down, -right) for down, right in _FORWARDS)
# Without a size the grid has so many squares for each letter of the list.
_ROOM = 1.5
# So far from one letter are others of its alphabet.
_BESIDE = 25
# So many letters are laid at most on squares, of which those of words that fit are uses.
_MOST_TRIED = 2 * MOST_USES


def problem(
    words: str, grid: str | None = None, *, forwards: bool = False, fill: int | None = None
) -> Problem[Option]:
    """Each word of a list is placed once in a grid, in one of eight directions; where words cross they share a letter.

    words: parted by white space. grid: `12x12`, or a picture in which # is a hole, a letter is given and anything else
        is free; without it a square with room for all. forwards: no word is written backwards, upwards or to the left.
    fill: the seed of the letters that are drawn in the squares that are left free. They make no word of the list once
        more; without a seed such squares are dots.

    An option is a word in its squares, `WORD rRcC:W rRcC:O ..`: a square has its letter as a colour. Raises
    `TableFault`.
    """
    check_texts(words=words, grid=grid or "")
    check_numbers(fill=fill or 0)
    # A command that only prints its help doesn't wait for it.
    import random

    listed = _words(words)
    board = _board(grid, listed)
    ways = _FORWARDS if forwards else _WAYS
    if sum(1 + len(word) for word in listed) * len(board) * len(ways) > _MOST_TRIED:
        raise ValueError("the list and the grid are too large")
    check_items(len(listed) + len(board))
    rng = random.Random(0)
    options: Counted[Option] = Counted()
    for word, line in listed.items():
        before = len(options)
        for placed in _placed(word, board, ways, rng):
            options.add({word: None, **{_name(at): letter for at, letter in placed.items()}})
        if len(options) == before:
            raise TableFault(line, word, "it fits nowhere in the grid")
    return Problem(list(listed), [_name(at) for at in board], options, comments=list(_comments(board, forwards, fill)))


def _comments(board: Mapping[Square, str], forwards: bool, fill: int | None) -> Iterator[str]:
    options = ["--forwards"] * forwards + ([] if fill is None else [f"--fill {fill}"])
    yield " ".join(["helgrothy make wordsearch LIST GRID", *options])
    yield "Each word once; a letter is a colour of its square rRcC. The grid:"
    rows, columns = max(r for r, _ in board), max(c for _, c in board)
    for r in range(1, rows + 1):
        yield "".join((board[r, c] or ".") if (r, c) in board else "#" for c in range(1, columns + 1))


def _name(at: Square) -> str:
    return f"r{at[0]}c{at[1]}"


# ---- what is given


def _words(text: str) -> dict[str, int]:
    """The words of a list in capitals, each with its line. Raises `TableFault`."""
    found: dict[str, int] = {}
    for line, row in numbered(text):
        for written in row.split():
            word = written.upper()
            if not word.isalpha() or len(word) < 2:
                raise TableFault(line, cut(written), "a word has two letters or more, and nothing else")
            if len(bytes_of(word)) > MOST_NAME or max(len(bytes_of(letter)) for letter in word) > MOST_COLOUR:
                raise TableFault(line, cut(written), f"a word has at most {MOST_NAME} bytes")
            if word in found:
                raise TableFault(line, cut(written), f"the word is in line {found[word]} already")
            found[word] = line
    if not found:
        raise TableFault(1, "", "no words")
    return found


def _board(grid: str | None, words: Iterable[str]) -> dict[Square, str]:
    """The squares, each with the letter that is given there, or none. Raises `TableFault`."""
    size = None if grid is None else _BOX.match(grid)
    if grid is not None and size is None:
        check_sizes(grid, "ROWSxCOLUMNS")
        rows = enumerate((line for _, line in picture(grid)), 1)
        marks = {(r, c): mark for r, row in rows for c, mark in enumerate(row, 1) if mark != "#"}
        if not marks:
            raise TableFault(1, "", "the grid has no square")
        return {at: mark.upper() if mark.isalpha() else "" for at, mark in marks.items()}
    if size is None:
        lengths = list(map(len, words))
        high = wide = max(*lengths, 2, math.ceil(math.sqrt(_ROOM * sum(lengths))))
    else:
        high, wide = int(size.group(1)), int(size.group(2))
    if not high or not wide:
        raise TableFault(1, grid or "", "an empty grid")
    check_items(high * wide)
    return {(r, c): "" for r in range(1, high + 1) for c in range(1, wide + 1)}


def _placed(
    word: str, board: Mapping[Square, str], ways: Sequence[Square], rng: random.Random
) -> Iterator[dict[Square, str]]:
    """The word in all of its places: its squares with their letters.

    They are in a random order, so that the first solution has words all over the grid.
    """
    from ..shuffle import order

    # A word that is the same backwards has no other way back.
    ways = _FORWARDS if word == word[::-1] else ways
    begins = [(at, way) for at in board for way in ways]
    for begin in order(len(begins), rng):
        (r, c), (down, right) = begins[begin]
        placed = {(r + k * down, c + k * right): letter for k, letter in enumerate(word)}
        if all(board.get(at, "#") in ("", letter) for at, letter in placed.items()):
            yield placed


# ---- letters in free squares


def filled(letters: Mapping[Square, str], words: Sequence[str], seed: int) -> dict[Square, str]:
    """Letters with one more for each free square, such that no word is there once more: of those in the words or, where
    each of them would make one, another of the alphabet."""
    import random

    rng = random.Random(seed)
    known = dict(letters)
    pool = sorted("".join(words))
    others = sorted({near for letter in set(pool) for near in _near(letter)} - set(pool))
    having: dict[str, list[tuple[str, int]]] = {}
    for word in words:
        for own, letter in enumerate(word):
            having.setdefault(letter, []).append((word, own))
    for at in [at for at, letter in letters.items() if not letter]:
        for letter in dict.fromkeys(rng.choices(pool, k=4 * len(set(pool)))):
            known[at] = letter
            if not any(_is_through(word, own, at, known) for word, own in having[letter]):
                break
        else:
            known[at] = rng.choice(others) if others else ""
    return known


def _near(letter: str) -> Iterator[str]:
    """The capitals beside a letter in its alphabet."""
    for code in range(max(ord(letter) - _BESIDE, 0), min(ord(letter) + _BESIDE, sys.maxunicode) + 1):
        if chr(code).isalpha() and chr(code).upper() == chr(code):
            yield chr(code)


def _is_through(word: str, own: int, at: Square, known: Mapping[Square, str]) -> bool:
    """Whether the word is written somewhere with the letter of this number in a square."""
    return any(
        all(known.get((at[0] + (k - own) * down, at[1] + (k - own) * right)) == mark for k, mark in enumerate(word))
        for down, right in _WAYS
    )


# ---- pictures


def drawing(problem: Problem[Any]) -> Drawing:
    """The letters of the words in colours, and dots; or the puzzle, whose free squares are filled with letters."""
    board = {(int(cell.group(1)), int(cell.group(2))) for cell in map(_CELL.match, problem.secondary_names) if cell}
    rows, columns = max(r for r, _ in board), max(c for _, c in board)
    check_size(rows, columns, len(board))
    fill = _FILLED.match(problem.comments[0])
    given = {
        (r, c): mark
        for r, line in enumerate(problem.comments[2:], 1)
        for c, mark in enumerate(line, 1)
        if mark.isalpha() and (r, c) in board
    }
    words = problem.item_names
    shades = Shades()

    def draw(lines: Sequence[str]) -> Picture:
        letters = {at: given.get(at, "") for at in sorted(board)}
        fills: dict[Square, str] = {}
        for line in lines:
            word, *squares = line.split()
            for cell in filter(None, map(_CELL.match, squares)):
                at = int(cell.group(1)), int(cell.group(2))
                letters[at] = cell.group(3) or ""
                fills[at] = shades[word]
        if fill is not None and lines:
            letters, fills = filled(letters, words, int(fill.group(1))), {}
        cells = {(r - 1, c - 1): Cell(letter, fill=fills.get((r, c), "#fff")) for (r, c), letter in letters.items()}
        return Picture("a word search", cells)

    return draw


# ---- the command


def _add_arguments(parser: argparse.ArgumentParser) -> None:
    parser.add_argument("list", metavar="LIST", help="a file of words parted by white space")
    parser.add_argument(
        "grid",
        metavar="GRID",
        nargs="?",
        help="ROWSxCOLUMNS, or a file with a picture: # a hole, a letter a given one, else free (default: a square)",
    )
    parser.add_argument("--forwards", action="store_true", help="no word is written to the left or straight up")
    parser.add_argument(
        "--fill", type=number, metavar="SEED", help="letters in the free squares too, the same for the same number"
    )


def _make(arguments: argparse.Namespace) -> Problem[Option]:
    grid = arguments.grid
    if grid is not None and not _BOX.match(grid):
        grid = read_text(grid, "ROWSxCOLUMNS")
    return problem(read_text(arguments.list), grid, forwards=arguments.forwards, fill=arguments.fill)


KIND = Kind(
    "wordsearch", "words of a list hidden in a grid of letters", _add_arguments, _make, drawing, view=None
)


def __dir__() -> list[str]:
    return __all__

"""Listings: from the lines of a choice to the options of a problem.

A choice line gives an option's uses from the branch item on, round the option, so one option has as many lines as
it has uses, each with ` (k of n)` after it. `Decoder` knows an option by the rotation that begins with its least
word.
"""

from __future__ import annotations

import re
from collections.abc import Callable, Generator, Hashable, Iterable, Iterator, Mapping
from dataclasses import dataclass, field
from typing import Generic, TypeVar, Union

from ..errors import ListingFault, UnknownChoice
from .shown import text_of

Option = TypeVar("Option")
S = TypeVar("S")

_HEADER = re.compile(rb"([0-9]{1,20}):\Z")
_CHOICE = re.compile(rb" \S+(?: \S+)* \([0-9]{1,10} of [0-9]{1,10}\)\Z")
_NUMBERS = re.compile(rb"^([0-9]{1,20}):$", re.MULTILINE)
# So many lines are remembered with the numbers after them.
_MOST_LINES = 1 << 15


@dataclass(frozen=True)
class Null:
    """The choice of none: the primary item gets no further option. It is a step of the search and adds nothing."""

    item: Hashable


@dataclass(frozen=True)
class Step:
    """A step of the search: the name of the item at which it chose; the option's place in the problem, from 0 on, or
    None where the item gets no further option; and that this was branch `branch` of `branches`.
    """

    item: str
    option: int | None
    branch: int
    branches: int


def bare_steps(options: Iterable[int]) -> list[Step]:
    """Options of a solution as steps of which nothing else is known: each is branch 0 of 0."""
    return [Step("", option, 0, 0) for option in options]


def branch_of(line: bytes, is_null: bool) -> tuple[bytes, int, int]:
    """The item at which a choice line chose, and which branch of how many it was."""
    words = line.split(b" ")
    return words[2 if is_null else 1], int(words[-3][1:]), int(words[-1][:-1])


def turned(body: bytes) -> bytes:
    """The words of an option, turned such that the least stands first."""
    words = body.split(b" ")
    least = words.index(min(words))
    return b" ".join(words[least:] + words[:least])


class Decoder(dict[bytes, Union[Option, Null]], Generic[Option]):
    """What each choice line says: an option, or `Null`. A table that fills itself as lines are looked up.

    `options` are by `turned` bodies, `items` the primary items by name. Raises `UnknownChoice` for a line that says
    neither. A body that is both an option's and that of a choice of none is read as the option's, as by dlxcheck.
    """

    def __init__(self, options: Mapping[bytes, Option], items: Mapping[bytes, Hashable]) -> None:
        super().__init__()
        # A body has as many lines as there are numbers after it; of bodies there are at most as many as uses.
        self._bodies: dict[bytes, Option | Null] = {}
        self._options = options
        self._items = items

    def __missing__(self, line: bytes) -> Option | Null:
        body = line[1 : max(line.rfind(b" ("), 0)]
        choice = self._bodies.get(body)
        if choice is None:
            choice = self._bodies[body] = self._read(body)
        if len(self) < _MOST_LINES:
            self[line] = choice
        return choice

    def read(self, lines: bytes) -> list[Option | Null]:
        """The choices of lines, without what stands after the last one's end."""
        parts = lines.split(b"\n")
        parts.pop()
        return list(map(self.__getitem__, parts))

    def _read(self, body: bytes) -> Option | Null:
        key = turned(body)
        if key in self._options:
            return self._options[key]
        if body.startswith(b"null ") and body[5:] in self._items:
            return Null(self._items[body[5:]])
        raise UnknownChoice(body)


def stream(
    chunks: Iterable[bytes],
    give: Callable[[bytes], S],
    is_whole: Callable[[bytes], bool],
    count: Callable[[int], None] = lambda more: None,
) -> Generator[S, None, bool]:
    """The solutions of a program's own listing as its bytes come; `give` makes one of its choice lines, and `count`
    gets how many more there are.

    A solution ends where the next one begins, and after its lines is that one's number, which is no line. So that
    the last one that came needn't wait for it, `is_whole` says whether lines are all of a solution. Returns whether
    the listing ends within one.
    """
    rest = b""
    is_open = False
    for chunk in chunks:
        if rest.endswith(b":"):
            rest, chunk = b"", rest + chunk
        # A line of an option ends with a bracket, so only that of a number ends with a colon.
        pieces = chunk.split(b":\n")
        pieces[0] = rest + pieces[0]
        rest = pieces.pop()
        if pieces and not is_open:
            del pieces[0]
            is_open = True
        count(len(pieces))
        yield from map(give, pieces)
        if is_open and rest.endswith(b"\n") and is_whole(rest):
            count(1)
            yield give(rest)
            rest, is_open = b"", False
    return is_open


def last_number(text: bytes) -> int | None:
    """The last number of a solution in a part of a program's own listing."""
    numbers = _NUMBERS.findall(text)
    return int(numbers[-1]) if numbers else None


@dataclass
class Choices:
    """A solution of a listing: the number in its header, its choices as numbers of options, and the line of each."""

    number: int
    choices: list[int | Null] = field(default_factory=list)
    lines: list[bytes] = field(default_factory=list)


def solutions(lines: Iterable[bytes], decode: Decoder[int]) -> Iterator[Choices]:
    """The solutions of any listing, line by line. Raises `ListingFault`."""
    listed = None
    for number, line in enumerate(lines, 1):
        line = line[:-1] if line.endswith(b"\n") else line
        header = _HEADER.match(line)
        if header is not None:
            if listed is not None:
                yield listed
            listed = Choices(int(header.group(1)))
        elif listed is None or _CHOICE.match(line) is None:
            raise ListingFault(number, text_of(line), "bad line", _hint(line))
        else:
            try:
                listed.choices.append(decode[line])
                listed.lines.append(line)
            except UnknownChoice:
                raise ListingFault(number, text_of(line.strip()), "unknown option") from None
    if listed is not None:
        yield listed


def _hint(line: bytes) -> str:
    if line.startswith((b"Altogether ", b"Option ignored ")):
        return "messages of standard error are no part of a listing"
    if line.endswith(b"\r"):
        return "it ends with a carriage return"
    return ""

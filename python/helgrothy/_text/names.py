"""Names for items and colours of any kind, such that the programs read them."""

from __future__ import annotations

import itertools
import re
from collections.abc import Callable, Hashable, Iterable, Iterator

from .shown import bytes_of, text_of
from .syntax import MOST_COLOUR, MOST_NAME, name_fault

# What isn't in a name, halves of characters among it, which no text has as bytes; `text_of` uses \udc80 to \udcff.
_NOT_IN_NAME = re.compile(r"[\s:|\0\ud800-\udc7f\udd00-\udfff]+", re.ASCII)
_IN_NAME = [bytes([byte]) for byte in range(256) if byte not in b"\0 \t\n\v\f\r:|"]
_NOT_IN_COLOUR = re.compile(r"[\s\0\ud800-\udc7f\udd00-\udfff]+", re.ASCII)


def item_names(items: Iterable[Hashable]) -> dict[Hashable, str]:
    """A name for each item: a text that is one stays, of others one is made that is near to it."""
    return _named(items, _is_name, _NOT_IN_NAME, MOST_NAME, "i")


def colour_names(colours: Iterable[Hashable]) -> dict[Hashable, str]:
    """A name for each colour, by the rules of colours."""
    return _named(colours, _is_colour, _NOT_IN_COLOUR, MOST_COLOUR, "c")


def codes() -> Iterator[str]:
    """Names as short as can be, without end, of all bytes that may be in one. None of the first 200,000 is `null`."""
    alphabet = sorted(map(text_of, _IN_NAME), key=lambda letter: not (letter.isascii() and letter.isalnum()))
    for length in itertools.count(1):
        for letters in itertools.product(alphabet, repeat=length):
            yield "".join(letters)


def _is_name(text: str) -> bool:
    return not _NOT_IN_NAME.search(text) and name_fault(bytes_of(text)) is None


def _is_colour(text: str) -> bool:
    return not _NOT_IN_COLOUR.search(text) and 1 <= len(bytes_of(text)) <= MOST_COLOUR


def _named(
    values: Iterable[Hashable], is_legal: Callable[[str], bool], illegal: re.Pattern[str], most: int, stem: str
) -> dict[Hashable, str]:
    names: dict[Hashable, str | None] = {}
    for value in values:
        names[value] = value if isinstance(value, str) and is_legal(value) else None
    taken: set[str] = {name for name in names.values() if name is not None}
    last: dict[str, int] = {}
    made: dict[Hashable, str] = {}
    for number, (value, name) in enumerate(names.items(), 1):
        if name is None:
            spelled = _spelled(value)
            near = f"{stem}{number}" if spelled is None else illegal.sub("_", spelled) or stem
            name = _cut(near, most)
            while name in taken or not is_legal(name):
                last[near] = last.get(near, 1) + 1
                end = f"~{last[near]}"
                name = _cut(near, most - len(end)) + end
            taken.add(name)
        made[value] = name
    return made


def _spelled(value: Hashable) -> str | None:
    """Numbers, texts and tuples of them as text; of other values the text may change from run to run."""
    if isinstance(value, (str, int, float)):
        return str(value)
    if isinstance(value, tuple):
        parts = [_spelled(part) for part in value]
        if all(part is not None for part in parts):
            return ",".join(part for part in parts if part is not None)
    return None


def _cut(text: str, most: int) -> str:
    """The first characters of a text, as many as have so many bytes."""
    raw = bytes_of(text)
    if len(raw) > most:
        while most and raw[most] & 0xC0 == 0x80:
            most -= 1
    return text_of(raw[:most])

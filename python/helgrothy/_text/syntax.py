"""The text of a problem: its rules, as docs/INPUT.md states them, and a reader that reports every fault.

The programs report the first fault and its line. `read` goes on after a fault, and says which token it is. The first
of its faults is the one that the programs report.

Readers stop, since a text of 1 MB can hold 500,000 faults: commands that report one fault at the first, `lint` after a
thousand. The search for similar names takes at most a fifth of a second in all.
"""

from __future__ import annotations

import re
import time
from collections.abc import Collection, Iterator
from dataclasses import dataclass, field
from typing import NamedTuple

from ..errors import ProblemFault
from .shown import text_of

MOST_ITEMS = 100_000
MOST_USES = 10_000_000
MOST_NAME = 32
MOST_COLOUR = 8
MOST_BOUND = 999_999_999
WHITE = b" \t\v\f\r"
# After so many faults a text isn't read on.
MOST_FAULTS = 1_000
COMMENT = "a comment begins with |"
# The nearest names are looked for so many seconds in all, and among so many names each.
_HINTING = 0.2
_MOST_NEAR = 20_000

_BOUND = re.compile(rb"([0-9]{1,9})(?::([0-9]{1,9}))?\Z")


# A pair to those who give bounds and read them. Other records are dataclasses, but for those of `spans`: a short search
# would wait for what `dataclasses` loads as long as for its first spans.
class Bounds(NamedTuple):
    """How often a primary item is to be held: at least `low` and at most `high` times."""

    low: int
    high: int


ONCE = Bounds(1, 1)


@dataclass(frozen=True)
class ItemLine:
    """An item of the item line; `bounds` is None for a secondary one."""

    name: str
    bounds: Bounds | None


@dataclass(frozen=True)
class OptionLine:
    """An option: its line, and its uses in their order, each an item's name with its colour or None."""

    line: int
    uses: dict[str, str | None]


@dataclass
class Sheet:
    """What a text says: comments (line and text), items, options, the lines of ignored ones, and all faults."""

    comments: list[tuple[int, str]] = field(default_factory=list)
    item_line: int = 0
    item_tokens: list[str] = field(default_factory=list)
    items: dict[str, ItemLine] = field(default_factory=dict)
    options: list[OptionLine] = field(default_factory=list)
    ignored: list[int] = field(default_factory=list)
    faults: list[ProblemFault] = field(default_factory=list)
    # Whether there were so many faults that the text wasn't read on.
    is_cut: bool = False


def name_fault(name: bytes) -> str | None:
    """What is wrong with the form of a name, if anything."""
    if not name:
        return "empty name"
    if len(name) > MOST_NAME:
        return "name too long"
    if b":" in name or b"|" in name:
        return "bad byte in name"
    return None


def bounds_fault(low: int, high: int) -> str | None:
    """What is wrong with two bounds, if anything."""
    if not (0 <= low <= MOST_BOUND and 0 <= high <= MOST_BOUND):
        return "bad bound"
    if high == 0 or high < low:
        return "bound order"
    return None


def read(raw: bytes, kind: int = 3, most_faults: int = MOST_FAULTS) -> Sheet:
    """Reads the text of a problem for the program dlx`kind`. Raises nothing: faults are in the sheet.

    After so many faults nothing is read, and the sheet says so.
    """
    return _Reader(kind, most_faults).read(raw)


class _Reader:
    def __init__(self, kind: int, most_faults: int) -> None:
        self.kind = kind
        self.most_faults = most_faults
        self.sheet = Sheet()
        self.uses = 0
        self.nearest = Nearest()

    def read(self, raw: bytes) -> Sheet:
        lines = raw.split(b"\n")
        if not lines[-1]:
            lines.pop()
        try:
            for number, line in enumerate(lines, 1):
                self.read_line(number, line)
            if not self.sheet.item_line:
                self.report(len(lines) + 1, b"", "no items")
        except _Enough:
            self.sheet.is_cut = True
        return self.sheet

    def report(self, line: int, token: bytes, reason: str, hint: str = "") -> None:
        if not self.sheet.faults and self.sheet.item_tokens[:1] == ["#"]:
            # What is wrong is what came of it.
            hint = f"line {self.sheet.item_line} is taken for the items; {COMMENT}"
        self.sheet.faults.append(ProblemFault(line, text_of(token), reason, hint))
        if len(self.sheet.faults) == self.most_faults:
            raise _Enough

    def read_line(self, number: int, line: bytes) -> None:
        if b"\0" in line:
            self.report(number, b"", "NUL byte", "save the file as UTF-8")
            return
        tokens = line.split()
        if not tokens:
            return
        if tokens[0].startswith(b"|"):
            self.sheet.comments.append((number, text_of(line.strip()[1:].strip())))
        elif not self.sheet.item_line:
            self.sheet.item_line = number
            self.read_items(number, tokens)
        else:
            self.read_option(number, tokens)

    def read_items(self, number: int, tokens: list[bytes]) -> None:
        behind = False
        for token in _cut_bars(tokens):
            self.sheet.item_tokens.append(text_of(token))
            if token == b"|":
                if behind:
                    self.report(number, token, "second bar")
                behind = True
                continue
            bounds, name, reason = self.cut_item(token, behind)
            if reason is not None:
                self.report(number, token, reason, self.hint_for_item(reason, token))
            else:
                self.sheet.items[text_of(name)] = ItemLine(text_of(name), None if behind else bounds)

    def cut_item(self, token: bytes, behind: bool) -> tuple[Bounds, bytes, str | None]:
        """A token's bounds and name, and what is wrong with it, in the order of the programs' checks."""
        bounds, name = ONCE, token
        if self.kind == 3 and b"|" in token:
            before, name = token.split(b"|", 1)
            found = _BOUND.match(before)
            if found is None:
                return bounds, name, "bad bound"
            low = int(found.group(1))
            bounds = Bounds(low, low if found.group(2) is None else int(found.group(2)))
            reason = bounds_fault(*bounds)
            if reason is None and behind:
                reason = "bound on a secondary item"
            if reason is not None:
                return bounds, name, reason
        reason = name_fault(name)
        if reason is None and text_of(name) in self.sheet.items:
            reason = "name repeated"
        if reason is None and len(self.sheet.items) == MOST_ITEMS:
            reason = "too many items"
        return bounds, name, reason

    def hint_for_item(self, reason: str, token: bytes) -> str:
        if reason == "bad byte in name" and b"|" in token and self.kind < 3:
            return "bounds are for dlx3"
        if reason == "bad byte in name" and b":" in token:
            return "colours belong in options"
        if reason == "bad bound":
            return "bounds are v|name or u:v|name"
        return ""

    def read_option(self, number: int, tokens: list[bytes]) -> None:
        uses: dict[str, str | None] = {}
        has_primary = False
        faults = len(self.sheet.faults)
        items = self.sheet.items
        for token in tokens:
            # Most uses are names without colours, and without faults.
            name = text_of(token)
            item = items.get(name)
            if item is not None and name not in uses:
                uses[name] = None
                has_primary = has_primary or item.bounds is not None
                continue
            raw_name, colon, colour = token.partition(b":")
            name = text_of(raw_name)
            item = items.get(name)
            reason = self.use_fault(item, raw_name, colon, colour, name in uses)
            if reason is not None:
                self.report(number, token, reason, self.hint_for_use(reason, raw_name))
            if item is not None and name not in uses:
                uses[name] = text_of(colour) if colon else None
                has_primary = has_primary or item.bounds is not None
        if not has_primary:
            if len(self.sheet.faults) == faults:
                self.sheet.ignored.append(number)
            return
        self.sheet.options.append(OptionLine(number, uses))
        self.uses += len(uses)
        if self.uses > MOST_USES >= self.uses - len(uses):
            self.report(number, b"", "too many uses")

    def use_fault(
        self, item: ItemLine | None, name: bytes, colon: bytes, colour: bytes, repeated: bool
    ) -> str | None:
        """What is wrong with a use, in the order of the programs' checks."""
        if colon and self.kind == 1:
            return "colour not allowed here"
        reason = name_fault(name)
        if reason is not None:
            return reason
        if item is None:
            return "unknown item"
        if repeated:
            return "item repeated in option"
        if colon and item.bounds is not None:
            return "colour on a primary item"
        if colon and not 1 <= len(colour) <= MOST_COLOUR:
            return "bad colour"
        return None

    def hint_for_use(self, reason: str, name: bytes) -> str:
        if reason == "colour not allowed here":
            return "colours are for dlx2 and dlx3"
        if reason == "bad colour":
            return f"a colour has 1 to {MOST_COLOUR} bytes"
        if reason == "unknown item":
            if name.startswith(b"#"):
                return COMMENT
            items = self.sheet.items
            return _of_signs(text_of(name), items) or self.nearest.question(text_of(name), items)
        return ""


def _of_signs(name: str, items: Collection[str]) -> str:
    """What to say where commas were meant to stand between items, or nothing."""
    for sign, called in _SIGNS.items():
        parts = [part for part in name.split(sign) if part]
        # The only item of a problem may be all of them.
        known = items if len(items) > 1 else {part for item in items for part in item.split(sign)}
        is_list = (sign in name or len(items) == 1) and bool(parts) and all(part in known for part in parts)
        if is_list or f"{name}{sign}" in items:
            return f"items are parted by blanks, and a {called} is part of a name"
    return ""


class _Enough(Exception):
    """There are as many faults as are reported."""


# Signs that are no blanks, and that some would put between items.
_SIGNS = {",": "comma", ";": "semicolon"}


class Nearest:
    """Questions for the names that were meant, for a part of a second in all."""

    def __init__(self) -> None:
        self._left = _HINTING

    def question(self, name: str, names: Collection[str]) -> str:
        """A question for the name that was meant, or nothing where none is near, or the time is over."""
        start = time.monotonic()
        near = _near(name, names, start + self._left) if self._left > 0 and len(names) <= _MOST_NEAR else None
        self._left -= time.monotonic() - start
        return "" if near is None else f"is it {near}?"


def _near(name: str, names: Collection[str], deadline: float) -> str | None:
    """The name that has most in common with one, as `difflib` reckons, or None where none has half."""
    # Most texts have no wrong name.
    import difflib

    likeness = difflib.SequenceMatcher()
    likeness.set_seq2(name)
    best, most = None, 0.5
    for other in names:
        if time.monotonic() > deadline:
            return None
        likeness.set_seq1(other)
        if likeness.real_quick_ratio() >= most and likeness.quick_ratio() >= most and likeness.ratio() >= most:
            if best is None or likeness.ratio() > most:
                best, most = other, likeness.ratio()
    return best


def _cut_bars(tokens: list[bytes]) -> Iterator[bytes]:
    """The item line's tokens; a bar at the start of one stands for itself."""
    for token in tokens:
        name = token.lstrip(b"|")
        for _ in range(len(token) - len(name)):
            yield b"|"
        if name:
            yield name

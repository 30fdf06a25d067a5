"""The text of a span, as dlx-span writes it: the solutions, if they are listed, and a line that says what it did.

Both the first line of a listing and the last one have the problem's digest, by which dlx-join knows texts of another
problem: a hash of the problem as it was read, whatever is between its words. The last line ends with a digest of the
text before it, by which dlx-join knows one that was altered.
"""

from __future__ import annotations

import re
from typing import NamedTuple

from ..errors import SearchFault
from .rows import Row, Span, Until, precedes, read, read_until, word_of

_ROW = rb"(-|[0-9]+(?:\.[0-9]+)*)"
_NUMBER = rb"([0-9]{1,40})"
_DIGEST = rb"([0-9a-f]{16})"
_ROWS = rb"from %s until %s(?: of %s)?" % (_ROW, _ROW, _ROW)
_RECORD = re.compile(rb"%s solutions %s steps %s problem %s text [0-9a-f]{16}\n\Z" % (_ROWS, _NUMBER, _NUMBER, _DIGEST))


class Record(NamedTuple):
    """What a run did: it searched from a row until another one.

    `branches` are those of each level of the row where it stopped for want of steps; none where it did the whole.
    `digest` is the problem's.
    """

    start: Row
    until: Until
    branches: Row
    solutions: int
    steps: int
    digest: str


def of_text(text: bytes, span: Span, listed: bool, digest: str = "") -> Record:
    """The record of a text that a run over this span gave. Raises `SearchFault`, also for a text of another problem
    where the digest is known."""
    line = text[text.rfind(b"\n", 0, max(len(text) - 1, 0)) + 1 :]
    found = _RECORD.match(line)
    if found is None:
        raise SearchFault("dlx-span gave a text without a record")
    start, until = found.group(1).decode(), found.group(2).decode()
    branches = found.group(3)
    record = Record(
        read(start),
        read_until(until),
        () if branches is None else read(branches.decode()),
        int(found.group(4)),
        int(found.group(5)),
        found.group(6).decode(),
    )
    if digest and record.digest != digest:
        raise SearchFault("dlx-span gave a text of another problem")
    head = f"from {word_of(span.start)} problem {record.digest}\n".encode()
    is_right = record.start == span.start and (text.startswith(head) if listed else len(line) == len(text))
    if branches is None:
        is_right = is_right and record.until == span.until
    else:
        stop = record.until or ()
        is_right = is_right and span.start < stop and precedes(stop, span.until) and len(record.branches) == len(stop)
    if not is_right:
        asked = f"from {word_of(span.start)} until {word_of(span.until)}"
        raise SearchFault(f"dlx-span gave a text that isn't of the span {asked}")
    return record

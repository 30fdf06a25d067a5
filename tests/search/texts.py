"""What dlx-join makes of texts of spans that are listed, by a reader of its own."""

import re

from text_digest import text_digest

MOST = (1 << 64) - 1
_NUMBER = rb"(?:0|[1-9][0-9]{0,19})"
_ROW = rb"(-|%s(?:\.%s)*)" % (_NUMBER, _NUMBER)
_DIGEST = rb"([0-9a-f]{16})"
_HEADING = re.compile(rb"from %s problem %s\n" % (_ROW, _DIGEST))
_COUNTS = rb"solutions (%s) steps (%s) problem %s text %s\n" % (_NUMBER, _NUMBER, _DIGEST, _DIGEST)
_RECORD = re.compile(rb"from %s until %s(?: of %s)? %s" % (_ROW, _ROW, _ROW, _COUNTS))
_HEADER = re.compile(rb"(%s):\n" % _NUMBER)
_CHOICE = re.compile(rb" (?:[^ \t\n\v\f\r]+ )+\(([0-9]{1,10}) of [0-9]{1,10}\)\n")


class Refused(Exception):
    """These aren't texts of one problem whose ends meet."""


class _Lines:
    def __init__(self, text):
        self._lines = text.splitlines(keepends=True) if b"\r" not in text else re.findall(rb"[^\n]*\n|[^\n]+\Z", text)
        self._at = 0

    def take(self, form):
        """The next line, if it has this form."""
        found = form.fullmatch(self._lines[self._at]) if self._at < len(self._lines) else None
        self._at += found is not None
        return found

    def since(self, start):
        """The lines from this place up to the one taken last."""
        return b"".join(self._lines[start : self._at])

    def place(self):
        return self._at

    def is_done(self):
        return self._at == len(self._lines)


def joined(text):
    """The listing that texts of spans are, one after another. Raises `Refused`."""
    lines = _Lines(text)
    out, met, digest, count = [], b"-", None, 0
    while True:
        start_at = lines.place()
        head = _must(lines.take(_HEADING))
        digest = digest or head.group(2)
        _must(head.groups() == (met, digest))
        before, found = row_of(head.group(1)), 0
        while header := lines.take(_HEADER):
            _must(int(header.group(1)) == found + 1)
            count += 1
            out.append(b"%d:\n" % count)
            row = []
            while choice := lines.take(_CHOICE):
                out.append(choice.group())
                row.append(int(choice.group(1)))
            _must(row > before or row == before and not found)
            before, found = row, found + 1
        record = _must(lines.take(_RECORD))
        start, until, branches, solutions, steps, of, told = record.groups()
        _must(text_digest(lines.since(start_at).rpartition(b" text ")[0]).encode() == told)
        _must((start, of, int(solutions)) == (met, digest, found) and int(steps) <= MOST)
        _must(all(max(row_of(word or b"-"), default=0) <= MOST for word in (start, until, branches)))
        _must(until == b"-" or (before < row_of(until) if found else before <= row_of(until)))
        met = until
        if met == b"-":
            _must(lines.is_done())
            return b"".join(out)


def row_of(word):
    return [] if word == b"-" else [int(number) for number in word.split(b".")]


def rows_in(listing):
    """The rows of a listing's solutions."""
    rows = []
    for line in listing.splitlines(keepends=True):
        choice = _CHOICE.fullmatch(line)
        if choice:
            rows[-1].append(int(choice.group(1)))
        else:
            rows.append([])
    return rows


def _must(found):
    if not found:
        raise Refused
    return found

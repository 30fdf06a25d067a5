"""A folder of a search: what is done of it, so that it goes on after whatever ended it.

    helgrothy.search    what is searched: version, program, arguments, the digests of the problem and its file; held by
                        the one command that is at work (`held.py`)
    problem.dlx         the problem's text
    00000017.span       spans that are done: a line of its digest and where it begins and ends, and texts of dlx-span
    00000018.span.helgrothy-new    such a file as long as it is written

A file of spans is written under another name, flushed to the disk, and renamed. Its digest is that of the search, of
its line and its text: a file that was damaged, cut or is of another search is named. No file is taken away
but what a command has made here: a file of spans that was read as such, one with a name that nothing else has, the
problem as it was written.

What is done is written each half second, as one file for each row of spans that meet. With a file for each span, its
flush to the disk took longer than a short span.
"""

from __future__ import annotations

import hashlib
import math
import os
import re
import time
from collections.abc import Callable, Iterable, Iterator
from contextlib import suppress
from functools import partial
from typing import IO, NamedTuple

from ..errors import SearchFault
from .about import About, is_broken_off
from .about import read as read_about
from .held import MOST_LINE, SAFE, Hold, Owners, opened, to_disk
from .loop import Job, Kept
from .rows import WHOLE, Row, Span, Until, precedes, read, read_until, word_of

_PROBLEM = "problem.dlx"
_SPAN = re.compile(r"([0-9]{8,12})\.span\Z")
_NEW = ".helgrothy-new"
_LEFT = re.compile(r"(?:[0-9]{8,12}\.span|problem\.dlx)\.helgrothy-new\Z")
_HEAD = b"span "
# Files of counts are put together up to this size.
_MOST_JOINED = 1 << 22
# What is done is written so often: at first each half second, later each hundredth of the time.
_OFTEN, _SELDOM, _SHARE = 0.5, 10.0, 1 / 100
_MOST_WAITING = 1 << 24


class Entry(NamedTuple):
    """A file of spans: its path, where it begins and ends, and what it has."""

    path: str
    span: Span
    length: int
    solutions: int
    seconds: float
    digest: bytes


class Folder:
    """A folder that this command holds, or, with `is_read` only reads. As a context manager it is let go.

    With `is_own` it has to be the user's own, with all files in it. Raises `SearchFault` and `OSError`.
    """

    def __init__(self, path: str, job: Job | None = None, is_read: bool = False, is_own: bool = False) -> None:
        self.path = path
        self._owners = Owners(is_own)
        self._begun = self._written = time.monotonic()
        self._waiting: dict[Row, Kept] = {}
        self._size = 0
        self.entries: dict[Row, Entry] = {}
        self._by_end: dict[Until, Row] = {}
        # Files that begin within others, whose texts nobody has looked at.
        self._spare: list[Entry] = []
        self._number = 0
        self._held = self._hold(is_read)
        try:
            self.about = self._look() if job is None else self._open(job)
            self._key = hashlib.sha256(self.about.text()).digest()
            self._read_entries()
        except BaseException:
            self.close()
            raise

    def _hold(self, is_read: bool) -> Hold:
        return Hold(self.path, self._owners, is_read)

    def close(self) -> None:
        self._held.close()

    def __enter__(self) -> Folder:
        return self

    def __exit__(self, *_: object) -> None:
        self.close()

    # ---- what is searched

    def _look(self) -> About:
        text = self._held.text()
        if is_broken_off(text) and self._held.is_alone():
            raise SearchFault(f"{self.path}: it is no folder of a search")
        return read_about(text, self._held.name, self.path)

    def _open(self, job: Job) -> About:
        """The folder for this search, which is made where there is none."""
        about = About.of(job)
        text = self._held.text()
        if is_broken_off(text) and self._held.is_alone():
            self._held.write(about.text())
            to_disk(os.path.dirname(os.path.abspath(self.path)))
        else:
            # Of the same problem, perhaps from a text with other remarks.
            about = self._compare(about, text, job.name)
        for name in filter(_LEFT.match, os.listdir(self.path)):
            os.remove(self._name(name))
        if not os.path.lexists(self._name(_PROBLEM)):
            if about.file != About.of(job).file:
                raise SearchFault(f"{self._name(_PROBLEM)}: it is gone, and {job.name} isn't as it was")
            self._write(_PROBLEM, [job.problem])
        return about

    def _compare(self, about: About, text: bytes, name: str) -> About:
        """What the folder is of. Raises `SearchFault` where it isn't this search."""
        if self._held.has_made_file:
            # Something came in the moment in which it was made.
            self._held.give_up()
            raise SearchFault(f"{self.path}: it is no folder of a search, and isn't empty")
        found = read_about(text, self._held.name, self.path)
        for is_same, what in (
            (found.problem == about.problem, f"another problem than {name}"),
            (found.program == about.program, f"the program {found.program}, not {about.program}"),
            (found.words == about.words, f"a search that {'lists' if found.listed else 'counts'} solutions"),
        ):
            if not is_same:
                raise SearchFault(f"{self.path}: it is of {what}; remove it, or name another one by --folder")
        return found

    def problem(self) -> bytes:
        """The problem's text. Raises `SearchFault` where it isn't the one that is searched."""
        path = self._name(_PROBLEM)
        with opened(path, self._owners) as file:
            text = file.read()
        if hashlib.sha256(text).hexdigest() != self.about.file:
            raise SearchFault(f"{path}: it was changed")
        return text

    # ---- what is done

    def _read_entries(self) -> None:
        found: list[Entry] = []
        for name in os.listdir(self.path):
            span = _SPAN.match(name)
            if span is not None:
                self._number = max(self._number, int(span.group(1)))
                # Where another command is at work files come and go.
                with suppress(FileNotFoundError):
                    found.append(self._entry(self._name(name)))
        for entry in arranged(found):
            self._take(entry)
        self._spare = [entry for entry in found if self.entries.get(entry.span.start) is not entry]

    def _entry(self, path: str) -> Entry:
        try:
            file = opened(path, self._owners)
        except SearchFault as error:
            raise SearchFault(f"{error}; without it the search goes on") from None
        with file:
            return _head(path, file)

    def _take(self, entry: Entry) -> None:
        self.entries[entry.span.start] = entry
        self._by_end[entry.span.until] = entry.span.start

    def check(self) -> None:
        """Reads all texts. Raises `SearchFault` for a file that was damaged."""
        for entry in self.entries.values():
            self.text(entry)

    def text(self, entry: Entry) -> bytes:
        """The text of a file. Raises `SearchFault` where it isn't what was written."""
        with opened(entry.path, self._owners) as file:
            if _head(entry.path, file) != entry:
                raise SearchFault(f"{entry.path}: it was changed")
            text = file.read(entry.length + 1)
        if len(text) != entry.length or self._digest(entry.span, entry.solutions, entry.seconds, text) != entry.digest:
            raise SearchFault(f"{entry.path}: it is damaged, or of another search; without it the search goes on")
        return text

    def _digest(self, span: Span, solutions: int, seconds: float, text: bytes) -> bytes:
        summed = hashlib.sha256(self._key + _fields(span, len(text), solutions, seconds))
        summed.update(text)
        return summed.hexdigest().encode()

    def todo(self) -> list[Span]:
        """The spans that are left, in their order."""
        return gaps(entry.span for entry in sorted(self.entries.values(), key=_order))

    @property
    def parts(self) -> int:
        """What is done of the tree's parts."""
        return sum(entry.span.ends - entry.span.begins for entry in self.entries.values())

    @property
    def solutions(self) -> int:
        return sum(entry.solutions for entry in self.entries.values())

    @property
    def seconds(self) -> float:
        return sum(entry.seconds for entry in self.entries.values())

    def chain(self, at: Until = ()) -> Iterator[Entry]:
        """The files from a row on, as far as their ends meet."""
        while at is not None and at in self.entries:
            entry = self.entries[at]
            yield entry
            at = entry.span.until

    def texts(self) -> list[Callable[[], bytes]]:
        return [partial(self.text, entry) for entry in self.chain()]

    # ---- more is done

    def keep(self, kept: Kept) -> None:
        """Takes a span that is done, which is on the disk soon. Raises `OSError`."""
        self._waiting[kept.span.start] = kept
        self._size += len(kept.text)
        now = time.monotonic()
        often = _OFTEN if self.about.listed else min(max((now - self._begun) * _SHARE, _OFTEN), _SELDOM)
        if now - self._written >= often or self._size >= _MOST_WAITING:
            self.flush()

    def flush(self) -> None:
        """Writes what is done."""
        for run in _runs(sorted(self._waiting.values(), key=lambda kept: kept.span.start)):
            self._write_run(run)
        self._written = time.monotonic()

    def _write_run(self, run: list[Kept]) -> None:
        """Writes spans that follow one another as one file, with small ones beside them where nothing is listed."""
        old = [] if self.about.listed else self._beside(run)
        all_of_it = sorted([*run, *(kept for kept, _ in old)], key=lambda kept: kept.span.start)
        first, last = all_of_it[0].span, all_of_it[-1].span
        span = Span(first.start, last.until, first.begins, last.ends)
        text = b"".join(kept.text for kept in all_of_it)
        solutions = sum(kept.solutions for kept in all_of_it)
        seconds = round(sum(kept.seconds for kept in all_of_it), 3)
        digest = self._digest(span, solutions, seconds, text)
        self._number += 1
        name = f"{self._number:08d}.span"
        self._write(name, [_HEAD, digest, b" ", _fields(span, len(text), solutions, seconds), text])
        for kept, entry in old:
            del self.entries[kept.span.start]
            del self._by_end[kept.span.until]
            os.remove(entry.path)
        self._take(Entry(self._name(name), span, len(text), solutions, seconds, digest))
        for kept in run:
            del self._waiting[kept.span.start]
            self._size -= len(kept.text)

    def _beside(self, run: list[Kept]) -> list[tuple[Kept, Entry]]:
        """Files before and after these spans that aren't much larger, so that there are never many."""
        found: list[tuple[Kept, Entry]] = []
        size = sum(len(kept.text) for kept in run)
        start: Row = run[0].span.start
        until: Until = run[-1].span.until
        while True:
            before = self._by_end.get(start)
            entry = self.entries.get(before) if before is not None else None
            if entry is None or entry.length > 2 * size:
                entry = None if until is None else self.entries.get(until)
            if entry is None or entry.length > 2 * size or entry.length + size > _MOST_JOINED:
                return found
            found.append((Kept(entry.span, self.text(entry), entry.solutions, entry.seconds), entry))
            size += entry.length
            start = min(start, entry.span.start)
            until = entry.span.until if until == entry.span.start else until

    def _write(self, name: str, pieces: Iterable[bytes]) -> None:
        """A file of this name, whole or not at all."""
        temporary = self._name(f"{name}{_NEW}")
        try:
            opened = os.open(temporary, os.O_WRONLY | os.O_CREAT | os.O_EXCL | SAFE, 0o666)
            try:
                with open(opened, "wb") as file:
                    file.writelines(pieces)
                    file.flush()
                    os.fsync(file.fileno())
                os.rename(temporary, self._name(name))
            except BaseException:
                with suppress(OSError):
                    os.remove(temporary)
                raise
        except OSError as error:
            error.filename = error.filename or temporary
            raise
        to_disk(self.path)

    def remove(self) -> None:
        """Takes the folder away; what else lies in it stays, and the folder with it."""
        # In an order in which the search goes on, or begins anew, wherever this is broken off.
        for entry in self.entries.values():
            with suppress(FileNotFoundError):
                os.remove(entry.path)
        for entry in self._spare:
            with suppress(FileNotFoundError, SearchFault):
                self.text(entry)
                os.remove(entry.path)
        with suppress(FileNotFoundError, SearchFault):
            self.problem()
            os.remove(self._name(_PROBLEM))
        self._held.remove()

    def _name(self, name: str) -> str:
        return os.path.join(self.path, name)


class Look(Folder):
    """A folder that is looked at while another command may be at work there."""

    def _hold(self, is_read: bool) -> Hold:
        return Hold(self.path, self._owners, is_looked_at=True)


def arranged(entries: Iterable[Entry]) -> list[Entry]:
    """Files in their order, without those that begin within another one."""
    taken: list[Entry] = []
    at: Until = ()
    for entry in sorted(entries, key=_order):
        if at is not None and at <= entry.span.start:
            taken.append(entry)
            at = entry.span.until
    return taken


def gaps(spans: Iterable[Span]) -> list[Span]:
    """What spans that stand in their order leave of the whole."""
    found: list[Span] = []
    at: Until = WHOLE.start
    place = WHOLE.begins
    for span in spans:
        if at is not None and at < span.start:
            found.append(Span(at, span.start, place, max(span.begins, place)))
        at, place = span.until, span.ends
    if at is not None:
        found.append(Span(at, None, place, WHOLE.ends))
    return found


def _head(path: str, file: IO[bytes]) -> Entry:
    """The line of a file of spans. Raises `SearchFault`."""
    line = file.readline(MOST_LINE)
    fields = line[len(_HEAD) :].decode("ascii", "replace").split(" ")
    try:
        if not line.startswith(_HEAD) or not line.endswith(b"\n") or len(fields) != 8:
            raise ValueError
        digest, start, until, *numbers, worked = fields
        begins, ends, length, solutions = map(_number, numbers)
        seconds = float(worked)
        # The two places say how far the search is, and nothing else.
        span = Span(read(start), read_until(until), begins, ends)
        if not 0 <= seconds < math.inf or not precedes(span.start, span.until):
            raise ValueError
        if line != b"%s%s %s" % (_HEAD, digest.encode(), _fields(span, length, solutions, seconds)):
            raise ValueError
    except ValueError:
        raise SearchFault(f"{path}: it is damaged; without it the search goes on") from None
    if os.fstat(file.fileno()).st_size != len(line) + length:
        raise SearchFault(f"{path}: it is damaged; without it the search goes on")
    return Entry(path, span, length, solutions, seconds, digest.encode())


def _number(word: str) -> int:
    if not re.match(r"[0-9]{1,80}\Z", word):
        raise ValueError
    return int(word)


def _fields(span: Span, length: int, solutions: int, seconds: float) -> bytes:
    rows = f"{word_of(span.start)} {word_of(span.until)}"
    return f"{rows} {span.begins} {span.ends} {length} {solutions} {seconds!r}\n".encode()


def _order(entry: Entry) -> tuple[Row, bool, tuple[int, ...]]:
    """By where a file begins, the longest first."""
    until = entry.span.until
    return entry.span.start, until is not None, tuple(-k for k in until or ())


def _runs(waiting: list[Kept]) -> Iterator[list[Kept]]:
    """Spans in their order, those together that follow one another, up to a size."""
    run: list[Kept] = []
    size = 0
    for kept in waiting:
        if run and (run[-1].span.until != kept.span.start or size + len(kept.text) > _MOST_WAITING):
            yield run
            run, size = [], 0
        run.append(kept)
        size += len(kept.text)
    if run:
        yield run

"""What a folder of a search is of: the text of its file `helgrothy.search`."""

from __future__ import annotations

import hashlib
import re
from typing import NamedTuple

from .. import __version__
from ..errors import SearchFault
from .loop import Job

_FORM = "helgrothy search, form 3"
_OTHER_FORM = re.compile(r"helgrothy search(?:, form [0-9]{1,9})?\Z")
# Its lines are the form, the fields of `About` and a digest of them.
_LINES = 7


class About(NamedTuple):
    """What is searched.

    problem: the digest that records have, by which texts of one problem are alike whatever is between their words.
    file: that of the bytes of the problem's file.
    """

    version: str
    program: str
    words: str
    problem: str
    file: str

    @classmethod
    def of(cls, job: Job) -> About:
        words = "m1" if job.listed else "m0"
        return cls(__version__, f"dlx{job.kind}", words, job.digest, hashlib.sha256(job.problem).hexdigest())

    @property
    def listed(self) -> bool:
        return self.words == "m1"

    def text(self) -> bytes:
        text = "".join(f"{name} {value}\n" for name, value in self._asdict().items())
        text = f"{_FORM}\n{text}"
        return f"{text}digest {hashlib.sha256(text.encode()).hexdigest()}\n".encode()


def is_broken_off(text: bytes) -> bool:
    """Whether a command may have been killed as it wrote this text: it is a beginning of one, or nothing."""
    form = f"{_FORM}\n".encode()
    return form.startswith(text) or text.startswith(form) and text.count(b"\n") < _LINES


def is_of_another_form(text: bytes) -> bool:
    """Whether another version wrote this text, whose files aren't those of this one."""
    first = text.partition(b"\n")[0].decode("utf-8", "replace")
    return first != _FORM and bool(_OTHER_FORM.match(first))


def read(text: bytes, path: str, folder: str) -> About:
    """What a folder is of, from the text of the file. Raises `SearchFault`."""
    if is_of_another_form(text):
        raise another_form(folder)
    lines = text.decode("utf-8", "replace").splitlines()
    fields = [line.partition(" ")[2] for line in lines[1 : _LINES - 1]]
    if len(fields) < _LINES - 2:
        raise SearchFault(f"{path}: it is damaged")
    about = About(*fields)
    if about.version != __version__ and lines[0] == _FORM:
        raise SearchFault(f"{folder}: it is of version {about.version[:40]}, and this is {__version__}")
    if about.text() != text or about.words not in ("m0", "m1") or about.program not in ("dlx1", "dlx2", "dlx3"):
        raise SearchFault(f"{path}: it is damaged")
    return about


def another_form(folder: str) -> SearchFault:
    return SearchFault(f"{folder}: another version made it, in another form; remove it or name another one by --folder")

"""Kinds of problems as forms: a field for each argument and option that a kind's command takes.

What is typed into a field never names a file that is there: it is the text of a file in a folder of its own.
"""

from __future__ import annotations

import argparse
from collections.abc import Iterator, Mapping
from dataclasses import dataclass
from typing import Any, NoReturn

from ..make import KINDS
from ..make._kind import Kind
from ..problem import Problem
from .terms import FIELDS, TITLES

# A longer text, or one that may not be a file's name, is a file of another name.
_LONGEST_NAME = 100


class _Parser(argparse.ArgumentParser):
    """A parser that raises what it would say."""

    def error(self, message: str) -> NoReturn:
        raise ValueError(message)


@dataclass(frozen=True)
class Field:
    """A field: the name of its value, its label and its help, its option or "" for an argument, and whether it is only
    set or not. forbids: to set it forbids what the label says.
    """

    name: str
    label: str
    help: str
    option: str
    is_flag: bool
    forbids: bool


def fields(kind: Kind) -> Iterator[Field]:
    """The fields of a kind, arguments before options."""
    parser = _Parser(add_help=False)
    kind.add_arguments(parser)
    for action in sorted(parser._actions, key=lambda action: bool(action.option_strings)):
        option = action.option_strings[-1] if action.option_strings else ""
        known = FIELDS.get(kind.name, {}).get(action.dest)
        label, help = known or (_sentence(action.dest.replace("_", " ")), _sentence(action.help or ""))
        forbids = known is not None and option.startswith("--no-")
        yield Field(action.dest, label, help, option, action.nargs == 0, forbids)


def _sentence(text: str) -> str:
    """A text of the command line as a sentence; of what has no words of its own."""
    words = " ".join(text.split())
    return words[:1].upper() + words[1:]


def forms() -> list[dict[str, Any]]:
    """All kinds, for a page."""
    return [
        {
            "name": kind.name,
            "title": TITLES.get(kind.name, _sentence(kind.name)),
            "help": _sentence(kind.help),
            "fields": [field.__dict__ for field in fields(kind)],
        }
        for kind in KINDS.values()
    ]


def problem(name: str, values: Mapping[str, object]) -> Problem[Any]:
    """The problem of a kind with these values: texts, and True for what is set.

    Writes files into the current folder, which is empty before. Raises `ValueError`, `HelgrothyError` and `OSError`.
    """
    if name not in KINDS:
        raise ValueError("no such kind")
    kind = KINDS[name]
    parser = _Parser(add_help=False)
    kind.add_arguments(parser)
    arguments = parser.parse_args(list(_words(kind, values)))
    return kind.make(arguments)


def _words(kind: Kind, values: Mapping[str, object]) -> Iterator[str]:
    places = []
    files: set[str] = set()
    for number, field in enumerate(fields(kind), 1):
        value = values.get(field.name)
        if field.is_flag and value is True:
            yield field.option
        elif not field.is_flag and isinstance(value, str) and value.strip():
            word = _word(value, number, files)
            if field.option:
                yield f"{field.option}={word}"
            else:
                places.append(word)
    yield "--"
    yield from places


def _word(value: str, number: int, files: set[str]) -> str:
    """An argument for what was typed: itself, which is then also the name of a file with that text, or such a name.

    So a command takes it as a text or as a file, and whichever file it names is this one, which is among `files` then.
    """
    text = value.replace("\r", "").strip("\n")
    line = text.strip()
    raw = line.encode("utf-8", "replace")
    is_name = line.isprintable() and "/" not in line and len(raw) <= _LONGEST_NAME and line not in (".", "..", "-")
    name = raw.decode() if is_name else f"field{number}"
    if name not in files:
        with open(name, "xb") as file:
            file.write(f"{text}\n".encode("utf-8", "replace"))
        files.add(name)
    return name

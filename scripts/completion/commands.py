"""What may stand in each place of a command's words: told by the parsers, or here for what has none."""

from __future__ import annotations

import argparse
from collections.abc import Iterator
from dataclasses import dataclass, field

from helgrothy._cli.commands import parser_of_all
from helgrothy.make import _cubes as cubes
from helgrothy.make import polyforms, polyominoes

# What a word may be: any of some words, a file, a folder, a problem (a file that ends with .dlx), or something that
# nobody can guess.
FILE, FOLDER, PROBLEM = "file", "folder", "problem"
_BY_NAME = {"PROBLEM": PROBLEM, "FOLDER": FOLDER, "LISTING": FILE}
# Those whose help says that they are files, or may be.
_FILES = (
    "CLUES",
    "N|REGIONS",
    "PIECES",
    "FORMS",
    "REGION",
    "REGIONS",
    "CAGES",
    "COSTS",
    "GRID",
    "LIST",
    "TABLE",
    "TEAMS",
    "FACTORS",
    "CUBES",
    "BOX",
)
_WORDS = {"PIECES": sorted(polyominoes.SETS), "FORMS": sorted(polyforms.SETS), "CUBES": sorted(cubes.SETS)}


@dataclass(frozen=True)
class Value:
    """What a word may be."""

    words: tuple[str, ...] = ()
    files: str = ""

    def __str__(self) -> str:
        return " ".join([self.files or "words", *self.words])


@dataclass(frozen=True)
class Option:
    """An option: its names, its help, and its value, if it takes one."""

    names: tuple[str, ...]
    help: str
    value: Value | None = None


@dataclass
class Command:
    """A command by its names one behind another, its options, the places of its words and its own commands.

    goes_on: whether the last place may be repeated.
    """

    path: str
    options: list[Option] = field(default_factory=list)
    places: list[Value] = field(default_factory=list)
    goes_on: bool = False
    commands: dict[str, str] = field(default_factory=dict)


def all_commands() -> Iterator[Command]:
    """All programs and commands, each before its own."""
    kinds = Value(("1", "2", "3"))
    for program in ("dlx1", "dlx2", "dlx3"):
        yield Command(program, places=[Value(("m1", "m1000", "t1", "t2"))], goes_on=True)
    yield Command("dlxcheck", places=[Value(files=PROBLEM), kinds])
    words = Value(("m0", "m1"))
    yield Command("dlx-span", places=[kinds, words])
    yield Command("dlx-join", places=[words, Value(files=FILE)], goes_on=True)
    yield Command("dlx-count", places=[kinds, Value(("b512", "n1", "o")), Value(("n1", "o"))])
    yield Command("dlx-none", places=[kinds, Value(files=PROBLEM), Value(files=FILE), Value(("w",))])
    yield from _of("helgrothy", parser_of_all())


def _of(path: str, parser: argparse.ArgumentParser) -> Iterator[Command]:
    command = Command(path)
    below: list[Command] = []
    for action in parser._actions:
        if isinstance(action, argparse._SubParsersAction):
            command.commands = {choice.dest: choice.help or "" for choice in action._choices_actions}
            for name, its_parser in action.choices.items():
                below += _of(f"{path} {name}", its_parser)
        elif action.option_strings:
            value = None if action.nargs == 0 else _value(action)
            command.options.append(Option(tuple(action.option_strings), _help(action), value))
        else:
            command.places.append(_value(action))
            command.goes_on = action.nargs == "*"
    yield command
    yield from below


def _value(action: argparse.Action) -> Value:
    if action.choices is not None:
        return Value(tuple(map(str, action.choices)))
    name = str(action.metavar)
    return Value(tuple(_WORDS.get(name, ())), _BY_NAME.get(name, FILE if name in _FILES else ""))


def _help(action: argparse.Action) -> str:
    return " ".join((action.help or "").split())

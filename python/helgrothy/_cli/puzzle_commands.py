"""Commands for who solves puzzles by hand, and for who makes them, over a problem or a kind of them."""

from __future__ import annotations

import argparse
import os
from collections.abc import Callable, Sequence
from typing import Any

from ..make import HELPS, KINDS
from . import console
from .console import OF_THIS_KIND, Parser, number, seconds

# The commands; `add` has what each one takes.
NAMES = ("hint", "minimal")
# The kinds with clues that can be left out, and those of them whose clues are options.
WITH_CLUES = ("sudoku", "nonogram", "kakuro")
CLUES_AS_OPTIONS = ("sudoku", "kakuro")


class _KindOrProblem(argparse._SubParsersAction):  # type: ignore[type-arg]
    """The commands of a command: kinds of problems, and any other argument is a problem's file."""

    # For the parser's look at the argument.
    takes_others = True
    otherwise: argparse.ArgumentParser
    # The names of all kinds that it takes; the parser may have fewer.
    kinds: Sequence[str]

    def __call__(self, parser: Any, namespace: Any, values: Any, option_string: Any = None) -> None:
        if values[0] in self._name_parser_map:
            super().__call__(parser, namespace, values, option_string)
        elif values[0] in KINDS and not os.path.exists(values[0]):
            *names, last = self.kinds
            parser.error(f"{values[0]}: neither a problem nor {', '.join(names)} or {last}")
        else:
            vars(namespace).update(vars(self.otherwise.parse_args(values)))


def _add_command(
    commands: Any,
    name: str,
    help: str,
    description: str,
    kinds: Sequence[str],
    add_options: Callable[[argparse.ArgumentParser], None],
    act: Callable[[argparse.Namespace], int],
    words: Sequence[str] | None,
) -> None:
    """A command that takes a problem's file, or a kind and what that takes; with `words`, only what these need."""
    parser = commands.add_parser(name, help=help, description=description)
    add_options(parser)
    parser.set_defaults(command=act, kind=None, problem="-")
    below = parser.add_subparsers(metavar="KIND|PROBLEM", action=_KindOrProblem)
    below.kinds = kinds
    below.otherwise = Parser(prog=parser.prog, argument_default=argparse.SUPPRESS)
    console.add_problem(below.otherwise)
    of_kinds = []
    for kind in _asked(kinds, words):
        own = below.add_parser(kind, help=HELPS[kind], description=f"{description} Of {HELPS[kind]}.")
        if words is not None and kind not in words:
            # It is only listed.
            continue
        with own.under(OF_THIS_KIND):
            KINDS[kind].add_arguments(own)
        own.set_defaults(kind=KINDS[kind])
        of_kinds.append(own)
    for own in (below.otherwise, *of_kinds):
        before = list(own._actions)
        add_options(own)
        for action in own._actions:
            if action not in before:
                # What stands before the kind or the problem counts too.
                action.default = argparse.SUPPRESS


def _asked(kinds: Sequence[str], words: Sequence[str] | None) -> Sequence[str]:
    """The kinds that arguments name; all if there are none, or if they ask for help on all."""
    if words is None:
        return kinds
    named = [kind for kind in kinds if kind in words]
    return kinds if not named and ("--help" in words or "-h" in words) else named


def add_choices(parser: argparse.ArgumentParser) -> None:
    """The options that are given and forbidden."""
    parser.add_argument(
        "--with",
        dest="given",
        action="append",
        default=[],
        metavar="ITEMS",
        help="only solutions with the option that has these items, as many as it takes to be clear; may be repeated",
    )
    parser.add_argument(
        "--without",
        dest="forbidden",
        action="append",
        default=[],
        metavar="ITEMS",
        help="only solutions without the options that have all of these items, or patterns of them; may be repeated",
    )


def add(
    commands: Any, name: str, act: Callable[[argparse.Namespace], int], words: Sequence[str] | None = None
) -> None:
    """Adds a command, which does what `act` does, to those of a parser; with `words`, only what these need."""
    if name == "hint":
        _add_command(
            commands,
            name,
            "report a step that is forced, and why",
            "Reports one option that is in each solution, with the reason: an item has no other option left, or others "
            "soon fail, or a search finds no solution without it. Status 1 says that nothing is forced.",
            tuple(KINDS),
            _add_hint_options,
            act,
            words,
        )
    else:
        _add_command(
            commands,
            name,
            "drop what is given while there is one solution",
            "Drops clues, in a random order, while the puzzle has exactly one solution, and prints it; without any "
            "clue it begins with a random solution. Of a nonogram whole lines are dropped, of a Kakuro sums too, and ? "
            "stands there. Of a problem the clues are the options of --with, and those that are needed are printed. "
            "Status 1 says that there isn't one solution.",
            WITH_CLUES,
            _add_minimal_options,
            act,
            words,
        )


def _add_hint_options(parser: argparse.ArgumentParser) -> None:
    add_choices(parser)
    parser.add_argument("--seconds", type=seconds, default=5.0, metavar="S", help="the time (default: 5)")


def _add_minimal_options(parser: argparse.ArgumentParser) -> None:
    parser.add_argument(
        "--with",
        dest="given",
        action="append",
        default=[],
        metavar="ITEMS",
        help="of a problem: the option with these items is given; may be repeated (default: all of a random solution)",
    )
    parser.add_argument("--seed", type=number, default=0, metavar="N", help="the random order (default: 0)")
    parser.add_argument("--seconds", type=seconds, default=30.0, metavar="S", help="the time (default: 30)")

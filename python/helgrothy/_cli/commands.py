"""The commands of `helgrothy` that make, solve, draw and judge problems: `--help` lists them.

Status 0 says that all is well, 1 that there is no solution, nothing to draw or something to remark, 2 that the
command could not be done, with one line on standard error that says why.

Here are their arguments; what they do is in `acts`. Nothing is loaded that the command at hand doesn't need: a command
in a loop over files would wait for the others longer than for its own work.
"""

from __future__ import annotations

import argparse
from collections.abc import Callable, Sequence
from typing import TYPE_CHECKING, Any

from .. import __version__
from ..make import HELPS, KINDS
from . import console
from . import count as count_command
from . import puzzle_commands
from .console import OF_THIS_KIND, Parser, limited, natural, number, positive, seconds
from .puzzle_commands import add_choices

if TYPE_CHECKING:
    from ..make._kind import Kind

_EXAMPLES = """\
examples:
  helgrothy sudoku 53..7....6..195....98....6.8...6...34..8.3..17...2...6.6....28....419..5....8..79
  helgrothy polyominoes pentominoes 6x10 --svg > tiling.svg

  helgrothy make queens 8 > queens.dlx
  dlx1 m1 < queens.dlx | helgrothy draw queens.dlx
  helgrothy solve queens.dlx --number 92

  helgrothy solve exams.dlx --row 'mon|tue' --column 'hall|lab' --label 'maths|art'
  helgrothy solve exams.dlx --all --json

  helgrothy lint mine.dlx
  helgrothy why mine.dlx
  helgrothy export asp mine.dlx | gringo | clasp 0
  helgrothy export cnf mine.dlx | cadical | helgrothy draw mine.dlx
"""

# Titles in what `--help` prints.
_WHICH, _SHOWN = "which solutions", "what to show"

# What each command but those of the kinds does, for a list of them that loads no command.
_HELPS = {
    "make": "write a problem",
    "solve": "solve a problem and draw what is found",
    "draw": "draw a listing, or another solver's answer",
    "lint": "report all faults and slips of a problem",
    "export": "write a problem for another solver",
    "why": "report which items conflict where there is no solution",
    "count": "count the solutions of a problem",
    "page": "a local page to type a problem in",
    "search": "count or list all solutions, by all processors or many machines",
    "hint": "report a step that is forced, and why",
    "minimal": "drop what is given while there is one solution",
}


def main(words: Sequence[str]) -> int:
    """Does what the arguments of a command say; returns its status."""
    return console.run("helgrothy", lambda: _act(words), unread=0)


def _act(words: Sequence[str]) -> int:
    arguments = _parser(words).parse_args(words)
    with limited(getattr(arguments, "seconds", None)):
        status: int = arguments.command(arguments)
    return status


def parser_of_all() -> argparse.ArgumentParser:
    """The parser of all commands, those of a long search included."""
    parser, commands = _begun()
    _add_all(commands)
    return parser


def _begun() -> tuple[argparse.ArgumentParser, Any]:
    """A parser without commands, and what they are added to."""
    parser = Parser(
        prog="helgrothy",
        description="Makes, solves and draws exact cover problems, by the programs dlx1, dlx2 and dlx3.",
        epilog=_EXAMPLES,
        formatter_class=argparse.RawDescriptionHelpFormatter,
    )
    parser.add_argument("--version", action="version", version=f"helgrothy {__version__}")
    return parser, parser.add_subparsers(metavar="COMMAND", required=True)


def _parser(words: Sequence[str]) -> argparse.ArgumentParser:
    """The parser for these words: of one command alone where the first one is its name."""
    parser, commands = _begun()
    first = words[0] if words else ""
    if first in KINDS:
        _add_kind(commands, KINDS[first])
    elif first == "make":
        _add_make(commands, words[1:])
    elif first in puzzle_commands.NAMES:
        puzzle_commands.add(commands, first, _by(first), words[1:])
    elif first in _ADDS:
        _ADDS[first](commands)
    elif _is_list(words):
        _name_all(commands)
    elif first != "--version":
        _add_all(commands)
    return parser


def _is_list(words: Sequence[str]) -> bool:
    """Whether words without a command's name at their beginning get but a list of the commands."""
    return not words or words[0] in ("-h", "--help") or not words[0].startswith("-")


def _name_all(commands: Any) -> None:
    """All commands without what they take, for a list of them."""
    for name, help in _HELPS.items():
        commands.add_parser(name, help=help)
    for name, help in HELPS.items():
        commands.add_parser(name, help=_help_of_kind(help))


def _add_all(commands: Any) -> None:
    _add_make(commands)
    for add in _ADDS.values():
        add(commands)
    for name in puzzle_commands.NAMES:
        puzzle_commands.add(commands, name, _by(name))
    for kind in KINDS.values():
        _add_kind(commands, kind)


def _by(name: str) -> Callable[[argparse.Namespace], int]:
    """What a command does, which is loaded when it is done."""

    def act(arguments: argparse.Namespace) -> int:
        from . import acts

        status: int = getattr(acts, name)(arguments)
        return status

    return act


# ---- make


def _add_make(commands: Any, words: Sequence[str] | None = None) -> None:
    """With all kinds, or only what is for the words behind it."""
    make = commands.add_parser("make", help="write a problem", description="Writes a problem to standard output.")
    kinds = make.add_subparsers(metavar="KIND", required=True)
    name = words[0] if words else ""
    if words is not None and name not in KINDS and _is_list(words):
        for name, help in HELPS.items():
            kinds.add_parser(name, help=help)
        return
    for kind in [KINDS[name]] if name in KINDS else KINDS.values():
        parser = kinds.add_parser(kind.name, help=kind.help, description=f"Writes {kind.help}, as a problem.")
        kind.add_arguments(parser)
        parser.set_defaults(command=_by("make"), kind=kind)


# ---- solve, and a command for each kind


def _help_of_kind(help: str) -> str:
    return f"make and solve {help}"


def _add_solve(commands: Any) -> None:
    parser = commands.add_parser(
        "solve",
        help="solve a problem and draw what is found",
        description="Solves a problem and draws its first solution, or prints its options where it has no picture. "
        "The last line, on standard error, says how many solutions there were.",
    )
    console.add_problem(parser)
    _add_solving(parser)
    with parser.under(_SHOWN):
        _add_patterns(parser)
    parser.set_defaults(command=_by("solve"))


def _add_kind(commands: Any, kind: Kind) -> None:
    parser = commands.add_parser(
        kind.name, help=_help_of_kind(kind.help), description=f"Makes, solves and draws {kind.help}."
    )
    with parser.under(OF_THIS_KIND):
        kind.add_arguments(parser)
        kind.add_search_arguments(parser)
    _add_solving(parser)
    patterns = {"cell": None, "row": None, "column": None, "label": None, "cell_grid": None}
    parser.set_defaults(command=_by("make_and_solve"), kind=kind, **patterns)


def _add_solving(parser: Parser) -> None:
    with parser.under(_WHICH):
        _add_which(parser)
    with parser.under(_SHOWN):
        _add_forms(parser, "a picture as SVG, of one solution")
    with parser.under(_WHICH):
        parser.add_argument(
            "--seed", type=number, metavar="N", help="of --random: the same solution for the same number"
        )
    parser.add_argument("--seconds", type=seconds, metavar="S", help="give up after S seconds")
    with parser.under(_WHICH):
        add_choices(parser)
        _add_ways(parser)
    with parser.under(_SHOWN):
        parser.add_argument(
            "--all-costs",
            action="store_true",
            help="of --cost and wishes: each line that costs something, not only the ten that cost most",
        )


def _add_which(parser: argparse.ArgumentParser) -> None:
    """Which solutions are shown, or what is reported of all."""
    which = parser.add_mutually_exclusive_group()
    which.add_argument("--number", type=natural, metavar="K", help="the K-th solution instead of the first")
    which.add_argument("--random", action="store_true", help="one of all solutions, each as likely as any other")
    which.add_argument("--limit", type=positive, metavar="N", help="the first N solutions")
    which.add_argument("--all", action="store_true", help="all solutions")
    count_command.add_option(which)
    which.add_argument(
        "--chances",
        action="store_true",
        help="in how many percent of all solutions each cell has what, or, without a picture, each option is chosen",
    )
    which.add_argument("--unique", action="store_true", help="whether there is exactly one solution; if not, two")


def _add_ways(parser: argparse.ArgumentParser) -> None:
    """Other ways to the solutions than in the order of the listing."""
    way = parser.add_mutually_exclusive_group()
    way.add_argument(
        "--shuffle",
        type=number,
        metavar="SEED",
        help="solutions in a random order of the options, the same for the same number",
    )
    way.add_argument(
        "--up-to-symmetry",
        action="store_true",
        help="one solution of those that are images of each other by turns and mirrors of the board or box",
    )
    way.add_argument(
        "--cost",
        metavar="COSTS",
        help="the solution of least cost, from a file: lines of names of items (or patterns) and a number, which each "
        "option that has them costs, or a number for each option; clasp, highs, cbc and glpsol are asked too, where "
        "they are on the path",
    )


def _add_forms(parser: argparse.ArgumentParser, svg: str) -> argparse._MutuallyExclusiveGroup:
    """The forms of what is shown, of which one is asked for; gives them back for more."""
    form = parser.add_mutually_exclusive_group()
    form.add_argument("--svg", action="store_true", help=svg)
    form.add_argument(
        "--html", action="store_true", help="a page for a browser: the solutions, their pictures, and the search's way"
    )
    form.add_argument(
        "--json",
        dest="data",
        action="store_const",
        const="json",
        help="a line of JSON for each solution: its number, and the rows of the table that is drawn; where none is, "
        "the numbers of its options, their items, and the colours",
    )
    form.add_argument(
        "--csv",
        dest="data",
        action="store_const",
        const="csv",
        help="the table that is drawn as CSV; where none is, a line for each choice",
    )
    parser.add_argument(
        "--options", action="store_true", help="of --json and --csv: the options, also where a table is drawn"
    )
    return form


# ---- draw


def _add_draw(commands: Any) -> None:
    parser = commands.add_parser(
        "draw",
        help="draw a listing, or another solver's answer",
        description="Draws the solutions of a listing, or of what cadical or clasp answered to an exported problem, "
        "from standard input. An answer is drawn only if dlxcheck judges it to be a solution; status 1 says that there "
        "is none. A problem that `make` made is drawn in its own way; of another one, --cell and --label say where the "
        "cells of an option are.",
        epilog="examples:\n  dlx1 m1 t1 < queens.dlx | helgrothy draw queens.dlx --cell 'r(\\d+) c(\\d+)'\n"
        "  helgrothy export cnf mine.dlx | cadical | helgrothy draw mine.dlx\n"
        "  helgrothy export cnf mine.dlx | cadical | helgrothy draw mine.dlx --listing | dlxcheck mine.dlx",
        formatter_class=argparse.RawDescriptionHelpFormatter,
    )
    parser.add_argument("problem", metavar="PROBLEM", help="the file of the problem that was solved")
    parser.add_argument("--number", type=positive, metavar="K", help="the solution of this number alone")
    _add_forms(parser, "a picture as SVG, of the first solution or that of --number").add_argument(
        "--listing", action="store_true", help="an answer as a listing, for dlxcheck to judge"
    )
    _add_patterns(parser)
    parser.set_defaults(command=_by("draw"))


def _add_patterns(parser: argparse.ArgumentParser) -> None:
    parser.add_argument(
        "--cell",
        metavar="PATTERN",
        help="a regular expression that finds the cells, as whole words, in an option's line; its first two groups (or "
        "those named row and column) are row and column, a number or a single letter, and a third one its label",
    )
    parser.add_argument(
        "--grid",
        dest="cell_grid",
        metavar="GRID",
        choices=["square", "hex", "triangle"],
        help="of --cell: square (default); hex, with axial coordinates; or triangle, which point up where row and "
        "column add up to an even number, or are half 0 (u) or 1 (d) of a rhombus, by a third group",
    )
    for name in ("row", "column"):
        parser.add_argument(
            f"--{name}",
            metavar="PATTERN",
            help=f"a regular expression that finds the name of a {name} in the words of an option: the picture is a "
            "table of these names, in the order of the file",
        )
    parser.add_argument(
        "--label", metavar="PATTERN", help="a regular expression that finds the label in an option's line"
    )


# ---- lint, export, why, count, page, search


def _add_lint(commands: Any) -> None:
    parser = commands.add_parser(
        "lint",
        help="report all faults and slips of a problem",
        description="Reports each fault of a problem with its line and token, and what is no fault and yet often a "
        "slip: items in no option, equal options, bounds whose sums can't work, and that there is no solution where a "
        "search of a few seconds shows that. Status 1 says that there was something.",
    )
    console.add_problem(parser)
    parser.add_argument("--for", dest="program", choices=["dlx1", "dlx2", "dlx3"], default="dlx3", help="default: dlx3")
    parser.set_defaults(command=_by("lint"))


def _add_export(commands: Any) -> None:
    from ..export import FORMATS

    parser = commands.add_parser(
        "export",
        help="write a problem for another solver",
        description="Writes a problem for other solvers: asp for gringo and clasp, opb for pseudo-Boolean solvers, cnf "
        "for SAT solvers, lp for cbc, glpsol, HiGHS and other solvers of integer programs. Variable N takes option N; "
        "there are as many solutions.",
    )
    parser.add_argument("format", choices=sorted(FORMATS), help="the format")
    console.add_problem(parser)
    costs = "of asp, opb and lp: what options cost, from a file as `solve --cost` takes"
    parser.add_argument("--cost", metavar="COSTS", help=costs)
    parser.set_defaults(command=_by("export"))


def _add_why(commands: Any) -> None:
    parser = commands.add_parser(
        "why",
        help="report which items conflict where there is no solution",
        description="Reports primary items that can't all be held, where there is no solution: those that ask for more "
        "than the items beside them allow, else as few as leaving out finds in the time, by the programs and, where it "
        "is on the path, by cadical or clasp. Status 1 says that there is a solution.",
    )
    console.add_problem(parser)
    parser.add_argument("--seconds", type=seconds, default=10.0, metavar="S", help="the time (default: 10)")
    parser.set_defaults(command=_by("why"))


def _add_count(commands: Any) -> None:
    count_command.add(commands, _by("count"))


def _add_page(commands: Any) -> None:
    from .._page import commands as pages

    pages.add(commands)


def _add_search(commands: Any) -> None:
    from .._spans import commands as spans

    spans.add(commands)


# What adds the other commands to a parser.
_ADDS: dict[str, Callable[[Any], None]] = {
    "solve": _add_solve,
    "draw": _add_draw,
    "lint": _add_lint,
    "export": _add_export,
    "why": _add_why,
    "count": _add_count,
    "page": _add_page,
    "search": _add_search,
}

"""Few tests in which the values of any two factors, or of more, come together."""

from __future__ import annotations

import argparse
import re
from collections.abc import Callable, Iterator, Sequence
from typing import TYPE_CHECKING, Any

from .._cli.console import no_longer_limited, positive
from .._run.report import Hear, unheard
from .._text.sheet import Row, Sheet
from ..draw import Cell, Drawing, Picture, check_size, shade
from ..problem import Problem
from ._designs.design import LEVELS, Design, Factor, Option, read_factors, read_rules
from ._kind import Found, Kind, check_numbers, check_texts, read_text

if TYPE_CHECKING:
    from ._designs.fewest import Best, Few

__all__ = ["few", "problem"]

_ITEM = re.compile(r"t([0-9]+)/([^:]+)(?::(.+))?\Z")
# Where the table begins in the comments of a problem.
_TABLE_AT = 2


def problem(factors: str, tests: int, strength: int = 2) -> Problem[Option]:
    """So many tests in which all values of any `strength` factors come together at least once.

    factors: a line for each factor, its name and its values, and lines that begin with # are skipped; or numbers of
        values, such as `3,3,2` or `3^2,2`. Only `few` takes lines of values that never come together,
        `- system=linux browser=safari`, and of tests that exist, `+ system=mac browser=safari`.

    What has to come together is a primary item. An option holds it in a test, `t3/system:linux t3/browser:firefox`:
    a test's factor has its value as a colour. The first tests have, in order, all values of those factors that have
    the most, so that a design isn't found again with these in another order. A factor that has no value in a test may
    have any there.

    Raises `TableFault`, or `ValueError` for fewer tests than these.
    """
    check_texts(factors=factors)
    check_numbers(tests=tests, strength=strength)
    read = read_factors(factors)
    if read_rules(factors, read):
        raise ValueError("the table has lines that begin with - or +: --least takes them, --tests doesn't")
    return Design(read, tests, strength).problem()


def few(factors: str, strength: int = 2, seconds: float | None = None) -> Few:
    """The design of the fewest tests that is found in the time, as dlxcheck judges it to be one; without a time in some
    ten seconds of a processor at most, and then the same on every machine. It begins with the tests that exist.

    Raises `TableFault`, `ValueError`, or `OutOfTime` where the time isn't enough for any.
    """
    return _best(factors, strength, seconds, unheard).few()


def _best(factors: str, strength: int, seconds: float | None, hear: Hear) -> Best:
    check_texts(factors=factors)
    check_numbers(strength=strength)
    read = read_factors(factors)
    rules = read_rules(factors, read)
    # Only who asks for few tests waits for what searches for them.
    if rules:
        from ._designs import allowed

        return allowed.fewest(factors, read, strength, rules, seconds, hear)
    from ._designs.fewest import fewest

    return fewest(read, strength, seconds, hear)


class _Tests:
    """The factors and tests of a problem, and which values its options give them."""

    def __init__(self, problem: Problem[Any]) -> None:
        read = read_factors("\n".join(problem.comments[_TABLE_AT:]))
        self.factors = {factor.name: factor for factor in read}
        self._place = {name: place for place, name in enumerate(self.factors)}
        found = [match for match in map(_ITEM.match, problem.secondary_names) if match]
        self.count = max(int(match.group(1)) for match in found)
        check_size(self.count, len(self.factors), len(found))

    def of(self, line: str) -> Iterator[tuple[int, Factor, str]]:
        """Which test has which factor with which value in an option."""
        for match in filter(None, map(_ITEM.match, line.split())):
            test, name, colour = match.groups()
            factor = self.factors[name]
            yield int(test), factor, factor.values[factor.colours.index(colour)]

    def table(self, lines: Sequence[str]) -> list[list[str | None]]:
        """The tests of a solution, each with a value or None for each factor."""
        table: list[list[str | None]] = [[None] * len(self.factors) for _ in range(self.count)]
        for line in lines:
            for test, factor, value in self.of(line):
                table[test - 1][self._place[factor.name]] = value
        return table


def sheet(problem: Problem[Any]) -> Sheet:
    """A row for each test and a column for each factor; a factor that may have any value has none."""
    tests = _Tests(problem)

    def rows(lines: Sequence[str]) -> list[Row]:
        return [list(test) for test in tests.table(lines)]

    def label(line: str) -> str:
        held = list(tests.of(line))
        names = dict.fromkeys(f"test{test}" for test, _, _ in held)
        return " ".join([*names, *(f"{factor.name}={value}" for _, factor, value in held)])

    return Sheet("tests", list(tests.factors), rows, label, number="test")


def drawing(problem: Problem[Any]) -> Drawing:
    """A table with a line for each test and a column for each factor."""
    tests = _Tests(problem)
    values = [factor.values for factor in tests.factors.values()]
    heads = [str(test) for test in range(1, tests.count + 1)]

    def draw(lines: Sequence[str]) -> Picture:
        cells = {
            (r, c): Cell() if value is None else Cell(value, fill=shade(values[c].index(value)))
            for r, test in enumerate(tests.table(lines))
            for c, value in enumerate(test)
        }
        return Picture("a test design", cells, heads, list(tests.factors))

    return draw


def _add_arguments(parser: argparse.ArgumentParser) -> None:
    parser.add_argument(
        "factors",
        metavar="FACTORS",
        help="a file with a line for each factor, its name and its values, and with --least lines of values that never "
        "come together (- system=linux browser=safari) and of tests that exist (+ system=mac browser=safari); or "
        "numbers of values, such as 3,3,2 or 3^2,2",
    )
    parser.add_argument("--tests", type=positive, metavar="N", help="so many tests")
    parser.add_argument(
        "--strength",
        type=positive,
        default=2,
        metavar="T",
        help="the values of any T factors come together (default: 2)",
    )


def _table(arguments: argparse.Namespace) -> str:
    given: str = arguments.factors
    return given if LEVELS.match(given) else read_text(given, "numbers of values")


def _make(arguments: argparse.Namespace) -> Problem[Option]:
    if arguments.tests is None:
        raise ValueError("--tests N says how many; `helgrothy tests FACTORS --least` looks for as few as can be")
    return problem(_table(arguments), arguments.tests, arguments.strength)


def _add_search_arguments(parser: argparse.ArgumentParser) -> None:
    parser.add_argument(
        "--least",
        action="store_true",
        help="as few tests as are found, in some ten seconds of a processor or else in the time of --seconds",
    )


def _search(arguments: argparse.Namespace) -> Callable[[float | None, Hear], Found] | None:
    if not arguments.least:
        return None
    if arguments.tests is not None:
        raise ValueError("either --tests or --least")
    table = _table(arguments)

    def search(seconds: float | None, hear: Hear) -> Found:
        best = _best(table, arguments.strength, seconds, hear)
        # What was found is shown, also where that takes longer.
        no_longer_limited()
        return best.few().found(arguments.seconds)

    return search


KIND = Kind(
    "tests",
    "tests in which values of factors come together",
    _add_arguments,
    _make,
    drawing,
    add_search_arguments=_add_search_arguments,
    search=_search,
    sheet=sheet,
    view=None,
)


def __dir__() -> list[str]:
    return __all__

"""Problems exported for other solvers, as answer set programs, OPB, DIMACS CNF and LP: for costs, or a second opinion.

Each has a variable x1, x2, .. for each option in its order, and as many solutions as the problem: what other
variables there are follows from these.
"""

from __future__ import annotations

from collections.abc import Callable, Hashable, Iterator, Sequence
from itertools import zip_longest
from math import lcm
from typing import TYPE_CHECKING, Any, NamedTuple

from ._reason.counting import Clauses
from ._text.amounts import spelled
from .problem import Problem

if TYPE_CHECKING:
    from fractions import Fraction

__all__ = ["FORMATS", "asp", "cnf", "lp", "opb"]

# So many terms of a sum stand in a line of an LP file: readers of the format take lines of some hundred characters.
_TERMS = 12
# The bounds of a secondary item.
_SECONDARY = (0, 1)


# A tuple, since a problem may have 100,000 of them.
class _Item(NamedTuple):
    """An item: the options that hold it, by their colour (None without), and its bounds."""

    name: str
    low: int
    high: int
    options: dict[Hashable | None, list[int]]


def _items(problem: Problem[Any]) -> list[_Item]:
    uses: dict[Hashable, dict[Hashable | None, list[int]]] = {}
    for item in (*problem.items, *problem.secondary):
        uses[item] = {}
    for number, option in enumerate(problem.options, 1):
        for item, colour in problem._pairs(option):
            uses[item].setdefault(colour, []).append(number)
    names, bounds = problem._names, problem.items
    return [_Item(names[item], *bounds.get(item, _SECONDARY), options) for item, options in uses.items()]


def _ignored(problem: Problem[Any]) -> list[int]:
    """The options without a primary item, which are in no solution."""
    is_without = problem.items.keys().isdisjoint
    return [number for number, option in enumerate(problem.options, 1) if is_without(option)]


def _choices(item: _Item, fresh: Iterator[int]) -> dict[int, list[int]]:
    """The colours of an item as new variables, each with the options that give it."""
    return {next(fresh): options for colour, options in item.options.items() if colour is not None}


def _counter(after: int) -> Iterator[int]:
    while True:
        after += 1
        yield after


def _priced(costs: Sequence[Fraction | int]) -> list[tuple[int, int]]:
    """The options that cost something, each with its cost, in a unit of which all are multiples."""
    unit = lcm(1, *(cost.denominator for cost in costs))
    return [(number, int(cost * unit)) for number, cost in enumerate(costs, 1) if cost]


def asp(problem: Problem[Any], costs: Sequence[Fraction | int] = ()) -> Iterator[str]:
    """The lines of an answer set program for gringo and clasp: x(N) takes option N, which holds(N,ITEM).

    costs: of each option in their order.
    """
    yield "% An exact cover problem: x(N) takes option N."
    if priced := _priced(costs):
        # With the option in each term, since terms that are the same count once.
        yield f"#minimize {{ {'; '.join(f'{cost},{number} : x({number})' for number, cost in priced)} }}."
    yield f"{{x(1..{len(problem.options)})}}." if problem.options else ""
    for number, option in enumerate(problem.options, 1):
        for name in problem._uses(option):
            yield f"holds({number},{_quoted(name)})."
    for number in _ignored(problem):
        yield f":- x({number})."
    colour = _counter(0)
    for item in _items(problem):
        if item.options.keys() <= {None}:
            yield f":- not {item.low} #count{{N : x(N), holds(N,{_quoted(item.name)})}} {item.high}."
            continue
        parts = [f"x({number})" for number in item.options.get(None, [])]
        for variable, options in _choices(item, colour).items():
            parts.append(f"colour({variable})")
            for number in options:
                yield f"colour({variable}) :- x({number})."
        yield f":- 2 {{{'; '.join(parts)}}}."
    yield "#show x/1."


def _quoted(name: str) -> str:
    return '"' + name.replace("\\", "\\\\").replace('"', '\\"') + '"'


def opb(problem: Problem[Any], costs: Sequence[Fraction | int] = ()) -> Iterator[str]:
    """The lines of a pseudo-Boolean problem in the format OPB. costs: of each option in their order."""
    last, lines = sums(problem)
    yield f"* #variable= {last} #constraint= {len(lines)}"
    yield f"* x1 to x{len(problem.options)} take the options in their order"
    if priced := _priced(costs):
        yield f"min: {' '.join(f'{cost:+d} x{number}' for number, cost in priced)} ;"
    for line in lines:
        yield line[:-1]


def sums(problem: Problem[Any], let_off: Sequence[int] = ()) -> tuple[int, list[str]]:
    """The last variable of a problem's sums, and these as lines. let_off: as `clauses` takes it."""
    last = max([len(problem.options), *let_off])
    fresh = _counter(last)
    lines: list[str] = [_sum([], [number], 0) for number in _ignored(problem)]
    for item, let in zip_longest(_items(problem), let_off):
        choices = _choices(item, fresh)
        last += len(choices)
        held = item.options.get(None, []) + list(choices)
        for variable, options in choices.items():
            lines += [_sum([variable], [option], 0) for option in options]
            lines.append(_sum(options, [variable], 0))
        if item.low:
            lines.append(_sum(held, [], item.low, let))
        if len(held) > item.high:
            lines.append(_sum([], held, -item.high))
    # Without options only sums that can't work are left, and these name a variable.
    return max(last, 1 if lines else 0), lines


def _sum(plus: list[int], minus: list[int], least: int, let_off: int | None = None) -> str:
    terms = [f"+1 x{variable}" for variable in plus] + [f"-1 x{variable}" for variable in minus]
    if let_off is not None:
        terms.append(f"{least:+d} x{let_off}")
    # The format has no empty sum: a variable may stand against itself.
    return " ".join(terms or ["+1 x1 -1 x1"]) + f" >= {least} ;\n"


def cnf(problem: Problem[Any]) -> Iterator[str]:
    """The lines of a problem in DIMACS CNF. Sums are counted by variables that follow from the options."""
    found = clauses(problem)
    yield f"c variables 1 to {len(problem.options)} take the options in their order"
    yield f"p cnf {found.last} {found.count}"
    for lines in found.lines:
        yield lines[:-1]


def clauses(problem: Problem[Any], let_off: Sequence[int] = ()) -> Clauses:
    """The clauses of a problem.

    let_off: for each primary item a variable after those of the options that lets it be held less often than its
    bounds say.
    """
    found = Clauses(max([len(problem.options), *let_off]))
    for number in _ignored(problem):
        found.add(-number)
    for item, let in zip_longest(_items(problem), let_off):
        choices = {found.fresh(): options for colour, options in item.options.items() if colour is not None}
        for variable, options in choices.items():
            for option in options:
                found.add(-option, variable)
            found.add(-variable, *options)
        found.bound(item.options.get(None, []) + list(choices), item.low, item.high, [] if let is None else [let])
    return found


def lp(problem: Problem[Any], costs: Sequence[Fraction | int] = ()) -> Iterator[str]:
    """The lines of an integer program in the LP format of CPLEX. costs: of each option in their order; none are 0."""
    options = len(problem.options)
    last, rows = _rows(problem)
    yield f"\\ x1 to x{options} take the options in their order"
    yield "Minimize"
    # All of them, so that the variables have the order of the options also for who goes by their first mention.
    yield from _folded(" obj:", [_term(costs[x - 1] if costs else 0, x) for x in range(1, max(options, 1) + 1)])
    yield "Subject To"
    for terms, sign, bound in rows:
        yield from _folded("", [*(_term(factor, x) for x, factor in terms), f"{sign} {bound}"])
    yield "Binary"
    yield from _folded("", [f"x{x}" for x in range(1, last + 1)])
    yield "End"


def _rows(problem: Problem[Any]) -> tuple[int, list[tuple[list[tuple[int, int]], str, int]]]:
    """The last variable of a problem's rows, and these: variables and their factors, a sign, and a number."""
    last = len(problem.options)
    fresh = _counter(last)
    rows = [([(number, 1)], "=", 0) for number in _ignored(problem)]
    for item in _items(problem):
        choices = _choices(item, fresh)
        last += len(choices)
        for variable, options in choices.items():
            rows += [([(variable, 1), (option, -1)], ">=", 0) for option in options]
            rows.append(([*((option, 1) for option in options), (variable, -1)], ">=", 0))
        # The format has no empty sum.
        held = [(variable, 1) for variable in [*item.options.get(None, []), *choices]] or [(1, 0)]
        if item.low == item.high:
            rows.append((held, "=", item.low))
            continue
        if item.low:
            rows.append((held, ">=", item.low))
        if len(held) > item.high:
            rows.append((held, "<=", item.high))
    # A problem without options has a variable too.
    return max(last, 1), rows or [([(1, 0)], "=", 0)]


def _term(factor: Fraction | int, variable: int) -> str:
    size = f"{abs(factor)}" if isinstance(factor, int) else spelled(abs(factor))
    return f"{'-' if factor < 0 else '+'} {size} x{variable}"


def _folded(head: str, words: Sequence[str]) -> Iterator[str]:
    """Words in lines that aren't too long, the first one after a head."""
    for at in range(0, len(words), _TERMS):
        yield f"{'' if at else head} {' '.join(words[at : at + _TERMS])}"


FORMATS: dict[str, Callable[..., Iterator[str]]] = {"asp": asp, "opb": opb, "cnf": cnf, "lp": lp}

"""Costs of options by the names of their items: wishes, each a line of names and a number.

    night bob 3
    mon* bob -1
    A:x 0.5

Each option that has all items of a line costs its number, and several lines add up. `bob without night 3` is of the
options that have `bob` and not `night`, and `without night 3` of all that haven't `night`. Words are as in `named`:
patterns, and colours after a colon; an item named `without` is `[w]ithout`. The tables of some kinds of problems have
wishes too, which `of_table` reads.
"""

from __future__ import annotations

from collections.abc import Iterable, Iterator, Sequence
from dataclasses import dataclass, field, replace
from typing import TYPE_CHECKING, Any

from ._text.amounts import A_NUMBER, is_number, number_of, spelled
from .errors import TableFault
from .problem import Problem

if TYPE_CHECKING:
    from fractions import Fraction

    from ._text.named import Named

__all__ = ["Costs", "Wish", "of_table", "read"]

_LONGEST = 60
_WITHOUT = "without"
# Of folded costs so many lines are printed.
_MOST_LINES = 10


@dataclass(frozen=True)
class Wish:
    """A number, the options that cost it, by their places from 0 on, and where that is said: the line and its text."""

    line: int
    text: str
    cost: Fraction
    places: frozenset[int]
    is_of_table: bool = False


@dataclass(frozen=True)
class Costs:
    """What each option costs, in their order, and the wishes among which that is shared out.

    is_folded: `lines` leaves out wishes that cancel each other, and all but the ten that cost most.
    """

    numbers: list[Fraction]
    wishes: list[Wish] = field(default_factory=list)
    is_folded: bool = False

    def __add__(self, other: Costs) -> Costs:
        numbers = [one + two for one, two in zip(self.numbers, other.numbers)]
        return Costs(numbers, self.wishes + other.wishes)

    def folded(self) -> Costs:
        """The same costs, of which a command prints as much as one likes to read."""
        return replace(self, is_folded=True)

    def lines(self, numbers: Iterable[int]) -> Iterator[str]:
        """What each wish costs in a solution of options with these numbers: a line for each that costs something."""
        costs = dict(self._costs(list(numbers)))
        most = _MOST_LINES if self.is_folded and len(costs) > _MOST_LINES + 1 else len(costs)
        kept = sorted(costs, key=lambda at: -abs(costs[at] * self.wishes[at].cost))[:most]
        for at in sorted(kept):
            wish, times = self.wishes[at], costs.pop(at)
            where = f"line {wish.line}{' of the table' if wish.is_of_table else ''}"
            of = f" ({times} times)" if times > 1 else ""
            yield f"{spelled(wish.cost * times)} by {where}: {wish.text}{of}"
        if costs:
            from fractions import Fraction

            rest = sum((self.wishes[at].cost * times for at, times in costs.items()), Fraction(0))
            yield f"{spelled(rest)} by {len(costs)} more lines; --all-costs shows each"

    def _costs(self, numbers: Sequence[int]) -> Iterator[tuple[int, int]]:
        """The places of the wishes that cost something, each with how often it does."""
        times = [sum(number in wish.places for number in numbers) if wish.cost else 0 for wish in self.wishes]
        for number in numbers if self.is_folded else ():
            # Of one option a wish and an earlier one that costs as much less are nothing.
            left: dict[Fraction, list[int]] = {}
            for at, wish in enumerate(self.wishes):
                if times[at] and number in wish.places:
                    against = left.get(-wish.cost)
                    if against:
                        times[at] -= 1
                        times[against.pop()] -= 1
                    else:
                        left.setdefault(wish.cost, []).append(at)
        return ((at, count) for at, count in enumerate(times) if count)


def read(text: str, problem: Problem[Any]) -> Costs:
    """The costs of a file: wishes, or a column of numbers, one for each option. It is a column where no line has a name
    before its last word, so a name that looks like a number is written as a pattern, `[7]`.

    Raises `TableFault`, also for a line that fits no option.
    """
    lines = [(number, line.split()) for number, line in enumerate(text.split("\n"), 1)]
    lines = [(number, words) for number, words in lines if words and not words[0].startswith("|")]
    if all(is_number(word) for _, words in lines for word in words[:-1]):
        from . import cost

        return Costs(cost.read(text, len(problem.options)))
    from ._text.named import Named

    named = Named(problem)
    every = range(len(problem.options))
    return summed(problem, [_wish(number, words, named, every) for number, words in lines])


def _wish(line: int, words: Sequence[str], named: Named, every: Iterable[int]) -> Wish:
    *names, last = words
    if not is_number(last):
        raise TableFault(line, last[:_LONGEST], f"no cost; a line is names of items and then {A_NUMBER}")
    if not names:
        raise TableFault(line, last, "a cost without names: a line is names of items and then a number")
    text = " ".join(words)
    at = names.index(_WITHOUT) if _WITHOUT in names else len(names)
    held, left = names[:at], names[at + 1 :]
    if not left and at < len(names):
        raise TableFault(line, text[:_LONGEST], f"behind `{_WITHOUT}` stand names of items that options don't have")
    places = set(named.having(held) if held else every)
    if not places:
        raise TableFault(line, text[:_LONGEST], named.why_none(held))
    for word in left:
        others = named.having([word])
        if not others:
            raise TableFault(line, text[:_LONGEST], named.why_none([word]))
        places.difference_update(others)
    if not places:
        those = f"with {' '.join(held)} " if held else ""
        raise TableFault(line, text[:_LONGEST], f"each option {those}has one of {' '.join(left)}")
    return Wish(line, text, number_of(line, last), frozenset(places))


def of_table(problem: Problem[Any]) -> Costs | None:
    """The wishes of the table that a problem was made from by `helgrothy.make`; None where it has none."""
    from .make import KINDS
    from .make._kind import kind_of

    kind = KINDS.get(kind_of(problem.comments) or "")
    try:
        wishes = [] if kind is None else kind.wishes(problem)
    except (ValueError, LookupError):
        # Its comments have no table any longer, or its options aren't those of the kind.
        return None
    return summed(problem, wishes) if wishes else None


def check(wishes: Iterable[Wish], reason: str) -> None:
    """Raises `TableFault` with the reason where a wish of a table is of no option."""
    for wish in wishes:
        if not wish.places:
            raise TableFault(wish.line, wish.text, reason)


def summed(problem: Problem[Any], wishes: list[Wish]) -> Costs:
    """The costs of wishes."""
    from fractions import Fraction

    numbers = [Fraction(0)] * len(problem.options)
    for wish in wishes:
        for place in wish.places:
            numbers[place] += wish.cost
    return Costs(numbers, wishes)

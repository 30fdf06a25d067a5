"""Test designs (covering arrays): factors with values, and tests in which values of any few factors come together."""

from __future__ import annotations

import itertools
import re
from collections.abc import Hashable, Iterable, Iterator, Sequence
from dataclasses import dataclass, field
from math import comb, prod
from typing import Optional

from ..._text.names import colour_names
from ..._text.shown import bytes_of
from ..._text.syntax import MOST_USES, Nearest
from ...errors import TableFault
from ...problem import Problem
from .._kind import check_items, numbered

Option = dict[Hashable, Optional[str]]
# What comes together in a test: values of some factors, each factor and value by its number.
Meeting = tuple[tuple[int, int], ...]

MOST_STRENGTH = 10
# Numbers of values, such as `3,3,2` or `3^2,2`.
LEVELS = re.compile(r"[0-9]+(?:\^[0-9]+)?(?:,[0-9]+(?:\^[0-9]+)?)*\Z")
_LEVEL = re.compile(r"([0-9]{1,9})(?:\^([0-9]{1,9}))?\Z")
# What begins a line of values that never come together, and of a test that exists.
_FORBIDDEN, _GIVEN = "-", "+"
_NOT_IN_FACTOR = re.compile(r"[:|=\0]")
# An item is a test's number and a factor's name, and has at most 32 bytes.
_LONGEST_FACTOR = 24


@dataclass(frozen=True)
class Factor:
    """A factor, and its values with the colours that they have in a problem, which are shorter where need be."""

    name: str
    values: tuple[str, ...]
    colours: tuple[str, ...]

    @staticmethod
    def of(name: str, values: Iterable[str]) -> Factor:
        colours = colour_names(values)
        return Factor(name, tuple(map(str, colours)), tuple(colours.values()))


# ---- reading


def read_factors(text: str) -> list[Factor]:
    """The factors of a table, a line for each, or of numbers of values. Raises `TableFault`."""
    given = text.strip()
    factors = list(_by_levels(given) if LEVELS.match(given) else _by_lines(text))
    if not factors:
        raise TableFault(1, "", "no factor: a line is the name of one and its values")
    return factors


def _by_levels(text: str) -> Iterator[Factor]:
    names = (f"f{number}" for number in itertools.count(1))
    total = 0
    for word in text.split(","):
        found = _LEVEL.match(word)
        level, times = (int(found.group(1)), int(found.group(2) or 1)) if found else (0, 0)
        if level < 1 or times < 1:
            raise TableFault(1, word, "neither a number of values nor one with ^ and a number of factors")
        total += level * times
        check_items(total)
        for _ in range(times):
            yield Factor.of(next(names), map(str, range(level)))


def _by_lines(text: str) -> Iterator[Factor]:
    lines: dict[str, int] = {}
    for number, line in numbered(text):
        words = line.split()
        if not words or words[0].startswith("#") or words[0] in (_FORBIDDEN, _GIVEN):
            continue
        name, *values = words
        if name in lines:
            raise TableFault(number, name, f"the factor of line {lines[name]} has this name")
        if not values:
            raise TableFault(number, name, "a factor without values: a line is the name of one and its values")
        if _NOT_IN_FACTOR.search(name):
            raise TableFault(number, name, "the name of a factor has none of : | = and NUL")
        if len(bytes_of(name)) > _LONGEST_FACTOR:
            raise TableFault(number, name, f"the name of a factor has at most {_LONGEST_FACTOR} bytes")
        seen = set()
        for value in values:
            if "\0" in value:
                raise TableFault(number, value, "a value has no NUL")
            if value in seen:
                raise TableFault(number, value, f"{name} has this value twice")
            seen.add(value)
        lines[name] = number
        yield Factor.of(name, values)


@dataclass(frozen=True)
class Rules:
    """Values that never come together in a test, and tests that exist: of each the values by factors, as numbers."""

    bans: list[dict[int, int]] = field(default_factory=list)
    given: list[dict[int, int]] = field(default_factory=list)

    def __bool__(self) -> bool:
        return bool(self.bans or self.given)


def read_rules(text: str, factors: Sequence[Factor]) -> Rules:
    """The lines of a table that begin with `-` or `+`, `- system=linux browser=safari`. Raises `TableFault`."""
    rules = Rules()
    bans: dict[int, dict[int, int]] = {}
    given: dict[int, dict[int, int]] = {}
    for number, line in [] if LEVELS.match(text.strip()) else numbered(text):
        sign, *words = line.split() or [""]
        if sign in (_FORBIDDEN, _GIVEN):
            (bans if sign == _FORBIDDEN else given)[number] = _values(number, words, factors)
    for number, ban in bans.items():
        if len(ban) < 2:
            raise TableFault(number, "", "a forbidden combination has two values at least")
    for number, test in given.items():
        if not test:
            raise TableFault(number, "", "a test that exists has values, FACTOR=VALUE")
        for line_of_ban, ban in bans.items():
            if ban.items() <= test.items():
                raise TableFault(number, "", f"this test has what line {line_of_ban} forbids")
    rules.bans.extend(bans.values())
    rules.given.extend(given.values())
    return rules


def _values(number: int, words: Iterable[str], factors: Sequence[Factor]) -> dict[int, int]:
    """The factors and values that words `FACTOR=VALUE` say. Raises `TableFault`."""
    names = {factor.name: place for place, factor in enumerate(factors)}
    found: dict[int, int] = {}
    for word in words:
        name, sign, value = word.partition("=")
        if not sign:
            raise TableFault(number, word, "no FACTOR=VALUE")
        if name not in names:
            raise TableFault(number, word, f"no factor {name}", Nearest().question(name, names))
        values = factors[names[name]].values
        if value not in values:
            raise TableFault(number, word, f"{name} has no such value", Nearest().question(value, values))
        if names[name] in found:
            raise TableFault(number, word, f"{name} has a value in this line already")
        found[names[name]] = values.index(value)
    return found


# ---- the model


class Design:
    """What has to come together in so many tests, and in which of them it may.

    The first tests have, in order, all values of those factors that have the most: so no design comes again with
    these tests in another order. `least`: how many tests that are, and no design has fewer.

    Raises `ValueError` for fewer tests, and for more than a problem takes.
    """

    def __init__(self, factors: Sequence[Factor], tests: int | None, strength: int) -> None:
        """tests: how many, or None for the least."""
        if not 1 <= strength <= min(MOST_STRENGTH, len(factors)):
            most = f"at most {MOST_STRENGTH}" if len(factors) > MOST_STRENGTH else f"there are {len(factors)} factors"
            raise ValueError(f"the strength is {strength}, and {most}")
        self.factors = factors
        self.strength = strength
        self._levels = levels = [len(factor.values) for factor in factors]
        self._largest = sorted(sorted(range(len(levels)), key=lambda factor: -levels[factor])[:strength])
        self.least = prod(levels[factor] for factor in self._largest)
        self.tests = self.least if tests is None else tests
        if self.tests < self.least:
            raise ValueError(f"{tests} tests are too few: {self.reason}")
        self._check_size()
        self.meetings: list[Meeting] = list(self._all_meetings())
        self._firsts = {first: test for test, first in enumerate(self._values_of(self._largest))}

    @property
    def reason(self) -> str:
        """Why there are at least so many tests."""
        *names, last = (self.factors[factor].name for factor in self._largest)
        if not names:
            return f"{last} has {self.least} values"
        return f"{', '.join(names)} and {last} have {self.least} combinations of values"

    def _check_size(self) -> None:
        rest = [level for factor, level in enumerate(self._levels) if factor not in self._largest]
        meetings = _sums(self._levels, self.strength)[self.strength]
        check_items(meetings + self.tests * len(self.factors))
        # In the first tests, what has no value of the largest factors may be in all, and so on.
        below = _sums(rest, self.strength)
        shared = sum(comb(self.strength, size) * below[self.strength - size] for size in range(self.strength))
        options = self.least * (1 + shared) + (self.tests - self.least) * (meetings - self.least)
        if options * (self.strength + 1) > MOST_USES:
            raise ValueError(f"the problem would have more than {MOST_USES} uses of items")

    def _all_meetings(self) -> Iterator[Meeting]:
        for chosen in itertools.combinations(range(len(self._levels)), self.strength):
            yield from self._values_of(chosen)

    def _values_of(self, chosen: Sequence[int]) -> Iterator[Meeting]:
        for values in itertools.product(*(range(self._levels[factor]) for factor in chosen)):
            yield tuple(zip(chosen, values))

    def first_test(self, test: dict[int, int]) -> int:
        """The place of a test with these values among the first ones."""
        return self._firsts[tuple((factor, test[factor]) for factor in self._largest)]

    def tests_for(self, meeting: Meeting) -> Iterator[int]:
        """The tests that may have what comes together, from 0 on."""
        known = dict(meeting)
        for values in itertools.product(
            *([known[factor]] if factor in known else range(self._levels[factor]) for factor in self._largest)
        ):
            yield self._firsts[tuple(zip(self._largest, values))]
        if meeting not in self._firsts:
            yield from range(self.least, self.tests)

    def option(self, meeting: Meeting, test: int) -> Option:
        """What comes together, in a test."""
        held: Option = {self._item(meeting): None}
        for factor, value in meeting:
            held[f"t{test + 1}/{self.factors[factor].name}"] = self.factors[factor].colours[value]
        return held

    def _item(self, meeting: Meeting) -> tuple[str, ...]:
        """The item of what comes together, for which `Problem` makes a name."""
        return tuple(f"{self.factors[factor].name}={self.factors[factor].values[value]}" for factor, value in meeting)

    def problem(self) -> Problem[Option]:
        """The problem of the design."""
        strength = "" if self.strength == 2 else f" --strength {self.strength}"
        return Problem(
            map(self._item, self.meetings),
            [f"t{test}/{factor.name}" for test in range(1, self.tests + 1) for factor in self.factors],
            (self.option(meeting, test) for meeting in self.meetings for test in self.tests_for(meeting)),
            comments=[
                f"helgrothy make tests FACTORS --tests {self.tests}{strength}",
                "Values that come together in a test N; its factors tN/FACTOR have values as colours. The factors:",
                *(" ".join([factor.name, *factor.values]) for factor in self.factors),
            ],
        )


def _sums(levels: Sequence[int], most: int) -> list[int]:
    """How many values come together of 0, 1, .. factors: sums of products, to which each factor adds."""
    sums = [1] + [0] * most
    for level in levels:
        for size in range(most, 0, -1):
            sums[size] += level * sums[size - 1]
    return sums

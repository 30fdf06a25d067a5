"""Who works which shift on which day, from a table of needs and people."""

from __future__ import annotations

import argparse
import re
from collections.abc import Iterable, Iterator, Sequence
from dataclasses import dataclass, field
from typing import Any

from .._cli.console import positive
from .._text.amounts import number_of
from .._text.sheet import Row, Sheet, whole_names
from .._text.syntax import MOST_USES
from ..draw import Cell, Drawing, Picture, Shades, check_size
from ..errors import TableFault
from ..problem import Problem
from ..wishes import Wish, check
from ._kind import Counted, Kind, check_items, check_numbers, check_texts, numbered, read_text
from ._rules import DaysOff, InARow, Rest, Rule

__all__ = ["problem"]

# How many people a shift of a day takes, at least and at most.
Needs = dict[tuple[str, str], tuple[int, int]]

# Where the table begins in the comments of a problem.
_TABLE_AT = 2
_NUMBERS = re.compile(r"([0-9]{1,9})(?::([0-9]{1,9}))?\Z")


@dataclass
class _Person:
    name: str
    line: int
    bounds: tuple[int, int]
    off: set[str] = field(default_factory=set)
    # A day, a shift, or a shift on a day, and the number that is wished for it.
    wishes: list[tuple[str, str]] = field(default_factory=list)


def problem(
    table: str, *, rest: bool = False, in_a_row: int | None = None, days_off: int | None = None
) -> Problem[list[str]]:
    """A roster from a table.

        -      mon tue wed
        early  1   1   1
        late   1   2   0:1

        ann    2:3
        bob    2    -tue late=3
        cat    1:2  -late -mon/early

    The first line names the days after a word that counts for nothing; each further line up to a blank one is a
    shift and how many people it takes on each day, a number or the least and the most. After the blank line stand
    the people, each with the number of shifts and what is not for him or her: a day, a shift, or a shift on a day.
    `late=3` is a wish: each late shift of bob's costs 3; a number below 0 is for what is liked. `helgrothy.wishes`
    reads them from the problem. Lines that begin with # are skipped. Nobody has two shifts on a day.

    rest: nor a shift on the next day that stands higher in the table. in_a_row: nobody works more days in a row.
    days_off: everybody has so many days off together, once at least.

    An option is a person in a shift, `DAY/SHIFT PERSON PERSON-DAY`; with days_off there are also those of `PERSON-off`,
    the first days that are off together. Raises `TableFault`.
    """
    check_texts(table=table)
    check_numbers(in_a_row=in_a_row or 0, days_off=days_off or 0)
    days, needs, people = _read(table)
    if len(needs) * len(people) > MOST_USES:
        raise ValueError(f"{len(needs)} shifts of days for {len(people)} people are too many")
    rules = list(_rules(days, needs, rest, in_a_row, days_off))
    options: Counted[list[str]] = Counted()
    bounds: dict[str, tuple[int, int]] = {}
    for person in people:
        for option in _options_of(person, needs, rules):
            options.add(option)
        for rule in rules:
            bounds.update(rule.bounds(person.name))
        check_items(len(bounds))
    primary = {
        **{f"{day}/{shift}": need for (day, shift), need in needs.items() if need[1]},
        # Who has no shift has no option either.
        **{person.name: (person.bounds[0], max(person.bounds[1], 1)) for person in people},
        **bounds,
    }
    _check_days(days, people, bounds)
    secondary = dict.fromkeys(item for option in options for item in option if item not in primary)
    limits = {"--in-a-row": in_a_row, "--days-off": days_off}
    words = ["--rest"] * rest + [f"{word} {limit}" for word, limit in limits.items() if limit is not None]
    made = Problem(primary, secondary, options, comments=list(_comments(words, table)))
    check(wishes(made), "no shift of this person is one of these")
    return made


def _rules(
    days: Sequence[str], needs: Needs, rest: bool, in_a_row: int | None, days_off: int | None
) -> Iterator[Rule]:
    if rest:
        yield Rest(days, list(dict.fromkeys(shift for _, shift in needs)))
    if in_a_row is not None:
        yield InARow(days, in_a_row)
    if days_off is not None:
        if days_off > len(set(days)):
            raise TableFault(1, "", f"{len(set(days))} days, of which {days_off} together are to be off")
        yield DaysOff(days, days_off)


def _options_of(person: _Person, needs: Needs, rules: Sequence[Rule]) -> Iterator[list[str]]:
    for day, shift in _free(person, needs):
        held = [item for rule in rules for item in rule.held(person.name, day, shift)]
        yield [f"{day}/{shift}", person.name, f"{person.name}-{day}", *held]
    for rule in rules:
        yield from rule.options(person.name)


def _comments(words: Sequence[str], table: str) -> Iterator[str]:
    """What was asked for, what the options are, and the table, from `_TABLE_AT` on."""
    yield " ".join(["helgrothy make roster", *words, "TABLE"])
    yield "A person in a shift DAY/SHIFT, at most once a day (PERSON-DAY). The table:"
    yield from (line for _, line in numbered(table))


def wishes(problem: Problem[Any]) -> list[Wish]:
    """The wishes of the table in a problem's comments. Raises `TableFault`."""
    _, _, people = _read("\n".join(problem.comments[_TABLE_AT:]))
    own: dict[str, list[tuple[int, set[str]]]] = {}
    if any(person.wishes for person in people):
        for place, option in enumerate(problem.options):
            slot, name = problem.line(option).split()[:2]
            if "/" not in slot:
                continue
            own.setdefault(name, []).append((place, {slot, *slot.split("/")}))
    return [
        Wish(
            person.line,
            f"{person.name} {what}={number}",
            number_of(person.line, number),
            frozenset(place for place, names in own.get(person.name, ()) if what in names),
            is_of_table=True,
        )
        for person in people
        for what, number in person.wishes
    ]


def _free(person: _Person, needs: Needs) -> Iterator[tuple[str, str]]:
    """The shifts of days that a person may take."""
    for (day, shift), (_, most) in needs.items():
        if most and person.bounds[1] and person.off.isdisjoint((day, shift, f"{day}/{shift}")):
            yield day, shift


def _read(table: str) -> tuple[list[str], Needs, list[_Person]]:
    lines = [(number, line.split()) for number, line in numbered(table) if not line.startswith("#")]
    while lines and not lines[0][1]:
        lines.pop(0)
    end = next((k for k, (_, words) in enumerate(lines) if not words), len(lines))
    if end < 2:
        raise TableFault(1, "", "a table begins with a line of days and lines of shifts")
    days = lines[0][1][1:]
    _check_names((lines[0][0], day) for day in days)
    _check_names((number, words[0]) for number, words in lines[1:end])
    _check_names((number, words[0]) for number, words in lines[end:] if words)
    needs: Needs = {}
    for number, (shift, *counts) in lines[1:end]:
        if len(counts) != len(days):
            raise TableFault(number, shift, f"{len(counts)} numbers for {len(days)} days")
        for day, word in zip(days, counts):
            needs[day, shift] = _numbers(number, word)
    known = {word for day, shift in needs for word in (day, shift, f"{day}/{shift}")}
    people = [_person(number, words, days, known) for number, words in lines[end:] if words]
    if not people:
        raise TableFault(lines[-1][0], "", "no people after a blank line")
    return days, needs, people


def _check_names(names: Iterable[tuple[int, str]]) -> None:
    """Days, shifts or people with their lines. Raises `TableFault` for one that is there twice, or that reads as a
    shift on a day."""
    lines: dict[str, int] = {}
    for number, name in names:
        if "/" in name:
            raise TableFault(number, name, "a name in a table has no /, which is for a shift on a day")
        if name in lines:
            raise TableFault(number, name, f"this name is in line {lines[name]} already")
        lines[name] = number


def _check_days(days: Sequence[str], people: Sequence[_Person], others: Iterable[str]) -> None:
    """Raises `TableFault` for a day of a person, `PERSON-DAY`, that has the name of anything else."""
    taken = {*others, *(person.name for person in people)}
    for person in people:
        for day in days:
            name = f"{person.name}-{day}"
            if name in taken:
                raise TableFault(person.line, person.name, f"{name} would be two things; take another name")
            taken.add(name)


def _person(number: int, words: Sequence[str], days: Sequence[str], known: set[str]) -> _Person:
    name, *rest = words
    person = _Person(name, number, (0, len(days)))
    if rest and not rest[0].startswith("-") and "=" not in rest[0]:
        person.bounds = _numbers(number, rest.pop(0))
    for word in rest:
        what, sign, wished = word.rpartition("=")
        if word.startswith("-") and word[1:] in known:
            person.off.add(word[1:])
        elif sign and what in known:
            number_of(number, wished)
            person.wishes.append((what, wished))
        else:
            raise TableFault(number, word, "neither -DAY, -SHIFT nor -DAY/SHIFT of the table, nor one with =NUMBER")
    return person


def _numbers(number: int, word: str) -> tuple[int, int]:
    found = _NUMBERS.match(word)
    if found is None:
        raise TableFault(number, word, "neither a number nor two with a colon between")
    low = int(found.group(1))
    high = low if found.group(2) is None else int(found.group(2))
    if high < low:
        raise TableFault(number, word, "the least comes first")
    return low, high


class _Axes:
    """The whole names of people and days, and of what the items of a problem are made of."""

    def __init__(self, problem: Problem[Any]) -> None:
        _, needs, known = _read("\n".join(problem.comments[_TABLE_AT:]))
        items = problem.item_names
        slots = [f"{day}/{shift}" for (day, shift), (_, most) in needs.items() if most]
        self.slots = whole_names(items[: len(slots)], slots)
        # After the people are the items of rules.
        others = [item for item in items if item not in self.slots]
        self.person_of = whole_names(others[: len(known)], [person.name for person in known])
        self.people = list(self.person_of.values())
        self.days = list(dict.fromkeys(slot.partition("/")[0] for slot in self.slots.values()))
        check_size(len(self.people), len(self.days), len(problem.options))
        self.shifts = list(dict.fromkeys(slot.partition("/")[2] for slot in self.slots.values()))

    def of(self, line: str) -> tuple[str, str, str] | None:
        """The person, the day and the shift of an option; None for one that is days off together."""
        slot, person = line.split()[:2]
        if slot not in self.slots and "/" not in slot:
            return None
        day, _, shift = self.slots[slot].partition("/")
        return self.person_of[person], day, shift

    def held(self, lines: Sequence[str]) -> dict[tuple[str, str], str]:
        """The shifts of a solution by person and day."""
        return {(one[0], one[1]): one[2] for one in map(self.of, lines) if one is not None}


def sheet(problem: Problem[Any]) -> Sheet:
    """A row for each person and day; one without a shift is free."""
    axes = _Axes(problem)

    def rows(lines: Sequence[str]) -> list[Row]:
        held = axes.held(lines)
        return [[person, day, held.get((person, day))] for person in axes.people for day in axes.days]

    def label(line: str) -> str:
        one = axes.of(line)
        if one is None:
            # Its first item is PERSON-off, of which a long name is cut.
            name = line.split()[0].rpartition("-")[0]
            return f"days-off {name}" if name in axes.people else "days-off"
        return f"{one[1]}/{one[2]} {one[0]}"

    return Sheet("roster", ("person", "day", "shift"), rows, label)


def drawing(problem: Problem[Any]) -> Drawing:
    """A table of people and days."""
    axes = _Axes(problem)
    shades = Shades()
    for shift in axes.shifts:
        shades[shift]

    def draw(lines: Sequence[str]) -> Picture:
        held = axes.held(lines)
        cells = {(r, c): Cell() for r in range(len(axes.people)) for c in range(len(axes.days))}
        for r, person in enumerate(axes.people):
            for c, day in enumerate(axes.days):
                if (person, day) in held:
                    shift = held[person, day]
                    cells[r, c] = Cell(shift, fill=shades[shift])
        return Picture("a roster", cells, axes.people, axes.days)

    return draw


def _add_arguments(parser: argparse.ArgumentParser) -> None:
    parser.add_argument(
        "table",
        metavar="TABLE",
        help="a file: a line of days after a word, lines of shifts with numbers of people, a blank line, lines of "
        "people with numbers of shifts, what is not for them (-DAY, -SHIFT, -DAY/SHIFT) and what it costs if they have "
        "it (DAY=3, SHIFT=3, DAY/SHIFT=3)",
    )
    parser.add_argument("--rest", action="store_true", help="no shift on the next day that stands higher in the table")
    parser.add_argument("--in-a-row", type=positive, metavar="N", help="nobody works more than N days in a row")
    parser.add_argument(
        "--days-off", type=positive, metavar="N", help="everybody has N days off together, once at least"
    )


def _make(arguments: argparse.Namespace) -> Problem[list[str]]:
    return problem(
        read_text(arguments.table), rest=arguments.rest, in_a_row=arguments.in_a_row, days_off=arguments.days_off
    )


KIND = Kind("roster", "shifts of people on days", _add_arguments, _make, drawing, wishes=wishes, sheet=sheet)


def __dir__() -> list[str]:
    return __all__

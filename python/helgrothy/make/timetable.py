"""Lessons or exams in slots and rooms, from a table as CSV."""

from __future__ import annotations

import argparse
from collections.abc import Iterable, Sequence
from typing import Any, Optional

from .._cli.console import positive
from .._text.amounts import number_of
from .._text.sheet import Row, Sheet, whole_names
from .._text.shown import bytes_of
from .._text.syntax import MOST_NAME
from ..draw import Cell, Drawing, Picture, Shades, check_size
from ..problem import Problem
from ..wishes import Wish, check
from ._kind import Counted, Kind, check_items, check_numbers, check_texts, numbered, read_text
from ._lessons import Lesson, Order, Plan, Room, Slot

__all__ = ["problem"]

# Items with their colours, or None.
Option = dict[str, Optional[str]]

# Where the table begins in the comments of a problem.
_TABLE_AT = 2
_EARLIER, _LATER = "a", "b"


def problem(table: str, *, daily: int | None = None) -> Problem[Option]:
    """A timetable from a table.

        day,mon,1 2
        day,tue,1 2
        room,hall,,,30
        room,lab,,-mon-1,20
        lesson,maths,ann 1a,,24
        lesson,physics,bob 1a,lab,,2
        person,bob,,-tue
        before,maths,physics

    A line is `day,NAME,HOURS`, or `room,NAME,,PLACES,SEATS`, or `lesson,NAME,PEOPLE,PLACES,SEATS,TIMES`, or the same
    with `exam`, or `person,NAME,LESSONS,PLACES,LIMIT`, or `before,NAME,LESSONS`: the first lesson is in an earlier slot
    than each of the others, in the order of the table, or `same,NAME,LESSONS`: all are in the same slot. Lines that
    begin with # are skipped.

    PLACES are words: days, hours, slots such as mon-1, and rooms. Of the words of one kind any will do, and what a
        minus bars is left out. `fri=3` is a wish: each lesson there (of this room, or of this person) costs 3.
        `helgrothy.wishes` reads them from the problem. SEATS are those of a room, or those that a lesson needs, without
        a number one for each of its people. TIMES is how often a lesson is held, once without a number. LIMIT is how
        many lessons a person has a day at most. LESSONS are further ones of a person, beside those whose PEOPLE name
        him or her.
    daily: the limit of people without one of their own.

    An option is a lesson in a slot and a room, `maths mon-1/hall ann@mon-1 1a@mon-1`. Of lessons one before another the
    first has items `before1@@SLOT` up to its slot, of one colour, and the others those from theirs on, of another one;
    of those of the same slot each has this as the colour of an item. Raises `TableFault`.
    """
    check_texts(table=table)
    check_numbers(daily=daily or 0)
    plan = Plan(table, daily)
    limits, orders = _Limits(plan), _Orders(plan)
    options: Counted[Option] = Counted()
    for lesson in plan.lessons.values():
        for slot, room in plan.places_of(lesson):
            held = [lesson.name, *_place(plan, lesson, slot, room), *(f"{name}@{slot.name}" for name in lesson.people)]
            held += limits.items(lesson, slot)
            options.add({**dict.fromkeys(held), **orders.colours(lesson, slot)})
    primary = {
        **{name: (lesson.times, lesson.times) for name, lesson in plan.lessons.items()},
        **{name: (0, most) for name, most in limits.bounds.items() if most > 1},
    }
    secondary = [name for name in dict.fromkeys(name for option in options for name in option) if name not in primary]
    check_items(len(primary) + len(secondary))
    made = Problem(
        primary,
        secondary,
        options,
        comments=[
            f"helgrothy make timetable{'' if daily is None else f' --daily {daily}'} TABLE",
            "A lesson in a slot and a room, SLOT/ROOM, with its people in the slot, PERSON@SLOT. The table:",
            *(line for _, line in numbered(table)),
        ],
    )
    check(_wishes(made, plan), "no lesson or exam can be there")
    return made


def _place(plan: Plan, lesson: Lesson, slot: Slot, room: Room) -> list[str]:
    """The items that a lesson takes in a slot."""
    place = [f"{slot.name}/{room.name}"] if plan.has_rooms else []
    # Where neither a room nor a person is twice in a slot, a lesson is.
    if not place or lesson.times > 1 and not lesson.people:
        place.append(f"{lesson.name}@{slot.name}")
    return place


def wishes(problem: Problem[Any]) -> list[Wish]:
    """The wishes of the table in a problem's comments. Raises `TableFault`."""
    return _wishes(problem, Plan("\n".join(problem.comments[_TABLE_AT:])))


def _wishes(problem: Problem[Any], plan: Plan) -> list[Wish]:
    # What has wishes: lessons, rooms and people, of which the first two may have the same names.
    owners = [("lesson", lesson.name, lesson.places) for lesson in plan.lessons.values()]
    owners += [("room", room.name, room.places) for room in plan.rooms]
    owners += [("person", person.name, person.places) for person in plan.people.values()]
    owners = [owner for owner in owners if owner[2].wishes]
    options = _Options(problem, plan).by_owner if owners else {}
    return [
        Wish(
            places.line,
            f"{name} {where}={number}",
            number_of(places.line, number),
            frozenset(place for place, names in options.get((kind, name), ()) if where in names),
            is_of_table=True,
        )
        for kind, name, places in owners
        for where, number in places.wishes
    ]


class _Options:
    """The options of each lesson, room and person: their places, and the names of day, hour, slot and room."""

    def __init__(self, problem: Problem[Any], plan: Plan) -> None:
        slots = {slot.name: slot for slot in plan.slots}
        self.by_owner: dict[tuple[str, str], list[tuple[int, set[str]]]] = {}
        for place, option in enumerate(problem.options):
            lesson, word, *_ = problem.line(option).split()
            name, sign, room = word.partition("/")
            slot = slots[name if sign else word.rpartition("@")[2]]
            names = {slot.day, slot.hour, slot.name, room}
            people = plan.lessons[lesson].people
            for owner in (("lesson", lesson), ("room", room), *(("person", person) for person in people)):
                self.by_owner.setdefault(owner, []).append((place, names))


class _Limits:
    """How many lessons a day people have at most, where they might have more: an item for a person on a day."""

    def __init__(self, plan: Plan) -> None:
        days: dict[str, int] = {}
        for slot in plan.slots:
            days[slot.day] = days.get(slot.day, 0) + 1
        self.bounds: dict[str, int] = {}
        for person in plan.people.values():
            for day, slots in days.items():
                if person.daily is not None and person.daily < min(person.asked, slots):
                    self.bounds[f"{person.name}@{day}"] = person.daily

    def items(self, lesson: Lesson, slot: Slot) -> list[str]:
        names = [f"{name}@{slot.day}" for name in lesson.people]
        return [name for name in names if name in self.bounds]


class _Orders:
    """What says that lessons are one before another, or in the same slot."""

    def __init__(self, plan: Plan) -> None:
        self._slots = [slot.name for slot in plan.slots]
        self._orders: dict[str, list[tuple[str, Order]]] = {}
        for number, order in enumerate(plan.orders, 1):
            for lesson in order.lessons:
                # No other name has two of these signs.
                self._orders.setdefault(lesson.name, []).append((f"{order.line.kind}{number}@@", order))

    def colours(self, lesson: Lesson, slot: Slot) -> Option:
        """The items of a lesson in a slot, with their colours."""
        at = self._slots.index(slot.name)
        found: Option = {}
        for stem, order in self._orders.get(lesson.name, []):
            if order.is_same:
                found[stem] = str(at + 1)
            elif lesson is order.first:
                found.update(dict.fromkeys((f"{stem}{name}" for name in self._slots[: at + 1]), _EARLIER))
            else:
                found.update(dict.fromkeys((f"{stem}{name}" for name in self._slots[at:]), _LATER))
        return found


class _Held:
    """What the options of a problem are: lessons in slots and rooms."""

    def __init__(self, problem: Problem[Any], plan: Plan) -> None:
        self._plan = plan
        self._places = {f"{slot.name}/{room.name}": (slot, room) for slot in plan.slots for room in plan.rooms}
        self._slots = {slot.name: (slot, plan.rooms[0]) for slot in plan.slots}
        self._whole: dict[str, str] = {}
        if plan.has_rooms and any(len(bytes_of(name)) > MOST_NAME for name in self._places):
            lessons = plan.lessons.values()
            places = [f"{slot.name}/{room.name}" for lesson in lessons for slot, room in plan.places_of(lesson)]
            self._whole = whole_names([problem.line(option).split()[1] for option in problem.options], places)

    def of(self, line: str) -> tuple[Lesson, Slot, Room]:
        """The lesson, the slot and the room of an option."""
        name, word, *_ = line.split()
        if self._plan.has_rooms:
            slot, room = self._places[self._whole.get(word, word)]
        else:
            slot, room = self._slots[word.rpartition("@")[2]]
        return self._plan.lessons[name], slot, room


def sheet(problem: Problem[Any]) -> Sheet:
    """A row for each time of a lesson, by slots and rooms."""
    plan = Plan("\n".join(problem.comments[_TABLE_AT:]))
    held = _Held(problem, plan)
    at = {slot.name: number for number, slot in enumerate(plan.slots)}
    room_at = {room.name: number for number, room in enumerate(plan.rooms)}

    def rows(lines: Sequence[str]) -> list[Row]:
        found = sorted(map(held.of, lines), key=lambda one: (at[one[1].name], room_at[one[2].name]))
        return [[lesson.name, slot.day, slot.hour or None, room.name or None] for lesson, slot, room in found]

    def label(line: str) -> str:
        lesson, slot, room = held.of(line)
        where = f"{slot.name}/{room.name}" if plan.has_rooms else slot.name
        return " ".join([lesson.name, where, *lesson.people])

    return Sheet("lessons", ("lesson", "day", "hour", "room"), rows, label)


def drawing(problem: Problem[Any]) -> Drawing:
    """A table of slots and rooms; without rooms one of hours and days."""
    plan = Plan("\n".join(problem.comments[_TABLE_AT:]))
    held, grid = _Held(problem, plan), _Grid(plan)
    check_size(len(grid.rows), len(grid.columns), len(problem.options))
    shades = Shades()

    def draw(lines: Sequence[str]) -> Picture:
        cells = {at: Cell() for at in grid.places}
        for lesson, slot, room in map(held.of, lines):
            cell = cells[grid.place(slot, room)]
            cell.label = f"{cell.label} {lesson.name}" if cell.label else lesson.name
            cell.fill = shades[lesson.name]
        return Picture("a timetable", cells, list(grid.rows) if any(grid.rows) else (), list(grid.columns))

    return draw


class _Grid:
    """The names of the rows and columns with their numbers, and the places that there are."""

    def __init__(self, plan: Plan) -> None:
        self._has_rooms = plan.has_rooms
        if plan.has_rooms:
            self.rows = _numbered(slot.name for slot in plan.slots)
            self.columns = _numbered(room.name for room in plan.rooms)
            self.places = [(r, c) for r in self.rows.values() for c in self.columns.values()]
        else:
            self.rows = _numbered(slot.hour for slot in plan.slots)
            self.columns = _numbered(slot.day for slot in plan.slots)
            self.places = [(self.rows[slot.hour], self.columns[slot.day]) for slot in plan.slots]

    def place(self, slot: Slot, room: Room) -> tuple[int, int]:
        if self._has_rooms:
            return self.rows[slot.name], self.columns[room.name]
        return self.rows[slot.hour], self.columns[slot.day]


def _numbered(names: Iterable[str]) -> dict[str, int]:
    return {name: number for number, name in enumerate(dict.fromkeys(names))}


def _add_arguments(parser: argparse.ArgumentParser) -> None:
    parser.add_argument(
        "table",
        metavar="TABLE",
        help="a file of CSV, with lines day,NAME,HOURS and room,NAME,,PLACES,SEATS and "
        "lesson,NAME,PEOPLE,PLACES,SEATS,TIMES and person,NAME,LESSONS,PLACES,LIMIT; a place is a day, an hour, a "
        "slot DAY-HOUR or a room, a minus bars one, and DAY=3 is what it costs there; before,NAME,LESSONS and "
        "same,NAME,LESSONS are rules on their slots",
    )
    parser.add_argument("--daily", type=positive, metavar="N", help="nobody has more than N lessons a day")


def _make(arguments: argparse.Namespace) -> Problem[Option]:
    return problem(read_text(arguments.table), daily=arguments.daily)


KIND = Kind(
    "timetable",
    "lessons or exams in slots and rooms",
    _add_arguments,
    _make,
    drawing,
    wishes=wishes,
    sheet=sheet,
)


def __dir__() -> list[str]:
    return __all__

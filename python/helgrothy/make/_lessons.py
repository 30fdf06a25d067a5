"""A table of days, rooms, lessons and people, read from CSV and checked.

Its lines; last cells that are empty may be left out:

    day,NAME,HOURS
    room,NAME,,PLACES,SEATS
    lesson,NAME,PEOPLE,PLACES,SEATS,TIMES        or exam
    person,NAME,LESSONS,PLACES,LIMIT
    before,NAME,LESSONS                          NAME is before each of the lessons
    same,NAME,LESSONS                            NAME is in the same slot as these

Among PLACES may be wishes, `fri=3`.
"""

from __future__ import annotations

import io
import re
from collections import Counter
from collections.abc import Iterator
from dataclasses import dataclass, field
from typing import NoReturn

from .._text.amounts import number_of
from .._text.shown import bytes_of
from .._text.syntax import MOST_NAME, MOST_USES, Nearest
from ..errors import TableFault

# What each kind of line has in its cells.
_CELLS = {
    "day": ("name", "hours"),
    "room": ("name", "", "places", "seats"),
    "lesson": ("name", "people", "places", "seats", "times"),
    "exam": ("name", "people", "places", "seats", "times"),
    "person": ("name", "lessons", "places", "limit"),
    "before": ("name", "lessons"),
    "same": ("name", "lessons"),
}
_ARTICLES = {"day": "a day", "hour": "an hour", "slot": "a slot", "room": "a room"}
_NOT_IN_NAME = re.compile(r"[\s:|/@\0]")
_NUMBER = re.compile(r"[0-9]{1,9}\Z")


@dataclass(frozen=True)
class _Line:
    """A line of the table: its number, what it is of, and its cells by what they are."""

    number: int
    kind: str
    cells: dict[str, str]

    def __str__(self) -> str:
        return f"{self.kind} of line {self.number}"

    @property
    def name(self) -> str:
        return self.cells["name"]

    def words(self, cell: str) -> list[str]:
        """The words of a cell, each once."""
        seen: dict[str, None] = {}
        for word in self.cells[cell].split():
            if word in seen:
                self.refuse(word, f"twice among the {cell} of {self.name}")
            seen[word] = None
        return list(seen)

    def count(self, cell: str) -> int | None:
        """The number in a cell, or None for an empty one."""
        word = self.cells[cell]
        if word and (not _NUMBER.match(word) or int(word) == 0):
            self.refuse(word, f"the {cell} of {self.name}: not a number from 1 on")
        return int(word) if word else None

    def refuse(self, token: str, reason: str, hint: str = "") -> NoReturn:
        raise TableFault(self.number, token, reason, hint)


@dataclass(frozen=True)
class Slot:
    """An hour of a day; a day without hours is one."""

    day: str
    hour: str

    @property
    def name(self) -> str:
        return f"{self.day}-{self.hour}" if self.hour else self.day


@dataclass(frozen=True)
class Places:
    """Where something may be: of days, hours, slots and rooms in any of those that are wanted, and in none barred; and
    what it costs there, each place with a number, and the line that says so."""

    wanted: dict[str, set[str]] = field(default_factory=dict)
    barred: set[str] = field(default_factory=set)
    wishes: list[tuple[str, str]] = field(default_factory=list)
    line: int = 0

    def allow(self, slot: Slot, room: str) -> bool:
        names = {"day": slot.day, "hour": slot.hour, "slot": slot.name, "room": room}
        if not self.barred.isdisjoint(names.values()):
            return False
        return all(names[kind] in wanted for kind, wanted in self.wanted.items())


_ANYWHERE = Places()


@dataclass(frozen=True)
class Room:
    """A room, and where that is open; without seats it has as many as are needed."""

    name: str
    seats: int | None
    places: Places


@dataclass(eq=False)
class Person:
    """daily: how many lessons a day there may be at most."""

    line: _Line
    name: str
    places: Places
    daily: int | None
    lessons: list[Lesson] = field(default_factory=list)

    @property
    def asked(self) -> int:
        """How many lessons there are in all."""
        return sum(lesson.times for lesson in self.lessons)


@dataclass(eq=False)
class Lesson:
    """What is held so many times, with people, in a room with so many seats."""

    line: _Line
    name: str
    places: Places
    given_seats: int | None
    times: int
    people: dict[str, Person] = field(default_factory=dict)

    @property
    def seats(self) -> int:
        return len(self.people) if self.given_seats is None else self.given_seats


@dataclass(frozen=True)
class Order:
    """A rule on the slots of lessons: the first one is before each of the others, or all are in the same slot."""

    line: _Line
    first: Lesson
    others: list[Lesson]

    @property
    def is_same(self) -> bool:
        return self.line.kind == "same"

    @property
    def lessons(self) -> list[Lesson]:
        return [self.first, *self.others]


class Plan:
    """The table, read and checked: slots, rooms, lessons and people, each in the order of its lines.

    Without a room in the table there is one that is named by an empty text, and takes all.
    """

    def __init__(self, text: str, daily: int | None = None) -> None:
        """daily: for people without a number of their own. Raises `TableFault`."""
        lines: dict[str, list[_Line]] = {kind: [] for kind in _CELLS}
        for line in _lines(text):
            lines[line.kind].append(line)
        self._daily = daily
        self._nearest = Nearest()
        # Days, hours, slots and rooms are places, so each name is of one of them.
        self._kinds: dict[str, str] = {}
        self.slots = [slot for line in lines["day"] for slot in self._slots_of(line)]
        if not self.slots:
            raise TableFault(1, "", "no line `day,NAME,HOURS`")
        for line in lines["room"]:
            self._add(line, line.name, "room")
        self.rooms = [Room(line.name, line.count("seats"), self._places(line)) for line in lines["room"]]
        self.has_rooms = bool(self.rooms)
        self.rooms = self.rooms or [Room("", None, _ANYWHERE)]
        self.people: dict[str, Person] = {}
        self.lessons: dict[str, Lesson] = {}
        for line in lines["person"]:
            self._take_person(line)
        for line in sorted(lines["lesson"] + lines["exam"], key=lambda line: line.number):
            self._take_lesson(line)
        if not self.lessons:
            raise TableFault(1, "", "no line `lesson,NAME,PEOPLE` or `exam,NAME,PEOPLE`")
        for line in lines["person"]:
            self._enrol(line)
        self.orders = [self._order(line) for kind in ("before", "same") for line in lines[kind]]
        many = (len(self.lessons) + len(self.people)) * len(self.slots) * len(self.rooms)
        if many > MOST_USES:
            raise ValueError("the table has too many lessons, people, slots and rooms")
        _check(self)

    def _slots_of(self, line: _Line) -> Iterator[Slot]:
        self._add(line, line.name, "day")
        hours = line.words("hours")
        if not hours:
            yield Slot(line.name, "")
        for hour in hours:
            if self._kinds.get(hour) != "hour":
                self._add(line, hour, "hour")
            slot = Slot(line.name, hour)
            self._add(line, slot.name, "slot")
            yield slot

    def _add(self, line: _Line, name: str, kind: str) -> None:
        _check_name(line, name)
        if name in self._kinds:
            line.refuse(name, f"there is {_ARTICLES[self._kinds[name]]} of this name")
        self._kinds[name] = kind

    def _places(self, line: _Line) -> Places:
        places = Places(line=line.number)
        for word in line.words("places"):
            is_barred = word.startswith("-")
            name, sign, wished = word[is_barred:], "", ""
            if name not in self._kinds and not is_barred and "=" in word:
                name, sign, wished = word.rpartition("=")
            if name not in self._kinds:
                line.refuse(word, "no day, hour, slot or room", self._nearest.question(name, self._kinds))
            if sign:
                number_of(line.number, wished)
                places.wishes.append((name, wished))
            elif is_barred:
                places.barred.add(name)
            else:
                places.wanted.setdefault(self._kinds[name], set()).add(name)
        return places

    def _take_person(self, line: _Line) -> None:
        _check_name(line, line.name)
        if line.name in self.people:
            line.refuse(line.name, f"the {self.people[line.name].line} has this name")
        own = line.count("limit")
        self.people[line.name] = Person(line, line.name, self._places(line), self._daily if own is None else own)

    def _take_lesson(self, line: _Line) -> None:
        _check_name(line, line.name)
        if line.name in self.lessons:
            line.refuse(line.name, f"the {self.lessons[line.name].line} has this name")
        lesson = Lesson(line, line.name, self._places(line), line.count("seats"), line.count("times") or 1)
        self.lessons[line.name] = lesson
        for name in line.words("people"):
            _check_name(line, name)
            person = self.people.setdefault(name, Person(line, name, _ANYWHERE, self._daily))
            lesson.people[name] = person
            person.lessons.append(lesson)

    def _lesson(self, line: _Line, name: str) -> Lesson:
        if name not in self.lessons:
            line.refuse(name, "no lesson or exam", self._nearest.question(name, self.lessons))
        return self.lessons[name]

    def _order(self, line: _Line) -> Order:
        """The rule of a line `before` or `same`."""
        order = Order(line, self._lesson(line, line.name), [self._lesson(line, name) for name in line.words("lessons")])
        if not order.others:
            line.refuse(line.name, "no lesson or exam after it")
        for lesson in order.others:
            if lesson is order.first:
                line.refuse(lesson.name, "twice in this line")
        return order

    def _enrol(self, line: _Line) -> None:
        """Adds the lessons of a person's line."""
        person = self.people[line.name]
        for name in line.words("lessons"):
            lesson = self._lesson(line, name)
            if person.name not in lesson.people:
                lesson.people[person.name] = person
                person.lessons.append(lesson)
        if not person.lessons:
            line.refuse(line.name, "a person without a lesson or exam")

    def places_of(self, lesson: Lesson) -> Iterator[tuple[Slot, Room]]:
        """The slots and rooms in which a lesson may be held."""
        # Most people have the same places: anywhere.
        asked = {id(person.places): person.places for person in lesson.people.values()}
        for slot in self.slots:
            for room in self.rooms:
                is_large = room.seats is None or room.seats >= lesson.seats
                if is_large and all(
                    places.allow(slot, room.name) for places in (lesson.places, room.places, *asked.values())
                ):
                    yield slot, room


# ---- what can't work by mere counting


def _check(plan: Plan) -> None:
    """Raises `TableFault` with the line that asks for too much."""
    longest = max((slot.name for slot in plan.slots), key=lambda name: len(bytes_of(name)))
    for person in plan.people.values():
        if person.name in plan.lessons:
            person.line.refuse(person.name, f"the {plan.lessons[person.name].line} has this name, and this is a person")
        _check_length(person.line, f"{person.name}@{longest}")
    for lesson in plan.lessons.values():
        _check_length(lesson.line, f"{lesson.name}@{longest}")
        _check_lesson(plan, lesson)
    for person in plan.people.values():
        _check_person(plan, person)
    for order in plan.orders:
        _check_order(order)
    asked = sum(lesson.times for lesson in plan.lessons.values())
    free = sum(room.places.allow(slot, room.name) for slot in plan.slots for room in plan.rooms)
    if plan.has_rooms and asked > free:
        last = list(plan.lessons.values())[-1]
        last.line.refuse("", f"{_counted(asked, last.line.kind)} up to here, and {free} slots of rooms")


def _check_lesson(plan: Plan, lesson: Lesson) -> None:
    """A lesson has room somewhere, in as many slots as it is held."""
    sizes = [room.seats for room in plan.rooms if room.seats is not None]
    if len(sizes) == len(plan.rooms) and max(sizes) < lesson.seats:
        lesson.line.refuse(lesson.name, f"{_counted(lesson.seats, 'seat')}, and the largest room has {max(sizes)}")
    slots = {slot for slot, _ in plan.places_of(lesson)}
    if not slots:
        lesson.line.refuse(lesson.name, "its seats, its places and those of its people leave it no slot and room")
    if len(slots) < lesson.times:
        lesson.line.refuse(lesson.name, f"{lesson.times} times in {_counted(len(slots), 'slot')}")


def _check_person(plan: Plan, person: Person) -> None:
    """A person has time for all."""
    days: Counter[str] = Counter()
    for slot in plan.slots:
        days[slot.day] += any(person.places.allow(slot, room.name) for room in plan.rooms)
    free = sum(slots if person.daily is None else min(slots, person.daily) for slots in days.values())
    if person.asked > free:
        limit = "" if person.daily is None else f", and at most {person.daily} a day"
        slots = _counted(sum(days.values()), "slot")
        person.line.refuse(person.name, f"{_counted(person.asked, person.lessons[0].line.kind)} in {slots}{limit}")


def _check_order(order: Order) -> None:
    """Lessons of one slot are held as often, and share nobody."""
    if not order.is_same:
        return
    seen: dict[str, Lesson] = {}
    for lesson in order.lessons:
        if lesson.times > 1:
            order.line.refuse(lesson.name, f"held {lesson.times} times; a lesson of the same slot is held once")
        for name in lesson.people:
            if name in seen:
                order.line.refuse(name, f"in {seen[name].name} and in {lesson.name}, which can't be in one slot")
            seen[name] = lesson


def _counted(count: int, what: str) -> str:
    return f"{count} {what}{'' if count == 1 else 's'}"


def _check_name(line: _Line, name: str) -> None:
    if not name:
        line.refuse(line.kind, "a name is missing after this")
    if name.startswith("-") or _NOT_IN_NAME.search(name):
        line.refuse(name, "a name has no blank and no : | / @, and begins with no minus")
    _check_length(line, name)


def _check_length(line: _Line, name: str) -> None:
    if len(bytes_of(name)) > MOST_NAME:
        line.refuse(name, f"this name is made here, and would have more than {MOST_NAME} bytes")


# ---- CSV


def _lines(text: str) -> Iterator[_Line]:
    """The lines that aren't blank or comments. They may be parted by commas, semicolons or tabs."""
    text = text[1:] if text.startswith("\ufeff") else text
    sign = re.search(r"^[^#\n]*?([,;\t])", text, re.MULTILINE)
    # A command that only prints its help doesn't wait for these.
    import csv

    from ..data import of_csv

    reader = csv.reader(io.StringIO(text, newline=""), delimiter=sign.group(1) if sign else ",", strict=True)
    while True:
        number = reader.line_num + 1
        try:
            row = next(reader, None)
        except csv.Error as error:
            raise TableFault(number, "", f"no CSV: {error}") from None
        if row is None:
            return
        cells = [of_csv(cell.strip()) for cell in row]
        if any(cells) and not cells[0].startswith("#"):
            yield _line(number, *cells)


def _line(number: int, kind: str, *rest: str) -> _Line:
    if kind not in _CELLS:
        *names, last = _CELLS
        raise TableFault(number, kind, f"a line begins with {', '.join(names)} or {last}")
    cells = dict.fromkeys(_CELLS[kind], "")
    for place, cell in enumerate(rest):
        if place >= len(cells) or not _CELLS[kind][place]:
            if cell:
                raise TableFault(number, cell, f"in cell {place + 2}, and a line of a {kind} has nothing there")
        else:
            cells[_CELLS[kind][place]] = cell
    return _Line(number, kind, cells)

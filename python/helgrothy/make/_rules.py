"""Rules on the days of the people of a roster, each by items that the shifts of a person hold.

A rule says what a shift holds beside its own items, which bounds these have, and which options there are beside shifts.
"""

from __future__ import annotations

from collections.abc import Iterator, Sequence

Bounds = dict[str, tuple[int, int]]


class Rule:
    """A rule on each person by its own; this one asks for nothing."""

    def held(self, name: str, day: str, shift: str) -> list[str]:
        """What a shift of a day holds."""
        return []

    def bounds(self, name: str) -> Bounds:
        """The primary items of a person."""
        return {}

    def options(self, name: str) -> Iterator[list[str]]:
        """Options of a person that are no shifts."""
        yield from ()


class Rest(Rule):
    """No shift on the next day that stands higher in the table: both have the lines of the table between them."""

    def __init__(self, days: Sequence[str], shifts: Sequence[str]) -> None:
        self._days = days
        self._shifts = shifts
        # Of equal days the first one counts.
        self._day = {day: at for at, day in reversed(list(enumerate(days)))}
        self._shift = {shift: place for place, shift in enumerate(shifts)}

    def held(self, name: str, day: str, shift: str) -> list[str]:
        days, shifts = self._days, self._shifts
        at, place = self._day[day], self._shift[shift]
        after = [f"{name}-{day}>{line}" for line in shifts[:place]] if at + 1 < len(days) else []
        before = [f"{name}-{days[at - 1]}>{line}" for line in shifts[place : len(shifts) - 1]] if at else []
        return after + before


class _Stretches(Rule):
    """A rule with an item for each of some stretches of days, named by the first day, which the shifts in it hold."""

    def __init__(self, stretches: Sequence[Sequence[str]], sign: str) -> None:
        self._sign = sign
        self._firsts = [stretch[0] for stretch in stretches]
        self._of_day: dict[str, list[str]] = {}
        for stretch in stretches:
            for day in stretch:
                self._of_day.setdefault(day, []).append(stretch[0])

    def items(self, name: str, firsts: Sequence[str]) -> list[str]:
        return [f"{name}-{first}{self._sign}" for first in firsts]

    def held(self, name: str, day: str, shift: str) -> list[str]:
        return self.items(name, self._of_day.get(day, []))


class InARow(_Stretches):
    """At most so many days in a row: so many at most of each stretch that is a day longer."""

    def __init__(self, days: Sequence[str], most: int) -> None:
        super().__init__(_stretches(days, most + 1), ">>")
        self._most = most

    def bounds(self, name: str) -> Bounds:
        return dict.fromkeys(self.items(name, self._firsts), (0, self._most))


class DaysOff(_Stretches):
    """So many days off together: an option for the first stretch of them, so that there is one for each roster.

    It holds its days, and the items of the stretches from it on. So each stretch before it has a shift.
    """

    def __init__(self, days: Sequence[str], length: int) -> None:
        self._stretches = _stretches(days, length)
        # The last one is never before another.
        super().__init__(self._stretches[:-1], "..")
        self._most = length + 1

    def bounds(self, name: str) -> Bounds:
        return {f"{name}-off": (1, 1), **dict.fromkeys(self.items(name, self._firsts), (1, self._most))}

    def options(self, name: str) -> Iterator[list[str]]:
        for at, stretch in enumerate(self._stretches):
            yield [f"{name}-off", *(f"{name}-{day}" for day in stretch), *self.items(name, self._firsts[at:])]


def _stretches(days: Sequence[str], length: int) -> list[list[str]]:
    """All stretches of so many days."""
    each = list(dict.fromkeys(days))
    return [each[at : at + length] for at in range(len(each) - length + 1)]

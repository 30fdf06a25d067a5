"""Hall's condition: items that ask for more than the items beside them allow.

Of two classes of items, such as the digits of a region and the cells, let each option that holds one of the first
hold some of the second. So what the first ask for needs room in what the second allow. As much of it as can be is
matched, along shortest ways as Hopcroft and Karp do; where some is left over, the items that it reaches are short.
"""

from __future__ import annotations

import re
import time
from collections.abc import Callable, Hashable, Iterator, Mapping, Sequence
from dataclasses import dataclass
from fractions import Fraction
from functools import lru_cache
from math import gcd

from .._text.syntax import Bounds

Row = tuple[Hashable, ...]
# An item by its place among all, and a class by a number.
Place = int
Classes = Sequence[int]

# The clock is looked at once in so many steps, and so many steps go over two classes at most: an option of many items
# or of many classes has as many as these have pairs.
_STEPS = 20_000
_MOST_STEPS = 3_000_000
# So many of what is left over are looked at for the smallest shortage.
_MOST_STARTS = 64
_NONE = -1


@dataclass(frozen=True)
class Shortage:
    """Weights by which no option weighs more than nothing, and whether all that ask in a class are among them."""

    weights: dict[Hashable, int]
    is_whole: bool


def shortage(
    rows: Sequence[Row], bounds: Mapping[Hashable, Bounds], name: Callable[[Hashable], str], deadline: float
) -> Shortage | None:
    """The shortage of the fewest asking items that two classes show, a whole class being as good as half of one; None
    where none is found in the time.

    rows: what each option holds of the items that have bounds.
    """
    items = list(bounds)
    places = {item: place for place, item in enumerate(items)}
    search = _Search([tuple(map(places.__getitem__, row)) for row in rows], list(bounds.values()), deadline)
    best: _Short | None = None
    for classes in _groupings(search.rows, [name(item) for item in items]):
        for short in search.all(classes):
            if best is None or short.size < best.size:
                best = short
    if best is None:
        return None
    takes = {items[place]: weight for place, weight in best.takes.items()}
    return Shortage({**takes, **{items[place]: -best.worth for place in best.allowing}}, best.is_whole)


def _groupings(rows: Sequence[tuple[Place, ...]], names: Sequence[str]) -> Iterator[Classes]:
    """Classes by the form of the names (a1 and a12 are alike, then a1 and word12 are, too), and by the place in an
    option at which an item first stands."""
    finer = [re.sub(r"\d+", "0", name) for name in names]
    yield _numbered(finer)
    yield _numbered([re.sub(r"[^\W\d]+", "a", form) for form in finer])
    first = [_NONE] * len(names)
    for row in rows:
        for at, place in enumerate(row):
            if first[place] == _NONE:
                first[place] = at
    yield first


def _numbered(forms: Sequence[str]) -> Classes:
    numbers: dict[str, int] = {}
    return [numbers.setdefault(form, len(numbers)) for form in forms]


@dataclass
class _Short:
    """What each asking item takes of the others at least, each time that it is held, and what each of these counts."""

    takes: dict[Place, int]
    allowing: list[Place]
    worth: int
    is_whole: bool

    @property
    def size(self) -> int:
        return len(self.takes) * (1 if self.is_whole else 2)


@dataclass
class _Beside:
    """What the options that hold an item have of another class: how many have any, the least share, and which."""

    rows: int
    share: Fraction
    near: set[Place]


# Of two classes the items of one that ask, each with what is beside it of the other.
_Pairs = dict[tuple[int, int], dict[Place, _Beside]]


@dataclass
class _Search:
    rows: list[tuple[Place, ...]]
    bounds: list[Bounds]
    deadline: float

    def __post_init__(self) -> None:
        self.times = [0] * len(self.bounds)
        for row in self.rows:
            for place in row:
                self.times[place] += 1

    def all(self, classes: Classes) -> Iterator[_Short]:
        """The shortages that any two of these classes show."""
        asks: dict[int, int] = {}
        for place, (low, _) in enumerate(self.bounds):
            if low:
                asks[classes[place]] = asks.get(classes[place], 0) + 1
        for (one, _), found in self.pairs(classes).items():
            always = {place: found[place] for place in sorted(found) if found[place].rows == self.times[place]}
            short = self.short(always) if always else None
            if short is not None:
                short.is_whole = len(short.takes) == asks[one]
                yield short

    def pairs(self, classes: Classes) -> _Pairs:
        """The pairs of classes of which an option holds both; none where the time is over before all are known, or
        where there are too many."""
        pairs: _Pairs = {}
        steps, look = 0, 0
        for row in self.rows:
            parts: dict[int, list[Place]] = {}
            for place in row:
                parts.setdefault(classes[place], []).append(place)
            # Each item with each one of another class, and each class with each other one.
            steps += len(row) + len(parts) ** 2 + len(row) ** 2 - sum(len(places) ** 2 for places in parts.values())
            if steps > _MOST_STEPS or (steps > look and time.monotonic() > self.deadline):
                return {}
            look = max(look, steps + _STEPS) if steps > look else look
            for one, places in parts.items():
                asking = [place for place in places if self.bounds[place].low]
                for other, others in parts.items():
                    if asking and other != one:
                        _note(pairs.setdefault((one, other), {}), asking, others, _share(len(others), len(places)))
        return pairs

    def short(self, beside: Mapping[Place, _Beside]) -> _Short | None:
        """The items that ask for more than those beside them allow; all of them where they do together."""
        worth = 1
        for one in beside.values():
            worth = worth * one.share.denominator // gcd(worth, one.share.denominator)
        takes = {place: int(one.share * worth) for place, one in beside.items()}
        asked = {place: self.bounds[place].low * weight for place, weight in takes.items()}
        near = {place: sorted(one.near) for place, one in beside.items()}
        room = {other: self.bounds[other].high * worth for others in near.values() for other in others}
        if sum(asked.values()) > sum(room.values()):
            return _Short(takes, sorted(room), worth, False)
        found = Matching(asked, room, near).short(self.deadline)
        if found is None:
            return None
        asking, allowing = found
        return _Short({place: takes[place] for place in sorted(asking)}, sorted(allowing), worth, False)


@lru_cache(maxsize=1024)
def _share(others: int, items: int) -> Fraction:
    return Fraction(others, items)


def _note(pair: dict[Place, _Beside], asking: Sequence[Place], others: Sequence[Place], share: Fraction) -> None:
    for place in asking:
        beside = pair.get(place)
        if beside is None:
            pair[place] = _Beside(1, share, set(others))
        else:
            beside.rows += 1
            beside.near.update(others)
            if beside.share is not share and share < beside.share:
                beside.share = share


class Matching:
    """What left nodes ask for, given by the right nodes near them, each of which has some room."""

    def __init__(self, asked: Mapping[int, int], room: Mapping[int, int], near: Mapping[int, Sequence[int]]) -> None:
        self._asked = dict(asked)
        self._room = dict(room)
        self._near = near
        # What each right node gives, and to whom.
        self._given: dict[int, dict[int, int]] = {node: {} for node in room}

    def short(self, deadline: float) -> tuple[set[int], set[int]] | None:
        """Left nodes that ask for more than the right nodes near them have, and these; None where all is given, or
        where that isn't known in the time."""
        while time.monotonic() <= deadline:
            levels = self._levels()
            if levels is None:
                return self._smallest(deadline)
            ways = {node: self._ways(node, levels) for node in levels}
            for node in ways:
                while levels[node] == 0 and self._asked[node] and self._push(node, levels, ways):
                    pass
        return None

    def _levels(self) -> dict[int, int] | None:
        """How far left nodes are from one that still asks, up to the nearest room; None where there is none."""
        levels = {node: 0 for node, asked in self._asked.items() if asked}
        seen: set[int] = set()
        layer = list(levels)
        while layer:
            further: list[int] = []
            has_room = False
            for node in layer:
                for right in self._near[node]:
                    if right in seen:
                        continue
                    seen.add(right)
                    has_room = has_room or self._room[right] > 0
                    for other in self._given[right]:
                        if other not in levels:
                            levels[other] = levels[node] + 1
                            further.append(other)
            if has_room:
                return levels
            layer = further
        return None

    def _ways(self, node: int, levels: Mapping[int, int]) -> Iterator[tuple[int, int]]:
        """The right nodes with room beside a left one, and those of which a left node one level on can give way."""
        for right in self._near[node]:
            if self._room[right]:
                yield right, _NONE
            for other in list(self._given[right]):
                if levels.get(other) == levels[node] + 1 and other in self._given[right]:
                    yield right, other

    def _push(self, start: int, levels: dict[int, int], ways: Mapping[int, Iterator[tuple[int, int]]]) -> bool:
        """Gives some of what a node asks for along one way of the levels; False where none is left."""
        lefts: list[int] = [start]
        rights: list[int] = []
        while lefts:
            right, other = next(ways[lefts[-1]], (_NONE, _NONE))
            if right == _NONE:
                # A dead end, also for those that come after.
                levels[lefts.pop()] = _NONE
                if rights:
                    rights.pop()
                continue
            rights.append(right)
            if other == _NONE:
                self._give(lefts, rights)
                return True
            lefts.append(other)
        return False

    def _give(self, lefts: Sequence[int], rights: Sequence[int]) -> None:
        lent = [self._given[right][left] for right, left in zip(rights, lefts[1:])]
        amount = min([self._asked[lefts[0]], self._room[rights[-1]], *lent])
        self._asked[lefts[0]] -= amount
        self._room[rights[-1]] -= amount
        for right, left in zip(rights, lefts):
            self._given[right][left] = self._given[right].get(left, 0) + amount
        for right, left in zip(rights, lefts[1:]):
            self._given[right][left] -= amount
            if not self._given[right][left]:
                del self._given[right][left]

    def _smallest(self, deadline: float) -> tuple[set[int], set[int]] | None:
        """Of what is reached from each node that still asks, the fewest left nodes."""
        best: tuple[set[int], set[int]] | None = None
        for start in [node for node, asked in self._asked.items() if asked][:_MOST_STARTS]:
            if best is not None and time.monotonic() > deadline:
                break
            reached = self._reached(start)
            if best is None or len(reached[0]) < len(best[0]):
                best = reached
        return best

    def _reached(self, start: int) -> tuple[set[int], set[int]]:
        lefts, rights = {start}, set()
        waiting = [start]
        while waiting:
            for right in self._near[waiting.pop()]:
                if right not in rights:
                    rights.add(right)
                    fresh = self._given[right].keys() - lefts
                    lefts |= fresh
                    waiting += fresh
        return lefts, rights

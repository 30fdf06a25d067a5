"""Which of several equal options a line of a listing says.

Their lines are equal, but for the branch: `(k of n)` says that it is the k-th option left that holds the branch item.
What is left is found from the lines before, by the rules of docs/SEARCH.md.

So Python goes through the branches of each solution that it reads, if options are equal. An extra item for each of them
would take from the 100,000 items that a problem may have.
"""

from __future__ import annotations

from collections.abc import Hashable, Mapping, Sequence
from dataclasses import dataclass
from typing import Optional

from ..errors import UnknownChoice
from .listing import Null

Uses = Sequence[tuple[Hashable, Optional[Hashable]]]


@dataclass(frozen=True)
class Alike:
    """One of several options that are equal."""


class Branches:
    """The options at the branches of solutions, as numbers from 0 on.

    `uses` are the items and colours of all options, `high` the upper bounds of the primary items.
    """

    def __init__(self, uses: Sequence[Uses], high: Mapping[Hashable, int]) -> None:
        self._uses = uses
        self._high = high
        self._holders: dict[Hashable, list[int]] = {item: [] for item in high}
        for number, option in enumerate(uses):
            for item, _ in option:
                if item in high:
                    self._holders[item].append(number)
        # The lines of the solution before, and of each level what is left of its branch item: solutions in a row have
        # most of these in common.
        self._lines: Sequence[bytes] = ()
        self._levels: list[_Left] = []

    def resolved(
        self, lines: Sequence[bytes], items: Sequence[Hashable], choices: Sequence[int | Null | Alike]
    ) -> list[int | Null]:
        """The choices of a solution, with its lines and branch items. Raises `UnknownChoice`."""
        del self._levels[_common(self._lines, lines) + 1 :]
        self._lines = lines
        found: list[int | Null] = []
        state = _State(self._high)
        for level, (line, item, choice) in enumerate(zip(lines, items, choices)):
            left = self._left(level, item)
            if isinstance(choice, Alike):
                option = left.option(_branch(line), self._uses, state)
                if option is None:
                    raise UnknownChoice(line)
                choice = option
            found.append(choice)
            state.take(item, choice, () if isinstance(choice, Null) else self._uses[choice])
        return found

    def _left(self, level: int, item: Hashable) -> _Left:
        """What is left at a level, which has to be the first one that isn't known, or a known one."""
        if level == len(self._levels):
            self._levels.append(_Left(item, self._holders.get(item, [])))
        elif self._levels[level].item != item:
            self._levels[level:] = [_Left(item, self._holders.get(item, []))]
        return self._levels[level]


def _common(one: Sequence[bytes], other: Sequence[bytes]) -> int:
    """How many lines two solutions begin with in common."""
    return next((k for k, (a, b) in enumerate(zip(one, other)) if a != b), min(len(one), len(other)))


class _Left:
    """Options that are left at a level, which are looked for as far as they are asked for."""

    def __init__(self, item: Hashable, holders: Sequence[int]) -> None:
        self.item = item
        self._holders = holders
        self._looked = 0
        self._found: list[int] = []

    def option(self, branch: int, uses: Sequence[Uses], state: _State) -> int | None:
        """The option of a branch, if there is such a branch. The state is that of the level, each time."""
        while len(self._found) < branch:
            if self._looked == len(self._holders):
                return None
            number = self._holders[self._looked]
            self._looked += 1
            if state.has(number, uses[number]):
                self._found.append(number)
        return self._found[branch - 1] if branch > 0 else None


class _State:
    """What a path of branches took from the options and items."""

    def __init__(self, high: Mapping[Hashable, int]) -> None:
        self._high = high
        self._held: dict[Hashable, int] = {}
        self._gone: set[Hashable] = set()
        self._colours: dict[Hashable, Hashable] = {}
        self._withdrawn: dict[Hashable, int] = {}

    def take(self, branch_item: Hashable, choice: int | Null, uses: Uses) -> None:
        if isinstance(choice, Null):
            self._gone.add(branch_item)
            return
        self._withdrawn[branch_item] = choice
        for item, colour in uses:
            if item in self._high:
                self._held[item] = self._held.get(item, 0) + 1
                if self._held[item] == self._high[item]:
                    self._gone.add(item)
            elif colour is None:
                self._gone.add(item)
            else:
                self._colours[item] = colour

    def has(self, number: int, uses: Uses) -> bool:
        """Whether an option is left."""
        for item, colour in uses:
            if item in self._gone or number <= self._withdrawn.get(item, -1):
                return False
            if item in self._colours and self._colours[item] != colour:
                return False
        return True


def _branch(line: bytes) -> int:
    """The number of the branch that a line is, or 0 where it says none."""
    number = line.rpartition(b" (")[2].partition(b" of ")[0]
    return int(number) if number.isdigit() and len(number) < 20 else 0

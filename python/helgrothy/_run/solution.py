"""A solution: a list of options that is read when it is first looked at."""

from __future__ import annotations

from collections.abc import Iterator, Sequence
from functools import total_ordering
from typing import Any, Generic, Protocol, TypeVar, overload

from .._text.listing import Null, Step

Option = TypeVar("Option")


class Source(Protocol):
    """Who gave solutions: what it gave of each one is for it to read, be that lines of a listing or numbers."""

    def options(self, given: Any) -> list[Any]:
        """The options, and choices of none where they are asked for."""

    def numbers(self, given: Any) -> list[int]:
        """The numbers of the options."""

    def steps(self, given: Any) -> list[Step]:
        """The steps of the search."""

    def svg(self, options: Sequence[Any]) -> str | None:
        """A picture of options; None where there is no drawing."""


@total_ordering
class Solution(Sequence[Option], Generic[Option]):
    """The options of a solution, as a list that isn't changed; `list(solution)` is one that may be.

    It holds the lines that the program printed, and they are read when it is first touched: a loop pays for the
    solutions that it looks at. Then `UnknownChoice` is raised for a line that says no option of the problem, which no
    program prints that is what it claims to be.

    It compares with lists as a list does, and has a hash. Pickled or copied deeply it keeps its options, numbers and
    steps, but has no picture of its own in a notebook: `Problem.draw` draws it.
    """

    __slots__ = ("_given", "_held", "_source")

    def __init__(self, source: Source, given: Any) -> None:
        self._source = source
        self._given = given
        self._held: list[Option] | None = None

    def _options(self) -> list[Option]:
        if self._held is None:
            self._held = self._source.options(self._given)
        return self._held

    @property
    def numbers(self) -> list[int]:
        """The places of the options in the problem's `options`, from 0 on; choices of none have none."""
        return self._source.numbers(self._given)

    @property
    def steps(self) -> list[Step]:
        """How the search went to it: at which item it chose which option, and which branch of how many that was.

        Where another solver found it only the options are known: the items are "", and each is branch 0 of 0.
        """
        return self._source.steps(self._given)

    def __len__(self) -> int:
        return len(self._options())

    def __iter__(self) -> Iterator[Option]:
        return iter(self._options())

    @overload
    def __getitem__(self, place: int) -> Option: ...

    @overload
    def __getitem__(self, place: slice) -> list[Option]: ...

    def __getitem__(self, place: int | slice) -> Option | list[Option]:
        return self._options()[place]

    def __eq__(self, other: object) -> bool:
        return self._options() == (other._options() if isinstance(other, Solution) else other)

    def __hash__(self) -> int:
        # Options may have no hash, but their items have; options that are equal hold the same.
        choices: list[Any] = self._options()
        return hash(tuple(choice if isinstance(choice, Null) else frozenset(choice) for choice in choices))

    def __lt__(self, other: Sequence[Option]) -> bool:
        return self._options() < list(other)

    def __repr__(self) -> str:
        return repr(self._options())

    def _repr_svg_(self) -> str | None:
        """The picture, for notebooks; None where the problem has none."""
        return self._source.svg(self._options())

    def __copy__(self) -> Solution[Option]:
        # Nothing in it changes.
        return self

    def __getstate__(self) -> dict[str, Any]:
        return {"options": list(self._options()), "numbers": self.numbers, "steps": self.steps}

    def __setstate__(self, state: dict[str, Any]) -> None:
        self._source = _KEPT
        self._given = state
        self._held = state["options"]


class _Kept:
    """The source of copies: what they were given is their state."""

    def options(self, given: dict[str, Any]) -> list[Any]:
        options: list[Any] = given["options"]
        return options

    def numbers(self, given: dict[str, Any]) -> list[int]:
        return list(given["numbers"])

    def steps(self, given: dict[str, Any]) -> list[Step]:
        return list(given["steps"])

    def svg(self, options: Sequence[Any]) -> str | None:
        return None


_KEPT = _Kept()


class Listed(Solution[Option]):
    """A solution of a listing. number: that of its header."""

    __slots__ = ("number",)

    number: int

    def __init__(self, source: Source, given: Any, number: int) -> None:
        super().__init__(source, given)
        self.number = number

    def __getstate__(self) -> dict[str, Any]:
        return {**super().__getstate__(), "number": self.number}

    def __setstate__(self, state: dict[str, Any]) -> None:
        super().__setstate__(state)
        self.number = state["number"]

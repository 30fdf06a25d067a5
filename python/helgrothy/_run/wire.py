"""Problems on their way to a solver, and what comes back read as solutions: a run's lines, a listing's, or numbers."""

from __future__ import annotations

from abc import ABC, abstractmethod
from collections.abc import Callable, Iterable, Iterator, Sequence
from typing import TYPE_CHECKING, Any, Generic, TypeVar

from .._text import listing as listings
from .._text.alike import Alike, Branches
from .._text.listing import Choices, Decoder, Null, Step, bare_steps, branch_of
from .._text.names import codes
from .._text.shown import bytes_of, text_of
from ..errors import NoPicture

if TYPE_CHECKING:
    from ..problem import Problem

Option = TypeVar("Option", bound=Any)


class Reader(ABC, Generic[Option]):
    """What reads solutions of a problem, and draws them: the `Source` that they have."""

    def __init__(self, problem: Problem[Option], nulls: bool = False) -> None:
        self._problem = problem
        # Those of the run, whatever becomes of the problem's list meanwhile.
        self._options = list(problem.options)
        self._has_nulls = any(low < high for low, high in problem.items.values())
        self._gives_nulls = nulls and self._has_nulls

    @abstractmethod
    def choices(self, given: Any) -> list[int | Null]:
        """The choices that were given: numbers of options, from 0 on, and choices of none."""

    @abstractmethod
    def steps(self, given: Any) -> list[Step]:
        """The steps of the search."""

    def all(self, given: Any) -> list[Option | Null]:
        """The options, and all choices of none."""
        choices: Any = self.choices(given)
        if self._has_nulls:
            return [choice if isinstance(choice, Null) else self._options[choice] for choice in choices]
        return list(map(self._options.__getitem__, choices))

    def options(self, given: Any) -> list[Any]:
        """The options, and choices of none where they are asked for."""
        found = self.all(given)
        if self._gives_nulls or not self._has_nulls:
            return found
        return [choice for choice in found if not isinstance(choice, Null)]

    def numbers(self, given: Any) -> list[int]:
        """The numbers of the options."""
        return [number for number in self.choices(given) if not isinstance(number, Null)]

    def svg(self, options: Sequence[Any]) -> str | None:
        """A picture of options; None where there is no drawing."""
        try:
            return self._problem.draw(options).svg()
        except NoPicture:
            return None


class Wire(Reader[Option]):
    """A problem as it is given to a solver whose listing is read back: with names as short as can be, since each byte
    of a listing costs time.

    places: the options that are given, in this order; without it all are. lines: those of the text. spare: a name that
    no item has.
    """

    def __init__(self, problem: Problem[Option], nulls: bool = False, places: Sequence[int] | None = None) -> None:
        super().__init__(problem, nulls)
        code = codes()
        self._names = {item: next(code) for item in (*problem.items, *problem.secondary)}
        self.spare = next(code)
        self._colours = dict(zip(problem.colours, codes()))
        self._places = places
        options = self._options if places is None else [self._options[place] for place in places]
        lines = list(map(self._line, options))
        self.lines = [problem._item_line(self._names), *lines]
        self._items = {bytes_of(self._names[item]): item for item in problem.items}
        at: dict[bytes, int | Alike] = {}
        self._branches: Branches | None = None
        for number, line in enumerate(lines):
            if at.setdefault(listings.turned(bytes_of(line)), number) != number:
                at[listings.turned(bytes_of(line))] = Alike()
        if len(at) < len(lines):
            uses = [tuple(problem._pairs(option)) for option in options]
            self._branches = Branches(uses, {item: high for item, (_, high) in problem.items.items()})
        self._decoder: Decoder[int | Alike] = Decoder(at, self._items)

    def choices(self, given: bytes) -> list[int | Null]:
        """The choices of lines. Raises `UnknownChoice`."""
        found: Any = self._decoder.read(given)
        if self._branches is not None and any(isinstance(choice, Alike) for choice in found):
            parts = given.split(b"\n")[:-1]
            items = [
                choice.item if isinstance(choice, Null) else self._items.get(part.split(b" ", 2)[1])
                for part, choice in zip(parts, found)
            ]
            found = self._branches.resolved(parts, items, found)
        choices: list[int | Null] = found
        places = self._places
        if places is None:
            return choices
        return [choice if isinstance(choice, Null) else places[choice] for choice in choices]

    def steps(self, given: bytes) -> list[Step]:
        """The steps of lines, by the names of items. Raises `UnknownChoice`."""
        name = self._problem.name
        return _steps(given.split(b"\n"), self.choices(given), lambda word: name(self._items[word]))

    def _line(self, option: Option) -> str:
        return " ".join(
            self._names[item] if colour is None else f"{self._names[item]}:{self._colours[colour]}"
            for item, colour in self._problem._pairs(option)
        )


class OfListing(Reader[Option]):
    """What reads a listing of the problem's text. Where options are alike the last of them stands for all."""

    def read(self, lines: Iterable[bytes]) -> Iterator[Choices]:
        """The solutions. Raises `ListingFault`."""
        problem = self._problem
        at = {listings.turned(bytes_of(problem.line(option))): place for place, option in enumerate(self._options)}
        items = {bytes_of(problem.name(item)): item for item in problem.items}
        return listings.solutions(lines, Decoder(at, items))

    def choices(self, given: Choices) -> list[int | Null]:
        return given.choices

    def steps(self, given: Choices) -> list[Step]:
        return _steps(given.lines, given.choices, text_of)


class OfNumbers(Reader[Option]):
    """What reads the numbers of options, from 0 on."""

    def choices(self, given: Sequence[int]) -> list[int | Null]:
        return list(given)

    def steps(self, given: Sequence[int]) -> list[Step]:
        return bare_steps(given)


def _steps(lines: Sequence[bytes], choices: Sequence[int | Null], name: Callable[[bytes], str]) -> list[Step]:
    """The steps that lines say; `name` makes an item's name of the word in them."""
    steps = []
    for line, choice in zip(lines, choices):
        word, branch, branches = branch_of(line, isinstance(choice, Null))
        place = None if isinstance(choice, Null) else choice
        steps.append(Step(name(word), place, branch, branches))
    return steps

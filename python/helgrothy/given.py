"""A problem with options that are given and forbidden: what if, without an editor.

An option that is given gets a further item of its own, which has to be held once. Those that are forbidden are left
out. Solutions come as those of the problem itself.
"""

from __future__ import annotations

from collections.abc import Callable, Hashable, Iterable, Iterator, Sequence
from numbers import Integral
from typing import TYPE_CHECKING, Any, Generic, TypeVar, Union

from ._run.solution import Solution
from ._run.stream import Solutions
from ._run.wire import OfNumbers
from ._text.listing import Null, Step
from ._text.named import Named, in_words
from .errors import ProblemFault
from .problem import Problem

if TYPE_CHECKING:
    from ._run.cheapest import Cheapest
    from .cost import Cost

__all__ = ["Given", "Which", "forbidden", "given"]

Option = TypeVar("Option", bound=Any)
# What says an option: its number, the option itself, or a text of names.
Which = Union[int, Iterable[Hashable]]


def given(problem: Problem[Any], options: Iterable[Which], word: str = "given", *, by_names: bool = False) -> list[int]:
    """The places of options, each said by its number, as it was passed to the problem, or as a text of items that it
    alone has, `r1c3 r1=4`. Raises `ValueError`, with the nearest ones, for what says no option, or several.

    word: what messages call them. by_names: a text is names of items, also if it is an option of its letters.
    """
    found = []
    for text, places in _found(problem, options, word, by_names):
        if len({problem.line(problem.options[place]) for place in places}) > 1:
            reason = f"{len(places)} options have this, name more items of one: {in_words(problem, places)}"
            raise ValueError(f"{word} {text}: {reason}")
        if len(places) > 1:
            raise ValueError(f"{word} {text}: the options {' '.join(map(str, places))} are equal; a number says one")
        found += places
    return found


def forbidden(
    problem: Problem[Any], options: Iterable[Which], word: str = "forbidden", *, by_names: bool = False
) -> set[int]:
    """The places of options, said as those of `given`, but that a text, which may have patterns, is of all options that
    have its items. Raises `ValueError` for what says no option."""
    return {place for _, places in _found(problem, options, word, by_names) for place in places}


def _found(
    problem: Problem[Any], options: Iterable[Which], word: str, by_names: bool
) -> Iterator[tuple[str, list[int]]]:
    """What each option was said by, and the places that this says, of which there is one at least."""
    if isinstance(options, str):
        raise TypeError(f"{word} is of options, and this is a text: [{options!r}]")
    said = _Said(problem, by_names)
    for one in options:
        text = one if isinstance(one, str) else repr(one)
        places, reason = said.places(one)
        if not places:
            raise ValueError(f"{word} {text}: {reason}")
        yield text, places


class _Said:
    """Options of a problem as they are said. What only some of them need is made when it is first asked for."""

    def __init__(self, problem: Problem[Any], by_names: bool) -> None:
        self._problem = problem
        self._by_names = by_names
        self._named: Named | None = None
        # The places of the options by their uses.
        self._alike: dict[frozenset[tuple[str, str | None]], list[int]] | None = None

    def places(self, one: Which) -> tuple[list[int], str]:
        """The places, or none and why."""
        if isinstance(one, Integral):
            place, last = int(one), len(self._problem.options) - 1
            return ([place], "") if 0 <= place <= last else ([], f"the problem has the options 0 to {last}")
        assert isinstance(one, Iterable)
        places = [] if self._by_names else self._same(one)
        if places or not isinstance(one, str):
            return places, "no option is this; a text of names says one by some of its items"
        if self._named is None:
            self._named = Named(self._problem)
        words = one.split()
        places = self._named.having(words)
        return places, "" if places else self._named.why_none(words) if words else "it names no item"

    def _same(self, option: Iterable[Hashable]) -> list[int]:
        """The places of the options that are equal to one."""
        if self._alike is None:
            self._alike = {}
            for place, its in enumerate(self._problem.options):
                self._alike.setdefault(self._key(its), []).append(place)
        try:
            return self._alike.get(self._key(option), [])
        except (ProblemFault, TypeError):
            # It has what is no item.
            return []

    def _key(self, option: Iterable[Hashable]) -> frozenset[tuple[str, str | None]]:
        return frozenset(self._problem._uses(option).items())


class Given(Generic[Option]):
    """A problem of which some options are in each solution and others in none, by their places.

    inner: the problem that is searched. places: where its options are in the problem itself.
    """

    def __init__(self, problem: Problem[Option], held: Sequence[int] = (), dropped: Iterable[int] = ()) -> None:
        self.problem = problem
        self.inner: Problem[Any] = problem
        self.places: Sequence[int] = range(len(problem.options))
        # The item of each option that is given.
        self.marks: dict[str, int] = {}
        gone = set(dropped)
        if held or gone:
            names = _fresh_names(problem)
            marked = {place: names(number) for number, place in enumerate(dict.fromkeys(held), 1)}
            self.marks = {mark: place for place, mark in marked.items()}
            self.places = [place for place in self.places if place not in gone and _is_used(problem, place)]
            self.inner = _marked(problem, self.places, marked)
        self._reader = _Outer(problem, self.places)

    def solve(
        self,
        limit: int | None = None,
        spacing: int = 1,
        *,
        nulls: bool = False,
        seconds: float | None = None,
        seed: int | None = None,
    ) -> Solutions[Option]:
        """The solutions of the problem. What it takes is as of `Problem.solve`."""
        if seed is None:
            return self._all_of(self.inner.solve(limit, spacing, nulls=nulls, seconds=seconds), nulls)
        from . import shuffle

        if nulls:
            raise ValueError("with a seed there are no nulls")
        return self._all_of(shuffle.solve(self.inner, seed, limit, spacing, seconds=seconds))

    def _all_of(self, searched: Solutions[Any], nulls: bool = False) -> Solutions[Option]:
        """Solutions of what is searched as those of the problem."""
        if self.inner is self.problem:
            return searched
        reader = _Outer(self.problem, self.places, nulls)
        return searched._as(lambda solution: Solution(reader, solution))

    def least(self, costs: Sequence[Cost] | str, seconds: float | None = None) -> Cheapest[Option]:
        """The solution of least cost, if there is one. What it takes is as of `Problem.solve`."""
        from ._run.cheapest import Cheapest

        return Cheapest(self, costs, seconds)

    def outer(self, solution: Solution[Any]) -> Solution[Option]:
        """A solution of what is searched as one of the problem."""
        return solution if self.inner is self.problem else Solution(self._reader, solution)

    def explained(self, lines: Iterable[str]) -> Iterator[str]:
        """Lines on what is searched, and what the items in them are that stand for options which are given."""
        words: set[str] = set()
        for line in lines:
            words.update(line.replace(",", " ").split())
            yield line
        for mark, place in self.marks.items():
            if mark in words:
                yield f"{mark} is what is given: {self.problem.line(self.problem.options[place])}"

    def numbers(self, numbers: Iterable[int]) -> list[int]:
        """Options of what is searched as those of the problem."""
        return [self.places[number] for number in numbers]


def _is_used(problem: Problem[Any], place: int) -> bool:
    return any(item in problem.items for item, _ in problem._pairs(problem.options[place]))


def _fresh_names(problem: Problem[Any]) -> Callable[[int], str]:
    """Names of further items, by their numbers."""
    taken = {*map(str, problem.items), *map(str, problem.secondary), *problem.item_names, *problem.secondary_names}
    stem = "with"
    while any(name.startswith(stem) for name in taken):
        stem += "'"
    return lambda number: f"{stem}{number}"


def _marked(problem: Problem[Any], places: Iterable[int], marked: dict[int, str]) -> Problem[Any]:
    bounds: dict[Hashable, Any] = {**problem.items, **dict.fromkeys(marked.values())}
    inner: Problem[Any] = Problem(bounds, list(problem.secondary), comments=problem.comments)
    for place in places:
        option: Any = problem.options[place]
        mark = marked.get(place)
        inner.add_option(option if mark is None else {**dict(problem._pairs(option)), mark: None})
    return inner


class _Outer(OfNumbers[Any]):
    """Reads solutions of what is searched as those of the problem itself."""

    def __init__(self, problem: Problem[Any], places: Sequence[int], nulls: bool = False) -> None:
        super().__init__(problem, nulls)
        self._places = places

    def choices(self, given: Any) -> list[Any]:
        numbers = iter(given.numbers)
        return [choice if isinstance(choice, Null) else self._places[next(numbers)] for choice in given]

    def steps(self, given: Any) -> list[Step]:
        return [
            Step(step.item, None if step.option is None else self._places[step.option], step.branch, step.branches)
            for step in given.steps
        ]

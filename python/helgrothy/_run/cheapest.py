"""The solution of least cost, as `Problem.solve` gives it."""

from __future__ import annotations

from collections.abc import Generator, Iterator, Sequence
from typing import TYPE_CHECKING, Any, TypeVar

from ..cost import Cost, Least, NotLeast, least
from .stream import Outcome, Solutions, sooner
from .wire import OfNumbers

if TYPE_CHECKING:
    from ..given import Given

Option = TypeVar("Option", bound=Any)


class Cheapest(Solutions[Option]):
    """The solution of least cost, which is none where there is no solution.

    Raises `cost.NotLeast` where the time is over before a proof that none costs less; its `best` is the cheapest one
    that was found.
    """

    def __init__(self, asked: Given[Option], costs: Sequence[Cost] | str, seconds: float | None) -> None:
        if isinstance(costs, str):
            from .. import wishes

            costs = wishes.read(costs, asked.problem).numbers
        count = len(asked.problem.options)
        if len(costs) != count:
            raise ValueError(f"{len(costs)} costs, and the problem has {count} options")
        numbers = [costs[place] for place in asked.places]
        reader = OfNumbers(asked.problem)

        def outer(found: Least[Any]) -> Least[Option]:
            solution: Least[Option] = Least(reader, asked.numbers(found.numbers), found.cost, found.by)
            solution.is_proved = found.is_proved
            return solution

        def begin(outcome: Outcome) -> Generator[Least[Option], None, None]:
            try:
                found = least(asked.inner, numbers, seconds)
            except NotLeast as error:
                raise NotLeast(None if error.best is None else outer(error.best)) from None
            if found is not None:
                yield outer(found)
            outcome.end(0 if found is None else 1, found is None)

        super().__init__(begin, lambda most: Cheapest(asked, costs, sooner(seconds, most)))

    if TYPE_CHECKING:

        def __iter__(self) -> Iterator[Least[Option]]: ...

        def __next__(self) -> Least[Option]: ...

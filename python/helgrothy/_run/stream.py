"""Solutions one by one, however they are searched for."""

from __future__ import annotations

from collections.abc import Callable, Generator, Iterator
from dataclasses import dataclass
from typing import Generic, TypeVar

from ..errors import OutOfTime
from .solution import Solution

Option = TypeVar("Option")
Other = TypeVar("Other")

# A notebook shows so many solutions at most, which may take so long.
_MOST_PICTURES = 24
_MOST_SECONDS = 5.0


@dataclass
class Outcome:
    """How many solutions were found so far, and at the end how many there were, whether these are all, and what proves
    that there is none, where that isn't the end of the program's search.

    The search knows this and not its `Solutions`, so no circle keeps either of them alive.
    """

    found: int = 0
    total: int | None = None
    complete: bool | None = None
    proof: str = ""

    def count(self, more: int) -> None:
        self.found += more

    def end(self, total: int, complete: bool, proof: str = "") -> None:
        self.total, self.complete, self.proof = total, complete, proof


class Solutions(Generic[Option]):
    """Solutions one by one. As a context manager, or by `close`, it ends the program that it reads at once; so it does
    where a loop over it is left and nothing holds it any longer.
    """

    def __init__(
        self,
        begin: Callable[[Outcome], Generator[Solution[Option], None, None]],
        again: Callable[[float], Solutions[Option]],
    ) -> None:
        """begin: searches, and notes the outcome. again: the same search anew, for at most so many seconds."""
        self._outcome = Outcome()
        self._stream = begin(self._outcome)
        self._again = again

    def __iter__(self) -> Iterator[Solution[Option]]:
        # The generator itself, so that a loop pays no call of Python more for each solution.
        return self._stream

    def __next__(self) -> Solution[Option]:
        return next(self._stream)

    @property
    def total(self) -> int | None:
        """How many solutions there were, once they came to an end."""
        return self._outcome.total

    @property
    def complete(self) -> bool | None:
        """Whether these are all, or a limit was met, once they came to an end."""
        return self._outcome.complete

    @property
    def proof(self) -> str:
        """What proves that there is none, where that isn't the end of the program's search: a line that says so."""
        return self._outcome.proof

    def close(self) -> None:
        """Ends the program, if it runs."""
        self._stream.close()

    def _as(self, give: Callable[[Solution[Option]], Solution[Other]]) -> Solutions[Other]:
        """The same solutions, each as `give` makes it."""

        def begin(outcome: Outcome) -> Generator[Solution[Other], None, None]:
            with self:
                yield from map(give, self)
            outcome.end(self.total or 0, bool(self.complete), self.proof)

        return Solutions(begin, lambda most: self._again(most)._as(give))

    def _repr_html_(self) -> str | None:
        """Pictures of the first solutions, for notebooks; None where the problem has none.

        They are searched anew for a few seconds, so that these solutions stay as they are.
        """
        pictures: list[str] = []
        caption = "no more were found in the time"
        with self._again(_MOST_SECONDS) as solutions:
            try:
                for solution in solutions:
                    picture = solution._repr_svg_()
                    if picture is None:
                        return None
                    pictures.append(f'<div style="margin: 0 1em 1em 0">{picture}</div>')
                    if len(pictures) > _MOST_PICTURES:
                        break
                caption = f"{len(pictures)} solution{'' if len(pictures) == 1 else 's'}"
            except OutOfTime:
                pass
        if len(pictures) > _MOST_PICTURES:
            caption = f"the first {_MOST_PICTURES} solutions"
        shown = "".join(pictures[:_MOST_PICTURES])
        return f'<div style="display: flex; flex-wrap: wrap">{shown}</div><div>{caption}</div>'

    def __enter__(self) -> Solutions[Option]:
        return self

    def __exit__(self, *_: object) -> None:
        self.close()


def check_numbers(limit: int | None, spacing: int) -> None:
    """Raises `ValueError` where there are no such solutions."""
    if limit is not None and limit < 1:
        raise ValueError("limit must be at least 1")
    if spacing < 1:
        raise ValueError("spacing must be at least 1")


def sooner(seconds: float | None, most: float) -> float:
    """The time of a search that may take so long at most."""
    return most if seconds is None else min(seconds, most)

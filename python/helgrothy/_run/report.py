"""What a search reports of itself while it runs, for who shows that."""

from __future__ import annotations

from collections.abc import Sequence
from typing import Protocol


class Hear(Protocol):
    """Gets what is at work, how far the search is, and the best so far: each of these when it changes."""

    def __call__(
        self, *, at_work: Sequence[str] | None = None, far: str | None = None, best: str | None = None
    ) -> object: ...


def unheard(*, at_work: Sequence[str] | None = None, far: str | None = None, best: str | None = None) -> None:
    """Nobody shows it."""

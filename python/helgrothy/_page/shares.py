"""Chances for the local page: in which share of all solutions a cell has what."""

from __future__ import annotations

from typing import Any

from ..errors import NoPicture
from ..make import KINDS
from ..make._kind import kind_of
from ..problem import Problem
from .record import Draw


def find(problem: Problem[Any], draw: Draw | None, seconds: float) -> tuple[Any, int]:
    """A picture of the shares, and how many solutions there are. Raises `ValueError` and `HelgrothyError`."""
    if draw is None:
        raise NoPicture("chances are drawn, and this problem has no picture")
    from .._run import occurrences
    from ..draw import _chances as chances

    kind: Any = KINDS.get(kind_of(problem.comments) or "")
    found = occurrences.find(problem, seconds)
    if not found.total:
        raise ValueError("there is no solution")
    return chances.picture(problem, draw, found, kind.view if kind else chances.any_side), found.total

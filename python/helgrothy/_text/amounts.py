"""Costs as files and tables write them, decimal numbers: what the makers of problems need of costs."""

from __future__ import annotations

import re
from typing import TYPE_CHECKING

from ..errors import TableFault

if TYPE_CHECKING:
    from fractions import Fraction

A_NUMBER = "a number such as 3, -2 or 0.5"
_NUMBER = re.compile(r"[+-]?(?:[0-9]{1,15}(?:\.[0-9]{0,9})?|\.[0-9]{1,9})\Z")
_LONGEST = 60


def is_number(word: str) -> bool:
    """Whether a word is a cost."""
    return _NUMBER.match(word) is not None


def number_of(line: int, word: str) -> Fraction:
    """The cost that a word of a line is. Raises `TableFault`."""
    if not is_number(word):
        raise TableFault(line, word[:_LONGEST], f"no cost; one is {A_NUMBER}")
    from fractions import Fraction

    return Fraction(word)


def spelled(value: Fraction) -> str:
    """A number that was a decimal one, as such."""
    from decimal import Decimal

    return str(value) if value.denominator == 1 else f"{Decimal(value.numerator) / Decimal(value.denominator):f}"

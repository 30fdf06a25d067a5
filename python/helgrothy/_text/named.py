"""Options by the names of their items, as arguments of commands and lines of files say them.

A word is the name of an item, or a pattern of names as shells have them (`mon*`, `r?c1`, `[ab]1`), and may have a colon
and a colour after it, `A:x`. A name that is an item's is that item alone, whatever signs are in it.
"""

from __future__ import annotations

from collections import Counter
from collections.abc import Callable, Collection, Iterator, Sequence
from fnmatch import fnmatchcase
from typing import Any

from ..problem import Problem
from .syntax import Nearest

# Of options that may have been meant so many are shown, each by its first characters.
_MOST_SHOWN, _LONGEST = 3, 60


def in_words(problem: Problem[Any], places: Collection[int], label: Callable[[str], str] = str) -> str:
    """The first options of some places, in words; `label` makes of a line what is shown of it."""
    lines = [label(problem.line(problem.options[place])) for place in list(places)[:_MOST_SHOWN]]
    cut = [line if len(line) <= _LONGEST else f"{line[:_LONGEST]} .." for line in lines]
    return "; ".join(cut) + (f"; and {len(places) - len(cut)} more" if len(places) > len(cut) else "")


class Named:
    """The options of a problem, to be found by names."""

    def __init__(self, problem: Problem[Any]) -> None:
        self._problem = problem
        self._nearest = Nearest()
        # Of each item the places of its options, by the colour that they give it.
        self._held: dict[str, dict[str | None, list[int]]] = {
            name: {} for name in (*problem.item_names, *problem.secondary_names)
        }
        for place, option in enumerate(problem.options):
            for name, colour in problem._uses(option).items():
                self._held[name].setdefault(colour, []).append(place)
        self._known: dict[str, frozenset[int]] = {}

    def having(self, words: Sequence[str]) -> list[int]:
        """The places of the options that have an item for each word, in their order; none without a word."""
        found = [self._places(word) for word in words]
        return sorted(frozenset.intersection(*found)) if found else []

    def why_none(self, words: Sequence[str]) -> str:
        """Why no option has all of these, and what may have been meant."""
        for word in words:
            item, colon, _ = word.partition(":")
            if not any(self._items(item)):
                hint = self._hint(item)
                return f"{item}: no such item{f' ({hint})' if hint else ''}"
            if colon and not self._places(word):
                return f"{word}: no option gives {item} this colour"
        times = Counter(place for word in dict.fromkeys(words) for place in self._places(word))
        nearest = sorted(times, key=lambda place: (-times[place], place))
        those = f"; the nearest are {in_words(self._problem, nearest)}" if nearest else ""
        return f"no option has all of these{those}"

    def _hint(self, item: str) -> str:
        """What may have been meant by the name of no item, or nothing."""
        begun = [name for name in self._held if len(item) > 1 and name.startswith(item)]
        if len(begun) > 1:
            return f"{len(begun)} begin so; {item}* is any of them"
        return self._nearest.question(item, begun or self._held)

    def _items(self, word: str) -> Iterator[str]:
        if word in self._held:
            yield word
        else:
            yield from (name for name in self._held if fnmatchcase(name, word))

    def _places(self, word: str) -> frozenset[int]:
        known = self._known.get(word)
        if known is None:
            item, colon, colour = word.partition(":")
            known = self._known[word] = frozenset(
                place
                for name in self._items(item)
                for own, places in self._held[name].items()
                if not colon or own is not None and (own == colour or fnmatchcase(own, colour))
                for place in places
            )
        return known

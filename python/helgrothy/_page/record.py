"""What a page gets of a problem and its solutions: lines of JSON, one for each thing that happens.

The first has the problem, each further one a solution with the steps of the search and its picture, the last one how it
ended. A picture is a list of numbers: equal parts of pictures are given once, as elements with their attributes, and so
is each option. Options of a kind that draws tables are also given by whole names, which the page shows.

So a name is never parsed as HTML, as it would be in a page with SVG as text, and a policy can refuse every other way to
make an element.
"""

from __future__ import annotations

import json
from collections.abc import Callable, Iterable, Sequence
from dataclasses import dataclass
from itertools import islice
from typing import Any
from xml.etree import ElementTree

from .._text.listing import Step
from .._text.sheet import labelling, sheet_of
from .._text.shown import shown
from ..errors import NoPicture
from ..problem import Problem

# What draws the lines of a solution's options.
Draw = Callable[[Sequence[str]], Any]

# Of a problem's text so many characters are shown.
_MOST_TEXT = 1 << 18
_NO_TITLE = "An exact cover problem"


@dataclass(frozen=True)
class Element:
    """An element of a picture."""

    name: str
    attributes: tuple[tuple[str, str], ...]
    text: str
    within: tuple[Element, ...]


class Record:
    """A record of a problem's solutions. What it gives has no byte that steers a terminal, and no markup.

    draw: what draws them. title: what the pictures show, once there is one.
    """

    def __init__(self, problem: Problem[Any], draw: Draw | None) -> None:
        self._problem = problem
        self.draw = draw
        self._sheet = sheet_of(problem)
        self._label = labelling(problem)
        self._elements: dict[Element, int] = {}
        self._options: set[int] = set()
        self.title = _NO_TITLE

    def problem(self) -> str:
        """The problem: its comments, its text as far as it is shown, and how large it is."""
        problem = self._problem
        lines: list[str] = []
        left = _MOST_TEXT
        more = False
        # Of a kind with a table that is what people know; its items and options are for the programs.
        for line in problem._lines() if self._sheet is None else problem.comments:
            left -= len(line) + 1
            if left < 0:
                more = True
                break
            lines.append(shown(line))
        return line_of(
            {
                "problem": {
                    "comments": list(map(shown, problem.comments)),
                    "text": lines,
                    "more": more,
                    "primary": len(problem.items),
                    "secondary": len(problem.secondary),
                    "options": len(problem.options),
                    "program": f"dlx{problem.kind}",
                }
            }
        )

    def solution(self, number: int, steps: Sequence[Step]) -> str:
        """A solution of this number."""
        chosen = [step.option for step in steps if step.option is not None]
        lines = [self._problem.line(self._problem.options[place]) for place in chosen]
        fresh = {place + 1: shown(line) for place, line in zip(chosen, lines) if place not in self._options}
        self._options.update(chosen)
        fresh_from = len(self._elements)
        picture = self._picture(lines)
        fields: dict[str, Any] = {
            "number": number,
            "steps": [
                [shown(step.item), 0 if step.option is None else step.option + 1, step.branch, step.branches]
                for step in steps
            ],
        }
        if picture:
            fields["picture"] = picture
        if fresh:
            fields["options"] = fresh
            if self._sheet is not None:
                words = {place + 1: shown(self._label(line)) for place, line in zip(chosen, lines)}
                fields["words"] = {number: words[number] for number in fresh}
        if len(self._elements) > fresh_from:
            fields["elements"] = self._elements_from(fresh_from)
        return line_of({"solution": fields})

    def chances(self, picture: Any, total: int) -> str:
        """A picture of the shares of all solutions, of which there are so many."""
        fresh_from = len(self._elements)
        parts = self._parts(picture.svg())
        fields = {"picture": parts, "elements": self._elements_from(fresh_from), "total": str(total)}
        return line_of({"chances": fields})

    def _elements_from(self, number: int) -> list[list[Any]]:
        """The elements from a number on, as the page gets them."""
        return [_listed(element) for element in islice(self._elements, number, None)]

    def _picture(self, lines: Sequence[str]) -> list[int]:
        """The numbers of a picture's elements, the first one that of the whole; none where there is no picture."""
        if self.draw is None:
            return []
        try:
            return self._parts(self.draw(lines).svg())
        except (NoPicture, ElementTree.ParseError):
            return []

    def _parts(self, svg: str) -> list[int]:
        """The numbers of the elements of a picture. Raises `ElementTree.ParseError`."""
        root = ElementTree.fromstring(svg)
        title = root.find("{http://www.w3.org/2000/svg}title")
        if title is not None and title.text:
            self.title = title.text[:1].upper() + title.text[1:]
        whole = Element(_name(root), tuple(root.items()), "", ())
        numbers = self._elements
        return [numbers.setdefault(part, len(numbers)) for part in (whole, *map(_element, root))]

    @staticmethod
    def end(total: int, is_complete: bool, notes: Iterable[str] = ()) -> str:
        """The end: how many solutions there were, whether these are all, and what else is to be said."""
        return line_of({"end": {"total": total, "complete": is_complete, "notes": list(map(shown, notes))}})


def _element(element: ElementTree.Element) -> Element:
    return Element(_name(element), tuple(element.items()), element.text or "", tuple(map(_element, element)))


def _listed(element: Element) -> list[Any]:
    """An element as the page gets it: its name, its attributes, and its text or the elements in it."""
    return [element.name, dict(element.attributes), list(map(_listed, element.within)) or element.text]


def _name(element: ElementTree.Element) -> str:
    return element.tag.rpartition("}")[2]


def line_of(fields: dict[str, Any]) -> str:
    """A line of an answer."""
    return json.dumps(fields, separators=(",", ":"))

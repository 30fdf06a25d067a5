"""Pictures of graphs: as text in the language of Graphviz, as SVG nodes with lines between them."""

from __future__ import annotations

import colorsys
import math
from collections.abc import Iterator, Sequence
from dataclasses import dataclass

from .._text.shown import escaped, shown
from ..errors import NoPicture
from . import Cell, Picture

Point = tuple[float, float]

# Of a node in the SVG, in pixels: half its height, a letter of its name, and the room to the next one.
_RADIUS, _LETTER, _GAP = 15.0, 7.0, 22.0
_MARGIN = 8.0
# Of a picture without its margins: a few nodes aren't crowded, and many fit on a screen.
_LEAST, _MOST = 160.0, 2_000.0
_PLAIN, _CHOSEN = 'stroke="#aaa"', 'stroke-width="4"'


@dataclass(frozen=True)
class Node:
    """A node, perhaps with what it has, such as a colour, and how it is filled."""

    name: str
    label: str = ""
    fill: str = "#fff"


@dataclass(frozen=True)
class Line:
    """An edge between nodes, by their places. colour: of one that is chosen, else "". label: which part it is in."""

    ends: tuple[int, int]
    colour: str = ""
    label: str = ""


@dataclass(frozen=True)
class Layout:
    """Where nodes are, with y downwards, and about how many of them stand side by side."""

    places: list[Point]
    across: float

    @staticmethod
    def ring(count: int) -> Layout:
        """A ring, from its top on and clockwise."""
        turns = [2 * math.pi * place / count for place in range(count)]
        return Layout([(math.sin(turn), -math.cos(turn)) for turn in turns], count / math.pi)

    @staticmethod
    def board(cells: Sequence[tuple[int, int]]) -> Layout:
        """Rows and columns."""
        places = [(float(column), float(row)) for row, column in cells]
        return Layout(places, max((max(axis) - min(axis) for axis in zip(*places)), default=0.0))

    @staticmethod
    def free(places: Sequence[Point]) -> Layout:
        """Any places, which may be crowded."""
        return Layout(list(places), 2 * math.sqrt(len(places)))


class Net(Picture):
    """Nodes and the lines between them. `str` of it is a graph that the programs of Graphviz draw."""

    def __init__(self, title: str, nodes: Sequence[Node], lines: Sequence[Line], layout: Layout) -> None:
        if not nodes:
            raise NoPicture("there is no node to draw")
        self.nodes = nodes
        self.lines = lines
        self.layout = layout
        super().__init__(title, {(0, place): Cell(node.label or node.name) for place, node in enumerate(nodes)})

    def text(self) -> str:
        """The graph in the language of Graphviz."""
        return "".join(f"{line}\n" for line in ["graph {", *self._dot(), "}"])

    def _dot(self) -> Iterator[str]:
        for node in self.nodes:
            looks = {"label": f"{node.name}: {node.label}", "style": "filled", "fillcolor": node.fill}
            yield f"  {_quoted(node.name)}{_listed(looks if node.label else {})}"
        for line in self.lines:
            a, b = (_quoted(self.nodes[end].name) for end in line.ends)
            looks = {"color": line.colour, "penwidth": "4", "label": line.label}
            yield f"  {a} -- {b}{_listed(looks if line.colour else {})}"

    def svg(self) -> str:
        """The lines, those that are chosen thick, with the nodes on top of them."""
        wide = max(_RADIUS, *(len(shown(node.name)) * _LETTER / 2 + 5 for node in self.nodes))
        at, (width, height) = self._places(2 * wide + _GAP)
        size = math.ceil(width + 2 * (wide + _MARGIN)), math.ceil(height + 2 * (_RADIUS + _GAP))
        at = [(x + wide + _MARGIN, y + _RADIUS + _GAP) for x, y in at]
        lines = [
            f'<svg xmlns="http://www.w3.org/2000/svg" width="{size[0]}" height="{size[1]}" '
            f'viewBox="0 0 {size[0]} {size[1]}" font-family="sans-serif" font-size="12" text-anchor="middle">',
            f"<title>{escaped(self.title)}</title>",
            f'<rect width="{size[0]}" height="{size[1]}" fill="#fff"/>',
            *(_drawn(line, at) for line in sorted(self.lines, key=lambda line: line.colour != "")),
        ]
        for node, (x, y) in zip(self.nodes, at):
            look = f'fill="{escaped(node.fill)}" stroke="#222"'
            lines.append(f'<ellipse cx="{x:.6g}" cy="{y:.6g}" rx="{wide:g}" ry="{_RADIUS:g}" {look}/>')
            lines.append(f'<text x="{x:.6g}" y="{y + 4:.6g}">{escaped(node.name)}</text>')
            if node.label:
                place = f'x="{x:.6g}" y="{y + _RADIUS + 12:.6g}"'
                lines.append(f'<text {place} font-size="11" fill="#555">{escaped(node.label)}</text>')
        return "".join(f"{line}\n" for line in [*lines, "</svg>"])

    def _places(self, apart: float) -> tuple[list[Point], Point]:
        """Where the nodes are in pixels, about so far apart, and the width and height of all."""
        xs, ys = zip(*self.layout.places)
        left, top = min(xs), min(ys)
        wide, high = max(xs) - left, max(ys) - top
        side = min(max(_LEAST, apart * self.layout.across), _MOST)
        scale = side / (max(wide, high) or 1.0)
        return [((x - left) * scale, (y - top) * scale) for x, y in zip(xs, ys)], (wide * scale, high * scale)


def _drawn(line: Line, at: Sequence[Point]) -> str:
    (x, y), (to_x, to_y) = (at[end] for end in line.ends)
    look = f'stroke="{escaped(line.colour)}" {_CHOSEN}' if line.colour else _PLAIN
    if line.ends[0] == line.ends[1]:
        return f'<circle cx="{x:.6g}" cy="{y - _RADIUS:.6g}" r="10" fill="none" {look}/>'
    return f'<path d="M{x:.6g} {y:.6g}L{to_x:.6g} {to_y:.6g}" {look}/>'


def dark(number: int) -> str:
    """A colour for lines on white; neighbours in the count are far from each other."""
    red, green, blue = colorsys.hls_to_rgb(number * 0.618034 % 1, (0.45, 0.32, 0.55)[number % 3], 0.75)
    return "#" + "".join(f"{round(part * 255):02x}" for part in (red, green, blue))


def _quoted(text: str) -> str:
    return '"' + shown(text).replace("\\", "\\\\").replace('"', '\\"') + '"'


def _listed(looks: dict[str, str]) -> str:
    """What Graphviz gets of a node or an edge, nothing where that is empty."""
    words = ", ".join(f"{name}={_quoted(value)}" for name, value in looks.items() if value)
    return f" [{words}]" if words else ""

"""Graphs as problems: perfect matchings, edge covers, partitions of the edges, colourings.

    import networkx
    from helgrothy import graphs

    problem = graphs.perfect_matchings(networkx.grid_2d_graph(6, 6))
    print(problem.count())
    print(list(problem.random()))

A graph is one of networkx, which isn't needed for it, or any object that has `edges`, each of which begins with its two
nodes. `nodes` may be there too, for nodes without an edge. Either may be a method. The edges have no direction; several
may have the same nodes, and each of them counts.

A problem has what every `Problem` has: `count`, `solve`, `random`, `occurrences`, `draw`. The nodes of its pictures are
where `positions` says, by a layout of networkx for example; otherwise on a board where all nodes are pairs of numbers,
row and column, or else on a ring. `print` shows a picture as text that the programs of Graphviz draw.
"""

from __future__ import annotations

import math
from collections.abc import Callable, Hashable, Iterable, Iterator, Mapping, Sequence
from dataclasses import dataclass, field
from typing import TYPE_CHECKING, Any, Protocol

from .draw import Shades
from .errors import NoPicture
from .problem import Problem

if TYPE_CHECKING:
    from .draw import Drawing, Picture
    from .draw._net import Layout, Point

__all__ = ["Coloured", "Graph", "colouring", "colourings", "edge_covers", "edge_partitions", "perfect_matchings"]

# The two nodes of an edge; in a partition all that the graph has of it.
Edge = tuple[Any, ...]
Positions = Mapping[Any, Sequence[float]]

_BLACK = "#222"
# Pairs of larger numbers are no rows and columns.
_MOST_ROWS = 1_000_000
# How nodes are filled whose colour is one of these words.
_NAMED: dict[Hashable, str] = {
    "black": "#999",
    "blue": "#9cc0f0",
    "brown": "#d3b394",
    "green": "#a5d8a0",
    "grey": "#ccc",
    "orange": "#f7c08a",
    "purple": "#cfb2ec",
    "red": "#f2a39b",
    "white": "#fff",
    "yellow": "#f4e592",
}


class Graph(Protocol):
    """What has edges, as a graph of networkx has."""

    @property
    def edges(self) -> Any:
        """The edges, each of which begins with its two nodes, or a method that gives them."""


@dataclass(frozen=True)
class Coloured:
    """An option of a colouring: a node and its colour. As an iterable it is its items: the node, and for each edge of
    the node one that no other option of this colour may have."""

    node: Hashable
    colour: Hashable
    edges: tuple[Hashable, ...] = field(default=(), repr=False)

    def __iter__(self) -> Iterator[Hashable]:
        yield self.node
        yield from self.edges


def perfect_matchings(graph: Graph, *, positions: Positions | None = None) -> Problem[Edge]:
    """The sets of edges such that each node is in exactly one of them.

    The exact cover problem whose items are the nodes, and whose options are the edges, each with its two nodes. So a
    solution is a list of edges, as pairs of nodes. A loop, whose two nodes are one, is left out.
    """
    known = _Known.of(graph)
    pairs = [pair for pair in known.pairs if pair[0] != pair[1]]
    return known.drawn(Problem(known.nodes, options=pairs), "a perfect matching", _chosen, positions)


def edge_covers(
    graph: Graph, *, least: int = 1, most: int | None = None, positions: Positions | None = None
) -> Problem[Edge]:
    """The sets of edges such that each node is in at least `least` of them and, where it is given, in at most `most`.

    So they are the edge covers; with `most=1` those that are exact, which are the perfect matchings; with `least=0,
    most=1` all matchings; with `least=2, most=2` the 2-factors, sets of circles that go once through each node.

    The problem with bounds whose items are the nodes, with these bounds, and whose options are the edges, each with its
    two nodes. A loop counts once for its node.
    """
    known = _Known.of(graph)
    options = [tuple(dict.fromkeys(pair)) for pair in known.pairs]
    degrees = dict.fromkeys(known.nodes, 0)
    for option in options:
        for node in option:
            degrees[node] += 1
    # A node of no edge has a bound all the same, which is at least 1.
    bounds = {node: (least, max(degree, least, 1) if most is None else most) for node, degree in degrees.items()}
    return known.drawn(Problem(bounds, options=options), "an edge cover", _chosen, positions)


def edge_partitions(
    graph: Graph, parts: Iterable[Iterable[Sequence[Any]]], *, positions: Positions | None = None
) -> Problem[tuple[Edge, ...]]:
    """The ways to choose some of the parts such that each edge is in exactly one: exact covers of the edges.

    parts: each some edges of the graph, such as those of a triangle, a star or a path. An edge may have its nodes the
    other way round; of several with the same nodes it has the key too that the graph's edge has.

    The exact cover problem whose items are the edges, and whose options are the parts. A solution is a list of parts,
    each a tuple of edges as the graph has them. Raises `ValueError` for an edge that isn't the graph's.
    """
    known = _Known.of(graph)
    same = {(edge[1], edge[0], *edge[2:]): edge for edge in known.edges} | {edge: edge for edge in known.edges}
    options = []
    for number, part in enumerate(parts):
        edges = [tuple(edge) for edge in part]
        strange = [edge for edge in edges if edge not in same]
        if strange:
            raise ValueError(f"part {number} has {strange[0]!r}, which is no edge of the graph")
        options.append(tuple(same[edge] for edge in edges))
    return known.drawn(Problem(known.edges, options=options), "a partition of the edges", _parted, positions)


def colourings(
    graph: Graph, colours: int | Iterable[Hashable], *, positions: Positions | None = None
) -> Problem[Coloured]:
    """The ways to give each node one of the colours such that the two nodes of an edge have different ones.

    colours: how many, which are then the numbers from 0 on, or the colours themselves. Not all of them need to be used,
    and colourings that differ in which colour is which are different ones.

    The exact cover problem whose items are the nodes, and for each edge and colour a secondary item; an option is a
    node with a colour and has the node, and of this colour the items of the node's edges. `colouring` makes a dict of
    a solution. With a loop there is none.
    """
    known = _Known.of(graph)
    given: Iterable[Hashable] = range(colours) if isinstance(colours, int) else colours
    palette = list(dict.fromkeys(given))
    # Several edges with the same nodes ask for the same.
    pairs = {frozenset(pair): pair for pair in known.pairs}
    loops = {pair[0] for pair in pairs.values() if pair[0] == pair[1]}
    ends = [pair for pair in pairs.values() if pair[0] != pair[1]]
    beside: dict[Hashable, list[Edge]] = {node: [] for node in known.nodes}
    for pair in ends:
        for node in pair:
            beside[node].append(pair)
    options = [
        Coloured(node, colour, tuple((*pair, colour) for pair in beside[node]))
        for node in known.nodes
        if node not in loops
        for colour in palette
    ]
    problem = Problem(known.nodes, [(*pair, colour) for pair in ends for colour in palette], options)
    return known.drawn(problem, "a colouring", _coloured, positions)


def colouring(solution: Iterable[Coloured]) -> dict[Hashable, Hashable]:
    """The colour of each node in a solution of `colourings`."""
    return {one.node: one.colour for one in solution}


# ---- the graph


@dataclass(frozen=True)
class _Known:
    """The nodes of a graph, and its edges as it has them."""

    nodes: list[Any]
    edges: list[Edge]

    @staticmethod
    def of(graph: Graph) -> _Known:
        """Raises `TypeError` for what is no graph, `ValueError` for one with directions or with an edge of others."""
        if not hasattr(graph, "edges"):
            raise TypeError(f"a graph has edges, and this is of type {type(graph).__name__}")
        directed = getattr(graph, "is_directed", None)
        if callable(directed) and directed():
            raise ValueError("the graph is directed; graph.to_undirected() has the same edges without directions")
        edges = [tuple(edge) for edge in _all_of(graph.edges)]
        for edge in edges:
            if len(edge) < 2:
                raise ValueError(f"an edge is a pair of nodes, and one is {edge!r}")
        ends = dict.fromkeys(node for edge in edges for node in edge[:2])
        nodes = dict.fromkeys(_all_of(graph.nodes)) if hasattr(graph, "nodes") else ends
        for node in ends:
            if node not in nodes:
                raise ValueError(f"an edge has {node!r}, which is no node of the graph")
        return _Known(list(nodes), edges)

    @property
    def pairs(self) -> list[Edge]:
        """The two nodes of each edge."""
        return [edge[:2] for edge in self.edges]

    def drawn(self, problem: Problem[Any], title: str, show: _Show, positions: Positions | None) -> Problem[Any]:
        """The problem, whose solutions are drawn as such graphs. Raises `ValueError` for positions without a node."""
        problem.pattern = _Look(title, self, _layout(self.nodes, positions), show)
        return problem


def _all_of(given: Any) -> Iterable[Any]:
    """What a graph has, be it a list or a method; in networkx it is both."""
    found: Iterable[Any] = given if isinstance(given, Iterable) else given()
    return found


def _layout(nodes: Sequence[Any], positions: Positions | None) -> Layout:
    from .draw._net import Layout

    if positions is not None:
        return Layout.free([_place(node, positions) for node in nodes])
    if all(_is_cell(node) for node in nodes):
        return Layout.board(nodes)
    return Layout.ring(len(nodes))


def _is_cell(node: Any) -> bool:
    return isinstance(node, tuple) and len(node) == 2 and all(_is_small(one) for one in node)


def _is_small(number: Any) -> bool:
    return isinstance(number, int) and abs(number) < _MOST_ROWS


def _place(node: Any, positions: Positions) -> Point:
    if node not in positions:
        raise ValueError(f"positions has no place for {node!r}")
    x, y = (float(one) for one in positions[node])
    if not (math.isfinite(x) and math.isfinite(y)):
        raise ValueError(f"positions has no place on paper for {node!r}: {x:g}, {y:g}")
    return x, -y


# ---- pictures

# What options show of themselves: the colours of nodes, and of edges in which part they are, a chosen one in part 0.
_Marks = tuple[dict[Any, Any], dict[Any, list[int]]]
_Show = Callable[[Sequence[Any]], _Marks]


def _chosen(options: Sequence[Any]) -> _Marks:
    return {}, _by_pair((option, 0) for option in options)


def _parted(options: Sequence[Any]) -> _Marks:
    return {}, _by_pair((edge[:2], number) for number, part in enumerate(options, 1) for edge in part)


def _coloured(options: Sequence[Any]) -> _Marks:
    if not all(isinstance(option, Coloured) for option in options):
        raise NoPicture("these are no options of a colouring")
    return colouring(options), {}


def _by_pair(parts: Iterable[tuple[Edge, int]]) -> dict[Any, list[int]]:
    """The parts of the edges with the same nodes."""
    found: dict[Any, list[int]] = {}
    for pair, number in parts:
        found.setdefault(frozenset(pair), []).append(number)
    return found


@dataclass(frozen=True)
class _Look:
    """How the solutions of a problem are drawn: the graph with what the options show of themselves."""

    title: str
    graph: _Known
    layout: Layout
    show: _Show

    def of(self, problem: Problem[Any]) -> Drawing:
        """The drawing of the problem's solutions."""
        options = {problem.line(option): option for option in problem.options}
        shades = _Fills()
        for option in problem.options:
            if isinstance(option, Coloured):
                shades[option.colour]

        def draw(lines: Sequence[str]) -> Picture:
            try:
                found = [options[line] for line in lines]
            except KeyError as error:
                raise NoPicture(f"no option of the graph: {error.args[0]}") from None
            return self._net(found, shades)

        return draw

    def _net(self, options: Sequence[Any], fills: Mapping[Any, str]) -> Picture:
        from ._text.names import item_names
        from .draw._net import Line, Net, Node, dark

        colours, parts = self.show(options)
        names = item_names(self.graph.nodes)
        nodes = [
            Node(name, str(colours[node]), fills[colours[node]]) if node in colours else Node(name)
            for node, name in names.items()
        ]
        place = {node: at for at, node in enumerate(names)}
        lines = []
        for a, b in self.graph.pairs:
            left = parts.get(frozenset([a, b]))
            number = left.pop(0) if left else None
            look = ("", "") if number is None else (dark(number - 1), str(number)) if number else (_BLACK, "")
            lines.append(Line((place[a], place[b]), *look))
        return Net(self.title, nodes, lines, self.layout)


class _Fills(Shades):
    """A light colour for each colour of nodes, in the order in which they are first asked for; red is light red."""

    def __missing__(self, value: Hashable) -> str:
        return self.setdefault(value, _NAMED[value]) if value in _NAMED else super().__missing__(value)

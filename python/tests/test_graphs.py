"""Problems of graphs have the solutions that trying all sets of edges and all colourings finds, and known numbers."""

import itertools
import pickle
import random
import unittest
import xml.etree.ElementTree as ElementTree

from helgrothy import NoPicture, Problem, graphs

try:
    import networkx
except ImportError:
    networkx = None

SVG = "{http://www.w3.org/2000/svg}"


class Graph:
    """What a graph has at least."""

    def __init__(self, nodes, edges):
        self.nodes = nodes
        self.edges = edges


class Edges:
    """A graph without nodes of its own, whose edges are a method and have more than two nodes."""

    def __init__(self, *edges):
        self._edges = edges

    def edges(self):
        return list(self._edges)


def ring(count):
    return Graph(range(count), [(node, (node + 1) % count) for node in range(count)])


def complete(count):
    return Graph(range(count), list(itertools.combinations(range(count), 2)))


def subsets(things):
    return itertools.chain.from_iterable(itertools.combinations(things, size) for size in range(len(things) + 1))


def degrees(graph, places):
    """In how many of the edges of these places each node is; a loop counts once."""
    return [sum(node in graph.edges[place][:2] for place in places) for node in graph.nodes]


class Counts(unittest.TestCase):
    def test_known_numbers(self):
        # A ring has two perfect matchings or none; K_n has (n - 1)!!.
        self.assertEqual([graphs.perfect_matchings(ring(n)).count() for n in (3, 4, 5, 6)], [0, 2, 0, 2])
        self.assertEqual([graphs.perfect_matchings(complete(n)).count() for n in (2, 4, 6, 8)], [1, 3, 15, 105])
        # Lucas numbers, and matchings of any size (OEIS A000085).
        self.assertEqual([graphs.edge_covers(ring(n)).count() for n in (3, 4, 5, 6)], [4, 7, 11, 18])
        self.assertEqual([graphs.edge_covers(complete(n), least=0, most=1).count() for n in (2, 3, 4, 5)], [2, 4, 10, 26])
        # Circles through all nodes, one or more (OEIS A001205).
        self.assertEqual([graphs.edge_covers(complete(n), least=2, most=2).count() for n in (3, 4, 5, 6)], [1, 3, 12, 70])
        for nodes, colours in itertools.product((3, 4, 5, 6), (1, 2, 3, 4)):
            wanted = (colours - 1) ** nodes + (-1) ** nodes * (colours - 1)
            self.assertEqual(graphs.colourings(ring(nodes), colours).count(), wanted)
        # Systems of triples of order 7 (OEIS A030128).
        triples = [list(itertools.combinations(triple, 2)) for triple in itertools.combinations(range(7), 3)]
        self.assertEqual(graphs.edge_partitions(complete(7), triples).count(), 30)

    def test_random_graphs(self):
        """Against all sets of edges, all colourings and all sets of parts, with loops and several edges of a pair."""
        rng = random.Random(3)
        for _ in range(20):
            nodes = "abcde"[: rng.randint(1, 5)]
            graph = Graph(nodes, [(*rng.choices(nodes, k=2), key) for key in range(rng.randint(0, 7))])
            every = list(subsets(range(len(graph.edges))))
            is_loop = [a == b for a, b, _ in graph.edges]
            for least, most in ((0, 1), (1, None), (1, 2), (2, 2), (0, 3)):
                high = len(graph.edges) if most is None else most
                wanted = sum(all(least <= degree <= high for degree in degrees(graph, chosen)) for chosen in every)
                self.assertEqual(graphs.edge_covers(graph, least=least, most=most).count(), wanted)
            perfect = [set(degrees(graph, it)) == {1} and not any(is_loop[place] for place in it) for it in every]
            self.assertEqual(graphs.perfect_matchings(graph).count(), sum(perfect))
            colours = [dict(zip(nodes, it)) for it in itertools.product("xyz", repeat=len(nodes))]
            wanted = [it for it in colours if all(it[a] != it[b] for a, b, _ in graph.edges)]
            found = [graphs.colouring(one) for one in graphs.colourings(graph, "xyz").solve()]
            self.assertCountEqual(found, wanted)
            if graph.edges:
                parts = [rng.sample(graph.edges, rng.randint(1, len(graph.edges))) for _ in range(6)]
                each = [sorted(edge for part in it for edge in part) for it in subsets(parts)]
                turned = [[(b, a, key) for a, b, key in part] for part in parts]
                wanted = each.count(sorted(graph.edges))
                self.assertEqual(graphs.edge_partitions(graph, turned).count(), wanted)


class Values(unittest.TestCase):
    def test_solutions_are_as_the_graph_has_them(self):
        square = Graph("abcd", ["ab", "bc", "cd", "da"])
        self.assertEqual(list(graphs.perfect_matchings(square).solve()), [[("a", "b"), ("c", "d")], [("d", "a"), ("b", "c")]])
        self.assertEqual(graphs.colouring(next(graphs.colourings(square, ["red", "blue"]).solve()))["a"], "red")
        (one,) = graphs.edge_partitions(square, [[("b", "a"), ("b", "c")], [("c", "d"), ("a", "d")]]).solve()
        self.assertEqual(one, [(("a", "b"), ("b", "c")), (("c", "d"), ("d", "a"))])
        (star,) = graphs.edge_covers(Graph(range(4), [(0, 1), (0, 2), (0, 3)])).solve()
        self.assertEqual(sorted(star), [(0, 1), (0, 2), (0, 3)])

    def test_other_graphs(self):
        several = Edges((0, 1, "x"), (0, 1, "y"), (1, 2, "z"), (2, 0, "w"))
        self.assertEqual(graphs.colourings(several, 3).count(), 6)
        self.assertEqual(sorted(one.numbers for one in graphs.edge_covers(several, most=1).solve()), [])
        pair = graphs.perfect_matchings(Edges((0, 1, "x"), (0, 1, "y")))
        self.assertEqual([one.numbers for one in pair.solve()], [[0], [1]])
        self.assertEqual(graphs.colourings(Graph([1, 2], [(1, 2), (2, 2)]), 5).count(), 0)
        self.assertEqual(graphs.colourings(Graph([1, 2, 3], [(1, 2)]), 2).count(), 4)

    def test_they_are_problems(self):
        problem = graphs.perfect_matchings(complete(6))
        self.assertEqual(problem.random(1), problem.random(1))
        self.assertEqual(problem.occurrences(), [3] * 15)
        self.assertEqual(Problem.parse(problem.text).count(), 15)
        for made in (problem, graphs.colourings(complete(3), 3)):
            again = pickle.loads(pickle.dumps(made))
            solution = next(again.solve())
            self.assertEqual(again.draw(solution).svg(), made.draw(next(made.solve())).svg())

    def test_what_is_no_graph(self):
        directed = Graph("ab", ["ab"])
        directed.is_directed = lambda: True
        for graph, error, wanted in (
            ([(0, 1)], TypeError, "a graph has edges, and this is of type list"),
            (directed, ValueError, "the graph is directed; graph.to_undirected.. has the same edges without directions"),
            (Graph("ab", [("a",)]), ValueError, r"an edge is a pair of nodes, and one is \('a',\)"),
            (Graph("ab", ["ac"]), ValueError, "an edge has 'c', which is no node of the graph"),
        ):
            with self.subTest(wanted=wanted), self.assertRaisesRegex(error, f"^{wanted}$"):
                graphs.perfect_matchings(graph)
        with self.assertRaisesRegex(ValueError, r"^part 1 has \(0, 2\), which is no edge of the graph$"):
            graphs.edge_partitions(ring(4), [[(0, 1)], [(0, 2)]])


class Pictures(unittest.TestCase):
    def lines(self, problem, solution):
        """The text of a solution's picture, and of its SVG the ways of the thick lines."""
        picture = problem.draw(solution)
        root = ElementTree.fromstring(picture.svg())
        return str(picture).splitlines(), [path.get("d") for path in root.iter(f"{SVG}path") if path.get("stroke-width")]

    def test_chosen_edges(self):
        board = Graph([(0, 0), (0, 1), (1, 0), (1, 1)], [((0, 0), (0, 1)), ((1, 0), (1, 1)), ((0, 0), (1, 0))])
        problem = graphs.perfect_matchings(board)
        text, thick = self.lines(problem, next(problem.solve()))
        self.assertEqual(text[0], "graph {")
        self.assertIn('  "0,0" -- "0,1" [color="#222", penwidth="4"]', text)
        self.assertIn('  "0,0" -- "1,0"', text)
        # Both lie flat, one below the other.
        (first, _, _), (second, _, _) = (path.replace("L", " ").partition(" ") for path in sorted(thick))
        self.assertEqual((len(thick), first), (2, second))
        self.assertEqual(self.lines(problem, ())[1], [])
        self.assertIn("<svg", problem._repr_svg_())
        self.assertIn("stroke-width", next(problem.solve())._repr_svg_())

    def test_one_of_several_edges(self):
        problem = graphs.perfect_matchings(Edges((0, 1), (0, 1)))
        self.assertEqual(len(self.lines(problem, next(problem.solve()))[1]), 1)

    def test_colours_and_parts(self):
        problem = graphs.colourings(Graph(["a", "<b>", 'c"'], [("a", "<b>")]), ["red", 7])
        text, _ = self.lines(problem, next(problem.solve()))
        self.assertIn('  "a" [label="a: red", style="filled", fillcolor="#f2a39b"]', text)
        self.assertTrue(any(line.startswith('  "<b>" [label="<b>: 7"') for line in text), text)
        self.assertTrue(any(line.startswith('  "c\\"" [') for line in text), text)
        parted = graphs.edge_partitions(ring(4), [[(0, 1), (1, 2)], [(2, 3), (3, 0)]])
        text, thick = self.lines(parted, next(parted.solve()))
        self.assertEqual(len(thick), 4)
        self.assertEqual([line[-4:-1] for line in text if "--" in line], ['"1"', '"1"', '"2"', '"2"'])

    def test_large_numbers_are_no_places(self):
        far = Graph([(0, 0), (10**400, 1)], [((0, 0), (10**400, 1))])
        self.assertIn("<svg", graphs.perfect_matchings(far).draw().svg())

    def test_positions(self):
        places = {0: (0, 0), 1: (1, 0), 2: (1, 5)}
        problem = graphs.colourings(ring(3), 3, positions=places)
        ends = ElementTree.fromstring(problem.draw().svg()).findall(f"{SVG}ellipse")
        (x0, y0), (x1, y1), (x2, y2) = ((float(end.get("cx")), float(end.get("cy"))) for end in ends)
        self.assertTrue(x0 < x1 == x2 and y0 == y1 > y2)
        self.assertAlmostEqual((y1 - y2) / (x1 - x0), 5, places=3)
        for wrong, wanted in (({0: (0, 0)}, "no place for 1"), ({**places, 2: (float("nan"), 1)}, "no place on paper for 2")):
            with self.assertRaisesRegex(ValueError, wanted):
                graphs.colourings(ring(3), 3, positions=wrong)

    def test_others_have_none(self):
        problem = graphs.colourings(ring(4), 2)
        with self.assertRaises(NoPicture):
            Problem("ab", options=["a", "b"]).draw(["a", "b"], problem.pattern)


@unittest.skipIf(networkx is None, "networkx isn't here")
class Networkx(unittest.TestCase):
    def test_known_numbers(self):
        petersen = networkx.petersen_graph()
        self.assertEqual(graphs.perfect_matchings(petersen).count(), 6)
        self.assertEqual(graphs.colourings(petersen, 3).count(), 120)
        self.assertEqual(graphs.edge_covers(petersen, least=2, most=2).count(), 6)
        self.assertEqual(graphs.perfect_matchings(networkx.grid_2d_graph(8, 8)).count(), 12_988_816)
        # OEIS A068253.
        self.assertEqual(graphs.colourings(networkx.grid_2d_graph(4, 4), 3).count(), 7812)

    def test_solutions_are_its_own(self):
        grid = networkx.grid_2d_graph(4, 4)
        matching = graphs.perfect_matchings(grid).random(2)
        self.assertTrue(networkx.is_perfect_matching(grid, set(matching)))
        cover = graphs.edge_covers(networkx.path_graph(5)).random(1)
        self.assertTrue(networkx.is_edge_cover(networkx.path_graph(5), set(cover)))
        colours = graphs.colouring(graphs.colourings(grid, ["red", "blue"]).random(1))
        networkx.set_node_attributes(grid, colours, "colour")
        self.assertTrue(all(grid.nodes[a]["colour"] != grid.nodes[b]["colour"] for a, b in grid.edges))

    def test_several_edges_and_directions(self):
        several = networkx.MultiGraph([(0, 1), (0, 1), (1, 2), (2, 3), (2, 3), (3, 0)])
        self.assertEqual(graphs.perfect_matchings(several).count(), 5)
        parts = [[edge] for edge in several.edges]
        self.assertEqual(graphs.edge_partitions(several, parts).count(), 1)
        with self.assertRaisesRegex(ValueError, "directed"):
            graphs.perfect_matchings(networkx.DiGraph([(0, 1)]))
        self.assertEqual(graphs.perfect_matchings(networkx.DiGraph([(0, 1)]).to_undirected()).count(), 1)


if __name__ == "__main__":
    unittest.main()

"""Embeddings of networkx: there and back, dummies marked, bends where two segments lie side by side."""

import unittest

import networkx as nx

from fezdrok import (
    Crossing, Dart, Dummy, Edge, Picture, Planarization, Planarizer, Point, from_networkx_embedding, planarize,
    to_networkx_embedding,
)

from .support import crossings_of, euler, needs_program, traced


def result_of(graph, picture, edge_of) -> Planarization:
    """A result with a picture made by hand."""
    return Planarization(graph, picture, tuple(graph), edge_of, (1,), ())


def twice_crossed() -> Picture:
    """A triangle 0, 1, 2 with a tail from 0 to 3 that leaves the triangle across edge 0 and comes back across it, so
    that two segments lie between the same crossings."""
    edges = (Edge(0, 0, 1, 0, (0, 1)), Edge(1, 1, 2), Edge(2, 2, 0), Edge(3, 2, 3, 0, (0, 1)))
    crossings = (Crossing(0, 0, 3, "ltr"), Crossing(1, 0, 3, "rtl"))
    return Picture(((0, 2), (0, 1), (1, 3, 2), (3,)), edges, crossings, 4, 2)


class ToNetworkx(unittest.TestCase):
    def test_a_crossing_is_marked(self):
        edges = (Edge(0, 0, 1, 0, (0,)), Edge(1, 2, 3, 0, (0,)))
        picture = Picture(((0,), (0,), (1,), (1,)), edges, (Crossing(0, 0, 1, "ltr"),), 2, 1)
        graph = nx.Graph([("a", "b"), ("c", "d")])
        embedding = to_networkx_embedding(result_of(graph, picture, {0: ("a", "b"), 1: ("c", "d")}))
        embedding.check_structure()
        crossing = Dummy("crossing", 0)
        self.assertEqual(list(embedding.neighbors_cw_order(crossing)), ["b", "d", "a", "c"])
        self.assertEqual(
            embedding.nodes[crossing],
            {**embedding.nodes[crossing], "dummy": True, "crossing": 0, "edges": (("a", "b"), ("c", "d"))},
        )
        self.assertEqual([embedding.nodes[node]["dummy"] for node in "abcd"], [False] * 4)
        self.assertEqual(embedding.edges["a", crossing]["edge"], ("a", "b"))

    def test_parallel_edges_bend(self):
        graph = nx.MultiGraph([(0, 1), (0, 1), (0, 1)])
        picture = Picture(((0, 1, 2), (0, 2, 1)), tuple(Edge(number, 0, 1) for number in range(3)), (), 3, 0)
        embedding = to_networkx_embedding(result_of(graph, picture, dict(enumerate(graph.edges(keys=True)))))
        embedding.check_structure()
        self.assertEqual((len(embedding), euler(embedding), crossings_of(embedding)), (4, 2, 0))
        self.assertEqual(embedding.nodes[Dummy("bend", Dart(1, 0))]["bend"], (0, 1, 1))
        self.assertEqual(sorted(len(walk) for walk in traced(embedding)), [2, 2, 3, 3, 3, 3])

    @needs_program
    def test_segments_side_by_side_between_two_crossings(self):
        picture = twice_crossed()
        self.assertEqual(Planarizer().check(picture), picture.counts)
        graph = nx.Graph([(0, 1), (1, 2), (2, 0), (2, 3)])
        embedding = to_networkx_embedding(result_of(graph, picture, {0: (0, 1), 1: (1, 2), 2: (2, 0), 3: (2, 3)}))
        embedding.check_structure()
        self.assertEqual((crossings_of(embedding), euler(embedding)), (2, 2))
        self.assertEqual(len(embedding), 4 + 2 + 1)

    @needs_program
    def test_rotations_are_those_of_the_picture(self):
        result = planarize(nx.petersen_graph())
        embedding = to_networkx_embedding(result)
        for vertex, around in enumerate(result.picture.rotations):
            node = result.node_of[vertex]
            found = [result.id_of[embedding.edges[node, other]["edge"]] for other in embedding.neighbors_cw_order(node)]
            place = found.index(around[0])
            self.assertEqual(tuple(found[place:] + found[:place]), around)


class FromNetworkx(unittest.TestCase):
    def embedding(self, graph):
        return nx.check_planarity(graph)[1]

    def test_the_program_takes_them(self):
        for graph in (
            nx.path_graph(2), nx.icosahedral_graph(), nx.grid_2d_graph(4, 4), nx.star_graph(5), nx.wheel_graph(7)
        ):
            picture = from_networkx_embedding(self.embedding(graph))
            self.assertEqual(picture.counts.euler, 2)
            self.assertEqual((picture.counts.vertices, picture.counts.edges), (len(graph), graph.number_of_edges()))

    @needs_program
    def test_they_are_lawful_and_start_runs(self):
        picture = from_networkx_embedding(self.embedding(nx.dodecahedral_graph()))
        planarizer = Planarizer(start=picture)
        self.assertEqual(planarizer.check(picture), picture.counts)
        planarizer.insert(0, 7)
        self.assertEqual(planarizer.run().start, picture)

    def test_clockwise_stays_clockwise(self):
        embedding = self.embedding(nx.icosahedral_graph())
        picture = from_networkx_embedding(embedding)
        nodes = list(embedding)
        faces = {frozenset(nodes[picture.start(dart).id] for dart in face) for face in picture.faces}
        seen: set = set()
        self.assertEqual(faces, {frozenset(embedding.traverse_face(*edge, mark_half_edges=seen)) for edge in embedding.edges if edge not in seen})
        for vertex, node in enumerate(nodes):
            found = [nodes[picture.end(dart).id] for dart in picture.around(Point(False, vertex))]
            wanted = list(embedding.neighbors_cw_order(node))
            place = wanted.index(found[0])
            self.assertEqual(found, wanted[place:] + wanted[:place])

    @needs_program
    def test_there_and_back(self):
        """Crossings become vertices."""
        result = planarize(nx.complete_graph(6))
        again = from_networkx_embedding(to_networkx_embedding(result))
        counts = result.picture.counts
        self.assertEqual(
            again.counts, (counts.vertices + counts.crossings, 0, counts.segments, counts.segments, counts.faces)
        )

    def test_kinds(self):
        picture = from_networkx_embedding(self.embedding(nx.path_graph(3)), kind=lambda u, v: u + v)
        self.assertEqual([row.kind for row in picture.edges], [1, 3])

    def test_what_is_no_start(self):
        apart = nx.PlanarEmbedding()
        apart.set_data({0: [1], 1: [0], 2: [3], 3: [2]})
        with self.assertRaisesRegex(ValueError, "not connected"):
            from_networkx_embedding(apart)
        bare = nx.PlanarEmbedding()
        bare.add_node(0)
        with self.assertRaisesRegex(ValueError, "no edge"):
            from_networkx_embedding(bare)


if __name__ == "__main__":
    unittest.main()

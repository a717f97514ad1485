"""What a layout reads: segments in order with the faces beside them, and one JSON object with the nodes' own names."""

import io
import json
import unittest

import networkx as nx

from fezdrok import Dummy, planarize, to_networkx_graph

from .support import needs_program


@needs_program
class Results(unittest.TestCase):
    def test_segments_lead_from_the_first_node_to_the_other(self):
        result = planarize(nx.complete_graph(6))
        for u, v in [*result.graph.edges, *((v, u) for u, v in result.graph.edges)]:
            chain = result.segments(u, v)
            self.assertEqual((chain[0].start, chain[-1].end), (u, v))
            self.assertEqual([it.end for it in chain[:-1]], [it.start for it in chain[1:]])
            crossings = result.picture.edge(result.edge_id(u, v)).crossings
            self.assertEqual(sorted(it.end.of for it in chain[:-1]), sorted(crossings))
            self.assertTrue(all(isinstance(it.end, Dummy) for it in chain[:-1]))
            for it in chain:
                self.assertIn(it.dart, result.picture.faces[it.left])
                self.assertIn(it.dart.twin, result.picture.faces[it.right])
        with self.assertRaises(KeyError):
            result.segments(0, 9)

    def test_keys_of_a_multigraph(self):
        result = planarize(nx.MultiGraph(["ab", "bc", "ca", "ab"]))
        for key in (0, 1):
            self.assertEqual(result.edge_of[result.edge_id("b", "a", key)], ("a", "b", key))
            self.assertEqual([(it.start, it.end) for it in result.segments("b", "a", key)], [("b", "a")])
        for call in (result.edge_id, result.segments):
            for words, due in (
                (("a", "b"), "the key is required"), (("a", "b", 2), "no edge"), (("a", "x", 0), "no edge")
            ):
                with self.assertRaisesRegex(KeyError, due):
                    call(*words)
        with self.assertRaisesRegex(KeyError, "no edge"):
            planarize(nx.path_graph(3)).edge_id(0, 1, 0)

    def test_directions_of_a_digraph(self):
        graph = nx.DiGraph([(0, 1), (2, 1), (2, 0), (1, 3), (3, 0)])
        result = planarize(graph)
        for u, v in graph.edges:
            chain = result.segments(u, v)
            self.assertEqual((chain[0].start, chain[-1].end), (u, v))
            with self.assertRaisesRegex(KeyError, "no edge"):
                result.segments(v, u)

    def test_one_object(self):
        graph = nx.MultiGraph([("a", (1, 2)), ((1, 2), "c"), ("c", "a"), ("a", "c")])
        value = json.loads(json.dumps(planarize(graph, price=lambda u, v, data: 3).to_json()))
        self.assertEqual(sorted(map(str, (node["id"] for node in value["nodes"]))), ["[1, 2]", "a", "c"])
        self.assertEqual([row["key"] for row in value["edges"] if set(map(str, row["ends"])) == {"a", "c"}], [0, 1])
        self.assertEqual({row["price"] for row in value["edges"]}, {3})
        self.assertEqual((len(value["faces"]), value["outer_faces"]), (3, [0]))

    def test_outer_faces_of_parts(self):
        result = planarize(
            nx.disjoint_union_all([nx.cycle_graph(3), nx.empty_graph(1), nx.cycle_graph(4), nx.path_graph(3)])
        )
        faces = [result.picture.faces[place] for place in result.to_json()["outer_faces"]]
        self.assertEqual([len(face) for face in faces], [3, 4, 4])
        self.assertEqual(
            [{result.picture.start(dart).id for dart in face} for face in faces], [{0, 1, 2}, {4, 5, 6, 7}, {8, 9, 10}]
        )

    def test_gml_and_graphml(self):
        result = planarize(nx.complete_graph(5), price=lambda u, v, data: 1 + u, forbidden=[(0, 1)])
        graph = to_networkx_graph(result)
        self.assertEqual((len(graph), graph.number_of_edges()), (6, 12))
        written = [io.BytesIO(), io.BytesIO()]
        nx.write_gml(graph, written[0])
        nx.write_graphml(graph, written[1])
        read = [
            nx.parse_gml(written[0].getvalue().decode(), label="id"),
            nx.parse_graphml(written[1].getvalue().decode(), force_multigraph=True),
        ]
        for again in read:
            self.assertEqual(sorted(data["crossing"] for _, data in again.nodes(data=True)), [0] * 5 + [1])
            for value in ("edge", "segment", "price"):
                self.assertEqual(
                    sorted(row[value] for _, _, row in again.edges(data=True)),
                    sorted(row[value] for _, _, row in graph.edges(data=True)),
                )

    def test_the_object_is_whole(self):
        result = planarize(nx.petersen_graph(), effort="quick")
        value = result.to_json()
        darts = sorted(map(tuple, (dart for face in value["faces"] for dart in face)))
        self.assertEqual(
            darts, sorted(tuple(dart) for point in value["nodes"] + value["crossings"] for dart in point["darts"])
        )
        faces = {tuple(dart): place for place, face in enumerate(value["faces"]) for dart in face}
        for row in value["edges"]:
            for segment in row["segments"]:
                self.assertEqual(faces[tuple(segment["dart"])], segment["left"])
        self.assertEqual(len(value["crossings"]), 2)


if __name__ == "__main__":
    unittest.main()

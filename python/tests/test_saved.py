"""Planarizations that are saved, loaded and judged: what was changed in between is found."""

import copy
import json
import os
import pickle
import tempfile
import unittest
import warnings
from dataclasses import replace
from pathlib import Path

import networkx as nx

from fezdrok import NoReport, PlanarWarning, VerificationError, load, planarize
from fezdrok.engine.whole_files import write_whole

from .support import needs_program


def graphs():
    """Graphs of all kinds, with names and attributes of all kinds."""
    many = nx.disjoint_union_all([nx.complete_graph(6), nx.empty_graph(2), nx.petersen_graph()])
    named = nx.relabel_nodes(nx.complete_graph(5), {0: "a b", 1: "中文", 2: ("x", (1, 2)), 3: 2.5, 4: "\ud800"})
    named.graph["title"] = "五"
    named.nodes["中文"]["weight"] = [1, {"deep": None}]
    multi = nx.MultiGraph([("a", "b"), ("a", "b"), ("b", "c", {"color": "red"}), ("c", "a")])
    multi.add_edge("a", "b", key="second lane")
    directed = nx.MultiDiGraph([(0, 1), (1, 0), (1, 2), (2, 0), (2, 0)])
    turned = nx.DiGraph([(2, 1), (0, 1), (2, 0)])
    return [many, named, multi, directed, turned, nx.empty_graph(1), nx.grid_2d_graph(3, 3)]


@needs_program
class Saved(unittest.TestCase):
    def setUp(self):
        folder = tempfile.TemporaryDirectory()
        self.addCleanup(folder.cleanup)
        self.folder = Path(folder.name)

    def test_what_is_saved_comes_back(self):
        for number, graph in enumerate(graphs()):
            with self.subTest(number):
                price = (lambda u, v, data: 1 + len(str(v))) if graph.edges else None
                result = planarize(graph, price)
                result.verify(graph)
                path = self.folder / f"{number}.planar.json"
                result.save(path)
                again = load(path)
                self.assertEqual((again, hash(again), again.tries), (result, hash(result), result.tries))
                self.assertEqual(list(again.graph.nodes(data=True)), list(graph.nodes(data=True)))
                self.assertEqual((again.graph.graph, list(again.graph.edges)), (graph.graph, list(graph.edges)))
                self.assertEqual([part.tries for part in again.parts], [part.tries for part in result.parts])
                again.verify(graph)
                again.save(self.folder / "again")
                self.assertEqual((self.folder / "again").read_bytes(), path.read_bytes())
                self.assertEqual(len(os.listdir(self.folder)), number + 2)

    def test_what_json_does_not_know(self):
        graph = nx.path_graph(2)
        graph.nodes[0]["set"], graph.edges[0, 1]["nan"] = {1}, float("nan")
        with self.assertWarnsRegex(PlanarWarning, "values JSON does not know: nan, set"):
            planarize(graph).save(self.folder / "file")
        self.assertEqual(load(self.folder / "file").graph.nodes[0], {})
        for name in (frozenset("ab"), object()):
            with self.assertRaisesRegex(ValueError, "cannot be saved as a name"):
                planarize([(name, 1)]).save(self.folder / "other")
        self.assertEqual(os.listdir(self.folder), ["file"])

    def test_files_that_are_none(self):
        planarize(nx.complete_graph(5)).save(self.folder / "file")
        text = (self.folder / "file").read_text()
        for wrong in ("", "{", "[]", "{}", text[:-30], text.replace('"version":1', '"version":2'), "\0" * 9):
            (self.folder / "file").write_text(wrong)
            with self.subTest(wrong[:20]), self.assertRaisesRegex(NoReport, "the text is no planarization: "):
                load(self.folder / "file")
        with self.assertRaises(FileNotFoundError):
            load(self.folder / "nowhere")

    def test_numbers_that_are_not_those_of_the_pictures(self):
        planarize(nx.complete_graph(5)).save(self.folder / "file")
        value = json.loads((self.folder / "file").read_text())
        for name in ("crossings", "cost"):
            (self.folder / "file").write_text(json.dumps({**value, name: 7}))
            with self.assertRaisesRegex(NoReport, f"its {name} are 7, and those of its pictures 1"):
                load(self.folder / "file")

    def test_changed_files_do_not_pass(self):
        """Any number of the file is changed: it is not loaded, it is not verified, or it says the same in the end. The
        crossings of each try are not verified."""
        graph = nx.relabel_nodes(nx.disjoint_union(nx.complete_graph(5), nx.path_graph(2)), "abcdefg".__getitem__)
        result = planarize(graph, {("a", "b"): 5}, forbidden=["cd"])
        value = json.loads(result.saved_text())
        passed = 0
        for change in changes(value):
            (self.folder / "file").write_text(json.dumps(change))
            try:
                again = load(self.folder / "file")
                again.verify(graph)
            except (NoReport, VerificationError):
                continue
            passed += 1
            self.assertTrue(again.picture == result.picture or again.crossings == result.crossings)
            self.assertEqual(again.segments("c", "d")[0].end, "d")
        self.assertLess(passed - len(result.tries), 26)

    def test_what_is_not_true(self):
        graph = nx.complete_graph(5)
        result = planarize(graph)
        crossed, newcomer = result.crossing_pairs[0]
        table = [row.id for row in result.picture.edges]
        for wrong, words in (
            (replace(result, node_of=result.node_of[1:] + result.node_of[:1]), "has other ends in the picture"),
            (replace(result, node_of=(0, *result.node_of[1:-1], 0)), "the node . is there . times"),
            (replace(result, edge_of={**result.edge_of, table[0]: result.edge_of[table[1]]}), "is there . times"),
            (replace(result, prices=()), "has the kind 0, which has no price"),
            (replace(result, prices=(0,)), "the price 0 is no whole number"),
            (replace(result, prices=(None,)), "must not be crossed, and has 1 crossings"),
            (replace(result, picture=replace(result.picture, crossings=())), "the program refuses a picture"),
            (replace(result, graph=nx.DiGraph(graph)), "directed"),
        ):
            with self.subTest(words), self.assertRaisesRegex(VerificationError, words):
                wrong.verify(graph)
        parts = planarize(nx.disjoint_union(graph, graph))
        both = (parts.parts[0], replace(parts.parts[1], picture=parts.picture))
        for wrong in (replace(parts, parts=parts.parts[:1]), replace(parts, parts=both)):
            with self.assertRaises(VerificationError):
                wrong.verify()
        for other in (nx.complete_graph(6), nx.path_graph(5), nx.MultiGraph([*graph.edges, (0, 1)])):
            with self.assertRaisesRegex(VerificationError, "is there . times, and in the graph . times"):
                result.verify(other)
        looped = nx.Graph([*graph.edges, (2, 2)])
        result.verify(looped)


def changes(value):
    """All values that differ from one at one number."""
    places = []

    def walk(path, inner):
        if isinstance(inner, dict):
            for key, part in inner.items():
                walk([*path, key], part)
        elif isinstance(inner, list):
            for place, part in enumerate(inner):
                walk([*path, place], part)
        elif isinstance(inner, int) and not isinstance(inner, bool):
            places.append(path)

    walk([], value)
    for path in places:
        for step in (-1, 1):
            changed = copy.deepcopy(value)
            inner = changed
            for key in path[:-1]:
                inner = inner[key]
            inner[path[-1]] += step
            yield changed


class WholeFiles(unittest.TestCase):
    def setUp(self):
        folder = tempfile.TemporaryDirectory()
        self.addCleanup(folder.cleanup)
        self.folder = Path(folder.name)

    def test_a_file_is_whole_or_as_before(self):
        path = self.folder / "file"
        write_whole(path, "first")
        path.chmod(0o600)
        link = self.folder / "link"
        link.symlink_to("file")
        write_whole(link, b"second")
        self.assertEqual((path.read_text(), path.stat().st_mode & 0o777, link.is_symlink()), ("second", 0o600, True))
        with self.assertRaises(UnicodeEncodeError):
            write_whole(path, "\ud800")
        with self.assertRaises(OSError):
            write_whole(self.folder / "nowhere" / "file", "third")
        self.assertEqual((sorted(os.listdir(self.folder)), path.read_text()), (["file", "link"], "second"))

    @unittest.skipUnless(os.path.exists("/dev/full"), "left out: there is no /dev/full")
    def test_a_device_that_is_full(self):
        with self.assertRaisesRegex(OSError, "No space left"):
            write_whole("/dev/full", "text")


@needs_program
class Values(unittest.TestCase):
    def test_equal_by_value(self):
        graph = nx.complete_graph(5)
        result, again = planarize(graph), planarize(graph)
        self.assertEqual((result, hash(result), len({result, again})), (again, hash(again), 1))
        self.assertEqual(pickle.loads(pickle.dumps(result)), result)
        graph.nodes[0]["color"] = "red"
        for other in (planarize(graph), planarize(graph, seed=1, forbidden=[(0, 1)]), planarize(nx.DiGraph(graph)), 5):
            self.assertNotEqual(result, other)

    def test_a_line(self):
        result = planarize(nx.complete_graph(5))
        self.assertEqual(repr(result), "<Planarization: 5 nodes, 10 edges, 1 crossings>")
        self.assertEqual(repr(planarize(nx.empty_graph(1))), "<Planarization: 1 nodes, 0 edges, 0 crossings>")

    def test_notebooks(self):
        self.assertIn("<svg", planarize(nx.complete_graph(5))._repr_svg_())
        self.assertIsNone(planarize(nx.path_graph(301), effort="quick")._repr_svg_())
        self.assertIsNone(planarize(nx.empty_graph(1))._repr_svg_())

    def test_the_graph_is_copied(self):
        graph = nx.complete_graph(5)
        result = planarize(graph)
        graph.add_edge(0, 5)
        self.assertFalse(result.graph.has_edge(0, 5))
        result.verify()
        with result.session() as session:
            session.grow_edge(0, 5)
            session.result().verify(graph)

    def test_what_is_made_when_it_is_first_asked_for(self):
        graph = nx.disjoint_union(nx.complete_graph(5), nx.complete_graph(6))
        graph.add_node("alone", color="red")
        result, again = planarize(graph), planarize(graph)
        fresh = pickle.loads(pickle.dumps(again))
        graph.remove_node("alone")
        result.verify()
        for other in (fresh, again, pickle.loads(pickle.dumps(result))):
            self.assertEqual((other, hash(other), other.offsets), (result, hash(result), result.offsets))
            self.assertEqual(other.graph.nodes["alone"], {"color": "red"})
        self.assertEqual(result.offsets, [(0, 0, 0), (5, 10, 1), (11, 25, 4)])
        self.assertIs(result.graph, result.graph)
        result.graph.nodes[7]["color"] = "blue"
        self.assertEqual([dict(part.graph.nodes(data="color")).get(7) for part in result.parts], [None, "blue", None])
        self.assertFalse(hasattr(result, "crossing"))

    def test_graphs_without_edges(self):
        with warnings.catch_warnings():
            warnings.simplefilter("error")
            for count in (1, 3):
                result = planarize(nx.empty_graph(count), price="weight" if count > 3 else None)
                result.verify()
                self.assertEqual((result.crossings, result.cost, len(result.node_of)), (0, 0, count))


if __name__ == "__main__":
    unittest.main()

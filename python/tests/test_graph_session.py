"""Planarizations that go on: what the names come to, told from the graph and from networkx's embedding."""

import unittest
from dataclasses import replace

import networkx as nx

from fezdrok import (
    Deleted, Fault, Grown, Inserted, NotPlanarized, Planarizer, SessionClosed, planarize, reinsert,
    to_networkx_embedding, to_svg,
)

from .support import Sessions, graph_pairs, needs_program, pairs_of, traced


def named(graph):
    """All edges of a graph, with the keys of a multigraph."""
    return list(graph.edges(keys=True) if graph.is_multigraph() else graph.edges())


@needs_program
class GraphSessions(Sessions, unittest.TestCase):
    def setUp(self):
        self.graph = nx.Graph(["ab", "bc", "cd", "da", "ac"])
        self.result = planarize(self.graph, effort="quick")

    def judge(self, result):
        """The picture draws the graph, each edge of it has its name, and each report is true."""
        self.assertEqual(sorted(result.edge_of), [row.id for row in result.picture.edges])
        self.assertEqual(set(result.edge_of.values()), set(named(result.graph)))
        self.assertEqual(set(result.node_of), set(result.graph))
        for row in result.picture.edges:
            self.assertEqual({result.node_of[row.a], result.node_of[row.b]}, set(result.edge_of[row.id][:2]))
        self.assertEqual(pairs_of(traced(to_networkx_embedding(result))), graph_pairs(result.graph))
        for report in result.reports:
            Planarizer().replay(report)

    def test_each_method(self):
        with self.result.session(process=self.process) as session:
            reply = session.insert_edge("d", "b")
            self.assertIsInstance(reply, Inserted)
            self.assertEqual(session.edge_of[reply.edge], ("b", "d"))
            self.assertIsInstance(session.grow_edge("d", "e"), Grown)
            self.assertIsInstance(session.insert_edge("e", "a"), Inserted)
            self.assertEqual(session.delete_edge("c", "a"), Deleted(self.result.edge_id("a", "c")))
            result, counts = session.result(), session.counts()
            session.insert_edge("a", "c")
            self.judge(session.result())
        self.judge(result)
        self.assertEqual((counts, result.picture.counts.vertices), (result.picture.counts, 5))
        self.assertEqual(
            sorted(map(sorted, result.graph.edges)), sorted(map(sorted, ["ab", "bc", "cd", "ad", "bd", "de", "ae"]))
        )
        self.assertEqual(len(self.graph.edges), 5)
        self.assertEqual(result.reports[:-1], self.result.reports)
        self.assertEqual(result.reports[-1].start, self.result.picture)
        self.assertLessEqual(reinsert(result).crossings, result.crossings)

    def test_a_session_goes_on_from_the_result_of_another(self):
        result = planarize(nx.path_graph(7))
        for u in range(7):
            with result.session(process=self.process) as session:
                for v in range(u - 1):
                    session.insert_edge(u, v)
                result = session.result()
        self.judge(result)
        self.assertEqual(graph_pairs(result.graph), graph_pairs(nx.complete_graph(7)))
        self.assertGreaterEqual(result.crossings, 9)
        self.assertEqual(len(result.reports), 7)

    def test_what_cannot_be_named(self):
        with self.result.session(process=self.process) as session:
            for call, kind, words in (
                (lambda: session.insert_edge("a", "x"), nx.NodeNotFound, "'x' is no node"),
                (lambda: session.insert_edge("b", "a"), ValueError, "already"),
                (lambda: session.insert_edge("b", "d", price=3), ValueError, "price 3"),
                (lambda: session.grow_edge("x", "y"), nx.NodeNotFound, "'x' is no node"),
                (lambda: session.grow_edge("a", "b"), ValueError, "'b' is a node"),
                (lambda: session.grow_edge("a", None), ValueError, "None cannot be a node"),
                (lambda: session.grow_edge("a", float("nan")), ValueError, "nan is not equal to itself"),
                (lambda: session.grow_edge(None, "x"), nx.NodeNotFound, "None is no node"),
            ):
                with self.assertRaisesRegex(kind, words):
                    call()
            for call in (lambda: session.grow_edge("a", ["x"]), lambda: session.insert_edge("a", ["x"])):
                with self.assertRaises(TypeError):
                    call()
            self.assertEqual(session.counts(), self.result.picture.counts)
            with self.assertRaisesRegex(KeyError, "no edge .'b', 'd'."):
                session.delete_edge("b", "d")
            with self.assertRaises(Fault):
                session.grow_edge("a", "x", position=-1)
            self.assertEqual(session.result().picture, self.result.picture)
        with self.assertRaises(SessionClosed):
            session.insert_edge("b", "d")
        self.assertTrue(session.is_closed)

    def test_what_the_program_refuses(self):
        with self.result.session(process=self.process) as session:
            session.grow_edge("a", "e")
            for call, edge, number in (
                (lambda: session.delete_edge("e", "a"), ("a", "e"), 6),
                (lambda: session.insert_edge("a", "a"), ("a", "a"), 2),
            ):
                with self.assertRaises(NotPlanarized) as caught:
                    call()
                self.assertEqual((caught.exception.edge, caught.exception.reply.number), (edge, number))
            session.insert_edge("b", "e")
            self.judge(session.result())

    def test_prices(self):
        result = planarize(self.graph, price={("a", "b"): 7, ("b", "c"): 3}, forbidden=["ac"])
        self.assertEqual(result.prices, (None, 7, 3, 1))
        with result.session(prices=[20, 7], process=self.process) as session:
            self.assertEqual(session.prices, (None, 7, 3, 1, 20))
            session.grow_edge("a", "e", price=20)
            self.assertEqual(session.result().prices, (None, 7, 3, 1, 20))
            self.judge(session.result())
        walls = planarize(nx.complete_graph(4), forbidden=nx.complete_graph(4).edges)
        with walls.session(process=self.process) as session:
            session.grow_edge(0, 4)
            with self.assertRaisesRegex(NotPlanarized, "9 NoRoute"):
                for node in (1, 2, 3):
                    session.insert_edge(4, node)
            self.judge(session.result())
            self.assertEqual((session.result().crossings, session.result().prices), (0, (None, 1)))
    def test_an_edge_that_must_not_be_crossed_crosses_none(self):
        result = planarize(nx.complete_graph(5).edge_subgraph(list(nx.complete_graph(5).edges)[:-1]))
        with result.session(prices=[None], process=self.process) as session:
            with self.assertRaises(NotPlanarized) as caught:
                session.insert_edge(3, 4, price=None)
            self.assertEqual((caught.exception.edge, caught.exception.reply), ((3, 4), None))
            self.assertFalse(session.graph.has_edge(3, 4))
            session.result().verify()
            session.insert_edge(3, 4)
            self.assertEqual(session.result().crossings, 1)
            self.judge(session.result())

    def test_prices_of_sessions(self):
        with planarize(self.graph, price={edge: 5 for edge in self.graph.edges}).session(process=self.process) as session:
            self.assertEqual((session.prices, session.result().prices), ((5, 1), (5,)))
            session.insert_edge("b", "d")
            self.assertEqual(session.result().prices, (5, 1))
            to_svg(session.result())
        with replace(self.result, prices=(5, 5, 9)).session(prices=[9, 7, 7], process=self.process) as session:
            self.assertEqual(session.prices, (5, 5, 9, 7, 1))
        with self.assertRaisesRegex(ValueError, "65 different prices"):
            self.result.session(prices=range(1, 66), process=self.process)

    def test_multigraphs_and_directed_graphs(self):
        for kind in (nx.MultiGraph, nx.DiGraph, nx.MultiDiGraph):
            with planarize(kind(["ab", "bc", "ca"])).session(process=self.process) as session:
                edges = [
                    session.edge_of[session.insert_edge("b", "a").edge],
                    session.edge_of[session.grow_edge("c", "d").edge],
                ]
                if kind is nx.MultiGraph:
                    edges.append(session.edge_of[session.insert_edge("a", "b").edge])
                    with self.assertRaisesRegex(KeyError, "the key is required"):
                        session.delete_edge("b", "a")
                    session.delete_edge("b", "a", 1)
                self.judge(session.result())
            due = {nx.MultiGraph: [("a", "b", 1), ("c", "d", 0), ("a", "b", 2)], nx.DiGraph: [("b", "a"), ("c", "d")]}
            self.assertEqual(edges, due.get(kind, [("b", "a", 0), ("c", "d", 0)]))

    def test_graphs_of_parts_and_without_edges(self):
        apart = planarize(nx.Graph(["ab", "cd"]))
        with self.assertRaisesRegex(ValueError, "parts"):
            apart.session(process=self.process)
        with apart.parts[1].session(process=self.process) as session:
            session.grow_edge("d", "e")
            session.insert_edge("e", "c")
            self.judge(session.result())
        with self.assertRaisesRegex(ValueError, "no edge"):
            planarize(nx.Graph({"a": "b", "c": ""})).parts[1].session(process=self.process)

    def test_renumbering(self):
        with planarize(nx.complete_graph(6), effort="quick").session(process=self.process) as session:
            for u, v in ((0, 1), (2, 3), (4, 5)):
                session.delete_edge(u, v)
                session.insert_edge(v, u)
            before = session.result()
            old = session.renumber()
            after = session.result()
            session.grow_edge(0, 6)
            session.delete_edge(1, 2)
            self.judge(session.result())
            with self.assertRaisesRegex(Fault, "70 NothingToUndo 3"):
                session.undo(3)
            session.undo(2)
            self.assertEqual(session.result(), after)
        self.judge(after)
        self.assertEqual(after.edge_of, {place: before.edge_of[edge_id] for place, edge_id in enumerate(old.edges)})
        self.assertEqual([len(report.history) for report in after.reports], [6, 0])
        self.assertEqual(after.picture.next_edge, 15)

    def test_calls_that_are_taken_back(self):
        self.graph.add_edge("c", "d", weight=7)
        for kind in (nx.Graph, nx.MultiGraph, nx.DiGraph, nx.MultiDiGraph):
            with planarize(kind(self.graph), effort="quick").session(prices=[None], process=self.process) as session:
                key = (0,) if session.graph.is_multigraph() else ()
                results = [session.result()]
                for call in (
                    lambda: session.grow_edge("c", "e"),
                    lambda: session.insert_edge("e", "a"),
                    lambda: session.grow_edge("e", "g"),
                    lambda: session.insert_edge("g", "c", price=None),
                    lambda: session.delete_edge("c", "d", *key),
                    lambda: session.insert_edge("b", "b"),
                    lambda: session.grow_edge("e", "f"),
                    lambda: session.insert_edge("f", "b"),
                ):
                    try:
                        call()
                    except NotPlanarized as refused:
                        self.assertEqual((refused.edge[:2], session.graph.adj), (("b", "b"), results[-1].graph.adj))
                    results.append(session.result())
                for count in (1, 2, 5):
                    session.undo(count)
                    results = results[:-count]
                    now = session.result()
                    self.judge(now)
                    self.assertEqual((now, now.reports[-1]), (results[-1], results[-1].reports[-1]))
                    self.assertEqual(list(now.graph), list(results[-1].graph))
                self.assertEqual(session.result().graph.edges[("c", "d", *key)], {"weight": 7})
                self.assertEqual((session.grow_edge("a", "e").vertex, session.graph.has_node("f")), (4, False))
                self.judge(session.result())
                with self.assertRaisesRegex(Fault, "70 NothingToUndo 2"):
                    session.undo(2)
                session.undo(0)
                session.undo()
                self.assertEqual(session.result(), results[0])

    def test_calls_that_are_interrupted(self):
        for interrupted in (self.interrupted, self.interrupted_before):
            with self.result.session(process=self.process) as session:
                for call in (
                    lambda: session.insert_edge("b", "d"),
                    lambda: session.grow_edge("c", "e"),
                    lambda: session.delete_edge("a", "b"),
                    lambda: session.undo(2),
                ):
                    with interrupted(session._session), self.assertRaises(KeyboardInterrupt):
                        call()
                    edges = len(session.result().graph.edges)
                    self.judge(session.result())
                self.assertEqual(edges, 6 if interrupted == self.interrupted else 5)


class GraphSessionsOverAProcess(GraphSessions):
    process = True


if __name__ == "__main__":
    unittest.main()

"""The editor's kinds of edges: their prices, which are changed and taken back, and the kind of new edges."""

import unittest
from dataclasses import replace

import networkx as nx

from fezdrok import Planarizer, Report, from_positions, planarize
from fezdrok.edit.boards import Board, NotDoneError

from .edit_support import Served, needs_server
from .support import needs_program, on_a_curve


def parted():
    """A triangle of edges that cost 9 to cross, and on each side of it a node with edges to its corners, which cost 1:
    the way from 0 to 1 crosses the triangle."""
    graph = nx.complete_graph(5)
    graph.remove_edge(0, 1)
    return planarize(graph, {edge: 1 if {0, 1} & {*edge} else 9 for edge in graph.edges})


@needs_program
class Prices(unittest.TestCase):
    def board(self, result):
        board = Board(result)
        self.addCleanup(board.close)
        return board

    def test_other_prices_are_taken_back(self):
        board = self.board(planarize(nx.complete_graph(5)))
        board.call(1, "delete", (0,))
        before = board.session.snapshot()
        row = before.picture.edges[0]
        change = board.call(2, "prices", ([5, None, 5],))
        self.assertEqual((change.caller, change.words), (2, "prices: 5, nothing may cross, 5"))
        after = board.session.snapshot()
        self.assertEqual(after, replace(before, prices=(5, None, 5)))
        self.assertEqual(board.session.report().start, before.picture)
        with self.assertRaisesRegex(NotDoneError, "has changed meanwhile"):
            board.judge(change.number - 1)
        board.call(1, "undo", ())
        self.assertEqual(board.session.snapshot(), before)
        board.call(1, "redo", ())
        self.assertEqual(board.session.snapshot(), after)
        for kind in (2, 1):
            board.call(1, "grow", (row.a, 0, f"of {kind}", kind))
        self.assertEqual([it.kind for it in board.session.snapshot().picture.edges[-2:]], [2, 1])
        with self.assertRaisesRegex(NotDoneError, "there is no such kind"):
            board.call(1, "grow", (row.a, 0, "of 3", 3))

    def test_what_routes_cost(self):
        board = self.board(parted())
        before = board.session.snapshot()
        cheap = before.picture.edge(before.edge_id(0, 2)).kind
        ends = before.vertex_of[0], before.vertex_of[1]
        self.assertEqual(board.session.route(*ends).price, 9)
        board.call(1, "prices", ([7, 7],))
        self.assertEqual(board.session.route(*ends).price, 7)
        words = board.call(1, "insert", (*ends, cheap)).words
        self.assertEqual(words, "0 – 1 is new: 1 crossing, price 7")
        now = board.session.snapshot()
        self.assertEqual(now.picture.edge(now.edge_id(0, 1)).kind, cheap)
        self.assertEqual(now.cost, 49)

    def test_what_is_refused(self):
        board = self.board(parted())
        vertex, before = board.session.snapshot().vertex_of, board.session.snapshot()
        for table, words in (
            ([1, 0], "kind 1: a price is a whole number from 1 to 1000"),
            ([1001, 1], "kind 0: a price is"), ([1, -1], "kind 1: a price is"), ([2**32, 1], "kind 0: a price is"),
            ([1, 1.5], "kind 1: a price is"), ([1, float("nan")], "kind 1: a price is"),
            ([2] * 65, "there are at most 64 kinds"), ([], "is of kind ., which must have a price"),
            ([7], "is of kind 1, which must have a price"), (list(before.prices), "prices already"),
        ):
            with self.subTest(table[:2]), self.assertRaisesRegex(NotDoneError, words):
                board.call(1, "prices", (table,))
        self.assertEqual((board.number, board.session.snapshot()), (0, before))
        board.call(1, "prices", ([1] * 64,))
        board.call(1, "prices", ([1, 1, None],))
        board.call(1, "insert", (vertex[0], vertex[1], 1))
        with self.assertRaisesRegex(NotDoneError, "and has a crossing: nothing could cross it"):
            board.call(1, "prices", ([None, None, 1],))
        board.call(1, "undo", ())
        with self.assertRaisesRegex(NotDoneError, "must not be crossed"):
            board.call(1, "insert", (vertex[0], vertex[1], 2))
        self.assertEqual(board.number, 4)


@needs_server
class Tables(Served):
    async def test_two_tabs(self):
        await self.serve(parted())
        first, second = await self.talk(), await self.talk()
        shown = (await first.drawn(0))["kinds"]
        start = self.editor._last
        dear, ends = start.picture.edge(start.edge_id(2, 3)).kind, (start.vertex_of[0], start.vertex_of[1])
        counts = [6, 6]
        counts[dear] = 3
        self.assertEqual([row["edges"] for row in shown], counts)
        self.assertEqual(sorted(row["price"] for row in shown), [1, 9])
        self.assertNotEqual(shown[0]["color"], shown[1]["color"])
        table = [3, 3, None]
        table[dear] = 1000
        self.assertIn("number", await first.ask("prices", table))
        places = [(row["name"], row["x"], row["y"]) for row in first.drawing["nodes"]]
        for talk in (first, second):
            after = await talk.drawn(1)
            self.assertEqual([row["price"] for row in after["kinds"]], table)
            self.assertEqual([row["edges"] for row in after["kinds"]], [*counts, 0])
            self.assertEqual([(row["name"], row["x"], row["y"]) for row in after["nodes"]], places)
            self.assertEqual(talk.changes[-1]["word"], "prices")
        route = await second.ask("route", *ends, 0)
        self.assertEqual((len(route["crossed"]), route["price"]), (1, 1000))
        refused = "nothing may cross an edge of this kind, and this one would cross others"
        self.assertEqual(await second.ask("route", *ends, 2), {"refused": refused})
        self.assertIn("must not be crossed", (await second.ask("insert", *ends, 2))["refused"])
        self.assertEqual((await second.ask("route", *ends, 3))["refused"], "there is no such kind")
        for wrong in ([0, 1], [1.5, 1], [-1, 1], [2**40, 1], [1, 1] * 40):
            self.assertRegex((await second.ask("prices", wrong))["refused"], "^kind 0: a price|^there are at most 64")
        self.assertIn("number", await second.ask("insert", *ends, 1 - dear))
        async with self.web.get(f"{self.server.address}report.json") as response:
            report = Report.from_text(await response.text())
        self.assertEqual((Planarizer().replay(report), report.prices), (1, tuple(table)))
        for _ in range(2):
            await first.ask("undo")
        self.assertEqual(sorted(row["price"] for row in (await second.drawn(4))["kinds"]), [1, 9])

    async def test_tidying_leaves_the_kinds(self):
        """Also those that no edge has."""
        graph = nx.complete_graph(7)
        await self.serve(from_positions(graph, on_a_curve(graph)))
        talk = await self.talk()
        await talk.ask("prices", [2, 5, None, 2])
        await talk.ask("tidy")
        await talk.until(lambda message: "told" in message)
        self.assertEqual([row["price"] for row in (await talk.drawn(2))["kinds"]], [2, 5, None, 2])
        self.assertEqual((talk.drawing["count"], talk.drawing["cost"]), (9, 36))


if __name__ == "__main__":
    unittest.main()

"""The editor: its messages, its picture with undo and redo, its drawings, its server, and how it ends."""

import asyncio
import io
import json
import os
import random
import signal
import subprocess
import sys
import tempfile
import time
import unittest
from contextlib import redirect_stderr
from pathlib import Path
from unittest import mock

import networkx as nx

from fezdrok import Planarizer, Progress, Refused, Report, from_positions, load, planarize
from fezdrok.__main__ import main
from fezdrok.drawing.drawings import drawing_settled
from fezdrok.drawing.giving_way import go_on
from fezdrok.edit import editors, tabs, views
from fezdrok.edit.boards import Board, NotDoneError
from fezdrok.edit.forms import LONGEST, MOST, BadMessageError, Pace, read_message
from fezdrok.edit.servers import aiohttp_web
from fezdrok.edit.views import settled_view, view_of, with_route
from fezdrok.engine.answers import Route
from fezdrok.engine.faults import ModuleMissing

from .edit_support import PATIENCE, Served, needs_server, shown
from .support import ROOT, needs_program, on_a_curve
from .test_large_drawings import short_edges


def k5_without_an_edge():
    """The complete graph on five nodes, without the edge between the first two."""
    graph = nx.complete_graph(5)
    graph.remove_edge(0, 1)
    return planarize(graph)


BAD = (
    "", "{", "1", "null", "{}", "[]", "[1,2]", '[1,2,"none"]', '[1,2,"undo",3]', '[1,2,"insert",0,1]',
    '[1,2,"insert",0,-1,0]',
    '[1,2,"insert",0,1.5,0]', '[1,2,"insert",0,true,0]', '[-1,2,"undo"]', '[1,"2","undo"]',
    '[1,2,"insert",0,4294967296,0]',
    '[1,2,"grow",0,NaN,0,null,0]', '[1,2,"grow",0,1e99,0,null,0]', '[1,2,"grow",0,0,0,7,0]', '[1,2,["undo"]]',
    f'[1,2,"grow",0,0,0,"{"x" * 201}",0]', "[" * 60000, "9" * 5000, f'[1,2,"grow",0,0,{"9" * 400},null,0]',
    '[1,2,"open"]', '[1,2,"open",5]', '[1,2,"files",5]',
    '[1,2,"point",1]', '[1,2,"point",1,Infinity]', '[1,2,"name",5]', '[1,2,"name"]',
    '[1,2,"prices"]', '[1,2,"prices",5]', '[1,2,"prices",["5"]]', '[1,2,"prices",[true]]', '[1,2,"prices",[[5]]]',
)


class Forms(unittest.TestCase):
    def test_messages(self):
        message = read_message('[7,2,"grow",0,-1.5,2,"a",3]')
        self.assertEqual((message.id, message.seen, message.word, message.values), (7, 2, "grow", (0, -1.5, 2, "a", 3)))
        self.assertEqual(read_message('[0,0,"undo"]').values, ())
        for text in BAD:
            with self.subTest(text[:40]), self.assertRaises(BadMessageError):
                read_message(text)
        for letter in "xé":
            with self.assertRaisesRegex(BadMessageError, f"more than {LONGEST} bytes"):
                read_message(letter * (LONGEST // len(letter.encode()) + 1))

    def test_pace(self):
        pace = Pace()
        for place in range(300):
            pace.judge(place / 100)
        for _ in range(100):
            pace.judge(2.995)
        with self.assertRaisesRegex(BadMessageError, "more than 200 messages"):
            pace.judge(2.995)

    def test_without_aiohttp(self):
        with mock.patch.dict(sys.modules, {"aiohttp": None, "aiohttp.web": None}):
            with self.assertRaisesRegex(ModuleMissing, "pip install aiohttp, the extra 'edit' of fezdrok"):
                aiohttp_web()


@needs_program
class Boards(unittest.TestCase):
    def board(self, result=None):
        board = Board(result or k5_without_an_edge())
        self.addCleanup(board.close)
        return board

    def test_undo_and_redo(self):
        board = self.board()
        start = board.session.snapshot()
        vertex = start.vertex_of
        change = board.call(1, "insert", (vertex[0], vertex[1], 0))
        self.assertEqual((change.number, change.caller, change.words), (1, 1, "0 – 1 is new: 1 crossing, price 1"))
        with self.assertRaisesRegex(NotDoneError, "two different ends"):
            board.call(2, "insert", (0, 0, 0))
        board.call(2, "grow", (vertex[0], 0, "new", 0))
        with self.assertRaisesRegex(NotDoneError, "would part the picture"):
            board.call(3, "delete", (board.session.snapshot().edge_id(0, "new"),))
        end = board.session.snapshot()
        self.assertEqual([entry.caller for entry in board.session.report().history], [1, 2, 2, 3])
        for _ in range(2):
            board.call(1, "undo", ())
            board.call(1, "undo", ())
            self.assertEqual(board.session.snapshot(), start)
            self.assertEqual(board.session.report().history, ())
            with self.assertRaisesRegex(NotDoneError, "nothing to take back"):
                board.call(1, "undo", ())
            board.call(1, "redo", ())
            board.call(1, "redo", ())
            self.assertEqual(board.session.snapshot(), end)
        with self.assertRaisesRegex(NotDoneError, "nothing to do again"):
            board.call(1, "redo", ())
        board.call(1, "undo", ())
        with self.assertRaisesRegex(NotDoneError, "has changed meanwhile"):
            board.judge(board.number - 1)
        board.judge(board.number)
        board.call(1, "delete", (0,))
        with self.assertRaises(NotDoneError):
            board.call(1, "redo", ())

    def test_what_is_opened_is_taken_back(self):
        board = self.board()
        start, vertex = board.session.snapshot(), board.session.snapshot().vertex_of
        board.call(1, "insert", (vertex[0], vertex[1], 0))
        before = board.session.snapshot()
        board.call(1, "remove", (vertex[4],))
        after = board.session.snapshot()
        after.verify(nx.complete_graph(4))
        board.call(1, "undo", ())
        self.assertEqual(board.session.snapshot(), before)
        board.call(1, "undo", ())
        self.assertEqual(board.session.snapshot(), start)
        board.call(1, "redo", ())
        board.call(1, "redo", ())
        self.assertEqual(board.session.snapshot(), after)
        board.call(1, "undo", ())
        board.call(1, "delete", (0,))
        with self.assertRaises(NotDoneError):
            board.call(1, "redo", ())
        for _ in range(12):
            board.open(1, "tidy", before, "")
        for _ in range(8):
            board.call(1, "undo", ())
        with self.assertRaises(NotDoneError):
            board.call(1, "undo", ())

    def test_nodes_that_hold_the_picture_together(self):
        board = self.board(planarize([("a", "b"), ("b", "c")]))
        vertex = board.session.snapshot().vertex_of
        with self.assertRaisesRegex(NotDoneError, "would part the picture"):
            board.call(1, "remove", (vertex["b"],))
        board.call(1, "remove", (vertex["a"],))
        self.assertEqual(set(board.session.snapshot().graph), {"b", "c"})
        with self.assertRaises(NotDoneError):
            board.call(1, "remove", (0,))
        with self.assertRaisesRegex(NotDoneError, "no such node"):
            board.call(1, "remove", (7,))

    def test_names(self):
        board = self.board()
        self.assertEqual(board.free_name(None), "5")
        self.assertEqual(board.free_name("<b>"), "<b>")
        with self.assertRaisesRegex(NotDoneError, "3 is a node already"):
            board.free_name("3")


@needs_program
class Views(unittest.TestCase):
    def test_routes_are_those_of_insertions(self):
        chance = random.Random(3)
        result = planarize(nx.gnm_random_graph(12, 26, seed=5).subgraph(range(12)), effort="quick")
        board = Board(result)
        self.addCleanup(board.close)
        view = view_of(0, 1, board.session.snapshot(), None)
        lengths = set()
        for number in range(12):
            now = board.session.snapshot()
            u, v = chance.choice([
                (u, v) for u in range(12) for v in range(12)
                if u != v and not now.graph.has_edge(now.node_of[u], now.node_of[v])
            ])
            route = board.session.route(u, v)
            self.assertIsInstance(route, Route)
            shown = view.route(u, v, route)
            self.assertEqual(len(shown["crossings"]), len(route.crossed))
            due = with_route(now.picture, u, v, route)
            board.call(1, "insert", (u, v, 0))
            after = board.session.snapshot()
            self.assertEqual(after.picture, due)
            lengths.add(len(route.crossed))
            view = view_of(number + 1, number + 2, after, view)
            self.assertEqual(view.drawing.verify(), [])
            self.assertIsNone(settled_view(number + 2, view, lambda: True))
            view = settled_view(number + 2, view, lambda: False)
            self.assertEqual((view.drawing.verify(), view.chain), ([], 1))
        self.assertGreater(len(lengths), 2)
        self.assertIsInstance(board.session.route(0, 0), Refused)

    def test_what_a_change_touches(self):
        """Lines are laid and judged anew, and sent, only of edges that are new, or crossed otherwise than before; what
        is drawn then is true as a whole, and so is what settles."""
        board = Board(planarize(short_edges(150), effort="quick"))
        self.addCleanup(board.close)
        chance, view = random.Random(3), view_of(0, 1, board.session.snapshot(), None)
        words = ("insert", "insert", "grow", "delete", "undo", "insert", "undo", "redo", "grow", "insert", "delete")
        for serial, word in enumerate(words, 2):
            before, result = view, view.drawing.result
            u, v = chance.choice(sorted(nx.non_edges(result.graph), key=str))
            values = {
                "insert": (result.vertex_of[u], result.vertex_of[v], 0), "grow": (result.vertex_of[u], 0, -serial, 0),
                "delete": (max(result.edge_id(*edge) for edge in next(nx.chain_decomposition(result.graph))),),
            }.get(word, ())
            view = view_of(board.call(1, word, values).number, serial, board.session.snapshot(), before)
            self.assertEqual((view.drawing.verify(), view.chain), ([], 1))
            then = set(before.drawing.result.picture.edges)
            touched = {row.id for row in view.drawing.result.picture.edges if row not in then}
            lines = {id(it) for it in before.drawing.scene.strokes}
            laid = [it for it in view.drawing.scene.strokes if id(it) not in lines]
            self.assertEqual({it.edge_id for it in laid}, touched)
            self.assertEqual(view.judge.judged, sum(len(it.points) - 1 for it in laid))
            self.assertLess(view.judge.judged, len(view.judge.lines) / 3)
            sent = json.loads(view.text(before))["drawing"]
            self.assertLessEqual({row["id"] for row in sent["edges"]}, touched)
            self.assertLess(len(sent["nodes"]), 10)
            if serial % 4 == 0:
                view = settled_view(serial, view, lambda: False)
                self.assertEqual((view.drawing.verify(), view.judge.judged), ([], len(view.judge.lines)))

    def test_what_settles_gives_way(self):
        """At each of its steps: what moves the points, makes the nodes, and judges; then nothing is shown."""
        board = Board(planarize(short_edges(60), effort="quick"))
        self.addCleanup(board.close)
        before = board.session.snapshot()
        u, v = (before.vertex_of[it] for it in min(nx.non_edges(before.graph), key=str))
        view, asked = view_of(0, 1, before, None), []
        board.call(1, "insert", (u, v, 0))
        view = view_of(1, 2, board.session.snapshot(), view)

        def is_over():
            step = sys._getframe(2).f_code
            asked.append(Path(step.co_filename).stem)
            return len(asked) == last

        last = 0
        self.assertIsNotNone(settled_view(3, view, is_over))
        places, lines = len(view.drawing.result.node_of), len(view.judge.drawn)
        for name, least in (
            ("wider_angles", places), ("straight_scenes", 2 * places), ("pages", lines), ("verification", 2 * lines + places),
            ("views", lines),
        ):
            self.assertGreaterEqual(asked.count(name), least, name)
        for last in range(1, len(asked), len(asked) // 9):
            asked.clear()
            self.assertIsNone(settled_view(3, view, is_over))
            self.assertEqual(len(asked), last)

    def test_corners(self):
        result = k5_without_an_edge()
        view = view_of(0, 1, result, None)
        rows = {row["id"]: row["d"] for row in json.loads(view.text(None))["drawing"]["edges"]}
        for vertex, around in enumerate(result.picture.rotations):
            for edge_id in around:
                points = [tuple(map(float, it.split())) for it in rows[edge_id][1:].split("L")]
                (x, y), (u, v) = points[:2] if result.picture.edge(edge_id).a == vertex else points[:-3:-1]
                across, down = u - x, v - y
                before = (across + 0.01 * down, down - 0.01 * across)  # a little further anticlockwise
                self.assertEqual(view.edge_after(vertex, *before), edge_id)

    def test_what_stays(self):
        result = planarize(nx.wheel_graph(8))
        view = view_of(0, 1, result, None)
        with result.session() as session:
            session.insert_edge(1, 4)
            after = view_of(1, 2, session.result(), view)
        self.assertEqual((after.unit, after.chain), (view.unit, 1))
        first = shown(json.loads(view.text(None))["drawing"])
        drawings = first, shown(json.loads(after.text(view))["drawing"], first)
        self.assertEqual(drawings[1], shown(json.loads(after.text(None))["drawing"]))
        places = [
            {row["name"]: [(it - at) * its["scale"] for it, at in zip((row["x"], row["y"]), its["origin"])]
             for row in its["nodes"]}
            for its in drawings
        ]
        for name, (x, y) in places[0].items():
            self.assertAlmostEqual(x, places[1][name][0], delta=0.2)
            self.assertAlmostEqual(y, places[1][name][1], delta=0.2)


@needs_server
class Servers(Served):
    async def test_strangers(self):
        await self.serve(k5_without_an_edge())
        address, port = self.server.address, self.server.port
        async with self.web.get(address) as response:
            self.assertEqual(response.status, 200)
            self.assertIn("default-src 'none'", response.headers["Content-Security-Policy"])
            self.assertEqual(response.headers["Referrer-Policy"], "no-referrer")
        refused = [
            (f"{self.origin}/", {}), (f"{self.origin}/{'x' * 32}/", {}), (f"{self.origin}/x/report.json", {}),
            (address, {"Host": "evil.example"}), (address, {"Host": f"evil.example:{port}"}),
            (address, {"Host": "127.0.0.1"}),
            (address, {"Origin": "http://evil.example"}), (address, {"Origin": "null"}),
            (f"{address}report.json", {"Origin": f"http://127.0.0.1:{port + 1}"}), (f"{address}live", {}),
        ]
        for place, headers in refused:
            async with self.web.get(place, headers=headers) as response:
                self.assertEqual(response.status, 403, (place, headers))
        async with self.web.get(f"{address}none") as response:
            self.assertEqual(response.status, 404)
        import aiohttp

        for place, words in (
            ("x/live", {"origin": self.origin}), (f"{self.server.token}/live", {"origin": "http://evil.example"}),
            (f"{self.server.token}/live", {}),
            (f"{self.server.token}/live", {"origin": self.origin, "headers": {"Host": "evil.example"}}),
        ):
            with self.assertRaises(aiohttp.WSServerHandshakeError) as raised:
                await self.web.ws_connect(f"{self.origin}/{place}", **words)
            self.assertEqual(raised.exception.status, 403)
        self.assertEqual(len(self.editor.tabs), 0)

    async def test_bad_messages(self):
        await self.serve(k5_without_an_edge())
        good = await self.talk()
        chance = random.Random(1)
        for place in range(200):
            letters = "".join(chance.choices('[]{},"1unsert', k=chance.randrange(40)))
            text = BAD[place % len(BAD)] if place < 100 else letters
            talk = await self.talk()
            await talk.socket.send_str(text)
            while not (await asyncio.wait_for(talk.socket.receive(), PATIENCE)).type.name.startswith("CLOS"):
                pass
            self.assertIn(talk.socket.close_code, (1007, 1008), text[:60])
        talk = await self.talk()
        await talk.socket.send_bytes(b"[]")
        while not talk.socket.closed:
            await asyncio.wait_for(talk.socket.receive(), PATIENCE)
        self.assertEqual(talk.socket.close_code, 1003)
        self.assertEqual((await good.ask("insert", 0, 0, 0))["refused"], "an edge has two different ends")
        self.assertEqual(good.changes, [])

    async def test_long_and_many_messages(self):
        await self.serve(k5_without_an_edge())
        for texts, code, reason in (
            ([f'[1,0,"undo"]{" " * LONGEST}'], 1009, "a message has more than 65536 bytes"),
            ([" " * (17 * LONGEST)], 1009, None),
            (['[1,0,"stop"]'] * (MOST + 1), 1008, "there are more than 200 messages in a second"),
        ):
            talk = await self.talk()
            for text in texts:
                await talk.socket.send_str(text)
            while True:
                message = await asyncio.wait_for(talk.socket.receive(), PATIENCE)
                if message.type.name.startswith("CLOS"):
                    break
            self.assertEqual(message.data, code)
            if reason is not None:
                self.assertEqual(message.extra, reason)

    async def test_two_tabs(self):
        """Both make 500 calls; the pictures are the same, and the report replays with each caller's calls in order."""
        for name, seconds in (("REST", 0.2), ("SETTLE", 1000)):
            patch = mock.patch.object(editors, name, seconds)
            patch.start()
            self.addCleanup(patch.stop)
        await self.serve(planarize(nx.complete_graph(5)))
        talks = [await self.talk(), await self.talk()]
        made = await asyncio.gather(*(self.calls(talk, seed) for seed, talk in enumerate(talks)))
        self.assertEqual([talk.hello["tab"] for talk in talks], [1, 2])
        await asyncio.gather(*(talk.drawn(self.editor.number) for talk in talks))
        self.assertEqual(talks[0].drawing, talks[1].drawing)
        async with self.web.get(f"{self.server.address}report.json") as response:
            report = Report.from_text(await response.text())
        self.assertEqual(Planarizer().replay(report), 1000)
        for caller, calls in enumerate(made, 1):
            self.assertEqual([entry.call.to_json()[0] for entry in report.history if entry.caller == caller], calls)
        changes = [talk.changes for talk in talks]
        self.assertEqual(changes[0], changes[1])
        self.assertEqual([change["number"] for change in changes[0]], [*range(1, self.editor.number + 1)])
        drawn = talks[0].drawing
        self.assertEqual(drawn["count"], len(report.picture.crossings))
        self.assertEqual({row["id"] for row in drawn["edges"]}, {row.id for row in report.picture.edges})

    async def calls(self, talk, seed):
        """Makes 500 calls, and gives the words of those that came to the program."""
        chance = random.Random(seed)
        made = []
        await talk.drawn(0)
        while len(made) < 500:
            ids = [row["id"] for row in talk.drawing["edges"]]
            word = chance.choices(("insert", "delete", "grow"), (5, 5, 0.1))[0]
            u, v = chance.sample(range(5), 2)
            values = {"insert": (u, v, 0), "delete": (chance.choice(ids),), "grow": (u, 1, 1, None, 0)}
            answer = await talk.ask(word, *values[word])
            if not answer.get("refused", "").endswith(("no such edge", "is no multigraph")):
                made.append(word)
            await asyncio.sleep(0.005)
        return made

    async def test_a_tab_that_was_away(self):
        await self.serve(planarize(nx.MultiGraph(nx.complete_graph(4))))
        first, second = await self.talk(), await self.talk()
        for _ in range(3):
            await first.ask("insert", 0, 1, 0)
        second.socket._response.close()  # as a cut line
        for _ in range(4):
            await first.ask("insert", 0, 2, 0)
        await first.left_with([1])
        again = await self.talk("?tab=2&since=3")
        self.assertEqual((again.hello["tab"], again.hello["number"]), (2, 7))
        self.assertEqual(again.hello["missed"], first.changes[3:])
        self.assertEqual((await self.talk("?tab=2&since=7")).hello["missed"], [])
        for since in (8, 999999):
            self.assertIsNone((await self.talk(f"?since={since}")).hello["missed"])
        self.editor._changes.popleft()
        whole = await self.talk("?since=0")
        self.assertIsNone(whole.hello["missed"])
        self.assertEqual((await whole.drawn(7))["number"], 7)
        while len(self.editor.tabs) < 15:
            await self.talk()
        socket = await self.web.ws_connect(f"{self.server.address}live", origin=self.origin)
        message = await asyncio.wait_for(socket.receive(), PATIENCE)
        self.assertEqual((message.data, message.extra), (1013, "there are too many tabs"))

    async def test_a_slow_tab(self):
        """One that does not read holds nobody up, and is cut where too much waits for it."""
        await self.serve(planarize(nx.MultiGraph(nx.complete_graph(4))))
        quick, slow = await self.talk(), await self.talk()
        slow.socket._reader._protocol.pause_reading()
        with mock.patch.object(tabs, "MOST_WAITING", 20):
            for place in range(50):
                self.editor.tabs.tell(json.dumps({"told": "x" * 300000}))
                if place % 10 == 0:
                    self.assertIn("number", await quick.ask("insert", 0, 1, 0))
                await asyncio.sleep(0)
            await quick.left_with([1])

    async def test_a_program_that_ends(self):
        """It is begun again from the last drawing."""
        await self.serve(k5_without_an_edge())
        talk = await self.talk()
        before = await talk.drawn(0)
        os.kill(self.editor._board.session._session.process_id, signal.SIGKILL)
        self.assertIn("the program failed", (await talk.ask("delete", 0))["refused"])
        self.assertEqual([change["word"] for change in talk.changes], ["begin"])
        self.assertEqual((await talk.drawn(1))["vertices"], before["vertices"])
        self.assertIn("number", await talk.ask("delete", 0))
        answer = await talk.ask("delete", 1, seen=0)
        self.assertEqual(answer["refused"], "the picture has changed meanwhile: look again")

    async def test_a_drawing_that_fails(self):
        """It is made anew, without the one before."""

        def failing(number, serial, result, before):
            return next(iter(())) if before else view_of(number, serial, result, None)

        await self.serve(k5_without_an_edge())
        talk = await self.talk()
        await talk.drawn(0)
        with mock.patch.object(editors, "view_of", failing):
            await talk.ask("delete", 0)
            await talk.drawn(1)

    async def test_a_call_while_a_drawing_settles(self):
        """It is answered and drawn before the settling would end, which then shows nothing."""
        begun, ended = [], []

        def slow(before):
            begun.append(before)
            late = time.monotonic() + PATIENCE
            try:
                while time.monotonic() < late:
                    go_on()
            finally:
                ended.append(time.monotonic() >= late)
            return drawing_settled(before)

        await self.serve(k5_without_an_edge())
        talk = await self.talk()
        await talk.drawn(0)
        with mock.patch.object(views, "drawing_settled", slow), mock.patch.object(editors, "SETTLE", 0):
            for number, call in enumerate((("delete", 0), ("undo",), ("route", 0, 1, 0), ("delete", 0)), 1):
                count = len(begun)
                answer = await talk.ask(*call)
                if call[0] == "route":  # which changes nothing
                    self.assertEqual((answer["price"], len(ended), len(begun)), (1, number - 2, number - 1))
                    continue
                self.assertEqual((await talk.drawn(answer["number"]))["number"], answer["number"])
                while len(begun) == count:
                    await asyncio.sleep(0.01)
                self.assertEqual(ended, [False] * count)

    async def test_a_search_that_is_ended(self):
        """By a word, and by a change."""

        def endless(*words, progress, **options):
            while True:
                progress(Progress("shakes", 1, 1, 3, 2, 0.5))
                time.sleep(0.01)

        await self.serve(k5_without_an_edge())
        talk = await self.talk()
        with mock.patch("fezdrok.edit.tidying.reinsert", endless):
            for word in ("stop", "undo", "delete"):
                self.assertEqual(await talk.ask("tidy"), {})
                self.assertEqual((await talk.ask("tidy"))["refused"], "Tidy is under way")
                await talk.until(lambda message: message.get("tidy") == "Tidy: 2 crossings, 0.5 s")
                await talk.ask(word, *([0] if word == "delete" else []))
                if word == "undo":  # there is nothing to take back, so it goes on
                    await talk.until(lambda message: message.get("tidy"))
                    await talk.ask("stop")
                told = await talk.until(lambda message: "told" in message)
                self.assertEqual(told, {"tidy": None, "told": "Tidy was ended: the picture is as it was"})
        self.assertEqual([change["word"] for change in talk.changes], ["delete"])

    async def test_files_and_tidying(self):
        graph = nx.complete_graph(7)
        name = "</script><script>alert(1)</script>"
        nx.relabel_nodes(graph, {0: name}, copy=False)
        await self.serve(from_positions(graph, on_a_curve(graph)))
        talk = await self.talk()
        before = await talk.drawn(0)
        self.assertGreater(before["count"], 9)
        self.assertIn(name, [row["name"] for row in before["nodes"]])
        self.assertEqual(await talk.ask("tidy"), {})
        await talk.until(lambda message: "told" in message)
        self.assertEqual((await talk.drawn(1))["count"], 9)
        await talk.ask("undo")
        after = await talk.drawn(2)
        self.assertEqual((after["count"], after["edges"]), (before["count"], before["edges"]))
        self.assertEqual(self.editor.saved, 0)
        async with self.web.get(f"{self.server.address}planarization.json") as response:
            self.assertEqual(response.headers["Content-Disposition"], 'attachment; filename="graph.planar.json"')
            text = await response.text()
        self.assertEqual(self.editor.saved, 2)
        with tempfile.TemporaryDirectory() as folder:
            (Path(folder) / "g.planar.json").write_text(text)
            result = load(Path(folder) / "g.planar.json")
        result.verify(graph)
        async with self.web.get(f"{self.server.address}drawing.svg") as response:
            self.assertNotIn("<script", await response.text())


@needs_server
class Ends(unittest.TestCase):
    def setUp(self):
        folder = tempfile.TemporaryDirectory()
        self.addCleanup(folder.cleanup)
        self.folder = Path(folder.name)

    def begin(self, *words):
        """A process of the command."""
        process = subprocess.Popen(
            [sys.executable, "-m", "fezdrok", "edit", *words], cwd=self.folder, stdout=subprocess.PIPE, text=True,
            stderr=subprocess.PIPE, env={**os.environ, "PYTHONPATH": os.fspath(ROOT / "python")},
        )
        self.addCleanup(process.stdout.close)
        self.addCleanup(process.stderr.close)
        self.addCleanup(process.wait)
        self.addCleanup(process.kill)
        return process

    async def asked(self, address, text):
        """The answer to a message of another process."""
        import aiohttp

        async with aiohttp.ClientSession() as web:
            async with web.ws_connect(f"{address}live", origin=address.rsplit("/", 2)[0]) as socket:
                await socket.send_str(text)
                while "answer" not in (message := json.loads(await socket.receive_str())):
                    pass
        return message["answer"]

    def test_what_is_not_saved_is_kept(self):
        (self.folder / "graphs").mkdir()
        (self.folder / "graphs" / "g.edges").write_text("a b\nb c\nc d\n")
        begun = [self.begin("graphs/g.edges", "--no-browser", "--record", f"{place}.json") for place in range(2)]
        ends = zip(begun, (signal.SIGTERM, signal.SIGINT), ("g.edited", "g.edited-2"))
        for process, number, name in ends:
            address = process.stdout.readline().split()[0]
            self.assertIn("a – c is new", asyncio.run(self.asked(address, '[1,0,"insert",0,2,0]'))["words"])
            process.send_signal(number)
            told, failed = process.communicate(timeout=PATIENCE)
            self.assertEqual((process.returncode, failed), (0, ""))
            self.assertEqual(told, f"what was not saved is in graphs/{name}.planar.json\n")
            load(self.folder / "graphs" / f"{name}.planar.json").verify(nx.Graph(["ab", "bc", "cd", "ac"]))
        report = Report.from_text((self.folder / "1.json").read_text())
        self.assertEqual((Planarizer().replay(report), report.history[0].caller), (1, 1))

    def test_files_where_it_was_started(self):
        (self.folder / "graphs").mkdir()
        for name in ("g.edges", "graphs/h.edges"):
            (self.folder / name).write_text("a b\n")
        process = self.begin("graphs/h.edges", "--no-browser")
        address = process.stdout.readline().split()[0]
        self.assertEqual(asyncio.run(self.asked(address, '[1,0,"files"]')), {"files": ["g.edges"]})
        answer = asyncio.run(self.asked(address, '[1,0,"open","g.edges"]'))
        self.assertEqual(answer, {"number": 1, "words": "g.edges was opened"})
        process.send_signal(signal.SIGTERM)
        told = "what was not saved is in graphs/h.edited.planar.json\n"
        self.assertEqual(process.communicate(timeout=PATIENCE), (told, ""))

    def test_what_cannot_be_opened(self):
        (self.folder / "g.edges").write_text("a b\nc d\n")
        file = os.fspath(self.folder / "g.edges")
        for words, status, due in (
            ([file], 1, "a graph that is edited is connected, and has an edge"),
            ([file, "--record", file], 1, "written over it"),
            (["none.edges"], 1, "No such file or directory"),
            (["--port", "99999"], 2, "invalid port value: '99999'"),
        ):
            told = io.StringIO()
            try:
                with redirect_stderr(told):
                    found = main(["edit", "--no-browser", *words])
            except SystemExit as refused:
                found = refused.code
            self.assertEqual(found, status)
            self.assertIn(due, told.getvalue())


if __name__ == "__main__":
    unittest.main()

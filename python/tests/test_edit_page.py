"""The page of the editor, in a browser where there is one."""

import asyncio
import tempfile
import unittest
from pathlib import Path
from unittest import mock

import networkx as nx

from fezdrok import Planarizer, Report, planarize
from fezdrok.command.editing import planarization_in
from fezdrok.edit import editors
from fezdrok.edit.folders import Folder

from .edit_support import Browser, Served, needs_browser, needs_server
from .test_large_drawings import short_edges

NAME = "<script>window.alerted = true</script>"


#: How many calls each of two browsers makes, and how many seconds both may take.
CALLS, SECONDS = 500, 600
#: Notes in `answers` what the page asks and whether that was refused, and makes calls by clicks and keys.
CALLER = """
window.answers = [];
const send = WebSocket.prototype.send;
WebSocket.prototype.send = function (text) {
  const [id, , ...call] = JSON.parse(text);
  this.addEventListener("message", function heard(event) {
    const message = JSON.parse(event.data);
    if (message.id !== id) return;
    this.removeEventListener("message", heard);
    answers.push([call, message.answer.refused ?? ""]);
  });
  send.call(this, text);
};
const click = shown => shown.dispatchEvent(new MouseEvent("click", {bubbles: true}));
const press = key => document.body.dispatchEvent(new KeyboardEvent("keydown", {key, bubbles: true}));
const any = mark => {
  const all = document.querySelectorAll(mark);
  return all[Math.floor(Math.random() * all.length)];
};
const answered = async before => {
  while (answers.length === before) await new Promise(done => setTimeout(done, 6));
};
const isOfProgram = ([, refused]) => !/no such edge$|is no multigraph$/.test(refused);
window.came = () => answers.filter(isOfProgram).map(([call]) => call);
window.makeCalls = async count => {
  while (came().length < count) {
    const before = answers.length, ends = [any(".node rect"), any(".node rect")];
    press("Escape");
    if (Math.random() < .5) { click(any(".edge .wide")); press("Delete"); }
    else if (ends[0] !== ends[1]) { click(ends[0]); click(ends[1]); }
    else continue;
    await answered(before);
  }
  window.isDone = true;
};
"""


#: Counts which elements of the drawing were changed, put in or taken out since it was asked last.
WATCH = """
window.isTouched = new Set();
const note = records => records.forEach(it => [it.target, ...it.addedNodes, ...it.removedNodes].forEach(one => isTouched.add(one)));
const watcher = new MutationObserver(note);
watcher.observe(document.getElementById("picture"), {subtree: true, childList: true, attributes: true});
window.touched = () => { note(watcher.takeRecords()); const count = isTouched.size; isTouched.clear(); return count; };
"""


def at(vertex):
    """The mark of a node on the page."""
    return f"[data-vertex='{vertex}'] rect"


@needs_server
@needs_browser
class Pages(Served):
    async def counted(self, *marks):
        """How many elements with each of these marks there are."""
        return [await self.browser.value(f"document.querySelectorAll('{mark}').length") for mark in marks]

    async def shows(self, number, crossings, edges, nodes=6, cost=None):
        """Waits until the page shows the picture after a change, and judges how large it is."""
        await self.browser.until(f"document.documentElement?.dataset.number === '{number}'")
        self.assertEqual(await self.counted(".crossing", ".edge", ".node"), [crossings, edges, nodes])
        words = await self.browser.value("document.getElementById('counts').textContent")
        self.assertEqual(words, f"{nodes} nodes, {edges} edges, {crossings} crossing{'' if crossings == 1 else 's'}, "
                                f"cost {crossings if cost is None else cost}")

    async def take_out(self, edge):
        """Chooses an edge, and takes it out."""
        await self.browser.value(f"document.querySelector('[data-edge=\"{edge}\"] .wide')"
                                 ".dispatchEvent(new MouseEvent('click', {bubbles: true}))")
        await self.browser.press("Delete")

    async def pointers_are_shown(self, other):
        """Each tab sees the name of the other one where its pointer is, also after the picture was moved."""
        browser, shown = self.browser, "document.querySelector('.pointer')"
        place = await browser.middle(at(0))
        await browser.value("document.getElementById('own').value = 'Ann'")
        await browser.value("document.getElementById('own').dispatchEvent(new Event('change'))")
        await browser.move(*place)
        pointer = (await other.until(lambda message: "pointer" in message))["pointer"]
        self.assertEqual(other.names[pointer["tab"]], "Ann")
        await other.ask("name", "<i>Bob</i>")
        await other.ask("point", pointer["x"], pointer["y"])
        await browser.until(f"{shown}?.textContent === '<i>Bob</i>'")
        for key in "+-0":
            await browser.press(key)
            x, y = await browser.middle(at(0))
            left, top = await browser.value(f"[{shown}.getBoundingClientRect().x, {shown}.getBoundingClientRect().y]")
            self.assertLess(abs(x - left) + abs(y - top), 1.5)

    async def prices_are_set(self):
        """Sets other prices in the table, takes them back, and sees what is refused."""
        browser = self.browser
        inputs = "[...document.querySelectorAll('#rows input')]"
        values = f"JSON.stringify({inputs}.filter(it => it.type === 'number').map(it => it.value))"
        await browser.press("k")
        self.assertEqual(await browser.value("document.querySelector('#rows tr').cells[4].textContent"), "12")
        await browser.value("document.getElementById('another').click()")
        await browser.value(f"{inputs}[1].value = '7'")
        button = await browser.middle("#table button:not([type])")
        await browser.click(*button)
        await self.shows(7, 1, 12, 7, 49)
        self.assertEqual(await browser.value(values), '["7","1"]')
        await browser.value(f"{inputs}[4].value = ''")
        await browser.click(*button)
        await browser.until("document.getElementById('beside').textContent"
                            " === 'kind 1: a price is a whole number from 1 to 1000'")
        await browser.value(f"{inputs}[5].click()")
        await browser.click(*button)
        await self.shows(8, 1, 12, 7, 49)
        checked = await browser.value(f"{inputs}.map(it => it.checked)")
        self.assertEqual(checked, [True, False, False, False, False, True])
        for number, cost in ((9, 49), (10, 1)):
            await browser.press("z", control=True)
            await self.shows(number, 1, 12, 7, cost)
        self.assertEqual(await browser.value(values), '["1"]')
        await browser.press("k")

    async def files_are_opened(self):
        """Opens one in the place of the picture, takes it back, and sees what is said of one at fault."""
        browser, buttons = self.browser, "[...document.querySelectorAll('#files button')]"
        for place, words in enumerate(("<b>.edges", "no.gml")):
            await browser.press("o")
            await browser.until(f"{buttons}[{place}]?.textContent === '{words}'")
            await browser.value(f"{buttons}[{place}].click()")
            await self.shows(11, 0, 3, 3)
        await browser.until("document.getElementById('told').textContent.startsWith('no.gml: it is no gml: ')")
        self.assertTrue(await browser.value("document.getElementById('files').hidden"))
        await browser.press("z", control=True)
        await self.shows(12, 1, 12, 7)

    async def opened(self):
        """Opens K5 without an edge, with a leaf, and gives it as it was planarized."""
        graph = nx.complete_graph(5)
        graph.remove_edge(0, 1)
        graph.add_edge(2, NAME)
        folder = tempfile.TemporaryDirectory()
        self.addCleanup(folder.cleanup)
        (Path(folder.name) / "<b>.edges").write_text("a b\nb c\nc a\n")
        (Path(folder.name) / "no.gml").write_text("no")
        await self.serve(
            planarize(graph), Folder(Path(folder.name), lambda path: planarization_in(str(path), None, None))
        )
        self.browser = Browser(self, self.web)
        await self.browser.begin()
        await self.browser.send("Page.navigate", url=self.server.address)
        await self.shows(0, 0, 10)
        return self.editor._last

    async def an_edge_is_inserted(self, start, u, v):
        """Its route is shown before, as the model has it; it is taken back and done again, and settles."""
        browser = self.browser
        with start.session() as session:
            due = session._session.route(u, v)
        await browser.click(*await browser.middle(at(u)))
        await browser.move(*await browser.middle(at(v)))
        await browser.until("document.documentElement?.dataset.route")
        count = len(due.crossed)
        self.assertEqual(await self.counted(".priced", ".edge.crossed", ".route"), [count, count, 1])
        words = await browser.value("document.getElementById('beside').textContent")
        self.assertEqual(words, f"{count} crossing, price {due.price}")
        await browser.click(*await browser.middle(at(v)))
        await self.shows(1, 1, 11)
        await browser.press("z", control=True)
        await self.shows(2, 0, 10)
        await browser.press("y", control=True)
        await self.shows(3, 1, 11)

    async def refusals_are_told(self, start, u, v):
        """Each in words at the pointer."""
        browser, beside = self.browser, "document.getElementById('beside').textContent"
        await browser.click(*await browser.middle(at(u)))
        await browser.move(*await browser.middle(at(v)))
        await browser.until(f"{beside} === 'these nodes are joined already'")
        await browser.press("Escape")
        await self.take_out(start.edge_id(2, NAME))
        await browser.until(f"{beside} === 'this would part the picture'")

    async def a_node_is_new(self, u):
        """A click beside the nodes makes one, with the name that was typed, whatever that is."""
        browser = self.browser
        await browser.value("document.getElementById('name').value = '<b>new</b>'")
        await browser.click(*await browser.middle(at(u)))
        await browser.click(5, 300)
        await self.shows(5, 0, 11, 7)
        names = await browser.value("[...document.querySelectorAll('.node title')].map(it => it.textContent)")
        self.assertEqual(set(names), {"0", "1", "2", "3", "4", NAME, "<b>new</b>"})

    async def the_page_has_keys(self):
        """For zoom and for dark and light; nothing of it failed."""
        browser, box = self.browser, "document.getElementById('picture').getAttribute('viewBox')"
        seen = await browser.value("[faults, window.alerted === true, document.scripts.length]")
        self.assertEqual(seen, [[], False, 1])
        views = [await browser.value(box)]
        for key in "+0":
            await browser.press(key)
            views.append(await browser.value(box))
        self.assertEqual((views[0] == views[1], views[0] == views[2]), (False, True))
        shades = [await browser.value("document.documentElement.dataset.shade")]
        await browser.press("d")
        shades.append(await browser.value("document.documentElement.dataset.shade"))
        self.assertEqual(sorted(shades), ["dark", "light"])

    async def test_in_a_browser(self):
        start = await self.opened()
        u, v = start.vertex_of[0], start.vertex_of[1]
        await self.an_edge_is_inserted(start, u, v)
        await self.refusals_are_told(start, u, v)
        await self.take_out(start.picture.next_edge)
        await self.shows(4, 0, 10)
        await self.a_node_is_new(u)
        other = await self.talk()
        with mock.patch.object(editors, "SETTLE", 1000):  # pointers stay where they are, and nodes do not
            await other.ask("insert", u, v, 0)
            await self.shows(6, 1, 12, 7)
            await self.browser.until("!document.documentElement.dataset.moving")
            await self.pointers_are_shown(other)
        await self.browser.send("Page.reload")
        await self.browser.until("document.title === 'fezdrok edit: tab 3' || document.title === 'fezdrok edit: tab 1'")
        await self.shows(6, 1, 12, 7)
        await self.prices_are_set()
        await self.files_are_opened()
        await self.the_page_has_keys()

    async def test_what_settles(self):
        """What is chosen stays chosen when the drawing settles, and what moves takes its time."""
        with mock.patch.object(editors, "SETTLE", 0.6):
            start = await self.opened()
            browser, chosen = self.browser, start.picture.edges[0].id
            await browser.value("new MutationObserver(() => { window.moved = document.documentElement.dataset.moving })"
                                ".observe(document.documentElement, {attributes: true}); 0")
            talk = await self.talk()
            await talk.ask("insert", start.vertex_of[0], start.vertex_of[1], 0)
            await self.shows(1, 1, 11)
            await browser.value(f"document.querySelector('[data-edge=\"{chosen}\"] .wide')"
                                ".dispatchEvent(new MouseEvent('click', {bubbles: true}))")
            first = await talk.drawn(1)
            settled = (await talk.until(lambda message: "drawing" in message))["drawing"]
            self.assertEqual((settled["number"], settled["chain"]), (1, first["chain"]))
            self.assertGreater(settled["serial"], first["serial"])
            await asyncio.sleep(0.5)
            self.assertEqual(await self.counted(".edge.picked", ".edge"), [1, 11])
            self.assertEqual(await browser.value("[faults, document.documentElement.dataset.moving, window.moved]"),
                             [[], "", ""])
            paths = await browser.value("[...document.querySelectorAll('.thin')].map(it => it.getAttribute('d'))")
            self.assertEqual(sorted(paths), sorted(row["d"] for row in settled["edges"]))

    async def test_what_a_change_touches(self):
        """A few elements, however many there are, and none is made anew that is there; what is shown then is what a
        page shows that comes later."""
        for name in ("SETTLE", "REST"):
            patch = mock.patch.object(editors, name, 1000 if name == "SETTLE" else 0)
            patch.start()
            self.addCleanup(patch.stop)
        start = planarize(short_edges(60), effort="quick")
        await self.serve(start)
        browsers = [Browser(self, self.web) for _ in range(2)]
        for browser in browsers:
            await browser.begin()
        first, late = browsers
        await first.send("Page.navigate", url=self.server.address)
        await first.until("document.documentElement?.dataset.number === '0'")
        elements = await first.value(f"{WATCH} document.querySelectorAll('svg *').length")
        self.assertGreater(elements, 500)
        talk, edge = await self.talk(), start.picture.next_edge
        with start.session() as session:
            pairs = sorted(nx.non_edges(start.graph), key=str)
            u, v = next(
                (start.vertex_of[u], start.vertex_of[v]) for u, v in pairs
                if len(session._session.route(start.vertex_of[u], start.vertex_of[v]).crossed) == 3
            )
        calls = (("insert", u, v, 0), ("undo",), ("redo",), ("delete", edge), ("grow", u, 1, 1, "new", 0), ("undo",))
        for number, call in enumerate(calls, 1):
            self.assertEqual((await talk.ask(*call))["number"], number)
            await first.until(f"document.documentElement.dataset.number === '{number}' && !document.documentElement.dataset.moving")
            self.assertLess(await first.value("touched()"), 40, call)
        await late.send("Page.navigate", url=self.server.address)
        await late.until("document.documentElement?.dataset.number === '6'")
        shown = [
            await browser.value("[...document.querySelectorAll('g > g > g')].map(it => it.outerHTML)") for browser in browsers
        ]
        self.assertEqual(shown[0], shown[1])
        self.assertEqual(await first.value("faults"), [])

    async def test_two_browsers(self):
        """Each makes so many calls; both show the same picture then, and the report has each one's calls in order."""
        for name, seconds in (("REST", 0.1), ("SETTLE", 1000)):
            patch = mock.patch.object(editors, name, seconds)
            patch.start()
            self.addCleanup(patch.stop)
        await self.serve(planarize(nx.complete_graph(5)))
        browsers = [Browser(self, self.web) for _ in range(2)]
        for browser in browsers:
            await browser.begin()
            await browser.send("Page.addScriptToEvaluateOnNewDocument", source=CALLER)
            await browser.send("Page.navigate", url=self.server.address)
            await browser.until("document.documentElement?.dataset.number === '0'")
        for browser in browsers:
            await browser.value(f"makeCalls({CALLS}); 0")
        late = asyncio.get_running_loop().time() + SECONDS
        for browser in browsers:
            while not await browser.value("window.isDone === true"):
                self.assertLess(asyncio.get_running_loop().time(), late)
                await asyncio.sleep(0.2)
        report = Report.from_text(await self.editor.report_text())
        self.assertEqual(Planarizer().replay(report), len(report.history))
        pictures = []
        for browser in browsers:
            caller = await browser.value("Number(document.title.split(' ').at(-1))")
            made = [entry.call.to_json() for entry in report.history if entry.caller == caller]
            self.assertEqual((made, len(made)), (await browser.value("came()"), CALLS))
            await browser.until(f"document.documentElement.dataset.number === '{self.editor.number}'")
            shown = "[...document.querySelectorAll('svg [d], svg rect, svg text')].map(it => it.outerHTML)"
            places = "[...document.querySelectorAll('.node')].map(it => it.getAttribute('transform'))"
            pictures.append([await browser.value(shown), await browser.value(places)])
            self.assertEqual(await browser.value("faults"), [])
        self.assertEqual(pictures[0], pictures[1])
        counts = [await browser.value("document.getElementById('counts').textContent") for browser in browsers]
        crossings = len(report.picture.crossings)
        self.assertEqual(counts[0], counts[1])
        self.assertIn(f"5 nodes, {len(report.picture.edges)} edges, {crossings} crossing", counts[0])


if __name__ == "__main__":
    unittest.main()

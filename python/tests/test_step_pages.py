"""Pages that step through reports: what is there at each step, lines that are true at each, and the page itself, in a
browser where there is one."""

import html
import json
import os
import re
import shutil
import subprocess
import sys
import tempfile
import unittest
from fractions import Fraction
from pathlib import Path

import networkx as nx

from fezdrok import Fault, Planarizer, Report, Session, planarize, to_html
from fezdrok.drawing.face_routes import route, triangles, turn
from fezdrok.drawing.step_histories import History, history_of
from fezdrok.drawing.step_lines import StepLines, lines_of
from fezdrok.drawing.step_pages import planarization_of_report

from .drawing_support import touch
from .random_reports import random_report
from .support import EXAMPLES, ROOT, needs_program, report_files

CHROMIUM = shutil.which("chromium")
#: Stands at the beginning of the page: it notes what goes wrong.
BEFORE = "<script>window.faults = []; addEventListener('error', event => faults.push(event.message));</script>"
#: Stands at its end: it presses keys, and writes down what is shown at each step.
AFTER = """<script>
const told = [], pressed = key => document.dispatchEvent(new KeyboardEvent("keydown", {key, bubbles: true}));
const seen = mark => [...document.querySelectorAll(mark)].filter(it => getComputedStyle(it).display !== "none").length;
const note = () => told.push({step: Number(document.documentElement.dataset.step), crossings: seen(".crossing"),
  edges: seen(".edge:not(.taken)"), vertices: seen(".node"), words: document.querySelector("header").innerText});
note();
pressed("End"); note();
pressed("Home"); note();
for (let left = Number(document.getElementById("slider").max); left > 0; left -= 1) { pressed("ArrowRight"); note(); }
pressed("ArrowRight"); pressed("ArrowLeft"); note();
document.getElementById("slider").value = 2;
document.getElementById("slider").dispatchEvent(new Event("input")); note();
const shade = document.documentElement.dataset.shade;
pressed("d");
const views = [document.getElementById("picture").getAttribute("viewBox")];
for (const key of ["+", "0"]) { pressed(key); views.push(document.getElementById("picture").getAttribute("viewBox")); }
const pre = document.createElement("pre");
pre.id = "told";
pre.textContent = JSON.stringify({told, faults, views, shades: [shade, document.documentElement.dataset.shade],
  scripts: document.scripts.length, alerted: window.alerted === true});
document.body.append(pre);
</script>"""


def lines_at_once(history: History, drawn: StepLines) -> list:
    """The pairs of straight lines, of edges that are there at once, that have more in common than an end."""
    straight = [
        (*map(tuple, ([*map(Fraction, point)] for point in ends)), edge_id)
        for edge_id, line in drawn.lines.items()
        for ends in zip(line.points, line.points[1:])
    ]
    bad = []
    for place, (p, q, edge_id) in enumerate(straight):
        for r, s, other in straight[:place]:
            lives = (history.edges[edge_id][1], history.edges[other][1])
            if not any(all(life.has(step) for life in lives) for step in (lives[0].born, lives[1].born)):
                continue
            shared = {p, q} & {r, s}
            if len(shared) == 1:
                (a,) = {p, q} - shared
                (b,) = {r, s} - shared
                (c,) = shared
                ahead = (a[0] - c[0]) * (b[0] - c[0]) + (a[1] - c[1]) * (b[1] - c[1])
                if turn(c, a, b) == 0 and ahead > 0:
                    bad.append((edge_id, other))
            elif shared or touch((p, q), (r, s)):
                bad.append((edge_id, other))
    return bad


class Faces(unittest.TestCase):
    def test_triangles(self):
        corners = [(0, 0), (4, 0), (4, 4), (2, 1), (0, 4)]
        found = triangles(corners)
        self.assertEqual(len(found), 3)
        self.assertEqual(sum(turn(*(corners[it] for it in three)) for three in found), 20)
        self.assertTrue(all(turn(*(corners[it] for it in three)) > 0 for three in found))

    def test_ways_through_faces(self):
        square = [(0.0, 0.0), (4.0, 0.0), (4.0, 4.0), (0.0, 4.0)]
        self.assertEqual(route(square, 2), [])
        ((x, y),) = route(square, 1)  # beside the side between them
        self.assertTrue(0 < x < 4 and 0 < y < 4)
        spike = [(0.0, 0.0), (6.0, 0.0), (6.0, 6.0), (3.0, 1.0), (0.0, 6.0)]
        self.assertTrue(all(y < 1 for _, y in route(spike[4:] + spike[:4], 3)))

    def test_ways_round_a_tree(self):
        """The face round a path goes there and back; a way from end to end keeps off the path."""
        path = [(0.0, 0.0), (1.0, 0.5), (2.0, 0.0), (1.0, 0.5)]
        bends = route(path, 2)
        way = [path[2], *bends, path[0]]
        for first in zip(way, way[1:]):
            for second in zip(path, path[1:]):
                self.assertTrue(set(first) & set(second) or not touch(first, second))


@needs_program
class Steps(unittest.TestCase):
    def judge(self, report: Report) -> tuple[History, StepLines]:
        """At each step there is what the program counts, and lines meet at the crossings of that step alone."""
        history = history_of(report)
        for step, counts in enumerate(history.counts):
            lives = ([*history.vertices], history.crossings.values(), [life for _, life in history.edges.values()])
            there = [sum(life.has(step) for life in some) for some in lives]
            self.assertEqual(there, [counts.vertices, counts.crossings, counts.edges], step)
        drawn = lines_of(history, planarization_of_report(report, (1, 1)))
        self.assertEqual(lines_at_once(history, drawn), [])
        for crossing, row in history.crossing_of.items():
            place = drawn.crossing_place(row)
            for edge_id in (row.crossed, row.newcomer):
                line = drawn.lines[edge_id]
                self.assertEqual(line.points[line.crossings.index(crossing)], place)
        return history, drawn

    def test_examples(self):
        for file in report_files():
            report = Report.from_text(file.read_text())
            if file.name != "each_field.report.json" and {row.kind for row in report.picture.edges} <= {0, 1}:
                with self.subTest(file.name):
                    self.judge(report)

    def test_random_sessions(self):
        for seed in range(12):
            with self.subTest(seed=seed):
                history, drawn = self.judge(random_report(seed, 40 + 5 * seed))
                self.assertEqual(set(drawn.lines), set(history.edges))
        self.assertGreater(len(history.before), 20)

    def test_what_stays(self):
        """What is in the last picture lies where it lies in a drawing of it alone."""
        report = random_report(3, 60)
        alone = Report((), report.limits, report.picture, report.prices, report.picture, 1)
        last = planarization_of_report(report, (1, 1))
        drawn, due = lines_of(history_of(report), last), lines_of(history_of(alone), last)
        self.assertEqual(drawn.vertices, due.vertices)
        for edge_id, line in due.lines.items():
            self.assertEqual([it for it in drawn.lines[edge_id].points if it in line.points], line.points)

    def test_a_report_that_is_not_true(self):
        text = (EXAMPLES / "across_the_cheap_side.report.json").read_text()
        with self.assertRaises(Fault):
            to_html(Report.from_text(text.replace('"price":1,', '"price":4,')))
        with self.assertRaisesRegex(ValueError, "there are 2 names, and 5 vertices"):
            to_html(Report.from_text(text), names="ab")


def data_of(page: str) -> str:
    """The data of a page."""
    return re.findall(r'<script type="application/json" id="data">(.*)</script>', page)[0]


@needs_program
class PagesOfSteps(unittest.TestCase):
    def setUp(self):
        folder = tempfile.TemporaryDirectory()
        self.addCleanup(folder.cleanup)
        self.folder = Path(folder.name)

    def test_names_are_harmless(self):
        name = "</script><script>alert('&')</script>"
        with planarize(nx.cycle_graph([name, "b", "\x00c", "图", "e\ud800"])).session() as session:
            session.insert_edge(name, "图")
            page = session.to_html()
        self.assertEqual(page.count("<script"), 2)
        self.assertNotIn("alert", page.replace(data_of(page), ""))
        self.assertNotIn("<", data_of(page))
        rows = json.loads(data_of(page))
        self.assertEqual({row["name"] for row in rows["nodes"]}, {name, "b", "�c", "图", "e�"})
        self.assertIn(f"{name} -- 图", rows["steps"][1]["call"])
        page.encode()
        titled = to_html(random_report(1, 3), title="<b>&")
        self.assertEqual(titled.count("&lt;b&gt;&amp;"), 2)

    def test_sessions(self):
        with Session() as session:
            session.grow(1)
            rows = json.loads(data_of(session.to_html("xyz")))
        self.assertEqual([row["name"] for row in rows["nodes"]], ["x", "y", "z"])
        self.assertEqual([row["kind"] for row in rows["steps"]], ["start", "grown"])
        with planarize(nx.cycle_graph(5)).session() as session:
            session.insert_edge(0, 2)
            session.renumber()
            session.insert_edge(1, 3)
            session.delete_edge(0, 1)
            rows = json.loads(data_of(session.to_html()))
        self.assertEqual([row["kind"] for row in rows["steps"]], ["start", "inserted", "deleted"])

    def test_what_is_said(self):
        planarizer = Planarizer(prices=[2, None])
        for word in ((0, 0), (0, 9), (1, 0)):
            planarizer.insert(*word, kind=1)
        planarizer.delete(7)
        steps = json.loads(data_of(to_html(planarizer.run())))["steps"]
        said = [row["call"] + " " + row["reply"] for row in steps]
        self.assertEqual(said[1], "an edge of kind 1, 0 -- 0. Refused: 2 SameEnds.")
        self.assertEqual(said[2], "an edge of kind 1, 0 -- vertex 9, which is not there. Refused: 1 NoVertex.")
        self.assertEqual(said[3], "an edge of kind 1, 1 -- 0. Edge 1 crosses nothing.")
        self.assertEqual(said[4], "take out edge 7 (edge 7, which is not there). Refused: 4 NoEdge.")

    def command(self, *words: str, **streams):
        environment = {**os.environ, "PYTHONPATH": os.fspath(ROOT / "python")}
        return subprocess.run(
            [sys.executable, "-m", "fezdrok", *words], cwd=self.folder, env=environment, capture_output=True, **streams
        )

    def test_command(self):
        file = EXAMPLES / "across_the_cheap_side.report.json"
        done = self.command("view", os.fspath(file), "-o", "page.html")
        self.assertEqual((done.returncode, done.stderr), (0, b""))
        self.assertEqual(done.stdout.decode(), f"{file}: 5 calls, 1 crossings at the end -> page.html\n")
        page = (self.folder / "page.html").read_text()
        self.assertEqual(len(json.loads(data_of(page))["steps"]), 6)
        self.assertIsNone(re.search(r"(?:src|href)=|url\(|https?://(?!www\.w3\.org/2000/svg)", page))
        done = self.command("view", "-", input=file.read_bytes())
        self.assertEqual((done.returncode, data_of(done.stdout.decode())), (0, data_of(page)))
        (self.folder / "bad.json").write_text("{}")
        done = self.command("view", os.fspath(file), "bad.json", "-o", "pages")
        self.assertEqual((done.returncode, len(done.stderr.splitlines())), (1, 1))
        self.assertEqual(os.listdir(self.folder / "pages"), ["across_the_cheap_side.report.html"])

    @unittest.skipUnless(CHROMIUM, "left out: chromium is not there")
    def test_in_a_browser(self):
        report = random_report(23, 60)
        names = ["<script>window.alerted = true</script>", "<img src=x onerror='window.alerted = true'>", *range(2, 99)]
        page = to_html(report, names=names).replace("<meta charset", BEFORE + "<meta charset", 1)
        (self.folder / "page.html").write_text(page.replace("</body>", AFTER + "</body>"))
        options = ("--headless", "--no-sandbox", "--disable-gpu", f"--user-data-dir={self.folder / 'profile'}")
        address = f"file://{self.folder / 'page.html'}#3"
        done = subprocess.run([CHROMIUM, *options, "--dump-dom", address], capture_output=True, text=True, timeout=120)
        found = re.search(r'<pre id="told">(.*?)</pre>', done.stdout, re.DOTALL)
        self.assertIsNotNone(found, done.stderr[-2000:])
        seen = json.loads(html.unescape(found[1]))
        self.assertEqual((seen["faults"], seen["alerted"], seen["scripts"]), ([], False, 4))
        told, last = seen["told"], len(report.history)
        steps = [3, last, *range(last + 1), last - 1, 2]
        self.assertEqual([row["step"] for row in told], steps)
        counts = history_of(report).counts
        for row in told:
            due = counts[row["step"]]
            shown = tuple(row[name] for name in ("vertices", "crossings", "edges"))
            self.assertEqual(shown, due[:3])
            self.assertIn(f"{due.crossings} crossings", row["words"])
        self.assertGreater(len({row["crossings"] for row in told}), 4)
        self.assertEqual(sorted(seen["shades"]), ["dark", "light"])
        self.assertEqual(seen["views"][0], seen["views"][2])
        self.assertNotEqual(seen["views"][0], seen["views"][1])


if __name__ == "__main__":
    unittest.main()

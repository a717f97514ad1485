"""The command `fezdrok` over graph files: what each does, what its outputs hold, and how it ends."""

import csv
import io
import json
import os
import signal
import subprocess
import sys
import tempfile
import time
import unittest
from contextlib import nullcontext, redirect_stderr, redirect_stdout
from importlib.util import find_spec
from pathlib import Path
from types import SimpleNamespace
from unittest import mock
from xml.etree import ElementTree

import networkx as nx

from fezdrok import PlanarWarning, __version__, find_program, load, planarize
from fezdrok.__main__ import main
from fezdrok.files.graph_files import FORMATS, GraphFileError, bytes_of, graph_of

from .support import fake, needs_program

ENVIRONMENT = {**os.environ, "PYTHONPATH": str(Path(__file__).resolve().parent.parent)}
#: A graph as yEd writes it, with labels and parallel edges.
YED = """<?xml version="1.0" encoding="UTF-8" standalone="no"?>
<graphml xmlns="http://graphml.graphdrawing.org/xmlns" xmlns:y="http://www.yworks.com/xml/graphml">
  <key attr.name="Description" attr.type="string" for="graph" id="d0"/>
  <key for="node" id="d6" yfiles.type="nodegraphics"/>
  <key for="edge" id="d10" yfiles.type="edgegraphics"/>
  <graph edgedefault="directed" id="G">
    <node id="n0"><data key="d6"><y:ShapeNode><y:Geometry height="30.0" width="30.0" x="1.0" y="2.0"/>
      <y:NodeLabel>first node</y:NodeLabel><y:Shape type="rectangle"/></y:ShapeNode></data></node>
    <node id="n1"><data key="d6"><y:ShapeNode><y:Geometry height="30.0" width="30.0" x="5.0" y="2.0"/>
      <y:NodeLabel>第二</y:NodeLabel><y:Shape type="ellipse"/></y:ShapeNode></data></node>
    <edge id="e0" source="n0" target="n1"><data key="d10"><y:PolyLineEdge/></data></edge>
    <edge id="e1" source="n0" target="n1"><data key="d10"><y:PolyLineEdge/></data></edge>
  </graph>
</graphml>
"""


def of_all_kinds():
    """A graph with what formats may lose."""
    graph = nx.MultiDiGraph(title="图")
    graph.add_node("a b", weight=1, color="红")
    graph.add_node("中文", size=2.5)
    graph.add_node("alone")
    graph.add_edges_from([("a b", "中文", {"price": 2, "text": "x y"}), ("a b", "中文", {"price": 3})])
    graph.add_edges_from([("中文", "c", {"price": 1}), ("c", "a b", {"price": 4, "wall": 1})])
    return graph


class Files(unittest.TestCase):
    """A folder with files, and the command in this process."""

    def setUp(self):
        folder = tempfile.TemporaryDirectory()
        self.addCleanup(folder.cleanup)
        self.addCleanup(os.chdir, os.getcwd())
        os.chdir(folder.name)
        self.folder = Path(folder.name)
        nx.write_graphml(nx.petersen_graph(), "petersen.graphml")
        nx.write_gml(nx.complete_graph(6), "k6.gml")

    def ran(self, *words):
        """The status, and the lines on standard output and on standard error."""
        out, told = io.StringIO(), io.StringIO()
        with redirect_stdout(out), redirect_stderr(told):
            try:
                status = main(list(words))
            except SystemExit as end:
                status = end.code
        return status, out.getvalue().splitlines(), told.getvalue().splitlines()

    def run_it(self, *words, **streams):
        """The command as a process: its status and what it wrote on standard error."""
        done = subprocess.run(
            [sys.executable, "-m", "fezdrok", *words], stderr=subprocess.PIPE, env=ENVIRONMENT, timeout=100, **streams
        )
        return done.returncode, done.stderr.decode().splitlines()


@needs_program
class Commands(Files):
    def test_planarize_and_verify(self):
        status, lines, told = self.ran("planarize", "petersen.graphml", "-o", "p.planar.json", "--seed", "1")
        self.assertEqual((status, told), (0, []))
        self.assertEqual(lines, ["petersen.graphml: 10 nodes, 15 edges, 2 crossings -> p.planar.json"])
        self.assertEqual(load("p.planar.json"), planarize(nx.read_graphml("petersen.graphml"), seed=1))
        due = "p.planar.json: 10 nodes, 15 edges, 2 crossings, whole and true"
        self.assertEqual(self.ran("verify", "p.planar.json", "petersen.graphml"), (0, [due], []))
        status, lines, told = self.ran("verify", "p.planar.json", "k6.gml")
        self.assertEqual((status, lines, len(told)), (1, [], 1))
        value = json.loads(Path("p.planar.json").read_text())
        row = value["parts"][0]["picture"]["crossings"][0]
        row["sign"] = {"ltr": "rtl", "rtl": "ltr"}[row["sign"]]
        Path("p.planar.json").write_text(json.dumps(value))
        status, lines, told = self.ran("verify", "p.planar.json")
        self.assertEqual((status, lines), (1, []))
        self.assertRegex(told[0], "^fezdrok: p.planar.json: the program refuses a picture: 2")

    def test_a_file_that_fails_does_not_stop_the_others(self):
        Path("empty.graphml").write_text("")
        Path("cut.graphml").write_bytes(Path("petersen.graphml").read_bytes()[:700])
        nx.write_graphml(nx.Graph(), "null.graphml")
        names = ["empty.graphml", "petersen.graphml", "cut.graphml", "null.graphml", "nowhere.gml", "k6.gml"]
        status, lines, told = self.ran("planarize", *names, "-o", "new/folder")
        self.assertEqual(status, 1)
        self.assertEqual([line.partition(":")[0] for line in lines], ["petersen.graphml", "k6.gml"])
        self.assertEqual([line.split(": ")[1] for line in told], [names[0], *names[2:5]])
        self.assertEqual(sorted(os.listdir("new/folder")), ["k6.planar.json", "petersen.planar.json"])
        status, lines, told = self.ran("stats", ".", "--csv", "-j", "2")
        self.assertEqual((status, len(lines), len(told)), (1, 3, 3))

    def test_draw(self):
        Path("yed.graphml").write_text(YED)
        attributes = ("--labels", "label", "--color", "shape_type")
        self.assertEqual(self.ran("draw", "yed.graphml", *attributes, "-o", "y.svg")[0], 0)
        drawn = ElementTree.parse("y.svg").getroot()
        self.assertEqual({it.text for it in drawn.iter() if it.tag.endswith("text")}, {"first node", "第二"})
        colors = [it.get("fill") for it in drawn.iter() if it.tag.endswith("use")]
        self.assertEqual((len(set(colors)), len(colors)), (2, 2))
        for style in ("straight", "curved", "orthogonal"):
            self.assertEqual(self.ran("draw", "k6.gml", "petersen.graphml", "-o", style, "--style", style)[0], 0)
        self.assertEqual(sorted(os.listdir("orthogonal")), ["k6.svg", "petersen.svg"])
        self.assertEqual(self.ran("draw", "k6.gml", "--style", "round")[0], 2)
        told = self.ran("draw", "k6.gml", "--labels", "nix", "-o", "x.svg")[2]
        self.assertEqual(told, ["fezdrok: k6.gml: no node has the attribute 'nix'"])
        self.ran("planarize", "k6.gml", "-o", "k6.planar.json")
        self.assertEqual(self.ran("draw", "k6.planar.json", "-o", "again.svg")[0], 0)
        self.assertEqual(Path("again.svg").read_bytes(), Path("curved/k6.svg").read_bytes())

    def test_draw_as_pdf_and_png(self):
        """By the suffix of the output; without the package the words are refused, before anything is planarized."""
        package = SimpleNamespace(
            svg2pdf=lambda bytestring: b"%PDF" + bytestring, svg2png=lambda bytestring, scale: b"%PNG" + bytestring
        )
        with mock.patch.dict("sys.modules", {"cairosvg": package}):
            for name in ("k6.pdf", "k6.PNG"):
                self.assertEqual(self.ran("draw", "k6.gml", "-o", name)[0::2], (0, []))
                self.assertRegex(Path(name).read_bytes(), f"^%{name[3:].upper()}<svg ".encode())
        with mock.patch.dict("sys.modules", {"cairosvg": None}):
            status, lines, told = self.ran("draw", "k6.gml", "-o", "no.pdf")
        self.assertEqual((status, lines, Path("no.pdf").exists()), (2, [], False))
        self.assertRegex(told[0], "want the package cairosvg.*pip install cairosvg, the extra 'pdf' of fezdrok")

    def test_node_size(self):
        for size in ("fixed", "grow"):
            words = ("--style", "orthogonal", "--node-size", size, "-o", f"{size}.svg")
            self.assertEqual(self.ran("draw", "k6.gml", *words)[0::2], (0, []))
        self.ran("draw", "k6.gml", "--style", "orthogonal", "-o", "as_it_is.svg")
        self.assertEqual(Path("fixed.svg").read_bytes(), Path("as_it_is.svg").read_bytes())
        self.assertNotEqual(Path("fixed.svg").read_bytes(), Path("grow.svg").read_bytes())
        self.assertEqual(self.ran("draw", "k6.gml", "--node-size", "none")[0], 2)

    def test_colours_stand_at_their_nodes(self):
        graph = nx.Graph([(letter, other) for letter in "abcd" for other in "wxyz"])
        nx.set_node_attributes(graph, {node: f"#0000{ord(node):02x}" for node in graph}, "color")
        nx.write_gml(graph, "k44.gml")
        for style in ("straight", "curved", "orthogonal"):
            self.assertEqual(self.ran("draw", "k44.gml", "--color", "color", "--style", style, "-o", "k.svg")[0], 0)
            drawn = list(ElementTree.parse("k.svg").getroot().iter())
            texts = [it.text for it in drawn if it.tag.endswith("text")]
            colors = [it.get("fill") for it in drawn if it.tag.endswith("use")]
            self.assertEqual(colors, [f"#0000{ord(text):02x}" for text in texts])

    def test_stats(self):
        _, lines, _ = self.ran("stats", "petersen.graphml", "k6.gml", "--json")
        rows = [json.loads(line) for line in lines]
        found = [(row["crossings"], row["lower_bound"], row["planar"]) for row in rows]
        self.assertEqual(found, [(2, 2, False), (3, 3, False)])
        _, lines, _ = self.ran("stats", "petersen.graphml", "k6.gml", "--csv", "-j", "2")
        table = list(csv.DictReader(lines))
        found = [(row["file"], row["nodes"], row["edges"]) for row in table]
        self.assertEqual(found, [("petersen.graphml", "10", "15"), ("k6.gml", "6", "15")])
        _, lines, _ = self.ran("stats", "k6.gml")
        self.assertEqual(lines[1].split()[:5], ["6", "15", "no", "3", "3"])

    def test_convert(self):
        self.ran("planarize", "k6.gml", "-o", "k6.planar.json")
        for suffix in ("graphml", "gml", "cyjs", "svg", "gexf", "json", *(["dot"] if find_spec("pydot") else [])):
            self.assertEqual(self.ran("convert", "k6.planar.json", "-o", f"new.{suffix}")[0::2], (0, []), suffix)
        graph = nx.read_graphml("new.graphml")
        self.assertEqual((len(graph), graph.number_of_edges()), (9, 21))
        self.assertEqual(self.ran("convert", "k6.planar.json", "-o", "new.unknown")[0], 2)
        self.assertEqual(self.ran("convert", "k6.gml", "-o", "new.svg")[0], 1)
        self.assertEqual(self.ran("convert", "k6.gml", "petersen.graphml", "-o", "all", "--to", "gexf")[0], 0)
        self.assertEqual(sorted(os.listdir("all")), ["k6.gexf", "petersen.gexf"])

    def test_prices_and_walls(self):
        nx.write_graphml(of_all_kinds(), "odd.graphml")
        words = ("--price", "price", "--forbid", "wall")
        status, _, told = self.ran("planarize", "odd.graphml", "-o", "odd.planar.json", *words)
        self.assertEqual((status, told), (0, []))
        self.assertEqual(load("odd.planar.json").prices, (None, 3, 2, 1))
        for words in (("--price", "nix"), ("--forbid", "nix"), ("--price", "text")):
            self.assertEqual(self.ran("planarize", "odd.graphml", "-o", "x.planar.json", *words)[0], 1)
        self.assertFalse(Path("x.planar.json").exists())

    def test_loops_are_left_out(self):
        nx.write_gml(nx.Graph(["ab", "bb", "cc"]), "loops.gml")
        status, lines, told = self.ran("planarize", "loops.gml", "-o", "l.planar.json")
        self.assertEqual((status, told), (0, ["fezdrok: loops.gml: warning: 2 loops are left out"]))
        self.assertEqual(self.ran("verify", "l.planar.json", "loops.gml")[0], 0)

    def test_outputs_that_would_be_lost(self):
        os.mkdir("other")
        nx.write_gml(nx.complete_graph(4), "other/k6.gml")
        status, lines, told = self.ran("planarize", "k6.gml", "other/k6.gml", "-o", "out")
        self.assertEqual((status, len(lines), len(told)), (1, 1, 1))
        self.assertEqual(self.ran("convert", "k6.gml", "-o", "k6.gml")[0], 1)
        self.assertEqual(self.ran("planarize", "k6.gml", "-o", "nowhere/k6.planar.json")[0], 1)
        self.assertEqual(self.ran("planarize", "k6.gml", "-o", "/dev/full")[0], 1)

    def test_out_of_memory(self):
        program = fake(self, "echo 'planar: 8 Memory' >&2; exit 3")
        self.assertEqual(self.ran("planarize", "k6.gml", "petersen.graphml", "-o", "x", "--program", program)[0], 3)

    def test_words_that_are_refused(self):
        for words in (
            (), ("walk",), ("draw",), ("planarize", "k6.gml", "petersen.graphml"), ("stats", "k6.gml", "-j", "0"),
            ("draw", "k6.gml", "--seconds", "-1"), ("draw", "-", "-"), ("planarize", "k6.gml", "--effort", "much"),
            ("planarize", "k6.gml", "--format", "word"), ("stats", "k6.gml", "--program", "/nowhere/planar"),
        ):
            status, lines, told = self.ran(*words)
            self.assertEqual((status, lines, len(told)), (2, [], 1), words)
        for words in (("--help",), ("draw", "--help"), ("--version",)):
            status, lines, told = self.ran(*words)
            self.assertEqual((status, told), (0, []))
        self.assertEqual(lines, [f"fezdrok {__version__}"])
        shown = " ".join(self.ran("draw", "--help")[1])
        for word in ("--node-size {fixed,grow}", "g.pdf or g.png", "SVG, PDF or PNG"):
            self.assertIn(word, " ".join(shown.split()))


@needs_program
class Processes(Files):
    def test_standard_streams(self):
        graph = Path("petersen.graphml").read_bytes()
        done = subprocess.run(
            [sys.executable, "-m", "fezdrok", "planarize", "-", "--format", "graphml"],
            input=graph, capture_output=True, env=ENVIRONMENT,
        )
        self.assertEqual((done.returncode, json.loads(done.stdout)["crossings"]), (0, 2))
        judged = self.run_it("verify", "-", "petersen.graphml", input=done.stdout, stdout=subprocess.DEVNULL)
        self.assertEqual(judged, (0, []))
        self.assertEqual(self.run_it("stats", "-", input=graph, stdout=subprocess.DEVNULL)[0], 1)
        self.assertEqual(
            self.run_it("stats", "-", stdout=subprocess.DEVNULL, preexec_fn=lambda: os.close(0)),
            (1, ["fezdrok: standard input: standard input is closed"]),
        )

    def test_what_cannot_be_written(self):
        """A closed and a full output are a line and the status 1; a reader that went away is 141, without a word."""
        script = b'{"version":1,"workers":[[]]}\n'
        written = ("planarize", "k6.gml", "-o", "k.json")
        for words in (("lines",), ("--help",), ("--version",), ("stats", "k6.gml"), written):
            closed = self.run_it(*words, input=script, preexec_fn=lambda: os.close(1))
            self.assertEqual(closed, (1, ["fezdrok: standard output is closed"]), words)
            with open("/dev/full", "wb") as full:
                done = self.run_it(*words, input=script, stdout=full)
            self.assertEqual(done, (1, ["fezdrok: standard output: No space left on device"]), words)
            reading, writing = os.pipe()
            os.close(reading)
            with os.fdopen(writing, "wb") as output:
                self.assertEqual(self.run_it(*words, input=script, stdout=output), (141, []), words)

    def test_ctrl_c(self):
        """The best so far is written, and what comes after it is not begun. The program waits, once it has its first
        picture and has found another."""
        nx.write_graphml(nx.complete_graph(12), "k12.graphml")
        begun = self.folder / "begun"
        program = os.path.abspath(find_program())
        patient = fake(
            self,
            f'n=$(($(cat {begun} 2> /dev/null || echo 0) + 1)); echo $n > {begun}\n'
            f'if [ $n -gt 1 ]; then sleep 100; fi; exec {program} "$@"',
        )
        process = subprocess.Popen(
            [sys.executable, "-m", "fezdrok", "planarize", "k12.graphml", "k6.gml", "-o", "out", "--program", patient],
            stdout=subprocess.PIPE, stderr=subprocess.PIPE, env=ENVIRONMENT,
        )
        self.addCleanup(process.kill)
        end = time.monotonic() + 100
        while (not begun.exists() or begun.read_text().strip() != "2") and time.monotonic() < end:
            time.sleep(0.05)
        time.sleep(0.3)
        process.send_signal(signal.SIGINT)
        out, told = process.communicate(timeout=100)
        self.assertEqual(process.returncode, 130, told)
        self.assertRegex(out.decode(), r"\Ak12.graphml: 12 nodes, 66 edges, \d+ crossings -> out/k12.planar.json\n\Z")
        load("out/k12.planar.json").verify(nx.read_graphml("k12.graphml"))
        self.assertRegex(told.decode(), "warning: the best picture so far is given.*\nfezdrok: interrupted\n")


class Formats(unittest.TestCase):
    def test_what_comes_back(self):
        graph = of_all_kinds()
        for name in ("graphml", "gexf", "gml", "json"):
            again = graph_of(bytes_of(graph, FORMATS[name]), FORMATS[name])
            self.assertEqual(dict(again.nodes(data=True)), dict(graph.nodes(data=True)), name)
            found, due = (sorted(it.edges(keys=True, data=True), key=repr) for it in (again, graph))
            self.assertEqual(found, due, name)
            self.assertEqual((again.is_directed(), again.is_multigraph()), (True, True))

    def test_what_a_format_does_not_hold_is_told(self):
        graph = of_all_kinds()
        for name, words in (
            ("edgelist", "the directions of edges, nodes without edges, attributes of nodes"),
            ("adjlist", "the directions of edges, the names of nodes, parallel edges"),
            ("graph6", "parallel edges"), ("sparse6", "the names of nodes"), ("pajek", None), ("cyjs", None),
        ):
            is_told = nullcontext() if words is None else self.assertWarnsRegex(PlanarWarning, words)
            with self.subTest(name), is_told:
                again = graph_of(bytes_of(graph, FORMATS[name]), FORMATS[name])
                self.assertGreaterEqual(len(again), 3)

    def test_files_that_are_none(self):
        for name, form in FORMATS.items():
            if name == "dot" and not find_spec("pydot"):
                continue
            for data in (b"\xff\xfe\x00", b"", b"graph [ node [ id 0", b'{"nodes": [', b"<graphml>"):
                try:
                    graph = graph_of(data, form)
                except GraphFileError as fault:
                    self.assertNotIn("\n", str(fault))
                else:
                    self.assertIn(name, ("edgelist", "adjlist"))
                    self.assertLess(len(graph), 9)

    def test_numbers_of_other_programs(self):
        self.assertEqual(graph_of(b"a b 2.5\nb c 3\n# end\n", FORMATS["edgelist"]).edges["a", "b"]["weight"], 2.5)
        self.assertEqual(graph_of(b"0 1\n1 0\n", FORMATS["edgelist"]).number_of_edges(), 2)
        twice = b'graph [ node [ id 0 label "x" ] node [ id 1 label "x" ] edge [ source 0 target 1 ] ]'
        self.assertEqual(sorted(graph_of(twice, FORMATS["gml"])), [0, 1])
        raw = 'graph [ node [ id 0 label "图" ] node [ id 1 label "b" ] edge [ source 0 target 1 ] ]'.encode()
        self.assertEqual(sorted(graph_of(raw, FORMATS["gml"])), ["b", "图"])
        links = b'{"nodes": [{"id": "a"}, {"id": "b"}], "links": [{"source": "a", "target": "b"}]}'
        for data in (links, links.replace(b"links", b"edges")):
            self.assertEqual(sorted(graph_of(data, FORMATS["json"])), ["a", "b"])
        leda = b"LEDA.GRAPH\nstring\nint\n-1\n2\n|{a}|\n|{b}|\n1\n1 2 0 |{4}|\n"
        self.assertEqual(sorted(graph_of(leda, FORMATS["leda"])), ["a", "b"])
        self.assertRaisesRegex(GraphFileError, "is only read", bytes_of, nx.path_graph(2), FORMATS["leda"])
        self.assertEqual(len(graph_of(YED.encode(), FORMATS["graphml"])), 2)


if __name__ == "__main__":
    unittest.main()

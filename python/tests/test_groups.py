"""GraphML with groups, as yEd writes it."""

import os
import subprocess
import sys
import tempfile
import unittest
import warnings
from pathlib import Path

import networkx as nx

from fezdrok import PlanarWarning, load
from fezdrok.files.graph_files import FORMATS, GraphFileError, graph_of

from .support import ROOT, needs_program

#: Two groups, one in the other, and a closed folder. The outer group and the folder have an edge of their own.
GROUPS = """<?xml version="1.0" encoding="UTF-8" standalone="no"?>
<graphml xmlns="http://graphml.graphdrawing.org/xmlns" xmlns:y="http://www.yworks.com/xml/graphml">
  <key for="node" id="d0" yfiles.type="nodegraphics"/>
  <key for="node" id="d1" attr.name="text" attr.type="string"/>
  <key for="edge" id="d2" attr.name="weight" attr.type="int"/>
  <graph edgedefault="directed" id="G">
    <node id="n0" yfiles.foldertype="group">
      <data key="d0">
        <y:ProxyAutoBoundsNode><y:Realizers active="0">
          <y:GroupNode><y:NodeLabel>The outer group</y:NodeLabel></y:GroupNode>
        </y:Realizers></y:ProxyAutoBoundsNode>
      </data>
      <graph edgedefault="directed" id="n0:">
        <node id="n0::n0"><data key="d0"><y:ShapeNode><y:NodeLabel>within</y:NodeLabel></y:ShapeNode></data></node>
        <node id="n0::n1" yfiles.foldertype="group">
          <graph edgedefault="directed" id="n0::n1:">
            <node id="n0::n1::n0"><data key="d1">deep</data></node>
            <node id="n0::n1::n1"/>
            <edge id="n0::n1::e0" source="n0::n1::n0" target="n0::n1::n1"><data key="d2">7</data></edge>
          </graph>
        </node>
        <edge id="n0::e0" source="n0::n0" target="n0::n1::n0"/>
      </graph>
    </node>
    <node id="n1"/>
    <node id="n2" yfiles.foldertype="folder">
      <graph edgedefault="directed" id="n2:"><node id="n2::n0"/></graph>
    </node>
    <edge id="e0" source="n1" target="n0"/>
    <edge id="e1" source="n1" target="n0::n1::n1"/>
    <edge id="e2" source="n2" target="n2::n0"/>
  </graph>
</graphml>
"""


class Groups(unittest.TestCase):
    def read(self, text: str, words: str | None):
        with warnings.catch_warnings(record=True) as told:
            warnings.simplefilter("always")
            graph = graph_of(text.encode(), FORMATS["graphml"])
        self.assertEqual([(it.category, str(it.message)) for it in told], [(PlanarWarning, words)] if words else [])
        return graph

    def test_what_is_in_groups(self):
        graph = self.read(GROUPS, "1 groups without edges are left out: what is in them stays")
        self.assertEqual(set(graph), {"n0", "n0::n0", "n0::n1::n0", "n0::n1::n1", "n1", "n2", "n2::n0"})
        due = {"n0::n0": ["n0::n1::n0"], "n0::n1::n0": ["n0::n1::n1"], "n1": ["n0", "n0::n1::n1"], "n2": ["n2::n0"]}
        self.assertEqual({node: sorted(others) for node, others in graph.adj.items() if others}, due)
        self.assertEqual((graph.is_directed(), graph.is_multigraph()), (True, False))
        self.assertEqual(graph.edges["n0::n1::n0", "n0::n1::n1"]["weight"], 7)
        group = {node: row.get("group") for node, row in graph.nodes(data=True)}
        self.assertEqual((group["n0"], group["n1"], group["n0::n0"]), (None, None, "n0"))
        self.assertEqual((group["n0::n1::n0"], group["n0::n1::n1"], group["n2::n0"]), ("n0::n1", "n0::n1", "n2"))
        self.assertEqual(graph.nodes["n0"]["label"], "The outer group")
        self.assertEqual(graph.nodes["n0::n0"]["label"], "within")
        self.assertEqual(graph.nodes["n0::n1::n0"]["text"], "deep")

    def test_an_attribute_of_that_name(self):
        text = GROUPS.replace('attr.name="text"', 'attr.name="group"')
        graph = self.read(
            text,
            "1 groups without edges are left out: what is in them stays; "
            "of 1 nodes it is not held in which group they are",
        )
        self.assertEqual(graph.nodes["n0::n1::n0"]["group"], "deep")

    def test_all_have_edges(self):
        text = GROUPS.replace('<edge id="e1" source="n1" target="n0::n1::n1"/>', '<edge source="n1" target="n0::n1"/>')
        graph = self.read(text, None)
        self.assertEqual(len(graph), 8)

    def test_several_graphs(self):
        text = GROUPS.replace("</graphml>", '<graph edgedefault="directed"><node id="x"/></graph></graphml>')
        with self.assertRaisesRegex(GraphFileError, "it is no graphml: it has several graphs side by side"):
            graph_of(text.encode(), FORMATS["graphml"])

    @needs_program
    def test_command(self):
        with tempfile.TemporaryDirectory() as folder:
            Path(folder, "groups.graphml").write_text(GROUPS)
            done = subprocess.run(
                [sys.executable, "-m", "fezdrok", "planarize", "groups.graphml", "-o", "g.planar.json"],
                cwd=folder,
                env={**os.environ, "PYTHONPATH": os.fspath(ROOT / "python")},
                capture_output=True,
                text=True,
            )
            words = "1 groups without edges are left out: what is in them stays"
            self.assertEqual((done.returncode, done.stderr), (0, f"fezdrok: groups.graphml: warning: {words}\n"))
            result = load(Path(folder, "g.planar.json"))
            self.assertEqual(result.graph.number_of_edges(), 5)
            self.assertEqual(len(list(nx.weakly_connected_components(result.graph))), 2)


if __name__ == "__main__":
    unittest.main()

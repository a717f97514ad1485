"""The files that the editor opens in the place of the picture: which there are, and what is said of those at fault."""

import tempfile
import unittest
from pathlib import Path

import networkx as nx

from fezdrok import planarize
from fezdrok.command.editing import planarization_in
from fezdrok.edit.boards import NotDoneError
from fezdrok.edit.folders import Folder

from .edit_support import Served, needs_server
from .support import needs_program

#: Files that can be opened as none, and what is said of them.
FAULTS = {
    "no.graphml": ("<graph", "it is no graphml"),
    "no.planar.json": ("{}", "the text is no planarization: KeyError 'fezdrok'"),
    "parts.edges": ("a b\nc d\n", "a graph that is edited is connected, and has an edge"),
    "loop.edges": ("a a\n", "a graph that is edited is connected, and has an edge"),
    "empty.edges": ("", "the graph has no edge and no node"),
}


def folder_in(test):
    """A folder with two files that can be opened, those at fault, and others; and what reads it."""
    above = tempfile.TemporaryDirectory()
    test.addCleanup(above.cleanup)
    (place := Path(above.name) / "in").mkdir()
    for path in (place / "g.edges", place / "notes.txt", place.parent / "above.edges", place / "new\nline.edges"):
        path.write_text("a b\nb c\nc a\n")
    planarize(nx.complete_graph(6), {(0, 1): 9}).save(place / "k6.planar.json")
    for name, (text, _) in FAULTS.items():
        (place / name).write_text(text)
    (place / "folder.edges").mkdir()
    (place / "out.edges").symlink_to(place.parent / "above.edges")
    (place / "gone.edges").symlink_to(place / "nowhere.edges")
    (place / ("x" * 220 + ".edges")).write_text("a b\n")
    return Folder(place, lambda path: planarization_in(str(path), None, None))


@needs_program
class Folders(unittest.TestCase):
    def test_names(self):
        folder = folder_in(self)
        self.assertEqual(folder.names(), sorted([*FAULTS, "g.edges", "k6.planar.json"]))
        self.assertEqual(folder.opened("g.edges").graph.number_of_edges(), 3)
        for name in (None, "", ".", "..", "../above.edges", "out.edges", "gone.edges", "folder.edges", "notes.txt",
                     "./g.edges", str(folder._place / "g.edges"), "g.edges\0", "folder.edges/../g.edges"):
            with self.subTest(name), self.assertRaisesRegex(NotDoneError, "^there is no such file in the folder$"):
                folder.opened(name)
        for name, (_, words) in FAULTS.items():
            with self.subTest(name), self.assertRaisesRegex(NotDoneError, f"^{name}: {words}"):
                folder.opened(name)
        with self.assertRaisesRegex(NotDoneError, "^the folder cannot be read: No such file or directory$"):
            Folder(folder._place / "none", planarize).names()


@needs_server
class Openings(Served):
    async def test_two_tabs(self):
        await self.serve(planarize(nx.complete_graph(4)), folder_in(self))
        first, second = await self.talk(), await self.talk()
        self.assertEqual((await first.ask("files"))["files"], sorted([*FAULTS, "g.edges", "k6.planar.json"]))
        self.assertIn("number", await first.ask("delete", 0))
        changed = await second.drawn(1)
        self.assertEqual(await first.ask("open", "k6.planar.json"), {"number": 2, "words": "k6.planar.json was opened"})
        opened = await second.drawn(2)
        self.assertEqual((opened["vertices"], opened["count"]), (6, 3))
        self.assertEqual(sorted(row["price"] for row in opened["kinds"]), [1, 9])
        self.assertEqual([change["word"] for change in second.changes], ["delete", "open"])
        for name in FAULTS:
            self.assertRegex((await second.ask("open", name))["refused"], f"^{name}: ")
        self.assertEqual((await second.ask("open", "../above.edges"))["refused"], "there is no such file in the folder")
        answer = await first.ask("delete", 0, seen=1)
        self.assertEqual(answer["refused"], "the picture has changed meanwhile: look again")
        await second.ask("undo")
        self.assertEqual((await first.drawn(3))["edges"], changed["edges"])
        await second.ask("undo")
        self.assertEqual(len((await first.drawn(4))["edges"]), 6)
        for _ in range(2):
            await first.ask("redo")
        self.assertEqual((await second.drawn(6))["vertices"], 6)

    async def test_without_a_folder(self):
        await self.serve(planarize(nx.complete_graph(4)))
        talk = await self.talk()
        self.assertEqual(await talk.ask("files"), {"files": []})
        self.assertEqual(await talk.ask("open", "g.edges"), {"refused": "no file can be opened here"})


if __name__ == "__main__":
    unittest.main()

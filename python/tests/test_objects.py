"""What users of any library expect: examples that run, hints that resolve, lines that say what an object is, and
exceptions that are Python's own too."""

import doctest
import importlib
import inspect
import logging
import os
import pickle
import tempfile
import typing
import unittest

import networkx as nx

import fezdrok
from fezdrok import Planarizer, Program, Session, planarize, prepare

from .support import needs_program
from .test_layout import module_files, subpackage

#: The built-in exceptions that users catch, with those of the package that are they.
BUILT_IN = {
    ValueError: "Fault NoReport NotPlanarized OtherReport SessionClosed UsageRefused VerificationError",
    FileNotFoundError: "ProgramNotFound",
    OSError: "ProgramNotStarted",
    MemoryError: "MemoryFault",
    ImportError: "ModuleMissing",
    RuntimeError: "ProgramFailed Unfinished",
}


def public():
    """The public objects, and the public methods of the classes, but those of the drawings, which have tests of their
    own."""
    for name in fezdrok.__all__:
        thing = getattr(fezdrok, name)
        if getattr(thing, "__module__", "").startswith("fezdrok.drawing"):
            continue
        yield name, thing
        if inspect.isclass(thing):
            for inner in dir(thing):
                method = getattr(thing, inner, None)
                if (inner == "__init__" or not inner.startswith("_")) and inspect.isfunction(method):
                    yield f"{name}.{inner}", method


@needs_program
class Examples(unittest.TestCase):
    def test_docstrings(self):
        self.addCleanup(os.chdir, os.getcwd())
        folder = tempfile.TemporaryDirectory()
        self.addCleanup(folder.cleanup)
        os.chdir(folder.name)
        count = 0
        for module in module_files():
            if subpackage(module) in ("engine", "files", "search", "command"):
                found = doctest.testmod(importlib.import_module(module), optionflags=doctest.ELLIPSIS)
                self.assertEqual(found.failed, 0, module)
                count += found.attempted
        self.assertGreater(count, 60)

    def test_functions_have_an_example_and_say_what_they_take(self):
        for name, thing in public():
            if inspect.isfunction(thing) and "." not in name:
                text = inspect.getdoc(thing)
                self.assertIn("Examples\n--------\n>>> ", text, name)
                for parameter in inspect.signature(thing).parameters if name != "find_program" else ():
                    self.assertIn(parameter, text.partition("Parameters\n")[2], name)


class Objects(unittest.TestCase):
    def test_hints(self):
        for name, thing in public():
            with self.subTest(name):
                typing.get_type_hints(thing)

    def test_exceptions(self):
        for built_in, names in BUILT_IN.items():
            for name in names.split():
                kind = getattr(fezdrok, name)
                self.assertTrue(issubclass(kind, built_in) and issubclass(kind, fezdrok.PlanarError), name)
        for name, thing in public():
            if inspect.isclass(thing) and issubclass(thing, Exception) and not issubclass(thing, Warning):
                longer = name if name.endswith("Error") else f"{name}Error"
                self.assertIs(getattr(fezdrok, longer), thing)

    def test_exceptions_can_be_pickled(self):
        for fault in (
            fezdrok.NotPlanarized((0, 1)), fezdrok.NotPlanarized((0, 1), fezdrok.Refused(9, "NoRoute")),
            fezdrok.Fault(52, "BadShape", "$/a"), fezdrok.MemoryFault(8, "Memory"), fezdrok.ProgramFailed(-9, "killed"),
            fezdrok.ProgramNotFound("nowhere"), fezdrok.VerificationError("not whole"), fezdrok.NoReport("none"),
        ):
            again = pickle.loads(pickle.dumps(fault))
            self.assertEqual((type(again), str(again)), (type(fault), str(fault)))


@needs_program
class Lines(unittest.TestCase):
    def test_of_one_line(self):
        result = planarize(nx.complete_graph(5))
        with Session(process=True) as session, Session() as other, result.session() as named:
            lines = [repr(it) for it in (session, other, named)]
            self.assertRegex(lines[0], r"\A<Session: process \d+>\Z")
            self.assertRegex(lines[1], r"\A<Session: (process \d+|in this process)>\Z")
            self.assertEqual(lines[2], "<GraphSession: 5 nodes, 10 edges>")
            report = other.report()
        self.assertEqual((repr(session), repr(named)), ("<Session: closed>", "<GraphSession: closed>"))
        for thing, due in (
            (result.picture, "<Picture: 5 vertices, 10 edges, 1 crossings>"),
            (report, r"<Report: 0 calls, 0 refused, <Picture: .*>>"),
            (Planarizer(), "<Planarizer: 0 commands>"),
            (Program("/a/planar"), "<Program: /a/planar>"),
            (prepare(nx.complete_graph(4)), "<Prepared: 4 nodes, 6 edges>"),
        ):
            self.assertRegex(repr(thing), rf"\A{due}\Z")

    def test_the_logger(self):
        with self.assertLogs("fezdrok", logging.INFO) as told:
            planarize(nx.complete_graph(7))
        self.assertRegex(told.output[0], r"INFO:fezdrok:search 1 of 1: \d+ crossings")
        self.assertRegex(told.output[-1], r"<Planarization: 7 nodes, 21 edges, 9 crossings>, cost 9, after [0-9.]+ sec")


if __name__ == "__main__":
    unittest.main()

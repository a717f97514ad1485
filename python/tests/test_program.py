"""The program: where it is found, and what its statuses become. The programs here are shell scripts."""

import os
import pickle
import unittest
from pathlib import Path
from unittest import mock

import fezdrok
from fezdrok import Fault, MemoryFault, PlanarError, ProgramFailed, ProgramNotFound, UsageRefused, find_program
from fezdrok.engine import program as program_module
from fezdrok.engine.program import VARIABLE, Program

from .support import ROOT, fake


class Finding(unittest.TestCase):
    """The argument, the package, the variable, PATH, the checkout: the first that is there."""

    def setUp(self):
        self.paths = {name: fake(self, "exit 0") for name in ("argument", "package", "variable", "path", "checkout")}
        words = {VARIABLE: self.paths["variable"], "PATH": str(Path(self.paths["path"]).parent)}
        self.start(mock.patch.dict(os.environ, words))
        self.start(mock.patch.object(program_module, "PACKAGED", Path(self.paths["package"])))
        self.script = self.start(mock.patch.object(program_module, "repository_script"))
        self.script.return_value = Path(self.paths["checkout"])

    def start(self, patch):
        self.addCleanup(patch.stop)
        return patch.start()

    def remove(self, *names):
        for name in names:
            os.remove(self.paths[name])

    def test_argument_first(self):
        self.assertEqual(find_program(self.paths["argument"]), self.paths["argument"])
        self.assertEqual(find_program(Path(self.paths["argument"])), self.paths["argument"])

    def test_then_each_place_in_order(self):
        self.assertEqual(find_program(), self.paths["package"])
        self.remove("package")
        self.assertEqual(find_program(), self.paths["variable"])
        del os.environ[VARIABLE]
        self.assertEqual(find_program(), self.paths["path"])
        self.remove("path")
        self.assertEqual(find_program(), self.paths["checkout"])

    def test_nowhere(self):
        self.remove("package", "path", "checkout")
        os.environ[VARIABLE] = ""
        with self.assertRaises(ProgramNotFound) as caught:
            find_program()
        self.assertIsInstance(caught.exception, FileNotFoundError)
        told = str(caught.exception)
        package = f"the package ({self.paths['package']})"
        for words in (package, VARIABLE, "PATH (planar)", "the checkout", "The wheel of fezdrok", "./planar"):
            self.assertIn(words, told)

    def test_a_program_that_is_no_program(self):
        os.chmod(self.paths["package"], 0o644)
        self.assertEqual(find_program(), self.paths["variable"])

    def test_a_wrong_argument_or_variable_is_not_passed_over(self):
        with self.assertRaisesRegex(ProgramNotFound, "/nowhere/planar"):
            find_program("/nowhere/planar")
        self.remove("package")
        os.environ[VARIABLE] = "/nowhere/else"
        with self.assertRaisesRegex(ProgramNotFound, VARIABLE):
            find_program()

    def test_it_is_looked_for_at_the_first_call(self):
        program = Program("/nowhere/planar")
        with self.assertRaises(ProgramNotFound):
            program.run("{}")


class OfThisPackage(unittest.TestCase):
    def test_the_places_are_those_of_the_package(self):
        package = Path(fezdrok.__file__).resolve().parent
        self.assertEqual(program_module.PACKAGED, package / "bin" / "planar")
        self.assertEqual(program_module.repository_script(), package.parent.parent / "planar")

    def test_the_version_is_that_of_the_repository(self):
        self.assertEqual(fezdrok.__version__, (ROOT / "VERSION").read_text().strip())


class Statuses(unittest.TestCase):
    def failure(self, body: str) -> PlanarError:
        with self.assertRaises(PlanarError) as caught:
            Program(fake(self, body)).run("{}")
        return caught.exception

    def test_the_words_and_the_input_arrive(self):
        self.assertEqual(Program(fake(self, 'echo "$*"; cat')).run("{}"), "run\n{}")
        self.assertEqual(Program(fake(self, 'echo "$*"; cat')).check("{}"), "check\n{}")
        self.assertEqual(Program(fake(self, 'echo "$*"; cat')).replay("{}"), "replay\n{}")

    def test_a_fault_with_a_path(self):
        fault = self.failure("echo 'planar: 52 BadShape $/workers' >&2; exit 1")
        self.assertIs(type(fault), Fault)
        self.assertEqual((fault.number, fault.name, fault.value), (52, "BadShape", "$/workers"))
        self.assertEqual(str(fault), "52 BadShape $/workers")

    def test_a_fault_with_a_number_and_one_without(self):
        self.assertEqual(self.failure("echo 'planar: 60 WrongReply 3' >&2; exit 1").value, 3)
        self.assertIsNone(self.failure("echo 'planar: 50 NotJson' >&2; exit 1").value)

    def test_a_fault_with_two_numbers(self):
        fault = self.failure("echo 'planar: 40 Mismatch 2 15' >&2; exit 1")
        self.assertEqual((type(fault), fault.number, fault.name, fault.value), (Fault, 40, "Mismatch", (2, 15)))
        self.assertEqual((str(fault), fault.words), ("40 Mismatch 2 15", [40, "Mismatch", 2, 15]))

    def test_the_fault_is_the_last_line(self):
        fault = self.failure("echo 'planar: something else' >&2; echo 'planar: 53 BadVersion' >&2; exit 1")
        self.assertEqual(str(fault), "53 BadVersion")

    def test_memory(self):
        fault = self.failure("echo 'planar: 8 Memory' >&2; exit 3")
        self.assertIsInstance(fault, MemoryFault)
        self.assertEqual((fault.number, fault.name, fault.status), (8, "Memory", 3))

    def test_usage(self):
        fault = self.failure("echo 'error: what' >&2; exit 2")
        self.assertIsInstance(fault, UsageRefused)
        self.assertIn("error: what", str(fault))

    def test_a_signal_and_a_status_without_a_line(self):
        fault = self.failure("kill -9 $$")
        self.assertIsInstance(fault, ProgramFailed)
        self.assertEqual(fault.status, -9)
        self.assertEqual(self.failure("exit 1").status, 1)
        self.assertEqual(self.failure("echo oh >&2; exit 77").text, "oh\n")

    def test_a_program_that_does_not_read_its_input(self):
        with self.assertRaisesRegex(Fault, "51 TooLong"):
            Program(fake(self, "echo 'planar: 51 TooLong' >&2; exit 1")).run(" " * 10_000_000)

    def test_exceptions_pass_between_processes(self):
        for fault in (
            ProgramNotFound("nowhere"),
            Fault(52, "BadShape", "$"),
            Fault(40, "Mismatch", (2, 15)),
            MemoryFault(8, "Memory"),
            ProgramFailed(-9, "oh"),
        ):
            again = pickle.loads(pickle.dumps(fault))
            self.assertEqual((type(again), str(again), vars(again)), (type(fault), str(fault), vars(fault)))


if __name__ == "__main__":
    unittest.main()

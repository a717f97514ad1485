"""The help of the program: each command has its own, short and long."""

import subprocess
import unittest

from fezdrok import find_program

from .support import needs_program

# What the help of each command says, and no other's: in the short and the long help, and in the long one alone.
SENTENCES = {
    "run": ("Reads a script and prints the report of its run", "A script is a JSON object with a version"),
    "replay": ("Reads a report and carries out its history again", "Who made a call is not judged"),
    "check": ("Reads a picture and prints how large it is", "Where it is a lawful one, a connected"),
    "serve": ("Answers line by line, with one picture", "Each further line is a command as in a script"),
    "planarize": ("Reads a graph and prints pictures of it with few crossings", "graph, effort, seed, start and threads have the same answer, unless time ends the"),
}


def answer(*words):
    """The status, and what goes to standard error, of the program with these words."""
    done = subprocess.run([find_program(), *words], stdin=subprocess.DEVNULL, capture_output=True, text=True)
    assert done.stdout == "", done.stdout
    return done.returncode, done.stderr


@needs_program
class Help(unittest.TestCase):
    def test_each_command_has_its_own(self):
        for verb, (short, long) in SENTENCES.items():
            status, text = answer(verb, "-h")
            self.assertEqual(status, 2)
            self.assertIn(short, text)
            self.assertIn(f"Usage: planar {verb}\n", text)
            self.assertNotIn(long, text)
            status, text = answer(verb, "--help")
            self.assertEqual(status, 2)
            self.assertIn(long, text)
            for other, (_, foreign) in SENTENCES.items():
                self.assertEqual(foreign in text, other == verb, (verb, other))

    def test_the_program_names_all(self):
        for words in (["-h"], ["--help"], []):
            status, text = answer(*words)
            self.assertEqual(status, 2)
            for verb, (short, _) in SENTENCES.items():
                self.assertRegex(text, rf"(?m)^  {verb} +{short}")

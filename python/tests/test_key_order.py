"""The order of the keys in a text counts for nothing."""

import json
import random
import subprocess
import unittest
from pathlib import Path
from typing import Any

from fezdrok import find_program

from .support import EXAMPLES, needs_program


def shuffled(form: Any, chance: random.Random) -> Any:
    """The same with the keys of each object in another order."""
    if isinstance(form, dict):
        keys = list(form)
        chance.shuffle(keys)
        return {key: shuffled(form[key], chance) for key in keys}
    return [shuffled(part, chance) for part in form] if isinstance(form, list) else form


def members(pairs: list[tuple[str, Any]]) -> dict[str, Any]:
    """An object with each key once."""
    if len(dict(pairs)) < len(pairs):
        raise ValueError("a key comes twice")
    return dict(pairs)


def example(path: Path) -> dict[str, Any] | None:
    """The form in a file, if it is an object with each key once, and a script in it has one list."""
    try:
        form = json.loads(path.read_bytes(), object_pairs_hook=members)
    except ValueError:
        return None
    return form if isinstance(form, dict) and len(form.get("workers", [[]])) == 1 else None


def verb_for(form: Any) -> str:
    """The command that reads such a form."""
    return "run" if "workers" in form else "replay" if "history" in form else "check"


def answer(verb: str, text: bytes) -> tuple[int, bytes, bytes]:
    """What a command answers to a text."""
    done = subprocess.run([find_program(), verb], input=text, capture_output=True, timeout=60)
    return done.returncode, done.stdout, done.stderr


@needs_program
class KeyOrder(unittest.TestCase):
    def test_the_examples(self):
        chance = random.Random(7)
        seen = set()
        for path in sorted(EXAMPLES.glob("*.json")):
            form = example(path)
            if form is None:
                continue
            verb = verb_for(form)
            due = answer(verb, path.read_bytes())
            seen.add((verb, due[0]))
            for _ in range(3):
                self.assertEqual(answer(verb, json.dumps(shuffled(form, chance)).encode()), due, path.name)
        self.assertLessEqual({("run", 0), ("replay", 0), ("replay", 1), ("check", 0)}, seen)

    def test_the_opening_of_a_session(self):
        opening = {
            "limits": {"crossings": 5, "edges": 9, "vertices": 7}, "prices": [2, None], "start": "seed", "version": 2
        }
        lines = b'\n["grow",1,0,1]\n"report"\n'
        due = answer("serve", json.dumps(opening).encode() + lines)
        self.assertEqual(due[0], 0)
        chance = random.Random(7)
        for _ in range(3):
            self.assertEqual(answer("serve", json.dumps(shuffled(opening, chance)).encode() + lines), due)


if __name__ == "__main__":
    unittest.main()

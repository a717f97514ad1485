"""docs/fezdrok.schema.json: it takes what has its form, and refuses what the program calls a fault of form, in the
examples, on the pages and on random lines."""

import json
import random
import re
import unittest
from importlib.util import find_spec
from typing import Any

from .reference_sessions import Lines, Told
from .support import EXAMPLES, ROOT, example_rows
from .test_session_lines import a_line, sessions_of_pages

if find_spec("jsonschema"):
    from jsonschema import Draft202012Validator

SCHEMA = json.loads((ROOT / "docs" / "fezdrok.schema.json").read_text())
#: What a row of the examples is about, by its first word.
FORMS = {"run": "script", "read script": "script", "replay": "report", "read report": "report", "check": "picture"}


class NoSchemaTells(ValueError):
    """A number that is whole, and not written in digits alone; or an id with more bytes than characters."""


def value_of(text: str) -> Any:
    """The value of a text; a ValueError where there is none, or where no schema tells what is wrong with it."""

    def numeral(text: str) -> float:
        if float(text).is_integer():
            raise NoSchemaTells(text)
        return float(text)

    value = json.loads(text, parse_float=numeral)
    if "-0" in re.findall(r"-\d+", text) or re.search(r'"id": *"[^"]{129,}"', json.dumps(value, ensure_ascii=False)):
        raise NoSchemaTells(text)
    return value


@unittest.skipUnless(find_spec("jsonschema"), "left out: jsonschema is not there")
class Schema(unittest.TestCase):
    @classmethod
    def setUpClass(cls):
        cls.of = {
            name: Draft202012Validator({"$ref": f"#/$defs/{name}", "$defs": SCHEMA["$defs"]}) for name in SCHEMA["$defs"]
        }
        cls.of["any"] = Draft202012Validator(SCHEMA)

    def judge(self, form: str, text: str, is_good: bool) -> bool:
        """Whether the schema tells what is due; gives whether there was something to judge."""
        try:
            value = value_of(text)
        except (ValueError, RecursionError):
            return False
        self.assertEqual(self.of[form].is_valid(value), is_good, f"{form}: {text[:2000]}")
        return True

    def test_it_is_a_schema(self):
        Draft202012Validator.check_schema(SCHEMA)
        self.assertFalse(self.of["any"].is_valid({"rotations": []}))

    def test_the_examples(self):
        broken = 0
        for verb, text, told in example_rows():
            if verb not in FORMS:
                continue
            is_broken = told[:2] in ("52", "53", "54")
            if told[:2] not in ("50", "51"):
                broken += self.judge(FORMS[verb], text, not is_broken) and is_broken
        self.assertGreater(broken, 500)

    def test_the_pages(self):
        sessions = [[line[2:] for line in shown if line[0] == ">"] for shown in sessions_of_pages()]
        for file in EXAMPLES.glob("*.lines"):
            if not file.name.endswith(".answers.lines"):
                sessions.append(file.read_text().splitlines())
        for shown in sessions:
            lines = Lines()
            for line in shown:
                self.judge_line(lines, line.encode())
        texts = 0
        for page in (ROOT / "README.md", *(ROOT / "docs").glob("*.md")):
            for line in page.read_text().splitlines():
                if line.startswith(("    {", "    < ")):
                    texts += self.judge("any", line[4:].removeprefix("< "), True)
        self.assertGreater(texts, 150)

    def judge_line(self, lines: Lines, line: bytes) -> bool:
        """Judges a line by what is answered to it; gives whether it is broken, which the schema tells."""
        form = "first_line" if lines.is_first else "line"
        if line.startswith(b'{"planarize":'):  # a graph without fault, for which nothing searches here
            return self.judge(form, line.decode(), True)
        try:
            answer = lines.answer(line)
        except Told as fault:
            number = fault.words[0]
        else:
            self.assertTrue(self.of["answer"].is_valid(json.loads(answer)), answer)
            value = json.loads(answer)
            number = value.get("answer", value).get("fault", [0])[0]
        if number in (50, 51):
            return False
        return self.judge(form, line.decode(), number not in (52, 53, 54)) and number in (52, 53, 54)

    def test_random_lines(self):
        broken, seed, kept = 0, 0, []
        while broken < 200:
            seed += 1
            chance, lines = random.Random(seed), Lines()
            for _ in range(30):
                broken += self.judge_line(lines, a_line(chance, lines, kept))
            if lines.standing:
                kept.append(lines.standing.report())


if __name__ == "__main__":
    unittest.main()

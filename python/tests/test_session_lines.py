"""The program's sessions against those of the second planarizer, on the examples of docs/FORMATS.md and docs/EDITOR.md
and on random lines: each answer is as it was predicted.

FEZDROK_LINES is how many lines are tried, 20,000 where it is not set, and FEZDROK_SEED the first seed.
"""

import copy
import json
import os
import random
import subprocess
import unittest
from typing import Any

from fezdrok import Picture, find_program

from .reference_sessions import ABOUT, NAMES, Lines, Standing, Told, opening
from .support import ROOT, example_rows, in_process, needs_library, needs_program
from .test_planarize_command import Shows

COUNT, SEED = int(os.environ.get("FEZDROK_LINES", "20000")), int(os.environ.get("FEZDROK_SEED", "1"))

#: Values that stand where others are due.
JUNK = (
    None, True, -1, 1.0, 1.5, 4294967295, 4294967296, 10**30, "", "x", "counts", "seed", "é\n\x7f\"\\", [], {}, [[]],
    ["edge", 0], {"call": "counts"}, {"open": {"version": 1}}, 0, 15, 16, 64, 65536, "a" * 256, "é" * 129, "forget",
    ["undo", 1], {"reopen": {}}, {"refused": [6, "Cut", 0]}, {"deleted": 0}, ["planned", 0, 1, 0],
)
KEYS = (
    "call", "caller", "id", "open", "reopen", "version", "limits", "prices", "start", "x", "edges", "crossings", "",
    "deleted", "refused", "crossed", "history", "picture",
)
#: Lines that are no value, or that are written in another way than the rest.
TEXTS = (
    b"", b" ", b"[", b'"counts', b'"counts" ', b'\t["edge",0]\r', b'["edge",-0]', b'["edge",1e2]', b'["edge",0]]',
    b"nul", b'["\\u0065dge",0]', b'"\\ud800"', b'"\xff"', b'["edge",1e400]', b'{"call":"counts","call":"about"}',
    b"NaN",
    b'{"id":1,"call":"\\u0063ounts"}', b"[" * 127 + b"]" * 127, b"[" * 128 + b"]" * 128, b"\xef\xbb\xbf1", b'"a\tb"',
    b" " * 65527 + b'"counts"' + b" ", b" " * 65528 + b'"counts" ', b'{"call":"counts"' + b" " * 70000 + b"}",
    b'{"id":"\\u00e9\\u0001\\/","call":"counts"}', b'["edge",0', b"{}", b'{"call":}', b'["route",00,1]',
    b'["edge",1.0]', b'["undo",-0]', b'{"reopen":{"version":1}', b'{"reopen":{"version":3}}',
)


def an_opening(chance: random.Random, kept: list[Any]) -> dict[str, Any]:
    """The members of an opening, which can mostly be opened."""
    version = chance.choice([1, 2])
    told: dict[str, Any] = {"version": version}
    if chance.random() < 0.5:
        prices = [1, 2, 3, 1000, 1, 5, *([None] * 2 if version == 2 else [])]
        told["prices"] = [chance.choice(prices) for _ in range(chance.randrange(5))]
    if chance.random() < 0.3:
        told["limits"] = {
            "crossings": chance.choice([0, 3, 30, 1048576, 1048576]),
            "edges": chance.choice([1, 8, 20, 65536, 65536]),
            "vertices": chance.choice([2, 5, 9, 65536]),
        }
    if chance.random() < 0.5:
        told["start"] = "seed" if not kept or chance.random() < 0.1 else copied(chance.choice(kept)["picture"])
    if chance.random() < 0.15 and isinstance(start := told.get("start"), dict):
        around = max(start["rotations"], key=len)
        around[1:] = reversed(around[1:])
    return told


def copied(value: Any) -> Any:
    """The same value, which may be changed, as it is read from JSON."""
    return json.loads(json.dumps(value))


def a_report(chance: random.Random, lines: Lines, kept: list[Any]) -> dict[str, Any]:
    """A report, which is mostly true."""
    standing = lines.standing or Standing(opening("$", {"version": 1}))
    report = copied(chance.choice([*kept, standing.report()]))
    history = report["history"]
    if history and chance.random() < 0.15:
        one, other = chance.choice(history), chance.choice(history)
        one["reply"], other["reply"] = other["reply"], one["reply"]
    elif history and chance.random() < 0.15:
        del history[chance.randrange(len(history))]
    elif chance.random() < 0.05:
        report["picture"] = report["start"]
    return report


def a_request(chance: random.Random, lines: Lines, kept: list[Any], is_long: bool) -> Any:
    """A request, of which most numbers are of what may be there. In a long session the history is never ended, and it
    is seldom taken back."""
    picture = lines.standing.picture if lines.standing else Picture.seed()
    entries = len(lines.standing.history) if lines.standing else 0
    vertices, edges = len(picture.rotations), [row.id for row in picture.edges]

    def vertex() -> int:
        return chance.randrange(vertices + (chance.random() < 0.1))

    def edge() -> int:
        return chance.choice(edges) if chance.random() < 0.85 else chance.randrange(picture.next_edge + 2)

    names = ["grow"] * (15 if vertices < 7 else 2) + ["insert"] * 12 + ["planned"] * 2 + ["delete"] * 2 + ["route"] * 5
    names += ["edge"] * 3 + ["vertex", "vertex", "face", "face", "face", "counts", "picture", "report"]
    names += ["delete"] * 14 if is_long else ["undo"] * 2 + ["about", "open", "forget", "renumber", "reopen"]
    name = chance.choice([*names, "undo"])
    kind = chance.choice([0, 0, 0, 0, 1, 1, 2, 3, 63, 64])
    if name == "grow":
        u = vertex()
        degree = len(picture.rotations[u]) if u < vertices else 1
        return [name, u, chance.randrange(degree + (chance.random() < 0.1)), kind]
    if name in ("insert", "planned"):
        u = vertex()
        return [name, u, (u + chance.randrange(chance.random() < 0.95, vertices)) % vertices, kind]
    if name == "open":
        return {"open": an_opening(chance, kept)}
    if name == "reopen":
        return {"reopen": a_report(chance, lines, kept)}
    if name == "undo":
        most = chance.choice((1, 1, 2, 5, 20, 300))
        some = chance.randrange(min(most, entries) + 1)
        return [name, some if chance.random() < 0.8 else chance.choice((0, most, entries, entries + 1, 2**32 - 1))]
    if name in ("route", "vertex", "delete", "edge"):
        return [name, *{"route": (vertex(), vertex()), "vertex": (vertex(),)}.get(name, (edge(),))]
    if name == "face":
        asked = edge()
        segments = next((row.segments for row in picture.edges if row.id == asked), 1)
        return [name, asked, chance.randrange(segments + (chance.random() < 0.2)), chance.choice(["forward", "back"])]
    return name


def changed(chance: random.Random, value: Any) -> Any:
    """The same with another value somewhere within, or with a key or an element more or less."""
    if isinstance(value, (dict, list)) and value and chance.random() < 0.75:
        value = copy.copy(value)
        place = chance.choice(list(value) if isinstance(value, dict) else range(len(value)))
        value[place] = changed(chance, value[place])
        return value
    if isinstance(value, dict) and chance.random() < 0.7:
        if value and chance.random() < 0.5:
            return {key: it for key, it in value.items() if key != chance.choice(list(value))}
        return {**value, chance.choice(KEYS): chance.choice(JUNK)}
    if isinstance(value, list) and chance.random() < 0.7:
        return value[:-1] if chance.random() < 0.5 else [*value, chance.choice(JUNK)]
    if type(value) is int and chance.random() < 0.4:
        return max(0, value + chance.choice((-1, 1)))
    return chance.choice(JUNK)


def nudged(chance: random.Random, value: Any) -> Any:
    """The same with one number somewhere within that is another: of its form still, and so a fault of what it means."""
    places: dict[str, list[tuple[Any, Any]]] = {}

    def gather(inner: Any, name: str) -> None:
        for place, it in list(inner.items() if isinstance(inner, dict) else enumerate(inner)):
            key = place if isinstance(place, str) else name
            if isinstance(it, (dict, list)):
                gather(it, key)
            elif type(it) is int and place != "version":
                places.setdefault(key, []).append((inner, place))

    value = copied(value)
    gather(value, "")
    if places:
        inner, place = chance.choice(places[chance.choice(list(places))])
        inner[place] = chance.choice((0, 1, 2, inner[place] + 1, 64, 1001, 65537, 1048577))
    return value


def a_line(chance: random.Random, lines: Lines, kept: list[Any], is_long: bool = False) -> bytes:
    """A line: a request or an opening, in an envelope or not, mostly without a fault. Those of a long session have no
    envelope and no fault of form. `kept` are reports."""
    if is_long:
        return json.dumps({"version": 1} if lines.is_first else a_request(chance, lines, kept, is_long)).encode()
    if chance.random() < 0.04:
        return chance.choice(TEXTS)
    if lines.is_first and chance.random() < 0.15:
        value = {"reopen": a_report(chance, lines, kept)}
    elif lines.is_first and chance.random() < 0.8:
        value = an_opening(chance, kept)
    else:
        value = a_request(chance, lines, kept, is_long)
    if isinstance(value, dict) and chance.random() < 0.3:
        value = nudged(chance, value)
    if chance.random() < (0.05 if lines.is_first else 0.4):
        value = {"call": value}
        if chance.random() < 0.7:
            value["id"] = chance.choice([0, 7, 4294967295, "x", "", "é\n\"", "a" * 256])
        if chance.random() < 0.5:
            value["caller"] = chance.randrange(16)
    for _ in range(chance.choice((0, 0, 0, 0, 0, 0, 1, 2)) if not lines.is_first or chance.random() < 0.5 else 0):
        value = changed(chance, value)
    text = json.dumps(value, ensure_ascii=chance.random() < 0.5, sort_keys=chance.random() < 0.5)
    return text.encode()


@needs_program
class RandomLines(unittest.TestCase):
    def answered(self, asked: list[bytes], is_ended: bool) -> tuple[list[str], str]:
        """What lines are answered by a process, and the fault that ends it, if it is to end by one."""
        lines = [*asked, b""] if not asked[-1] else asked  # a last line without a byte is none
        done = subprocess.run([find_program(), "serve"], input=b"\n".join(lines), capture_output=True, timeout=60)
        self.assertEqual(done.returncode, 1 if is_ended else 0)
        return done.stdout.decode().splitlines(), done.stderr.decode()

    def session(self, seed: int, kept: list[Any]) -> tuple[int, set[str]]:
        """Compares a session with what was predicted; gives how many lines it had, and what was told or refused."""
        chance, lines, is_long = random.Random(seed), Lines(), seed % 50 == 0
        asked, due, end = [], [], ""
        for _ in range(1000 if is_long else chance.choice((3, 10, 40, 40, 120, 300))):
            asked.append(a_line(chance, lines, kept, is_long))
            try:
                due.append(lines.answer(asked[-1]))
            except Told as fault:
                end = f"planar: {fault}\n"
                break
        told, text = self.answered(asked, bool(end))
        for line, answer, right in zip(asked, told, due):
            self.assertEqual(answer, right, f"seed {seed}: {line[:2000]!r}")
        self.assertEqual((len(told), text), (len(due), end), f"seed {seed}")
        if lines.standing and len(lines.standing.picture.edges) < 60:
            kept.append(lines.standing.report())
            del kept[:-20]
        return len(asked), {word for answer in due for word in names_in(answer)} | {end.split()[2] if end else ""}

    def test_random_lines(self):
        tried, seed, names, kept = 0, SEED, set(), []
        while tried < COUNT:
            count, told = self.session(seed, kept)
            tried, seed, names = tried + count, seed + 1, names | told
        if COUNT < 20000:
            return
        due = "NoVertex SameEnds NoPosition NoEdge BadKind Cut Full NoRoute NoDart NotOpen NotJson TooLong BadShape"
        due += " BadVersion BadNumber BadPrice BadLimits TooMany BadPath BadCrossing BadRotation NotPlanar"
        due += " NothingToUndo WrongReply WrongPicture"
        self.assertLessEqual(set(due.split()), names)


@needs_library
class RandomLinesInProcess(RandomLines):
    def answered(self, asked: list[bytes], is_ended: bool) -> tuple[list[str], str]:
        """What lines are answered by the library, and the fault of the first, if it is to have one."""
        session = in_process()
        told = [session.answer(line).decode() for line in asked]
        session.end()
        if not is_ended:
            return told, ""
        return told[:-1], f"planar: {' '.join(map(str, json.loads(told[-1])['fault']))}\n"


def sessions_of_pages() -> list[list[str]]:
    """The examples of docs/FORMATS.md, and docs/EDITOR.md as one example: the lines of each, which begin with `>`, `<`
    or `!`."""
    return [*sessions_of_page("FORMATS.md"), [line for shown in sessions_of_page("EDITOR.md") for line in shown]]


def sessions_of_page(page: str) -> list[list[str]]:
    sessions: list[list[str]] = []
    is_open = False
    for line in (ROOT / "docs" / page).read_text().splitlines():
        shown = line.startswith(("    > ", "    < ", "    ! "))
        if shown:
            sessions[-1].append(line[4:]) if is_open else sessions.append([line[4:]])
        is_open = shown
    return sessions


@needs_program
class ReopenedReports(unittest.TestCase):
    def test_the_reports_of_the_examples(self):
        """Where a row says what is told of a report, a session tells it too."""
        lines, asked, due = Lines(), [b'{"call":"about"}'], []
        lines.answer(asked[0])
        for verb, text, told in example_rows():
            if verb not in ("replay", "read report") or told[:2] in ("50", "51"):
                continue
            asked.append(b'{"reopen":' + text.replace("\n", " ").encode() + b"}")
            due.append(lines.answer(asked[-1]))
            words = told.replace("$", "$/reopen").split() if told[:1].isdigit() else []
            if words:
                self.assertEqual([str(it) for it in json.loads(due[-1])["fault"]], words, text[:2000])
            elif verb == "replay":
                self.assertEqual(told, f"replayed {len(lines.standing.history)} calls")
        self.assertGreater(len(asked), 500)
        done = subprocess.run([find_program(), "serve"], input=b"\n".join(asked), capture_output=True, timeout=60)
        for line, answer, right in zip(asked[1:], done.stdout.decode().splitlines()[1:], due, strict=True):
            self.assertEqual(answer, right, line[:2000])


class Page(Shows):
    """The examples of docs/FORMATS.md and docs/EDITOR.md."""

    @needs_program
    def test_the_program(self):
        for shown in sessions_of_pages():
            asked = "".join(f"{line[2:]}\n" for line in shown if line[0] == ">")
            done = subprocess.run([find_program(), "serve"], input=asked.encode(), capture_output=True, timeout=60)
            due = ["".join(f"{line[2:]}\n" for line in shown if line[0] == mark) for mark in "<!"]
            self.assertEqual([done.stdout.decode(), done.stderr.decode()], due, shown[0])
            self.assertEqual(done.returncode, 1 if due[1] else 0)

    def test_the_second_planarizer(self):
        """It answers as is shown. It does not search: pictures of a graph that are shown are judged."""
        for shown in sessions_of_pages():
            lines, told, end = Lines(), [], []
            for place, line in enumerate(shown):
                if line[0] != ">":
                    continue
                told.append(line)
                if line.startswith('> {"planarize":'):
                    graph = json.loads(line[2:])["planarize"]
                    self.judge(graph["vertices"], graph["edges"], json.loads(shown[place + 1][2:]))
                    told.append(shown[place + 1])
                    continue
                try:
                    told += [] if end else [f"< {lines.answer(line[2:].encode())}"]
                except Told as fault:
                    end = [f"! planar: {fault}"]
            self.assertEqual(told + end, shown)

    @needs_program
    def test_long_lines(self):
        """A line may have 65,536 bytes, and one that begins with a brace, and the first, more."""
        asked = [
            b'{"version":1' + b" " * 70_000 + b"}",
            b'"counts"' + b" " * 65_528,
            b'"counts"' + b" " * 65_529,
            b" " + b'{"call":"counts"}' + b" " * 65_519,
            b'{"call":"counts"}' + b" " * 70_000,
        ]
        lines = Lines()
        due = [lines.answer(line) for line in asked]
        too_long = '{"fault":[51,"TooLong"]}'
        self.assertEqual([answer == too_long for answer in due], [False, False, True, True, False])
        done = subprocess.run([find_program(), "serve"], input=b"\n".join(asked), capture_output=True, timeout=60)
        self.assertEqual(done.stdout.decode().splitlines(), due)

    def test_each_request_and_each_fault_is_there(self):
        shown = "\n".join(line for session in sessions_of_page("FORMATS.md") for line in session)
        for name in ABOUT["requests"]:
            self.assertRegex(shown, rf"""> .*"{name}\b""")
        refusals = {1: "NoVertex", 2: "SameEnds", 4: "NoEdge", 7: "Full", 9: "NoRoute", 71: "NoDart"}
        for number, name in {**NAMES, **refusals}.items():
            if number != 51:  # which takes a long line
                self.assertRegex(shown, rf"""[<!] .*\b{number}[ ,"]+{name}""")


def names_in(answer: str) -> list[str]:
    """The names of a fault or a refusal."""
    value = json.loads(answer)
    value = value.get("answer", value)
    return [value[key][1] for key in ("fault", "refused") if key in value]


if __name__ == "__main__":
    unittest.main()

"""Scripts of many lists by the program itself: what the threads make is what one list makes, but for the ids."""

import json
import unittest
from typing import Any

from fezdrok.engine.program import Program

from .support import needs_program

LISTS = 16
COMMANDS = 1000


def start_rows() -> dict[str, Any]:
    """A hub, 0, with two neighbours for each list: list i has the vertices 2 i + 1 and 2 i + 2 to itself, which are
    joined, and one of which is joined to the hub."""
    commands = []
    for i in range(LISTS):
        if i:
            commands.append(["grow", 0, 0, 0])
        commands.append(["grow", 2 * i + 1, 0, 0])
    report = Program().run(json.dumps({"version": 1, "workers": [commands]}))
    return json.loads(report)["picture"]


def commands_of(i: int) -> list[list[Any]]:
    """Growths at the vertices of list i, and edges between them, some with a plan; and some that are refused."""
    first, second = 2 * i + 1, 2 * i + 2
    kinds = [
        ["grow", first, 0, i],
        ["insert", first, second, i],
        ["planned", second, first, i],
        ["grow", second, 1, i],
        ["insert", first, first, i],
    ]
    return [kinds[place % len(kinds)] for place in range(COMMANDS)]


class Names:
    """Names for the ids of one run that do not depend on the order of calls: the list, and how many it had made
    before."""

    def __init__(self, start: dict[str, Any]):
        self.edges = {row["id"]: ("start", row["id"]) for row in start["edges"]}
        self.vertices = {vertex: ("start", vertex) for vertex in range(len(start["rotations"]))}

    def reply(self, made: tuple[int, int], reply: dict[str, Any]) -> Any:
        """A reply with names in place of ids; what it made is given names."""
        if "vertex" in reply:
            self.vertices[reply["vertex"]] = made
        if "edge" in reply:
            self.edges[reply["edge"]] = made
        crossed = [[self.edges[edge], segment, way] for edge, segment, way in reply.get("crossed", [])]
        return {**{key: value for key, value in reply.items() if key not in ("vertex", "edge")}, "crossed": crossed}

    def picture(self, rows: dict[str, Any]) -> Any:
        """The rotations and the edges of a picture, by names."""
        rotations = {self.vertices[place]: [self.edges[edge] for edge in around] for place, around in enumerate(rows["rotations"])}
        edges = {
            self.edges[row["id"]]: (self.vertices[row["a"]], self.vertices[row["b"]], row["kind"], row["crossings"])
            for row in rows["edges"]
        }
        return rotations, edges


@needs_program
class ConcurrentLists(unittest.TestCase):
    def run_lists(self, start: dict[str, Any], lists: list[list[Any]]) -> dict[str, Any]:
        text = Program().run(json.dumps({"version": 1, "workers": lists, "start": start}))
        self.assertEqual(Program().replay(text).strip(), f"replayed {LISTS * COMMANDS} calls")
        return json.loads(text)

    def test_many_lists_make_what_one_makes(self):
        start = start_rows()
        alone = self.run_lists(start, [[command for i in range(LISTS) for command in commands_of(i)]])
        together = self.run_lists(start, [commands_of(i) for i in range(LISTS)])
        wanted_names, names = Names(start), Names(start)
        wanted = [
            wanted_names.reply(divmod(place, COMMANDS), entry["reply"]) for place, entry in enumerate(alone["history"])
        ]
        given: list[list[Any]] = [[] for _ in range(LISTS)]
        for entry in together["history"]:
            i = entry["caller"]
            given[i].append(names.reply((i, len(given[i])), entry["reply"]))
        self.assertEqual([reply for replies in given for reply in replies], wanted)
        self.assertEqual(names.picture(together["picture"]), wanted_names.picture(alone["picture"]))


if __name__ == "__main__":
    unittest.main()

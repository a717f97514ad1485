"""The program where one allocation is refused, each in turn: a command has its whole answer, or none and says why."""

import unittest

from .refused_allocation import RefusedAllocationTest
from .support import EXAMPLES

MOST = 20_000


class RefusedAllocations(RefusedAllocationTest):
    def refuse_each(self, verb: str, text: bytes) -> int:
        """Refuses each allocation of a command in turn, and returns after how many of them it was out of memory."""
        status, answer, told, _ = self.run_refusing(verb, text, 0)
        self.assertEqual((status, told), (0, b""))
        wanted = 0
        for number in range(1, MOST):
            status, output, told, is_refused = self.run_refusing(verb, text, number)
            if not is_refused:
                self.assertEqual((status, output, told), (0, answer, b""))
                return wanted
            if status == 0:
                self.assertEqual((output, told), (answer, b""), number)   # it did without
            else:
                self.assertEqual((status, output, told), (3, b"", b"planar: 8 Memory\n"), number)
                wanted += 1
        self.fail("it makes more allocations than were tried")

    def test_run(self):
        for name in ("across_the_cheap_side", "an_insertion_with_a_plan"):
            self.assertGreater(self.refuse_each("run", (EXAMPLES / f"{name}.json").read_bytes()), 50)

    def test_a_list_of_one_command(self):
        for command in ('["planned",0,1,0]', '["grow",1,0,0]', '["delete",0]'):
            self.assertGreater(self.refuse_each("run", b'{"version":1,"workers":[[%s]]}' % command.encode()), 20)

    def test_replay(self):
        self.assertGreater(
            self.refuse_each("replay", (EXAMPLES / "across_the_cheap_side.report.json").read_bytes()), 50
        )

    def test_check(self):
        self.assertGreater(self.refuse_each("check", (EXAMPLES / "bipyramid.json").read_bytes()), 20)

    def test_planarize(self):
        edges = ",".join(f"[{a},{b},0]" for a in range(5) for b in range(a))
        graph = b'{"edges":[%s],"effort":"quick","version":1,"vertices":6}' % edges.encode()
        self.assertGreater(self.refuse_each("planarize", graph), 100)

    def test_serve(self):
        """A session that is out of memory ends; what it answered before stays."""
        report = (EXAMPLES / "across_the_cheap_side.report.json").read_bytes().strip()
        lines = [
            b'{"version":1}', b'["grow",0,0,0]', b'["insert",1,2,0]', b'["undo",2]', b'["grow",1,0,0]', b'["delete",0]',
            b'["face",1,0,"forward"]', b'"renumber"', b'["route",0,2]', b'{"call":{"reopen":%s},"id":"a report"}' % report,
            b'["undo",1]', b'"forget"', b'["vertex",0]', b'"report"',
        ]   # fmt: skip
        text = b"".join(line + b"\n" for line in lines)
        status, answers, told, _ = self.run_refusing("serve", text, 0)
        self.assertEqual((status, told, answers.count(b"\n")), (0, b"", len(lines)))
        self.assertNotIn(b'"fault"', answers)
        wanted = 0
        for number in range(1, MOST):
            status, output, told, is_refused = self.run_refusing("serve", text, number)
            if not is_refused:
                self.assertEqual((status, output, told), (0, answers, b""))
                break
            self.assertTrue(answers.startswith(output) and output.endswith((b"\n", b"")), number)
            if status:
                self.assertEqual((status, told), (3, b"planar: 8 Memory\n"), number)
                wanted += 1
            else:
                self.assertEqual((output, told), (answers, b""), number)   # it did without
        self.assertGreater(wanted, 150)


if __name__ == "__main__":
    unittest.main()

"""A session of many calls, which renumbers where its ids have run out, and takes calls back and makes them again now
and then: its process does not grow. Nor does this one where many sessions begin and end.

FEZDROK_CALLS is how many edges are taken out and put in, 20,000 where it is not set, and FEZDROK_OPENINGS how many
sessions begin, 10,000 where it is not set.
"""

import os
import random
import sys
import unittest
from pathlib import Path

from fezdrok import Fault, Limits, Planarizer, Refused, Session

from .support import Sessions, needs_program

COUNT = int(os.environ.get("FEZDROK_CALLS", "20000"))
OPENINGS = int(os.environ.get("FEZDROK_OPENINGS", "10000"))
VERTICES, EDGES = 60, 1500


def kilobytes(process: int | None) -> int:
    """How large a process is."""
    return int(Path(f"/proc/{process}/status").read_text().split("VmRSS:")[1].split()[0])


@needs_program
@unittest.skipUnless(sys.platform == "linux", "left out: there is no /proc")
class LongLife(Sessions, unittest.TestCase):
    def take_back_and_redo(self, session: Session, count: int) -> None:
        """Takes the last entries back, and makes their calls again, which are answered as before."""
        report = session.report()
        entries = report.history[-count:]
        session.undo(len(entries))
        for entry in entries:
            name, *numbers = entry.call.to_json()
            self.assertEqual(getattr(session, name)(*numbers), entry.reply)
        self.assertEqual(session.report(), report)

    def test_it_does_not_grow(self):
        chance, sizes = random.Random(1), []
        with self.session(limits=Limits(VERTICES, EDGES)) as session:
            for vertex in range(VERTICES - 2):
                session.grow(vertex // 2)
            ids = [session.insert(u, u - 30).edge for u in range(30, VERTICES)]
            for call in range(COUNT // 2):
                place = chance.randrange(len(ids))
                session.delete(ids[place])
                reply = session.insert(chance.randrange(30), chance.randrange(30, VERTICES))
                if reply == Refused(7, "Full"):
                    session.undo(2)
                    new = {old: edge for edge, old in enumerate(session.renumber().edges)}
                    ids = [new[edge] for edge in ids]
                    sizes.append(kilobytes(session.process_id or os.getpid()))
                else:
                    ids[place] = reply.edge
                if call % 500 == 0:
                    self.take_back_and_redo(session, chance.randrange(1, 301))
            report = session.report()
        self.assertEqual(Planarizer().replay(report), len(report.history))
        self.assertGreater(len(sizes), COUNT // 2 // EDGES - 1)
        self.assertLess(max(sizes[3:]), 1.25 * max(sizes[:3]), sizes)

    def test_sessions_leave_nothing_behind(self):
        """Whether they are closed, are let go, or are at fault from the beginning. Over a process there are fewer."""
        with self.session() as session:
            for vertex in range(40):
                session.grow(vertex)
            start, count = session.picture(), 100 if session.process_id else OPENINGS
        files, sizes = len(os.listdir("/dev/fd")), []
        for place in range(count):
            session = self.session(start if place % 20 == 0 else None, prices=[3])
            session.grow(0)
            if place % 2 or session.process_id:
                session.close()
            if place % 20 == 0:
                with self.assertRaises(Fault):
                    self.session(prices=[0])
            if place % (count // 10) == count // 10 - 1:
                sizes.append(kilobytes(os.getpid()))
        del session
        self.assertEqual(len(os.listdir("/dev/fd")), files)
        self.assertLess(max(sizes) - sizes[0], 400, sizes)


class LongLifeOverAProcess(LongLife):
    process = True


if __name__ == "__main__":
    unittest.main()

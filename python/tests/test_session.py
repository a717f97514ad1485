"""Sessions: what is answered at once is what a run reports, and what becomes of faults, broken programs and
interrupts."""

import fcntl
import os
import random
import signal
import subprocess
import sys
import time
import unittest
from dataclasses import replace
from threading import Event, Thread
from unittest import mock

from fezdrok import (
    Counts, Dart, Deleted, EdgeAnswer, Fault, Grown, Inserted, Limits, Meeting, MemoryFault, Picture, PlanarError,
    Planarizer, ProgramFailed, ProgramNotFound, ProgramNotStarted, Refused, Renumbered, Route, Session, SessionClosed,
    SessionInUse, Undone, UsageRefused, VertexAnswer, __version__,
)
from fezdrok.engine import line_process

from .support import Sessions, fake, needs_program

COUNTS = '{"crossings":0,"edges":1,"faces":1,"segments":1,"vertices":2}'
#: A shell program that begins as a session does.
BEGUN = f"read line; echo '{COUNTS}'; read line; "


def some_calls(count: int, seed: int):
    """Calls of every kind, many of which are refused: each is the name of a method and its numbers."""
    chance = random.Random(seed)
    calls = [("grow", chance.randrange(place + 2), chance.randrange(2), chance.randrange(3)) for place in range(8)]
    for _ in range(count - len(calls)):
        kind = chance.choice(("insert", "insert", "insert", "delete", "grow"))
        numbers = {"insert": (12, 12, 3), "delete": (count,), "grow": (12, 3, 66)}[kind]
        calls.append((kind, *(chance.randrange(number) for number in numbers)))
    return calls


def ended(process_id: int) -> bool:
    """Whether a process has ended and was waited for."""
    try:
        os.kill(process_id, 0)
    except ProcessLookupError:
        return True
    return False


def is_over(process_id: int) -> bool:
    """Whether a process that another one began has ended, whoever is to wait for it now."""
    try:
        with open(f"/proc/{process_id}/stat") as file:
            return file.read().rpartition(")")[2].split()[0] == "Z"
    except (FileNotFoundError, ProcessLookupError):
        return True


@needs_program
class Calls(Sessions, unittest.TestCase):
    def test_callers(self):
        with self.session() as session:
            session.grow(0)
            session.caller = 15
            self.assertEqual(session.insert(1, 2), Inserted(2, (), 0, 0, 0))
            self.assertEqual(session.insert(1, 1), Refused(2, "SameEnds"))
            session.caller = 16
            with self.assertRaisesRegex(Fault, "54 BadNumber"):
                session.delete(0)
            session.caller = 3
            self.assertEqual(session.delete(0), Deleted(0))
            self.assertEqual([entry.caller for entry in session.report().history], [0, 15, 15, 3])

    def test_each_is_answered_at_once(self):
        with self.session() as session:
            self.assertEqual(session.grow(1), Grown(2, 1))
            self.assertEqual(session.insert(0, 2, kind=7), Inserted(2, (), 0, 0, 0))
            self.assertEqual(session.delete(0), Deleted(0))
            self.assertEqual(session.counts(), Counts(3, 0, 2, 2, 1))
            self.assertEqual(session.picture().edge(2).kind, 7)
            self.assertEqual([type(reply) for reply in session.report().replies], [Grown, Inserted, Deleted])

    def test_the_replies_and_the_report_are_those_of_a_run(self):
        prices, limits = [1, 5, None], Limits(10, 65536, 90)
        planarizer = Planarizer(prices=prices, limits=limits)
        replies = []
        with self.session(prices=prices, limits=limits) as session:
            for name, *numbers in some_calls(150, 3):
                replies.append(getattr(session, name)(*numbers))
                getattr(planarizer, name)(*numbers)
            counts, picture, report = session.counts(), session.picture(), session.report()
        due = planarizer.run()
        self.assertEqual(tuple(replies), due.replies)
        self.assertEqual((report, picture, counts), (due, due.picture, due.picture.counts))
        self.assertGreater(len({type(reply) for reply in replies}), 3)
        self.assertGreater(max(len(reply.crossed) for reply in replies if isinstance(reply, Inserted)), 1)
        self.assertEqual(planarizer.replay(report), 150)

    def test_a_thousand_insertions_are_one_process(self):
        with self.session() as session:
            process = session.process_id
            for vertex in range(98):
                session.grow(vertex)
            for place in range(1000):
                self.assertEqual(session.insert(place % 99, place % 99 + 1).edge, 99 + place)
            self.assertEqual((session.process_id, session.counts().edges), (process, 1099))
            self.assertEqual(repr(session), f"<Session: process {process}>" if process else "<Session: in this process>")

    def test_a_start(self):
        with self.session() as session:
            for vertex in range(5):
                session.grow(vertex)
            for u in range(7):
                for v in range(u):
                    session.insert(u, v)
            picture, counts = session.picture(), session.counts()
        with self.session(start=picture) as session:
            self.assertEqual((session.picture(), session.counts()), (picture, counts))
            self.assertEqual(session.report().start, picture)

    def test_refused_calls_are_replies(self):
        with self.session() as session:
            self.assertEqual(session.insert(0, 0), Refused(2, "SameEnds"))
            self.assertEqual(session.delete(0), Refused(6, "Cut", 0))
            self.assertEqual(session.grow(7), Refused(1, "NoVertex"))
            self.assertEqual(len(session.report().refused), 3)

    def test_a_line_that_is_refused_changes_nothing(self):
        with self.session() as session:
            for number in (-1, 2**32):
                with self.assertRaises(Fault) as caught:
                    session.insert(0, number)
                self.assertEqual(
                    (caught.exception.number, caught.exception.name, caught.exception.value), (54, "BadNumber", "$/2")
                )
            with self.assertRaises(TypeError):
                session.grow(0.5)
            self.assertEqual(session.report().history, ())
            self.assertEqual(session.grow(0), Grown(2, 1))

    def test_several_lines_at_once(self):
        with self.session() as session:
            answers = session.answers(['["grow",1,0,0]', '["insert",0,2,0]', '["insert",0,0,0]', "[", '"counts"'])
            due = [
                '{"edge":1,"vertex":2}',
                '{"crossed":[],"edge":2,"end":0,"price":0,"start":0}',
                '{"refused":[2,"SameEnds"]}',
                '{"fault":[50,"NotJson"]}',
            ]
            self.assertEqual(answers[:4], due)
            self.assertEqual(session.answers([]), [])
            self.assertEqual(len(session.answers(['"counts"'] * 3640)), 3640)
            self.assertEqual(len(session.answers(['"é"'] * 6554)), 6554)
            with self.assertRaisesRegex(ValueError, "a line feed"):
                session.answers(['"counts"\n"picture"'])
            self.assertEqual(Picture.from_text(session.picture_text()), session.picture())

    def test_many_lines_ahead(self):
        """Lines and answers of many times what a pipe holds, through pipes of the usual size and of one page."""
        for room in (65536, 4096):
            with self.session() as session:
                if session.process_id:
                    for end in (session._answerer._input, session._answerer._output):
                        fcntl.fcntl(end.fileno(), fcntl.F_SETPIPE_SZ, room)
                lines = ['["grow",0,0,0]', '["insert",0,0,0]', '"picture"', '["insert",0,0,0]'] * 100
                answers = session.answers(lines + ['["delete",9999]'] * 19_600)
                self.assertEqual(len(answers), 20_000)
                self.assertEqual(answers[0], '{"edge":1,"vertex":2}')
                self.assertEqual(answers[400:], ['{"refused":[4,"NoEdge"]}'] * 19_600)
                self.assertEqual(len(session.report().history), 19_900)

    def test_faults_of_the_start(self):
        seed = Planarizer().run().picture
        wrong = type(seed)(((0,), ()), seed.edges, (), 1, 0)
        for words, due in (
            ({"prices": [0]}, "10 BadPrice 0"),
            ({"limits": Limits(1, 1, 1)}, "11 BadLimits"),
            ({"start": wrong}, "23 BadRotation"),
        ):
            with self.assertRaises(Fault) as caught:
                self.session(**words)
            self.assertEqual(str(caught.exception), due)

    def test_a_price_that_forbids(self):
        with self.session(prices=[None]) as session:
            for vertex in range(3):
                session.grow(vertex)
            replies = [session.insert(u, v) for u in range(5) for v in range(u)]
            self.assertIn(Refused(9, "NoRoute"), replies)
            self.assertEqual(session.counts().crossings, 0)


@needs_program
class Questions(Sessions, unittest.TestCase):
    def crossed(self, session):
        """A triangle with a vertex inside and one outside, and an edge between these, which crosses the edge 0."""
        session.grow(1)
        session.insert(2, 0, kind=1)
        session.grow(0)
        session.grow(0, 1)

    def test_a_route_is_what_the_insertion_does(self):
        with self.session(prices=[3, 7]) as session:
            self.crossed(session)
            before = session.picture()
            route = session.route(3, 4)
            self.assertEqual(route, Route((Dart(0, 0),), 0, 0, 3))
            self.assertEqual((session.picture(), session.report().replies[-1]), (before, Grown(4, 4)))
            self.assertEqual(session.insert(3, 4), Inserted(5, *route))
            self.assertEqual(session.picture().edge(5).crossings, (before.next_crossing,))

    def test_edges_vertices_and_faces(self):
        with self.session(prices=[3, 7, None]) as session:
            self.crossed(session)
            session.insert(3, 4, kind=2)
            picture = session.picture()
            self.assertEqual(session.edge(0), EdgeAnswer(0, 0, 1, 0, 3, (Meeting(0, 5, "ltr"),)))
            self.assertEqual(session.edge(5), EdgeAnswer(5, 3, 4, 2, None, (Meeting(0, 0, "rtl"),)))
            self.assertEqual(session.vertex(0), VertexAnswer((0, 4, 2, 3), ("a", "a", "b", "a")))
            for dart in picture.darts:
                self.assertEqual(session.face(*dart[:2], dart.way), picture.face(dart))
            self.assertEqual(session.face(0), picture.face(Dart(0, 0)))

    def test_refusals_and_faults(self):
        with self.session(limits=Limits(9, 1, 0)) as session:
            self.assertEqual(session.route(0, 2), Refused(1, "NoVertex"))
            self.assertEqual(session.route(0, 0), Refused(2, "SameEnds"))
            self.assertEqual(session.route(0, 1), Refused(7, "Full"))
            self.assertEqual((session.edge(1), session.face(1)), (Refused(4, "NoEdge"), Refused(4, "NoEdge")))
            self.assertEqual(session.vertex(2), Refused(1, "NoVertex"))
            self.assertEqual(session.face(0, 1), Refused(71, "NoDart"))
            for call, due in (
                (lambda: session.face(0, 0, "left"), "52 BadShape $/3"),
                (lambda: session.edge(-1), "54 BadNumber $/1"),
                (lambda: session.route(0, 2**32), "54 BadNumber $/2"),
            ):
                with self.assertRaises(Fault) as caught:
                    call()
                self.assertEqual(str(caught.exception), due)
            with self.assertRaises(TypeError):
                session.vertex("0")
            self.assertEqual(session.report().history, ())

    def test_what_the_program_is(self):
        with self.session() as session:
            about = session.about()
        self.assertEqual((about.program, about.version, about.limits), ("planar", __version__, Limits()))
        self.assertLessEqual({"about", "face", "grow", "open", "route"}, set(about.requests))

    def test_another_picture_in_the_same_process(self):
        with self.session(prices=[3]) as session:
            self.crossed(session)
            before, process = session.picture(), session.process_id
            wrong = Picture(((0,), ()), before.edges[:1], (), 1, 0)
            for words, due in (
                ({"prices": [0]}, "10 BadPrice 0"),
                ({"limits": Limits(1, 1, 1)}, "11 BadLimits"),
                ({"start": wrong}, "23 BadRotation"),
                ({"limits": Limits(2, -1, 1)}, "54 BadNumber $/open/limits/edges"),
            ):
                with self.assertRaises(Fault) as caught:
                    session.open(**words)
                self.assertEqual(str(caught.exception), due)
                self.assertEqual((session.picture(), session.prices, session.limits), (before, (3,), Limits()))
            self.assertEqual(session.open(limits=Limits(3), prices=[None]), Counts(2, 0, 1, 1, 1))
            self.assertEqual((session.prices, session.limits, session.process_id), ((None,), Limits(3), process))
            self.assertEqual(session.report(), Planarizer(limits=Limits(3), prices=[None]).run())
            self.assertEqual(session.open(before).edges, 5)
            self.assertEqual(session.report().start, before)
            session.renumber()
            self.assertEqual((session.counts().edges, session.prices, session.process_id), (5, (), process))
            with self.interrupted(session), self.assertRaises(KeyboardInterrupt):
                session.open(prices=[1])
            self.assertTrue(session.is_closed)


@needs_program
class Reports(Sessions, unittest.TestCase):
    """What takes calls back, begins the report anew or goes on from one."""

    def crossed(self, session):
        """Takes edges out and puts them in again, in a picture with crossings."""
        for vertex in range(4):
            session.grow(vertex)
        edges = [session.insert(u, v).edge for u in range(6) for v in range(u)]
        for edge in edges[::3]:
            session.delete(edge)

    def test_calls_are_taken_back(self):
        with self.session(prices=[2]) as session:
            told, counts = [], []
            for name, *numbers in some_calls(60, 4):
                told.append((session.picture(), session.report()))
                counts.append(Counts(*session.counts()))
                getattr(session, name)(*numbers)
            due = session.report()
            for count in (0, 1, 7, 30):
                before, report = told[len(due.history) - count] if count else (due.picture, due)
                undone = Undone(count, len(before.rotations), before.next_edge, before.next_crossing)
                self.assertEqual(session.undo(count), undone)
                self.assertEqual((session.picture(), session.report()), (before, report))
                for entry in due.history[len(due.history) - count :]:
                    name, *numbers = entry.call.to_json()
                    self.assertEqual(getattr(session, name)(*numbers), entry.reply)
                self.assertEqual(session.report(), due)
            with self.assertRaises(Fault) as caught:
                session.undo(61)
            self.assertEqual(str(caught.exception), "70 NothingToUndo 61")
            self.assertEqual(session.undo().undone, 1)
            for count in (-1, 2**32):
                with self.assertRaisesRegex(Fault, "54 BadNumber .*/1"):
                    session.undo(count)
            self.assertEqual(session.undo(59), Undone(59, 2, 1, 0))

    def test_what_is_forgotten(self):
        with self.session(prices=[2]) as session:
            self.crossed(session)
            before = session.picture()
            self.assertEqual(session.forget(), before.counts)
            report = session.report()
            self.assertEqual((report.history, report.start, report.picture), ((), before, before))
            with self.assertRaisesRegex(Fault, "70 NothingToUndo 1"):
                session.undo()
            session.grow(0)
            session.undo()
            self.assertEqual(session.report(), report)

    def test_a_report_is_gone_on_from(self):
        with self.session(limits=Limits(9, 99, 999), prices=[2, None]) as session:
            self.crossed(session)
            report, process = session.report(), session.process_id
            session.open()
            self.assertEqual(session.reopen(report), report.picture.counts)
            self.assertEqual((session.prices, session.limits), ((2, None), Limits(9, 99, 999)))
            self.assertEqual((session.report(), session.process_id), (report, process))
            lie = replace(report, history=report.history[1:])
            for wrong, due in ((lie, "60 WrongReply 0"), (replace(report, history=()), "61 WrongPicture")):
                with self.assertRaises(Fault) as caught:
                    session.reopen(wrong)
                self.assertEqual(str(caught.exception), due)
            self.assertEqual((session.report(), session.prices), (report, (2, None)))
        with Session.from_report(report, process=self.process) as session:
            self.assertEqual((session.report(), session.prices, session.limits), (report, (2, None), report.limits))
            self.assertEqual(session.undo(len(report.history)), Undone(len(report.history), 2, 1, 0))
            self.assertEqual(session.report(), Planarizer(limits=report.limits, prices=[2, None]).run())
        with self.assertRaisesRegex(Fault, "60 WrongReply 0"):
            Session.from_report(lie, process=self.process)

    def test_ids_begin_at_0(self):
        with self.session(prices=[2]) as session:
            self.crossed(session)
            before, counts, process = session.picture(), session.counts(), session.process_id
            self.assertGreater(counts.crossings, 0)
            old = session.renumber()
            after = session.picture()
            self.assertEqual((session.counts(), Planarizer().check(after)), (counts, counts))
            self.assertEqual((session.report().prices, session.report().start), ((2,), after))
            self.assertEqual(session.process_id, process)
        self.assertEqual(old.edges, tuple(row.id for row in before.edges))
        self.assertEqual(old.crossings, tuple(row.id for row in before.crossings))
        self.assertEqual((after.next_edge, after.next_crossing), (counts.edges, counts.crossings))
        for place, row in enumerate(after.edges):
            then = before.edge(old.edges[row.id])
            self.assertEqual((row.id, row.a, row.b, row.kind), (place, then.a, then.b, then.kind))
            self.assertEqual(tuple(old.crossings[it] for it in row.crossings), then.crossings)
        for place, row in enumerate(after.crossings):
            then = before.crossing(old.crossings[row.id])
            self.assertEqual(
                (row.id, old.edges[row.crossed], old.edges[row.newcomer], row.sign),
                (place, then.crossed, then.newcomer, then.sign),
            )

    def test_it_makes_room_where_the_ids_have_run_out(self):
        with self.session(limits=Limits(2, 3, 0)) as session:
            for edge in (1, 2):
                self.assertEqual(session.insert(0, 1).edge, edge)
                session.delete(edge)
            self.assertEqual(session.insert(0, 1), Refused(7, "Full"))
            self.assertEqual(session.renumber(), Renumbered((0,), ()))
            self.assertEqual(session.insert(0, 1).edge, 1)

    def test_an_interrupt(self):
        """It ends the session where nothing tells later whether the request was carried out."""
        with self.session() as session:
            report = session.report()
        for name, words, is_closed in (
            ("undo", (0,), False), ("forget", (), False), ("renumber", (), True), ("reopen", (report,), True),
        ):
            with self.session() as session:
                with self.interrupted(session), self.assertRaises(KeyboardInterrupt):
                    getattr(session, name)(*words)
                self.assertEqual(session.is_closed, is_closed)

    def test_calls_that_are_interrupted(self):
        with self.session() as session:
            with self.interrupted(session), self.assertRaises(KeyboardInterrupt):
                session.grow(0)
            self.assertEqual(session.grow(0), Grown(3, 2))
            with self.interrupted_before(session), self.assertRaises(KeyboardInterrupt):
                session.grow(0)
            self.assertEqual(session.counts().vertices, 4)
            self.assertEqual(session.report().replies, (Grown(2, 1), Grown(3, 2)))

    def test_the_end(self):
        with self.session() as session:
            session.grow(0)
        self.assertTrue(session.is_closed)
        self.assertEqual((repr(session), session.process_id), ("<Session: closed>", None))
        session.close()
        for call in (session.counts, session.picture, session.undo, session.renumber, lambda: session.grow(0)):
            with self.assertRaises(SessionClosed):
                call()

    def test_a_call_before_another_has_ended(self):
        """It is not carried out, also where it would end the session, and the other one is answered."""
        with self.session() as session:
            begun, is_free, answered = Event(), Event(), []
            asked = session._answerer.ask_all

            def ask_all(lines):
                begun.set()
                is_free.wait()
                return asked(lines)

            with mock.patch.object(session._answerer, "ask_all", ask_all):
                asking = Thread(target=lambda: answered.extend(session.answers(['["grow",0,0,0]'])))
                asking.start()
                self.assertTrue(begun.wait(60))
                for call in (session.counts, session.renumber, session.open, session.close, lambda: session.grow(1)):
                    with self.assertRaises(SessionInUse):
                        call()
                is_free.set()
                asking.join()
            self.assertEqual((answered, session.counts().vertices), (['{"edge":1,"vertex":2}'], 3))

    def test_two_threads_and_a_signal(self):
        """Each gets the answers to its own calls, or SessionInUse."""
        with self.session() as session:
            for vertex in range(3):
                session.grow(vertex)
            due = [session.vertex(vertex) for vertex in range(3)]
            told = [[], [], []]

            def ask(vertex):
                try:
                    told[vertex].append(session.vertex(vertex))
                except SessionInUse:
                    told[vertex].append(None)

            def ask_on(vertex):
                while told[vertex].count(due[vertex]) < 300:
                    ask(vertex)
                    time.sleep(0 if told[vertex][-1] else 0.0001)

            asking = Thread(target=ask_on, args=[1])
            before = signal.signal(signal.SIGALRM, lambda number, frame: ask(2))
            signal.setitimer(signal.ITIMER_REAL, 0.0003, 0.0003)
            try:
                asking.start()
                ask_on(0)
                asking.join()
            finally:
                signal.setitimer(signal.ITIMER_REAL, 0)
                signal.signal(signal.SIGALRM, before)
            self.assertIn(None, told[0] + told[1] + told[2])
            for answers, right in zip(told, due):
                self.assertLessEqual(set(answers), {right, None})
            self.assertEqual(session.vertex(0), due[0])


class CallsOverAProcess(Calls):
    process = True


class QuestionsOverAProcess(Questions):
    process = True


class ReportsOverAProcess(Reports):
    process = True


class Ends(unittest.TestCase):
    """What ends a session over a process, by the program where it is there, and by shell scripts in its place."""

    @needs_program
    def test_the_block_ends_the_process(self):
        with Session(process=True) as session:
            process = session.process_id
        self.assertTrue(ended(process))
        self.assertTrue(session.is_closed)
        session.close()
        for call in (session.counts, session.picture, session.undo, session.renumber, lambda: session.grow(0)):
            with self.assertRaises(SessionClosed):
                call()

    @needs_program
    def test_an_exception_in_the_block_ends_the_process(self):
        with self.assertRaisesRegex(KeyError, "mine"):
            with Session(process=True) as session:
                process = session.process_id
                raise KeyError("mine")
        self.assertTrue(ended(process))

    @needs_program
    def test_a_process_that_is_killed(self):
        with self.assertRaises(ProgramFailed) as caught:
            with Session(process=True) as session:
                session.grow(0)
                os.kill(session.process_id, signal.SIGKILL)
                session.grow(0)
        self.assertEqual(caught.exception.status, -signal.SIGKILL)
        self.assertTrue(session.is_closed)
        with self.assertRaises(SessionClosed):
            session.counts()

    @needs_program
    def test_a_call_that_is_interrupted(self):
        with Session(process=True) as session:
            with mock.patch.object(line_process.os, "read", side_effect=KeyboardInterrupt):
                with self.assertRaises(KeyboardInterrupt):
                    session.grow(0)
            self.assertEqual(session.grow(0), Grown(3, 2))
            with mock.patch.object(line_process.os, "write", side_effect=KeyboardInterrupt):
                with self.assertRaises(KeyboardInterrupt):
                    session.grow(0)
            self.assertEqual(session.counts().vertices, 4)
            self.assertEqual(session.report().replies, (Grown(2, 1), Grown(3, 2)))

    @needs_program
    def test_calls_that_are_interrupted_again_and_again(self):
        """Before a line is written or an answer is read, or just after it."""
        with Session(process=True) as session:
            for name in ("read", "write"):
                done = getattr(os, name)
                for is_done in (False, True):

                    def interrupted(*words, done=done, is_done=is_done):
                        _ = done(*words) if is_done else None
                        raise KeyboardInterrupt

                    for _ in range(5):
                        with mock.patch.object(line_process.os, name, interrupted):
                            with self.assertRaises(KeyboardInterrupt):
                                session.insert(0, 0)
                        self.assertEqual(session.counts(), Counts(2, 0, 1, 1, 1))
                        self.assertEqual(session.delete(7), Refused(4, "NoEdge"))
            self.assertEqual(session.report().replies.count(Refused(4, "NoEdge")), 20)
            with mock.patch.object(line_process.os, "read", side_effect=KeyboardInterrupt):
                for is_closed in (False, True):
                    with self.assertRaises(KeyboardInterrupt):
                        session.grow(0)
                    self.assertEqual(session.is_closed, is_closed)

    @needs_program
    def test_lines_that_are_answered_as_others_are_interrupted(self):
        """Before or after they are written, before or after their answers are read: the next answers are those of the
        next lines, whatever the lines were, also where they are answered as those with which a session finds its place
        again."""
        refused = ['["delete","x"]', '["grow","x",0,0]', '["insert","x",1,0]', '["delete",""]', "[]", ""]
        with Session(process=True) as session:
            for name in ("write", "read"):
                for is_done in (False, True):
                    for lines in (
                        *([line] for line in refused),
                        refused,
                        refused[:4] * 7,
                        ['"picture"', *refused],
                        refused[:4] * 200,
                    ):
                        done = getattr(os, name)

                        def interrupted(*words, done=done, is_done=is_done):
                            _ = done(*words) if is_done else None
                            raise KeyboardInterrupt

                        if name == "write" and sum(len(line) + 1 for line in lines) > line_process._AT_ONCE:
                            continue  # which ends the session
                        with mock.patch.object(line_process.os, name, interrupted), self.assertRaises(
                            KeyboardInterrupt
                        ):
                            session.answers(lines)
                        self.assertEqual(session.answers(['"counts"', "["]), [COUNTS, '{"fault":[50,"NotJson"]}'])
                        self.assertEqual(session.counts(), Counts(2, 0, 1, 1, 1))
            self.assertEqual(session.report().history, ())

    @needs_program
    def test_answers_that_are_interrupted_in_their_middle(self):
        """Some of the answers were read, and perhaps the beginning of the next; or they were read and are lost."""
        lines = ['["delete","x"]', '"counts"', '["delete","x"]', '["delete","x"]']
        done = os.read

        def read_wholly(source, count):
            text = b""
            while len(text) < count:
                text += done(source, count - len(text))
            return text

        with Session(process=True) as session:
            for count in range(1, sum(len(answer) + 1 for answer in session.answers(lines)) + 1):
                for is_lost in (False, True):
                    counts = iter((count,))

                    def cut_short(source, room, counts=counts, is_lost=is_lost):
                        text = read_wholly(source, next(counts, 0))
                        if is_lost or not text:
                            raise KeyboardInterrupt
                        return text

                    with mock.patch.object(line_process.os, "read", cut_short):
                        try:
                            session.answers(lines)
                        except KeyboardInterrupt:
                            pass  # which does not come where all answers are read
                    self.assertEqual(session.counts(), Counts(2, 0, 1, 1, 1))
                    self.assertEqual(session.delete(7), Refused(4, "NoEdge"))

    def test_a_line_that_was_sent_in_part(self):
        """Where a line is too long to be sent wholly or not at all, an interrupt as it is sent ends the session."""
        with Session(program=fake(self, f"read line; echo '{COUNTS}'; exec cat > /dev/null")) as session:
            done = os.write

            def in_part(target, data):
                done(target, bytes(data[:100]))
                raise KeyboardInterrupt

            with mock.patch.object(line_process.os, "write", in_part), self.assertRaises(KeyboardInterrupt):
                session.answers(['["delete","x"]' * 40])
            self.assertTrue(session.is_closed)

    def other(self, body: str) -> "subprocess.Popen[str]":
        """Another Python in a group of its own, which has a session, prints the number of its process, and goes on so.
        At Ctrl-C it prints what it is answered then."""
        # A process that is begun in the background of a shell has Ctrl-C turned off.
        heeded = "__import__('signal').signal(2, __import__('signal').default_int_handler)"
        lines = (
            "from fezdrok import Session",
            heeded,
            "with Session(process=True) as session:",
            "  try:",
            "    print(session.process_id, flush=True)",
            f"    {body}",
        )
        caught = ("  except KeyboardInterrupt:", "    print(session.grow(0), session.report().replies[-1])")
        words = {**os.environ, "PYTHONPATH": os.pathsep.join(sys.path)}
        python = subprocess.Popen(
            [sys.executable, "-c", "\n".join(lines + caught)],
            env=words,
            stdout=subprocess.PIPE,
            text=True,
            start_new_session=True,
        )
        self.addCleanup(python.wait)
        self.addCleanup(python.kill)
        self.addCleanup(python.stdout.close)
        return python

    @needs_program
    def test_no_process_outlives_the_one_that_began_it(self):
        for number in (signal.SIGTERM, signal.SIGKILL):
            python = self.other("__import__('time').sleep(60)")
            process = int(python.stdout.readline())
            self.assertFalse(ended(process))
            os.kill(python.pid, number)
            self.assertEqual(python.wait(), -number)
            due = time.monotonic() + 10
            while not is_over(process) and time.monotonic() < due:
                time.sleep(0.01)
            self.assertTrue(is_over(process))

    @needs_program
    def test_ctrl_c_does_not_reach_the_program(self):
        python = self.other("while True: session.insert(0, 0)")
        python.stdout.readline()
        time.sleep(0.05)
        os.killpg(python.pid, signal.SIGINT)
        self.assertEqual(python.stdout.readline(), "Grown(vertex=2, edge=1) Grown(vertex=2, edge=1)\n")
        self.assertEqual(python.wait(), 0)

    def failure(self, body: str) -> PlanarError:
        """The exception of a session over a shell script that ends in its own way at the first call."""
        with Session(program=fake(self, BEGUN + body)) as session:
            with self.assertRaises(PlanarError) as caught:
                session.grow(0)
            self.assertTrue(session.is_closed)
        return caught.exception

    def test_a_program_that_ends_early(self):
        self.assertEqual((self.failure("echo oh >&2; exit 77").status, self.failure("exit 0").status), (77, 0))
        self.assertIn("oh dear", str(self.failure("echo oh dear >&2; exit 77")))
        memory = self.failure("echo 'planar: 8 Memory' >&2; exit 3")
        self.assertEqual((type(memory), str(memory)), (MemoryFault, "8 Memory"))
        self.assertEqual(self.failure("printf '{\"edge\":1'").status, 0)

    def test_a_program_that_reads_nothing(self):
        with self.assertRaisesRegex(Fault, "51 TooLong"):
            Session(
                start=mock.Mock(to_json=lambda: " " * 10_000_000),
                program=fake(self, "exec <&-; echo 'planar: 51 TooLong' >&2; exit 1"),
            )

    def test_an_answer_in_another_form(self):
        for answer in ("hello", "[]", "{}", '{"edge":1}', '"edge"'):
            self.assertIn(answer, str(self.failure(f"echo '{answer}'")).replace("\\", ""))

    def test_a_program_without_the_command(self):
        with self.assertRaisesRegex(UsageRefused, "unrecognized"):
            Session(program=fake(self, "echo 'error: unrecognized subcommand' >&2; exit 2"))

    def test_no_program(self):
        with self.assertRaises(ProgramNotFound):
            Session(program="/nowhere/planar")
        path = fake(self, "")
        with open(path, "w") as file:
            file.write("#!/nowhere/sh\n")
        with self.assertRaises(ProgramNotStarted):
            Session(program=path)

    def test_a_process_that_could_outlive_this_one(self):
        """The system refuses to end it with this one."""
        begun, before = [], os.listdir("/dev/fd")

        def refused(reading, process):
            begun.append(process)
            raise OSError("no such thing")

        with mock.patch.object(line_process, "kill_when_closed", refused), self.assertRaisesRegex(
            ProgramNotStarted, "no such thing"
        ):
            Session(program=fake(self, "exec sleep 30"))
        self.assertEqual([ended(process) for process in begun], [True])
        self.assertEqual(os.listdir("/dev/fd"), before)

    def test_much_on_standard_error(self):
        with Session(program=fake(self, f"head -c 1000000 /dev/zero >&2; {BEGUN} echo '{COUNTS}'")) as session:
            self.assertEqual(session.counts(), Counts(2, 0, 1, 1, 1))

    def test_a_program_that_does_not_end(self):
        with mock.patch.object(line_process, "PATIENCE", 0.1):
            with Session(program=fake(self, f"read line; echo '{COUNTS}'; exec sleep 30")) as session:
                process = session.process_id
        self.assertTrue(ended(process))


if __name__ == "__main__":
    unittest.main()

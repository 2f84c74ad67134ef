"""Interrupts at any place of a call, calls from signal handlers, and sessions in forks.

TFPG_INTERRUPTS says how many interrupts there are, 3,000 if it says nothing.
"""

import gc
import os
import random
import signal
import threading
import time
import unittest
from unittest import mock

import tfpg
from support import EXAMPLES, library_words, tiny
from tfpg.calls import reporting
from tfpg.calls.library import library

INTERRUPTS = int(os.environ.get("TFPG_INTERRUPTS", "3000"))
LONGEST = 60  # seconds that something may take that must not wait for ever
EVENTS = ["alarm Wet", "silent Wet", "tick", "alarm Nobody", "mode Stop", "mode Run", "sweep", "tick now"]


class Interrupted(BaseException):
    """What the signal handler of these tests raises, as that of Python raises KeyboardInterrupt."""


def interrupt(*_):
    raise Interrupted


class Signalled(unittest.TestCase):
    def setUp(self):
        before = signal.signal(signal.SIGALRM, interrupt)
        self.addCleanup(signal.signal, signal.SIGALRM, before)
        self.addCleanup(signal.setitimer, signal.ITIMER_REAL, 0)

    def in_a_thread(self, call):
        """What a call returns in another thread, if it comes back from there."""
        found = []
        thread = threading.Thread(target=lambda: found.append(call()), daemon=True)
        thread.start()
        thread.join(LONGEST)
        self.assertFalse(thread.is_alive(), "the call waits for ever")
        return found[0]


def line_of(number):
    """A line of a log that has no end, and not one line twice."""
    return f"{number} {EVENTS[number % len(EVENTS)]}" if number % 11 else f"{number - 7} tick"


def until_interrupted(delay, step):
    """Makes steps until an interrupt comes after so many seconds. Python drops one that comes while an object ends."""
    deadline = time.monotonic() + delay + 1
    try:
        signal.setitimer(signal.ITIMER_REAL, delay)
        while time.monotonic() < deadline:
            step()
    except Interrupted:
        pass


@unittest.skipIf(library_words(), library_words())
class Interrupts(Signalled):
    def test_no_answer_is_lost(self):
        """Of two sessions one is interrupted. It goes on by `count`, and has the same answers."""
        graph, draw, answers = tfpg.Graph(tiny()), random.Random(1), {}
        with tfpg.Session(graph, k=1) as session:
            for _ in range(INTERRUPTS):
                def step():
                    number = session.count + 1
                    answers[number] = session.line(line_of(number)) if number % 3 else event_of(session, number)
                until_interrupted(draw.choice((2e-5, 5e-5, 1e-4, 4e-4)) * (1 + draw.random()), step)
                if session.count:
                    answers[session.count] = session.last
            count = session.count
            self.assertEqual(self.in_a_thread(lambda: session.count), count)
        self.assertGreater(count, INTERRUPTS // 2)
        self.assertEqual(sorted(answers), list(range(1, count + 1)))
        with tfpg.Session(graph, k=1) as session:
            for number in range(1, count + 1):
                self.assertEqual(session.line(line_of(number)), answers[number])

    def test_a_renewing_session(self):
        graph, draw = tfpg.Graph(tiny()), random.Random(2)
        with tfpg.RenewingSession(graph, k=1, events=9) as session, tfpg.Session(graph, k=1) as other:
            def step():
                session.line(line_of(session.count + 1))
            for _ in range(INTERRUPTS // 10):
                until_interrupted(draw.choice((5e-5, 2e-4, 1e-3)) * (1 + draw.random()), step)
            count = session.count
            self.assertGreater(count, INTERRUPTS // 20)
            self.assertGreater(session.renewals, 0)
            for number in range(1, count + 1):
                last = other.line(line_of(number))
            same = [[(one.set, one.cost, one.alarmed, one.monitored) for one in answer.ranked]
                    for answer in (session.line(f"{count + 1} tick"), other.line(f"{count + 1} tick"))]
            self.assertEqual(same[0], same[1])
            self.assertEqual(type(session.last), type(last) if isinstance(last, tfpg.Round) else tfpg.Round)

    def test_nothing_stays_open(self):
        """Sessions that are opened, used and closed while interrupts come leave no memory of the library."""
        graph, draw, handles = tfpg.Graph(tiny()), random.Random(3), []

        def step():
            with tfpg.Session(graph, k=1) as session:
                handles.append(session._handle)
                session.line("5 tick")
        for _ in range(INTERRUPTS // 10):
            until_interrupted(draw.choice((1e-4, 1e-3)) * (1 + draw.random()), step)
        gc.collect()
        self.assertGreater(len(handles), INTERRUPTS // 20)
        self.assertEqual([handle for handle in handles if handle.is_open], [])

    def test_a_report_looks_for_interrupts_between_lines(self):
        graph, log = tfpg.Graph.load(EXAMPLES / "pump.tfpg"), [f"{number} tick" for number in range(60000)]
        taken = []

        class Counted(tfpg.Session):
            def _line(self, content):
                taken.append(len(taken))
                if len(taken) == 100:
                    os.kill(os.getpid(), signal.SIGALRM)
                return super()._line(content)

        with mock.patch.object(reporting, "Session", Counted), self.assertRaises(Interrupted):
            tfpg.report(graph, log)
        self.assertLess(self.at_rest(taken), len(log) // 2)

    def at_rest(self, items):
        """How many items a list has once no more come."""
        count = -1
        while count != len(items):
            count = len(items)
            time.sleep(0.2)
        return count

    def test_an_interrupt_does_not_wait_for_a_long_line(self):
        """Nor is the session closed before the line is taken."""
        began, may_end, closed = threading.Event(), threading.Event(), []

        class Slow(tfpg.Session):
            def _line(self, content):
                began.set()
                may_end.wait(LONGEST)
                return super()._line(content)

            def close(self):
                closed.append(self.count)
                super().close()

        def kill():
            began.wait(LONGEST)
            os.kill(os.getpid(), signal.SIGALRM)
        threading.Thread(target=kill).start()
        with mock.patch.object(reporting, "Session", Slow), self.assertRaises(Interrupted):
            tfpg.report(tfpg.Graph(tiny()), "5 tick\n6 tick\n", k=1)
        self.assertEqual((may_end.is_set(), closed), (False, []))
        may_end.set()
        deadline = time.monotonic() + LONGEST
        while not closed and time.monotonic() < deadline:
            time.sleep(0.01)
        self.assertEqual(closed, [1])

    def test_the_text_of_a_refused_line_stays_its_own(self):
        """An interrupt comes after a line was taken and before its answer was read, and another one before the next line is taken."""
        with tfpg.Session(tfpg.Graph(tiny()), k=1) as session:
            with mock.patch.object(session._numbers, "brought", side_effect=Interrupted), self.assertRaises(Interrupted):
                session.line("5 tock")
            with mock.patch.object(session, "_calls", mock.Mock(line=interrupt)), self.assertRaises(Interrupted):
                session.line("6 tick")
            self.assertEqual((session.count, session.last.text), (1, "5 tock"))
            self.assertEqual(session.line("7 tick").line, 2)

    def test_a_call_over_a_whole_log_ends_at_once(self):
        """The library goes on with it, in another thread."""
        began, may_end, graph = threading.Event(), threading.Event(), tfpg.Graph(tiny())

        def slow(*words):
            began.set()
            may_end.wait(LONGEST)
            return library().ask(*words)

        def kill():
            began.wait(LONGEST)
            os.kill(os.getpid(), signal.SIGALRM)
        threading.Thread(target=kill).start()
        with mock.patch("tfpg.calls.asking.library") as patched, self.assertRaises(Interrupted):
            patched.return_value.ask = slow
            tfpg.ask(graph, "5 tick\n", k=1)
        self.assertFalse(may_end.is_set())
        may_end.set()
        self.assertEqual(tfpg.ask(graph, "5 tick\n", k=1).now, 5)


def event_of(session, number):
    """What a session answers to the event that a line says."""
    time_word, *words = line_of(number).split(" ")
    return session.event(int(time_word), *words)


@unittest.skipIf(library_words(), library_words())
class Handlers(Signalled):
    def test_a_handler_is_told_that_the_session_is_busy(self):
        """The signal comes while the library takes a line: each call that a handler may make ends with an error, and at once."""
        told = []
        with tfpg.Session(tfpg.Graph(tiny()), k=1) as session:
            calls = {"line": lambda: session.line("9 tick"), "event": lambda: session.event(9, "tick"), "block": lambda: session.block,
                     "last": lambda: session.last, "count": lambda: session.count, "close": session.close}

            def handler(*_):
                for name, call in calls.items():
                    try:
                        call()
                    except tfpg.SessionBusy:
                        told.append(name)

            signal.signal(signal.SIGALRM, handler)
            taken = session._numbers.brought

            def brought():
                os.kill(os.getpid(), signal.SIGALRM)
                return taken()
            with mock.patch.object(session._numbers, "brought", brought):
                answer = session.line("5 tick")
            self.assertEqual((answer.now, session.count, told), (5, 1, list(calls)))
            self.assertEqual(session.line("6 tick").line, 2)

    def test_a_handler_between_calls_may_call(self):
        with tfpg.Session(tfpg.Graph(tiny()), k=1) as session:
            signal.signal(signal.SIGALRM, lambda *_: session.event(7, "tick"))
            session.line("5 tick")
            os.kill(os.getpid(), signal.SIGALRM)
            self.assertEqual((session.count, session.last.now), (2, 7))

    def test_closing_while_another_thread_waits(self):
        with tfpg.Session(tfpg.Graph(tiny()), k=1) as session:
            session.line("5 tick")
            self.in_a_thread(session.close)
            self.assertRaises(tfpg.SessionClosed, session.line, "6 tick")
            self.assertEqual((session.last.now, session.count), (5, 1))


@unittest.skipIf(library_words(), library_words())
class Forks(unittest.TestCase):
    def ended(self, child):
        """What a child says, which runs in a fork, and which does not wait for ever."""
        reader, writer = os.pipe()
        number = os.fork()
        if number == 0:
            try:
                os.write(writer, repr(child()).encode())
            finally:
                os._exit(0)
        os.close(writer)
        deadline = time.monotonic() + LONGEST
        while os.waitpid(number, os.WNOHANG) == (0, 0):
            if time.monotonic() > deadline:
                os.kill(number, signal.SIGKILL)
                os.waitpid(number, 0)
                self.fail("the child waits for ever")
            time.sleep(0.01)
        with os.fdopen(reader, "rb") as file:
            return file.read().decode()

    def test_each_call_says_whose_the_session_is(self):
        with tfpg.Session(tfpg.Graph(tiny()), k=1) as session, tfpg.RenewingSession(tfpg.Graph(tiny()), k=1) as renewing:
            session.line("5 tick")

            def child():
                said = []
                for one in (session, renewing):
                    for call in (lambda: one.line("6 tick"), lambda: one.event(6, "tick"), lambda: one.block, lambda: one.last,
                                 lambda: one.count, lambda: list(one.rounds("6 tick\n"))):
                        try:
                            call()
                        except tfpg.OtherProcess as fault:
                            said.append((fault.opened, fault.here == os.getpid(), str(fault.opened) in str(fault)))
                    one.close()
                return said
            self.assertEqual(self.ended(child), repr([(os.getpid(), True, True)] * 12))
            self.assertTrue(session._handle.is_open)
            self.assertEqual((session.line("6 tick").line, renewing.line("6 tick").line), (2, 1))

    def test_a_child_does_not_wait_for_a_lock(self):
        """A thread of the parent has the session at the fork, and nobody in the child will ever give it back."""
        inside, may_go = threading.Event(), threading.Event()
        with tfpg.Session(tfpg.Graph(tiny()), k=1) as session:
            def hold():
                inside.set()
                may_go.wait(LONGEST)
            thread = threading.Thread(target=session._turns.take, args=(hold,))
            thread.start()
            inside.wait(LONGEST)

            def child():
                session.close()
                try:
                    return session.count
                except tfpg.Error as fault:
                    return type(fault).__name__
            said = self.ended(child)
            may_go.set()
            thread.join(LONGEST)
            self.assertEqual(said, repr("OtherProcess"))
            self.assertEqual(session.line("5 tick").now, 5)

    def test_the_end_of_the_object_in_a_child(self):
        session = tfpg.Session(tfpg.Graph(tiny()), k=1)
        handle = session._handle

        def child():
            nonlocal session
            del session
            gc.collect()
            return handle.is_open
        self.assertEqual(self.ended(child), "True")
        self.assertTrue(handle.is_open)

    def test_a_child_has_sessions_of_its_own(self):
        with tfpg.Session(tfpg.Graph(tiny()), k=1) as session:
            session.line("5 tick")

            def child():
                with tfpg.Session(tfpg.Graph(tiny()), k=1) as own:
                    return own.line("7 tick").now
            self.assertEqual(self.ended(child), "7")


if __name__ == "__main__":
    unittest.main()

"""A log that gets full: a strict session says so, and a renewing one does what `examples/renew.c` does, byte for byte."""

import contextlib
import os
import random
import shutil
import subprocess
import tempfile
import threading
import unittest
from pathlib import Path
from time import sleep

import tfpg
from support import EXAMPLES, TOP, library_words, text, tiny
from tfpg.calls.kept_lines import KeptLines
from tfpg.calls.library import library
from tfpg.limits import MOST_CHANGES, MOST_EVENTS

COMPILER = shutil.which("cc")
WRONG = ["", "x tick", "{} tock", "{} alarm Nobody", "{} tick ", "3 tick"]


def random_lines(draw, graph, count):
    """Lines of a graph at rising times, of which some are wrong and some repeat what others say."""
    lines, time = [], 0
    for _ in range(count):
        time += draw.choice((0, 0, 1, 500, 60000))
        kind = draw.choice(["alarm", "alarm", "silent", "silent", "sweep", "tick", "mode", "wrong"])
        names = {"alarm": graph.monitored, "silent": graph.monitored, "mode": graph.modes}.get(kind)
        wrong = draw.choice(WRONG).replace("{}", str(time))
        lines.append(wrong if kind == "wrong" else f"{time} {kind}" + (f" {draw.choice(names)}" if names else ""))
    return lines


def written(graph, lines, events=None):
    """What renew.c has to write, of the texts of a renewing session. Of a new session they are those of another one."""
    said = []
    with tfpg.RenewingSession(graph, events=events) as session:
        said.append(session.head)
        inside = 0
        for line in lines:
            renewals, kept = session.renewals, session.kept
            try:
                answer = session.line(line)
            except tfpg.LogFull as full:
                answer = full.refused
            if session.renewals > renewals:
                if events is None:
                    said.append(f"refused {inside + 1} {'ModesFull' if ' mode ' in line else 'LogFull'}\n")
                said += blocks(graph, kept)
            inside = answer.line
            said.append(session.block)
    return "".join(said)


def blocks(graph, lines):
    """The texts of a new session that takes these lines."""
    with tfpg.Session(graph) as session:
        yield session.head
        for _ in session.rounds(lines):
            yield session.block


@unittest.skipIf(library_words(), library_words())
@unittest.skipUnless(COMPILER, "cc, the C compiler, is missing")
class BesideC(unittest.TestCase):
    @classmethod
    def setUpClass(cls):
        folder = tempfile.TemporaryDirectory(prefix="tfpg-python-")
        cls.addClassCleanup(folder.cleanup)
        cls.folder, cls.program = Path(folder.name), str(Path(folder.name, "renew"))
        words = [COMPILER, "-I", str(TOP / "include"), "-o", cls.program, str(EXAMPLES / "renew.c"), library().path]
        subprocess.run(words, check=True)

    def renewed(self, graph, lines, events=None, status=0):
        """What renew.c writes."""
        (self.folder / "graph").write_bytes(graph.text)
        words = [self.program, str(self.folder / "graph"), *([] if events is None else [str(events)])]
        # The program asks for the library by the name that it has with its version, which the file in a checkout does not bear.
        named = {**os.environ, "LD_PRELOAD": library().path}
        ran = subprocess.run(words, input=text(lines).encode(), stdout=subprocess.PIPE, check=False, env=named)
        self.assertEqual(ran.returncode, status)
        return ran.stdout.decode("ascii")

    def test_random_logs(self):
        graphs = [tfpg.Graph.load(EXAMPLES / "pump.tfpg"), tfpg.Graph.load(EXAMPLES / "satellite.tfpg"), tfpg.Graph(tiny())]
        renewals = 0
        for number in range(30):
            draw = random.Random(number)
            graph, events = draw.choice(graphs), draw.choice((1, 5, 20))
            lines = random_lines(draw, graph, 60)
            with self.subTest(number=number):
                said = written(graph, lines, events)
                self.assertEqual(said, self.renewed(graph, lines, events))
                renewals += said.count("report 2 ") - 1
        self.assertGreater(renewals, 100)

    def test_a_full_log(self):
        graph = tfpg.Graph(tiny())
        lines = ["1 sweep", "2 alarm Wet", "3 mode Stop", "4 silent Wet", *(f"{time} tick" for time in range(5, MOST_EVENTS + 9)), "x"]
        with tfpg.RenewingSession(graph) as session:
            answers = list(session.rounds(lines))
            self.assertEqual((session.renewals, session.count, [one for one in answers if isinstance(one, tfpg.Refused)][0].cause),
                             (1, len(lines), "BadLine"))
            last = MOST_EVENTS + 8
            self.assertEqual(session.kept, (b"1 sweep", b"2 alarm Wet", b"3 mode Stop", b"4 silent Wet", f"{last} tick".encode()))
        short = [*lines[:4], *(f"{time} tick" for time in range(5, 20))]
        self.assertEqual(self.renewed(graph, lines).splitlines()[-1], f"refused {12 + 6 - 4} BadLine")
        self.assertEqual(written(graph, short, 9), self.renewed(graph, short, 9))

    def test_many_changes_of_mode(self):
        """More than 1,024 changes, of which those at one time and those to the mode that is there do not matter."""
        graph = tfpg.Graph(tiny())
        lines = [f"{time // 4} mode {'Stop' if time % 8 < 4 or time % 4 else 'Run'}" for time in range(1200)]
        said = written(graph, lines)
        self.assertIn(" ModesFull\nreport 2 ", said)
        self.assertEqual(said, self.renewed(graph, lines))

    def test_too_many_changes_that_matter(self):
        graph = tfpg.Graph(tiny())
        lines = [f"{time} mode {('Run', 'Stop')[time % 2]}" for time in range(1, MOST_CHANGES + 2)]
        with tfpg.RenewingSession(graph) as session:
            for line in lines[:-1]:
                session.line(line)
            for line in (lines[-1], f"{MOST_CHANGES + 2} tick"):
                with self.assertRaisesRegex(tfpg.LogFull, "more than 1,024 changes of the mode matter") as raised:
                    session.line(line)
            self.assertEqual((raised.exception.refused.cause, session.count, session.last.now), ("ModesFull", MOST_CHANGES, MOST_CHANGES))
        self.assertTrue(self.renewed(graph, lines, status=7).endswith(f"refused {MOST_CHANGES + 1} ModesFull\n"))


@unittest.skipIf(library_words(), library_words())
class Full(unittest.TestCase):
    def test_a_strict_session(self):
        with tfpg.Session(tfpg.Graph(tiny()), k=0, strict=True) as session:
            for time in range(MOST_EVENTS):
                session.event(time, "tick")
            for _ in range(2):
                with self.assertRaisesRegex(tfpg.LogFull, "line 6553[78]: LogFull: 70000 tick\n") as raised:
                    session.event(70000, "tick")
                self.assertEqual((raised.exception.refused.cause, session.last), ("LogFull", raised.exception.refused))
            with self.assertRaises(tfpg.LineRefused):
                session.event(5, "tick")

    def test_changes_of_mode(self):
        with tfpg.Session(tfpg.Graph(tiny()), k=0, strict=True) as session:
            for time in range(MOST_CHANGES):
                session.event(time, "mode", "Stop")
            with self.assertRaisesRegex(tfpg.LogFull, "ModesFull"):
                session.event(2000, "mode", "Run")
            self.assertEqual(session.event(2000, "tick").now, 2000)

    def test_a_strict_renewing_session(self):
        with tfpg.RenewingSession(tfpg.Graph(tiny()), k=0, strict=True, events=4, origin=1000) as session:
            for time in range(1000, 1020):
                session.event(time, "tick")
            with self.assertRaises(tfpg.LineRefused):
                session.event(1020, "alarm", "Nobody")
            self.assertEqual((session.count, session.last.text), (21, "1020 alarm Nobody"))
            self.assertEqual(session.event(1021, "silent", "Wet").now, 1021)
            self.assertEqual(session.kept, (b"1021 silent Wet",))
            self.assertGreater(session.renewals, 2)


@unittest.skipIf(library_words(), library_words())
class Closed(unittest.TestCase):
    def test_no_new_session_takes_the_place_of_a_closed_one(self):
        """Neither where a new one would have its turn, nor where no session could take what matters."""
        changes = [f"{time} mode {('Run', 'Stop')[time % 2]}" for time in range(1, MOST_CHANGES + 2)]
        for lines, events in ((["1 tick", "2 tick", "3 tick"], 3), (["1 tick"], None), (changes, None)):
            session = tfpg.RenewingSession(tfpg.Graph(tiny()), k=0, events=events)
            with contextlib.suppress(tfpg.LogFull), session:
                list(session.rounds(lines))
            said = session.head, session.last, session.count, session.renewals, session.kept
            session.close()
            for call in (lambda: session.line("9000 tick"), lambda: session.event(9000, "tick"), lambda: session.block,
                         lambda: list(session.rounds("9000 tick\n"))):
                with self.subTest(lines=len(lines)), self.assertRaisesRegex(tfpg.SessionClosed, "the session is closed"):
                    call()
            self.assertEqual((session.head, session.last, session.count, session.renewals, session.kept), said)
            self.assertEqual(session.count, min(len(lines), MOST_CHANGES))

    def test_a_session_that_is_closed_while_it_is_renewed(self):
        """A call of another thread waits, and then closes the new one."""
        session, began, opened = tfpg.RenewingSession(tfpg.Graph(tiny()), k=0, events=1), threading.Event(), []
        make = session._opened

        def open_slowly(lines):
            began.set()
            sleep(0.2)
            opened.append(make(lines))
            return opened[-1]

        session.line("1 tick")
        session.line("2 sweep")
        session._opened = open_slowly
        thread = threading.Thread(target=session.line, args=("3 sweep",))
        thread.start()
        self.assertTrue(began.wait(60))
        session.close()
        thread.join(60)
        self.assertEqual([one._handle.is_open for one in opened], [False])


class Kept(unittest.TestCase):
    """Which lines are kept, by the table of docs/c.md."""

    CASES = {
        "the first alarm of a node and the last": (["1 alarm A", "2 alarm A", "3 alarm A", "4 alarm B"],
                                                   ["1 alarm A", "3 alarm A", "4 alarm B"]),
        "the last silence of a node": (["1 silent A", "2 silent B", "3 silent A"], ["2 silent B", "3 silent A"]),
        "the last sweep": (["1 sweep", "2 sweep"], ["2 sweep"]),
        "the last sweep before each first alarm": (["1 sweep", "2 sweep", "3 alarm A", "4 sweep", "5 alarm A", "6 sweep"],
                                                   ["2 sweep", "3 alarm A", "5 alarm A", "6 sweep"]),
        "a tick that is the last line": (["1 tick", "2 tick", "3 sweep", "4 tick"], ["3 sweep", "4 tick"]),
        "no tick before another line": (["1 tick", "2 sweep"], ["2 sweep"]),
        "the last change at one time": (["1 mode A", "5 mode B", "5 mode C"], ["1 mode A", "5 mode C"]),
        "a change to the mode that is there says what a tick says": (["1 mode A", "5 mode A"], ["1 mode A", "5 tick"]),
        "also after a change at the same time": (["1 mode A", "5 mode B", "5 mode A"], ["1 mode A", "5 tick"]),
        "and it goes with the next line": (["1 mode A", "5 mode A", "6 sweep"], ["1 mode A", "6 sweep"]),
    }

    def test_cases(self):
        for name, (lines, kept) in self.CASES.items():
            for times in (1, 2):
                with self.subTest(name, times=times):
                    found = KeptLines()
                    for number, line in enumerate(lines, 1):
                        for _ in range(times):
                            found.keep(number, line.encode())
                    self.assertEqual([line.decode() for line in found.lines()], kept)
                    self.assertEqual(len(found), len(kept))


if __name__ == "__main__":
    unittest.main()

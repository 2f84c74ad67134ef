"""Sessions beside the program's reports, number by number: on the examples, on a graph of many nodes, and on random logs.

TFPG_SLIPS says how many random logs are tried, 200 if it says nothing. They are the same each time.
"""

import gc
import os
import random
import sys
import threading
import unittest

import tfpg
from support import EXAMPLES, files, library_words, text, tiny
from tfpg.program import run_program
from tfpg.reading import reports
from tfpg.reading.texts import is_number, text_of

LOGS = int(os.environ.get("TFPG_SLIPS", "200"))
SYSTEMS = [("pump", "pump"), ("pump", "pump-gauge"), ("satellite", "satellite-array"), ("satellite", "satellite-relay")]
ORIGIN = 1764468000000
WRONG = ["", "5", "x tick", "1.5 tick", "{} tock", "{} alarm Nobody", "{} silent {failure}", "{} alarm", "{} mode Nowhere", "{}  tick",
         "{} tick ", "{} tick\r", "00 tick", "-{} tick", "1000000000001 tick", "{} sweep all", "{} alarm {mode}", "é tick", "3 tick"]


def wanted(graph, log, k=2, doubt=0, budget=1000):
    """The numbers of each block of the program's report of a log."""
    with files(graph=graph.text):
        ended = run_program(["diagnose", f"--k={k}", f"--doubt={doubt}", f"--budget={budget}", "graph"], log)
    order, found = [], []
    for block in reports.read_report(text_of(ended.output), graph.declared).blocks:
        if isinstance(block, reports.Refused):
            found.append((block.line, block.cause, block.time))
        else:
            before, order = order, [one.hypothesis for one in block.ranked]
            ranked = [(one.hypothesis, one.set, one.cost, one.alarmed, one.monitored, one.trace) for one in block.ranked]
            found.append((block.number, block.line, block.now, order != before, ranked, *block.counts[1:]))
    return found


def numbers(answer, origin=0):
    """The same of an answer, with its times less an origin."""
    if isinstance(answer, tfpg.Refused):
        return answer.line, answer.cause, None if answer.last is None else answer.last - origin
    ranked = [(one.hypothesis, one.set, one.cost, one.alarmed, one.monitored, [(node, time - origin) for node, time in one.trace.items()])
              for one in answer.ranked]
    return answer.number, answer.line, answer.now - origin, answer.changed, ranked, answer.covered, answer.rejected, answer.open


def later(line):
    """A line with its time, if it has one, after an origin."""
    time, space, rest = line.partition(" ")
    return str(int(time) + ORIGIN) + space + rest if is_number(time) and space else line


def given(session, lines):
    """What a session answers to lines. Those with the shape of an event it takes as events, but for every third."""
    for number, line in enumerate(lines):
        time, *words = line.split(" ")
        if number % 3 and is_number(time) and len(words) in (1, 2) and "" not in words:
            yield session.event(int(time), *words)
        else:
            yield session.line(line)


def random_log(draw, graph):
    """Lines of a graph, some of them wrong."""
    lines, time = [], 0
    for _ in range(draw.randrange(3, 13)):
        time += draw.choice((0, 1, 500, 60000, 600000, 3000000))
        event = draw.choice(["alarm", "alarm", "alarm", "silent", "sweep", "tick", "mode", "wrong"])
        names = {"alarm": graph.monitored, "silent": graph.monitored, "mode": graph.modes}.get(event)
        if event == "wrong":
            lines.append(draw.choice(WRONG).replace("{}", str(time)).format(failure=graph.failures[0], mode=graph.modes[0]))
        else:
            lines.append(f"{time} {event}" + (f" {draw.choice(names)}" if names else ""))
    return lines


@unittest.skipIf(library_words(), library_words())
class Sessions(unittest.TestCase):
    maxDiff = None

    def test_the_examples(self):
        for system, name in SYSTEMS:
            for terms in ({}, {"k": 1}, {"doubt": 1, "k": 1}, {"budget": 1}):
                with self.subTest(name=name, terms=terms):
                    graph, log = tfpg.Graph.load(EXAMPLES / f"{system}.tfpg"), EXAMPLES / f"{name}.log"
                    found = wanted(graph, log.read_bytes(), **terms)
                    with tfpg.Session(graph, **terms) as session:
                        self.assertEqual([numbers(answer) for answer in session.rounds(log)], found)
                    with tfpg.Session(graph, **terms) as session:
                        lines = log.read_text(encoding="utf-8").splitlines()
                        self.assertEqual([numbers(answer) for answer in given(session, lines)], found)

    def test_random_logs(self):
        systems = [tfpg.Graph.load(EXAMPLES / "pump.tfpg"), tfpg.Graph.load(EXAMPLES / "satellite.tfpg"), tfpg.Graph(tiny())]
        for number in range(LOGS):
            draw = random.Random(number)
            graph = draw.choice(systems)
            terms = {"k": draw.choice((1, 2)), "doubt": draw.choice((0, 0, 1)), "budget": draw.choice((2, 1000))}
            lines = random_log(draw, graph)
            with self.subTest(number=number):
                found = wanted(graph, text(lines).encode(), **terms)
                with tfpg.Session(graph, **terms) as session:
                    self.assertEqual([numbers(answer) for answer in given(session, lines)], found)
                with tfpg.Session(graph, origin=ORIGIN, **terms) as session:
                    self.assertEqual([numbers(answer, ORIGIN) for answer in given(session, map(later, lines))], found)

    def test_the_texts_of_the_blocks_are_the_report(self):
        graph = tfpg.Graph.load(EXAMPLES / "pump.tfpg")
        with tfpg.Session(graph) as session:
            self.assertEqual(session.block, session.head)
            said = session.head + "".join(session.block for _ in session.rounds(EXAMPLES / "pump.log"))
        self.assertEqual(said, (EXAMPLES / "pump.report").read_text(encoding="ascii"))

    def test_many_nodes(self):
        nodes = [f"or N{number} watch 0" for number in range(140)]
        edges = [f"edge {'Left' if number < 120 else 'Right'} N{number} 0 10 *" for number in range(140)]
        graph = tfpg.Graph(text(["tfpg 1", "mode M", "failure Left 1", "failure Right 2", *nodes, *edges, "end"]))
        lines = ["100 alarm N130", "100 silent N5", "101 silent N131", "102 sweep"]
        with tfpg.Session(graph, k=1, doubt=1) as session:
            answers = [numbers(answer) for answer in given(session, lines)]
        self.assertEqual(answers, wanted(graph, text(lines).encode(), 1, 1))
        self.assertEqual([one[1] for one in answers[0][4]], ["Right", "!N130"])

    def test_lines_as_they_come(self):
        graph = tfpg.Graph(tiny())
        for lines in ("5 tick\n5 tick", b"5 tick\n5 tick\n", ["5 tick", "5 tick\n"], iter([b"5 tick", "5 tick"])):
            with tfpg.Session(graph) as session:
                self.assertEqual([answer.now for answer in session.rounds(lines)], [5, 5])
        with tfpg.Session(graph) as session:
            self.assertEqual([session.line(line).cause for line in ("5 tick\n\n", "5 tick\n6 tick", "5 tick" + " " * 5000)],
                             ["BadLine", "BadLine", "TooLong"])
            self.assertEqual([session.event(5, *words).cause for words in (("alarm", "Wet\n"), ("alarm", "Wet Wet"), ("tick\n", ""))],
                             ["UnknownName", "BadLine", "BadLine"])
            with self.assertRaises(ValueError):
                list(session.rounds("pump.log"))


@unittest.skipIf(library_words(), library_words())
class Refusals(unittest.TestCase):
    def test_sentences(self):
        graph = tfpg.Graph(tiny())
        with tfpg.Session(graph) as session:
            session.event(7, "tick")
            said = [(one.cause, one.text, one.sentence) for one in (
                session.event(9, "alarm", "Wett"), session.line("5 tick"), session.event(-3, "tick"), session.event(2**64, "sweep"),
                session.event(9, "alarm", "Leak"), session.event(9, "mode", "Sleep"), session.event(9, "alrm", "Wet"),
                session.event(9, "tick", "Wet"))]
            hints = session.line(f"{ORIGIN} tick").hints
        self.assertEqual(said, [
            ("UnknownName", "9 alarm Wett", "The graph declares no node `Wett`."),
            ("TimeBack", "5 tick", "The time 5 is before 7, that of the last accepted line."),
            ("BadNumber", "-3 tick", "The time `-3` is no number."),
            ("TimeTooLarge", "18446744073709551616 sweep",
             "A time is at most 10^12 milliseconds, some 31 years, and `18446744073709551616` is above it."),
            ("NotMonitored", "9 alarm Leak", "`Leak` has no monitor: line 4 of the graph declares it as a failure mode."),
            ("NotAMode", "9 mode Sleep", "The graph declares no mode `Sleep`."),
            ("BadLine", "9 alrm Wet", "`alrm` is no event."),
            ("BadLine", "9 tick Wet", "`Wet` is one word too many."),
        ])
        self.assertIn("A session subtracts its `origin` from each time.", hints)

    def test_sentences_with_an_origin(self):
        with tfpg.Session(tfpg.Graph(tiny()), origin=ORIGIN) as session:
            session.event(ORIGIN + 7, "tick")
            said = [(one.cause, one.sentence) for one in (
                session.event(ORIGIN - 1, "tick"), session.line(f"{ORIGIN + 5} tick"), session.event(ORIGIN + 10**12 + 1, "tick"))]
        self.assertEqual(said, [
            ("BadNumber", f"The time {ORIGIN - 1} is before the origin {ORIGIN}."),
            ("TimeBack", f"The time {ORIGIN + 5} is before {ORIGIN + 7}, that of the last accepted line."),
            ("TimeTooLarge", f"A time is at most 10^12 milliseconds after the origin {ORIGIN}, and {ORIGIN + 10**12 + 1} is above it."),
        ])

    def test_a_strict_session(self):
        with tfpg.Session(tfpg.Graph(tiny()), strict=True) as session:
            with self.assertRaisesRegex(tfpg.LineRefused, "line 2: UnknownName: 6 alarm Wett\nThe graph declares no node") as raised:
                list(session.rounds("5 tick\n6 alarm Wett\n7 tick\n"))
            self.assertEqual(raised.exception.refused.line, 2)
            self.assertEqual(session.line("7 tick").line, 3)

    def test_times_are_whole(self):
        with tfpg.Session(tfpg.Graph(tiny())) as session, self.assertRaises(TypeError):
            session.event(5.0, "tick")
        with self.assertRaises(TypeError):
            tfpg.Session(tfpg.Graph(tiny()), origin=0.5)


@unittest.skipIf(library_words(), library_words())
class Memory(unittest.TestCase):
    def test_a_closed_session(self):
        with tfpg.Session(tfpg.Graph(tiny())) as session:
            session.line("5 tick")
        session.close()
        for call in (lambda: session.line("6 tick"), lambda: session.event(6, "tick"), lambda: session.block):
            self.assertRaises(tfpg.SessionClosed, call)

    def test_the_end_of_the_object(self):
        session = tfpg.Session(tfpg.Graph(tiny()))
        handle = session._handle
        self.assertTrue(handle.is_open)
        del session
        gc.collect()
        self.assertFalse(handle.is_open)

    def test_threads(self):
        """They begin at once, and Python goes from one to the next all the time. The lines of each thread are its own, and so are the
        answers: its texts, and numbers that no other thread has."""
        threads, lines = 4, 200
        barrier, before = threading.Barrier(threads), sys.getswitchinterval()
        answers = [[] for _ in range(threads)]

        def take(number):
            barrier.wait()
            for _ in range(lines):
                answers[number].append(session.line(f"{number} tock"))

        sys.setswitchinterval(1e-6)
        self.addCleanup(sys.setswitchinterval, before)
        with tfpg.Session(tfpg.Graph(tiny())) as session:
            running = [threading.Thread(target=take, args=(number,)) for number in range(threads)]
            for one in running:
                one.start()
            for one in running:
                one.join()
        self.assertEqual([{answer.text for answer in some} for some in answers], [{f"{number} tock"} for number in range(threads)])
        self.assertEqual(sorted(answer.line for some in answers for answer in some), list(range(1, threads * lines + 1)))


if __name__ == "__main__":
    unittest.main()

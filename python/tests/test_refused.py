"""That lines which a log refuses, and names of files in the place of texts, are never taken in silence by a call over a whole log."""

import unittest
import warnings
from pathlib import Path

import tfpg
from support import EXAMPLES, files, library_words, tiny

PUMP, LOG = EXAMPLES / "pump.tfpg", EXAMPLES / "pump.log"
ORIGIN = 1764468000000
CALLS = {
    "explain": lambda graph, log, **words: tfpg.explain(graph, log, "set -\n", **words),
    "ask": lambda graph, log, **words: tfpg.ask(graph, log, k=1, **words),
    "predict": lambda graph, log, **words: tfpg.predict(graph, log, "Wet", k=1, **words),
    "report": lambda graph, log, **words: tfpg.report(graph, log, k=1, **words),
    "check": lambda graph, log, **words: tfpg.check(graph, log, judged(graph, log, **words), **words),
}


def judged(graph, log, **words):
    """A report to judge, without a warning."""
    with warnings.catch_warnings():
        warnings.simplefilter("ignore")
        return tfpg.report(graph, log, k=1, **words)


def quietly(call, *words, **names):
    """What a call returns that has to warn of nothing."""
    with warnings.catch_warnings():
        warnings.simplefilter("error")
        return call(*words, **names)


@unittest.skipIf(library_words(), library_words())
class RefusedLines(unittest.TestCase):
    def test_each_call_warns(self):
        graph = tfpg.Graph(tiny())
        for name, call in CALLS.items():
            with self.subTest(call=name), self.assertWarns(tfpg.RefusedLines) as warned:
                answer = call(graph, ["5 tick", "6 alarm Nobody", "7 tick", "3 tick"])
            self.assertEqual([(one.line, one.cause, one.text) for one in answer.refused],
                             [(2, "UnknownName", "6 alarm Nobody"), (4, "TimeBack", "3 tick")])
            said = warned.warning
            self.assertEqual((said.count, said.lines, said.first.line), (2, 4, 2))
            self.assertIn("2 of 4 lines are refused", str(said))
            self.assertIn("The graph declares no node `Nobody`.", str(said))
            self.assertEqual(Path(warned.filename).name, Path(__file__).name)

    def test_nothing_is_warned_of_where_all_is_accepted(self):
        graph = tfpg.Graph(tiny())
        for name, call in CALLS.items():
            with self.subTest(call=name):
                self.assertEqual(quietly(call, graph, ["5 tick", "6 sweep"]).refused, ())

    def test_a_strict_call_raises(self):
        graph = tfpg.Graph(tiny())
        for name, call in CALLS.items():
            with self.subTest(call=name), self.assertRaises(tfpg.LineRefused) as raised:
                quietly(call, graph, "5 tick\n6 alarm Nobody\n", strict=True)
            self.assertEqual(raised.exception.refused.line, 2)
            self.assertEqual(quietly(call, graph, "5 tick\n6 sweep\n", strict=True).refused, ())

    def test_unix_times(self):
        """The line that was passed over in silence: its time is too large without an origin."""
        graph = tfpg.Graph.load(PUMP)
        with self.assertWarns(tfpg.RefusedLines) as warned:
            verdict = tfpg.explain(graph, ["1764468000000 alarm LowFlow"], "set -\n")
        self.assertEqual((verdict.refused[0].cause, verdict.explains), ("TimeTooLarge", True))
        self.assertEqual(verdict.sentence, "The history explains the accepted lines alone: line 1 is refused.")
        self.assertIn("A time is at most 10^12 milliseconds", str(warned.warning))
        verdict = quietly(tfpg.explain, graph, ["1764468000000 alarm LowFlow"], "set -\n", origin=ORIGIN)
        self.assertEqual((verdict.explains, verdict.fault, verdict.node, verdict.time), (False, "alarm", "LowFlow", ORIGIN))

    def test_an_origin_gives_the_same_answers(self):
        graph, lines = tfpg.Graph.load(PUMP), LOG.read_text(encoding="ascii").splitlines()
        lines = [line for line in lines if not line.startswith("3290000")]
        later = [f"{int(line.split(' ', 1)[0]) + ORIGIN} {line.split(' ', 1)[1]}" for line in lines]
        one, other = (quietly(tfpg.ask, graph, log, k=1, origin=origin) for log, origin in ((lines, 0), (later, ORIGIN)))
        self.assertEqual((other.now - ORIGIN, other.questions, other.ranked), (one.now, one.questions, one.ranked))
        one, other = (quietly(tfpg.predict, graph, log, "HighPressure", ahead=10**7, k=1, origin=origin)
                      for log, origin in ((lines, 0), (later, ORIGIN)))
        self.assertGreater(len(one.forecasts), 0)
        self.assertEqual((other.now - ORIGIN, other.until - ORIGIN), (one.now, one.until))
        for before, after in zip(one.forecasts, other.forecasts):
            self.assertEqual((after.set, after.outcome, after.steps), (before.set, before.outcome, before.steps))
            self.assertEqual({name: time - ORIGIN for name, time in after.trace.items()}, before.trace)
            self.assertEqual(None if after.time is None else after.time - ORIGIN, before.time)
        said = quietly(tfpg.report, graph, later, k=1, origin=ORIGIN)
        self.assertEqual(said, quietly(tfpg.report, graph, lines, k=1))
        self.assertEqual(quietly(tfpg.check, graph, later, said, origin=ORIGIN), said.count("\ncounts "))
        with tfpg.Session(graph, k=1, origin=ORIGIN) as session:
            *_, last = session.rounds(later)
        self.assertTrue(quietly(tfpg.explain, graph, later, last.best.map, origin=ORIGIN).explains)
        early = quietly(tfpg.explain, graph, later, EXAMPLES / "pump-early.map", origin=ORIGIN)
        self.assertEqual(early.sentence, f"By {2600000 + ORIGIN} WeakSuction had to be active.")

    def test_a_time_before_the_origin(self):
        with self.assertWarns(tfpg.RefusedLines):
            answer = tfpg.ask(tfpg.Graph(tiny()), [f"{ORIGIN - 1} tick", f"{ORIGIN + 1} tick"], k=1, origin=ORIGIN)
        self.assertEqual(answer.refused[0].sentence, f"The time {ORIGIN - 1} is before the origin {ORIGIN}.")
        self.assertEqual(answer.now, ORIGIN + 1)

    def test_the_errors_of_a_graph_come_as_they_came(self):
        graph = tfpg.Graph(tiny((7, "or Wet watch 5000 7")))
        for name, call in CALLS.items():
            with self.subTest(call=name):
                self.assertRaises(tfpg.BadGraph, call, graph, "5 alarm Nobody\n")
        self.assertRaises(tfpg.OutOfRange, tfpg.ask, graph, "5 alarm Nobody\n", k=65)


@unittest.skipIf(library_words(), library_words())
class NamesOfFiles(unittest.TestCase):
    NAMES = ["../my logs/pump.log", "pump.log", "my pump.log", "2026 logs/pump.log", "5 alarm/pump.log", "5 alarm a/b.log",
             "log of the pump", "5", "tick", "C:\\logs\\5 tick.log", "5 ticks"]

    def test_none_is_taken_for_a_log(self):
        graph = tfpg.Graph(tiny())
        for name in self.NAMES:
            for given in (name, name.encode(), bytearray(name.encode()), memoryview(name.encode())):
                for call in (*CALLS.values(), lambda graph, log: list(tfpg.Session(graph).rounds(log))):
                    with self.subTest(given=given), self.assertRaisesRegex(ValueError, r"a file is given as pathlib\.Path\("):
                        call(graph, given)

    def test_none_is_taken_for_another_text(self):
        graph = tfpg.Graph(tiny())
        for name in self.NAMES:
            for given in (name, name.encode()):
                with self.subTest(given=given):
                    self.assertRaises(ValueError, tfpg.explain, graph, "5 tick\n", given)
                    self.assertRaises(ValueError, tfpg.check, graph, "5 tick\n", given)
                    self.assertRaises(ValueError, tfpg.Graph, given)

    def test_a_text_of_one_line(self):
        """It needs no line end, if it can be nothing else."""
        graph = tfpg.Graph(tiny())
        for line in ("5 tick", "5 sweep", "5 alarm Wet", "5 silent Wet", "5 mode Stop"):
            with self.subTest(line=line):
                self.assertEqual(quietly(tfpg.ask, graph, line, k=1).now, 5)
        self.assertEqual(quietly(tfpg.ask, graph, "", k=1).now, 0)
        self.assertEqual(quietly(tfpg.explain, graph, "5 tick", "set -").explains, True)
        self.assertRaises(tfpg.NotAccepted, tfpg.check, graph, "5 tick", "report 2 k 1 doubt 0 budget 1000")
        self.assertRaises(tfpg.BadGraph, lambda: tfpg.Session(tfpg.Graph("tfpg 1")))

    def test_paths(self):
        with files(**{"my log": "5 tick\n"}) as folder:
            self.assertEqual(quietly(tfpg.ask, tfpg.Graph(tiny()), folder / "my log", k=1).now, 5)
            self.assertRaises(OSError, tfpg.ask, tfpg.Graph(tiny()), Path("no log"))


if __name__ == "__main__":
    unittest.main()

"""`ask`, `predict` and `explain`, beside what the program writes."""

import unittest
from unittest import mock

import tfpg
from support import EXAMPLES, Unwarned, files, library_words, text, tiny
from tfpg.calls.rooms import FIRST_ROOM
from tfpg.program import run_program
from tfpg.reading.texts import lines_of, text_of

SYSTEMS = [("pump", "pump"), ("pump", "pump-gauge"), ("satellite", "satellite-array"), ("satellite", "satellite-relay")]
PUMP, LOG = EXAMPLES / "pump.tfpg", EXAMPLES / "pump.log"

CHAIN = [f"N{number:031}" for number in range(300)]
LONG = text(["tfpg 1", "mode M", *(f"failure F{number} 1" for number in range(8)), *(f"or {node} hidden" for node in CHAIN[:-1]),
             f"or {CHAIN[-1]} watch 0", *(f"edge F{number} {CHAIN[0]} 0 10 *" for number in range(8)),
             *(f"edge {source} {target} 0 10 *" for source, target in zip(CHAIN, CHAIN[1:])), "end"])
FULL = {
    "TooManyNodes": text(["tfpg 1", "mode M", "failure F 1", *(f"or D{number} hidden" for number in range(511)),
                          *(f"edge F D{number} 0 1 *" for number in range(511)), "end"]),
    "TooManyEdges": text(["tfpg 1", "mode M", *(f"failure F{number} 1" for number in range(32)),
                          *(f"or D{number} watch 0" for number in range(64)),
                          *(f"edge F{source} D{target} 0 1 *" for source in range(32) for target in range(64)), "end"]),
}


def written(*words):
    return lines_of(text_of(run_program([str(word) for word in words]).output))


def lines_asked(said):
    """The lines of questions."""
    lines = [f"ask {one.node} silent {one.silent} alarm {one.alarm} unknown {one.unknown}" for one in said.questions]
    return [f"questions now {said.now} ranked {said.ranked} open {said.open}", *lines]


def lines_predicted(said):
    """The lines of a prediction."""
    lines = [f"predict {said.node} now {said.now} to {said.until}"]
    for one in said.forecasts:
        lines.append(f"forecast {one.hypothesis} set {one.set} {one.outcome}" + ("" if one.time is None else f" {one.time}"))
        lines += [f"at {place} {when}" for place, when in one.trace.items()] + list(one.steps)
    return lines


@unittest.skipIf(library_words(), library_words())
class Asked(Unwarned):
    def test_questions(self):
        for system, name in SYSTEMS:
            with self.subTest(name=name):
                graph, log = EXAMPLES / f"{system}.tfpg", EXAMPLES / f"{name}.log"
                said = tfpg.ask(tfpg.Graph.load(graph), log, k=1)
                self.assertEqual(lines_asked(said), written("ask", "--k", 1, graph, log))

    def test_no_events(self):
        said = tfpg.ask(tfpg.Graph.load(PUMP), b"")
        self.assertEqual((said.now, said.ranked, {one.silent for one in said.questions}), (0, 0, {0}))


@unittest.skipIf(library_words(), library_words())
class Predicted(Unwarned):
    def test_forecasts(self):
        for system, name in SYSTEMS:
            graph, log = EXAMPLES / f"{system}.tfpg", EXAMPLES / f"{name}.log"
            loaded = tfpg.Graph.load(graph)
            for node in loaded.monitored[-2:]:
                with self.subTest(name=name, node=node):
                    said = tfpg.predict(loaded, log, node, ahead=3600000, budget=50)
                    self.assertEqual(lines_predicted(said), written("predict", "--ahead", 3600000, "--budget", 50, graph, log, node))

    def test_outcomes(self):
        said = tfpg.predict(tfpg.Graph(tiny()), "0 mode Stop\n1 tick\n", "Wet", k=1)
        self.assertEqual([(one.set, one.outcome) for one in said.forecasts], [("-", "never")])

    def test_a_text_that_is_longer_than_the_first_room(self):
        log = f"5000 alarm {CHAIN[-1]}\n"
        with files(graph=LONG, log=log):
            lines = written("predict", "--k", 1, "graph", "log", CHAIN[-1])
        self.assertGreater(len(text(lines)), FIRST_ROOM)
        self.assertEqual(lines_predicted(tfpg.predict(tfpg.Graph(LONG), log, CHAIN[-1], k=1)), lines)

    def test_full_graphs(self):
        for cause, graph in FULL.items():
            with self.subTest(cause=cause), files(graph=graph, log="5 tick\n"):
                self.assertEqual(run_program(["predict", "--k", "1", "graph", "log", "D0"]).line, f"graph 0 {cause}")
                for node in ("D0", "Nobody"):
                    with self.assertRaisesRegex(tfpg.FullGraph, "There is no room for one node and one edge more") as raised:
                        tfpg.predict(tfpg.Graph(graph), "5 tick\n", node, k=1)
                    self.assertEqual((raised.exception.line, raised.exception.cause), (0, cause))
                self.assertEqual(lines_asked(tfpg.ask(tfpg.Graph(graph), "5 tick\n", k=1)), written("ask", "--k", 1, "graph", "log"))

    def test_errors(self):
        graph = tfpg.Graph.load(PUMP)
        for node in ("Nobody", "", "no name", "a\0b"):
            with self.assertRaises(tfpg.UnknownNode) as raised:
                tfpg.predict(graph, LOG, node)
            self.assertEqual(raised.exception.name, node)
        for terms, said in (({"ahead": -1}, "ahead is from 0 to 1000000000000, and -1 is not"),
                            ({"ahead": 2**64}, "ahead is from 0 to 1000000000000, and 18446744073709551616 is not"),
                            ({"k": 65, "ahead": 10**12 + 1}, "k is from 0 to 64, and 65 is not; ahead is from 0 to ")):
            with self.assertRaisesRegex(tfpg.OutOfRange, said):
                tfpg.predict(graph, LOG, "LowFlow", **terms)
        with self.assertRaises(tfpg.BadGraph) as raised:
            tfpg.ask(tfpg.Graph(tiny((4, "failure Leak two"))), LOG)
        self.assertEqual((raised.exception.line, raised.exception.cause), (4, "BadNumber"))


@unittest.skipIf(library_words(), library_words())
class Explained(Unwarned):
    def test_what_is_ranked_explains_the_log(self):
        for system, name in SYSTEMS:
            graph, log = tfpg.Graph.load(EXAMPLES / f"{system}.tfpg"), EXAMPLES / f"{name}.log"
            with tfpg.Session(graph, k=1, doubt=1) as session:
                *_, last = (answer for answer in session.rounds(log) if isinstance(answer, tfpg.Round))
            for ranked in last.ranked:
                with self.subTest(name=name, set=ranked.set):
                    self.assertTrue(tfpg.explain(graph, log, ranked.map).explains)

    def test_verdicts(self):
        graph = tfpg.Graph.load(PUMP)
        verdict = tfpg.explain(graph, LOG, EXAMPLES / "pump-filter.map")
        self.assertEqual((verdict.explains, verdict.sentence), (True, "The history explains the accepted lines alone: line 5 is refused."))
        accepted = [line for line in LOG.read_text(encoding="ascii").splitlines() if not line.startswith("3290000 ")]
        self.assertEqual(tfpg.explain(graph, accepted, EXAMPLES / "pump-filter.map").sentence, "The history explains the log.")
        early = tfpg.explain(graph, LOG, EXAMPLES / "pump-early.map")
        self.assertEqual((early.explains, early.fault, early.node, early.time), (False, "must", "WeakSuction", 2600000))
        self.assertEqual(early.sentence, "By 2600000 WeakSuction had to be active.")

    def test_each_fault(self):
        graph, log = tfpg.Graph(tiny()), "100 alarm Wet\n200 silent Wet\n"
        with files(graph=graph.text, log=log):
            for lines in (["set Leak", "at Leak 300"], ["set -", "at Leak 5"], ["set Leak", "at Wet 50"], ["set Leak", "at Leak 10"],
                          ["set -"], ["set Leak", "at Leak 10", "at Hidden 25", "at Wet 90"]):
                verdict = tfpg.explain(graph, log, text(lines))
                line = "yes" if verdict.explains else f"no {verdict.fault} {verdict.node} {verdict.time}"
                self.assertEqual(line, text_of(run_program(["explain", "graph", "log"], text(lines).encode()).output).strip())
                self.assertTrue(verdict.sentence.endswith("."))

    def test_no_map(self):
        with self.assertRaises(tfpg.NotAccepted) as raised:
            tfpg.explain(tfpg.Graph.load(PUMP), LOG, "set FilterClogged\nat Nobody 5\n")
        self.assertEqual((raised.exception.line, raised.exception.cause, raised.exception.text), (2, "BadMap", "at Nobody 5"))
        with self.assertRaisesRegex(tfpg.NotAccepted, "line 1: BadMap$"):
            tfpg.explain(tfpg.Graph.load(PUMP), LOG, "")


@unittest.skipIf(library_words(), library_words())
class Alone(Unwarned):
    def test_no_program_is_run(self):
        with mock.patch("subprocess.run", side_effect=AssertionError("the program is run")):
            graph = tfpg.Graph.load(PUMP)
            self.assertEqual(tfpg.ask(graph, LOG, k=1).now, 5400000)
            self.assertEqual(tfpg.predict(graph, LOG, "LowFlow", k=1).now, 5400000)
            self.assertTrue(tfpg.explain(graph, LOG, EXAMPLES / "pump-filter.map").explains)


if __name__ == "__main__":
    unittest.main()

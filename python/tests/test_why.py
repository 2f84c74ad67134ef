"""What `--why` says of each set that the reports of the examples give steps to, beside the lines of these steps."""

import re
import unittest
from unittest import mock

from support import EXAMPLES, TOP, run, unwrapped
from tfpg.inputs import subject_of
from tfpg.reading.clauses import fact_of
from tfpg.reading.steps import Reason
from tfpg.saying.contradictions import reason_sentence
from tfpg.saying.speech import speech_of

NOTHING = """\
pump.log by pump.tfpg: sets of at most 2 members

7 lines, 1 refused: what follows is without it
  line 5, TimeBack: 3290000 tick
    The time 3290000 is before 3300000, that of the last accepted line.

Why not no failure?
Rejected since round 3, at 0:45:15: no history of it explains the log.
1 step, 1 contradiction. It rests on line 3 alarm LowFlow (1×). ¶ is a line of
the report.

1. LowFlow not active by 0:45:15: nothing reaches it without a failure ¶12
2. LowFlow active by 0:45:15: the alarm of line 3 ¶11
✕ Both cannot hold: LowFlow not before 0:45:15.001, and by 0:45:15 (gap 1 ms).
  ¶10
"""

REPORTS = [("pump", "pump", EXAMPLES / "pump.report"), ("satellite", "satellite-array", EXAMPLES / "satellite-array.report"),
           ("satellite", "satellite-relay", EXAMPLES / "satellite-relay.report"),
           ("pump", "pump-gauge", TOP / "page" / "tests" / "data" / "pump-gauge.report")]


def files_of(graph, log, report):
    return str(EXAMPLES / f"{graph}.tfpg"), str(EXAMPLES / f"{log}.log"), str(report)


def cited(paragraph):
    """The lines of the report that a paragraph names."""
    found = re.search(r"¶(\d+)(?:-(\d+))?", paragraph)
    return range(int(found[1]), int(found[2] or found[1]) + 1) if found else range(0)


def words_of_reason(subject, line):
    """What must be said of a reason: the node that it names, or the line of the log of its event, or the choice of its pick."""
    words = line.split(" ")
    if words[1] in ("zero", "top", "unreached"):
        return [words[2]]
    if words[1] == "pick":
        return [f"choice {words[2]}"]
    event = f"line {subject.log.events[int(words[2]) - 1].line}"
    return [event, words[3]] if words[1] == "quiet" else [event]


class Why(unittest.TestCase):
    maxDiff = None

    def test_nothing_failed(self):
        self.assertEqual(run("brief", *files_of("pump", "pump", EXAMPLES / "pump.report"), "--why", "-"), (0, NOTHING))

    def test_each_step_of_each_set_is_said(self):
        count = 0
        with mock.patch("tfpg.brief.paper.WIDTH", 10**6):
            for graph, log, report in REPORTS:
                names = files_of(graph, log, report)
                subject = subject_of(*names)
                for text, hypothesis in subject.report.sets().items():
                    with self.subTest(log=log, set=text):
                        count += self.one_set(subject, hypothesis, run("brief", *names, f"--why={text}"))
        self.assertGreater(count, 500)

    def one_set(self, subject, hypothesis, told):
        """Holds what is said of a set against the lines of its steps, and counts these."""
        status, said = told
        self.assertEqual(status, 0)
        self.assertNotIn("do not fit", said)
        lines = {at: line for here in subject.rounds for part in here.parts if part.hypothesis == hypothesis
                 for at, line in enumerate(part.lines, part.at)}
        paragraphs = {at: paragraph for paragraph in said.split("\n") for at in cited(paragraph)}
        self.assertEqual(set(paragraphs), set(lines))
        for at, line in lines.items():
            kind = line.split(" ")[0]
            if kind == "split":
                self.assertIn("choice ", paragraphs[at])
                self.assertTrue(all(name in paragraphs[at] for name in line.split(" ")[2:-2]), paragraphs[at])
            elif kind in ("cycle", "again"):
                self.assertIn("✕", paragraphs[at])
            elif "✕" not in paragraphs[at]:  # in a paragraph with a cross the case itself is one of the two reasons
                for word in words_of_reason(subject, line):
                    self.assertIn(word, paragraphs[at])
        cycles = sum(line.startswith("cycle") for line in lines.values())
        contradictions = re.search(r"(\d+) contradictions?\.", said)
        self.assertEqual(int(contradictions[1]) if contradictions else 0, cycles)
        return len(lines)

    def test_a_refutation_by_a_silence(self):
        """Both sources were low, so the battery was, and its alarm would have come."""
        status, said = run("brief", *files_of("satellite", "satellite-relay", EXAMPLES / "satellite-relay.report"), "--why",
            "CellShort,StringOpen")
        self.assertEqual(status, 0)
        self.assertIn("Why not StringOpen + CellShort?\nRejected since round 7, at 0:35:10: no history of it explains the log.\n", said)
        self.assertIn("line 7 silent BatteryLow", unwrapped(said))

    def test_the_interval_of_an_alarm(self):
        """The flow was low at most 5 s before its alarm at 45:15, and at the latest then."""
        said = unwrapped(run("brief", *files_of("pump", "pump", EXAMPLES / "pump.report"), "--why", "FilterClogged")[1])
        self.assertIn("LowFlow active before time begins, at 0 ✕ but LowFlow not active before 0:45:10: "
                      "the alarm of line 3 comes at most 5 s after it ¶15-17", said)
        self.assertIn("LowFlow not active by 0:45:15 ✕ but LowFlow active by 0:45:15: the alarm of line 3 ¶18-20", said)

    def test_a_least_lag(self):
        """The switch of the payload reports 0.2 s late at the earliest, so its alarm at 2101000 says that it was open by 2100800."""
        self.assertEqual(self.sentence("upto"), "PayloadOff active by 0:35:00.800: the alarm of line 6 comes at least 200 ms after it")
        self.assertEqual(self.sentence("from"), "PayloadOff not active before 0:35:00: the alarm of line 6 comes at most 1 s after it")

    def sentence(self, kind):
        """What a reason of the alarm of line 6 says, which is the sixth event."""
        subject = subject_of(*files_of("satellite", "satellite-relay", EXAMPLES / "satellite-relay.report"))
        reason = Reason(kind, event=6)
        fact = fact_of(subject.graph, subject.log, set(), set(), reason)
        return reason_sentence(speech_of(subject, "RelayStuck"), reason, fact, None)

    def test_a_set_that_is_covered(self):
        said = run("brief", *files_of("pump", "pump", EXAMPLES / "pump.report"), "--why", "ValveStuck,LevelWiring")[1]
        self.assertIn("ValveStuck + LevelWiring is covered A part of it is ranked: ValveStuck. So nothing was to be done", unwrapped(said))

    def test_sets_that_are_none(self):
        for text, sentence in (("Nobody", "`Nobody` is no failure mode of the graph"), ("!WeakSuction", "`WeakSuction` has no monitor"),
                               ("ValveStuck,!LowFlow", "the report is of sets of at most 2 members, of which 0 are monitors")):
            status, said = run("brief", *files_of("pump", "pump", EXAMPLES / "pump.report"), f"--why={text}")
            self.assertEqual(status, 1)
            self.assertIn(sentence, said)


if __name__ == "__main__":
    unittest.main()

"""What `lint` warns of: each warning by hand, that warnings of contradictions are right beside all instants, and that none is false."""

import json
import os
import random
import unittest

from support import EXAMPLES, files, lint, run, text, underlined, unwrapped
from tfpg.program import run_program
from tfpg.reading.graphs import DeclaredGraph
from tfpg.reading.logs import EventLog
from tfpg.reading.reports import Refused
from tfpg.warning.log_warnings import (ALARM_AND_SILENCE, EARLY_ALARM, FAR_TIME, NEVER_NAMED, SECOND_ALARM, SILENCE_AFTER_ALARM,
                                       LoggedGraph, log_warnings)

CASES = int(os.environ.get("TFPG_SLIPS", "200"))
# Low has a lag of 1 to 5 s, High one of 0 to 2 s. Worn takes 8 h at least to Low, Jam 60 s by way of High.
GRAPH = ["tfpg 2", "mode Run", "failure Worn 2", "failure Jam 3", "or High watch 0 2000", "or Low watch 1000 5000",
         "edge Jam High 10000 20000 *", "edge High Low 50000 90000 *", "edge Worn Low 28800000 inf *", "end"]
LATE = 100000000  # ms, after which nothing is too early

# the lines, and of each warning the line, the cause, the word that is underlined and a sentence. Times stand after LATE.
CONTRADICTIONS = [
    ("an alarm that is repeated", ["0 alarm Low", "60000 alarm Low"], 2, "SecondAlarm", "Low",
     "`Low` has its first alarm in line 1, 1 min before. An alarm comes at most 5 s and at least 1 s after its node became active, so no "
     "activation is shown by both. So no set that believes this monitor explains the log. A node once active stays so, and a repeated "
     "alarm "
     "is no line: `python3 -m tfpg records` leaves it out."),
    ("an alarm that no lag holds with the first", ["0 alarm High", "2000 alarm High", "2001 alarm High"], 3, "SecondAlarm", "High",
     "`High` has its first alarm in line 1, 2.001 s before. An alarm comes at most 2 s after its node became active,"),
    ("a silence after an alarm", ["0 alarm High", "1 silent High"], 2, "SilenceAfterAlarm", "High",
     "`High` raised its alarm in line 1, and a node once active stays so."),
    ("a silence after an alarm at one time", ["0 alarm Low", "0 silent Low"], 2, "AlarmAndSilence", "Low",
     "Line 1 says that `Low` alarms at the same time."),
    ("a silence before an alarm at one time", ["0 silent Low", "0 alarm High", "0 alarm Low"], 3, "AlarmAndSilence", "Low",
     "Line 1 says that `Low` is silent at the same time."),
    ("a sweep before an alarm at one time", ["0 sweep", "0 alarm Low"], 2, "AlarmAndSilence", "Low",
     "The sweep of line 1 says that `Low` is silent at the same time. So no set that believes this monitor explains the log. Write the "
     "sweep "
     "after the alarms of its time."),
]
RIGHT = [
    ("a monitor that chatters within its lag", ["0 alarm Low", "4000 alarm Low", "0 sweep"]),
    ("a sweep after an alarm", ["0 alarm Low", "0 sweep", "9 sweep"]),
    ("a silence and then an alarm", ["0 silent Low", "1 alarm Low", "0 silent High"]),
    ("a sweep between two alarms", ["0 alarm Low", "1 sweep", "2 alarm Low"]),
    ("a sweep between two alarms of one time", ["0 alarm Low", "0 sweep", "0 alarm Low"]),
]


def logged(lines, refused=(), graph=tuple(GRAPH)):
    """A log of lines of which these are refused."""
    declared = DeclaredGraph(graph)
    accepted = [number for number in range(1, len(lines) + 1) if number not in [one.line for one in refused]]
    return LoggedGraph(declared, lines, EventLog(declared, lines, accepted), refused)


def causes(lines, refused=(), graph=tuple(GRAPH)):
    """The line and the cause of each warning."""
    return [(one.line, one.cause) for one in log_warnings(logged(lines, refused, graph))]


def late(lines):
    return [f"{LATE + int(line.split(' ')[0])} {line.split(' ', 1)[1]}" for line in lines]


class Contradictions(unittest.TestCase):
    def test_each(self):
        for name, lines, line, cause, word, sentence in CONTRADICTIONS:
            with self.subTest(name=name):
                found = [one for one in log_warnings(logged(late(lines))) if one.cause != "NeverNamed"]
                self.assertEqual([(one.line, one.cause, one.explanation.word.text) for one in found], [(line, cause, word)])
                self.assertIn(sentence, " ".join([found[0].explanation.sentence, *found[0].explanation.hints]))

    def test_no_set_explains_them(self):
        """What is said to contradict itself is explained by no set of the failure modes."""
        with files(graph=text(GRAPH)):
            for name, lines, *_ in CONTRADICTIONS[:3 if CASES < 200 else None]:
                with self.subTest(name=name):
                    self.assertIn(b"counts ranked 0 covered 0 rejected 4 open 0", self.diagnosed(late(lines)))

    def diagnosed(self, lines):
        return run_program(["diagnose", "graph"], text(lines).encode()).output.split(b"\nround ")[-1]

    def test_what_is_right(self):
        for name, lines in RIGHT:
            with self.subTest(name=name):
                self.assertEqual([cause for _, cause in causes(late(sorted(lines, key=lambda line: int(line.split(" ")[0]))))
                                  if cause != "NeverNamed"], [])

    def test_beside_all_instants(self):
        """A monitor contradicts itself exactly where no instant of activation, and no activation either, shows all that it says."""
        graph = ["tfpg 2", "mode M", "failure F 1", "or A watch 2 4", "or B watch 0 1", "edge F A 0 1 *", "edge F B 0 1 *", "end"]
        found = 0
        for number in range(max(CASES, 2000)):
            draw = random.Random(number)
            times = sorted(draw.randrange(8) for _ in range(draw.randrange(1, 5)))
            lines = [f"{time} {draw.choice(['alarm A', 'alarm A', 'silent A', 'sweep', 'alarm B', 'silent B'])}" for time in times]
            warned = {one.explanation.word.text for one in log_warnings(logged(lines, graph=graph))
                      if one.cause in ("SecondAlarm", "SilenceAfterAlarm", "AlarmAndSilence")}
            with self.subTest(number=number, lines=lines):
                self.assertEqual(warned, {node for node, lags in (("A", (2, 4)), ("B", (0, 1))) if not self.shown(lines, node, *lags)})
            found += len(warned)
        self.assertGreater(found, 500)

    def shown(self, lines, node, least, greatest):
        """Whether some instant of activation, or none, shows each alarm and silence of a node."""
        return any(self.shows(lines, node, least, greatest, active) for active in [*range(10), 10**6])

    def shows(self, lines, node, least, greatest, active):
        has_alarm = False
        for time, kind, *names in (line.split(" ") for line in lines):
            is_silent = kind == "sweep" and not has_alarm or kind == "silent" and names == [node]
            if is_silent and int(time) >= least and active <= int(time) - least:
                return False
            if kind == "alarm" and names == [node]:
                has_alarm = True
                if not max(0, int(time) - greatest) <= active <= max(0, int(time) - least):
                    return False
        return True


class Times(unittest.TestCase):
    def test_a_time_far_from_all_others(self):
        others = late(["0 alarm High", "60000 alarm Low", "90000 sweep"])
        self.assertEqual(causes([*others, f"{LATE + 40 * 86400000} sweep"]), [(4, "FarTime")])
        self.assertEqual(causes([*others, f"{LATE + 29 * 86400000} sweep"]), [])
        self.assertEqual(causes([*late(["0 alarm High", "60000 alarm Low", f"{86400000} sweep"]), f"{LATE + 40 * 86400000} sweep"]), [])
        self.assertEqual(causes(["0 sweep", *[f"{LATE + 40 * 86400000 + time} tick" for time in (0, 1, 5)]]), [(1, "FarTime")])
        said = log_warnings(logged([*others, f"{LATE + 40 * 86400000} sweep"]))[0].explanation
        self.assertEqual((said.sentence, said.word.text, said.hints), (
            "Its time is 959 h 58 min 30 s from all others, which lie within 1 min 30 s.", str(LATE + 40 * 86400000),
            ["All times count milliseconds from one start. Does this one?"]))

    def test_lines_that_are_lost_for_one_time(self):
        """Three lines after it are refused, and come in order without it. A line that comes late by itself is no reason to doubt."""
        lines = late(["0 alarm High", "60000000 alarm Low", "2000 tick", "3000 tick", "4000 sweep"])
        lost = [Refused(number, "TimeBack", LATE + 60000000) for number in (3, 4, 5)]
        self.assertEqual(causes(lines, lost), [(2, "FarTime")])
        self.assertEqual(causes(lines[:4], lost[:2]), [])
        self.assertEqual(causes([*lines, f"{LATE + 70000000} sweep"], lost), [])
        self.assertEqual(causes([lines[0], lines[1], *[f"{LATE - 5 + number} tick" for number in range(3)]], lost), [])

    def test_an_alarm_too_early_for_a_cause(self):
        """Worn takes 28,800,000 ms to Low, whose least lag is 1,000 ms; Jam takes 10,000 ms to High."""
        self.assertEqual(causes(["28801000 alarm Low", "28801000 sweep"]), [])
        self.assertEqual(causes(["28800999 alarm Low", "28801000 sweep"]), [(1, "EarlyAlarm")])
        self.assertEqual(causes(["9999 alarm High", "28800999 alarm Low", "28801000 sweep"]), [(1, "EarlyAlarm")])
        self.assertEqual(causes(["10000 alarm High", "28800999 alarm Low", "28801000 sweep"]), [(2, "EarlyAlarm")])
        said = log_warnings(logged(["60000 alarm Low", "60000 sweep"]))[0].explanation
        self.assertEqual((said.sentence, said.hints), (
            "This alarm comes 1 min after 0, and nothing is active before. So these are ruled out as causes of `Low`: `Worn`, which "
            "takes at "
            "least 8 h; `Jam`, which takes at least 1 min.",
            ["If the system ran before, begin the log at least 7 h 59 min 1 s earlier: `python3 -m tfpg records` with --before takes its "
             "0 so "
             "long before the first record."]))

    def test_the_same_alarms_later(self):
        """The warning is right: what is ruled out at 0 is ranked if the same alarm comes 8 hours later."""
        with files(graph=text(GRAPH)):
            for time, ranked in ((60000, b"ranked 0"), (60000 + 28800000, b"ranked 2")):
                ended = run_program(["diagnose", "--k", "1", "graph"], f"{time} alarm Low\n".encode())
                self.assertIn(b"counts " + ranked, ended.output)
                self.assertEqual((1, "EarlyAlarm") in causes([f"{time} alarm Low"]), ranked == b"ranked 0")


class NeverNamed(unittest.TestCase):
    def test_monitors_of_which_the_log_says_nothing(self):
        self.assertEqual(causes(late(["0 alarm High"])), [(None, "NeverNamed")])
        self.assertEqual(causes(late(["0 alarm High", "5 silent Low"])), [])
        self.assertEqual(causes(late(["0 alarm High", "5 sweep"])), [])
        self.assertEqual(causes([]), [])
        said = log_warnings(logged(late(["0 tick"])))[0].explanation
        self.assertEqual((said.sentence, said.word), (
            "That an alarm is not in the log says nothing. No line names these nodes with a monitor: High, Low.", None))


class NoneIsFalse(unittest.TestCase):
    def test_the_examples(self):
        """Each warning of an example, held by hand: the pump has no sweep, and its gauge speaks of two monitors of four."""
        for graph, log, wanted in (("pump", "pump", ["HighPressure"]), ("pump", "pump-gauge", ["MotorHot", "LowLevel"]),
                                   ("satellite", "satellite-array", []), ("satellite", "satellite-relay", [])):
            with self.subTest(log=log):
                found = json.loads(run("lint", "--json", str(EXAMPLES / f"{graph}.tfpg"), str(EXAMPLES / f"{log}.log"))[1])["warnings"]
                self.assertEqual([one["cause"] for one in found], ["NeverNamed"] if wanted else [])
                if wanted:
                    self.assertIn(f"these nodes with a monitor: {', '.join(wanted)}.", found[0]["sentence"])

    def test_what_is_simulated(self):
        """A simulated log has no contradiction and no time that is far. Each other warning is held by a calculation of its own."""
        found = 0
        for number in range(CASES):
            draw = random.Random(number)
            name = draw.choice(["pump", "satellite"])
            content = (EXAMPLES / f"{name}.tfpg").read_text()
            graph = DeclaredGraph(content.splitlines())
            begin = draw.choice((0, 0, 1000, 600000, 86400000))
            script = [f"{begin} start {draw.choice([graph.name(node) for node in graph.failures])}"]
            script += [f"{begin + draw.randrange(7200000)} {draw.choice(['tick', 'sweep', 'mode ' + draw.choice(graph.modes)])}"
                       for _ in range(draw.randrange(4))]
            script = sorted(script, key=lambda line: int(line.split(" ")[0])) + [f"{begin + 7200000} stop"]
            with self.subTest(number=number), files(graph=content, script=text(script)):
                lines = run_program(["simulate", "--draw", str(number), "graph", "script"]).output.decode().splitlines()
                warned = log_warnings(logged(lines, graph=content.splitlines()))
                self.assertEqual({one.cause for one in warned}, self.wanted(graph, lines))
            found += len(warned)
        self.assertGreater(found, CASES // 4)

    def wanted(self, graph, lines):
        """The causes of true warnings: by the least times between each two nodes, and by the names in the lines."""
        events = [line.split(" ") for line in lines]
        alarms = {}
        for time, kind, *names in events:
            if kind == "alarm":
                alarms.setdefault(names[0], int(time))
        far = 10**15
        way = {(one.name, other.name): 0 if one is other else far for one in graph.nodes for other in graph.nodes}
        for _ in graph.nodes:
            for edge in graph.edges:
                for one in graph.nodes:
                    ends = (one.name, graph.name(edge.target))
                    way[ends] = min(way[ends], way[one.name, graph.name(edge.source)] + edge.least)
        early = [name for name, time in alarms.items() for failure in graph.failures
                 if time - (graph.nodes[graph.number_of[name]].lags or (0, 0))[0] < way[graph.name(failure), name] < far]
        named = {names[0] for _, kind, *names in events if kind in ("alarm", "silent")}
        unnamed = [node for node in graph.monitored if graph.name(node) not in named]
        return {*(["EarlyAlarm"] if early else []),
                *(["NeverNamed"] if unnamed and not any(kind == "sweep" for _, kind, *_ in events) else [])}


class Page(unittest.TestCase):
    def test_each_warning_has_its_row(self):
        page = (EXAMPLES.parent / "python" / "README.md").read_text(encoding="utf-8")
        for cause in (SECOND_ALARM, SILENCE_AFTER_ALARM, ALARM_AND_SILENCE, FAR_TIME, EARLY_ALARM, NEVER_NAMED):
            self.assertEqual(page.count(f"\n| `{cause}` | "), 1)


class Told(unittest.TestCase):
    def test_the_lines(self):
        status, said = lint(text(GRAPH), text([*late(["0 alarm High", "0 alarm Low"]), "5 tick", *late(["60000 alarm Low"])]))
        self.assertEqual(status, 1)
        self.assertEqual(underlined(said), ["5", "Low"])
        self.assertIn("log line 4: warning SecondAlarm\n  | 100060000 alarm Low\n  |                 ^^^\n", said)
        self.assertTrue(said.endswith("log: the program refuses 1 of 4 lines, and accepts the others.\n"
                                      "log: 1 warning of what is accepted and surely not meant.\n"), said)

    def test_the_status(self):
        log = text(late(["0 alarm High", "60000 alarm High", "60000 sweep"]))
        with files(graph=text(GRAPH), log=log, right=text(late(["0 sweep"]))):
            self.assertEqual([run("lint", *words)[0] for words in (["graph", "log"], ["--strict", "graph", "log"], ["--strict", "graph",
                                                                                                                    "right"],
                                                                   ["--strict", "graph"])], [0, 1, 0, 0])

    def test_many_warnings(self):
        log = text(late(["0 alarm High", "0 silent Low", *[f"{60000 + number} alarm High" for number in range(30)]]))
        with files(graph=text(GRAPH), log=log):
            said, whole = run("lint", "graph", "log")[1], run("lint", "--all", "graph", "log")[1]
        self.assertEqual((said.count(": warning SecondAlarm"), whole.count(": warning SecondAlarm")), (20, 30))
        self.assertIn("… and 10 more lines (SecondAlarm 10). --all tells each.", said)

    def test_json(self):
        with files(graph=text(GRAPH), log=text([*late(["0 alarm High", "0 silent High", "0 silent Low"]), "ALARM"])):
            status, said = run("lint", "--json", "graph", "log")
        self.assertEqual((status, said.count("\n")), (1, 1))
        self.assertEqual(json.loads(said), {
            "status": 1, "graph": "graph", "fault": None, "end": None, "log": "log", "lines": 4,
            "refused": [{"line": 4, "cause": "BadLine", "sentence": "There is one word, and no event after it.", "text": "ALARM", "hints": [
                "The shapes are `T alarm NODE`, `T silent NODE`, `T sweep`, `T tick`, `T mode MODE`."]}],
            "warnings": [{"line": 2, "cause": "AlarmAndSilence", "text": "100000000 silent High",
                          "sentence": "Line 1 says that `High` alarms at the same time. So no set that believes this monitor explains "
                                      "the log.",
                          "hints": ["Leave the silence out, as `python3 -m tfpg records` does."]}]})

    def test_json_of_graphs_and_ends(self):
        with files(graph="tfpg 1\nmood M\n", right=text(GRAPH)):
            wrong, absent, right = (json.loads(run("lint", "--json", *words)[1]) for words in (["graph"], ["right", "none"], ["right"]))
        self.assertEqual((wrong["status"], wrong["fault"]["line"], wrong["fault"]["cause"], wrong["fault"]["text"]), (3, 2, "BadLine",
                                                                                                                      "mood M"))
        self.assertEqual((absent["status"], absent["end"][0]), (5, "none: No such file or directory"))
        self.assertEqual(right, {"status": 0, "graph": "right", "fault": None, "end": None, "log": None, "lines": 0, "refused": [],
                                 "warnings": []})

    def test_a_graph_as_the_log(self):
        said = unwrapped(lint(text(GRAPH), text(GRAPH))[1])
        self.assertIn("log line 1: BadLine | tfpg 2 | ^^^^ A graph begins so, and no line of a log. Are the files in their order, GRAPH "
                      "and then "
                      "LOG?", said)


if __name__ == "__main__":
    unittest.main()

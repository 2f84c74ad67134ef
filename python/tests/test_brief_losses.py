"""What `brief` says first, its changes line by line, its JSON, and a fleet, each held by hand against the texts."""

import json
import os
import unittest
from pathlib import Path

from support import EXAMPLES, files, run, text, unwrapped
from tfpg.program import run_program

PUMP = [str(EXAMPLES / name) for name in ("pump.tfpg", "pump.log", "pump.report")]
RELAY = [str(EXAMPLES / name) for name in ("satellite.tfpg", "satellite-relay.log", "satellite-relay.report")]
FLEET = [str(EXAMPLES / "pump.tfpg"), str(EXAMPLES / "pumps.log")]
# One failure mode, one monitor with a lag of 5 s. The log repeats its alarm a minute later.
GRAPH = text(["tfpg 1", "mode Run", "mode Rest", "failure Flat 2", "or Low watch 5000", "edge Flat Low 0 1000 *", "end"])
REPEATED = "100000 alarm Low\n160000 alarm Low\n"

CHANGES = """\
11 lines, 1 refused: what follows is without it
  line 8, NotMonitored: 2400000 silent ChargeLow
    `ChargeLow` has no monitor: line 19 of the graph declares it as hidden.

6:05:00 line 1, 300000 tick: came no failure (at the first line)
6:35:00.150 line 4, 2100150 alarm BusLow: came RelayStuck, StringOpen + CellShort (covered by no failure before); went no failure (rejected)
6:35:10 line 7, 2110000 silent BatteryLow: went StringOpen + CellShort (rejected)
"""

# north: the filter explains low flow and a hot motor at the least cost, and two others do too. east: only the valve raises the pressure.
# south: a sweep, and nothing failed. Line 7 is of a pump that nobody knows.
PUMPS = """\
pumps.log by pump.tfpg: sets of at most 1 member

11 lines of 3 vehicles, 1 refused, 1 stray: what follows is without them
  Stray, since they begin with the name of no vehicle and a space: line 7

The vehicles, the worst first
  east: ValveStuck, cost 3, 2 of 4 alarms, first since 0:45:20; 1 of 4 lines refused
  north: FilterClogged, cost 2, 2 of 3 alarms, first since 0:45:15; 2 more ranked
  south: no failure, first since 0:10:00

Failure modes that are ranked now, and in how many vehicles
  ValveStuck: 2
  FilterClogged: 1
  MotorBearing: 1

--vehicle NAME tells one vehicle whole.
"""


def fleet_report(stream, *names):
    """What the program writes of a stream of pumps."""
    ended = run_program(["fleet", "--k", "1", FLEET[0], ",".join(names)], stream.encode())
    return ended.output.decode()


class Warnings(unittest.TestCase):
    def test_above_nothing_explains(self):
        with files(graph=GRAPH, log=REPEATED):
            status, said = run("brief", "graph", "log")
        self.assertEqual(status, 0)
        self.assertIn("1 line accepted and surely not meant line 2, SecondAlarm: 160000 alarm Low `Low` has its first alarm in line 1, 1 "
                      "min "
                      "before.", unwrapped(said))
        self.assertIn("`python3 -m tfpg records` leaves it out. Now 0:02:40, in mode Run, by line 2: 160000 alarm Low Nothing explains "
                      "the log, "
                      "since line 2", unwrapped(said))
        self.assertIn("  See first to the lines above that are surely not meant: a doubt would only\n    hide them.\n  A monitor may lie",
                      said)

    def test_beside_a_set_that_blames_the_monitor(self):
        with files(graph=GRAPH, log=REPEATED):
            said = run("brief", "--doubt", "1", "graph", "log")[1]
        self.assertLess(said.index("SecondAlarm"), said.index("1. wrong monitor of Low"))

    def test_of_the_records_of_the_same_box(self):
        """The log that `records` makes of the same alarms has its cause, and no warning."""
        box = "time,name,value\n100000,Low,raised\n160000,Low,raised\n"
        with files(graph=GRAPH, box=box) as folder:
            log = run("records", "graph", "box")[1].split("tfpg records")[0]
            (folder / "log").write_text(log)
            said = run("brief", "graph", "log")[1]
        self.assertEqual(log, "100000 alarm Low\n")
        self.assertIn("\nWhat explains all that was seen\n  1. Flat: cost 2, 1 of 1 alarms\n", said)
        self.assertNotIn("surely", said)


class Strict(unittest.TestCase):
    def test_the_status(self):
        clean = text((EXAMPLES / "pump.log").read_text().splitlines()[:4])
        with files(log=clean):
            found = [run("brief", *words)[0] for words in (PUMP, ["--strict", *PUMP], ["--strict", "--json", *PUMP], ["--strict",
                                                                                                                      "--changes", *PUMP],
                                                           ["--strict", "--why", "-", *PUMP], ["--strict", PUMP[0], "log"])]
        self.assertEqual(found, [0, 9, 9, 9, 9, 0])


class Changes(unittest.TestCase):
    maxDiff = None

    def test_the_relay(self):
        self.assertEqual(run("brief", "--changes", "--start", "6:05", *RELAY)[1].split("\n")[4][:7], "6:10:00")
        self.assertEqual(run("brief", "--changes", "--start", "6:00", *RELAY), (0, CHANGES))

    def test_as_json(self):
        said = run("brief", "--changes", "--json", *RELAY)[1].split("\n11 lines, 1 refused")[0]
        self.assertEqual([json.loads(line) for line in said.splitlines()][1:], [
            {"time": 2100150, "line": 4, "round": 4, "text": "2100150 alarm BusLow", "went": {"-": "rejected"}, "open": 0,
             "came": {"RelayStuck": "covered by no failure before", "StringOpen,CellShort": "covered by no failure before"},
             "ranked": ["RelayStuck", "StringOpen,CellShort"]},
            {"time": 2110000, "line": 7, "round": 7, "text": "2110000 silent BatteryLow", "came": {},
             "went": {"StringOpen,CellShort": "rejected"},
             "ranked": ["RelayStuck"], "open": 0}])

    def test_an_order_that_changes_and_a_ranking_that_ends(self):
        """A report by hand: two sets change places in round 2, and in round 4 nothing is left."""
        graph = text(["tfpg 1", "mode M", "failure A 2", "failure B 2", "or X watch 5", "or Y watch 5", "edge A X 0 1 *", "edge B X 0 1 *",
                      "edge A Y 0 1 *", "edge B Y 0 1 *", "end"])
        rows = {"A": "ranked 1 cost 2 robust 1/2 set A\n", "B": "ranked 2 cost 2 robust 2/2 set B\n"}
        report = "report 2 k 1 doubt 0 budget 9\n" + "".join(
            f"round {number} {number} {number}\n{body}counts ranked {ranked} covered 0 rejected {rejected} open {left}\n"
            for number, body, ranked, rejected, left in (
                (1, rows["A"] + rows["B"], 2, 1, 0), (2, rows["B"] + rows["A"], 2, 1, 0), (3, rows["B"] + "open 1 set A\n", 1, 1, 1),
                (4, "rejected 1 set A\nrejected 2 set B\n", 0, 3, 0)))
        with files(graph=graph, log="1 tick\n2 tick\n3 tick\n4 tick\n", report=report):
            said = run("brief", "--changes", "graph", "log", "report")[1]
        self.assertEqual(said.split("\n\n")[1].splitlines(), [
            "0:00:00.001 line 1, 1 tick: came A, B (at the first line)",
            "0:00:00.002 line 2, 2 tick: the order is B; A",
            "0:00:00.003 line 3, 3 tick: went A (open)",
            "0:00:00.004 line 4, 4 tick: went B (rejected); nothing explains the log"])

    def test_a_long_log(self):
        """10,000 lines, of which two change the ranking: the report is one by hand."""
        rounds = ["round {0} {0} {0}\nranked 0 cost 0 robust 1/1 set -\ncounts ranked 1 covered 1 rejected 0 open 0\n".format(number)
                  for number in range(1, 10000)]
        last = "round 10000 10000 10000\nranked 1 cost 2 robust 1/1 set Flat\ncounts ranked 1 covered 0 rejected 1 open 0\n"
        report = "report 2 k 1 doubt 0 budget 9\n" + "".join(rounds) + last.replace("counts", "rejected 0 set -\ncounts")
        log = "".join(f"{number} tick\n" for number in range(1, 10000)) + "10000 alarm Low\n"
        with files(graph=GRAPH, log=log, report=report):
            said = run("brief", "--changes", "graph", "log", "report")[1]
        self.assertEqual(said.split("\n\n")[1].splitlines(), [
            "0:00:00.001 line 1, 1 tick: came no failure (at the first line)",
            "0:00:10 line 10000, 10000 alarm Low: came Flat (covered by no failure before); went no failure (rejected)"])


class Json(unittest.TestCase):
    maxDiff = None

    def test_the_relay(self):
        status, said = run("brief", "--json", *RELAY)
        self.assertEqual((status, said.count("\n")), (0, 1))
        found = json.loads(said)
        self.assertEqual(found["refused"], [{
            "line": 8, "cause": "NotMonitored", "text": "2400000 silent ChargeLow",
            "sentence": "`ChargeLow` has no monitor: line 19 of the graph declares it as hidden.",
            "hints": ["The nodes with a monitor: ArrayLow, BatteryLow, BusLow, PayloadOff, RadioOff."]}])
        self.assertEqual({key: found[key] for key in found if key not in ("refused", "ranked")}, {
            "graph": RELAY[0], "log": RELAY[1], "k": 2, "doubt": 0, "budget": 1000, "lines": 11, "warnings": [],
            "round": 10, "line": 11, "text": "5400000 tick", "now": 5400000, "mode": "Saving", "open": [], "rejected": [],
            "counts": {"ranked": 1, "covered": 5, "rejected": 16, "open": 0}, "nothing_since": None})
        self.assertEqual(found["ranked"], [{
            "hypothesis": 5, "set": "RelayStuck", "failures": ["RelayStuck"], "doubts": [], "cost": 7, "alarmed": 2, "monitored": 2,
            "trace": {"RelayStuck": 2100150, "BusLow": 2100150, "PayloadOff": 2100800}}])

    def test_lines_are_as_lint_has_them(self):
        with files(graph=GRAPH, log=REPEATED + "200000 alarm " + 100 * "Low" + "\r\n\n1 tick\n"):
            Path("elsewhere").mkdir()
            Path("log").rename("elsewhere/log")
            found, wanted = (json.loads(run(command, "--json", "./graph", "elsewhere/log")[1]) for command in ("brief", "lint"))
        self.assertEqual((len(found["refused"]), found["log"]), (3, "elsewhere/log"))
        for key in ("graph", "log", "lines", "refused", "warnings"):
            self.assertEqual(found[key], wanted[key])

    def test_nothing_and_warnings(self):
        with files(graph=GRAPH, log=REPEATED, empty=""):
            found, empty = (json.loads(run("brief", "--json", "graph", log)[1]) for log in ("log", "empty"))
        self.assertEqual((found["ranked"], found["nothing_since"], [(one["line"], one["cause"]) for one in found["warnings"]]),
                         ([], {"line": 2, "time": 160000}, [(2, "SecondAlarm")]))
        self.assertEqual((empty["round"], empty["lines"]), (None, 0))


class Pipes(unittest.TestCase):
    """A log and a report are read once, so that each may be a pipe."""

    def piped(self, name):
        """The name of a pipe with the content of a file."""
        reads, writes = os.pipe()
        self.addCleanup(os.close, reads)
        os.write(writes, Path(name).read_bytes())
        os.close(writes)
        return f"/dev/fd/{reads}"

    def said(self, *names):
        status, said = run("brief", "--json", *names)
        self.assertEqual(status, 0, said)
        return {**json.loads(said), "log": ""}

    def test_a_log_or_a_report(self):
        graph, log, report = PUMP
        self.assertEqual(self.said(graph, self.piped(log)), self.said(graph, log))
        self.assertEqual(self.said(graph, log, self.piped(report)), self.said(*PUMP))

    def test_a_stream_of_a_fleet(self):
        with files(report=fleet_report(Path(FLEET[1]).read_text(), "north", "south", "east")):
            self.assertEqual(self.said(FLEET[0], self.piped(FLEET[1]), "report"), self.said(*FLEET, "report"))
            self.assertEqual(self.said(*FLEET, self.piped("report")), self.said(*FLEET, "report"))


class Fleets(unittest.TestCase):
    maxDiff = None

    @classmethod
    def setUpClass(cls):
        cls.stream = (EXAMPLES / "pumps.log").read_text()
        cls.report = fleet_report(cls.stream, "north", "south", "east")

    def brief(self, *words, stream=None, report=None):
        with files(**{"pumps.log": stream or self.stream, "report": report or self.report}):
            return run("brief", FLEET[0], "pumps.log", "report", *words)

    def test_each_vehicle(self):
        self.assertEqual(self.brief(), (0, PUMPS))
        self.assertEqual(self.brief("--strict")[0], 9)

    def test_one_vehicle(self):
        status, said = self.brief("--vehicle", "east")
        self.assertEqual(status, 0)
        self.assertTrue(said.startswith("east of pumps.log by pump.tfpg: sets of at most 1 member\n\n4 lines, 1 refused: what follows is "
                                        "without it\n"
                                        "  line 3, TimeBack: 2710000 tick\n"), said)
        self.assertIn("\nNow 0:45:25, by line 4: 2725000 alarm LowFlow\n\nWhat explains all that was seen\n  1. ValveStuck: cost 3, 2 of "
                      "4 alarms\n",
                      said)
        self.assertEqual(self.brief("--vehicle", "south", "--strict")[0], 0)
        self.assertIn("0:45:20 line 2, 2720000 alarm HighPressure: came ValveStuck", self.brief("--vehicle", "east", "--changes")[1])
        self.assertIn("Why not LevelWiring?", self.brief("--vehicle", "north", "--why", "LevelWiring")[1])

    def test_as_json(self):
        self.assertEqual(json.loads(self.brief("--json", "--vehicle", "east")[1])["log"], "east of pumps.log")
        found = json.loads(self.brief("--json")[1])
        self.assertEqual((found["graph"], found["log"]), (FLEET[0], "pumps.log"))
        self.assertEqual([(one["vehicle"], one["stream_lines"], [ranked["set"] for ranked in one["ranked"]], len(one["refused"]))
                          for one in found["vehicles"]],
                         [("east", [3, 6, 9, 10], ["ValveStuck"], 1), ("north", [1, 4, 8], ["FilterClogged", "ValveStuck",
                                                                                            "MotorBearing"], 0),
                          ("south", [2, 5, 11], ["-"], 0)])
        self.assertEqual((found["stray"], found["lines"], found["modes"]),
                         ([7], 11, {"FilterClogged": 1, "ValveStuck": 2, "MotorBearing": 1, "LevelWiring": 0}))

    def test_the_worst_first(self):
        """By hand: `lies` contradicts itself, of `mute` nothing was accepted, `north` has a cause, `well` has none, `none` has no line."""
        stream = text(["well 600000 sweep", "north 2715000 alarm LowFlow", "lies 600000 alarm LowFlow", "lies 700000 silent LowFlow",
                       "mute alarm LowFlow"])
        report = fleet_report(stream, "well", "none", "north", "mute", "lies")
        said = self.brief(stream=stream, report=report)[1].split("worst first\n")[1].split("\n\n")[0].splitlines()
        self.assertEqual(said, ["  lies: nothing explains its lines, since 0:11:40", "  mute: no accepted line; 1 of 1 line refused",
                                "  north: FilterClogged, cost 2, 1 of 3 alarms, first since 0:45:15; 2 more ranked",
                                "  well: no failure, first since 0:10:00", "  none: no line"])

    def test_faults(self):
        for words, changes, status, said in (
                (["--vehicle", "west"], {}, 1, "tfpg brief: the fleet has no vehicle west; it has north, south, east"),
                (["--changes"], {}, 2, "--why and --changes are of one vehicle of a fleet: say --vehicle NAME"),
                ([], {"stream": self.stream + "south 9999999 tick\n"}, 1,
                 "the fleet has 11 answers, and the stream 12 lines: it is of another stream, or not whole"),
                ([], {"stream": self.stream.split("\n", 1)[1]}, 1, "this is not the answer to line 1 of the stream"),
                ([], {"stream": "".join(self.stream.splitlines(keepends=True)[:-1])}, 1, "more answers than the stream has lines, 10"),
                ([], {"stream": self.stream.replace("south 3600000 sweep", "south 3600001 sweep")}, 1,
                 "vehicle south, of its own lines and report line 3: the report has another time for this line"),
                ([], {"report": self.report.replace("round 2 2 2716000", "round 2 2 x")}, 1, "vehicle south, of its own lines and report "
                                                                                             "line 5: "
                                                                                             "BadReport")):
            with self.subTest(said=said):
                found, told = self.brief(*words, **changes)
                self.assertEqual(found, status)
                self.assertIn(said, told)
        self.assertIn("--vehicle is of the answers of a fleet", run("brief", *PUMP, "--vehicle", "x")[1])


if __name__ == "__main__":
    unittest.main()

"""What `brief` says of the examples. Times, ages and counts of the texts were held by hand against graph, log and report."""

import unittest

from support import EXAMPLES, TOP, files, run, widest
from tfpg.reading.causes import LOG_CAUSES

PUMP = """\
pump.log by pump.tfpg: sets of at most 2 members

7 lines, 1 refused: what follows is without it
  line 5, TimeBack: 3290000 tick
    The time 3290000 is before 3300000, that of the last accepted line.

Now 1:30:00, by line 7: 5400000 tick

What explains all that was seen
  1. FilterClogged: cost 2, 3 of 3 alarms
     0:44:14 FilterClogged fails
     0:45:14 WeakSuction active, over FilterClogged to WeakSuction (after 1 min,
             of 1 min to 10 min)
     0:45:15 LowFlow active, over WeakSuction to LowFlow (after 1 s, of 1 s to
             20 s); alarm by line 3 at once
     0:53:00 MotorStrain active, over WeakSuction to MotorStrain (after
             7 min 46 s, of at least 30 s)
     0:55:00 MotorHot active, over MotorStrain to MotorHot (after 2 min, of
             2 min to 15 min); alarm by line 4 at once
     1:15:00 LowLevel active, over LowFlow to LowLevel (after 29 min 45 s, of
             5 min to 40 min); alarm by line 6 at once
     All monitors that this set can make alarm have alarmed.
  2. ValveStuck: cost 3, 3 of 4 alarms
     0:45:14.500 ValveStuck fails
     0:45:15 LowFlow active, over ValveStuck to LowFlow (after 500 ms, of 500 ms
             to 4 s); alarm by line 3 at once
     0:45:19.500 HighPressure active, over ValveStuck to HighPressure (after
                 5 s, of 500 ms to 5 s)
     0:53:00 MotorStrain active, over HighPressure to MotorStrain (after
             7 min 40.5 s, of at least 20 s)
     0:55:00 MotorHot active, over MotorStrain to MotorHot (after 2 min, of
             2 min to 15 min); alarm by line 4 at once
     1:15:00 LowLevel active, over LowFlow to LowLevel (after 29 min 45 s, of
             5 min to 40 min); alarm by line 6 at once
     Could alarm by this set, and have not: HighPressure.
  3. MotorBearing: cost 4, 3 of 3 alarms
     0:45:00 MotorBearing fails
     0:45:05 MotorStrain active, over MotorBearing to MotorStrain (after 5 s, of
             5 s to 2 min)
     0:45:15 LowFlow active, over MotorStrain to LowFlow (after 10 s, of 10 s to
             5 min); alarm by line 3 at once
     0:55:00 MotorHot active, over MotorStrain to MotorHot (after 9 min 55 s, of
             2 min to 15 min); alarm by line 4 at once
     1:15:00 LowLevel active, over LowFlow to LowLevel (after 29 min 45 s, of
             5 min to 40 min); alarm by line 6 at once
     All monitors that this set can make alarm have alarmed.

What changed at the last line, line 7
  Nothing: the same sets are ranked, in the same order.

3 ranked, 6 covered, 2 rejected, 0 open.
This brief judges nothing; tfpg check judges a report.
"""

ARRAY = """\
satellite-array.log by satellite.tfpg: sets of at most 2 members

14 lines, 2 refused: what follows is without them
  line 7, TimeBack: 4190000 silent BatteryLow
    The time 4190000 is before 4203000, that of the last accepted line.
  line 12, NotAMode: 9900000 mode Safe
    The graph declares no mode `Safe`.

Now 9:00:00, in mode Saving, by line 14: 10800000 sweep

What explains all that was seen
  1. StringOpen: cost 3, 2 of 4 alarms
     7:10:03 StringOpen fails
     7:10:03 ArrayLow active, over StringOpen to ArrayLow (after 0 ms in mode
             Sun, of 0 ms to 1 s); alarm by line 6 at once
     7:30:03 ChargeLow active, over ArrayLow to ChargeLow (after 20 min in mode
             Sun, of 1 min to 20 min)
     8:35:00 BatteryLow active, over ChargeLow to BatteryLow (after
             24 min 59.999 s in mode Eclipse, of 10 min to 50 min); alarm by
             line 10 at once
     Could alarm by this set, and have not: BusLow, PayloadOff.

What changed at the last line, line 14
  Nothing: the same sets are ranked, in the same order.

1 ranked, 5 covered, 16 rejected, 0 open.
This brief judges nothing; tfpg check judges a report.
"""

RELAY = """\
satellite-relay.log by satellite.tfpg: sets of at most 2 members

11 lines, 1 refused: what follows is without it
  line 8, NotMonitored: 2400000 silent ChargeLow
    `ChargeLow` has no monitor: line 19 of the graph declares it as hidden.

Now 7:30:00, in mode Saving, by line 11: 5400000 tick

What explains all that was seen
  1. RelayStuck: cost 7, 2 of 2 alarms
     6:35:00.150 RelayStuck fails
     6:35:00.150 BusLow active, over RelayStuck to BusLow (after 0 ms in mode
                 Eclipse, of 0 ms to 200 ms); alarm by line 4 at once, line 5
                 after 750 ms
     6:35:00.800 PayloadOff active, over BusLow to PayloadOff (after 650 ms in
                 mode Eclipse, of 0 ms to 2 s); alarm by line 6 after 200 ms
     All monitors that this set can make alarm have alarmed.

What changed at the last line, line 11
  Nothing: the same sets are ranked, in the same order.

1 ranked, 5 covered, 16 rejected, 0 open.
This brief judges nothing; tfpg check judges a report.
"""

GAUGE = """\
pump-gauge.log by pump.tfpg: sets of at most 2 members

3 lines, 0 refused

Now 0:30:30, by line 3: 1830000 silent LowFlow

Nothing explains the log, since line 3, at 0:30:30: 1830000 silent LowFlow
  All 11 sets are rejected.
  A monitor may lie: --doubt 1
  More may have failed than 2: --k 3
  Or the graph is wrong. A delay that is too narrow rejects the truth.

What changed at the last line, line 3
  Rejected: ValveStuck; FilterClogged + ValveStuck; ValveStuck + MotorBearing;
    ValveStuck + LevelWiring.

0 ranked, 0 covered, 11 rejected, 0 open.
This brief judges nothing; tfpg check judges a report.
"""


def example(graph, log, *words):
    """What `brief` says of an example with its report."""
    return run("brief", str(EXAMPLES / f"{graph}.tfpg"), str(EXAMPLES / f"{log}.log"), str(EXAMPLES / f"{log}.report"), *words)


def blocks_of(report):
    """The head and the blocks of a report, each with its line ends."""
    blocks = []
    for line in report.splitlines(keepends=True):
        if line.startswith(("report ", "refused ", "round ")):
            blocks.append("")
        blocks[-1] += line
    return blocks


def front(graph, log, count, *words):
    """What `brief` says of the first lines of an example."""
    lines = (EXAMPLES / f"{log}.log").read_text().splitlines(keepends=True)
    blocks = blocks_of((EXAMPLES / f"{log}.report").read_text())
    with files(log="".join(lines[:count]), report="".join(blocks[:count + 1])):
        return run("brief", str(EXAMPLES / f"{graph}.tfpg"), "log", "report", *words)


def part(said, title):
    """The lines of a part of a brief, without its title."""
    return said.split(title)[1].split("\n\n")[0].split("\n")[1:]


class Examples(unittest.TestCase):
    maxDiff = None

    def test_the_pump(self):
        self.assertEqual(example("pump", "pump"), (0, PUMP))

    def test_a_string_comes_open(self):
        self.assertEqual(example("satellite", "satellite-array", "--start", "6:00"), (0, ARRAY))

    def test_a_relay_sticks(self):
        self.assertEqual(example("satellite", "satellite-relay", "--start", "6:00"), (0, RELAY))

    def test_a_gauge_that_lies(self):
        """There is no report, so the program is run. No trace stands in it, so all right reports say the same."""
        self.assertEqual(run("brief", str(EXAMPLES / "pump.tfpg"), str(EXAMPLES / "pump-gauge.log")), (0, GAUGE))

    def test_since_when_nothing_explains_the_log(self):
        """It is the first line after which nothing was ranked, and not the last one."""
        with files(log=(EXAMPLES / "pump-gauge.log").read_text() + "1900000 tick\n2000000 sweep\n"):
            said = run("brief", str(EXAMPLES / "pump.tfpg"), "log")[1]
        self.assertIn("Now 0:33:20, by line 5: 2000000 sweep\n\nNothing explains the log, since line 3, at 0:30:30: ", said)

    def test_a_gauge_that_is_doubted(self):
        report = TOP / "page" / "tests" / "data" / "pump-gauge.report"
        status, said = run("brief", str(EXAMPLES / "pump.tfpg"), str(EXAMPLES / "pump-gauge.log"), str(report))
        self.assertEqual(status, 0)
        self.assertIn("pump-gauge.log by pump.tfpg: sets of at most 2 members, of which at most 1 wrong\n  monitor\n", said)
        self.assertIn("  1. wrong monitor of HighPressure: cost 1000, no alarm to raise\n     Nothing became active.\n", said)
        self.assertIn("  2. ValveStuck + wrong monitor of LowFlow: cost 1003, 1 of 3 alarms\n", said)
        self.assertIn("     Not believed: the monitor of LowFlow. What it said counts for nothing here.\n", said)

    def test_no_line_is_wider_than_a_terminal(self):
        for graph, log in (("pump", "pump"), ("satellite", "satellite-array"), ("satellite", "satellite-relay")):
            self.assertLessEqual(widest(example(graph, log)[1]), 80)


class Changes(unittest.TestCase):
    def test_the_first_line(self):
        said = front("pump", "pump", 1)[1]
        self.assertEqual(part(said, "What changed"), ["  It is the first line that was accepted."])
        self.assertIn("  1. no failure: cost 0, no alarm to raise\n     Nothing became active.\n", said)

    def test_the_first_alarm(self):
        self.assertEqual(part(front("pump", "pump", 3)[1], "What changed"), [
            "  Rejected: no failure; LevelWiring.",
            "  FilterClogged is ranked now, at place 1; before it was covered by no failure.",
            "  ValveStuck is ranked now, at place 2; before it was covered by no failure.",
            "  MotorBearing is ranked now, at place 3; before it was covered by no failure."])

    def test_the_second_alarm(self):
        self.assertEqual(part(front("pump", "pump", 4)[1], "What changed"), [
            "  FilterClogged: 2 of 3 alarms, before 1.", "  ValveStuck: 2 of 4 alarms, before 1.",
             "  MotorBearing: 2 of 3 alarms, before 1."])

    def test_a_refused_line(self):
        self.assertEqual(part(front("pump", "pump", 5)[1], "What changed"), ["  Nothing: it is refused."])

    def test_a_silence_that_rejects(self):
        self.assertEqual(part(front("satellite", "satellite-relay", 7)[1], "What changed"), ["  Rejected: StringOpen + CellShort."])


class Words(unittest.TestCase):
    def test_a_report_of_another_log(self):
        status, said = run("brief", str(EXAMPLES / "pump.tfpg"), str(EXAMPLES / "pump-gauge.log"), str(EXAMPLES / "pump.report"))
        self.assertEqual((status, said), (1, "tfpg brief: line 1: the report has 7 blocks, and the log 3 lines: it is of another log\n"))

    def test_a_report_of_a_log_with_other_times(self):
        with files(log=(EXAMPLES / "pump.log").read_text().replace("1800000 tick", "1800001 tick")):
            status, said = run("brief", str(EXAMPLES / "pump.tfpg"), "log", str(EXAMPLES / "pump.report"))
        self.assertEqual(status, 1)
        self.assertIn("tfpg brief: line 2: the report has another time for this line: it is of another log", said)

    def test_more_digits_than_python_reads(self):
        """In a line for which a report has a round, and in the counts of a fleet."""
        number = "1" * 5000
        report = ("report 2 k 0 doubt 0 budget 9\nround 1 1 5\nranked 0 cost 0 robust 1/1 set -\n"
                  "counts ranked 1 covered 0 rejected 0 open 0\n")
        fleet = f"vehicle north\nreport 2 k 0 doubt 0 budget 9\nmode FilterClogged vehicles {number}\n"
        with files(log=f"{number} tick\n", report=report, empty="", fleet=fleet):
            self.assertEqual(run("brief", str(EXAMPLES / "pump.tfpg"), "log", "report"),
                             (1, "tfpg brief: line 1: the report has another time for this line: it is of another log\n"))
            self.assertEqual(run("brief", str(EXAMPLES / "pump.tfpg"), "empty", "fleet"),
                             (1, "tfpg brief: line 3: the fleet has more answers than the stream has lines, 0: it is of another stream\n"))

    def test_a_report_of_another_graph(self):
        report = ("report 2 k 1 doubt 0 budget 9\nround 1 1 5\nranked 1 cost 1 robust 1/1 set Nobody\n"
                  "counts ranked 1 covered 0 rejected 0 open 0\n")
        with files(log="5 tick\n", report=report):
            status, said = run("brief", str(EXAMPLES / "pump.tfpg"), "log", "report")
        self.assertEqual(status, 1)
        self.assertIn("line 3: BadReport: it names what the graph does not declare, so it is of another graph", said)

    def test_a_graph_without_a_mode(self):
        report = ("report 2 k 0 doubt 0 budget 9\nround 1 1 5\nranked 0 cost 0 robust 1/1 set -\n"
                  "counts ranked 1 covered 0 rejected 0 open 0\n")
        with files(graph="tfpg 1\nMode Run\nend\n", log="5 tick\n", report=report):
            for words in ([], ["--json"], ["--changes"]):
                self.assertEqual(run("brief", *words, "graph", "log", "report"),
                                 (1, "tfpg brief: the graph declares no mode, so it is none: `lint` says more\n"))

    def test_a_cause_that_is_none(self):
        report = (EXAMPLES / "pump.report").read_text().replace("refused 5 TimeBack 3300000", "refused 5 Banana")
        with files(report=report):
            status, said = run("brief", str(EXAMPLES / "pump.tfpg"), str(EXAMPLES / "pump.log"), "report")
        self.assertEqual((status, said), (1, f"tfpg brief: line {1 + report[:report.index('Banana')].count(chr(10))}: BadReport\n"))

    def test_a_cause_that_the_line_does_not_bear(self):
        """Line 5 is `3290000 tick`: short, with a time, without a name, and no change of mode."""
        for cause in (*(cause for cause in LOG_CAUSES if cause not in ("TimeBack", "LogFull")), "TimeBack 3290000"):
            report = (EXAMPLES / "pump.report").read_text().replace("refused 5 TimeBack 3300000", f"refused 5 {cause}")
            with self.subTest(cause=cause), files(report=report):
                status, said = run("brief", str(EXAMPLES / "pump.tfpg"), str(EXAMPLES / "pump.log"), "report")
                self.assertEqual(status, 0)
                self.assertIn(f"  line 5, {cause.split(' ')[0]}: 3290000 tick\n    The line does not bear out this cause, so", said)

    def test_a_cause_of_times_for_a_line_without_one(self):
        for cause in ("TimeBack 5", "TimeTooLarge"):
            report = ("report 2 k 0 doubt 0 budget 9\nround 1 1 5\nranked 0 cost 0 robust 1/1 set -\n"
                      f"counts ranked 1 covered 0 rejected 0 open 0\nrefused 2 {cause}\n")
            with self.subTest(cause=cause), files(log="5 tick\nx tick\n", report=report):
                status, said = run("brief", str(EXAMPLES / "pump.tfpg"), "log", "report")
                self.assertEqual(status, 0)
                self.assertIn(f"  line 2, {cause.split(' ')[0]}: x tick\n    The line does not bear out this cause, so", said)

    def test_a_text_that_is_no_report(self):
        with files(report="report 2 k 2 doubt 0 budget 1000\nround 1 1 600000\n"):
            status, said = run("brief", str(EXAMPLES / "pump.tfpg"), str(EXAMPLES / "pump.log"), "report")
        self.assertEqual((status, said), (1, "tfpg brief: line 3: EndsEarly\n"))

    def test_sets_that_are_open(self):
        report = ("report 2 k 0 doubt 0 budget 1\nround 1 1 5\nopen 0 set -\ncounts ranked 0 covered 0 rejected 0 open 1\n")
        with files(log="5 tick\n", report=report):
            said = run("brief", str(EXAMPLES / "pump.tfpg"), "log", "report")[1]
        self.assertEqual(part(said, "Nothing is ranked"), ["  Open, since the budget was spent: no failure. So nobody knows whether they",
                                                           "    explain the log.", "  Search them harder: --budget 10"])

    def test_an_empty_log(self):
        with files(log="", report="report 2 k 2 doubt 0 budget 1000\n"):
            status, said = run("brief", str(EXAMPLES / "pump.tfpg"), "log", "report")
        self.assertEqual((status, said), (0, "log by pump.tfpg: sets of at most 2 members\n\n0 lines, 0 refused\n\n"
                                             "The log has no accepted line, so there is no round and no ranking.\n"))

    def test_a_file_that_is_absent(self):
        self.assertEqual(run("brief", "none", "none", "none"), (5, "tfpg brief: none: No such file or directory\n"))

    def test_terms_that_the_program_refuses(self):
        status, said = run("brief", "--k", "65", str(EXAMPLES / "pump.tfpg"), str(EXAMPLES / "pump.log"))
        self.assertEqual((status, said), (2, "tfpg brief: the program wrote no report, and says: usage OutOfRange. `lint` says more\n"))


if __name__ == "__main__":
    unittest.main()

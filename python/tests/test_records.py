"""Records of a vehicle, and the log that the rules make of them: each rule, each form of a time, each fault, by hand."""

import csv
import json
import os
import unittest
from datetime import datetime, timedelta, timezone
from pathlib import Path

import tfpg
from support import TOP, files, library_words, run, text, unwrapped
from tfpg.program import run_program
from tfpg.recording.rules import RULES
from tfpg.recording.times import duration_of, moment_of

# Wet has a lag of 1 to 5 s, Cold one of 0 to 2 s, Hidden no monitor.
GRAPH = ["tfpg 2", "mode Run", "mode Stop", "mode Wash", "failure Leak 2", "failure Jam 3", "or Hidden hidden", "or Wet watch 1000 5000",
         "or Cold watch 0 2000", "edge Leak Hidden 10 20 *", "edge Hidden Wet 0 inf Run", "edge Jam Cold 0 100 *", "end"]

# rows, the log, the rules in the order of the rows
CASES = [
    ("the first alarm", ["5 Wet raised"], ["5 alarm Wet"], ["alarm"]),
    ("a repeated alarm", ["5 Wet raised", "60005 Wet raised", "60006 Wet on"], ["5 alarm Wet"], ["alarm", "repeat", "repeat"]),
    ("a repeat that comes first in the file", ["9 Wet raised", "5 Wet raised"], ["5 alarm Wet"], ["repeat", "alarm"]),
    ("two alarms at one instant", ["5 Wet raised", "5 Wet on"], ["5 alarm Wet"], ["alarm", "repeat"]),
    ("an alarm that ends", ["5 Wet raised", "7 Wet cleared", "9 Wet raised"], ["5 alarm Wet"], ["alarm", "clear", "repeat"]),
    ("an end at the instant of the alarm", ["5 Wet cleared", "5 Wet raised"], ["5 alarm Wet"], ["clear", "alarm"]),
    ("an end without an alarm", ["5 Wet cleared"], [], ["clear-before-alarm"]),
    ("an end before the alarm", ["5 Wet cleared", "6 Wet raised"], ["6 alarm Wet"], ["clear-before-alarm", "alarm"]),
    ("the last of some offs", ["1 Wet off", "2 Wet off", "3 Wet off"], ["3 silent Wet"], ["earlier-off", "earlier-off", "silence"]),
    ("the last off before the alarm", ["1 Wet off", "2 Wet off", "3 Wet on", "4 Wet off"], ["2 silent Wet", "3 alarm Wet"],
     ["earlier-off", "silence", "alarm", "off-after-alarm"]),
    ("an off at the instant of the alarm", ["1 Wet off", "3 Wet off", "3 Wet raised"], ["1 silent Wet", "3 alarm Wet"],
     ["silence", "off-at-alarm", "alarm"]),
    ("two offs at one instant", ["1 Wet off", "1 Wet off"], ["1 silent Wet"], ["earlier-off", "silence"]),
    ("each monitor by itself", ["5 Wet raised", "6 Cold off", "7 Cold on", "8 Wet off"], ["5 alarm Wet", "6 silent Cold", "7 alarm Cold"],
     ["alarm", "silence", "alarm", "off-after-alarm"]),
    ("lines by time", ["9 Cold raised", "4 Wet off", "5 mode Stop"], ["4 silent Wet", "5 mode Stop", "9 alarm Cold"],
     ["alarm", "silence", "mode"]),
    ("modes, silences and alarms at one instant", ["5 Cold raised", "5 Wet off", "5 mode Wash"],
     ["5 mode Wash", "5 silent Wet", "5 alarm Cold"], ["alarm", "silence", "mode"]),
    ("alarms at one instant by their nodes", ["5 Cold raised", "5 Wet raised"], ["5 alarm Wet", "5 alarm Cold"], ["alarm", "alarm"]),
    ("the first mode of the graph", ["5 mode Run", "6 mode Stop", "7 mode Stop", "8 mode Run"], ["6 mode Stop", "8 mode Run"],
     ["same-mode", "mode", "same-mode", "mode"]),
    ("two modes at one instant", ["5 mode Stop", "5 mode Wash"], ["5 mode Wash"], ["overruled-mode", "mode"]),
    ("a mode that comes back at once", ["5 mode Stop", "5 mode Run"], [], ["overruled-mode", "same-mode"]),
    ("nothing", [], [], []),
]


def rows(*said):
    return [tuple(one.split(" ")) for one in said]


def graph():
    return tfpg.Graph(text(GRAPH))


def made(*said, **choices):
    """The lines of records, each of a time, a name and a value."""
    return list(tfpg.records(graph(), rows(*said), **choices).lines)


def fault(*said, **choices):
    """The fault of records that cannot be taken."""
    try:
        tfpg.records(graph(), rows(*said), **choices)
    except tfpg.BadRecord as bad:
        return str(bad)
    raise AssertionError("the records were taken")


def accepted(lines):
    """Whether the program accepts each of these lines, and says nothing explains them only if so."""
    with files(graph=text(GRAPH)):
        ended = run_program(["diagnose", "--k", "0", "--budget", "1", "graph"], text(lines).encode())
    return ended.status == 0 and b"\nrefused " not in ended.output and ended.output.count(b"\ncounts ") == len(lines)


class Rules(unittest.TestCase):
    def test_each_rule(self):
        for name, said, lines, rules in CASES:
            with self.subTest(name=name):
                log = tfpg.records(graph(), rows(*said))
                self.assertEqual((list(log.lines), [entry.rule for entry in log.entries]), (lines, rules))
                for entry in log.entries:
                    is_line = entry.rule in ("alarm", "silence", "mode")
                    self.assertEqual(entry.line is not None, is_line)
                    if is_line:
                        time, kind, *_ = log.lines[entry.line - 1].split(" ")
                        self.assertEqual((int(time), kind.replace("silent", "silence")), (entry.time, entry.rule))

    def test_the_lines_are_accepted(self):
        for name, said, lines, _ in CASES:
            if name in ("a repeated alarm", "modes, silences and alarms at one instant", "the last off before the alarm"):
                with self.subTest(name=name):
                    self.assertTrue(accepted(made(*said)))

    def test_what_the_same_records_say_as_they_stand(self):
        """Without the rules nothing explains a repeated alarm, and with them its cause is ranked first: Jam needs at most 100 ms."""
        with files(graph=text(GRAPH)):
            for lines, ranked in ((["5000 alarm Cold", "65000 alarm Cold"], b"ranked 0 "), (made("5000 Cold raised", "65000 Cold raised"),
                                                                                          b"ranked 1 ")):
                ended = run_program(["diagnose", "--k", "1", "graph"], text(lines).encode())
                self.assertIn(b"counts " + ranked, ended.output.split(b"\nround ")[-1])

    def test_the_mode_in_the_beginning(self):
        self.assertEqual(made("5 Wet raised", mode="Stop"), ["0 mode Stop", "5 alarm Wet"])
        self.assertEqual(made("5 mode Run", mode="Stop"), ["0 mode Stop", "5 mode Run"])
        self.assertEqual(made("0 mode Wash", mode="Stop"), ["0 mode Wash"])
        self.assertEqual(made("0 mode Stop", mode="Stop"), ["0 mode Stop"])
        self.assertEqual(made("5 mode Run", mode="Run"), [])
        self.assertIn("The graph declares no mode `Fly`. Its modes: Run, Stop, Wash.", fault("5 mode Run", mode="Fly"))

    def test_counts_and_json(self):
        log = tfpg.records(graph(), [("1.5", "Wet", "raised", "left"), ("2.5", "Wet", "raised", "right")], offsets={"right": -900})
        self.assertEqual(log.text, "1500 alarm Wet\n")
        self.assertEqual(log.counts, {"alarm": 1, "repeat": 1})
        self.assertEqual(json.loads(json.dumps(log.to_dict())), {
            "records": 2, "boxes": ["left", "right"], "origin": 0, "date": None, "rules": {"alarm": 1, "repeat": 1}, "notes": [],
            "lines": ["1500 alarm Wet"]})


class Times(unittest.TestCase):
    def test_each_form(self):
        for said, time in (("0", 0), ("1000", 1000), ("-7", -7), ("0.1", 100), ("0.001", 1), ("12.000", 12000),
                           ("1764468000.25", 1764468000250), ("1.001", 1001), ("4.097", 4097), ("-0.5", -500),
                           ("1970-01-01T00:00:00Z", 0), ("1970-01-02 00:00Z", 86400000),
                           ("2025-11-30T02:00:00Z", 1764468000000), ("2025-11-30T02:00:00.25Z", 1764468000250),
                           ("2025-11-30T03:30:00+01:30", 1764468000000), ("2025-11-29T21:00:00-05:00", 1764468000000),
                           ("2025-11-30T02:00:00,5", 1764468000500), ("2024-02-29T00:00:00Z", 1709164800000)):
            with self.subTest(said=said):
                self.assertEqual(moment_of(said)[::2], (time, False))

    def test_digits_below_a_millisecond_are_cut_off(self):
        """A time within a millisecond is at that millisecond, before 0 too."""
        for said, time in (("0.0019", 1), ("0.9999", 999), ("-0.0001", -1), ("1970-01-01T00:00:00.123999Z", 123)):
            with self.subTest(said=said):
                self.assertEqual(moment_of(said)[::2], (time, True))
        self.assertEqual(moment_of("0.1230")[::2], (123, False))
        log = tfpg.records(graph(), rows("0.12345 Wet raised", "0.2 Cold raised"))
        self.assertEqual(log.notes, ("1 time has digits below a millisecond, which are cut off.",))

    def test_what_is_no_time(self):
        for said in ("", "5s", "1e3", "1,5", ".5", "5.", "+5", "0x5", "inf", "6:45", "2025-11-30", "2025-02-30T00:00:00Z",
                     "2025-11-30T24:00Z", "2025-11-30T23:59:60Z", "2025-11-30T02:00:00 Z", "\u0665", "9" * 65):
            with self.subTest(said=said):
                self.assertRaises(ValueError, moment_of, said)

    def test_numbers_that_count_something_smaller(self):
        """Microseconds, and milliseconds with a point, would be read as times a thousand times too far apart."""
        for said, unit in (("1764468000000000", "milliseconds"), ("1764468000000.0", "seconds, since it has a point,")):
            self.assertIn(f"`{said}` counts {unit} and is after the year 5000.", fault(f"{said} Wet raised", before="8h"))
        self.assertEqual(moment_of("99999999999999").time, 99999999999999)
        self.assertEqual(moment_of("99999999999.999").time, 99999999999999)

    def test_numbers_that_may_be_seconds(self):
        note = "The times of the box left have 10 digits, as Unix time in seconds has. If they count seconds, say --seconds."
        said = [(1764468000, "Wet", "raised", "left"), (1764468060, "Cold", "raised", "left"), (5, "Wet", "off", "right")]
        self.assertEqual(tfpg.records(graph(), said).notes, (note,))
        self.assertEqual(tfpg.records(graph(), [*said, (5, "Wet", "off", "left")]).notes, ())
        log = tfpg.records(graph(), said[:2], seconds=True, before=0)
        self.assertEqual((log.notes, log.lines), ((), ("0 alarm Wet", "60000 alarm Cold")))

    def test_dates_without_a_zone(self):
        log = tfpg.records(graph(), rows("2025-11-30T02:00:00 Wet raised"), before="1s")
        self.assertEqual((log.lines, log.origin), (("1000 alarm Wet",), 1764467999000))
        self.assertEqual(log.notes, ("The times have no zone, and are taken as UTC. If clocks were put forward or back between them, "
                                     "some are wrong by an hour.",))

    def test_against_the_calendar_of_python(self):
        epoch = datetime(1970, 1, 1, tzinfo=timezone.utc)
        begin = datetime(1969, 12, 31, 23, 59, 59, 999000, timezone(timedelta(hours=-11, minutes=-30)))
        for number in range(500):
            there = begin + number * timedelta(days=97, hours=5, seconds=7.25)
            self.assertEqual(moment_of(there.isoformat()).time, (there - epoch) // timedelta(milliseconds=1))

    def test_one_form_for_a_box(self):
        self.assertIn("record 2: `6.5` is a time in seconds, and this box wrote milliseconds before. If its whole numbers count "
                      "seconds too, say --seconds.", fault("5 Wet raised", "6.5 Wet cleared"))
        self.assertEqual(made("5 Wet raised", "6.5 Cold raised", seconds=True), ["5000 alarm Wet", "6500 alarm Cold"])
        self.assertIn("Write the zone at all times, or at none", fault("2025-11-30T02:00:00 Wet off", "2025-11-30T02:00:00Z Wet off"))
        log = tfpg.records(graph(), [("5", "Wet", "raised", "left"), ("0.5", "Cold", "raised", "right")])
        self.assertEqual(log.lines, ("5 alarm Wet", "500 alarm Cold"))

    def test_the_origin(self):
        self.assertEqual(made("1764468005000 Wet raised", origin=1764468000000), ["5000 alarm Wet"])
        self.assertEqual(made("1764468005000 Wet raised", origin="2025-11-30T02:00:00Z"), ["5000 alarm Wet"])
        self.assertEqual(made("2025-11-30T02:00:05Z Wet raised", origin=datetime(2025, 11, 30, 2, tzinfo=timezone.utc)), ["5000 alarm Wet"])
        self.assertEqual(made("9 Wet raised", "7 Cold off", before="8h"), ["28800000 silent Cold", "28800002 alarm Wet"])
        self.assertEqual(made("9 Wet raised", before=0), ["0 alarm Wet"])
        self.assertEqual(made(before="8h"), [])
        self.assertEqual(fault("5 Wet off", "4 Wet off", origin=5).split(". ")[0], "record 2: Its time 4 is 1 ms before the origin 5")
        self.assertIn("--before 8h begins it 8 hours before", fault("1764468005000 Wet raised"))
        self.assertEqual(made(f"{10**12} Wet raised"), [f"{10**12} alarm Wet"])
        self.assertIn("The origin is wrong: `noon` is no time.", fault("5 Wet off", origin="noon"))
        with self.assertRaisesRegex(ValueError, "and not both"):
            made("5 Wet off", origin=0, before=5)

    def test_the_first_record_has_the_offset_of_its_box(self):
        said = [(5000, "Wet", "raised", "slow"), (7000, "Cold", "raised", "right")]
        log = tfpg.records(graph(), said, offsets={"slow": 3000}, before=100)
        self.assertEqual((log.origin, log.lines), (6900, ("100 alarm Cold", "1100 alarm Wet")))

    def test_offsets(self):
        self.assertIn("There is an offset for the box `lefd`, and no record of it. The boxes: left.",
                      str(self.bad([("5", "Wet", "off", "left")], offsets={"lefd": 5})))

    def bad(self, given, **choices):
        with self.assertRaises(tfpg.BadRecord) as raised:
            tfpg.records(graph(), given, **choices)
        return raised.exception

    def test_durations(self):
        self.assertEqual([duration_of(said) for said in ("8h", "90min", "5s", "250ms", "2d", "0s")],
                         [28800000, 5400000, 5000, 250, 172800000, 0])
        for said in ("8", "h", "8 h", "1.5h", "-8h", "8H"):
            self.assertRaises(ValueError, duration_of, said)


class Names(unittest.TestCase):
    def test_by_a_table(self):
        names = {"S_WET_1": "Wet", "SET": "raised", "CLR": "cleared", "IGN": "mode", "15": "Wash"}
        self.assertEqual(made("5 S_WET_1 SET", "6 S_WET_1 CLR", "7 IGN 15", "8 Cold raised", names=names),
                         ["5 alarm Wet", "7 mode Wash", "8 alarm Cold"])

    def test_one_word_in_two_places(self):
        names = [("1", "on"), ("0", "off"), ("1", "Stop"), ("0", "Run")]
        self.assertEqual(made("5 Wet 0", "6 mode 1", "7 Wet 1", "8 mode 0", names=names),
                         ["5 silent Wet", "6 mode Stop", "7 alarm Wet", "8 mode Run"])

    def test_names_are_exact(self):
        said = fault("5 Wet off", "6 wet raised", "7 Wet_ raised", "8 wet raised", "9 Hidden raised")
        self.assertIn("record 2: The graph declares no node with a monitor of the name `wet` in line 2; `Wet_` in line 3; `Hidden` in "
                      "line 5, which has no monitor. The nodes with a monitor: Wet, Cold.", said)

    def test_left_out(self):
        log = tfpg.records(graph(), rows("x wet raised", "8 Leak raised", "9 Cold raised"), leave_out=True)
        self.assertEqual((log.lines, [entry.rule for entry in log.entries]), (("9 alarm Cold",), ["unknown-name", "no-monitor", "alarm"]))

    def test_a_mode_is_never_left_out(self):
        self.assertIn("The graph declares no mode `Fly`. Its modes: Run, Stop, Wash. A change of mode is never left out",
                      fault("5 mode Fly", leave_out=True))

    def test_an_unknown_value(self):
        self.assertIn("record 1: `RAISED` is no value of a monitor. An alarm is `raised` or `cleared`, a sample is `on` or `off`.",
                      fault("5 Wet RAISED"))

    def test_a_wrong_table(self):
        self.assertIn("`Wett` stands for nothing", fault("5 x off", names={"x": "Wett"}))
        self.assertIn("`x` stands for `Wet` already.", fault("5 x off", names=[("x", "Wet"), ("x", "Cold")]))

    def test_a_graph_without_monitors_and_one_with_a_node_mode(self):
        for lines, said in ((["tfpg 1", "mode M", "end"], "no node with a monitor"),
                            (["tfpg 1", "mode M", "failure F 1", "or mode watch 5", "edge F mode 0 1 *", "end"], "Rename the node.")):
            with self.assertRaisesRegex(tfpg.BadRecord, said):
                tfpg.records(tfpg.Graph(text(lines)), [])


class Notes(unittest.TestCase):
    def test_samples_that_leave_open_since_when(self):
        """Cold has a greatest lag of 2 s: 2001 ms after the sample before it is longer."""
        self.assertEqual(tfpg.records(graph(), rows("5 Cold off", "2005 Cold on")).notes, ())
        self.assertEqual(tfpg.records(graph(), rows("5 Cold off", "2006 Cold raised")).notes, ())
        self.assertEqual(tfpg.records(graph(), rows("5 Cold off", "2006 Cold on")).notes, (
            "Line 2: Cold is on 2.001 s after the sample before, which is longer than its greatest lag, 2 s. The lag of a sampled monitor "
            "has the time between two samples in it.",))
        self.assertEqual(tfpg.records(graph(), rows("9 Cold on")).notes, (
            "Line 1: Cold is on in its first sample, so nobody knows since when. The line says that it became active at most 2 s before. "
            "Begin the records earlier, or take its records out.",))


class Page(unittest.TestCase):
    def test_each_rule_is_said_with_its_reason(self):
        """Each rule has its row in the page on modelling: what becomes of the record, and why."""
        page = (TOP / "docs" / "modelling.md").read_text(encoding="utf-8").split("## From your records to a log")[1].split("\n## ")[0]
        rows_of_page = [line for line in page.splitlines() if line.startswith("| `")]
        for rule in RULES:
            with self.subTest(rule=rule):
                found = [line for line in rows_of_page if f"`{rule}`" in line.split("|")[1]]
                self.assertEqual(len(found), 1)
                self.assertTrue(all(cell.strip() for cell in found[0].split("|")[1:4]), found)


class Limits(unittest.TestCase):
    def test_the_changes_of_mode(self):
        """A log has 1,024. One more is refused by its record; a mode that holds already counts for nothing."""
        said = [f"{number} mode {('Run', 'Stop')[number % 2]}" for number in range(1, 1025)]
        self.assertEqual(made("0 mode Run", *said, "9999 mode Run"), said)
        over = [f"{number} mode {('Run', 'Stop')[number % 2]}" for number in range(1, 1026)]
        self.assertIn("record 1025: It is one change of mode too many: they are 1,025, and a log has at most 1,024.", fault(*over))
        self.assertEqual(len(made(*over[:-1])), 1024)
        self.assertIn("record 1024: It is one change of mode too many", fault(*over[:-1], mode="Wash"))


class Sources(unittest.TestCase):
    def taken(self, content, name="left.csv"):
        """What comes of a file of records: the lines, or the fault."""
        with files(**{name: content}):
            try:
                return list(tfpg.records(graph(), Path(name)).lines)
            except tfpg.BadRecord as bad:
                return str(bad)

    def test_csv(self):
        self.assertEqual(self.taken("time,name,value\n5,Wet,raised\n"), ["5 alarm Wet"])
        self.assertEqual(self.taken("\ufeffvalue,unit,name,time\r\nraised,\"a, b\",\"Wet\",5\r\n\r\nraised,,Cold,6\r\n"),
                         ["5 alarm Wet", "6 alarm Cold"])
        self.assertEqual(self.taken("time, name, value\n5, Wet, raised\n"), ["5 alarm Wet"])
        self.assertEqual(self.taken("time,name,value\n"), [])

    def test_json_lines(self):
        said = '{"time": 0.1, "name": "Wet", "value": "raised"}\n\n{"time": 0.2, "name": "Cold", "value": "on", "x": [1]}'
        self.assertEqual(self.taken(said), ["100 alarm Wet", "200 alarm Cold"])
        with files(a='{"time": 1, "name": "Wet", "value": true}\n{"time": 2, "name": "Cold", "value": 1}\n'):
            log = tfpg.records(graph(), Path("a"), names={"true": "raised", "1": "on"})
        self.assertEqual(log.lines, ("1 alarm Wet", "2 alarm Cold"))

    def test_faults(self):
        for content, said in (
                ("", "left.csv line 1: The header has no column `time`: it is ``."),
                ("time;name;value\n5;Wet;raised\n",
                 "left.csv line 1: The header has no column `time`: it is `time;name;value`. Its columns are"),
                ("time,name,value,time\n", "left.csv line 1: The column `time` stands twice"),
                ("time,name,value\n5,Wet,off\n6,Wet\n", "left.csv line 3: The record has 2 columns, and the header 3."),
                ("time,name,value\n5,\"We\"t,off\n", "left.csv line 2: It is no CSV: "),
                (b"time,name,value\n5,Wet,off\n6,W\xe4rme,off\n", "left.csv line 3: The file is not UTF-8."),
                ("time,name,value\n5,\"a\nb\",off\n6,Wet,of\n",
                 "left.csv line 2: The graph declares no node with a monitor of the name `a␊b`"),
                ('{"time": 5, "name": "Wet", "value": "off"}\n{"time": 5 "name"}\n',
                 "left.csv line 2: It is no JSON: Expecting ',' delimiter at column 12."),
                ('{"time": 5, "name": "Wet"}\n', "left.csv line 1: The object has no key `value`."),
                ('{"time": null, "name": "Wet", "value": "off"}\n', "left.csv line 1: The value of `time` is neither a text nor a number."),
                ('{"time": 5, "name": "Wet", "value": "off"}\n[5]\n', "left.csv line 2: It is no JSON object."),
                ("time,name,value\n5,Wet,off\nnoon,Wet,off\n", "left.csv line 3: `noon` is no time.")):
            with self.subTest(content=content):
                self.assertIn(said, self.taken(content))

    def test_the_box_of_a_file(self):
        """Without a column `box`, or with nothing in it, the box has the name of the file without its ending."""
        right = "time,name,value,box\n6,Cold,raised,far\n7,Cold,cleared,\n"
        with files(**{"left.csv": "time,name,value\n5,Wet,raised\n", "right.csv": right}):
            log = tfpg.records(graph(), [Path("left.csv"), Path("right.csv")], offsets={"left": 100})
        self.assertEqual([entry.record.box for entry in log.entries], ["left", "far", "right"])
        self.assertEqual(log.lines, ("6 alarm Cold", "105 alarm Wet"))

    def test_rows(self):
        given = [{"time": 5, "name": "Wet", "value": "raised", "unit": "V"}, ("6", "Cold", "raised"), (7, "Cold", "cleared", "left"),
                 {"time": datetime(1970, 1, 1, 0, 0, 8), "name": "mode", "value": "Stop", "box": "right"}]
        self.assertEqual(tfpg.records(graph(), given).lines, ("5 alarm Wet", "6 alarm Cold", "8000 mode Stop"))
        with files(a="time,name,value\n5,Wet,raised\n"), open("a", newline="", encoding="utf-8") as file:
            self.assertEqual(tfpg.records(graph(), csv.DictReader(file)).lines, ("5 alarm Wet",))
        for wrong, error in (([(0.1, "Wet", "off")], TypeError), ("left.csv", TypeError), ([(5, "Wet")], ValueError),
                             ([{"time": 5}], KeyError)):
            with self.subTest(wrong=wrong), self.assertRaises(error):
                tfpg.records(graph(), wrong)


class Command(unittest.TestCase):
    def test_an_account_of_what_is_no_utf_8(self):
        """The name of a file may have such bytes, and JSON surrogates that stand for none."""
        name = os.fsdecode(b"caf\xe9.json")
        with files(graph=text(GRAPH)):
            Path(name).write_text('{"time": 5, "name": "Wet", "value": "raised"}\n{"time": 6, "name": "\\ud800", "value": "on"}\n')
            status, said = run("records", "graph", name, "--leave-out", "--account", "account")
            account = Path("account").read_text(encoding="utf-8")
        self.assertEqual((status, said.splitlines()[0]), (0, "5 alarm Wet"))
        self.assertIn("caf\\udce9.json,1,caf\\udce9,5,Wet,raised,", account)
        self.assertIn(",6,\\ud800,on,", account)

    def test_a_log_and_its_account(self):
        left = text(["time,name,value,volts", "2025-11-30T02:00:01.5Z,Wet,off,1", "2025-11-30T02:00:03Z,Wet,raised,1",
                     "2025-11-30T02:00:04Z,Wet,raised,1"])
        right = '{"time": 2.25, "name": "COLD", "value": "on"}\n{"time": 3.25, "name": "door", "value": "open"}\n'
        with files(graph=text(GRAPH), **{"left.csv": left, "right.jsonl": right, "names": "theirs,ours\nCOLD,Cold\n"}):
            status, said = run("records", "graph", "left.csv", "right.jsonl", "--offset", "right=1764468000000", "--before=10s",
                               "--names", "names", "--leave-out", "--account", "account")
            account = Path("account").read_text(encoding="utf-8")
            again = json.loads(run("records", "graph", "left.csv", "--origin", "2025-11-30T02:00:00Z", "--json")[1].split("\n")[0])
        self.assertEqual(status, 0)
        self.assertEqual(said, """\
10000 silent Wet
10750 alarm Cold
11500 alarm Wet
tfpg records: 5 records of 2 boxes, 3 lines. The time 0 of the log is 1764467991500, 2025-11-30T01:59:51.500Z.
        2 alarm: the first alarm of a monitor is a line
        1 silence: the last off before the first alarm of its monitor is a line
        1 repeat: a further alarm is none, since a node once active stays so
        1 unknown-name: the graph has no node of this name (--leave-out)
note: Line 2: Cold is on in its first sample, so nobody knows since when. The line says that it became active at most 2 s before. Begin \
the records earlier, or take its records out.
note: Not read: column volts.
""")
        self.assertEqual(account, """\
file,line,box,time,name,value,rule,log_time,log_line
left.csv,2,left,2025-11-30T02:00:01.5Z,Wet,off,silence,10000,1
left.csv,3,left,2025-11-30T02:00:03Z,Wet,raised,alarm,11500,3
left.csv,4,left,2025-11-30T02:00:04Z,Wet,raised,repeat,12500,
right.jsonl,1,right,2.25,COLD,on,alarm,10750,2
right.jsonl,2,right,3.25,door,open,unknown-name,,
""")
        self.assertEqual(again, {
            "records": 3, "boxes": ["left"], "origin": 1764468000000, "date": "2025-11-30T02:00:00.000Z",
            "rules": {"silence": 1, "alarm": 1, "repeat": 1}, "notes": ["Not read: column volts."],
            "lines": ["1500 silent Wet", "3000 alarm Wet"]})

    def test_faults(self):
        good = "time,name,value\n5,Wet,off\n"
        with files(graph=text(GRAPH), good=good, bad=good + "6,Wet,of\n", names="theirs,ours\nx,Wet\ny,Wett\n", header="their,our\n"):
            for words, status, said in (
                    (["good", "bad"], 1, "tfpg records: bad line 3: `of` is no value of a monitor."),
                    (["good", "--names", "names"], 1, "tfpg records: names line 3: `Wett` stands for nothing"),
                    (["good", "--names", "header"], 1, "tfpg records: header line 1: The header is `their,our`"),
                    (["none"], 5, "tfpg records: none: No such file or directory"),
                    (["good", "--account", "none/account"], 5, "tfpg records: none/account: No such file or directory"),
                    ([], 2, "the following arguments are required"),
                    (["good", "--before", "8"], 2, "`8` is no duration"),
                    (["good", "--before", "8h", "--origin", "5"], 2, "not allowed with"),
                    (["good", "--offset", "good:5"], 2, "`good:5` is no offset"),
                    (["good", "--offset", "good=5", "--offset", "good=6"], 2, "each box has one offset, and one has two")):
                with self.subTest(words=words):
                    found, told = run("records", "graph", *words)
                    self.assertEqual(found, status)
                    self.assertIn(said, unwrapped(told))
        with files(graph="tfpg 1\nmode M\n", good=good):
            self.assertEqual(run("records", "graph", "good"), (
                1, "tfpg records: The graph declares no node with a monitor. `lint` says what is wrong with it.\n"))


@unittest.skipIf(library_words(), library_words())
class Calls(unittest.TestCase):
    def test_a_strict_session_takes_the_lines(self):
        log = tfpg.records(graph(), rows("5000 Cold off", "7000 Cold on", "9000 Cold off", "9000 mode Stop", "67000 Cold on"))
        with tfpg.Session(graph(), strict=True) as session:
            answers = list(session.rounds(log.lines))
        self.assertEqual([one.set for one in answers[-1].ranked], ["Jam"])


if __name__ == "__main__":
    unittest.main()

"""Each cause of a line of a log: the word that is underlined, and the sentence."""

import unittest

from support import EXAMPLES, lint, run, text, tiny, underlined, unwrapped, widest
from tfpg.explaining.log_lines import SENTENCES, explain_log_line
from tfpg.reading.graphs import graph_of

TINY_GRAPH = tiny()
SHAPES = "The shapes are `T alarm NODE`, `T silent NODE`, `T sweep`, `T tick`, `T mode MODE`."

# cause, line, underlined word or nothing, what is said
CASES = [
    ("BadLine", "", None, "The line is empty, and a log has no empty lines. " + SHAPES),
    ("BadLine", "# at noon", "#", "A log has no comments."),
    ("BadLine", "5", "5", "There is one word, and no event after it."),
    ("BadLine", "5 alarmed Wet", "alarmed", "`alarmed` is no event. " + SHAPES),
    ("BadLine", "5 ALARM Wet", "ALARM", "`ALARM` is no event: the words of events have small letters."),
    ("BadLine", "alarm 5 Wet", "alarm", "The time comes first."),
    ("BadLine", "5 alarm", "alarm", "After `alarm` the node is missing."),
    ("BadLine", "5 mode", "mode", "After `mode` the mode is missing."),
    ("BadLine", "5 sweep Wet", "Wet", "`Wet` is one word too many."),
    ("BadLine", "5 tick # noon", "#", "A comment at the end of a line is not possible: all words of the line count."),
    ("BadLine", "5  tick", " ", "There are two spaces in a row. Words have one space between them."),
    ("BadLine", "5 tick ", " ", "There is a space at its end."),
    ("BadLine", " 5 tick", " ", "It begins with a space. The first word begins the line."),
    ("BadLine", "5\ttick", "5␉tick", "There is a tab in it. Words have one space between them."),
    ("BadLine", "5 tick\r", "tick␍", "This line ends with a carriage return before the line feed, as files of Windows do."),
    ("BadLine", "5\u00a0tick", None, "There is a space in it that is no plain one."),
    ("BadNumber", "5.25 tick", "5.25",
     "The time `5.25` is no number. A number is `0`, or a digit from 1 to 9 and then digits: no sign, no point, no unit. "
     "It counts milliseconds. This one has decimals. If it counts seconds, write 5250."),
    ("BadNumber", "6:45:15 tick", "6:45:15", "This one is a date or a time of day. Count milliseconds from a start of your own."),
    ("BadNumber", "2026-11-30T02:00:00Z tick", "2026-11-30T02:00:00Z", "This one is a date or a time of day."),
    ("BadNumber", "-5 tick", "-5", "This one is below 0."),
    ("BadNumber", "+5 tick", "+5", "This one has a plus sign."),
    ("BadNumber", "007 tick", "007", "This one has a 0 before it: write 7."),
    ("BadNumber", "5ms tick", "5ms", "This one has the unit `ms` after it."),
    ("BadNumber", "1_000 tick", "1_000", "This one has signs between its digits."),
    ("BadNumber", "1e3 tick", "1e3", "This one has an exponent."),
    ("TimeTooLarge", "1764468000000 tick", "1764468000000",
     "A time is at most 10^12 milliseconds, some 31 years, and `1764468000000` is above it. "
     "It has 13 digits, as Unix time in milliseconds has: it would be 2025-11-30. "
     "Take a start of your own, and count milliseconds from it."),
    ("TimeTooLarge", "1764468000000000 tick", "1764468000000000", "It has 16 digits, as Unix time in microseconds has"),
    ("UnknownName", "5 alarm Wett", "Wett", "The graph declares no node `Wett`. The nodes with a monitor: Wet."),
    ("UnknownName", "5 alarm Stop", "Stop", "The graph declares no node `Stop`, but a mode of this name."),
    ("NotMonitored", "5 alarm Leak", "Leak",
     "`Leak` has no monitor: line 4 of the graph declares it as a failure mode. The nodes with a monitor: Wet."),
    ("NotMonitored", "5 silent Hidden", "Hidden", "`Hidden` has no monitor: line 6 of the graph declares it as hidden."),
    ("NotAMode", "5 mode Sleep", "Sleep", "The graph declares no mode `Sleep`. Its modes: Run, Stop."),
    ("TooLong", "5 tick" + " " * 5000, None, "A line has at most 4,096 bytes, and this one has 5,006."),
]


class LogCauses(unittest.TestCase):
    def test_each_case(self):
        """All lines stand in one log, since a refused line changes nothing."""
        status, said = lint(TINY_GRAPH, text([line for _, line, _, _ in CASES]))
        self.assertEqual(status, 1)
        with_all = self.told([line for _, line, _, _ in CASES])
        self.assertIn(f"log: the program refuses {len(CASES)} of {len(CASES)} lines, and accepts the others.", said)
        self.assertLessEqual(widest(with_all), 80)
        blocks = with_all.split("log line ")[1:]
        self.assertEqual(len(blocks), len(CASES))
        for number, (block, (cause, line, word, sentence)) in enumerate(zip(blocks, CASES), 1):
            with self.subTest(line=line[:40]):
                self.assertEqual(block.split("\n")[0], f"{number}: {cause}")
                self.assertIn(sentence, unwrapped(block))
                if word is not None:
                    self.assertEqual(underlined(block), [word])

    def told(self, lines):
        from support import files
        with files(graph=TINY_GRAPH, log=text(lines)):
            return run("lint", "--all", "graph", "log")[1]

    def test_a_time_that_goes_back(self):
        status, said = run("lint", str(EXAMPLES / "pump.tfpg"), str(EXAMPLES / "pump.log"))
        self.assertEqual(status, 1)
        self.assertIn("pump.log line 5: TimeBack", said)
        self.assertIn("The time 3290000 is before 3300000, that of the last accepted line. Times never fall.", unwrapped(said))
        self.assertEqual(underlined(said), ["3290000"])

    def test_seconds_after_milliseconds(self):
        said = lint(TINY_GRAPH, "60000 tick\n65 tick\n")[1]
        self.assertIn("Does it count seconds? All times count milliseconds.", unwrapped(said))

    def test_too_many_changes_of_mode(self):
        status, said = lint(TINY_GRAPH, text(["5 mode Run"] * 1025))
        self.assertEqual((status, said.split("\n")[0]), (1, "log line 1025: ModesFull"))
        self.assertIn("A log has at most 1,024 changes of mode, and this one comes after so many.", unwrapped(said))

    def test_a_full_log(self):
        """So many lines take the program long, so the sentence is asked for without a run."""
        said = explain_log_line(graph_of(TINY_GRAPH), ["5 tick"], 1, "LogFull", None)
        self.assertEqual(said.sentence, "A log has at most 65,536 accepted lines, and this one comes after so many.")

    def test_each_cause_has_a_case(self):
        here = {case[0] for case in CASES} | {"TimeBack", "ModesFull", "LogFull"}
        self.assertEqual(here, set(SENTENCES))

    def test_many_refused_lines_are_counted(self):
        said = lint(TINY_GRAPH, text(["5 tack"] * 30 + ["x tick"] * 3))[1]
        self.assertIn("… and 13 more lines (BadLine 10, BadNumber 3). --all tells each.", unwrapped(said))

    def test_a_log_that_is_accepted(self):
        self.assertEqual(lint(TINY_GRAPH, "50 alarm Wet\n60 sweep\n"), (0,
            "graph: the program accepts this graph.\nlog: the program accepts all 2 lines.\n"))


if __name__ == "__main__":
    unittest.main()

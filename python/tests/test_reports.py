"""The reader of reports beside `check`, by random changes of right reports.

TFPG_SLIPS says how many reports are changed, 200 if it says nothing; there are four changes of each. They are the same each time.
"""

import os
import random
import unittest
from collections import Counter

from support import EXAMPLES, TOP, files
from tfpg.program import run_program
from tfpg.reading.graphs import graph_of
from tfpg.reading.reports import read_report
from tfpg.reading.texts import BadText, read_text

CHANGES = 4 * int(os.environ.get("TFPG_SLIPS", "200"))
SYSTEMS = [("pump", "pump", EXAMPLES), ("satellite", "satellite-array", EXAMPLES), ("satellite", "satellite-relay", EXAMPLES),
           ("pump", "pump-gauge", TOP / "page" / "tests" / "data")]
WORDS = ["0", "1", "65", "4294967295", "4294967296", "1000000000000", "1000000000001", "9223372036854775807", "9223372036854775808", "00",
         "-1"]
READ = ["refused 2 TooLong", "refused 2 LogFull", "refused 9223372036854775807 TimeBack 1000000000000"]  # after the first line
OTHERS = [
    "", "again", "cycle 0", "why top {node}", "why zero Nobody", "why pick 9223372036854775807 1", "refused 5 Banana", "refused 3 TimeBack",
    "refused 3 TimeBack 1000000000001", "refused 3 BadLine 5", "refused 9223372036854775808 BadLine", "hyp 3", "at {node} 5",
    "panel 1 lost", "panel 2 memory", "split ormay {node} 0 5", "split andmay {node} {other} 0 5", "split ormust {node} {other} 0 5",
    "open 3 set {node}", "rejected 3 set !{node},{other}", "rejected 3 set {node},{node}", "ranked 1 cost 2 robust 1 set -",
    "counts ranked 1 covered 0 rejected 0 open 0", "round 4294967296 1 5", "round 1 1 1000000000001", "round 01 1 5",
    "report 1 k 2 budget 1000", "report 2 k 65 doubt 0 budget 1", "refused 2 TooLong" + " " * 4096]


def changed_line(draw, graph, lines, at):
    """A line with another word, without one, with one more, or with a byte more or less."""
    words, kind = lines[at].split(" "), draw.randrange(6)
    place = draw.randrange(len(words))
    if kind == 0:
        words[place] = draw.choice(lines[draw.randrange(len(lines))].split(" "))
    elif kind == 1:
        words[place] = draw.choice(WORDS)
    elif kind == 2:
        words[place] = draw.choice(graph.nodes).name
    elif kind == 3:
        del words[place]
    elif kind == 4:
        words.insert(place, draw.choice(words))
    else:
        words[place] = words[place][:-1] + draw.choice(["", "x", "0", ",", "/", "!", "\t", "\xe9"])
    return " ".join(words)


def changed(draw, graph, report):
    """A report with one change of a line, or with a line that moved, stands twice, is gone or new, or cut at some place."""
    lines = report.split("\n")[:-1]
    at, other, kind = draw.randrange(len(lines)), draw.randrange(len(lines)), draw.randrange(8)
    if kind == 0:
        return report[:draw.randrange(len(report))]
    if kind == 1:
        lines[at], lines[other] = lines[other], lines[at]
    elif kind == 2:
        lines.insert(at, lines[other])
    elif kind == 3:
        del lines[at]
    elif kind == 4:
        names = [one.name for one in draw.sample(graph.nodes, 2)]
        lines.insert(at, draw.choice(READ + OTHERS).format(node=names[0], other=names[1]))
    else:
        lines[at] = changed_line(draw, graph, lines, at)
    return "".join(line + "\n" for line in lines)


def read(report, graph):
    """What the reader says: `read`, or the line and the cause."""
    try:
        read_report(report, graph)
    except BadText as fault:
        return fault.line, fault.cause.split(":")[0]
    return "read"


class Reports(unittest.TestCase):
    def test_the_reader_says_what_check_says(self):
        causes = Counter()
        for number in range(CHANGES):
            draw = random.Random(number)
            system, name, folder = draw.choice(SYSTEMS)
            graph = graph_of(read_text(EXAMPLES / f"{system}.tfpg"))
            report = changed(draw, graph, read_text(folder / f"{name}.report"))
            ended = run_program(["check", str(EXAMPLES / f"{system}.tfpg"), str(EXAMPLES / f"{name}.log")], report.encode("latin-1"))
            with self.subTest(number=number):
                causes[self.hold(ended, read(report, graph))] += 1
        self.assertGreaterEqual(causes["BadReport"], CHANGES // 3)
        self.assertGreaterEqual(causes["other"], CHANGES // 20)

    def hold(self, ended, said):
        """Holds what the reader says against the end of `check`, and returns the cause of that."""
        if ended.status != 1:
            self.assertEqual((ended.status, said), (0, "read"))
            return "accepted"
        at, cause = ended.cause
        if cause == "BadReport":
            self.assertEqual(said, (at, cause))
        elif cause == "EndsEarly":  # also where only the log goes on, and the reader knows no log
            self.assertIn(said, ["read", (at, cause)])
        else:  # what a block or a step says is judged by `check` alone, and all lines of the block may be read
            self.assertTrue(said == "read" or said[0] > at, said)
        return cause if cause in ("BadReport", "EndsEarly") else "other"

    def test_what_may_come_after_the_first_line(self):
        graph = graph_of(read_text(EXAMPLES / "pump.tfpg"))
        for lines, wanted in ((READ, "read"), (["round 4294967295 9223372036854775807 1000000000000"], (3, "EndsEarly")),
                              (OTHERS, (2, "BadReport"))):
            for line in lines:
                report = "report 2 k 2 doubt 0 budget 1000\n" + line.format(node="LowFlow", other="MotorHot") + "\n"
                with self.subTest(line=line[:40]):
                    self.assertEqual(read(report, graph), wanted)

    def test_panels_rise(self):
        report = ("report 2 k 0 doubt 0 budget 1000\nround 1 1 5\nranked 0 cost 0 robust 1/1 set -\n"
                  "counts ranked 1 covered 0 rejected 0 open 0\n")
        self.assertEqual(read(report + "panel 1 lost\npanel 2 memory\n", graph_of("")), "read")
        for last in ("panel 1 memory", "panel 0 lost"):
            self.assertEqual(read(report + f"panel 1 lost\n{last}\n", graph_of("")), (6, "BadReport"))

    def test_nodes_of_a_trace_rise(self):
        graph = graph_of(read_text(EXAMPLES / "pump.tfpg"))
        ranked = "report 2 k 1 doubt 0 budget 1000\nround 1 1 5\nranked 1 cost 2 robust 0/3 set FilterClogged\nat FilterClogged 0\n"
        counts = "counts ranked 1 covered 0 rejected 0 open 0\n"
        self.assertEqual(read(ranked + "at WeakSuction 5\n" + counts, graph), "read")
        self.assertEqual(read(ranked + "at FilterClogged 5\n" + counts, graph), (5, "BadReport"))

    def test_an_empty_text(self):
        with files(graph=(EXAMPLES / "pump.tfpg").read_bytes(), log=b""):
            self.assertEqual(self.hold(run_program(["check", "graph", "log"]), (1, "EndsEarly")), "EndsEarly")
        self.assertEqual(read("", graph_of("")), (1, "EndsEarly"))


if __name__ == "__main__":
    unittest.main()

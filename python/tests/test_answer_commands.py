"""`ask`, `explain` and `predict` of the package: the output of the program byte for byte, and what was refused said first."""

import os
import subprocess
import sys
import unittest

from support import EXAMPLES, TOP, files
from tfpg.program import find_program

PUMP = str(EXAMPLES / "pump.tfpg")
FIRST = "600000 tick\n1800000 tick\n2715000 alarm LowFlow\n"
BAD = FIRST + "2800000 ALARM MotorHot\r\n"
LOST = ("1 of 4 lines of the log is refused, and the answer is without it. The first is line 4, BadLine: `2800000 ALARM MotorHot␍`. "
        "`ALARM` is no "
        "event: the words of events have small letters. This line ends with a carriage return before the line feed, as files of Windows "
        "do. It "
        "belongs to the last word. Take it away: `tr -d '\\r' < OLD > NEW` `lint` tells each.\n")
NEVER = "`never` means that MotorHot does not become active by 0:45:16, 1 s after the last event. A greater --ahead looks further.\n"


def ran(program, *words, given=""):
    """The status, the output and the lines on standard error of a run, without those by which the script says that a trial answers."""
    names = {**os.environ, "PYTHONPATH": str(TOP / "python"), "PYTHONDONTWRITEBYTECODE": "1", "TFPG_PROGRAM": find_program()}
    done = subprocess.run([*program, *words], input=given.encode(), stdout=subprocess.PIPE, stderr=subprocess.PIPE, env=names, check=False)
    said = done.stderr.decode().splitlines(keepends=True)
    return done.returncode, done.stdout, "".join(line for line in said if not line.startswith("tfpg: "))


class Answers(unittest.TestCase):
    def both(self, command, *words, given="", strict=False):
        """What the package says of a run whose output is that of the program, with its status."""
        status, output, said = ran([sys.executable, "-m", "tfpg"], command, *words, *(["--strict"] if strict else []), given=given)
        own = ran([find_program()], command, *words, given=given)
        self.assertEqual(output, own[1])
        self.assertEqual(status if status != 9 else 0, own[0])
        return status, said

    def test_ask(self):
        with files(log=FIRST, bad=BAD):
            self.assertEqual(self.both("ask", PUMP, "log", strict=True), (0, ""))
            self.assertEqual(self.both("ask", "--k", "1", PUMP, "bad"), (0, f"tfpg ask: {LOST}"))
            self.assertEqual(self.both("ask", PUMP, "bad", strict=True), (9, f"tfpg ask: {LOST}"))

    def test_a_graph_as_the_log(self):
        status, said = self.both("ask", PUMP, PUMP, strict=True)
        self.assertEqual(status, 9)
        self.assertIn("All 24 lines of the log are refused, and the answer is without them. The first is line 1, BadLine: `tfpg 1`. A "
                      "graph begins "
                      "so, and no line of a log. Are the files in their order, GRAPH and then LOG?", said)

    def test_explain(self):
        with files(bad="600000 ALARM LowFlow\n"):
            status, said = self.both("explain", PUMP, "bad", given="set -\n", strict=True)
        self.assertEqual(status, 9)
        self.assertTrue(said.startswith("tfpg explain: 1 of 1 line of the log is refused, and the answer is without it. "), said)

    def test_predict(self):
        with files(log=FIRST, bad=BAD):
            self.assertEqual(self.both("predict", PUMP, "log", "MotorHot"), (0, f"tfpg predict: {NEVER}"))
            self.assertEqual(self.both("predict", PUMP, "bad", "MotorHot", strict=True), (9, f"tfpg predict: {LOST}tfpg predict: {NEVER}"))
            self.assertEqual(self.both("predict", "--ahead=3600000", PUMP, "log", "MotorHot", strict=True), (0, ""))

    def test_the_mode_of_never(self):
        lines = (EXAMPLES / "satellite-relay.log").read_text().splitlines(keepends=True)
        with files(log="".join(lines[:4])):
            said = self.both("predict", str(EXAMPLES / "satellite.tfpg"), "log", "RadioOff")[1]
        self.assertEqual(said, "tfpg predict: `never` means that RadioOff does not become active by 0:35:01.150, 1 s after the last "
                               "event, while the "
                               "mode stays Eclipse. A greater --ahead looks further.\n")

    def test_ends_of_the_program(self):
        with files(log=FIRST):
            for words, status, end in ((["ask", PUMP, "none"], 5, "read fault"), (["ask", PUMP], 2, "usage BadWords"),
                                       (["predict", PUMP, "log", "Nobody"], 2, "usage UnknownNode"),
                                       (["explain", PUMP, "log"], 1, "not accepted 1 BadMap")):
                with self.subTest(words=words):
                    self.assertEqual(self.both(*words, strict=True), (
                        status, f"tfpg {words[0]}: the program says: {end}. `lint --words` says more\n"))


if __name__ == "__main__":
    unittest.main()

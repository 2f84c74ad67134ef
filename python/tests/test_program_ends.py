"""That the library ends as the program does, where `lint` and `brief` ask it in place of the program: by status, line and report."""

import os
import subprocess
import sys
import unittest
from unittest import mock

from support import EXAMPLES, TOP, files, library_words, program_words, text, tiny
from tfpg.calls.program_ends import convert_end, diagnose_end
from tfpg.faults import NoLibrary
from tfpg.limits import FILE_BYTES

MANY = text(["tfpg 1", "mode M", *(f"failure F{n} 1" for n in range(64)), "or D hidden", "edge F0 D 0 1 *", "end"])
GRAPHS = {"right": tiny(), "a bad line": tiny((7, "or Wet watch 5000 7")), "one word": "pump.tfpg", "nothing": "", "many": MANY,
          "no end": tiny()[:-4], "JSON": "{}", "too long": "#" * (FILE_BYTES + 1)}
LOGS = [b"", b"5 tick\n6 alarm Nobody\n7 alarm Wet", b"pump.log", b"5 tick\r\n\n\xff tick\n", (EXAMPLES / "pump.log").read_bytes()]
TERMS = [[], ["--k=0", "--budget=1"], ["--k=4"], ["--k=65"], ["--k=x"], ["--k="], ["--doubt=5", "--k=-1"], ["--budget=0"],
         ["--budget=" + "9" * 30]]


def said(ended):
    return ended.status, ended.line, ended.output


@unittest.skipIf(library_words() or program_words(), library_words() or program_words())
class Ends(unittest.TestCase):
    def both(self, call, *words):
        """How it ends by the library, with the program missing, and by the program, with the library missing."""
        with mock.patch("tfpg.calls.program_ends.run_program", side_effect=AssertionError("the program is run")):
            one = call(*words)
        with mock.patch("tfpg.calls.program_ends.library", side_effect=NoLibrary("none")):
            return one, call(*words)

    def test_graphs(self):
        for name, graph in GRAPHS.items():
            with self.subTest(graph=name), files(graph=graph):
                one, other = self.both(convert_end, "graph")
                self.assertEqual(said(one)[:2], said(other)[:2])
        one, other = self.both(convert_end, "absent")
        self.assertEqual((said(one)[:2], one.status), (said(other)[:2], 5))

    def test_logs_and_terms(self):
        for terms in TERMS:
            for log in LOGS if len(terms) < 1 else LOGS[1:2]:
                with self.subTest(terms=terms, log=log), files(graph=tiny()):
                    self.assertEqual(*map(said, self.both(diagnose_end, "graph", log, terms)))
        for name, graph in GRAPHS.items():
            with self.subTest(graph=name), files(graph=graph):
                self.assertEqual(*map(said, self.both(diagnose_end, "graph", LOGS[1], ["--k=4"])))


@unittest.skipIf(program_words(), program_words())
class Outputs(unittest.TestCase):
    def test_an_output_that_takes_nothing(self):
        """A full disk, and a pipe that nobody reads. What is short stays in the room of Python until the command has ended."""
        pump = [str(EXAMPLES / f"pump.{kind}") for kind in ("tfpg", "log", "report")]
        named = {name: value for name, value in os.environ.items() if name != "PYTHONUNBUFFERED"}
        for words in (["lint", *pump[:2]], ["brief", *pump], ["brief", "--changes", *pump], ["ask", *pump[:2]]):
            reads, writes = os.pipe()
            os.close(reads)
            for output, said in ((writes, "Broken pipe"), (os.open("/dev/full", os.O_WRONLY), "No space left on device")):
                with self.subTest(words=words[:-2], said=said):
                    ended = subprocess.run([sys.executable, "-m", "tfpg", *words], cwd=TOP / "python", env=named, stdout=output,
                                           stderr=subprocess.PIPE, text=True, check=False)
                    os.close(output)
                    self.assertEqual((ended.returncode, ended.stderr.splitlines()[-1]), (5, f"tfpg {words[0]}: output: {said}"))


if __name__ == "__main__":
    unittest.main()

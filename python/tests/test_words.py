"""The command line of the package, the program that it finds, and texts that are shown."""

import os
import stat
import subprocess
import sys
import unittest
from pathlib import Path
from unittest import mock

from support import EXAMPLES, TOP, files, run
from tfpg.brief.paper import Paper
from tfpg.lint.refusals import underlined
from tfpg.faults import NoProgram
from tfpg.program import find_program, run_program
from tfpg.reading.texts import shown, words_of
from tfpg.saying.times import duration_words, start_of, time_words


class Program(unittest.TestCase):
    def test_the_variable_comes_first(self):
        with mock.patch.dict(os.environ, {"TFPG_PROGRAM": "/some/program"}):
            self.assertEqual(find_program(), "/some/program")

    def test_the_checkout_comes_next(self):
        with mock.patch.dict(os.environ):
            os.environ.pop("TFPG_PROGRAM", None)
            self.assertEqual(find_program(), str(TOP / "tfpg"))

    def test_then_the_path(self):
        with mock.patch("tfpg.program.checkout", lambda: None), mock.patch.dict(os.environ), files(tfpg="#!/bin/sh\n") as folder:
            os.environ.pop("TFPG_PROGRAM", None)
            os.chmod("tfpg", stat.S_IRWXU)
            os.environ["PATH"] = str(folder)
            self.assertEqual(find_program(), str(folder / "tfpg"))
            os.environ["PATH"] = "/nowhere"
            self.assertRaises(NoProgram, find_program)

    def test_no_program(self):
        with mock.patch.dict(os.environ, {"TFPG_PROGRAM": "/nowhere/tfpg"}):
            status, said = run("lint", "--words", "convert", str(EXAMPLES / "pump.tfpg"))
        self.assertEqual((status, said), (70, "tfpg lint: /nowhere/tfpg does not run: No such file or directory\n"))

    def test_lines_of_a_trial_are_no_lines_of_the_program(self):
        script = "#!/bin/sh\necho 'tfpg: a trial' >&2\necho 'graph 3 BadLine' >&2\necho 'tfpg: not proved' >&2\nexit 3\n"
        with files(program=script) as folder:
            os.chmod("program", stat.S_IRWXU)
            with mock.patch.dict(os.environ, {"TFPG_PROGRAM": str(folder / "program")}):
                ended = run_program(["convert", "graph"])
        self.assertEqual((ended.status, ended.line, ended.cause), (3, "graph 3 BadLine", (3, "BadLine")))

    def test_a_program_that_does_not_answer(self):
        with files(program="#!/bin/sh\necho 'tfpg: there is no trial' >&2\nexit 70\n") as folder:
            os.chmod("program", stat.S_IRWXU)
            with mock.patch.dict(os.environ, {"TFPG_PROGRAM": str(folder / "program")}):
                status, said = run("lint", "--words", "convert", str(EXAMPLES / "pump.tfpg"))
        self.assertEqual(status, 70)
        self.assertIn("did not answer, and ended with 70: tfpg: there is no trial", said)


class LeftOut(unittest.TestCase):
    """What the runner of these tests says where something is missing, in one line for each reason."""

    def told(self, *words, **missing):
        ran = subprocess.run([sys.executable, TOP / "python" / "test", *words], env={**os.environ, **missing}, stdout=subprocess.PIPE,
                             check=False)
        return ran.returncode, ran.stdout.decode()

    def test_without_a_program(self):
        tests = sum(line.startswith("    def test_") for line in (TOP / "python" / "tests" / "test_header.py").read_text().splitlines())
        said = f"python: all {tests} tests were left out: there is no program to run: "
        self.assertEqual([(status, words.startswith(said)) for status, words in
                          (self.told("header", TFPG_PROGRAM="/no"), self.told("--leave-out", "header", TFPG_PROGRAM="/no"))],
                         [(1, True), (0, True)])

    def test_without_a_library(self):
        status, said = self.told("answers", TFPG_LIBRARY="/no/library.so")
        lines = [line for line in said.splitlines() if " left out: " in line]
        self.assertEqual((status, len(lines)), (0, 2), said)
        self.assertRegex(lines[-1], r"^python: (\d+) of \1 tests were left out: /no/library\.so is not loaded")


class Words(unittest.TestCase):
    def test_help(self):
        self.assertEqual(run("--help")[0], 0)
        self.assertEqual(run()[0], 2)
        self.assertEqual(run("lint", "--help")[0], 0)

    def test_a_graph_that_is_absent(self):
        status, said = run("lint", "no-such-graph")
        self.assertEqual((status, said.split("\n")[0]), (5, "no-such-graph: No such file or directory"))

    def test_a_log_that_is_absent(self):
        status, said = run("lint", str(EXAMPLES / "pump.tfpg"), "no-such-log")
        self.assertEqual((status, said.split("\n")[0]), (5, "no-such-log: No such file or directory"))

    def test_a_file_whose_name_begins_like_an_option(self):
        with files(**{"-graph": (EXAMPLES / "pump.tfpg").read_bytes()}):
            self.assertEqual(run("lint", "--", "-graph"), (0, "-graph: the program accepts this graph.\n"))

    def test_words_of_files_that_cannot_be_read(self):
        """The sentence is what the system says of the first file that it cannot read, in the order of the words."""
        with files(graph=(EXAMPLES / "pump.tfpg").read_bytes()) as here:
            Path(here, "folder").mkdir()
            for words, said in ((["ask", "no-graph", "no-log"], "no-graph: No such file or directory"),
                                (["ask", "graph", "folder"], "folder: Is a directory"),
                                (["simulate", "graph", "no-script"], "no-script: No such file or directory"),
                                (["predict", "graph", "no-log", "LowFlow"], "no-log: No such file or directory")):
                with self.subTest(words=words):
                    status, told = run("lint", "--words", *words)
                    self.assertEqual((status, told.split("\n")[-2].strip()), (5, said))

    def test_a_report_has_its_terms(self):
        names = [str(EXAMPLES / name) for name in ("pump.tfpg", "pump.log", "pump.report")]
        for command in ("brief", "plot"):
            status, said = run(command, "--k", "3", *names)
            self.assertEqual(status, 2)
            self.assertIn(f"tfpg {command}: error: --k is of a run of the program, and REPORT has been written already\n", said)


class Shown(unittest.TestCase):
    def test_control_characters(self):
        self.assertEqual(shown("a\tb\r\x00"), "a␉b␍␀")

    def test_a_long_line_is_cut_round_its_word(self):
        line = "x" * 500 + " word " + "y" * 500
        text, signs = underlined(line, words_of(line)[1])
        self.assertEqual(text[signs.index("^"):signs.rindex("^") + 1], "word")
        self.assertLessEqual(max(len(text), len(signs)), 80)

    def test_times(self):
        self.assertEqual([time_words(0), time_words(2715000), time_words(90061001), time_words(10**12 + 1)], ["0:00:00", "0:45:15",
            "25:01:01.001", "never"])
        self.assertEqual([time_words(2715000, start_of("6:00")), time_words(64800000, start_of("6:00:30"))], ["6:45:15", "0:00:30 (day 2)"])
        self.assertEqual([duration_words(number) for number in (0, 999, 1500, 60000, 466000, 3600000)], ["0 ms", "999 ms", "1.5 s",
            "1 min", "7 min 46 s", "1 h"])

    def test_colour_is_for_terminals(self):
        plain, coloured = Paper(), Paper(True)
        for paper in (plain, coloured):
            paper.title("A title")
            paper.put("words")
        self.assertEqual((plain.text(), coloured.text()), ("A title\n  words\n", "\x1b[1mA title\x1b[0m\n  words\n"))


if __name__ == "__main__":
    unittest.main()

"""The runs that README.md and docs/fleets.md show, beside what the commands write, and their programs, beside what they print. `...` stands
for any lines."""

import os
import re
import subprocess
import sys
import tempfile
import unittest
from pathlib import Path

from support import EXAMPLES, TOP, library_words
from tfpg.program import find_program

PROGRAM = re.compile(r"^```python\n(.*?)^```\n(?:\n[^`\n][^`]*?)?\n```\n(.*?)^```$", re.M | re.S)
BLOCK = re.compile(r"^```\n(\$ .*?)^```$", re.M | re.S)


def runs(document):
    """The commands of the blocks of a document, each with what it has to write."""
    for block in BLOCK.findall((TOP / document).read_text(encoding="utf-8")):
        for run in re.split(r"^\$ ", block, flags=re.M)[1:]:
            command, _, shown = run.partition("\n")
            yield command, shown


def written(command, folder):
    """What a command writes in this folder, beside which the examples stand."""
    words = {**os.environ, "PYTHONPATH": str(TOP / "python"), "TFPG_PROGRAM": find_program(), "PYTHONDONTWRITEBYTECODE": "1"}
    command = re.sub(r"^python3 ", f"{sys.executable} ", command)
    return subprocess.run(["sh", "-c", command], cwd=folder, env=words, stdout=subprocess.PIPE,
                          stderr=subprocess.DEVNULL, check=False).stdout.decode()


def printed(*words, folder=TOP):
    """What Python prints, run with these words. A warning is an error."""
    names = {**os.environ, "PYTHONPATH": str(TOP / "python"), "PYTHONDONTWRITEBYTECODE": "1"}
    return subprocess.run([sys.executable, "-W", "error", *words], cwd=folder, env=names, stdout=subprocess.PIPE, check=True).stdout.decode()


class Readme(unittest.TestCase):
    def test_each_run(self):
        self.assertGreaterEqual(self.hold("python/README.md"), 3)

    @unittest.skipIf(library_words(), library_words())
    def test_each_run_of_fleets(self):
        self.assertGreaterEqual(self.hold("docs/fleets.md"), 3)

    def hold(self, document):
        """Holds each run of a document against what it writes, and returns how many there are."""
        with tempfile.TemporaryDirectory(prefix="tfpg-python-") as top:
            folder = Path(top, "python")
            folder.mkdir()
            Path(top, "examples").symlink_to(EXAMPLES)
            Path(top, "tfpg").symlink_to(find_program())
            count = 0
            for command, shown in runs(document):
                shape = "".join(".*" if part == "...\n" else re.escape(part) for part in re.split(r"^(\.\.\.\n)", shown, flags=re.M))
                with self.subTest(command=command):
                    self.assertRegex(written(command, folder), re.compile(rf"\A{shape}\Z", re.S))
                count += 1
        return count

    @unittest.skipIf(library_words(), library_words())
    def test_each_program(self):
        for name, folder in (("python/README.md", "python"), ("README.md", ""), ("docs/fleets.md", "")):
            programs = PROGRAM.findall((TOP / name).read_text(encoding="utf-8"))
            self.assertEqual(len(programs), 1)
            for program, shown in programs:
                with self.subTest(name=name):
                    self.assertEqual(printed("-c", program, folder=TOP / folder), shown)

    @unittest.skipIf(library_words(), library_words())
    def test_the_test_bench(self):
        self.assertEqual(printed(str(EXAMPLES / "testbench.py")), (EXAMPLES / "testbench.txt").read_text(encoding="ascii"))


if __name__ == "__main__":
    unittest.main()

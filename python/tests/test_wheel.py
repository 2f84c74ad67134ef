"""A wheel of the package: what stands in it, for which platform it is, and that it needs no program but for JSON."""

import importlib.util
import os
import shutil
import subprocess
import sys
import tempfile
import unittest
import zipfile
from pathlib import Path

from support import EXAMPLES, TOP, library_words
from tfpg.calls.library import FILE, library

MISSING = [name for name in ("pip", "setuptools", "wheel") if importlib.util.find_spec(name) is None]


def sources(folder):
    """The package, without what was built in it, in a folder of its own."""
    copy = Path(folder, "python")
    shutil.copytree(TOP / "python", copy, ignore=shutil.ignore_patterns("build", "*.egg-info", "__pycache__", FILE, ".mypy_cache"))
    return copy


def wheel_of(copy):
    """The wheel that is made of it."""
    words = [sys.executable, "-m", "pip", "wheel", "--no-build-isolation", "--no-deps", "--no-index", "-w", str(copy.parent), str(copy)]
    environment = {**os.environ, "PIP_DISABLE_PIP_VERSION_CHECK": "1", "PYTHONDONTWRITEBYTECODE": "1"}
    ran = subprocess.run(words, env=environment, stdout=subprocess.PIPE, stderr=subprocess.STDOUT, check=False)
    if ran.returncode:
        raise AssertionError(ran.stdout.decode())
    (made,) = copy.parent.glob("*.whl")
    return made


@unittest.skipIf(MISSING, f"{', '.join(MISSING)} is missing")
class Wheel(unittest.TestCase):
    def setUp(self):
        folder = tempfile.TemporaryDirectory(prefix="tfpg-python-")
        self.addCleanup(folder.cleanup)
        self.copy = sources(folder.name)

    def test_without_the_library(self):
        made = wheel_of(self.copy)
        self.assertTrue(made.name.endswith("-py3-none-any.whl"), made.name)
        names = set(zipfile.ZipFile(made).namelist())
        modules = {str(path.relative_to(TOP / "python")) for path in (TOP / "python" / "tfpg").rglob("*.py")}
        self.assertEqual({name for name in names if ".dist-info/" not in name}, modules | {"tfpg/py.typed", "tfpg/VERSION"})

    def test_nothing_of_an_older_build(self):
        stale = self.copy / "build" / "lib" / "tfpg"
        stale.mkdir(parents=True)
        (stale / "gone.py").write_text("")
        (stale / FILE).write_bytes(b"of another platform")
        made = wheel_of(self.copy)
        self.assertTrue(made.name.endswith("-py3-none-any.whl"), made.name)
        self.assertEqual([name for name in zipfile.ZipFile(made).namelist() if name.endswith(("gone.py", FILE))], [])

    @unittest.skipIf(library_words(), library_words())
    def test_with_the_library(self):
        shutil.copy(library().path, self.copy / "tfpg" / FILE)
        made = wheel_of(self.copy)
        self.assertTrue(made.name.endswith("-py3-none-linux_x86_64.whl"), made.name)
        place = self.copy.parent / "installed"
        zipfile.ZipFile(made).extractall(place)
        self.assertTrue((place / "tfpg" / FILE).is_file())
        environment = {"PATH": "/nowhere", "PYTHONPATH": str(place)}
        pump = [str(EXAMPLES / "pump.tfpg"), str(EXAMPLES / "pump.log")]
        said = {}
        for words in (["lint", *pump], ["lint", pump[0]], ["brief", *pump], ["brief", *pump, "--k", "1"]):
            ran = subprocess.run([sys.executable, "-m", "tfpg", *words], cwd=self.copy.parent, env=environment, stdout=subprocess.PIPE,
                                 stderr=subprocess.PIPE, check=False)
            said[" ".join(words[:1] + words[2:])] = ran.returncode, ran.stdout.decode(), ran.stderr.decode()
        self.assertEqual([(status, fault) for status, _, fault in said.values()], [(1, ""), (0, ""), (0, ""), (0, "")])
        self.assertIn("refuses 1 of 7 lines", said[f"lint {pump[1]}"][1])
        self.assertIn("FilterClogged: cost 2, 3 of 3 alarms", said[f"brief {pump[1]}"][1])
        ran = subprocess.run([sys.executable, "-m", "tfpg", "lint", "--words", "convert"], cwd=self.copy.parent, env=environment,
                             stdout=subprocess.PIPE, stderr=subprocess.PIPE, check=False)
        self.assertEqual((ran.returncode, b"there is no program" in ran.stderr), (70, True))


if __name__ == "__main__":
    unittest.main()

"""The library for C of what the gate left, with a toolchain that is made for the test."""

import os
import shutil
import subprocess
import sys
import tempfile
import unittest
from pathlib import Path

TOP = Path(__file__).resolve().parents[2]
TOOLCHAIN = """
import os
KIT = os.path.dirname(os.path.abspath(__file__))
RATTLE = os.path.join(KIT, "rattle")

class Crate:
    def __init__(self, top, name):
        self.name, self.folder = name, os.path.join(top, "crates", name)
        self.rlib = os.path.join(self.folder, "out", "rlib", name + ".rlib")
        self.top = top

    def below(self):
        return [Crate(self.top, "tfpg_base")] if self.name == "tfpg_embed" else []

    def words(self, flags, keeps):
        print("chose --jobs", file=self.out)
        return ["--crate-name", self.name, *flags]

def crates_below(top):
    return [Crate(top, "tfpg_base"), Crate(top, "tfpg_embed")]
"""
BUILDS = """#!/bin/sh
while [ "$1" != -o ]; do shift; done
echo archive > "$2"
"""
FAILS = """#!/bin/sh
echo 'a note'
echo 'not proved'
exit 1
"""


class LibraryOfGate(unittest.TestCase):
    def told(self, toolchain=TOOLCHAIN, rattle=BUILDS, left=True):
        """The status, what is said, and what is in the folder of the library then."""
        with tempfile.TemporaryDirectory(prefix="tfpg-tools-") as name:
            top, kit = Path(name, "top"), Path(name, "kit")
            for folder in (top / "tools", top / "crates" / "tfpg_embed", top / "crates" / "tfpg_base" / "out" / "rlib", kit):
                folder.mkdir(parents=True)
            if left:
                (top / "crates" / "tfpg_base" / "out" / "rlib" / "tfpg_base.rlib").mkdir()
            shutil.copy(TOP / "tools" / "library-of-gate", top / "tools")
            (kit / "rtlib.py").write_text(toolchain, encoding="utf-8")
            for script, text in (("rt", "#!/bin/sh\n"), ("rattle", rattle)):
                (kit / script).write_text(text, encoding="utf-8")
                (kit / script).chmod(0o755)
            ran = subprocess.run([sys.executable, top / "tools" / "library-of-gate"], stdout=subprocess.PIPE, check=False,
                                 env={**os.environ, "PATH": f"{kit}:/usr/bin:/bin"})
            made = top / "crates" / "tfpg_embed" / "out"
            return ran.returncode, ran.stdout.decode(), sorted(os.listdir(made)) if made.exists() else []

    def test_it_is_built(self):
        self.assertEqual(self.told(), (0, "library-of-gate: the library for C is built of what the gate left\n", ["libtfpg_embed.a"]))

    def test_a_toolchain_that_keeps_no_libraries(self):
        self.assertEqual(self.told(left=False), (1, "library-of-gate: `rt ci` left no library of tfpg_base\n", []))

    def test_a_proof_that_fails(self):
        status, said, made = self.told(rattle=FAILS)
        self.assertEqual((status, said, made), (1, "library-of-gate: tfpg_embed was not built: not proved\n", []))

    def test_another_toolchain(self):
        status, said, made = self.told(toolchain="KIT = '/nowhere'\n")
        self.assertEqual((status, made), (1, []))
        self.assertIn("library-of-gate: this toolchain is another one: AttributeError", said)


if __name__ == "__main__":
    unittest.main()

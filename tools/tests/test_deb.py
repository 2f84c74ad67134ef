"""The packages for Debian: they have what `./build install` installs, each file in one of them, and lintian has no error against them."""

import gzip
import os
import re
import shutil
import subprocess
import unittest
from pathlib import Path
from typing import Dict, List

from checkout import TOP
from test_install import MISSING, SHARED, VERSION, built_checkout, tree

TOOLS = MISSING + [tool for tool in ("dh", "dh_python3", "dpkg-buildpackage", "dpkg-deb") if not shutil.which(tool)]
LIBRARY = SHARED.replace("libtfpg.so.", "libtfpg")
PACKAGES = {"tfpg", LIBRARY, "libtfpg-dev", "python3-tfpg", "tfpg-doc"}


@unittest.skipIf(TOOLS, f"what packs is missing: {' '.join(TOOLS)}")
class Packages(unittest.TestCase):
    @classmethod
    def setUpClass(cls) -> None:
        cls.checkout = built_checkout()
        cls.addClassCleanup(cls.checkout.close)
        ran = cls.checkout.run("build", "deb", DEBFULLNAME="Some Packers", DEBEMAIL="packers@tfpg.org")
        assert ran.returncode == 0, ran.stderr
        cls.files = sorted((cls.checkout.top / "out" / "deb").glob("*.deb"))

    def field(self, file: Path, name: str) -> str:
        return subprocess.run(["dpkg-deb", "-f", file, name], capture_output=True, text=True, check=True).stdout.strip()

    def unpacked(self) -> Dict[str, Path]:
        """The folders with what is in each package."""
        folders = {}
        for file in self.files:
            name = self.field(file, "Package")
            folders[name] = self.checkout.folder / "unpacked" / name
            folders[name].mkdir(parents=True, exist_ok=True)
            subprocess.run(["dpkg-deb", "-x", file, folders[name]], check=True)
        return folders

    def test_their_names_versions_and_what_they_need(self):
        self.assertEqual({self.field(file, "Package") for file in self.files}, PACKAGES)
        self.assertEqual({self.field(file, "Version") for file in self.files}, {VERSION})
        needs = {self.field(file, "Package"): self.field(file, "Depends") for file in self.files}
        self.assertIn(f"{LIBRARY} (= {VERSION})", needs["libtfpg-dev"])
        self.assertIn(f"{LIBRARY} (= {VERSION})", needs["python3-tfpg"])
        self.assertIn("python3", needs["python3-tfpg"])
        self.assertNotIn("python", needs["tfpg"])

    def test_they_have_what_is_installed(self):
        goal = self.checkout.folder / "goal"
        folder = subprocess.run(["dpkg-architecture", "-qDEB_HOST_MULTIARCH"], capture_output=True, text=True, check=True).stdout.strip()
        ran = self.checkout.run("build", "install", "--prefix", "/usr", "--libdir", f"lib/{folder}", "--python-dir",
                                "lib/python3/dist-packages", DESTDIR=str(goal))
        self.assertEqual(ran.returncode, 0, ran.stderr)
        installed = {name: kind for name, kind in tree(goal).items() if not kind.endswith(" folder")}
        del installed["usr/share/tfpg/installed"]
        packed: Dict[str, str] = {}
        own: List[str] = []
        for package, place in self.unpacked().items():
            for path in (path for path in place.rglob("*") if path.is_symlink() or path.is_file()):
                name = as_installed(str(path.relative_to(place)))
                if re.fullmatch(rf"usr/share/(doc/{re.escape(package)}/changelog(\.Debian)?\.gz|lintian/overrides/{package})", name):
                    own.append(name)
                    continue
                self.assertNotIn(name, packed, "it is in two packages")
                packed[name] = said(path)
        self.assertEqual(set(packed), set(installed))
        self.assertEqual({name for name in packed if packed[name] != installed[name]}, set())
        self.assertGreaterEqual(len(own), len(PACKAGES))

    def test_the_program_has_the_bytes_that_were_built(self):
        packed = self.unpacked()["tfpg"] / "usr/libexec/tfpg/tfpg"
        self.assertEqual(packed.read_bytes(), self.checkout.program.read_bytes())

    @unittest.skipUnless(shutil.which("lintian"), "there is no lintian")
    def test_lintian_has_no_error_but_what_a_missing_licence_brings(self):
        ran = subprocess.run(["lintian", "--allow-root", "--tag-display-limit", "0", *map(str, self.files)], capture_output=True, text=True,
                             check=False)
        errors = [line for line in ran.stdout.splitlines() if line.startswith("E:")]
        without = [f"E: {name}: no-copyright-file" for name in PACKAGES]
        self.assertEqual(sorted(errors), [] if any(TOP.glob("LICEN[CS]E*")) else sorted(without))

    def test_nothing_is_packed_that_is_not_proved(self):
        source = self.checkout.top / "crates/tfpg_graph/src/lib.rt"
        before, times = source.read_text(), source.stat()
        self.checkout.wait_for_clock()
        source.write_text("changed\n")
        self.addCleanup(os.utime, source, ns=(times.st_atime_ns, times.st_mtime_ns))
        self.addCleanup(source.write_text, before)
        ran = self.checkout.run("build", "deb")
        self.assertEqual(ran.returncode, 70)
        self.assertIn("nothing is installed: the program is not built of the sources as they stand", ran.stderr)


def as_installed(name: str) -> str:
    """Where `./build install` puts what is at this place of a package."""
    return re.sub(r"^(usr/share/man/.*)\.gz$", r"\1", name).replace("zsh/vendor-completions", "zsh/site-functions")


def said(path: Path) -> str:
    """The same of a file of a package as `tree` has of a file."""
    if path.is_symlink():
        return f"-> {os.readlink(path)}"
    content = path.read_bytes()
    if path.suffix == ".gz":
        content = gzip.decompress(content)
    return f"{path.stat().st_mode & 0o7777:o} {content.hex()}"

"""`./build install` and `./build uninstall`: what is put where, that it works from any folder and for any user, and that all goes again."""

import importlib.util
import os
import re
import shutil
import subprocess
import sys
import unittest
from pathlib import Path
from typing import Dict, List, Optional

from checkout import ARCHIVE, BUILT, TOP, Checkout

MORE = ["docs", "include", "page", "python/tfpg", "python/README.md", "README.md", "CHANGELOG.md"]
VERSION = (TOP / "VERSION").read_text().strip()
SHARED = f"libtfpg.so.{'.'.join(VERSION.split('.')[:2])}"
MISSING = [tool for tool in ("cc", "ar", "pandoc", "pkg-config", "tar") if not shutil.which(tool)]
CALLS = re.findall(r"^(?:tfpg_answer|void) (tfpg_\w+)\(", (TOP / "include/tfpg.h").read_text(encoding="ascii"), re.M)
COMMANDS = ["diagnose", "check", "explain", "simulate", "generate", "convert", "ask", "predict", "fleet"]


def real_heap() -> Optional[Path]:
    """The toolchain's allocator, if the toolchain is there."""
    rt = shutil.which("rt")
    heap = Path(os.path.realpath(rt)).parents[1] / "c" / "liblibc_c.a" if rt else None
    return heap if heap and heap.is_file() else None


IS_REAL = os.access(TOP / BUILT, os.X_OK) and (TOP / ARCHIVE).is_file() and real_heap() is not None
needs_real = unittest.skipUnless(IS_REAL, "the program and the library for C are not built here")


def built_checkout() -> Checkout:
    """A checkout in which all is built: what this one has, or stubs."""
    checkout = Checkout(MORE)
    heap = checkout.folder / "c"
    checkout.archive.parent.mkdir()
    heap.mkdir()
    if IS_REAL:
        checkout.program.parent.mkdir()
        shutil.copy(TOP / BUILT, checkout.program)
        shutil.copy(TOP / ARCHIVE, checkout.archive)
        shutil.copy(real_heap() or "", heap)
    else:
        checkout.put_program()
        stub = checkout.folder / "stub.c"
        stub.write_text("".join(f"int {name}(void) {{ return 0; }}\n" for name in CALLS))
        make_archive(stub, checkout.archive)
        stub.write_text("void *rattle_alloc(void) { return 0; }\n")
        make_archive(stub, heap / "liblibc_c.a")
    checkout.wait_for_clock()
    for file in (checkout.program, checkout.archive):
        os.utime(file)
    return checkout


def make_archive(source: Path, archive: Path) -> None:
    subprocess.run(["cc", "-fPIC", "-c", "-o", source.with_suffix(".o"), source], check=True)
    subprocess.run(["ar", "rcs", archive, source.with_suffix(".o")], check=True)


def tree(folder: Path) -> Dict[str, str]:
    """All below a folder: of each file what it has, of each link where it leads, and each folder, with their modes."""
    found = {}
    for path in sorted(folder.rglob("*")):
        kind = f"-> {os.readlink(path)}" if path.is_symlink() else "folder" if path.is_dir() else path.read_bytes().hex()
        found[str(path.relative_to(folder))] = kind if path.is_symlink() else f"{path.stat().st_mode & 0o7777:o} {kind}"
    return found


@unittest.skipIf(MISSING, f"what installs is missing: {' '.join(MISSING)}")
class InstallCase(unittest.TestCase):
    @classmethod
    def setUpClass(cls) -> None:
        cls.checkout = built_checkout()
        cls.addClassCleanup(cls.checkout.close)

    def installed(self, *words: str, **more: str) -> "subprocess.CompletedProcess[str]":
        ran = self.checkout.run("build", "install", *words, **more)
        self.assertEqual(ran.returncode, 0, ran.stderr)
        return ran


class Places(InstallCase):
    """What is installed below a folder, and taken back."""

    def setUp(self) -> None:
        self.goal = self.checkout.folder / "goal"
        self.goal.mkdir()
        self.addCleanup(shutil.rmtree, self.goal)

    def found(self) -> List[str]:
        return sorted(str(path.relative_to(self.goal)) for path in self.goal.rglob("*") if not path.is_dir())

    def test_what_is_put_where(self):
        self.installed("--prefix", "/opt/one", "--python-dir", "py", DESTDIR=str(self.goal))
        found = self.found()
        wanted = ["bin/tfpg", "bin/tfpg-page", "libexec/tfpg/tfpg", "include/tfpg.h", "lib/libtfpg.a", "lib/libtfpg_malloc.a",
                  f"lib/libtfpg.so.{VERSION}", f"lib/{SHARED}", "lib/libtfpg.so", "lib/pkgconfig/tfpg.pc", "share/tfpg/VERSION",
                  "share/man/man1/tfpg.1", "share/man/man1/tfpg-page.1", "share/man/man3/tfpg.3", "share/man/man5/tfpg.5",
                  *(f"share/man/man1/tfpg-{one}.1" for one in COMMANDS), *(f"share/tfpg/help/tfpg-{one}.txt" for one in COMMANDS),
                  "share/bash-completion/completions/tfpg", "share/zsh/site-functions/_tfpg", "share/fish/vendor_completions.d/tfpg.fish",
                  "py/tfpg/__init__.py", "py/tfpg/py.typed", "py/tfpg/libtfpg.so", f"py/tfpg-{VERSION}.dist-info/METADATA",
                  "share/tfpg/page/tfpg-page", "share/tfpg/page/making/script.py", "share/tfpg/page/src/reading/graph.mjs",
                  "share/doc/tfpg/README.md", "share/doc/tfpg/docs/formats.md", "share/doc/tfpg/examples/pump.tfpg", "share/tfpg/installed"]
        self.assertEqual([one for one in wanted if f"opt/one/{one}" not in found], [])
        self.assertEqual([one for one in found if not one.startswith("opt/one/") or "__pycache__" in one], [])
        self.assertEqual((self.goal / "opt/one/libexec/tfpg/tfpg").read_bytes(), self.checkout.program.read_bytes())

    def test_all_may_read_it(self):
        """Whatever the mask of who installs it."""
        self.checkout.bash(f"umask 077; DESTDIR={self.goal} ./build install --prefix /opt/one --python-dir py")
        for path in (self.goal / "opt").rglob("*"):
            self.assertEqual(path.stat().st_mode & 0o444, 0o444, path)
        for path in ("bin/tfpg", "bin/tfpg-page", "libexec/tfpg/tfpg"):
            self.assertEqual((self.goal / "opt/one" / path).stat().st_mode & 0o777, 0o755)

    def test_what_names_a_place_names_the_last_one(self):
        """Nothing that is installed names DESTDIR or the checkout, and links lead to what is installed."""
        self.installed("--prefix", "/opt/one", "--python-dir", "py", DESTDIR=str(self.goal))
        folder = str(self.checkout.folder).encode()
        for path in self.goal.rglob("*"):
            if path.is_symlink():
                self.assertFalse(os.readlink(path).startswith("/"), path)
                self.assertTrue(path.resolve().exists() and path.resolve().is_relative_to(self.goal.resolve()), path)
            elif path.is_file():
                self.assertNotIn(folder, path.read_bytes(), path)

    def test_a_licence_goes_along_if_there_is_one(self):
        licence = self.checkout.top / "LICENSE"
        self.addCleanup(licence.unlink)
        licence.write_text("words\n")
        self.installed("--prefix", "/opt/one", "--python-dir", "py", DESTDIR=str(self.goal))
        self.assertIn("opt/one/share/doc/tfpg/LICENSE", self.found())

    def test_all_is_taken_back_and_nothing_else(self):
        """Files, links, folders and modes that were there stay, and so does what came later in a folder that was made."""
        (self.goal / "opt/one/bin").mkdir(parents=True)
        (self.goal / "opt/one/share/man").mkdir(parents=True)
        (self.goal / "opt/one/bin").chmod(0o2775)
        (self.goal / "opt/one/bin/other").write_text("other\n")
        (self.goal / "opt/one/share/man/other").symlink_to("nowhere")
        before = tree(self.goal)
        self.installed("--prefix", "/opt/one", "--python-dir", "py", DESTDIR=str(self.goal))
        self.assertGreater(len(tree(self.goal)), len(before) + 100)
        subprocess.run([sys.executable, "-c", "import tfpg"], check=True, env={"PYTHONPATH": str(self.goal / "opt/one/py")})
        self.assertTrue(list(self.goal.rglob("__pycache__")), "Python compiled nothing")
        self.assertEqual(self.checkout.run("build", "uninstall", "--prefix", "/opt/one", DESTDIR=str(self.goal)).returncode, 0)
        self.assertEqual(tree(self.goal), before)

    def test_what_came_later_stays(self):
        self.installed("--prefix", "/opt/one", "--python-dir", "py", DESTDIR=str(self.goal))
        (self.goal / "opt/one/share/tfpg/mine").write_text("mine\n")
        self.checkout.run("build", "uninstall", "--prefix", "/opt/one", DESTDIR=str(self.goal))
        self.assertEqual(self.found(), ["opt/one/share/tfpg/mine"])

    def test_what_python_compiled_of_other_modules_stays(self):
        """Also where a module came to the package later, and where its folder was there before."""
        own = [self.goal / "opt/one/py/tfpg/reading/mine.py", self.goal / "opt/one/py/other.py"]
        own[1].parent.mkdir(parents=True)
        own[1].write_text("")
        self.installed("--prefix", "/opt/one", "--python-dir", "py", DESTDIR=str(self.goal))
        own[0].write_text("")
        subprocess.run([sys.executable, "-c", "import other, tfpg, tfpg.reading.mine"], check=True,
                       env={"PYTHONPATH": str(self.goal / "opt/one/py")})
        self.assertEqual(self.checkout.run("build", "uninstall", "--prefix", "/opt/one", DESTDIR=str(self.goal)).returncode, 0)
        caches = [importlib.util.cache_from_source(str(module)) for module in own]
        self.assertEqual(self.found(), sorted(str(Path(file).relative_to(self.goal)) for file in (*own, *caches)))

    def test_a_second_time_takes_the_place_of_the_first(self):
        self.installed("--prefix", "/opt/one", "--python-dir", "py", DESTDIR=str(self.goal))
        first = tree(self.goal)
        listed = self.goal / "opt/one/share/tfpg/installed"
        older = self.goal / "opt/one/bin/tfpg-older"
        older.write_text("older\n")
        listed.write_text("/opt/one/bin/tfpg-older\n" + listed.read_text())
        self.installed("--prefix", "/opt/one", "--python-dir", "py", DESTDIR=str(self.goal))
        self.assertEqual(tree(self.goal), first)

    def test_a_file_of_somebody_else_is_not_overwritten(self):
        other = self.goal / "opt/one/bin/tfpg"
        other.parent.mkdir(parents=True)
        other.write_text("other\n")
        ran = self.checkout.run("build", "install", "--prefix", "/opt/one", DESTDIR=str(self.goal))
        self.assertEqual(ran.returncode, 70)
        self.assertIn(f"nothing is installed: {other} is there, and not from ./build install", ran.stderr)
        self.assertEqual(self.found(), ["opt/one/bin/tfpg"])

    def test_nothing_to_take_back(self):
        ran = self.checkout.run("build", "uninstall", "--prefix", "/opt/one", DESTDIR=str(self.goal))
        self.assertEqual((ran.returncode, self.found()), (70, []))

    def test_words(self):
        for words in (["--prefix"], ["--prefix", "here"], ["--prefix", "/a b"], ["there"]):
            ran = self.checkout.run("build", "install", *words, DESTDIR=str(self.goal))
            self.assertEqual((ran.returncode, self.found()), (70, []), words)


class Proved(unittest.TestCase):
    """Nothing is installed that is not built of the sources as they stand."""

    @classmethod
    def setUpClass(cls) -> None:
        cls.checkout = Checkout(MORE)
        cls.addClassCleanup(cls.checkout.close)

    def refused(self, why: str) -> None:
        goal = self.checkout.folder / "goal"
        ran = self.checkout.run("build", "install", DESTDIR=str(goal))
        self.assertEqual(ran.returncode, 70)
        self.assertEqual(ran.stderr, f"build: nothing is installed: {why}\n")
        self.assertFalse(goal.exists())

    def test_what_is_not_built_or_older(self):
        program = "the program is not built of the sources as they stand. ./build proves and builds it"
        library = "the library for C is not built of the sources as they stand. ./build library proves and builds it"
        self.refused(program)
        self.checkout.put_program()
        self.refused(library)
        self.checkout.archive.parent.mkdir()
        self.checkout.archive.write_text("library\n")
        self.checkout.wait_for_clock()
        (self.checkout.top / "crates/tfpg_embed/src/lib.rt").write_text("changed\n")
        self.refused(library)
        (self.checkout.top / "crates/tfpg_graph/proofs/lemmas/fact.antt").write_text("changed\n")
        self.refused(program)


class Use(InstallCase):
    """What is installed works from any folder, for any user, without the checkout."""

    @classmethod
    def setUpClass(cls) -> None:
        super().setUpClass()
        cls.checkout.folder.chmod(0o755)
        cls.prefix = cls.checkout.folder / "prefix"
        ran = cls.checkout.run("build", "install", "--prefix", str(cls.prefix), "--python-dir", "python")
        assert ran.returncode == 0, ran.stderr
        cls.said = ran.stderr
        cls.checkout.top.rename(cls.checkout.folder / "away")

    def tearDown(self) -> None:
        self.assertFalse(self.checkout.top.exists())

    def ran(self, command: str) -> str:
        """What a command writes as another user in the folder /, or by this one if that is no root."""
        own = ["setpriv", "--reuid=65534", "--clear-groups"] if os.geteuid() == 0 else []
        environment = {"PATH": f"{self.prefix}/bin:/usr/local/bin:/usr/bin:/bin", "PYTHONPATH": str(self.prefix / "python"),
                       "PKG_CONFIG_PATH": str(self.prefix / "lib/pkgconfig"), "PYTHONDONTWRITEBYTECODE": "1", "LC_ALL": "C.UTF-8"}
        ran = subprocess.run([*own, "bash", "-c", command], cwd="/", env=environment, capture_output=True, text=True, timeout=120,
                             check=False)
        self.assertEqual((ran.returncode, ran.stderr), (0, ""), command)
        return ran.stdout

    def test_help_and_the_version(self):
        self.assertEqual(self.ran("tfpg --version"), f"tfpg {VERSION}\n")
        self.assertEqual(self.ran("tfpg help ask"), (TOP / "docs/man/help/tfpg-ask.txt").read_text())
        self.assertEqual(self.ran("tfpg -h"), (TOP / "docs/man/help/tfpg.txt").read_text())

    def test_the_installation_says_what_does_not_find_it(self):
        self.assertIn(f"the PATH does not have {self.prefix}/bin", self.said)
        self.assertIn("PKG_CONFIG_PATH names it", self.said)
        self.assertIn(f"python3 does not look in {self.prefix}/python: PYTHONPATH names it", self.said)

    @unittest.skipUnless(shutil.which("man"), "there is no man")
    def test_the_manual(self):
        for name in ("tfpg", "tfpg-predict", "tfpg-page", "5 tfpg", "3 tfpg"):
            self.assertIn("NAME", self.ran(f"man -M {self.prefix}/share/man {name} | cat"), name)

    def test_python(self):
        self.assertEqual(self.ran("python3 -c 'import tfpg; print(tfpg.__version__)'"), f"{VERSION}\n")
        self.assertEqual(self.ran("python3 -c 'import importlib.metadata; print(importlib.metadata.version(\"tfpg\"))'"), f"{VERSION}\n")

    def test_pkg_config(self):
        self.assertEqual(self.ran("pkg-config --modversion tfpg"), f"{VERSION}\n")
        links = [f"-L{self.prefix}/lib", "-ltfpg"]
        self.assertEqual(self.ran("pkg-config --cflags --libs tfpg").split(), [f"-I{self.prefix}/include", *links])
        self.assertEqual(self.ran("pkg-config --static --libs tfpg").split(), [*links, "-ltfpg_malloc"])

    def test_the_name_of_the_shared_library(self):
        self.assertIn(f"SONAME               {SHARED}\n", self.ran(f"objdump -p {self.prefix}/lib/libtfpg.so"))
        exported = self.ran(f"nm -D --defined-only {self.prefix}/lib/libtfpg.so | sed 's/.* //'").split()
        self.assertEqual(set(exported), {*CALLS, "tfpg_header_version"})

    def test_the_version_of_the_header(self):
        self.assertIn(f'#define TFPG_VERSION "{VERSION}"\n', (self.prefix / "include/tfpg.h").read_text())

    @needs_real
    def test_the_first_run(self):
        examples = self.prefix / "share/doc/tfpg/examples"
        self.assertEqual(self.ran(f"tfpg diagnose {examples}/pump.tfpg < {examples}/pump.log"), (examples / "pump.report").read_text())
        self.assertEqual(self.ran(f"tfpg check {examples}/pump.tfpg {examples}/pump.log < {examples}/pump.report"), "accepted 6\n")

    @needs_real
    def test_c_with_the_shared_and_the_static_library(self):
        made, examples = self.checkout.folder / "made", self.prefix / "share/doc/tfpg/examples"
        made.mkdir()
        made.chmod(0o777)
        for kind, words in (("shared", "pkg-config --cflags --libs tfpg"), ("static", "pkg-config --static --cflags --libs tfpg")):
            flag = "-static" if kind == "static" else f"-Wl,-rpath,{self.prefix}/lib"
            self.ran(f"cc -o {made}/{kind} {flag} {examples}/embed.c $({words})")
            report = self.ran(f"{made}/{kind} {examples}/pump.tfpg < {examples}/pump.log")
            self.assertEqual(report, (examples / "pump.report").read_text(), kind)
        self.ran(f"cc -I {self.prefix}/include -o {made}/pool {examples}/embed.c {examples}/pool.c -L {self.prefix}/lib -l:libtfpg.a")
        self.assertEqual(self.ran(f"{made}/pool {examples}/pump.tfpg < {examples}/pump.log"), (examples / "pump.report").read_text())

    @needs_real
    def test_a_session_from_python(self):
        text = (f"import tfpg; graph = tfpg.Graph.load('{self.prefix}/share/doc/tfpg/examples/pump.tfpg'); session = tfpg.Session(graph); "
                "print(session.event(5, 'tick').ranked[0].set)")
        self.assertEqual(self.ran(f'python3 -c "{text}"'), "-\n")

    def test_the_maker_of_pages_finds_the_package(self):
        """Also where Python does not look for it."""
        self.assertIn("usage: tfpg-page", self.ran("PYTHONPATH= tfpg-page --help"))
        self.assertEqual((self.prefix / "share/tfpg/python/tfpg").resolve(), (self.prefix / "python/tfpg").resolve())

    @needs_real
    @unittest.skipUnless(shutil.which("dot"), "there is no Graphviz")
    def test_a_page(self):
        examples = self.prefix / "share/doc/tfpg/examples"
        page = self.ran(f"tfpg-page --check tfpg {examples}/pump.tfpg {examples}/pump.log {examples}/pump.report")
        self.assertIn("<title>", page)

    @needs_real
    def test_a_failure_on_a_terminal(self):
        from checkout import on_terminal
        status, said = on_terminal([str(self.prefix / "bin/tfpg"), "ask", "absent", "x"], Path("/"), {"PATH": "/usr/bin:/bin"})
        self.assertEqual((status, said), (5, "read fault\ntfpg: absent is not there\n"))


class OneVersion(unittest.TestCase):
    """What has a version has that of the file VERSION."""

    def test_it_is_three_numbers(self):
        self.assertRegex(VERSION, r"\A(0|[1-9]\d*)\.(0|[1-9]\d*)\.(0|[1-9]\d*)\Z")

    def test_the_header_and_the_package_for_python(self):
        header = (TOP / "include/tfpg.h").read_text(encoding="ascii")
        self.assertEqual(re.findall(r'#define TFPG_VERSION "(.*)"', header), [VERSION])
        ran = subprocess.run([sys.executable, "-B", "-c", "import tfpg; print(tfpg.__version__)"], cwd=TOP / "python", capture_output=True,
                             text=True, check=True)
        self.assertEqual(ran.stdout.strip(), VERSION)

    def test_the_changes_begin_with_it(self):
        self.assertEqual(re.findall(r"^## (\S+)", (TOP / "CHANGELOG.md").read_text(), re.M)[0], VERSION)

    def test_the_page_on_versions_names_the_shared_library(self):
        self.assertIn(f"`{SHARED}` now", (TOP / "docs/versions.md").read_text())


class LeftOut(unittest.TestCase):
    def test_what_cannot_be_tried_is_said(self):
        """On a machine without a compiler and without pandoc each test that installs is left out, and none is silent."""
        words = [sys.executable, "-B", "-m", "unittest", "-v", "test_install.Places", "test_install.Use"]
        ran = subprocess.run(words, cwd=TOP / "tools/tests", env={"PATH": "/nowhere"}, capture_output=True, text=True, timeout=60,
                             check=False)
        tests = [name for kind in (Places, Use) for name in vars(kind) if name.startswith("test_")]
        self.assertEqual(ran.stderr.count("skipped 'what installs is missing: cc ar pandoc pkg-config tar'"), len(tests), ran.stderr)
        self.assertIn(f"OK (skipped={len(tests)})", ran.stderr)

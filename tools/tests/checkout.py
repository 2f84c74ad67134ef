"""A small checkout for tests: the scripts of this one, crates of a few lines, and an `rt` that proves and compiles nothing."""

from __future__ import annotations

import os
import pty
import select
import shutil
import subprocess
import tempfile
import time
from pathlib import Path
from typing import Dict, List, Optional, Sequence, Tuple

TOP = Path(__file__).resolve().parents[2]
BUILT, TRIED, ARCHIVE = "crates/tfpg/out/tfpg", "crates/tfpg/out/trial/tfpg", "crates/tfpg_embed/out/libtfpg_embed.a"
COPIED = ["tfpg", "build", "tools", "VERSION", "docs/man", "crates.txt", "examples"]

# Says what it is and with which words it runs. The second line is its status, if there is a file `status` beside it.
PROGRAM = """#!/bin/sh
echo "{what} $*"
echo 'the line of the program' >&2
exit $(cat "$(dirname "$0")/status" 2> /dev/null || echo 0)
"""

RT = r"""#!/usr/bin/env bash
# What the tests have in the place of the toolchain. It takes what stands in the folder of `RT_SAYS` for what it has to do besides.
set -eu
printf '%s\n' "$*" >> "$RT_SAYS/calls"
if [ -e "$RT_SAYS/on-$1" ]; then . "$RT_SAYS/on-$1"; fi
case $1 in
    version) echo 'a kit for tests' ;;
    check) mkdir -p out ;;
    all) for crate in $(sed 's/[: ].*//' crates.txt); do printf '== %s\nlogic=proved\n' "$crate"; done; echo '== end' ;;
    run) mkdir -p out; cp "$RT_SAYS/built" out/tfpg; chmod 700 out/tfpg ;;
    lib) mkdir -p out; echo archive > "out/lib$(basename "$PWD").a" ;;
    try)
        mkdir "$TMPDIR/made"
        cp "$RT_SAYS/tried" "$TMPDIR/made/program"
        chmod 700 "$TMPDIR/made/program"
        cat "${@: -1}" > /dev/null
        ;;
esac
"""


class Checkout:
    """A copy of the scripts, with a crate for each line of `crates.txt`, in a folder of its own that `close` removes."""

    def __init__(self, more: Sequence[str] = ()) -> None:
        self.folder = Path(tempfile.mkdtemp(prefix="tfpg-tools-"))
        self.top = self.folder / "a checkout"
        self.says = self.folder / "says"
        for name in [*COPIED, *more]:
            there = self.top / name
            there.parent.mkdir(parents=True, exist_ok=True)
            if (TOP / name).is_dir():
                shutil.copytree(TOP / name, there, ignore=shutil.ignore_patterns("__pycache__", ".mypy_cache"), dirs_exist_ok=True)
            else:
                shutil.copy(TOP / name, there)
        for line in (self.top / "crates.txt").read_text().splitlines():
            if not line.startswith("#"):
                self.make_crate(line.split(":")[0].split(" ")[0])
        self.make_toolchain()

    def make_crate(self, name: str) -> None:
        for path in ("src/lib.rt", "src/deep/low.rt", "specs/Notion.antt", "proofs/lemmas/fact.antt", "must-fail/slip.edit"):
            file = self.top / "crates" / name / path
            file.parent.mkdir(parents=True, exist_ok=True)
            file.write_text(f"{name} {path}\n")

    def make_toolchain(self) -> None:
        self.says.mkdir()
        (self.folder / "bin").mkdir()
        rt = self.folder / "bin" / "rt"
        rt.write_text(RT)
        rt.chmod(0o755)
        (self.says / "built").write_text(PROGRAM.format(what="built"))
        (self.says / "tried").write_text(PROGRAM.format(what="tried") + "#" * (2 << 20) + "\n")

    @property
    def program(self) -> Path:
        return self.top / BUILT

    @property
    def trial(self) -> Path:
        return self.top / TRIED

    @property
    def archive(self) -> Path:
        return self.top / ARCHIVE

    def calls(self) -> List[str]:
        """The words of each call of `rt` so far."""
        file = self.says / "calls"
        return file.read_text().splitlines() if file.exists() else []

    def put_program(self, what: str = "built", status: int = 0) -> None:
        """Puts a program in its place, newer than all sources, without sums."""
        self.program.parent.mkdir(parents=True, exist_ok=True)
        self.program.write_text(PROGRAM.format(what=what))
        self.program.chmod(0o755)
        (self.program.parent / "status").write_text(f"{status}\n")
        self.wait_for_clock()
        os.utime(self.program)

    @staticmethod
    def wait_for_clock() -> None:
        """Lets the clock of the file system go on, so that a change has a later time than the one before."""
        time.sleep(0.02)

    def environment(self, **more: str) -> Dict[str, str]:
        known = {name: value for name, value in os.environ.items() if not name.startswith("TFPG_")}
        known.update(PATH=f"{self.folder / 'bin'}:/usr/local/bin:/usr/bin:/bin", RT_SAYS=str(self.says),
                     XDG_CACHE_HOME=str(self.folder / "cache"))
        known.update(more)
        return known

    def run(self, *words: str, cwd: Optional[Path] = None, **more: str) -> "subprocess.CompletedProcess[str]":
        """Runs a script of the checkout, as `tfpg` or `build`, by its words, in the top or another folder."""
        return subprocess.run([str(self.top / words[0]), *words[1:]], cwd=cwd or self.top, env=self.environment(**more), text=True,
                              stdin=subprocess.DEVNULL, capture_output=True, timeout=900)

    def bash(self, text: str, **more: str) -> "subprocess.CompletedProcess[str]":
        """Runs lines of bash at the top of the checkout."""
        return subprocess.run(["bash", "-c", text], cwd=self.top, env=self.environment(**more), text=True, capture_output=True,
                              stdin=subprocess.DEVNULL, timeout=120)

    def run_on_terminal(self, *words: str, cwd: Optional[Path] = None, **more: str) -> Tuple[int, str]:
        """The status of a script, and what it writes on a terminal."""
        return on_terminal([str(self.top / words[0]), *words[1:]], cwd or self.top, self.environment(**more))

    def close(self) -> None:
        shutil.rmtree(self.folder)


def on_terminal(words: List[str], cwd: Path, environment: Dict[str, str], seconds: float = 60) -> Tuple[int, str]:
    """The status of a command, and what it writes on a terminal of its own, which is its output and its standard error."""
    main, other = pty.openpty()
    running = subprocess.Popen(words, cwd=cwd, env=environment, stdin=subprocess.DEVNULL, stdout=other, stderr=other)
    os.close(other)
    said, end = b"", time.monotonic() + seconds
    while time.monotonic() < end:
        if select.select([main], [], [], 0.1)[0]:
            try:
                piece = os.read(main, 65536)
            except OSError:
                break
            if not piece:
                break
            said += piece
    os.close(main)
    try:
        status = running.wait(timeout=10)
    except subprocess.TimeoutExpired:
        running.kill()
        raise
    return status, said.decode().replace("\r\n", "\n")

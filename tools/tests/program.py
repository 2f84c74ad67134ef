"""The program that tests of the scripts run: TFPG_PROGRAM, or what is built or tried in this checkout. They never start a compiler."""

from __future__ import annotations

import os
import subprocess
import unittest
from pathlib import Path
from typing import List, Optional, Tuple

from checkout import BUILT, TOP, TRIED

PLACES = [TOP / BUILT, TOP / TRIED]


def program() -> Optional[str]:
    """The program to run, if there is one."""
    named = os.environ.get("TFPG_PROGRAM")
    return named or next((str(place) for place in PLACES if os.access(place, os.X_OK)), None)


needs_program = unittest.skipUnless(program(), "there is no program: TFPG_PROGRAM names none, and none is built or tried here")
needs_build = unittest.skipUnless(os.access(TOP / BUILT, os.X_OK), "the program is not built here")


def run(words: List[str], folder: Path, given: str, output: Optional[str] = None) -> Tuple[int, bytes, str]:
    """The status of a run of the program in this folder with the input of this name, what it writes, and its line on standard error."""
    with open(folder / given, "rb") as source, open(output or os.devnull, "wb") as sink:
        ran = subprocess.run([str(program()), *words], cwd=folder, stdin=source, stdout=sink if output else subprocess.PIPE,
                             stderr=subprocess.PIPE, check=False, timeout=300)
    return ran.returncode, ran.stdout or b"", ran.stderr.decode("utf-8", "replace").rstrip("\n")

"""What the tests share: the examples, files of their own, and runs of the commands. No test judges a report."""

from __future__ import annotations

import contextlib
import io
import os
import sys
import tempfile
import unittest
import warnings
from functools import lru_cache
from pathlib import Path
from typing import List, Sequence, Tuple

TOP = Path(__file__).resolve().parents[2]
EXAMPLES = TOP / "examples"
sys.path.insert(0, str(TOP / "python"))

from tfpg.__main__ import main  # noqa: E402
from tfpg.calls.library import library  # noqa: E402
from tfpg.faults import NoLibrary, NoProgram, RefusedLines  # noqa: E402
from tfpg.program import find_program  # noqa: E402

TINY = ["tfpg 1", "mode Run", "mode Stop", "failure Leak 2", "failure Jam 3", "or Hidden hidden", "or Wet watch 5000",
    "edge Leak Hidden 10 20 *",
        "edge Hidden Wet 0 inf Run", "end"]


class Unwarned(unittest.TestCase):
    """Tests of calls over logs that have refused lines, as the examples do. What warns of these has tests of its own."""

    def setUp(self) -> None:
        kept = warnings.catch_warnings()
        kept.__enter__()
        self.addCleanup(kept.__exit__, None, None, None)
        warnings.simplefilter("ignore", RefusedLines)


def text(lines: Sequence[str]) -> str:
    return "".join(line + "\n" for line in lines)


def tiny(*changes: Tuple[int, str]) -> str:
    """The tiny graph, with other lines in the place of some, by their numbers from 1."""
    lines = list(TINY)
    for number, line in changes:
        lines[number - 1] = line
    return text(lines)


def run(*words: str) -> Tuple[int, str]:
    """The status and the output of a command, with what it writes to standard error after that."""
    output, faults = io.StringIO(), io.StringIO()
    with contextlib.redirect_stdout(output), contextlib.redirect_stderr(faults):
        try:
            status = main(list(words))
        except SystemExit as end:
            status = end.code if isinstance(end.code, int) else int(end.code is not None)  # as Python itself ends
            faults.write("" if isinstance(end.code, (int, type(None))) else f"{end.code}\n")
    return status, output.getvalue() + faults.getvalue()


@contextlib.contextmanager
def files(**contents: "str | bytes"):
    """A folder with files of these names, in which the test stands while it lasts."""
    before = os.getcwd()
    with tempfile.TemporaryDirectory(prefix="tfpg-python-") as folder:
        for name, content in contents.items():
            Path(folder, name).write_bytes(content if isinstance(content, bytes) else content.encode("utf-8", "surrogateescape"))
        os.chdir(folder)
        try:
            yield Path(folder)
        finally:
            os.chdir(before)


def lint(graph: "str | bytes", log: "str | bytes | None" = None) -> Tuple[int, str]:
    """What `lint` says of these texts, as files of the names `graph` and `log`."""
    with files(graph=graph, **({} if log is None else {"log": log})):
        return run("lint", "graph", *(["log"] if log is not None else []))


def unwrapped(said: str) -> str:
    """An output in one line, so that sentences can be sought in it."""
    return " ".join(said.split())


def underlined(said: str) -> List[str]:
    """The words that are underlined in an output, one for each line of a text that has one."""
    lines, words = said.split("\n"), []
    for line, below in zip(lines, lines[1:]):
        if line.startswith("  | ") and set(below[4:]) <= {" ", "^"} and "^" in below:
            words.append(line.ljust(len(below))[below.index("^"):below.rindex("^") + 1])
    return words


def widest(said: str) -> int:
    return max(map(len, said.split("\n")))


@lru_cache(maxsize=None)
def program_words() -> str:
    """Why there is no program to run, or nothing if there is one."""
    try:
        find_program()
        status, said = run("lint", str(EXAMPLES / "pump.tfpg"))
    except NoProgram as fault:
        return str(fault)
    return "" if status == 0 else said.strip()


@lru_cache(maxsize=None)
def library_words() -> str:
    """Why there is no library to load, or nothing if there is one."""
    try:
        library()
    except NoLibrary as fault:
        return str(fault)
    return ""

"""The program that a script runs, the reader of its words, and the folder where it puts its files."""

import argparse
import contextlib
import subprocess
import tempfile
from pathlib import Path

from lib import TOP

PROGRAM = TOP / "crates" / "tfpg" / "out" / "tfpg"
ARCHIVE = TOP / "crates" / "tfpg_embed" / "out" / "libtfpg_embed.a"


def built_program(named=None):
    """The program of this file, or else that of this checkout, which `./build` proves and builds where it is not built yet."""
    if named is None:
        subprocess.run([TOP / "build"], check=True)
        named = PROGRAM
    return named.resolve()


def word_reader(about):
    """A reader of the words of a script that runs the program. What the script is about stands at its top."""
    reader = argparse.ArgumentParser(description=about, formatter_class=argparse.RawDescriptionHelpFormatter)
    reader.add_argument("--program", type=Path, metavar="FILE",
                        help="a built program; without it ./build is run first, which takes half an hour where nothing is built yet")
    return reader


def is_wanted(name, only):
    """Whether what has this name is wanted: if it begins with one of the words of `--only`, or there are none."""
    return not only or any(name.startswith(word) for word in only)


@contextlib.contextmanager
def folder_for(named=None):
    """This folder, which is made and stays, or else one that is there meanwhile."""
    if named is not None:
        named.mkdir(parents=True, exist_ok=True)
        yield named
        return
    with tempfile.TemporaryDirectory() as folder:
        yield Path(folder)


def work_in_folder(about, work):
    """Does what a script is about, by the program and in the folder that its words name, or in one that is there meanwhile."""
    reader = word_reader(about)
    reader.add_argument("folder", nargs="?", type=Path, metavar="FOLDER")
    words = reader.parse_args()
    program = built_program(words.program)
    with folder_for(words.folder) as folder:
        work(program, folder)


def simulated(program, draw, graph, script):
    """The log of a script on a graph, which stand in these files."""
    return subprocess.run([program, "simulate", "--draw", str(draw), graph, script], stdout=subprocess.PIPE, check=True).stdout

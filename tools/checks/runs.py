#!/usr/bin/env python3
"""Compares the runs that the documents show with what the program writes. Prints those that differ, and ends with status 1 if any does.

    tools/checks/runs.py

A run is a block of code whose first line begins with `$ `. Each such line is a command, which goes on after a backslash at its end, and
what follows is what it writes, where `...` stands for any lines. All runs of a document are made in one folder, one after the other, with
the examples and the page in it. A block that begins with `tfpg ` is a graph: the file that its second line, a comment, names.

Lines of `./tfpg` itself, which say that a trial answers, are left out. Runs from C are compared by `embed.sh`. It needs `jq`, Graphviz and
d3.
"""
import argparse
import os
import re
import subprocess
import sys
import tempfile
from pathlib import Path

TOP = Path(__file__).resolve().parents[2]
DOCUMENTS = ["README.md", "docs/commands.md", "docs/modelling.md", "examples/README.md", "examples/car/README.md"]
BLOCK = re.compile(r"^( *)```\w*\n(.*?)^ *```$", re.M | re.S)
COMMAND = re.compile(r"((?:.*\\\n)*.*)\n?")  # with the lines on which it goes on
GRAPH = re.compile(r"tfpg \d\n# ([\w-]+\.tfpg)\n")


def blocks_of(document):
    """The blocks of code of a document, without their indent."""
    for found in BLOCK.finditer((TOP / document).read_text()):
        yield re.sub(rf"^{found[1]}", "", found[2], flags=re.M)


def runs_of(block):
    """The commands of a block, each with what it has to write."""
    for run in re.split(r"^\$ ", block, flags=re.M)[1:]:
        command = COMMAND.match(run)
        yield command[1], run[command.end():]


def written(command, folder):
    """What a command writes in this folder, on both streams, without the lines of `./tfpg` itself."""
    names = {**os.environ, "PATH": f"{TOP}:{os.environ['PATH']}", "PYTHONPATH": f"{TOP}/python", "PYTHONDONTWRITEBYTECODE": "1"}
    done = subprocess.run(["bash", "-c", command], cwd=folder, env=names, capture_output=True, text=True)
    return done.stdout + re.sub(r"^tfpg: .*\n", "", done.stderr, flags=re.M)


def is_shown(text, shown):
    """Whether a text is what is shown of it."""
    pattern = "".join(r"(?:.*\n)*" if line == "..." else re.escape(line) + "\n" for line in shown.splitlines())
    return re.fullmatch(pattern, text) is not None


def differences(document, folder):
    """The commands of a document that write something else than is shown."""
    for block in blocks_of(document):
        if graph := GRAPH.match(block):
            (folder / graph[1]).write_text(block)
        if not block.startswith("$ "):
            continue
        for command, shown in runs_of(block):
            if not is_shown(written(command, folder), shown):
                yield command


def main():
    argparse.ArgumentParser(description=__doc__, formatter_class=argparse.RawDescriptionHelpFormatter).parse_args()
    status = 0
    for document in DOCUMENTS:
        with tempfile.TemporaryDirectory() as name:
            folder = Path(name)
            for entry in ("tfpg", "examples", "page"):
                (folder / entry).symlink_to(TOP / entry)
            for command in differences(document, folder):
                print(f"{document}: {command}")
                status = 1
    sys.exit(status)


if __name__ == "__main__":
    main()

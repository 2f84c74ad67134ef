#!/usr/bin/env python3
"""Tries whether each script is one: it can be run, and with --help it says what it does and starts nothing.

    tools/checks/scripts.py

- What has a first line for an interpreter can be run, and nothing else can.
- With --help `build` and each script of `bench`, `tools` and `python` says what stands at its top, with status 0. One in Python starts no
  process, opens no file to write, and makes no folder. One of the shell finds no command but those that find its own folder.
- Each script in Python, and each module beside the crates, can be read by Python 3.9, which is the oldest.
- Each such script of the shell that joins commands by a pipe fails where one of them does, and each sanitizer ends what it finds
  wrong.

Prints what is not so, and ends with status 1 if there is anything.
"""

import argparse
import ast
import os
import re
import shutil
import subprocess
import sys
import tempfile
from pathlib import Path

TOP = Path(__file__).resolve().parents[2]
OLDEST = (3, 9)
TRIED = (TOP, TOP / "bench", TOP / "tools", TOP / "tools/checks", TOP / "tools/checks/c", TOP / "python")
WITHOUT_HELP = {TOP / "tools/trial.sh"}  # whose words are those of the program
# Runs a script with --help, and ends with 99 where it does more than to read and to say.
WATCHED = """
import os, runpy, sys
def watch(event, words):
    writes = event == "open" and words[2] & (os.O_WRONLY | os.O_RDWR | os.O_CREAT) and not str(words[0]).startswith("/dev/")
    if writes or event in ("subprocess.Popen", "os.system", "os.exec", "os.fork", "os.posix_spawn", "os.mkdir", "socket.connect"):
        os.write(2, f"{event} {words}".encode())
        os._exit(99)
sys.dont_write_bytecode = True
script, sys.argv = sys.argv[1], [sys.argv[1], "--help"]
sys.path.insert(0, os.path.dirname(script))
sys.addaudithook(watch)
runpy.run_path(script, run_name="__main__")
"""


def first_line(path):
    with open(path, "rb") as file:
        return file.readline().decode("utf-8", "replace").rstrip("\n")


def squeezed(text):
    """A text whose lines and columns do not count."""
    return re.sub(r"[\s#]+", " ", text).strip()


def about(path, text):
    """What stands at the top of a script."""
    if "python" in first_line(path):
        return ast.get_docstring(ast.parse(text)) or ""
    lines = text.split("\n")[1:]
    return "\n".join(lines[:next(number for number, line in enumerate(lines) if not line.startswith("#"))])


def ended_with_help(path, commands):
    """The status of a script with --help, what it says, and its standard error."""
    words = [sys.executable, "-c", WATCHED, path] if "python" in first_line(path) else ["/bin/bash", path, "--help"]
    environment = {"PATH": str(commands), "HOME": "/nowhere", "LANG": "C.UTF-8"}
    ran = subprocess.run(words, stdin=subprocess.DEVNULL, stdout=subprocess.PIPE, stderr=subprocess.PIPE, env=environment, timeout=60,
                         check=False)
    return ran.returncode, ran.stdout.decode(), ran.stderr.decode()


def help_fault(path, text, commands):
    """What is wrong with the help of a script, or nothing."""
    try:
        status, said, fault = ended_with_help(path, commands)
    except subprocess.TimeoutExpired:
        return "--help does not end"
    if status != 0:
        return f"--help ends with {status}: {fault.strip()[-200:]}"
    first = squeezed(re.split(r"(?<=\.)\s|\n\n", about(path, text))[0])
    return None if first and first in squeezed(said) else "--help does not say what stands at its top"


def shell_faults(text):
    """What is wrong with the code of a script of the shell."""
    code = "\n".join(line for line in text.split("\n") if not line.lstrip().startswith("#"))
    bare = re.sub(r"'[^']*'|\"[^\"]*\"|case .*?esac", "", code, flags=re.S)
    if re.search(r"[^|]\|[^|]", bare) and "pipefail" not in code:
        yield "it has a pipe and no pipefail"
    for line in code.split("\n"):
        if "-fsanitize=" in line and "-fno-sanitize-recover=all" not in line:
            yield f"a sanitizer that goes on: {line.strip()}"


def faults(path, commands):
    """What is wrong with a script or a module."""
    text = path.read_text(encoding="utf-8")
    is_script, is_python = first_line(path).startswith("#!"), path.suffix == ".py" or "python" in first_line(path)
    if is_script != os.access(path, os.X_OK):
        yield "it says an interpreter, and cannot be run" if is_script else "it can be run, and says no interpreter"
    if is_python:
        try:
            ast.parse(text, feature_version=OLDEST)
        except SyntaxError as fault:
            yield f"Python {OLDEST[0]}.{OLDEST[1]} does not read line {fault.lineno}: {fault.msg}"
    if path.parent in TRIED and is_script and path not in WITHOUT_HELP:
        if not is_python:
            yield from shell_faults(text)
        wrong = help_fault(path, text, commands)
        if wrong:
            yield wrong


def files():
    """The scripts and the modules beside the crates, but for `tfpg`, whose words have tests of their own."""
    yield TOP / "build"
    for folder in ("bench", "tools", "page", "python", "examples"):
        for path in sorted((TOP / folder).rglob("*")):
            is_made = {"__pycache__", ".mypy_cache", "build", "data"} & set(path.parts)
            if path.is_file() and not is_made and (path.suffix in (".py", ".sh") or first_line(path).startswith("#!")):
                yield path


def main():
    argparse.ArgumentParser(description=__doc__, formatter_class=argparse.RawDescriptionHelpFormatter).parse_args()
    count = wrong = 0
    with tempfile.TemporaryDirectory() as folder:
        for name in ("dirname", "readlink"):
            (Path(folder) / name).symlink_to(shutil.which(name))
        for path in files():
            count += 1
            for fault in faults(path, Path(folder)):
                print(f"{path.relative_to(TOP)}: {fault}")
                wrong += 1
    print(f"scripts: {count} files, {wrong} faults")
    return 1 if wrong or count < 100 else 0


if __name__ == "__main__":
    sys.exit(main())

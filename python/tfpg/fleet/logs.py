"""Which logs the words of the command name: files, folders, and lists of both."""

from __future__ import annotations

import io
import os
import sys
from pathlib import Path
from typing import Dict, Iterator, List, Sequence

from ..reading.texts import bytes_in

SUFFIX = ".log"


class BadLogs(Exception):
    """The words name no logs, or two of one vehicle."""


def logs_of(words: Sequence[str]) -> Dict[str, Path]:
    """The logs by the names of their vehicles. A vehicle has the name of its file without `.log`."""
    found: Dict[str, Path] = {}
    for path in files_of(words):
        if "\0" in str(path):
            raise BadLogs(f"no file has such a name: {str(path)[:64]!r}; a list has one name in each line")
        vehicle = path.name[:-len(SUFFIX)] if path.name.endswith(SUFFIX) and path.name != SUFFIX else path.name
        if vehicle.encode("utf-8", "replace") != bytes_in(vehicle):
            raise BadLogs(f"the name of this file is no UTF-8, so that no vehicle can have it: {vehicle!r}")
        if vehicle in found and found[vehicle] != path:
            raise BadLogs(f"two logs are of the vehicle {vehicle}: {found[vehicle]} and {path}")
        found[vehicle] = path
    if not found:
        raise BadLogs(f"no log is named: a folder has none whose name ends in {SUFFIX}")
    return found


def files_of(words: Sequence[str]) -> Iterator[Path]:
    """The files that words name: a file itself, of a folder all below it that end in `.log`, and of `@FILE`, or `-` for the standard input,
    what its lines name."""
    for word in words:
        if word == "-" or word.startswith("@"):
            yield from files_of(["./" + line if line.startswith(("@", "-")) else line for line in lines_of_list(word)])
        elif Path(word).is_dir():
            yield from sorted(logs_below(word))
        else:
            yield Path(word)


def logs_below(folder: str) -> Iterator[Path]:
    """The files below a folder that end in `.log`. OSError for a folder that cannot be read: its vehicles would be lost in silence."""
    def fail(fault: OSError) -> None:
        raise fault

    for place, _, names in os.walk(folder, onerror=fail):
        yield from (path for path in (Path(place, name) for name in names if name.endswith(SUFFIX)) if path.is_file())


def lines_of_list(word: str) -> List[str]:
    """The lines of a list that are not empty. A name of a file may be no UTF-8."""
    content = io.BytesIO(sys.stdin.buffer.read()) if word == "-" else open(word[1:], "rb")
    with io.TextIOWrapper(content, encoding="utf-8", errors="surrogateescape") as file:
        return [line for line in file.read().split("\n") if line]

"""The folder of a fleet: a report for each vehicle, a line for each in `summary.jsonl`, and `summary.sqlite`, which is made of these.

A report is there whole or not at all, and its line is written after it. So what is interrupted anywhere can be resumed."""

from __future__ import annotations

import contextlib
import gzip
import hashlib
import json
import os
import zlib
from pathlib import Path
from typing import Any, Dict, IO, List, Optional

from .results import Result

LINES, BASE, REPORTS = "summary.jsonl", "summary.sqlite", "reports"


class FolderInUse(Exception):
    """The folder has a summary, and nobody said to resume it."""


class Folder:
    """An open folder. The terms are what each line says besides the result: the sum of the graph, k, doubt and the budget."""

    def __init__(self, path: Path, terms: Dict[str, Any], resume: bool) -> None:
        self.path, self.terms = path, terms
        (path / REPORTS).mkdir(parents=True, exist_ok=True)
        self.before = read_lines(path / LINES) if resume else {}
        if not resume and (path / LINES).exists():
            raise FolderInUse(f"{path} has a summary already: --resume goes on with it, or name another folder")
        self.lines: Optional[IO[str]] = None

    def kept(self, vehicle: str, log: str, checked: bool) -> Optional[Dict[str, Any]]:
        """The line of a vehicle that need not be diagnosed again: one of the same log and terms, without a fault, whose report is there and
        whole, which a loss of power does not promise."""
        line = self.before.get(vehicle)
        if line is None or line.get("log") != log or line.get("fault") or any(line.get(name) != term for name, term in self.terms.items()):
            return None
        is_checked = line.get("checked") is not None or not checked
        return line if is_checked and sum_of_report(self.report(vehicle)) == line.get("report") else None

    def begin(self, lines: List[Dict[str, Any]]) -> None:
        """Begins the summary anew, with these lines."""
        fresh = self.path / (LINES + ".new")
        with open(fresh, "w", encoding="utf-8") as file:
            file.writelines(json.dumps(line) + "\n" for line in lines)
        os.replace(fresh, self.path / LINES)
        self.lines = open(self.path / LINES, "a", encoding="utf-8")

    def add(self, result: Result) -> Dict[str, Any]:
        """Writes the report of a vehicle and then its line, and returns that."""
        line = {**result.to_dict(), **self.terms}
        if result.compressed:
            target = self.report(result.vehicle)
            fresh = target.with_name(target.name + ".new")
            try:
                fresh.write_bytes(result.compressed)
                os.replace(fresh, target)
            except OSError:
                fresh.unlink(missing_ok=True)
                raise
        assert self.lines is not None
        self.lines.write(json.dumps(line) + "\n")
        self.lines.flush()
        return line

    def report(self, vehicle: str) -> Path:
        """The file of the report of a vehicle."""
        return self.path / REPORTS / f"{vehicle}.report.gz"

    def close(self) -> None:
        """Ends the summary. What could not be written was said before."""
        if self.lines is not None:
            with contextlib.suppress(OSError):
                self.lines.close()


def sum_of_report(path: Path) -> str:
    """The SHA-256 sum of a packed report, or nothing if the file is absent or does not unpack."""
    found = hashlib.sha256()
    try:
        with gzip.open(path) as file:
            for content in iter(lambda: file.read(1 << 20), b""):
                found.update(content)
    except (OSError, EOFError, zlib.error):
        return ""
    return found.hexdigest()


def read_lines(path: Path) -> Dict[str, Dict[str, Any]]:
    """The lines of a summary by their vehicles. One that was cut off says nothing."""
    found: Dict[str, Dict[str, Any]] = {}
    if path.exists():
        for text in path.read_text(encoding="utf-8", errors="replace").split("\n"):
            try:
                line = json.loads(text)
                found[line["vehicle"]] = line
            except (ValueError, KeyError, TypeError):
                continue
    return found

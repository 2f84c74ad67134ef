"""What `brief` and `plot` take: GRAPH, LOG and REPORT, or the terms of a run of the program that writes a report."""

from __future__ import annotations

import argparse
from pathlib import Path
from typing import List, Optional, Sequence

from .calls.program_ends import diagnose_end
from .program import NoReport
from .reading.graphs import graph_of
from .reading.reports import read_report
from .reading.subjects import Subject
from .reading.texts import lines_of, read_text, text_of

TERMS = ("k", "doubt", "budget")


def add_files(parser: argparse.ArgumentParser) -> None:
    """The names of the files."""
    parser.add_argument("graph", metavar="GRAPH")
    parser.add_argument("log", metavar="LOG")
    parser.add_argument("report", metavar="REPORT", nargs="?")


def add_terms(parser: argparse.ArgumentParser) -> None:
    """The options of `diagnose`, for runs without a report."""
    for name in TERMS:
        parser.add_argument(f"--{name}", metavar="N", help="as diagnose has it, if there is no REPORT")


def terms_words(parser: argparse.ArgumentParser, said: argparse.Namespace) -> List[str]:
    """The words of the terms for the program, which judges their numbers. With a report they are refused."""
    words: List[str] = []
    for name in TERMS:
        value: Optional[str] = getattr(said, name)
        if value is not None and said.report is not None:
            parser.error(f"--{name} is of a run of the program, and REPORT has been written already")
        words += [f"--{name}={value}"] if value is not None else []
    return words


def subject_of(graph: str, log: str, report: Optional[str], terms: Sequence[str] = (), start: int = 0) -> Subject:
    """Reads the files. Without a report the library makes one, or the program, with these words for its terms."""
    return subject_in(graph, Path(log).read_bytes(), read_text(report) if report is not None else None, terms, start)


def subject_in(graph: str, log: bytes, report: Optional[str], terms: Sequence[str] = (), start: int = 0) -> Subject:
    """The same of the bytes of a log and the text of a report. So both are read once: each may be a pipe, and a log may grow meanwhile."""
    declared, lines = graph_of(read_text(graph)), lines_of(text_of(log))
    said = diagnosed(graph, log, terms) if report is None else report
    return Subject(declared, lines, read_report(said, declared), start)


def diagnosed(graph: str, log: bytes, terms: Sequence[str]) -> str:
    """The report of the library or the program, or NoReport with the line by which it ended."""
    ended = diagnose_end(graph, log, terms)
    if ended.status != 0:
        raise NoReport(ended.status, ended.line)
    return text_of(ended.output)

"""Runs a command: `python3 -m tfpg records`, `lint`, `brief`, `plot`, `ask`, `explain`, `predict`, `fleet` or `stream`."""

from __future__ import annotations

import io
import os
import sys
from importlib import import_module
from typing import Callable, Dict, List, Sequence

from .answers.command import ask, explain, predict
from .brief.command import brief
from .faults import BadGraph, BadRecord, NoProgram
from .lint.command import lint
from .plot.command import plot
from .program import NO_TRIAL, NoReport
from .reading.texts import BadText
from .recording.command import records


def fleet(words: Sequence[str]) -> int:
    """Diagnoses the logs of a fleet. Its modules are loaded for it alone."""
    from .fleet.command import fleet as run

    return run(words)


def stream(words: Sequence[str]) -> int:
    """Diagnoses the growing logs of a part of a fleet, with the module redis, which is loaded for it alone."""
    try:
        import_module("redis")
    except ImportError:
        print("tfpg stream: the module redis is missing; on Debian it is the package python3-redis, for /usr/bin/python3", file=sys.stderr)
        return NO_TRIAL
    from .stream.command import stream as run

    return run(words)


COMMANDS: Dict[str, Callable[[Sequence[str]], int]] = {
    "records": records, "lint": lint, "brief": brief, "plot": plot, "ask": ask, "explain": explain, "predict": predict, "fleet": fleet,
    "stream": stream}
USAGE = """\
python3 -m tfpg records GRAPH RECORDS..     the log of the records of a system
python3 -m tfpg lint GRAPH [LOG]            what the program refuses, and why
python3 -m tfpg lint --words WORD..         the same of the words of a command line
python3 -m tfpg brief GRAPH LOG [REPORT]    what a crew reads of a report
python3 -m tfpg plot GRAPH LOG [REPORT]     a picture of the ranking over time, as SVG
python3 -m tfpg ask|explain|predict WORD..  as the program has them; refused lines are said first
python3 -m tfpg fleet GRAPH LOGS..          diagnoses the logs of many vehicles
python3 -m tfpg stream GRAPH --redis URL --part I/N
                                            diagnoses the growing logs of a part of a fleet"""
BAD_TEXT, NOT_READ = 1, 5


def main(words: List[str]) -> int:
    if not words or words[0] not in COMMANDS:
        print(USAGE, file=sys.stdout if words in (["-h"], ["--help"]) else sys.stderr)
        return 0 if words in (["-h"], ["--help"]) else 2
    if isinstance(sys.stdout, io.TextIOWrapper):
        sys.stdout.reconfigure(encoding="utf-8", errors="replace")
    try:
        status = COMMANDS[words[0]](words[1:])
        if sys.stdout is not None:
            sys.stdout.flush()  # what does not go out is said here, and not when Python ends
        return status
    except NoProgram as fault:
        print(f"tfpg {words[0]}: {fault}", file=sys.stderr)
        return NO_TRIAL
    except NoReport as fault:
        print(f"tfpg {words[0]}: {fault}", file=sys.stderr)
        return fault.status
    except (BadText, BadRecord, BadGraph) as fault:
        print(f"tfpg {words[0]}: {fault}", file=sys.stderr)
        return BAD_TEXT
    except OSError as fault:
        print(f"tfpg {words[0]}: {fault.filename or 'output'}: {fault.strerror}", file=sys.stderr)
        leave_output()
        return NOT_READ


def leave_output() -> None:
    """Drops what the output does not take, which Python would try once more when it ends."""
    try:
        if sys.stdout is not None:
            sys.stdout.flush()
    except OSError:
        os.dup2(os.open(os.devnull, os.O_WRONLY), sys.stdout.fileno())


if __name__ == "__main__":
    sys.exit(main(sys.argv[1:]))

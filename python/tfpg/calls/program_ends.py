"""How runs of the program end, told by the library where there is one: so `lint` and `brief` need no program."""

from __future__ import annotations

from pathlib import Path
from typing import Callable, Optional, Sequence, Tuple

from ..faults import BadGraph, NoLibrary, NoMemory, TooManyHypotheses, TooMuchInput
from ..limits import FILE_BYTES, OPTIONS
from ..program import Ended, file_words, run_program
from ..reading.texts import is_number, number_of
from .endings import Terms
from .graph import Graph
from .library import library
from .reporting import written
from .session import Session
from .whole_logs import lines_in

TOO_MUCH = Ended(7, b"", "too much input")


def convert_end(graph: str) -> Ended:
    """How `convert GRAPH` ends, but for what it writes."""
    return by_library(lambda: graph_end(graph)) or run_program(["convert", *file_words(graph)])


def diagnose_end(graph: str, log: bytes, terms: Sequence[str]) -> Ended:
    """How `diagnose TERM.. GRAPH` ends with this log, where each term is a word as `--k=2`."""
    return by_library(lambda: report_end(graph, log, terms)) or run_program(["diagnose", *terms, *file_words(graph)], log)


def by_library(call: Callable[[], Ended]) -> Optional[Ended]:
    """The end that a call says, or nothing if there is no library. Its errors have the status and the line of the program."""
    try:
        library()
        return call()
    except NoLibrary:
        return None
    except BadGraph as fault:
        return Ended(3, b"", f"graph {fault.line} {fault.cause}")
    except TooManyHypotheses as fault:
        return Ended(4, b"", f"too many hypotheses {fault.count}")
    except TooMuchInput:
        return TOO_MUCH
    except OSError:
        return Ended(5, b"", "read fault")
    except NoMemory:
        return Ended(8, b"", "no memory")


def graph_end(graph: str) -> Ended:
    """Whether a file spells a graph."""
    content = Path(graph).read_bytes()
    if len(content) > FILE_BYTES:
        return TOO_MUCH
    Session(Graph.of_bytes(content), k=0, budget=1).close()
    return Ended(0, b"", "")


def report_end(graph: str, log: bytes, terms: Sequence[str]) -> Ended:
    """The report of a log, on terms that are words."""
    said, cause = terms_of(terms)
    if cause:
        return Ended(2, b"", f"usage {cause}")
    content = Path(graph).read_bytes()
    if len(content) > FILE_BYTES:
        return TOO_MUCH
    report, _ = written(Graph.of_bytes(content), lines_in(log), said.k, said.doubt, said.budget)
    return Ended(0, report.encode("ascii"), "")


def terms_of(words: Sequence[str]) -> Tuple[Terms, str]:
    """The terms that words say, and what is wrong with these first, if anything is."""
    said = dict(word.split("=", 1) for word in words)
    if not all(map(is_number, said.values())):
        return Terms(), "BadNumber"
    numbers = {name: number_of(value) for name, value in said.items()}
    within = all(OPTIONS[name].least <= number <= OPTIONS[name].greatest for name, number in numbers.items())
    return Terms(**{name[2:]: number for name, number in numbers.items()}), "" if within else "OutOfRange"

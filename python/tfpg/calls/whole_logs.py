"""A whole log as a call takes it, and which of its lines the log refuses: by a session of the empty set, which takes them one by one."""

from __future__ import annotations

import warnings
from operator import index as whole
from typing import List, SupportsIndex, Tuple

from ..faults import BadGraph, RefusedLines
from ..limits import FILE_BYTES
from .answers import Refused
from .graph import Graph
from .session import Session
from .texts import Log, log_bytes, shifted


class WholeLog:
    """The bytes of a log whose times are less an origin, and the lines that it refuses. A strict one raises their error instead."""

    def __init__(self, graph: Graph, log: Log, origin: SupportsIndex, strict: bool) -> None:
        content, self.origin = log_bytes(log), whole(origin)
        self.lines = lines_in(content)
        self.content = b"".join(shifted(line, self.origin) + b"\n" for line in self.lines) if self.origin else content
        self.refused = refused_in(graph, self.lines, self.origin, strict) if len(content) <= FILE_BYTES else ()

    def warn(self) -> None:
        """Warns the caller of the call that has this log."""
        warn_of(self.refused, len(self.lines), 4)


def lines_in(content: bytes) -> List[bytes]:
    """The lines of a log. What stands after its last line end is one if it has a byte."""
    lines = content.split(b"\n")
    return lines if lines[-1] else lines[:-1]


def refused_in(graph: Graph, lines: List[bytes], origin: int, strict: bool) -> Tuple[Refused, ...]:
    """The lines that the log refuses. What is wrong with a graph, the call says that is made with it."""
    try:
        session = Session(graph, k=0, doubt=0, budget=1, origin=origin, strict=strict)
    except BadGraph:
        return ()
    with session:
        return tuple(answer for answer in session.rounds(lines) if isinstance(answer, Refused))


def warn_of(refused: Tuple[Refused, ...], lines: int, level: int) -> None:
    """Warns of refused lines, if there are any, where so many calls above this one stand."""
    if refused:
        warnings.warn(RefusedLines(len(refused), lines, refused[0]), stacklevel=level)

"""Whether a history explains a log."""

from __future__ import annotations

from dataclasses import dataclass
from typing import Any, Dict, Literal, Optional, SupportsIndex, Tuple

from ..reading.texts import lines_of
from .answers import Refused, refused_dicts
from .endings import About
from .graph import Graph
from .library import library
from .rooms import text_written_apart
from .texts import Log, Text, counted, text_bytes
from .whole_logs import WholeLog

SENTENCES = {
    "late": "It gives {node} the time {time}, which is after the last event.",
    "stranger": "It gives a time to {node}, which is a failure mode outside the set: {time}.",
    "may": "{node} became active at {time}, but no failure had arrived there then.",
    "must": "By {time} {node} had to be active.",
    "alarm": "It does not show the alarm of {node} at {time}.",
    "silence": "It does not show the silence of {node} at {time}.",
}


Fault = Literal["", "late", "stranger", "may", "must", "alarm", "silence"]


@dataclass(frozen=True)
class Verdict:
    """Whether a history explains a log, and if not, its first fault: late, stranger, may, must, alarm or silence, at a node and a time. It
    is of the lines that the log accepts: `refused` has the others."""

    explains: bool
    fault: str = ""
    node: str = ""
    time: Optional[int] = None
    refused: Tuple[Refused, ...] = ()

    @property
    def sentence(self) -> str:
        """The verdict in a sentence."""
        if not self.explains:
            return SENTENCES[self.fault].format(node=self.node, time=self.time)
        if self.refused:
            return f"The history explains the accepted lines alone: {lines_words(self.refused)}."
        return "The history explains the log."

    def to_dict(self) -> Dict[str, Any]:
        """It as JSON has it, by the names of its attributes, with its sentence."""
        return {"explains": self.explains, "fault": self.fault, "node": self.node, "time": self.time, "sentence": self.sentence,
                "refused": refused_dicts(self.refused)}


def lines_words(refused: Tuple[Refused, ...]) -> str:
    """How many lines are refused, and which is the first."""
    return f"line {refused[0].line} is refused" if len(refused) == 1 else f"{len(refused):,} are refused, first line {refused[0].line}"


def explain(graph: Graph, log: Log, history: Text, origin: SupportsIndex = 0, strict: bool = False) -> Verdict:
    """Judges a history, as the program's `explain` does.

    graph, log: what has to be explained. The log is a text, the path of a file, or lines one after the other.
    history: a map as docs/formats.md has it, as a text or the path of a file. A ranked set has its own as `map`.
    origin: milliseconds that are subtracted from the time of each line of the log, and added to that of the verdict. The times of the
    history are less it already.
    strict: a refused line raises LineRefused or LogFull. Else there is a RefusedLines warning if any is.

    NotAccepted says which line of the map is none; BadGraph, TooMuchInput and NoMemory are as of `tfpg_explain` in tfpg.h.

    >>> graph = tfpg.Graph.load("examples/pump.tfpg")
    >>> verdict = tfpg.explain(graph, ["2715000 alarm LowFlow"], "set -\\n")
    >>> verdict.explains, verdict.sentence
    (False, 'It does not show the alarm of LowFlow at 2715000.')
    """
    given, text = WholeLog(graph, log, origin, strict), text_bytes(history)
    words = *counted(graph.text), *counted(given.content), *counted(text)
    said = lines_of(text_written_apart(library().explain, words, About(graph, judged=text)))[0].split(" ")
    given.warn()
    if said == ["yes"]:
        return Verdict(True, refused=given.refused)
    return Verdict(False, said[1], said[2], int(said[3]) + given.origin, given.refused)

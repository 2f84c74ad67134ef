"""What `lint` found in a graph and a log, as text and as JSON."""

from __future__ import annotations

from collections import Counter
from dataclasses import dataclass, field
from typing import Any, Dict, List, NamedTuple, Optional, Sequence

from ..explaining.explanations import Explanation, line_dict
from ..reading.texts import shown
from .refusals import Refusal, refusal_lines, wrapped

MOST_TOLD = 20


class Told(NamedTuple):
    """A line that is refused or warned of: its number, or nothing if it is none of the log, the cause, its text, and what is said."""

    line: Optional[int]
    cause: str
    text: Optional[str]
    explanation: Explanation

    def to_dict(self) -> Dict[str, Any]:
        """The same as JSON has it."""
        return line_dict(self.line, self.cause, None if self.text is None else shown(self.text), self.explanation)

    def lines(self, file: str, kind: str = "") -> List[str]:
        """The same as a reader sees it, after the file as a compiler names it."""
        place = file if self.line is None else f"{file} line {self.line}"
        return refusal_lines(Refusal(place, kind + self.cause, self.text, self.explanation))


@dataclass(frozen=True)
class Findings:
    """The status of the program, the names of the files, what is refused of the graph, or how the program ended else, how many lines the
    log has, which of them are refused, and which are accepted and surely not meant."""

    status: int
    graph: str
    log: Optional[str] = None
    graph_fault: Optional[Told] = None
    end: List[str] = field(default_factory=list)
    count: int = 0
    refused: List[Told] = field(default_factory=list)
    warnings: List[Told] = field(default_factory=list)

    def to_dict(self) -> Dict[str, Any]:
        """The same as JSON has it."""
        return {"status": self.status, "graph": self.graph, "fault": self.graph_fault.to_dict() if self.graph_fault else None,
                "end": self.end or None, "log": self.log, "lines": self.count, "refused": [one.to_dict() for one in self.refused],
                "warnings": [one.to_dict() for one in self.warnings]}

    def lines(self, tell_all: bool) -> List[str]:
        """The same as a reader sees it, with at most so many lines of the log unless all are wanted."""
        if self.graph_fault is not None:
            return self.graph_fault.lines(self.graph)
        if self.end:
            return [self.end[0], *(part for sentence in self.end[1:] for part in wrapped(sentence))]
        said = [] if self.refused else [f"{self.graph}: the program accepts this graph."]
        if self.log is None:
            return said
        said = _told(self.log, self.refused, "", tell_all) + _told(self.log, self.warnings, "warning ", tell_all) + said
        said.append(f"{self.log}: the program refuses {len(self.refused)} of {self.count} lines, and accepts the others." if self.refused
                    else f"{self.log}: the program accepts all {self.count} lines.")
        if self.warnings:
            count = f"{len(self.warnings)} warning{'' if len(self.warnings) == 1 else 's'}"
            said.append(f"{self.log}: {count} of what is accepted and surely not meant.")
        return said


def _told(file: str, some: Sequence[Told], kind: str, tell_all: bool) -> List[str]:
    """Lines of a log, the first of them if they are many."""
    told = some if tell_all else some[:MOST_TOLD]
    said = [line for one in told for line in one.lines(file, kind)]
    left = some[len(told):]
    if left:
        counts = ", ".join(f"{cause} {count}" for cause, count in Counter(one.cause for one in left).most_common())
        said += wrapped(f"… and {len(left)} more lines ({counts}). --all tells each.", "")
    return said

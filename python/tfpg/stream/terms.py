"""On what terms a part is diagnosed."""

from __future__ import annotations

import hashlib
import json
from dataclasses import asdict, dataclass

from ..calls.graph import Graph
from ..limits import MOST_EVENTS

SPAN = 1_000_000


@dataclass(frozen=True)
class StreamTerms:
    """The terms of a diagnosis, the origin of the times of lines, after how many events a session is made anew, and how many entries of
    the part a restart reads at most. All of them are the same for as long as the part lasts, since what is said depends on them."""

    k: int = 2
    doubt: int = 0
    budget: int = 1000
    origin: int = 0
    events: int = MOST_EVENTS
    span: int = SPAN

    def text(self, graph: Graph) -> str:
        """These and the graph, as they are stored."""
        return json.dumps({"graph": hashlib.sha256(graph.text).hexdigest(), **asdict(self)}, sort_keys=True)

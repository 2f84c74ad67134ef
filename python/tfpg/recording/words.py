"""The words of records, and the words of the graph that they stand for. Words are compared as they are: none is guessed."""

from __future__ import annotations

import csv
import io
from pathlib import Path
from typing import Dict, Iterable, List, NamedTuple, Optional

from ..explaining.explanations import listed
from ..faults import BadRecord
from ..reading.graphs import DeclaredGraph

MODE = "mode"  # the name of a record that says a mode
RAISED, CLEARED, ON, OFF = VALUES = "raised", "cleared", "on", "off"


class Row(NamedTuple):
    """A row of a table of names: a word of the records, that of the graph, and where it stands. The line is 0 if it stands in no file."""

    theirs: str
    ours: str
    file: str = ""
    line: int = 0


def table_of(file: str) -> List[Row]:
    """The rows of a table of names: CSV with the columns `theirs` and `ours`."""
    try:
        text = Path(file).read_bytes().decode("utf-8-sig")
        rows = [row for row in csv.reader(io.StringIO(text, newline=""), skipinitialspace=True, strict=True)]
    except (UnicodeDecodeError, csv.Error) as fault:
        raise BadRecord(file, 1, f"It is no CSV in UTF-8: {fault}.") from None
    header = rows[0] if rows else []
    if not {"theirs", "ours"} <= set(header):
        raise BadRecord(file, 1, f"The header is `{','.join(header)}`, and has to have the columns `theirs` and `ours`.")
    short = next((line for line, row in enumerate(rows, 1) if row and len(row) != len(header)), None)
    if short is not None:
        raise BadRecord(file, short, f"The row has {len(rows[short - 1])} columns, and the header {len(header)}.")
    theirs, ours = header.index("theirs"), header.index("ours")
    return [Row(row[theirs], row[ours], file, line) for line, row in enumerate(rows[1:], 2) if row]


class Words:
    """What words stand for: in the place of a name a node or `mode`, in that of a value one of four words or a mode. A word with a row
    in the table stands for what the row says, if that is possible in its place, and every other word for itself."""

    def __init__(self, graph: DeclaredGraph, table: Iterable[Row] = ()) -> None:
        self.graph = graph
        self.modes: Dict[str, int] = {name: number for number, name in enumerate(graph.modes)}
        self._names: Dict[str, Row] = {}
        self._values: Dict[str, Row] = {}
        self._modes: Dict[str, Row] = {}
        if MODE in graph.number_of and graph.nodes[graph.number_of[MODE]].lags is not None:
            raise BadRecord("", 0, "The graph has a monitored node of the name `mode`, which in records is the name of a mode's record. "
                                   "Rename the node.")
        for row in table:
            self._take(row)

    def _take(self, row: Row) -> None:
        """Keeps a row for each place in which its word of ours is possible."""
        places = [(self._names, row.ours == MODE or row.ours in self.graph.number_of), (self._values, row.ours in VALUES),
                  (self._modes, row.ours in self.modes)]
        if not any(fits for _, fits in places):
            raise BadRecord(row.file, row.line, f"`{row.ours}` stands for nothing: the graph declares neither a node nor a mode of this "
                                                f"name, and it is none of {', '.join((MODE, *VALUES))}.")
        for kept, fits in places:
            if fits and kept.setdefault(row.theirs, row).ours != row.ours:
                raise BadRecord(row.file, row.line, f"`{row.theirs}` stands for `{kept[row.theirs].ours}` already.")

    def name(self, word: str) -> str:
        """The name of a node that a record names, or `mode`, or a word that is neither."""
        return self._names[word].ours if word in self._names else word

    def value(self, word: str) -> str:
        """One of the four words of a monitor's record, or a word that is none of them."""
        return self._values[word].ours if word in self._values else word

    def mode(self, word: str) -> Optional[int]:
        """The number of the mode that a record says, or nothing."""
        return self.modes.get(self._modes[word].ours if word in self._modes else word)

    def monitored(self) -> str:
        """The names that records of monitors may have."""
        return listed("The nodes with a monitor", [self.graph.name(node) for node in self.graph.monitored])

"""The call `records`: a log of records from Python."""

from __future__ import annotations

from datetime import datetime
from typing import Iterable, Mapping, Optional, Tuple, Union

from ..calls.graph import Graph
from .making import Choices, RecordedLog, log_of_records
from .rows import Rows, rows_source, time_text
from .times import duration_of
from .words import Row, Words


def records(graph: Graph, rows: Rows, *, names: Union[Mapping[str, str], Iterable[Tuple[str, str]]] = (),
            offsets: Optional[Mapping[str, int]] = None, origin: Union[int, str, datetime, None] = None,
            before: Union[int, str, None] = None, seconds: bool = False, mode: str = "", leave_out: bool = False) -> RecordedLog:
    """The log of records for a `graph`, as the command `records` writes it.

    `rows` is the path of a file, or files and rows one after the other. A row is a mapping with `time`, `name`, `value` and, if there are
    several boxes, `box`, as `csv.DictReader` has them, or a tuple of these. A time is a text as in a file, whole milliseconds, or a
    `datetime`. `names` says which word of the graph a word of the records stands for. `offsets` are milliseconds that are added to the
    times of a box. The time of the log's 0 is `origin`, or a duration `before` the first record: milliseconds, or a text such as `8h`.
    `mode` is the mode in the beginning, if it is not the first of the graph. With `seconds` whole numbers count seconds, and with
    `leave_out` records of names that have no monitor are left out. BadRecord says why a record cannot be taken.

    >>> rows = [("600000", "LowFlow", "raised"), ("660000", "LowFlow", "raised")]
    >>> tfpg.records(tfpg.Graph.load("examples/pump.tfpg"), rows).lines
    ('600000 alarm LowFlow',)
    """
    if origin is not None and before is not None:
        raise ValueError("either origin or before says where the time 0 is, and not both")
    pairs = names.items() if isinstance(names, Mapping) else names
    words = Words(graph.declared, [Row(theirs, ours) for theirs, ours in pairs])
    span = duration_of(before) if isinstance(before, str) else before
    choices = Choices(dict(offsets or {}), None if origin is None else time_text(origin), span, seconds, mode, leave_out)
    return log_of_records(graph.declared, words, rows_source(rows), choices)

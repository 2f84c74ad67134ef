"""The command `records`: it writes the log of the records of a system, and on standard error what became of them."""

from __future__ import annotations

import argparse
import json
import re
import sys
from typing import Callable, Sequence, Tuple, TypeVar

from ..calls.graph import Graph
from .account import summary_of, write_account
from .making import Choices, RecordedLog, log_of_records
from .rows import files_source
from .times import duration_of
from .words import Words, table_of

T = TypeVar("T")

DESCRIPTION = """\
Writes the log of the records of a system, by the rules of docs/modelling.md, "From your
records to a log". RECORDS are CSV with a header, or a JSON object a line: `time`, `name`,
`value` and, if a file has those of several boxes, `box`. The value of a monitor is `raised`
or `cleared` where an alarm was, and `on` or `off` where it was asked; the record of a mode
has the name `mode`, and the mode as its value. A time is a whole number of milliseconds,
seconds with digits after a point, or ISO 8601.

What became of the records is counted on standard error."""


def records(words: Sequence[str]) -> int:
    """Runs the command on these words, and returns its status."""
    parser = _parser()
    said = parser.parse_args(words)
    boxes = [box for box, _ in said.offset]
    if len(set(boxes)) < len(boxes):
        parser.error("each box has one offset, and one has two")
    graph = Graph.load(said.graph).declared
    table = table_of(said.names) if said.names is not None else []
    choices = Choices(dict(said.offset), said.origin, said.before, said.seconds, said.mode, said.leave_out)
    log = log_of_records(graph, Words(graph, table), files_source(said.records), choices)
    if said.account is not None:
        write_account(log, said.account)
    sys.stdout.write(json.dumps(log.to_dict()) + "\n" if said.json else log.text)
    _tell(log)
    return 0


def _tell(log: RecordedLog) -> None:
    """Says on standard error what became of the records."""
    sys.stdout.flush()
    first, *others = summary_of(log)
    print(f"tfpg records: {first}", *others, sep="\n", file=sys.stderr)


def _parser() -> argparse.ArgumentParser:
    parser = argparse.ArgumentParser(prog="tfpg records", description=DESCRIPTION, formatter_class=argparse.RawDescriptionHelpFormatter)
    parser.add_argument("graph", metavar="GRAPH")
    parser.add_argument("records", metavar="RECORDS", nargs="+")
    begin = parser.add_mutually_exclusive_group()
    begin.add_argument("--origin", metavar="TIME", help="the time that becomes 0, written as records write theirs; 0 without it")
    begin.add_argument("--before", metavar="DURATION", type=_sentence(duration_of), help="takes it so long before the first record, as 8h")
    parser.add_argument("--offset", metavar="BOX=MS", action="append", default=[], type=_sentence(_offset),
                        help="adds milliseconds to the times of a box")
    parser.add_argument("--names", metavar="FILE", help="CSV with the columns theirs and ours")
    parser.add_argument("--leave-out", action="store_true", help="leaves out records of names that have no monitor in the graph")
    parser.add_argument("--mode", metavar="MODE", default="", help="the mode in the beginning, if it is not the first of the graph")
    parser.add_argument("--seconds", action="store_true", help="whole numbers count seconds")
    parser.add_argument("--account", metavar="FILE", help="writes what became of each record, as CSV")
    parser.add_argument("--json", action="store_true", help="writes one line of JSON in place of the log")
    return parser


def _sentence(read: Callable[[str], T]) -> Callable[[str], T]:
    """The same reader of a word, whose ValueError is told by `argparse` as it is."""
    def told(text: str) -> T:
        try:
            return read(text)
        except ValueError as fault:
            raise argparse.ArgumentTypeError(str(fault)) from None
    return told


def _offset(text: str) -> Tuple[str, int]:
    said = re.fullmatch(r"(.+)=([+-]?[0-9]{1,15})", text)
    if said is None:
        raise ValueError(f"`{text}` is no offset: it is the name of a box, = and milliseconds, such as engine=-1500")
    return said[1], int(said[2])

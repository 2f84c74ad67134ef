"""What became of records: a summary by rules, and a table with a row for each record."""

from __future__ import annotations

import csv
from typing import List

from .making import Entry, RecordedLog
from .rows import boxes_of
from .rules import RULES
from .times import date_words

HEADER = ["file", "line", "box", "time", "name", "value", "rule", "log_time", "log_line"]


def summary_of(log: RecordedLog) -> List[str]:
    """How many records each rule decided, where the time 0 is, and what is doubtful."""
    boxes = len(list(boxes_of(entry.record for entry in log.entries)))
    sizes = _count(len(log.entries), "record"), _count(boxes, "box", "boxes"), _count(len(log.lines), "line")
    lines, counts = ["{} of {}, {}. {}".format(*sizes, _origin_words(log))], log.counts
    lines += [f"  {counts[rule]:>7,} {rule}: {why}" for rule, why in RULES.items() if rule in counts]
    return lines + [f"note: {note}" for note in log.notes]


def _origin_words(log: RecordedLog) -> str:
    date = date_words(log.origin) if log.has_dates else ""
    return f"The time 0 of the log is {log.origin}{', ' + date if date else ''}."


def _count(number: int, one: str, many: str = "") -> str:
    return f"{number:,} {one if number == 1 else many or one + 's'}"


def row_of(entry: Entry) -> List[str]:
    """The row of a record in the table of the account."""
    record = entry.record
    return [record.file, str(record.line), record.box, record.time, record.name, record.value, entry.rule,
            "" if entry.time is None else str(entry.time), "" if entry.line is None else str(entry.line)]


def write_account(log: RecordedLog, name: str) -> None:
    """Writes the table to a file, as CSV in UTF-8. What has no place there, as a byte of a name of a file, stands as `\\udcff`."""
    with open(name, "w", encoding="utf-8", errors="backslashreplace", newline="") as file:
        table = csv.writer(file, lineterminator="\n")
        table.writerow(HEADER)
        table.writerows(map(row_of, log.entries))

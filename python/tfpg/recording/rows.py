"""Records as callers have them: files, mappings such as those of `csv.DictReader`, or tuples."""

from __future__ import annotations

import os
from datetime import datetime
from operator import index as whole
from pathlib import Path
from typing import Any, Iterable, Iterator, List, Mapping, Sequence, Union

from .sources import NEEDED, Record, Source, source_of

Row = Union[Mapping[str, Any], Sequence[Any]]
Rows = Union["os.PathLike[str]", Iterable[Union["os.PathLike[str]", Row]]]  # a file of records, or files and rows one after the other


def rows_source(rows: Rows) -> Source:
    """The records of rows. A row has a time, a name, a value and, if there are several boxes, a box: by these keys, or in this order."""
    if isinstance(rows, (str, bytes)):
        raise TypeError(f"{rows!r} is no list of records: a file of records is given as pathlib.Path")
    records: List[Record] = []
    unread: List[str] = []
    for number, row in enumerate([rows] if isinstance(rows, os.PathLike) else rows, 1):
        if isinstance(row, os.PathLike):
            source = source_of(os.fspath(row))
            records += source.records
            unread += [column for column in source.unread if column not in unread]
        else:
            records.append(_record(number, row))
    return Source(records, unread)


def _record(number: int, row: Row) -> Record:
    """The record of a row. KeyError and ValueError say what it has not."""
    if isinstance(row, Mapping):
        time, name, value, box = (*(row[key] for key in NEEDED), row.get("box"))
    else:
        time, name, value, box = row if len(row) == 4 else (*row, None)
    return Record("", number, str(box or ""), time_text(time), str(name), _value_text(value))


def time_text(time: Any) -> str:
    """A time as records write it: of a text, of whole milliseconds, or of a datetime. Of a float it is a TypeError, since none is exact."""
    if isinstance(time, datetime):
        return time.isoformat()
    return time if isinstance(time, str) else str(whole(time))


def _value_text(value: Any) -> str:
    return str(value).lower() if isinstance(value, bool) else str(value)


def files_source(files: Sequence[str]) -> Source:
    """The records of files, by their names."""
    return rows_source([Path(file) for file in files])


def boxes_of(records: Iterable[Record]) -> Iterator[str]:
    """The boxes that wrote records, each once."""
    return iter(dict.fromkeys(record.box for record in records))

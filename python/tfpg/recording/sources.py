"""Reads records as they were written: CSV with a header, or a JSON object a line."""

from __future__ import annotations

import csv
import io
import json
from pathlib import Path
from typing import Dict, Iterator, List, NamedTuple, Sequence, Tuple

from ..faults import BadRecord
from ..reading.texts import opened

NEEDED, COLUMNS = ("time", "name", "value"), ("time", "name", "value", "box")


class Record(NamedTuple):
    """A record, word by word as it was written, with its file, the line there, and the box that wrote it."""

    file: str
    line: int
    box: str
    time: str
    name: str
    value: str

    def bad(self, sentence: str) -> BadRecord:
        """Why this record cannot be taken."""
        return BadRecord(self.file, self.line, sentence)


class Source(NamedTuple):
    """The records of a file in their order, and its columns or keys that are not read."""

    records: List[Record]
    unread: List[str]


def source_of(file: str) -> Source:
    """The records of a file. Without a column `box` they are those of the box that the file is named for. BadRecord says what is wrong."""
    with opened(file) as records:
        content = records.read()
    try:
        text = content.decode("utf-8-sig")
    except UnicodeDecodeError as fault:
        line = content.count(b"\n", 0, fault.start) + 1
        raise BadRecord(file, line, "The file is not UTF-8. Bring it to UTF-8, as by `iconv -f latin1 -t utf-8 OLD > NEW`.") from None
    return _json_source(file, text) if text.lstrip().startswith("{") else _csv_source(file, text)


def _csv_source(file: str, text: str) -> Source:
    rows = _csv_rows(file, text)
    _, header = next(rows, (1, []))
    missing = [column for column in NEEDED if column not in header]
    if missing:
        raise BadRecord(file, 1, f"The header has no column `{missing[0]}`: it is `{','.join(header)}`. "
                                 "Its columns are time, name, value and, if there are several boxes in the file, box, with commas between.")
    twice = [column for column in COLUMNS if header.count(column) > 1]
    if twice:
        raise BadRecord(file, 1, f"The column `{twice[0]}` stands twice in the header.")
    places, records = {column: place for place, column in enumerate(header)}, []
    for line, row in rows:
        if len(row) != len(header):
            raise BadRecord(file, line, f"The record has {len(row)} columns, and the header {len(header)}. A value with a comma in it "
                                        "stands in quotation marks.")
        records.append(Record(file, line, _box(file, row[places["box"]] if "box" in places else ""),
                              *(row[places[column]] for column in NEEDED)))
    return Source(records, [column for column in header if column not in COLUMNS])


def _csv_rows(file: str, text: str) -> Iterator[Tuple[int, Sequence[str]]]:
    """The rows that are not empty, each with the line on which it begins."""
    reader = csv.reader(io.StringIO(text, newline=""), skipinitialspace=True, strict=True)
    line = 1
    try:
        for row in reader:
            if row:
                yield line, row
            line = reader.line_num + 1
    except csv.Error as fault:
        raise BadRecord(file, line, f"It is no CSV: {fault}.") from None


def _json_source(file: str, text: str) -> Source:
    records: List[Record] = []
    unread: Dict[str, None] = {}
    for line, said in enumerate(text.split("\n"), 1):
        if said.strip():
            keys = _json_object(file, line, said)
            words = [_json_word(file, line, keys, key) for key in NEEDED]
            box = _json_word(file, line, keys, "box") if keys.get("box") is not None else ""
            records.append(Record(file, line, _box(file, box), *words))
            unread.update(dict.fromkeys(key for key in keys if key not in COLUMNS))
    return Source(records, list(unread))


def _json_object(file: str, line: int, said: str) -> Dict[str, object]:
    """The object of a line. Its numbers stay texts, so that they stay exact."""
    try:
        keys = json.loads(said, parse_int=str, parse_float=str, parse_constant=str)
    except json.JSONDecodeError as fault:
        sentence = f"It is no JSON: {fault.msg} at column {fault.colno}. Each record is an object in a line of its own."
        raise BadRecord(file, line, sentence) from None
    except RecursionError:
        raise BadRecord(file, line, "It is nested too deep.") from None
    if not isinstance(keys, dict):
        raise BadRecord(file, line, "It is no JSON object. Each record is an object in a line of its own, with time, name and value.")
    return keys


def _json_word(file: str, line: int, keys: Dict[str, object], key: str) -> str:
    """What a key says, as a text. `true` and `false` are these words."""
    if key not in keys:
        raise BadRecord(file, line, f"The object has no key `{key}`. Its keys are time, name, value and, if there are several boxes, box.")
    value = keys[key]
    if isinstance(value, bool):
        return "true" if value else "false"
    if not isinstance(value, str):
        raise BadRecord(file, line, f"The value of `{key}` is neither a text nor a number.")
    return value


def _box(file: str, said: str) -> str:
    return said or Path(file).stem

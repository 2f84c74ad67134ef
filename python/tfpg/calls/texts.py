"""The texts that callers give: whole texts, files, or lines one by one."""

from __future__ import annotations

import io
import os
import re
from typing import Iterable, Iterator, Tuple, Union

from ..limits import LONGEST_LINE
from ..reading.texts import NUMBER, bytes_in, opened

Bytes = Union[bytes, bytearray, memoryview]
Line = Union[str, Bytes]
Text = Union[str, Bytes, "os.PathLike[str]"]  # a text, or the path of its file
Log = Union[Text, Iterable[Line]]  # or lines one after the other, as an open file or a list has them

TIMED = re.compile(rb"(%s)( .*)" % NUMBER.pattern.encode(), re.S)
# What one line that has no line end has to be, so that it is no name of a file: an event, or the first line of another text.
FIRST_LINE = re.compile(rb"(%s) (sweep|tick|(alarm|silent|mode) [^ /\\]+)|(report|set|tfpg) .*" % NUMBER.pattern.encode())


def bytes_of(given: Line) -> bytes:
    """The bytes of a line or a text, or TypeError."""
    if isinstance(given, str):
        return bytes_in(given)
    if isinstance(given, (bytes, bytearray, memoryview)):
        return bytes(given)
    raise TypeError(f"a line is str, bytes, bytearray or memoryview, and {type(given).__name__} is none of these")


def line_bytes(line: Line) -> bytes:
    """A line without its line end."""
    content = bytes_of(line)
    return content[:-1] if content.endswith(b"\n") else content


def line_text(content: bytes) -> str:
    """A line as its reader knows it. Bytes that are not UTF-8 are kept."""
    return content.decode("utf-8", "surrogateescape")


def text_bytes(given: Text) -> bytes:
    """The bytes of a text, or of a file by its path. A name of a file that is no path is an error: no text looks like one."""
    if isinstance(given, os.PathLike):
        with opened(given) as file:
            return file.read()
    content = bytes_of(given)
    if content and b"\n" not in content and not FIRST_LINE.fullmatch(content):
        raise ValueError(f"{given!r} is no text, since it has no line end: a file is given as pathlib.Path({line_text(content)!r})")
    return content


def counted(text: bytes) -> Tuple[bytes, int]:
    """A text as C takes it, with the number of its bytes."""
    return text, len(text)


def log_bytes(log: Log) -> bytes:
    """The bytes of a log."""
    if isinstance(log, (str, bytes, bytearray, memoryview, os.PathLike)):
        return text_bytes(log)
    return b"".join(line_bytes(line) + b"\n" for line in log)


def log_lines(log: Log) -> Iterator[bytes]:
    """The lines of a log, without their line ends, one after the other. A file is read as far as they are asked for."""
    if isinstance(log, os.PathLike):
        with opened(log) as file:
            yield from map(line_bytes, file)
    elif isinstance(log, (str, bytes, bytearray, memoryview)):
        yield from map(line_bytes, io.BytesIO(text_bytes(log)))
    else:
        yield from map(line_bytes, log)


def shifted(line: bytes, origin: int) -> bytes:
    """A line with its time less an origin. One that is too long, or begins with no number, stays as it is."""
    said = TIMED.fullmatch(line) if origin and len(line) <= LONGEST_LINE else None
    return b"%d%b" % (int(said[1]) - origin, said[2]) if said else line

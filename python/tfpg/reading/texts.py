"""Texts, lines and words. A text is bytes; as a string it has one character for each byte, so that places are those of the bytes."""

from __future__ import annotations

import errno
import os
import re
from dataclasses import dataclass
from pathlib import Path
from typing import BinaryIO, List, Union

from ..limits import LONGEST_NAME
from ..portable import Portable

NAME = re.compile(rf"[A-Za-z][A-Za-z0-9_.-]{{0,{LONGEST_NAME - 1}}}")
NUMBER = re.compile(r"0|[1-9][0-9]*")


class BadText(Portable):
    """A text is not what it should be, with the line and a cause. The line is 0 if it is none."""

    def __init__(self, line: int, cause: str) -> None:
        super().__init__(f"line {line}: {cause}" if line else cause)
        self.line, self.cause = line, cause


@dataclass(frozen=True)
class Word:
    """A word of a line, and the place of its first byte."""

    text: str
    start: int

    @property
    def end(self) -> int:
        return self.start + len(self.text)


def text_of(content: bytes) -> str:
    return content.decode("latin-1")


def bytes_in(text: str) -> bytes:
    """The bytes of a text of characters. A surrogate that stands for a byte, as in names of files, becomes that byte. With one that stands
    for none the text is no UTF-8 either."""
    try:
        return text.encode("utf-8", "surrogateescape")
    except UnicodeEncodeError:
        return text.encode("utf-8", "surrogatepass")


def opened(name: Union[str, "os.PathLike[str]"]) -> BinaryIO:
    """A file, open for reading, or OSError. No file has a name with a surrogate that stands for no byte."""
    try:
        return open(name, "rb")
    except UnicodeEncodeError:
        raise FileNotFoundError(errno.ENOENT, os.strerror(errno.ENOENT), os.fspath(name)) from None


def read_text(name: str) -> str:
    """The text of a file."""
    return text_of(Path(name).read_bytes())


def lines_of(text: str) -> List[str]:
    """The lines of a text. Only a line feed ends one, and what stands after the last line feed is a line if it has a byte."""
    lines = text.split("\n")
    if lines[-1] == "":
        lines.pop()
    return lines


def words_of(line: str) -> List[Word]:
    """The words of a line: what stands between its spaces. Some may be empty."""
    words, start = [], 0
    for text in line.split(" "):
        words.append(Word(text, start))
        start += len(text) + 1
    return words


def is_name(word: str) -> bool:
    return NAME.fullmatch(word) is not None


def is_number(word: str) -> bool:
    return NUMBER.fullmatch(word) is not None


def number_of(word: str) -> int:
    """A number as it is, or one above all limits if it has more digits than they."""
    return int(word) if len(word) <= 18 else 10**18


def shown(text: str) -> str:
    """What a reader sees of a text of bytes: its characters, if it is UTF-8. A control character has a sign of its own, as CR has ␍."""
    characters = text.encode("latin-1").decode("utf-8", "replace")
    return "".join(chr(0x2400 + ord(one)) if ord(one) < 32 else one for one in characters)

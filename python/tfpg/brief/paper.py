"""Lines of at most 80 columns, with colour on a terminal alone."""

from __future__ import annotations

import os
import re
import textwrap
from typing import IO, List

WIDTH = 80
LEAST_ROOM = 40  # columns that deep lines keep
UNITS = re.compile(r"(?<=[0-9]) (?=(?:ms|s|min|h)\b)|(?<=\bmin) (?=[0-9])|(?<=\bh) (?=[0-9])")  # a duration stands in one line
BOLD, RED, PLAIN = "\x1b[1m", "\x1b[31m", "\x1b[0m"


def has_colour(output: "IO[str]") -> bool:
    """Whether colour is wanted: on a terminal, unless NO_COLOR is set."""
    return output.isatty() and not os.environ.get("NO_COLOR")


class Paper:
    """Takes paragraphs, and keeps their lines."""

    def __init__(self, colour: bool = False) -> None:
        self.colour = colour
        self.lines: List[str] = []

    def title(self, text: str) -> None:
        """A line that begins a part, after an empty one."""
        if self.lines:
            self.lines.append("")
        self._add(text, 0, 2, BOLD)

    def put(self, text: str, indent: int = 2, hang: int = 2) -> None:
        """A paragraph. Its lines after the first stand `hang` columns further right."""
        self._add(text, indent, hang, "")

    def warn(self, text: str, indent: int = 2, hang: int = 2) -> None:
        """A paragraph in red."""
        self._add(text, indent, hang, RED)

    def line(self, text: str) -> None:
        """A line that is never broken."""
        self.lines.append(text)

    def _add(self, text: str, indent: int, hang: int, style: str) -> None:
        first = min(indent, WIDTH - LEAST_ROOM)
        wrapped = textwrap.wrap(UNITS.sub("\xa0", text), WIDTH, initial_indent=" " * first, subsequent_indent=" " * (first + hang),
                                break_long_words=False, break_on_hyphens=False)
        lines = [line.replace("\xa0", " ") for line in wrapped]
        self.lines += [f"{style}{line}{PLAIN}" if style and self.colour else line for line in lines]

    def text(self) -> str:
        return "".join(line + "\n" for line in self.lines)

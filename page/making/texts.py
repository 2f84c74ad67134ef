"""What a text is: its lines, its kind by its first lines, and the fault of a text that is none."""

import re

from tfpg.limits import LONGEST_NAME

NAME = rb"[A-Za-z][A-Za-z0-9_.-]{0,%d}" % (LONGEST_NAME - 1)
KINDS = {
    "graph": re.compile(rb"tfpg [12](\n|\Z)|[^\S\n]*\{"),
    "report": re.compile(rb"report [12] k "),
    "ask": re.compile(rb"questions now "),
    "predict": re.compile(rb"predict %s now " % NAME),
    "fleet": re.compile(rb"vehicle %s\nreport [12] k " % NAME),
}


class Fault(Exception):
    """A text is none, with the line and the cause."""

    def __init__(self, line, cause):
        super().__init__(line, cause)
        self.line, self.cause = line, cause


def lines_of(text):
    """The lines of a text of bytes, without their line feeds."""
    lines = text.split(b"\n")
    if lines[-1] == b"":
        lines.pop()
    return lines


def kind_of(text):
    """The kind of a text by its first lines. What has no other is a log."""
    return next((kind for kind, shape in KINDS.items() if shape.match(text)), "log")


def line_at(text, place):
    """The number of the line in which the byte of this index stands."""
    return text.count(b"\n", 0, place) + 1

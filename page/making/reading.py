"""Reads the files of a page, and refuses one that is none."""

from pathlib import Path

from tfpg.reading.graph_json import json_lines
from tfpg.reading.texts import BadText

from .graph_text import read_graph_text
from .report_text import CHECKS, Named
from .texts import Fault, kind_of


MARKS = (b"\xef\xbb\xbf", b"\xff\xfe", b"\xfe\xff")  # of UTF-8 and UTF-16


def read_file(name):
    try:
        return Path(name).read_bytes()
    except OSError as fault:
        raise SystemExit(f"tfpg-page: {name}: {fault.strerror}") from None


def read_graph(text):
    """The graph of a text, or of JSON by the text that it stands for."""
    if not text.lstrip().startswith(b"{"):
        return read_graph_text(text)
    try:
        return read_graph_text("".join(line + "\n" for line in json_lines(text)).encode())
    except BadText as fault:
        raise Fault(fault.line, fault.cause) from None


def need_kind(kind, text, named):
    """Refuses a text that is not of this kind. Any lines are a log, but those that begin as another text does."""
    if kind != "log":
        return CHECKS[kind](text, named)
    if kind_of(text) != "log":
        raise Fault(1, f"this is no log, but begins as {kind_of(text)}")
    if text.startswith(MARKS):
        raise Fault(1, "this is no log, but begins with a byte order mark")


def read_texts(files):
    """The graph, and the texts by the name of their place on the page. A place is a kind, and for forecasts a number after it."""
    texts, graph = {}, None
    for place, name in files.items():
        texts[place] = read_file(name)
        try:
            if place == "graph":
                graph = read_graph(texts[place])
            else:
                need_kind(place.rstrip("0123456789"), texts[place], Named.of(graph))
        except Fault as fault:
            raise SystemExit(f"tfpg-page: {name} line {fault.line}: {fault.cause}") from None
    return graph, texts

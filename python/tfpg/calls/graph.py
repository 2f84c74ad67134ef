"""A graph as callers have it: its text, and what its lines declare."""

from __future__ import annotations

import os
from typing import Any, List, Tuple, Union

from ..explaining.graph_json import json_sentence
from ..explaining.refusals import graph_explanation
from ..faults import BadGraph
from ..program import file_words, run_program
from ..reading.graph_json import json_lines
from ..reading.graphs import DeclaredGraph, Edge, Node, graph_of
from ..reading.texts import lines_of, opened, shown, text_of
from .texts import Text, text_bytes


class Graph:
    """A graph: its text as bytes, and what the lines of that declare, in their order. Whether it spells a graph, the calls say that
    take it.

    `modes` are the names of the modes, `nodes` the failure modes and discrepancies, and `edges` the edges, whose ends and modes are
    numbers: `graph.nodes[edge.source].name`. `failures` and `monitored` are the names of the failure modes, and of the nodes with a
    monitor. Graphs are equal if their texts are.

    `text` is a text, or the path of a file. ValueError, if it looks like the name of a file; OSError, if a file cannot be read.

    >>> graph = tfpg.Graph("tfpg 1\\nmode Run\\nfailure Leak 2\\nor Wet watch 5000\\nedge Leak Wet 10 20 *\\nend\\n")
    >>> graph.failures, graph.monitored
    (('Leak',), ('Wet',))
    """

    def __init__(self, text: Text) -> None:
        self._read(text_bytes(text))

    def _read(self, content: bytes) -> None:
        """Reads what the lines of a text declare."""
        self.text = content
        self.declared: DeclaredGraph = graph_of(text_of(self.text))
        self.modes: Tuple[str, ...] = tuple(self.declared.modes)
        self.nodes: Tuple[Node, ...] = tuple(self.declared.nodes)
        self.edges: Tuple[Edge, ...] = tuple(self.declared.edges)
        self.failures: Tuple[str, ...] = tuple(map(self.declared.name, self.declared.failures))
        self.monitored: Tuple[str, ...] = tuple(map(self.declared.name, self.declared.monitored))

    @classmethod
    def of_bytes(cls, content: bytes) -> "Graph":
        """The graph of a text that is known to be one, as the `content` of a file."""
        graph = cls.__new__(cls)
        graph._read(content)
        return graph

    @classmethod
    def load(cls, path: Union[str, "os.PathLike[str]"]) -> "Graph":
        """The graph of a file, which has its text, or JSON. Of JSON the program makes a text, or BadGraph says why it is no graph.

        `path` is the name of the file. OSError, if it cannot be read; NoProgram, if it is JSON and there is no program.

        >>> tfpg.Graph.load("examples/pump.tfpg")
        <tfpg.Graph of 10 nodes and 11 edges>
        """
        name = os.fspath(path)
        with opened(name) as file:
            content = file.read()
        return cls.of_bytes(graph_text(name, content) if content.lstrip(b" \t\r\n").startswith(b"{") else content)

    def __eq__(self, other: object) -> bool:
        return isinstance(other, Graph) and self.text == other.text

    def __hash__(self) -> int:
        return hash(self.text)

    def __reduce__(self) -> Tuple[Any, ...]:
        """What `pickle` keeps: the text, which is read again."""
        return type(self).of_bytes, (self.text,)

    def __repr__(self) -> str:
        return f"<tfpg.Graph of {len(self.nodes)} nodes and {len(self.edges)} edges>"

    def node(self, name: str) -> Node:
        """The node of this `name`, or KeyError. Its lags are in milliseconds.

        >>> tfpg.Graph.load("examples/pump.tfpg").node("LowFlow").lags
        (0, 5000)
        """
        return self.declared.node(name)

    def fault(self, line: int, cause: str) -> BadGraph:
        """Why this graph is refused, by the number of the `line` and the `cause`, as the library says them."""
        return bad_graph(lines_of(text_of(self.text)), line, cause)


def bad_graph(lines: List[str], line: int, cause: str) -> BadGraph:
    """Why a graph of these lines is refused."""
    text = shown(lines[line - 1]) if 0 < line <= len(lines) else ""
    return BadGraph(line, cause, text, graph_explanation(lines, line, cause).sentence)


def graph_text(name: str, content: bytes) -> bytes:
    """The text of a graph that a file has as JSON."""
    ended = run_program(["convert", "--json", *file_words(name)])
    if ended.status == 0:
        return ended.output
    line, cause = ended.cause
    if ended.line.startswith("graph ") and line:
        raise bad_graph(json_lines(content), line, cause)
    raise BadGraph(0, cause, "", json_sentence(content) if ended.line.startswith("graph ") else f"The program says: {ended.line}")

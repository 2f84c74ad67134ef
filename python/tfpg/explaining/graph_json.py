"""Why JSON is no graph: the place, and what has to stand there. docs/formats.md has the shape under "Graph as JSON"."""

from __future__ import annotations

import json
from typing import Any, Dict, Iterator, Tuple

from ..reading.graph_json import MOST_NUMBER, NoNumber, whole_of
from ..reading.texts import is_name
from .forms import name_hints

KINDS = ("failure", "or", "and")
NUMBER = "a whole number without a sign, a point or an exponent"
NO_PLACE = "It is no JSON that the program reads: docs/formats.md has the shape under \"Graph as JSON\"."


def json_sentence(content: bytes) -> str:
    """Where JSON is no graph, and what to write there."""
    try:
        said = json.loads(content.decode("utf-8"), parse_int=whole_of, parse_float=NoNumber, parse_constant=NoNumber)
    except UnicodeDecodeError as fault:
        return f"It is not UTF-8 from line {content.count(bytes([10]), 0, fault.start) + 1} on: `iconv -f latin1 -t utf-8 OLD > NEW`"
    except json.JSONDecodeError as fault:
        return f"It is no JSON from line {fault.lineno}, column {fault.colno} on: {fault.msg}.{_comma(content, fault)}"
    except RecursionError:
        return "It is nested deeper than 127 levels."
    place, need = next(_faults(said), ("", ""))
    return f"At `{place}` {need}" if place else NO_PLACE


def _comma(content: bytes, fault: json.JSONDecodeError) -> str:
    """Whether a comma before an end is one too many."""
    before = fault.doc[:fault.pos].rstrip()
    return " After the last item there is no comma." if before.endswith(",") and fault.doc[fault.pos:fault.pos + 1] in "}]" else ""


def _faults(said: Any) -> Iterator[Tuple[str, str]]:
    """Each place that has not its shape, as `jq` names it, with what has to stand there."""
    if not isinstance(said, dict):
        yield ".", "there has to be an object with the keys `modes`, `nodes` and `edges`."
        return
    for key, kind, what in (("modes", str, "names"), ("nodes", dict, "objects"), ("edges", dict, "objects")):
        values = said.get(key)
        if not isinstance(values, list):
            yield f".{key}", f"there has to be a list of {what}."
            continue
        wrong = next((place for place, value in enumerate(values) if not isinstance(value, kind)), None)
        if wrong is not None:
            yield f".{key}[{wrong}]", f"there has to be {'a name, a text' if kind is str else 'an object'}."
            continue
        for place, value in enumerate(values):
            yield from _node_faults(f".nodes[{place}]", value) if key == "nodes" else _edge_faults(f".edges[{place}]", value) \
                if key == "edges" else _name_faults(f".modes[{place}]", value)


def _name_faults(place: str, name: Any) -> Iterator[Tuple[str, str]]:
    if not isinstance(name, str):
        yield place, "there has to be a name, a text."
    elif not is_name(name):
        hints = name_hints(name.encode("utf-8", "replace").decode("latin-1"))
        yield place, " ".join([f"the name {json.dumps(name)} has not the form of one.", *hints])


def _number_faults(place: str, number: Any, otherwise: str = "") -> Iterator[Tuple[str, str]]:
    if isinstance(number, NoNumber):
        yield place, f"stands {number.word}, and has to be {NUMBER}{otherwise}."
    elif isinstance(number, bool) or not isinstance(number, int) or not 0 <= number <= MOST_NUMBER:
        yield place, f"there has to be {NUMBER}{otherwise}."


def _node_faults(place: str, node: Dict[str, Any]) -> Iterator[Tuple[str, str]]:
    yield from _name_faults(f"{place}.name", node.get("name"))
    if node.get("kind") not in KINDS:
        yield f"{place}.kind", "there has to be `failure`, `or` or `and`, a text."
    elif node["kind"] == "failure":
        yield from _number_faults(f"{place}.rarity", node.get("rarity"))
    elif node.get("lag") is not None:
        yield from _number_faults(f"{place}.lag", node["lag"], ", or null if the node has no monitor")
        yield from _number_faults(f"{place}.least", node.get("least", 0))


def _edge_faults(place: str, edge: Dict[str, Any]) -> Iterator[Tuple[str, str]]:
    yield from _name_faults(f"{place}.from", edge.get("from"))
    yield from _name_faults(f"{place}.to", edge.get("to"))
    yield from _number_faults(f"{place}.min", edge.get("min"))
    if "max" not in edge or edge["max"] is not None:
        yield from _number_faults(f"{place}.max", edge.get("max"), ", or null if there is no greatest delay")
    modes = edge.get("modes")
    if "modes" not in edge or modes is not None and not isinstance(modes, list):
        yield f"{place}.modes", "there has to be a list of names, or null for all modes."
    elif modes is not None:
        for number, name in enumerate(modes):
            yield from _name_faults(f"{place}.modes[{number}]", name)

"""The lines of the graph text that JSON stands for, by docs/formats.md, "Graph as JSON"."""

from __future__ import annotations

import json
from typing import Any, Dict, List, Type

from .texts import BadText, is_name

MOST_NUMBER = 2**64 - 1


class NoNumber:
    """A number with a sign, a point or an exponent, which is none here."""

    def __init__(self, word: str) -> None:
        self.word = word


def json_lines(content: bytes) -> List[str]:
    """The lines, or BadText in line 0: BadLine if this is no JSON or has not the shape of a graph, BadName if a name has not its form."""
    try:
        said = json.loads(content.decode("utf-8"), parse_int=_whole, parse_float=NoNumber, parse_constant=NoNumber)
    except (ValueError, RecursionError):
        raise BadText(0, "BadLine") from None
    _need(isinstance(said, dict))
    modes, nodes, edges = _all(said.get("modes"), str), _all(said.get("nodes"), dict), _all(said.get("edges"), dict)
    lines = ["tfpg 2", *(f"mode {name}" for name in modes), *map(_node_line, nodes), *map(_edge_line, edges), "end"]
    names = [*modes, *(node["name"] for node in nodes), *(name for edge in edges for name in _names_in(edge))]
    if not all(map(is_name, names)):
        raise BadText(0, "BadName")
    return lines


def whole_of(word: str) -> int:
    """A whole number as it is, or one above all limits if it has more digits than they: Python reads no number of thousands of digits."""
    return int(word) if len(word) <= len(str(MOST_NUMBER)) else MOST_NUMBER + 1


def _whole(word: str) -> Any:
    return NoNumber(word) if word.startswith("-") else whole_of(word)


def _need(condition: bool) -> None:
    if not condition:
        raise BadText(0, "BadLine")


def _is_whole(value: Any) -> bool:
    return isinstance(value, int) and not isinstance(value, bool) and value <= MOST_NUMBER


def _all(values: Any, kind: Type[Any]) -> List[Any]:
    """A list of which all items are of this kind."""
    _need(isinstance(values, list) and all(isinstance(value, kind) for value in values))
    return list(values)


def _node_line(node: Dict[str, Any]) -> str:
    kind = node.get("kind")
    _need(kind in ("failure", "or", "and") and isinstance(node.get("name"), str))
    if kind == "failure":
        _need(_is_whole(node.get("rarity")))
        return f"{kind} {node['name']} {node['rarity']}"
    if node.get("lag") is None:
        return f"{kind} {node['name']} hidden"
    least = node.get("least", 0)
    _need(_is_whole(node["lag"]) and _is_whole(least))
    return f"{kind} {node['name']} watch {least} {node['lag']}"


def _edge_line(edge: Dict[str, Any]) -> str:
    _need(all(isinstance(edge.get(end), str) for end in ("from", "to")) and _is_whole(edge.get("min")))
    _need("max" in edge and (edge["max"] is None or _is_whole(edge["max"])) and "modes" in edge)
    where = "*" if edge["modes"] is None else ",".join(_all(edge["modes"], str)) or "-"
    return f"edge {edge['from']} {edge['to']} {edge['min']} {'inf' if edge['max'] is None else edge['max']} {where}"


def _names_in(edge: Dict[str, Any]) -> List[str]:
    return [edge["from"], edge["to"], *(edge["modes"] or [])]

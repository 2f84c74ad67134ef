"""Why the program refuses a line of a graph, by what the lines above it declare."""

from __future__ import annotations

from typing import Callable, Dict, List, Optional, Sequence

from ..limits import MOST_EDGES, MOST_FAILURES, MOST_INCOMING, MOST_MODES, MOST_NODES, MOST_RARITY, MOST_TIME, spoken
from ..reading.graphs import DeclaredGraph
from ..reading.texts import Word, is_name, is_number, number_of, words_of
from .explanations import Explanation, listed
from .forms import line_hints, name_hints, number_hints, quoted
from .graph_shapes import explain_header, explain_shape

MOST = {"TooManyNodes": (MOST_NODES, "nodes"), "TooManyFailures": (MOST_FAILURES, "failure modes"), "TooManyEdges": (MOST_EDGES, "edges"),
        "TooManyModes": (MOST_MODES, "modes"), "TooManyIncoming": (MOST_INCOMING, "edges into one node")}


class RefusedLine:
    """A refused line below the first one: its words, and what the lines above it declare."""

    def __init__(self, lines: Sequence[str], number: int) -> None:
        self.lines, self.number = lines, number
        self.line = lines[number - 1]
        self.above = DeclaredGraph(lines[:number - 1])
        self.words = words_of(self.line)
        self.keyword = self.words[0].text

    def names(self) -> List[Word]:
        """The words in the places of names."""
        return self.words[1:3] + self.modes() if self.keyword == "edge" else self.words[1:2]

    def modes(self) -> List[Word]:
        """The parts of MODES between its commas."""
        where, parts = self.words[5], []
        if where.text in ("*", "-"):
            return []
        start = where.start
        for part in where.text.split(","):
            parts.append(Word(part, start))
            start += len(part) + 1
        return parts

    def numbers(self) -> List[Word]:
        """The words in the places of numbers."""
        some = {"failure": self.words[2:3], "edge": self.words[3:5], "or": self.words[3:], "and": self.words[3:]}.get(self.keyword, [])
        return [word for place, word in enumerate(some) if not (self.keyword == "edge" and place == 1 and word.text == "inf")]

    def hints(self) -> List[str]:
        return line_hints(self.line, self.lines)


def explain_graph_line(lines: Sequence[str], number: int, cause: str) -> Explanation:
    """Why the program refuses a line of a graph with this cause."""
    line = lines[number - 1] if 0 < number <= len(lines) else None
    if cause == "BadHeader" or line is None:
        return explain_header(line, lines)
    if cause == "BadLine":
        return explain_shape(line, lines, DeclaredGraph(lines[:number - 1]))
    here = RefusedLine(lines, number)
    if cause in MOST:
        most, what = MOST[cause]
        word = here.words[2 if cause == "TooManyIncoming" else 1]
        return Explanation(f"A graph has at most {most:,} {what}, and this line declares one more.", word)
    said = SENTENCES[cause](here)
    return Explanation(said.sentence, said.word, here.hints() + said.hints)


def _bad_name(here: RefusedLine) -> Explanation:
    word = next(word for word in here.names() if not is_name(word.text))
    sentence = f"{quoted(word.text)} is no name." if word.text else "A name is missing between commas."
    return Explanation(sentence, word, name_hints(word.text))


def _duplicate_name(here: RefusedLine) -> Explanation:
    if here.keyword == "edge":
        texts = [word.text for word in here.modes()]
        word = next(word for place, word in enumerate(here.modes()) if word.text in texts[:place])
        return Explanation(f"MODES names {quoted(word.text)} twice.", word)
    word, above = here.words[1], here.above
    taken = above.mode_lines[above.modes.index(word.text)] if here.keyword == "mode" else above.nodes[above.number_of[word.text]].line
    return Explanation(f"The name {quoted(word.text)} is taken: line {taken} declares it.", word)


def _unknown_name(here: RefusedLine) -> Explanation:
    above = here.above
    node = next((word for word in here.words[1:3] if word.text not in above.number_of), None)
    if node is None:
        mode = next(word for word in here.modes() if word.text not in above.modes)
        return Explanation(f"{quoted(mode.text)} is no mode of the graph.", mode, [listed("Its modes", above.modes)])
    later = _line_below(here, node.text)
    hints = [f"Line {later} declares it, and that is below. Nodes come before edges."] if later else []
    nodes = listed("The nodes", [one.name for one in above.nodes])
    return Explanation(f"No line above declares a node {quoted(node.text)}.", node, hints + [nodes])


def _line_below(here: RefusedLine, name: str) -> Optional[int]:
    """The number of a line below that begins like a declaration of this node."""
    starts = [f"{kind} {name} " for kind in ("failure", "or", "and")]
    below = enumerate(here.lines[here.number:], here.number + 1)
    return next((number for number, line in below if line.startswith(tuple(starts))), None)


def _bad_number(here: RefusedLine) -> Explanation:
    word = next(word for word in here.numbers() if not is_number(word.text))
    unit = "" if here.keyword == "failure" else "milliseconds"
    return Explanation(f"{quoted(word.text)} is no number.", word, number_hints(word.text, unit))


def _too_large(here: RefusedLine) -> Explanation:
    is_rarity = here.keyword == "failure"
    most = MOST_RARITY if is_rarity else MOST_TIME
    word = next(word for word in here.numbers() if number_of(word.text) > most)
    what = f"A rarity is at most {spoken(most)}" if is_rarity else f"A lag or a delay is at most {spoken(most)} milliseconds"
    hints = ["For no greatest delay write `inf`."] if here.keyword == "edge" and word is here.words[4] else []
    return Explanation(f"{what}, and {quoted(word.text)} is above it.", word, hints)


def _min_over_max(here: RefusedLine) -> Explanation:
    least, greatest = here.numbers()[:2]
    what = "delay" if here.keyword == "edge" else "lag"
    return Explanation(f"The least {what} {least.text} is above the greatest {what} {greatest.text}.", least, ["The least comes first."])


def _edge_into_failure(here: RefusedLine) -> Explanation:
    word = here.words[2]
    line = here.above.nodes[here.above.number_of[word.text]].line
    return Explanation(f"The edge enters {quoted(word.text)}, which line {line} declares as a failure mode.", word,
                       ["A failure mode fails by itself, so no edge enters one. An edge is written with its source first."])


def _self_edge(here: RefusedLine) -> Explanation:
    return Explanation(f"The edge goes from {quoted(here.words[2].text)} to itself.", here.words[2])


def _duplicate_edge(here: RefusedLine) -> Explanation:
    above, (source, target) = here.above, here.words[1:3]
    first = above.edge_of(above.number_of[source.text], above.number_of[target.text])
    line = first.line if first is not None else 0
    return Explanation(f"Line {line} declares an edge from {quoted(source.text)} to {quoted(target.text)} already.", target,
                       ["Between two nodes there is one edge. A second speed in another mode goes over a hidden node of its own."])


def _no_modes(here: RefusedLine) -> Explanation:
    return Explanation("`-` means no mode, and an edge is active in at least one.", here.words[5],
                       ["Write `*` for all modes.", listed("The modes", here.above.modes)])


def _after_end(here: RefusedLine) -> Explanation:
    return Explanation(f"Line {here.above.end_line} is `end`, after which come empty lines and comments alone.", here.words[0])


SENTENCES: Dict[str, Callable[[RefusedLine], Explanation]] = {
    "BadName": _bad_name,
    "DuplicateName": _duplicate_name,
    "UnknownName": _unknown_name,
    "BadNumber": _bad_number,
    "NumberTooLarge": _too_large,
    "MinOverMax": _min_over_max,
    "EdgeIntoFailure": _edge_into_failure,
    "SelfEdge": _self_edge,
    "DuplicateEdge": _duplicate_edge,
    "NoModes": _no_modes,
    "AfterEnd": _after_end,
}

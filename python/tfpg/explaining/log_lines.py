"""Why the program refuses a line of a log."""

from __future__ import annotations

import re
from typing import Callable, Dict, List, Optional, Sequence, Tuple

from ..limits import LONGEST_LINE, MOST_CHANGES, MOST_EVENTS, MOST_TIME, spoken
from ..reading.graphs import HEADERS, DeclaredGraph
from ..reading.texts import Word, is_number, number_of, words_of
from .explanations import Explanation, listed
from .forms import empty_word, line_hints, number_hints, quoted, size_hints

SHAPES = ["T alarm NODE", "T silent NODE", "T sweep", "T tick", "T mode MODE"]
RIGHT = "The shapes are " + ", ".join(f"`{shape}`" for shape in SHAPES) + "."
COUNTS = {"alarm": 3, "silent": 3, "mode": 3, "sweep": 2, "tick": 2}


class RefusedLine:
    """A refused line of a log, with the time that its cause carries."""

    def __init__(self, graph: DeclaredGraph, lines: Sequence[str], number: int, time: Optional[int]) -> None:
        self.graph, self.lines, self.number, self.time = graph, lines, number, time
        self.line = lines[number - 1]
        self.words = words_of(self.line)
        self.texts = [word.text for word in self.words]

    def hints(self) -> List[str]:
        return line_hints(self.line, self.lines)

    def monitored(self) -> str:
        return listed("The nodes with a monitor", [self.graph.name(node) for node in self.graph.monitored])


def explain_log_line(graph: DeclaredGraph, lines: Sequence[str], number: int, cause: str, time: Optional[int]) -> Explanation:
    """Why a line is refused with this cause. It is an error, KeyError or IndexError, if no line like this one is."""
    here = RefusedLine(graph, lines, number, time)
    if not BEARS[cause](here):
        raise KeyError(cause)
    said = SENTENCES[cause](here)
    return Explanation(said.sentence, said.word, here.hints() + said.hints)


def _bad_line(here: RefusedLine) -> Explanation:
    words = here.words
    if here.line.strip("\r") == "":
        return Explanation("The line is empty, and a log has no empty lines.", None, [RIGHT])
    if here.line.startswith("#"):
        return Explanation("A log has no comments.", words[0], [RIGHT])
    if here.line in HEADERS:
        order = "Are the files in their order, GRAPH and then LOG?"
        return Explanation("A graph begins so, and no line of a log.", words[0], [order, RIGHT])
    if any(word.text == "" for word in words):
        return Explanation("Each space separates two words, so a space too many makes an empty word.", empty_word(here.line))
    return Explanation(*_shape_fault(words), [RIGHT])


def _shape_fault(words: List[Word]) -> Tuple[str, Word]:
    """Why words without an empty one have none of the shapes, and the word at fault."""
    if words[0].text in COUNTS:
        return "The time comes first.", words[0]
    if len(words) == 1:
        return "There is one word, and no event after it.", words[0]
    kind, count = words[1], len(words)
    if kind.text not in COUNTS:
        if kind.text.lower() in COUNTS:
            return f"{quoted(kind.text)} is no event: the words of events have small letters.", kind
        return f"{quoted(kind.text)} is no event.", kind
    if count < COUNTS[kind.text]:
        return f"After {quoted(kind.text)} the {'mode' if kind.text == 'mode' else 'node'} is missing.", kind
    return f"{quoted(words[COUNTS[kind.text]].text)} is one word too many.", words[COUNTS[kind.text]]


def _bad_number(here: RefusedLine) -> Explanation:
    word = here.words[0]
    return Explanation(f"The time {quoted(word.text)} is no number.", word, number_hints(word.text))


def _time_too_large(here: RefusedLine) -> Explanation:
    word = here.words[0]
    return Explanation(f"A time is at most {spoken(MOST_TIME)} milliseconds, some 31 years, and {quoted(word.text)} is above it.",
                       word, [*size_hints(word.text), "`python3 -m tfpg records` takes an origin from each time."])


def _time_back(here: RefusedLine) -> Explanation:
    word = here.words[0]
    return Explanation(f"The time {word.text} is before {here.time}, that of the last accepted line.", word,
                       ["Times never fall. A line that comes too late is left out, and changes nothing.",
                        "Lines of several boxes are sorted by `sort -n -s OLD > NEW`, and their records by `python3 -m tfpg records`."]
                       + _seconds_hints(here))


def _seconds_hints(here: RefusedLine) -> List[str]:
    """Whether the time may count seconds after times that count milliseconds."""
    said = here.words[0].text
    is_like = is_number(said) and here.time is not None and len(said) < 10 and here.time <= int(said) * 1000 <= here.time * 2
    return ["Does it count seconds? All times count milliseconds."] if is_like else []


def _unknown_name(here: RefusedLine) -> Explanation:
    word = here.words[2]
    if word.text in here.graph.modes:
        return Explanation(f"The graph declares no node {quoted(word.text)}, but a mode of this name.", word, [here.monitored()])
    return Explanation(f"The graph declares no node {quoted(word.text)}.", word, [here.monitored()])


def _not_monitored(here: RefusedLine) -> Explanation:
    word = here.words[2]
    node = here.graph.nodes[here.graph.number_of[word.text]]
    what = "a failure mode" if node.kind == "failure" else "hidden"
    sentence = f"{quoted(word.text)} has no monitor: line {node.line} of the graph declares it as {what}."
    return Explanation(sentence, word, [here.monitored()])


def _not_a_mode(here: RefusedLine) -> Explanation:
    return Explanation(f"The graph declares no mode {quoted(here.words[2].text)}.", here.words[2], [listed("Its modes", here.graph.modes)])


def _log_full(here: RefusedLine) -> Explanation:
    return Explanation(f"A log has at most {spoken(MOST_EVENTS)} accepted lines, and this one comes after so many.", None)


def _modes_full(here: RefusedLine) -> Explanation:
    return Explanation(f"A log has at most {spoken(MOST_CHANGES)} changes of mode, and this one comes after so many.", here.words[1])


def _too_long(here: RefusedLine) -> Explanation:
    has_return = re.search(r"\r.", here.line) is not None
    hints = ["There are carriage returns in it. Only a line feed ends a line."] if has_return else []
    return Explanation(f"A line has at most {spoken(LONGEST_LINE)} bytes, and this one has {len(here.line):,}.", None, hints)


# Whether a line bears a cause, as far as it shows that by itself. How many lines were accepted before, it does not.
BEARS: Dict[str, Callable[[RefusedLine], bool]] = {
    "BadLine": lambda here: len(here.words) < 2 or "" in here.texts or COUNTS.get(here.texts[1]) != len(here.words),
    "BadNumber": lambda here: not is_number(here.texts[0]),
    "TimeTooLarge": lambda here: is_number(here.texts[0]) and number_of(here.texts[0]) > MOST_TIME,
    "TimeBack": lambda here: here.time is not None and is_number(here.texts[0]) and number_of(here.texts[0]) < here.time,
    "UnknownName": lambda here: here.texts[2] not in here.graph.number_of,
    "NotMonitored": lambda here: here.graph.node(here.texts[2]).lags is None,
    "NotAMode": lambda here: here.texts[2] not in here.graph.modes,
    "LogFull": lambda here: True,
    "ModesFull": lambda here: here.texts[1] == "mode",
    "TooLong": lambda here: len(here.line) > LONGEST_LINE,
}
SENTENCES: Dict[str, Callable[[RefusedLine], Explanation]] = {
    "BadLine": _bad_line,
    "BadNumber": _bad_number,
    "TimeTooLarge": _time_too_large,
    "TimeBack": _time_back,
    "UnknownName": _unknown_name,
    "NotMonitored": _not_monitored,
    "NotAMode": _not_a_mode,
    "LogFull": _log_full,
    "ModesFull": _modes_full,
    "TooLong": _too_long,
}

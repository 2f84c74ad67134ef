"""Why the program refuses the words of a command line."""

from __future__ import annotations

from typing import Callable, Dict, List, Sequence

from ..limits import MOST_VEHICLES, OPTIONS, Limits, spoken
from ..reading.graphs import DeclaredGraph
from ..reading.texts import Word, is_name, is_number
from .command_words import COMMANDS, Parts, parts_of, usage_of, words_in_line
from .explanations import Explanation, listed
from .forms import name_hints, number_hints, quoted

PANELS = ("top:", "count:", "json:")
FILES = ("GRAPH", "LOG", "SCRIPT")


def explain_words(words: Sequence[str], cause: str) -> Explanation:
    """Why these words are refused with this cause. All causes but `UnknownNode`, which needs the graph, are told here."""
    _, places = words_in_line(words)
    if cause == "NoCommand" or not places:
        return Explanation("There is no word. The first word is a command.", None, [_commands()])
    command = places[0]
    if cause == "UnknownCommand" or command.text not in COMMANDS:
        hints = ["The command is the first word, before all options."] if command.text.startswith("-") else []
        return Explanation(f"{quoted(command.text)} is no command.", command, hints + [_commands()])
    parts = parts_of(command.text, places[1:])
    said = SENTENCES[cause](parts) if cause in SENTENCES else _bad_words(places, parts)
    return Explanation(said.sentence, said.word, said.hints + [f"The words are `{usage_of(command.text)}`."])


def explain_node(words: Sequence[str], graph: DeclaredGraph) -> Explanation:
    """Why the last word of `predict` is refused: it names no node."""
    _, places = words_in_line(words)
    node = parts_of("predict", places[1:]).positional[2]
    return Explanation(f"The graph declares no node {quoted(node.text)}.", node, [listed("Its nodes", [one.name for one in graph.nodes])])


def graph_file(words: Sequence[str]) -> str:
    """The word that names the graph, if there is one."""
    return next(iter(files_of(words)), "")


def files_of(words: Sequence[str]) -> List[str]:
    """The words that name files which are read before the input, in their order."""
    if not words or words[0] not in COMMANDS:
        return []
    _, places = words_in_line(words)
    names = zip(COMMANDS[words[0]].positional, parts_of(words[0], places[1:]).positional)
    return [word.text for name, word in names if name in FILES]


def _commands() -> str:
    return f"The commands: {', '.join(COMMANDS)}."


def _bad_words(places: Sequence[Word], parts: Parts) -> Explanation:
    for word in places:
        try:
            word.text.encode("latin-1").decode("utf-8")
        except UnicodeDecodeError:
            return Explanation(f"{quoted(word.text)} is not UTF-8.", word)
    if parts.fault is None:
        return Explanation("The words do not fit together.")
    sentence, at, hints = parts.fault
    return Explanation(sentence, at, hints)


def _bad_number(parts: Parts) -> Explanation:
    option, word = next((option, word) for option, word in parts.values.items() if not is_number(word.text))
    if word.text == "":
        return Explanation(f"The value of `{option}` is empty.", Word(option + "=", word.start - len(option) - 1))
    return Explanation(f"The value {quoted(word.text)} of `{option}` is no number.", word, number_hints(word.text, ""))


def _out_of_range(parts: Parts) -> Explanation:
    option, word = next((option, word) for option, word in parts.values.items() if not _is_within(OPTIONS[option], word.text))
    limits = OPTIONS[option]
    return Explanation(f"`{option}` is from {limits.least} to {spoken(limits.greatest)}, and {quoted(word.text)} is not.", word,
                       [f"Without this option it is {limits.default}."])


def _is_within(limits: Limits, text: str) -> bool:
    return not is_number(text) or len(text) <= 18 and limits.least <= int(text) <= limits.greatest


def _bad_panel(parts: Parts) -> Explanation:
    word = next(word for word in parts.positional[1:] if not _is_panel(word.text))
    hints: List[str] = ["A panel is `top:FILE`, `count:FILE` or `json:FILE`."]
    if word.text in PANELS:
        hints.append("After the colon comes the name of a file.")
    elif ":" not in word.text:
        hints.append("The log is the input: `tfpg diagnose GRAPH < LOG`")
    return Explanation(f"{quoted(word.text)} comes after GRAPH, and is no panel.", word, hints)


def _is_panel(text: str) -> bool:
    return text.startswith(PANELS) and text not in PANELS


def _bad_names(parts: Parts) -> Explanation:
    whole, place = parts.positional[1], 0
    names = whole.text.split(",")
    if len(names) > MOST_VEHICLES:
        return Explanation(f"There are {len(names)} names of vehicles, and at most {MOST_VEHICLES} are possible.", whole)
    for number, name in enumerate(names):
        word = Word(name, whole.start + place)
        place += len(name) + 1
        if not is_name(name):
            sentence = f"{quoted(name)} is no name of a vehicle." if name else "A name of a vehicle is empty."
            return Explanation(sentence, word, name_hints(name))
        if name in names[:number]:
            return Explanation(f"The vehicle {quoted(name)} stands twice.", word)
    return Explanation(f"NAMES are 1 to {MOST_VEHICLES} names, no two alike, with commas between.", whole)


SENTENCES: Dict[str, Callable[[Parts], Explanation]] = {
    "BadNumber": _bad_number,
    "OutOfRange": _out_of_range,
    "BadPanel": _bad_panel,
    "BadNames": _bad_names,
}

"""The words of a command line by their places: options with their values, and positional words."""

from __future__ import annotations

from dataclasses import dataclass, field
from typing import Dict, List, Optional, Sequence, Tuple

from ..limits import OPTIONS
from ..reading.texts import Word

FLAGS = ("--trace", "--json")
TERMS = ("--k", "--doubt", "--budget")


@dataclass(frozen=True)
class Command:
    """The options of a command, and the names of its positional words. `diagnose` has panels after them."""

    options: Tuple[str, ...]
    positional: Tuple[str, ...]
    panels: bool = False


COMMANDS: Dict[str, Command] = {
    "diagnose": Command(TERMS, ("GRAPH",), True),
    "check": Command((), ("GRAPH", "LOG")),
    "explain": Command((), ("GRAPH", "LOG")),
    "simulate": Command(("--draw", "--trace"), ("GRAPH", "SCRIPT")),
    "generate": Command(("--draw", "--size"), ()),
    "convert": Command(("--json",), ("GRAPH",)),
    "ask": Command(TERMS, ("GRAPH", "LOG")),
    "fleet": Command(TERMS, ("GRAPH", "NAMES")),
    "predict": Command((*TERMS, "--ahead"), ("GRAPH", "LOG", "NODE")),
}


def usage_of(name: str) -> str:
    """The line of a command as docs/formats.md has it."""
    command = COMMANDS[name]
    options = [f"[{option}]" if option in FLAGS else f"[{option} N]" for option in command.options]
    return " ".join(["tfpg", name, *options, *command.positional, *(["[PANEL].."] if command.panels else [])])


@dataclass
class Parts:
    """The words after a command. `fault` is a sentence on the first word that does not fit, with that word and hints."""

    values: Dict[str, Word] = field(default_factory=dict)
    positional: List[Word] = field(default_factory=list)
    fault: Optional[Tuple[str, Optional[Word], List[str]]] = None


def is_option(word: str) -> bool:
    return len(word) >= 2 and word.startswith("-")


def words_in_line(words: Sequence[str]) -> Tuple[str, List[Word]]:
    """The words in one line, and where each one stands there."""
    line, places = "tfpg", []
    for word in words:
        places.append(Word(word, len(line) + 1))
        line += " " + word
    return line, places


def parts_of(name: str, words: Sequence[Word]) -> Parts:
    """The words after the command of this name, each in its place."""
    command, parts, left, has_ended = COMMANDS[name], Parts(), list(words), False
    seen: List[str] = []
    while left:
        word = left.pop(0)
        if has_ended or not is_option(word.text):
            parts.positional.append(word)
        elif word.text == "--":
            has_ended = True
        else:
            _take_option(command, name, parts, word, left, seen)
    if parts.fault is None:
        parts.fault = _positional_fault(command, name, parts)
    return parts


def _take_option(command: Command, name: str, parts: Parts, word: Word, left: List[Word], seen: List[str]) -> None:
    """Takes an option and its value from the words that are left."""
    option, equals, text = word.text.partition("=")
    fault: Optional[Tuple[str, Optional[Word], List[str]]] = None
    has_value = bool(equals) or bool(left and not is_option(left[0].text))
    if option not in command.options:
        fault = f"`{option}` is no option of {name}.", Word(option, word.start), _option_hints(command, name, option)
    elif option in seen:
        fault = f"`{option}` stands twice.", word, []
    elif option in FLAGS and equals:
        fault = f"`{option}` has no value.", word, []
    elif option not in FLAGS and not has_value:
        more = [f"`{left[0].text}` begins with `-`, so it is an option and never a value."] if left else []
        fault = f"The value of `{option}` is missing.", word, more
    seen.append(option)
    if parts.fault is None:
        parts.fault = fault
    if option in OPTIONS and equals:
        parts.values.setdefault(option, Word(text, word.start + len(option) + 1))
    elif option in OPTIONS and has_value:
        parts.values.setdefault(option, left.pop(0))


def _option_hints(command: Command, name: str, option: str) -> List[str]:
    hints = ["Options begin with two dashes."] if not option.startswith("--") else []
    others = [other for other, one in COMMANDS.items() if option in one.options]
    hints += [f"It is an option of {', '.join(others)}."] if others else []
    own = f"The options of {name}: {', '.join(command.options)}." if command.options else f"{name} has no options."
    return hints + [own, "A file whose name begins with `-` stands after `--`."]


def _positional_fault(command: Command, name: str, parts: Parts) -> Optional[Tuple[str, Optional[Word], List[str]]]:
    needed, count = command.positional, len(parts.positional)
    if count < len(needed):
        more = ["The log is the input of diagnose: `tfpg diagnose GRAPH < LOG`"] if name == "diagnose" else []
        return f"{' and '.join(needed[count:])} {'is' if len(needed) - count == 1 else 'are'} missing.", None, more
    if count > len(needed) and not command.panels:
        return f"`{parts.positional[len(needed)].text}` is one word too many.", parts.positional[len(needed)], []
    return None

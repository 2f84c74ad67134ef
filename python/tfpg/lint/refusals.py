"""A refusal of the program, with what a beginner needs to mend it, and how it is shown."""

from __future__ import annotations

import textwrap
from dataclasses import dataclass
from typing import List, Optional

from ..explaining.explanations import Explanation
from ..reading.texts import Word, shown

WIDTH = 80
BEFORE = 30  # bytes of a long line that are shown before the word at fault


@dataclass(frozen=True)
class Refusal:
    """What the program refused. `place` is a file and a line as a compiler names them; `text` is the line, if there is one."""

    place: str
    cause: str
    text: Optional[str]
    explanation: Explanation


def wrapped(text: str, indent: str = "  ") -> List[str]:
    """The lines of a paragraph. No word of it is broken."""
    return textwrap.wrap(text, WIDTH, initial_indent=indent, subsequent_indent=indent, break_long_words=False, break_on_hyphens=False)


def underlined(text: str, word: Optional[Word]) -> List[str]:
    """A line, or what fits of it, and below it the signs that underline a word."""
    room, start = WIDTH - 4, word.start if word is not None else 0
    first = 0 if len(text) <= room else max(0, start - BEFORE)
    last = min(len(text), first + room - 6)
    front, back = ("…" if first else ""), ("…" if last < len(text) else "")
    if len(text) <= room:
        last, back = len(text), ""
    lines = [f"  | {front}{shown(text[first:last])}{back}".rstrip(" ")]
    if word is not None:
        width = max(1, len(shown(text[start:min(last, word.end)])))
        lines.append("  | " + " " * (len(front) + len(shown(text[first:start]))) + "^" * width)
    return lines


def refusal_lines(refusal: Refusal) -> List[str]:
    """The lines that tell a refusal."""
    lines = [f"{refusal.place}: {refusal.cause}"]
    if refusal.text is not None:
        lines += underlined(refusal.text, refusal.explanation.word)
    for sentence in [refusal.explanation.sentence, *refusal.explanation.hints]:
        lines += wrapped(sentence)
    return lines

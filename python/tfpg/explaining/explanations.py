"""What is said of a refusal, and lists of names in it."""

from __future__ import annotations

from dataclasses import dataclass, field
from typing import Any, Dict, Iterable, List, Optional, Sequence

from ..reading.texts import Word

MOST_NAMES = 60


@dataclass(frozen=True)
class Explanation:
    """The word at fault, if it is one word, a sentence on the cause, and hints on the form."""

    sentence: str
    word: Optional[Word] = None
    hints: List[str] = field(default_factory=list)


def line_dict(line: Optional[int], cause: str, text: Optional[str], said: Explanation) -> Dict[str, Any]:
    """A line that is refused or warned of, as JSON has it in each answer and of each command. The text is as a reader sees it."""
    return {"line": line, "cause": cause, "sentence": said.sentence, "text": text, "hints": said.hints}


def listed(title: str, names: Sequence[str]) -> str:
    """Names in a list, the first of them if they are many."""
    if not names:
        return f"{title}: none."
    more = f" and {len(names) - MOST_NAMES} more" if len(names) > MOST_NAMES else ""
    return f"{title}: {', '.join(names[:MOST_NAMES])}{more}."


def join_and(words: Iterable[str]) -> str:
    """Words with commas between, and the last after `and`."""
    some = list(words)
    return ", ".join(some[:-1]) + " and " + some[-1] if len(some) > 1 else "".join(some)

"""The commands `ask`, `explain` and `predict`: the words and the output are those of the program. What the log refused, and what `never`
means, stands on standard error."""

from __future__ import annotations

import os
import sys
from typing import List, Sequence, Tuple

from ..explaining.usage import files_of
from ..inputs import subject_of
from ..program import LOST_LINES, run_program
from ..reading.subjects import Subject
from ..reading.texts import lines_of, text_of
from ..saying.times import duration_words, time_words
from ..warning.losses import loss_sentence

STRICT = "--strict"
EMPTY_SET = ["--k=0", "--budget=1"]  # which lines are refused, the empty set alone shows


def ask(words: Sequence[str]) -> int:
    """Runs the command `ask` on these words, and returns its status."""
    return answer("ask", words)


def explain(words: Sequence[str]) -> int:
    """The same of `explain`, which reads a map from the input."""
    return answer("explain", words, sys.stdin.buffer.read())


def predict(words: Sequence[str]) -> int:
    """The same of `predict`."""
    return answer("predict", words)


def answer(command: str, words: Sequence[str], given: bytes = b"") -> int:
    """Writes what the program writes. The status is that of the program, or if that is 0, lines were refused and the words are strict, one
    of its own."""
    own, is_strict = without_strict(words)
    ended = run_program([command, *own], given)
    if ended.status != 0:
        print(f"tfpg {command}: the program says: {ended.line}. `lint --words` says more", file=sys.stderr)
        _write(ended.output)
        return ended.status
    graph, log = map(_system_name, files_of([command, *map(_text_name, own)])[:2])
    subject = subject_of(graph, log, None, EMPTY_SET)
    for sentence in [loss_sentence(subject.graph, subject.lines, subject.report.refused), never_sentence(subject, text_of(ended.output))]:
        if sentence:
            print(f"tfpg {command}: {sentence}", file=sys.stderr, flush=True)
    _write(ended.output)
    return LOST_LINES if is_strict and subject.report.refused else 0


def without_strict(words: Sequence[str]) -> Tuple[List[str], bool]:
    """The words of the program, and whether `--strict` stands among them before a `--`."""
    end = list(words).index("--") if "--" in words else len(words)
    return [word for place, word in enumerate(words) if word != STRICT or place > end], STRICT in words[:end]


def never_sentence(subject: Subject, output: str) -> str:
    """By which time and in which mode a forecast means `never`, if there is one."""
    lines = lines_of(output)
    if not any(line.startswith("forecast ") and line.endswith(" never") for line in lines):
        return ""
    _, node, _, now, _, until = lines[0].split(" ")
    modes, changes = subject.graph.modes, subject.log.changes
    mode = f", while the mode stays {modes[changes[-1][1] if changes else 0]}" if len(modes) > 1 else ""
    until_words = f"{time_words(int(until))}, {duration_words(int(until) - int(now))} after the last event"
    return f"`never` means that {node} does not become active by {until_words}{mode}. A greater --ahead looks further."


def _write(output: bytes) -> None:
    """Writes bytes as they are."""
    sys.stdout.flush()
    if hasattr(sys.stdout, "buffer"):
        sys.stdout.buffer.write(output)
        sys.stdout.buffer.flush()
    else:
        sys.stdout.write(output.decode("ascii"))


def _text_name(word: str) -> str:
    return text_of(os.fsencode(word))


def _system_name(word: str) -> str:
    return os.fsdecode(word.encode("latin-1"))

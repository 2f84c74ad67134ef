"""The errors of the package, and its warning. Each error is an `Error`, and has as attributes what its message says."""

from __future__ import annotations

from typing import TYPE_CHECKING, Optional

from .limits import MOST_HYPOTHESES, spoken
from .portable import Portable

if TYPE_CHECKING:
    from .calls.answers import Refused


class Error(Portable):
    """What all errors of the package are. They go whole from one process to another."""


class NoLibrary(Error):
    """There is no library to load, or it is none of this package."""


class NoProgram(Error):
    """There is no program to run, or it did not end by itself."""


class OutOfRange(Error, ValueError):
    """A number is outside its limits."""


class BadGraph(Error, ValueError):
    """A text spells no valid graph. The line is 0 if it is none of that text."""

    def __init__(self, line: int, cause: str, text: str, sentence: str) -> None:
        place = f"line {line}: {cause}: {text}" if text else f"line {line}: {cause}"
        super().__init__(f"graph {place}\n{sentence}")
        self.line, self.cause, self.text, self.sentence = line, cause, text, sentence


class FullGraph(BadGraph):
    """A graph has 512 nodes or 2,048 edges, and `predict` needs room for one more of each. The line is 0."""


class TooManyHypotheses(Error):
    """There are more than 4,096 hypotheses; `count` says how many."""

    def __init__(self, count: int) -> None:
        super().__init__(f"there are {count:,} hypotheses, and at most {spoken(MOST_HYPOTHESES)} are possible: "
                         "use a smaller k, or a smaller doubt")
        self.count = count


class TooMuchInput(Error):
    """A text is too long."""


class NoMemory(Error, MemoryError):
    """Memory ran out. A session is closed then."""


class BadRecord(Error, ValueError):
    """A record cannot be taken into a log: its file, or nothing if it stands in none, the line there, from 1, and a sentence. The line is 0
    if it is no matter of one record."""

    def __init__(self, file: str, line: int, sentence: str) -> None:
        super().__init__(file, line, sentence)
        self.file, self.line, self.sentence = file, line, sentence

    def __str__(self) -> str:
        place = [self.file] if self.file else []
        place += [f"line {self.line}" if self.file else f"record {self.line}"] if self.line else []
        return f"{' '.join(place)}: {self.sentence}" if place else self.sentence


class SessionClosed(Error):
    """The session is closed, by a call or since memory ran out before."""


class SessionBusy(Error):
    """A call of the session came between another one of the same thread, as in a signal handler. It changed nothing, and waited for
    nothing: the other one goes on only after it."""


class OtherProcess(Error):
    """The session was opened by the process `opened`, and this one, `here`, was forked from it. It has to open a session of its own."""

    def __init__(self, opened: int, here: int) -> None:
        super().__init__(f"the session was opened by process {opened}, and this is process {here}, which was forked from it: "
                         "open a session here")
        self.opened, self.here = opened, here


class LineRefused(Error):
    """A strict call was given a line that the log refuses: `refused` says why."""

    def __init__(self, refused: "Refused") -> None:
        super().__init__(f"line {refused.line}: {refused.cause}: {refused.text}\n{refused.sentence}")
        self.refused = refused


class NotAccepted(Error):
    """A report is not accepted, or a map is none: the line of the first test that fails, the cause, and the text of that line."""

    def __init__(self, line: int, cause: str, text: str) -> None:
        super().__init__(f"line {line}: {cause}: {text}" if text else f"line {line}: {cause}")
        self.line, self.cause, self.text = line, cause, text


class LogFull(Error):
    """The log takes no further event, or no further change of the mode. A strict session says by `refused` which line it did not take;
    `ask` has no such line, and says that no further event can be asked for."""

    def __init__(self, said: str, refused: Optional["Refused"] = None) -> None:
        super().__init__(said)
        self.refused = refused


class UnknownNode(Error, LookupError):
    """The graph has no node of this name."""

    def __init__(self, name: str) -> None:
        super().__init__(f"the graph has no node {name!r}")
        self.name = name


class RefusedLines(Portable, UserWarning):
    """The log refused lines, and the answer is without them: `count` of `lines` lines, of which `first` is the first."""

    def __init__(self, count: int, lines: int, first: "Refused") -> None:
        are, they = ("is", "it says") if count == 1 else ("are", "they say")
        super().__init__(f"{count:,} of {lines:,} lines {are} refused, and the answer is without what {they}. "
                         f"The first is line {first.line}, {first.cause}: {first.text}: {first.sentence}")
        self.count, self.lines, self.first = count, lines, first

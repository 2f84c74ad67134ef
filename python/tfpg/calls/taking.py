"""What takes lines one by one, and has the answer of each: a session, or one that is renewed."""

from __future__ import annotations

from operator import index as whole
from typing import Any, AsyncIterable, AsyncIterator, Iterator, Literal, Optional, SupportsIndex, Tuple, Type, TypeVar

from .answers import Answered
from .texts import Line, Log, line_bytes, log_lines

Kind = Literal["alarm", "silent", "sweep", "tick", "mode"]
Self = TypeVar("Self", bound="Taking")


class Taking:
    """Takes lines. Each way to give them comes to `_line`."""

    def __enter__(self: Self) -> Self:
        return self

    def __exit__(self, kind: Optional[Type[BaseException]], fault: Optional[BaseException], trace: object) -> None:
        self.close()

    def __reduce__(self) -> Tuple[Any, ...]:
        raise TypeError("a session cannot be pickled, since its memory is the library's in this process: open one in the other process")

    def close(self) -> None:
        """Gives the memory back, as `Session.close`."""
        raise NotImplementedError

    def line(self, line: Line) -> Answered:
        """Takes the next line of the log, and returns its answer.

        `line` is text or bytes, with or without its line end. TypeError, if it is neither; LineRefused or LogFull, if the session is strict
        and the line is refused; SessionClosed, SessionBusy, OtherProcess and NoMemory, if there is no session to take it.

        >>> with tfpg.Session(tfpg.Graph.load("examples/pump.tfpg")) as session:
        ...     session.line("2715000 alarm LowFlow").best.set
        ...     session.line("2715001 alarm HighFlow").sentence
        'FilterClogged'
        'The graph declares no node `HighFlow`.'
        """
        return self._line(line_bytes(line))

    def rounds(self, lines: Log) -> Iterator[Answered]:
        """Takes many lines, and has the answer of each before it takes the next.

        `lines` is a text, the path of a file, an open file, or lines one after the other. After an interrupt `count` says how many were
        taken. The errors are those of `line`; ValueError, if a text looks like the name of a file; OSError, if a file cannot be read.

        >>> from pathlib import Path
        >>> with tfpg.Session(tfpg.Graph.load("examples/pump.tfpg")) as session:
        ...     [answer.line for answer in session.rounds(Path("examples/pump.log")) if isinstance(answer, tfpg.Refused)]
        [5]
        """
        return map(self._line, log_lines(lines))

    async def rounds_async(self, lines: AsyncIterable[Line]) -> AsyncIterator[Answered]:
        """Takes lines that come one after the other, in a program of `asyncio`, and has the answer of each before it reads the next.

        `lines` is an `asyncio.StreamReader`, or anything else that `async for` takes lines from. A line is taken in a thread, so the loop
        goes on meanwhile; that costs some tenth of a millisecond for each. A task that is cancelled ends once the line that it read is
        taken: its answer is in `last`, and the next one is still in the stream. The errors are those of `line`.

        >>> import asyncio
        >>> async def answers():
        ...     reader = asyncio.StreamReader()
        ...     reader.feed_data(b"600000 tick")
        ...     reader.feed_eof()
        ...     with tfpg.Session(tfpg.Graph.load("examples/pump.tfpg")) as session:
        ...         return [answer.now async for answer in session.rounds_async(reader)]
        >>> asyncio.run(answers())
        [600000]
        """
        import asyncio  # it takes longer to load than the package

        async for line in lines:
            taken = asyncio.get_running_loop().run_in_executor(None, self.line, line)
            try:
                answer = await asyncio.shield(taken)
            except asyncio.CancelledError:
                await asyncio.wait([taken])
                raise
            yield answer

    def _line(self, content: bytes) -> Answered:
        """Takes these bytes as a line."""
        raise NotImplementedError


def event_text(time: SupportsIndex, kind: str, name: str) -> str:
    """An event as a line, or TypeError."""
    if not isinstance(kind, str) or not isinstance(name, str):
        raise TypeError(f"the kind and the name of an event are str, and {kind!r} and {name!r} are not both")
    return f"{whole(time)} {kind} {name}" if name else f"{whole(time)} {kind}"

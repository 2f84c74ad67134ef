"""Rounds of lines that come one after the other, in a program of asyncio."""

import asyncio
import threading
import unittest
from unittest import mock

import tfpg
from support import EXAMPLES, library_words, tiny

LONGEST = 60  # seconds


async def reader_of(content, eof=True):
    """A stream that has these bytes."""
    reader = asyncio.StreamReader()
    reader.feed_data(content)
    if eof:
        reader.feed_eof()
    return reader


def run(task):
    """What a task returns, which does not wait for ever."""
    return asyncio.run(asyncio.wait_for(task, LONGEST))


@unittest.skipIf(library_words(), library_words())
class Rounds(unittest.TestCase):
    def test_the_same_answers(self):
        graph, log = tfpg.Graph.load(EXAMPLES / "pump.tfpg"), (EXAMPLES / "pump.log").read_bytes()

        async def answers():
            with tfpg.Session(graph) as session:
                return [answer async for answer in session.rounds_async(await reader_of(log))]
        with tfpg.Session(graph) as session:
            self.assertEqual(run(answers()), list(session.rounds(EXAMPLES / "pump.log")))

    def test_one_line_at_a_time(self):
        """The answer of a line is there before the next line is read."""
        async def task():
            said = []
            reader = await reader_of(b"5 tick\n6 ti", eof=False)
            with tfpg.RenewingSession(tfpg.Graph(tiny()), k=1) as session:
                async for answer in session.rounds_async(reader):
                    said.append((answer.now, session.count))
                    if answer.now == 5:
                        reader.feed_data(b"ck\n7 tick")
                    elif answer.now == 6:
                        reader.feed_eof()
            return said
        self.assertEqual(run(task()), [(5, 1), (6, 2), (7, 3)])

    def test_the_loop_goes_on_while_a_line_is_taken(self):
        may_end = threading.Event()

        async def task():
            with tfpg.Session(tfpg.Graph(tiny()), k=1) as session:
                with mock.patch.object(session, "line", waiting(session, may_end)):
                    rounds = session.rounds_async(await reader_of(b"5 tick\n"))
                    taken = asyncio.ensure_future(rounds.__anext__())
                    await asyncio.sleep(0.05)
                    self.assertFalse(taken.done())
                    may_end.set()
                    return (await taken).now
        self.assertEqual(run(task()), 5)

    def test_cancelled_while_a_line_is_taken(self):
        """The line has its answer in `last` once the task has ended, and the next line is still in the stream."""
        began, may_end = threading.Event(), threading.Event()

        async def rounds(session, reader):
            async for _ in session.rounds_async(reader):
                pass

        async def task():
            reader = await reader_of(b"5 tick\n6 tick\n")
            with tfpg.Session(tfpg.Graph(tiny()), k=1) as session:
                with mock.patch.object(session, "line", waiting(session, may_end, began)):
                    working = asyncio.ensure_future(rounds(session, reader))
                    while not began.is_set():
                        await asyncio.sleep(0.01)
                    working.cancel()
                    await asyncio.sleep(0.05)
                    may_end.set()
                    await asyncio.wait([working])
                self.assertTrue(working.cancelled())
                self.assertEqual((session.count, session.last.now), (1, 5))
                return [answer.now async for answer in session.rounds_async(reader)]
        self.assertEqual(run(task()), [6])

    def test_cancelled_before_a_line_came(self):
        async def rounds(session, reader):
            async for _ in session.rounds_async(reader):
                pass

        async def task():
            reader = await reader_of(b"5 ti", eof=False)
            with tfpg.Session(tfpg.Graph(tiny()), k=1) as session:
                working = asyncio.ensure_future(rounds(session, reader))
                await asyncio.sleep(0.01)
                working.cancel()
                await asyncio.wait([working])
                self.assertEqual(session.count, 0)
                reader.feed_data(b"ck\n")
                reader.feed_eof()
                return [answer.now async for answer in session.rounds_async(reader)]
        self.assertEqual(run(task()), [5])

    def test_a_strict_session(self):
        async def task():
            with tfpg.Session(tfpg.Graph(tiny()), k=1, strict=True) as session:
                return [answer async for answer in session.rounds_async(await reader_of(b"5 tick\n5 tock\n"))]
        self.assertRaises(tfpg.LineRefused, run, task())


def waiting(session, may_end, began=None):
    """The call `line` of a session, which takes so long."""
    line = type(session).line

    def take(content):
        if began is not None:
            began.set()
        may_end.wait(LONGEST)
        return line(session, content)
    return take


if __name__ == "__main__":
    unittest.main()

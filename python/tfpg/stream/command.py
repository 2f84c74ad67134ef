"""The command `stream`: the worker of one part of a fleet, until it is stopped."""

from __future__ import annotations

import argparse
import re
import signal
import sys
import time
from typing import Any, Callable, List, Sequence

import redis

from ..calls.graph import Graph
from ..calls.session import Session
from ..faults import BadGraph, Error, NoProgram, OutOfRange, TooManyHypotheses
from ..limits import MOST_EVENTS, OPTIONS
from .connecting import BadPassword, connected, fault_of_url, password_of
from .faults import NoStore, StreamFault
from .parts import NAME, Part
from .terms import SPAN, StreamTerms
from .worker import IDLE, Worker

DONE, REFUSED, BAD_WORDS, BAD_GRAPH, TOO_MANY, NOT_READ, NO_STORE = 0, 1, 2, 3, 4, 5, 70
PART = re.compile(r"(0|[1-9][0-9]{0,5})/([1-9][0-9]{0,5})")
PAUSE = 0.5  # seconds between two tries to reach Redis

DESCRIPTION = """\
Diagnoses the growing logs of one part of a fleet. It takes the lines of its vehicles from
a Redis stream, feeds the session of each, writes what changed in a ranking to another
stream under the id of the line that changed it, and acknowledges the line. It runs until
it is stopped. One worker alone may have a part at a time."""


def stream(words: Sequence[str]) -> int:
    """Runs the command on these words, and returns its status."""
    said = parser().parse_args(words)
    wrong = fault_of_url(said.redis)
    if wrong:
        print(f"tfpg stream: --redis: {wrong}", file=sys.stderr)
        return BAD_WORDS
    try:
        part, password = Part(said.part[0], said.part[1], said.name), password_of(said.password_file)
    except BadPassword as fault:
        print(f"tfpg stream: {fault}", file=sys.stderr)
        return BAD_WORDS
    terms, stop = StreamTerms(said.k, said.doubt, said.budget, said.origin, said.events, said.span), Stop()
    try:
        graph = Graph.load(said.graph)
        Session(graph, terms.k, terms.doubt, terms.budget).close()

        def worker() -> Worker:
            return Worker(connected(said.redis, part, password), part, graph, terms, said.blocks, said.trim)

        return work(worker, stop, said.once, said.patience)
    except NoProgram:
        raise
    except Error as fault:
        print(f"tfpg stream: {fault}", file=sys.stderr)
        return status_of(fault)


def status_of(fault: Error) -> int:
    """The status that says so."""
    kinds = ((NoStore, NO_STORE), (StreamFault, REFUSED), (BadGraph, BAD_GRAPH), (TooManyHypotheses, TOO_MANY), (OutOfRange, BAD_WORDS))
    return next((status for kind, status in kinds if isinstance(fault, kind)), NO_STORE)


def work(made: Callable[[], Worker], stop: Stop, once: bool, patience: float) -> int:
    """Runs a worker until it is stopped, or with `once` until no line waits. If Redis does not answer, or takes nothing, a new worker
    begins again, and after so many seconds without success it is NoStore."""
    failed_since = None
    while not stop.asked:
        try:
            worker = made()
            say(f"{worker.part.lines}: {worker.begin(lambda: stop.asked):,} lines were read again")
            while not stop.asked:
                if worker.turn(0 if once else IDLE) == 0 and once:
                    return DONE
                failed_since = None
        except redis.AuthenticationError as fault:
            raise NoStore(f"Redis does not let this worker in: {fault}") from None
        except (NoStore, redis.RedisError, OSError) as fault:
            if stop.asked:
                break
            failed_since = failed_since or time.monotonic()
            if time.monotonic() - failed_since >= patience:
                raise fault if isinstance(fault, NoStore) else NoStore(f"Redis does not answer: {fault}") from None
            say(f"{fault}; it is tried again")
            time.sleep(PAUSE)
    return DONE


def say(line: str) -> None:
    print(f"tfpg stream: {line}", file=sys.stderr, flush=True)


class Stop:
    """Whether SIGTERM or Ctrl-C asked to stop. What was taken is then finished first."""

    def __init__(self) -> None:
        self.asked = False
        for one in (signal.SIGTERM, signal.SIGINT):
            signal.signal(one, self._ask)

    def _ask(self, *_: Any) -> None:
        self.asked = True


def parser() -> argparse.ArgumentParser:
    made = argparse.ArgumentParser(prog="tfpg stream", description=DESCRIPTION, formatter_class=argparse.RawDescriptionHelpFormatter)
    made.add_argument("graph", metavar="GRAPH")
    made.add_argument("--redis", metavar="URL", required=True, help="the server, as redis://HOST:PORT, rediss:// or unix://PATH, "
                      "without a password: that is in TFPG_REDIS_PASSWORD, or in a file")
    made.add_argument("--password-file", metavar="FILE", help="the file with the password as its first line")
    made.add_argument("--part", metavar="I/N", type=part_word, required=True, help="the part: I from 0 to N - 1, of N parts")
    made.add_argument("--name", default=NAME, help=f"the name of the fleet in the names of its keys ({NAME})")
    for name in ("k", "doubt", "budget"):
        made.add_argument(f"--{name}", metavar="N", type=int, default=OPTIONS[f"--{name}"].default, help="as diagnose has it")
    made.add_argument("--origin", metavar="MS", type=int, default=0, help="what is subtracted from the time of each line (0)")
    made.add_argument("--events", metavar="N", type=number_from(1, MOST_EVENTS), default=MOST_EVENTS,
                      help=f"after how many events of a vehicle its session is made anew ({MOST_EVENTS})")
    made.add_argument("--span", metavar="N", type=number_from(1, 10**12), default=SPAN,
                      help=f"how many lines of the part a restart reads at most ({SPAN})")
    made.add_argument("--blocks", action="store_true", help="write the block of each line's report too")
    made.add_argument("--trim", action="store_true", help="remove lines from the stream that no restart needs")
    made.add_argument("--once", action="store_true", help="end when no line waits")
    made.add_argument("--patience", metavar="S", type=float, default=60, help="for how many seconds a server that is gone is tried (60)")
    return made


def part_word(word: str) -> List[int]:
    said = PART.fullmatch(word)
    if said is None or int(said[1]) >= int(said[2]):
        raise argparse.ArgumentTypeError("a part is I/N with I from 0 to N - 1, as 0/8")
    return [int(said[1]), int(said[2])]


def number_from(least: int, greatest: int) -> Callable[[str], int]:
    """The reader of a number within these limits."""
    def number(word: str) -> int:
        if not word.isdigit() or not least <= int(word) <= greatest:
            raise argparse.ArgumentTypeError(f"a number from {least:,} to {greatest:,}")
        return int(word)
    return number

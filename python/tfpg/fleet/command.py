"""The command `fleet`: it diagnoses the logs of many vehicles, and says which are the worst and which sets explain them."""

from __future__ import annotations

import argparse
import contextlib
import hashlib
import importlib
import signal
import sqlite3
import sys
from concurrent.futures import Executor
from pathlib import Path
from typing import Any, Dict, Iterable, Iterator, List, Optional, Sequence

from ..calls.graph import Graph
from ..calls.session import Session
from ..faults import BadGraph, Error, NoProgram, OutOfRange, TooManyHypotheses
from ..limits import OPTIONS
from .faults import WorkersLost
from .folder import BASE, Folder, FolderInUse
from .logs import BadLogs, logs_of
from .results import Result
from .spreading import diagnose
from .summary import Summary
from .table import json_lines, table_lines

DONE, NOT_ACCEPTED, BAD_WORDS, BAD_GRAPH, TOO_MANY, NOT_READ, NOT_WRITTEN, LOST, INTERRUPTED = 0, 1, 2, 3, 4, 5, 6, 70, 130
ROWS = 20
SECONDS = 10  # for which a scheduler is waited for

DESCRIPTION = """\
Diagnoses the logs of many vehicles of one graph, each by itself, and says in the end which
vehicles are the worst, and which sets explain how many. LOGS are files, folders with files
that end in .log, and @FILE for a list of both, or - for a list on the standard input. A
vehicle has the name of its file without .log."""


def fleet(words: Sequence[str]) -> int:
    """Runs the command on these words, and returns its status."""
    made = parser()
    said = made.parse_args(words)
    if said.resume and not said.out:
        made.error("--resume goes on with a folder: say --out FOLDER")
    try:
        graph, logs = Graph.load(said.graph), logs_of(said.logs)
        Session(graph, said.k, said.doubt, said.budget).close()
        return run(said, graph, logs)
    except NoProgram:
        raise
    except (BadLogs, FolderInUse) as fault:
        return told(str(fault), BAD_WORDS)
    except Error as fault:
        return told(str(fault), status_of(fault))


def run(said: argparse.Namespace, graph: Graph, logs: Dict[str, Path]) -> int:
    """Diagnoses these logs, and returns the status."""
    try:
        begun = Run(said, graph, logs)
    except (OSError, sqlite3.OperationalError) as fault:
        return told(f"{said.out}: {getattr(fault, 'strerror', None) or fault}", NOT_WRITTEN)
    return begun.run()


def told(line: str, status: int) -> int:
    print(f"tfpg fleet: {line}", file=sys.stderr)
    return status


def status_of(fault: Error) -> int:
    """The status that says so."""
    kinds = ((BadGraph, BAD_GRAPH), (TooManyHypotheses, TOO_MANY), (OutOfRange, BAD_WORDS))
    return next((status for kind, status in kinds if isinstance(fault, kind)), LOST)


class Run:
    """A run of the command: what it was asked, and the summary that it makes."""

    def __init__(self, said: argparse.Namespace, graph: Graph, logs: Dict[str, Path]) -> None:
        self.said, self.graph, self.logs = said, graph, logs
        self.terms = {"graph": hashlib.sha256(graph.text).hexdigest(), "k": said.k, "doubt": said.doubt, "budget": said.budget}
        self.folder = Folder(Path(said.out), self.terms, said.resume) if said.out else None
        self.summary = Summary(Path(said.out, BASE) if said.out else None)
        self.status = DONE

    def run(self) -> int:
        """Diagnoses what is to be done, and says what came of it, also if it is interrupted."""
        signal.signal(signal.SIGTERM, signal.default_int_handler)
        try:
            self.diagnose(self.kept())
        except KeyboardInterrupt:
            self.status = told(f"stopped; {self.left()}", INTERRUPTED)
        except WorkersLost as fault:
            self.status = told(f"{fault}; {self.left()}", LOST)
        except (OSError, sqlite3.OperationalError) as fault:
            said = f"{fault.filename or self.said.out}: {fault.strerror}" if isinstance(fault, OSError) else f"{self.said.out}: {fault}"
            return told(f"{said}; {self.left()}", NOT_WRITTEN)
        finally:
            if self.folder is not None:
                self.folder.close()
        return self.tell()

    def left(self) -> str:
        """What an interrupted run leaves."""
        done = self.summary.rows("select count(*) from vehicles")[0][0]
        return f"{done:,} of {len(self.logs):,} vehicles are done" + ("; --resume goes on" if self.folder is not None else "")

    def kept(self) -> List[str]:
        """The vehicles that need not be diagnosed again. The summary has them then."""
        if self.folder is None:
            return []
        lines = [line for line in map(self.line_before, self.logs) if line is not None]
        with uninterrupted():
            self.folder.begin(lines)
            for line in lines:
                self.summary.add(line)
        return [line["vehicle"] for line in lines]

    def line_before(self, vehicle: str) -> Optional[Dict[str, Any]]:
        """The line of a vehicle that an earlier run wrote, if it holds now."""
        assert self.folder is not None
        if vehicle not in self.folder.before:
            return None
        with contextlib.suppress(OSError):
            return self.folder.kept(vehicle, hashlib.sha256(self.logs[vehicle].read_bytes()).hexdigest(), self.said.check)
        return None

    def diagnose(self, kept: Sequence[str]) -> None:
        """Diagnoses the others, and takes each result as it comes."""
        left_out = set(kept)
        logs = {vehicle: path for vehicle, path in self.logs.items() if vehicle not in left_out}
        said = self.said
        with contextlib.ExitStack() as stack:
            executor = stack.enter_context(dask(said.scheduler)) if said.scheduler else None
            results = diagnose(self.graph, logs, k=said.k, doubt=said.doubt, budget=said.budget, executor=executor, workers=said.workers,
                               reports=bool(said.out), check=said.check)
            stack.callback(results.close)
            for result in shown(results, len(logs)):
                self.take(result)

    def take(self, result: Result) -> None:
        """Writes a result, and takes it into the summary."""
        if result.fault:
            status = NOT_READ if not result.log else NOT_ACCEPTED
            self.status = self.status or told(f"{result.vehicle}: {result.fault}", status)
        with uninterrupted():
            self.summary.add(self.folder.add(result) if self.folder is not None else {**result.to_dict(), **self.terms})

    def tell(self) -> int:
        """Stores the summary, writes the table, which nobody may read to its end, and returns the status."""
        most = len(self.logs) + 1 if self.said.all else ROWS
        lines = list(json_lines(self.summary) if self.said.json else table_lines(self.summary, most))
        try:
            self.summary.close()
        except sqlite3.OperationalError as fault:
            self.status = told(f"{self.said.out}: {fault}; {self.left()}", NOT_WRITTEN)
        print(*lines, sep="\n")
        return self.status


@contextlib.contextmanager
def uninterrupted() -> Iterator[None]:
    """Lets an interrupt come after what is done within, so that a vehicle stands in both summaries or in none."""
    came: List[int] = []
    before = {sent: signal.signal(sent, lambda number, _: came.append(number)) for sent in (signal.SIGINT, signal.SIGTERM)}
    try:
        yield
    finally:
        for sent, handler in before.items():
            signal.signal(sent, handler)
    if came:
        raise KeyboardInterrupt


def shown(results: Iterable[Result], total: int) -> Iterable[Result]:
    """The results, with progress on a terminal."""
    if not sys.stderr.isatty():
        return results
    try:
        from tqdm import tqdm
    except ImportError:
        print("tfpg fleet: there is no bar of progress, since the module tqdm is missing: on Debian it is the package python3-tqdm",
              file=sys.stderr)
        return results
    bar: Iterable[Result] = tqdm(results, total=total, unit=" vehicles", smoothing=0)
    return bar


@contextlib.contextmanager
def dask(address: str) -> Iterator[Executor]:
    """The executor of the scheduler at this address."""
    try:
        distributed: Any = importlib.import_module("distributed")
    except ImportError:
        raise WorkersLost("--scheduler needs the module distributed: on Debian it is the package python3-distributed, for "
                          "/usr/bin/python3") from None
    try:
        client = distributed.Client(address, timeout=SECONDS, set_as_default=False)
    except (OSError, ValueError) as fault:
        raise WorkersLost(f"no scheduler answers at {address}: {fault}") from None
    try:
        yield client.get_executor(pure=False)
    finally:
        client.close(timeout=SECONDS)


def parser() -> argparse.ArgumentParser:
    made = argparse.ArgumentParser(prog="tfpg fleet", description=DESCRIPTION, formatter_class=argparse.RawDescriptionHelpFormatter)
    made.add_argument("graph", metavar="GRAPH")
    made.add_argument("logs", metavar="LOGS", nargs="+")
    for name in ("k", "doubt", "budget"):
        made.add_argument(f"--{name}", metavar="N", type=int, default=OPTIONS[f"--{name}"].default, help="as diagnose has it")
    where = made.add_mutually_exclusive_group()
    where.add_argument("--scheduler", metavar="ADDRESS", help="the address of a scheduler of Dask, whose workers do the work")
    where.add_argument("--workers", metavar="N", type=workers_word,
                       help="how many processes do the work; without it one for each processor")
    made.add_argument("--out", metavar="FOLDER", help="write the report of each vehicle, summary.jsonl and summary.sqlite there")
    made.add_argument("--check", action="store_true", help="judge each report by check, in another process than made it")
    made.add_argument("--resume", action="store_true", help="do only what FOLDER has not, or has of another log, graph or terms")
    made.add_argument("--json", action="store_true",
                      help="write a line of JSON for each vehicle, and one with the sets, in place of the table")
    made.add_argument("--all", action="store_true", help=f"show all vehicles and sets in the table, and not {ROWS}")
    return made


def workers_word(word: str) -> int:
    if not word.isdigit() or not 1 <= int(word) <= 1024:
        raise argparse.ArgumentTypeError("a number from 1 to 1024")
    return int(word)

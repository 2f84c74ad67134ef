"""What a worker does: it diagnoses a bundle of logs, or judges the reports of a bundle that another process made."""

from __future__ import annotations

import os
import pickle
import signal
import socket
import subprocess
import sys
import time
import zlib
from dataclasses import replace
from functools import lru_cache
from pathlib import Path
from typing import List, NamedTuple, Optional, Tuple

from ..calls.endings import About, Terms, fault_of
from ..calls.graph import Graph
from ..calls.layouts import Status
from ..calls.library import library
from ..calls.texts import counted
from ..faults import NoMemory, NotAccepted, TooMuchInput
from .one_log import GZIP, result_of
from .results import Result

Logs = Tuple[Tuple[str, bytes], ...]


class Bundle(NamedTuple):
    """Logs that go to a worker together, by the names of their vehicles, and what is asked of them."""

    logs: Logs
    terms: Terms
    keeps_reports: bool


class Done(NamedTuple):
    """What comes of a bundle: its results, the process that made them, and for how many seconds it worked."""

    results: List[Result]
    maker: str
    seconds: float


held: List[bytes] = []  # the graph of a worker of the own pool


def hold_graph(text: bytes) -> None:
    """Begins a worker of the own pool: it holds the graph, and leaves Ctrl-C to the process that spreads the work."""
    held[:] = [text]
    signal.signal(signal.SIGINT, signal.SIG_IGN)


@lru_cache(maxsize=4)
def graph_of(text: bytes) -> Graph:
    """The graph of a text, which a worker reads once."""
    return Graph(text)


def this_process() -> str:
    """A name for this process, of all that may work for a fleet."""
    return f"{socket.gethostname()} {os.getpid()}"


def diagnose_bundle(text: Optional[bytes], bundle: Bundle) -> Done:
    """Diagnoses the logs of a bundle by a graph of this text, or by that which the worker holds."""
    graph, start = graph_of(held[0] if text is None else text), time.perf_counter()
    results = [diagnosed(graph, vehicle, log, bundle) for vehicle, log in bundle.logs]
    return Done(results, this_process(), time.perf_counter() - start)


def diagnosed(graph: Graph, vehicle: str, log: bytes, bundle: Bundle) -> Result:
    """The result of a vehicle, or why there is none."""
    try:
        return result_of(graph, vehicle, log, bundle.terms, bundle.keeps_reports)
    except (NoMemory, TooMuchInput) as fault:
        return Result(vehicle, fault=str(fault))


def judge_bundle(text: Optional[bytes], bundle: Bundle, done: Done) -> Done:
    """Judges the reports of a bundle by `check`. If they were made in this process, it has a new one judge them."""
    start, graph = time.perf_counter(), held[0] if text is None else text
    judge = judged_elsewhere if done.maker == this_process() else judged
    return Done(judge(graph, bundle.logs, done.results), this_process(), time.perf_counter() - start)


def judged(text: bytes, logs: Logs, results: List[Result]) -> List[Result]:
    """The results with what `check` says of each report."""
    return [one if one.fault else verdict(graph_of(text), log, one) for (_, log), one in zip(logs, results)]


def verdict(graph: Graph, log: bytes, result: Result) -> Result:
    """A result with what `check` says of its report."""
    report = zlib.decompress(result.compressed, GZIP)
    answer = library().check(*counted(graph.text), *counted(log), *counted(report))
    if answer.status == Status.DONE:
        return replace(result, checked=int(answer.count))
    fault = fault_of(answer, About(graph, judged=report))
    return replace(result, fault=f"its report is not {'accepted' if isinstance(fault, NotAccepted) else 'judged'}: {fault}")


def judged_elsewhere(text: bytes, logs: Logs, results: List[Result]) -> List[Result]:
    """The same, by a process that is begun for it."""
    package = str(Path(__file__).resolve().parents[2])
    path = os.pathsep.join([package, *filter(None, [os.environ.get("PYTHONPATH")])])
    ended = subprocess.run([sys.executable, "-c", "from tfpg.fleet.tasks import judge_input; judge_input()"], check=True,
                           env={**os.environ, "PYTHONPATH": path}, input=pickle.dumps((text, logs, results)), stdout=subprocess.PIPE)
    found: List[Result] = pickle.loads(ended.stdout)
    return found


def judge_input() -> None:
    """Judges the bundle on the standard input, and writes its results to the standard output."""
    sys.stdout.buffer.write(pickle.dumps(judged(*pickle.load(sys.stdin.buffer))))

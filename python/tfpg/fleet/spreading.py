"""Spreads the logs of a fleet over an executor. The executor schedules, moves data and, if it can, tries again: nothing of that is here.

Logs go in bundles, so that a task takes a tenth of a second or more. How many fit into a bundle is learned from those that came back."""

from __future__ import annotations

import multiprocessing
import os
import sys
from collections import deque
from concurrent.futures import FIRST_COMPLETED, CancelledError, Executor, Future, ProcessPoolExecutor, wait
from concurrent.futures.process import BrokenProcessPool
from contextlib import contextmanager
from dataclasses import replace
from statistics import median
from subprocess import CalledProcessError
from typing import Any, Deque, Dict, Generator, Iterable, Iterator, List, Mapping, Optional, Tuple, Union

from ..calls.endings import Terms
from ..calls.graph import Graph
from ..calls.session import Session
from ..calls.texts import Log, log_bytes
from .faults import WorkersLost
from .results import Result
from .tasks import Bundle, Done, diagnose_bundle, hold_graph, judge_bundle

FleetLogs = Union[Mapping[str, Log], Iterable[Tuple[str, Log]]]

SECONDS = 0.2  # that a task is to take
OPENING = 400  # bytes of log that take as long as to open a session
FIRST_WEIGHT, MOST_WEIGHT = 1 << 15, 1 << 22  # of a bundle: its bytes, and OPENING for each log
FIRST_TASKS, MOST_TASKS = 8, 256  # that are out at once, before the first one is back and after


def diagnose(graph: Graph, logs: FleetLogs, *, k: int = 2, doubt: int = 0, budget: int = 1000, executor: Optional[Executor] = None,
             workers: Optional[int] = None, reports: bool = False, check: bool = False,
             tasks: int = MOST_TASKS) -> Generator[Result, None, None]:
    """Diagnoses the logs of many vehicles of one graph, and yields a Result for each, as they come.

    The logs are a mapping from the names of vehicles to logs, or pairs of both, which are taken as they are needed; a log is a text, a path
    or its lines. The executor is any of `concurrent.futures`; without one there is a pool of so many worker processes, one for each
    processor if none are said. Where it starts new processes of Python, as that pool does, a script guards its work by
    `if __name__ == "__main__":`. With `reports` each result has its report, and with `check` each report is judged by `check`, in another
    process than made it. At most `tasks` bundles are out at once: take twice the number of workers or more.

    A log that cannot be read has a result with its `fault`. Errors: those of `Session` for the graph and the terms, ValueError for a
    vehicle that comes twice, and WorkersLost if the executor loses its workers; then the results so far have been yielded."""
    terms = Terms(k, doubt, budget)
    Session(graph, k, doubt, budget).close()
    with engine(executor, graph, workers) as (used, text):
        yield from Spread(used, text, terms, reports, check, tasks).results(logs)


@contextmanager
def engine(executor: Optional[Executor], graph: Graph, workers: Optional[int]) -> Iterator[Tuple[Executor, Any]]:
    """The executor, and what each task is given for the graph. Workers of the own pool hold it from their start. Dask sends what it holds
    to each worker once. With other executors it goes along, and each worker reads it once."""
    if executor is not None:
        yield executor, held_by_dask(executor, graph.text)
        return
    # Workers are started from a process without threads, since the library may not be called in a fork of one with threads.
    pool = ProcessPoolExecutor(workers or os.cpu_count(), multiprocessing.get_context("forkserver"), hold_graph, (graph.text,))
    try:
        yield pool, None
    except BaseException:  # also an interrupt, and a caller that takes no further result
        end(pool)
        raise
    finally:
        pool.shutdown(wait=True, cancel_futures=True)


def end(pool: ProcessPoolExecutor) -> None:
    """Ends the workers of a pool, so that nothing waits for a long log, nor for tasks that nobody takes any more. Before Python 3.11.5 a
    pool whose worker died while it was given a large task waits for ever, unless this end of the pipe is closed; from then on the pool
    closes it, and to close it twice at a time is an error."""
    for worker in list((pool._processes or {}).values()):
        worker.terminate()
    queue: Any = getattr(pool, "_call_queue", None)
    if queue is not None and sys.version_info < (3, 11, 5):
        queue._reader.close()


def held_by_dask(executor: Executor, text: bytes) -> Any:
    """A future of a text, if the executor is Dask's, or else the text itself."""
    client = getattr(executor, "_client", None) if type(executor).__module__.startswith("distributed.") else None
    return text if client is None else client.submit(bytes, text)


class Spread:
    """The tasks of a fleet that are out."""

    def __init__(self, executor: Executor, text: Any, terms: Terms, reports: bool, check: bool, tasks: int) -> None:
        self.executor, self.text, self.terms, self.reports, self.check, self.tasks = executor, text, terms, reports, check, tasks
        self.out: Dict["Future[Done]", Tuple[Bundle, bool]] = {}  # the bundle of each, and whether it is judged there
        self.weights: Deque[float] = deque(maxlen=15)  # that were done in a second, by the last bundles

    def results(self, logs: FleetLogs) -> Iterator[Result]:
        """The results of these logs as they come."""
        try:
            for bundle, unread in self.bundles(logs):
                yield from unread
                if bundle.logs:
                    self.submit(bundle)
                while len(self.out) >= (self.tasks if self.weights else min(self.tasks, FIRST_TASKS)):
                    yield from self.done()
            while self.out:
                yield from self.done()
        finally:
            for future in self.out:
                future.cancel()

    def submit(self, bundle: Bundle, done: Optional[Done] = None) -> None:
        """Hands a bundle to the executor, to be diagnosed, or to be judged if that is done."""
        try:
            future = (self.executor.submit(diagnose_bundle, self.text, bundle) if done is None else
                      self.executor.submit(judge_bundle, self.text, bundle, done))
        except BrokenProcessPool as fault:
            raise lost(bundle, fault) from None
        self.out[future] = bundle, done is not None

    def done(self) -> Iterator[Result]:
        """Waits for a task, and yields the results of those that are done. What failed comes last."""
        for future in sorted(wait(self.out, return_when=FIRST_COMPLETED).done, key=has_failed):
            bundle, is_judged = self.out.pop(future)
            answer = answer_of(future, bundle)
            if not is_judged:
                self.weights.append(weight_of(bundle) / max(answer.seconds, 1e-6))
            if self.check and not is_judged:
                self.submit(bundle, answer)
            else:
                yield from answer.results if self.reports else (replace(one, compressed=b"") for one in answer.results)

    def bundles(self, logs: FleetLogs) -> Iterator[Tuple[Bundle, List[Result]]]:
        """The bundles of these logs, each with the results of vehicles whose logs could not be read."""
        named, weight, unread = set(), 0.0, []
        taken: List[Tuple[str, bytes]] = []
        for vehicle, log in logs.items() if isinstance(logs, Mapping) else logs:
            if vehicle in named:
                raise ValueError(f"the vehicle {vehicle!r} comes twice")
            named.add(vehicle)
            try:
                taken.append((vehicle, log_bytes(log)))
            except OSError as fault:
                unread.append(Result(vehicle, fault=f"its log is not read: {fault.strerror or fault}"))
                continue
            weight += OPENING + len(taken[-1][1])
            if weight >= self.fitting():
                yield self.bundle(taken), unread
                taken, unread, weight = [], [], 0.0
        yield self.bundle(taken), unread

    def bundle(self, logs: List[Tuple[str, bytes]]) -> Bundle:
        return Bundle(tuple(logs), self.terms, self.reports or self.check)

    def fitting(self) -> float:
        """What a bundle weighs at least, if it is not the last."""
        return min(median(self.weights) * SECONDS, MOST_WEIGHT) if self.weights else FIRST_WEIGHT


def has_failed(future: "Future[Done]") -> bool:
    return future.cancelled() or future.exception() is not None


def weight_of(bundle: Bundle) -> float:
    """How heavy a bundle is, in bytes."""
    return float(sum(OPENING + len(log) for _, log in bundle.logs))


def answer_of(future: "Future[Done]", bundle: Bundle) -> Done:
    """The answer of a task, or WorkersLost."""
    try:
        return future.result()
    except (BrokenProcessPool, CancelledError, CalledProcessError) as fault:  # the last of a process that was begun to judge
        raise lost(bundle, fault) from None
    except Exception as fault:
        if type(fault).__name__ != "KilledWorker":  # Dask's, which is not loaded here
            raise
        raise lost(bundle, fault) from None


def lost(bundle: Bundle, fault: BaseException) -> WorkersLost:
    """What is said where workers are gone."""
    what = {"CancelledError": "the scheduler or its workers are gone",
            "KilledWorker": "each worker that took the same logs ended by itself"}
    vehicles = ", ".join(name for name, _ in bundle.logs[:3]) + (" .." if len(bundle.logs) > 3 else "")
    return WorkersLost(f"{what.get(type(fault).__name__, 'a worker process ended by itself')}; not done are {vehicles} and all that was to "
                       f"come after")

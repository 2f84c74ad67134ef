#!/usr/bin/env python3
"""Times a line of a session from Python, beside the library's call alone.

    bench/session.py [LINES]

For each log it prints the microseconds of processor time that a line takes, the least of five runs over LINES lines, 10,000 without the
word: of `tfpg_event` alone, with words that are made before and no look at what came of it; of `event` with its Round; and of `rounds`
over lines as bytes. The logs are those of the examples, or none, and then ticks. "64 failure modes" has 512 nodes and 2,048 edges, two
alarms, and `k` 1. It needs the library, which python/build-library makes.
"""
import argparse
import ctypes
import random
from resource import RUSAGE_SELF

from diagnose import large_graph
from lib import TOP
from lib.timing import measured

import tfpg
from tfpg.calls.layouts import EventKind
from tfpg.limits import MOST_TIME

RUNS = 5


def logs():
    """The name of each log, its graph, its terms, and the lines before the ticks."""
    pump, satellite = (tfpg.Graph.load(TOP / "examples" / f"{name}.tfpg") for name in ("pump", "satellite"))
    large = tfpg.Graph(large_graph(random.Random(7)))
    yield "pump, nothing ranked but the empty set", pump, {}, []
    yield "pump", pump, {}, (TOP / "examples" / "pump.log").read_bytes().splitlines()
    yield "satellite", satellite, {}, (TOP / "examples" / "satellite-relay.log").read_bytes().splitlines()
    yield "64 failure modes", large, {"k": 1}, [f"900 alarm {node}".encode() for node in large.monitored[:2]]


def least(graph, terms, begun, take):
    """The least of the times of a line that some runs take. Each has a session of its own."""
    times = []
    for _ in range(RUNS):
        with tfpg.Session(graph, **terms) as session:
            last = max([answer.now for answer in session.rounds(begun) if isinstance(answer, tfpg.Round)], default=0)
            run, count = take(session, last)
            times.append(measured(run, RUSAGE_SELF)[1] / count)
    return min(times) * 1e6


def main():
    reader = argparse.ArgumentParser(description=__doc__, formatter_class=argparse.RawDescriptionHelpFormatter)
    reader.add_argument("lines", nargs="?", type=int, default=10000, metavar="LINES")
    count = reader.parse_args().lines

    def by_call(session, last):
        call, handle = session._calls.event, session._session
        words = [(ctypes.c_uint64(now), ctypes.c_uint32(EventKind.TICK), ctypes.c_uint32()) for now in range(last, last + count)]

        def run():
            for one in words:
                call(handle, *one)
        return run, count

    def by_event(session, last):
        def run():
            for now in range(last, last + count):
                session.event(now, "tick")
        return run, count

    def by_rounds(session, last):
        lines = [b"%d tick" % now for now in range(last, last + count)]

        def run():
            for _ in session.rounds(lines):
                pass
        return run, count

    print("| Log | Ranked | Call alone | `event` | `rounds` |\n|---|---|---|---|---|")
    for name, graph, terms, begun in logs():
        with tfpg.Session(graph, **terms) as session:
            ranked = len([*session.rounds(begun), session.event(MOST_TIME, "tick")][-1].ranked)
        times = [f"{least(graph, terms, begun, take):.1f}" for take in (by_call, by_event, by_rounds)]
        print(f"| {name} | {ranked} | {' | '.join(times)} |", flush=True)


if __name__ == "__main__":
    main()

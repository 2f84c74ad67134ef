#!/usr/bin/env python3
"""Draws banded graphs and the logs of simulated runs on them.

    bench/banded.py [--sizes N..] [--chain] [--backwards] FOLDER [DRAWS]

For 40, 60 and 150 nodes, or the sizes that are told, and each draw from 0 on (24 without the second word) it writes NODES-DRAW.tfpg and
NODES-DRAW.log into the folder, in the formats of docs/formats.md, and NODES-DRAW.true with the failure modes that started in the run. Equal
words give equal bytes, with any Python 3 whose `random.Random` is that of 3.2 or later. With --backwards all nodes and edges are declared in
the other order, from effect to cause.

- The graph: each node stands in a band. It has two to four edges, from the 8 to 12 nodes before it. The first four nodes are failure
  modes. Of the others 85 in 100 are OR nodes and a fifth is monitored. Seven edges in ten are active in
  all of three modes, and one in twenty has no greatest delay.
- With --chain: each node has an edge from the one before it, every third is an AND node with one from the node before that too, and three
  in ten of the others have one from the third before. Nine edges in ten are active in all modes.
- The log: one or two failure modes start. Two to four changes of mode. Each node becomes active by the rules, after a delay of its own
  over each edge. Alarms come within their lags. Monitored nodes are asked now and then while they are not active, and are silent. The
  last line is a tick.
"""

import argparse
import random
import sys
from pathlib import Path

SIZES = (40, 60, 150)
MODES = ("A", "B", "C")
FAILURES = 4


def draw_graph(draws, count, failures=FAILURES):
    """The nodes, as (name, kind, lag or None), and the edges, as (source, target, tmin, tmax or None, modes)."""
    band = draws.randint(8, 12)
    nodes, edges = [], []
    for node in range(count):
        if node < failures:
            nodes.append((f"F{node}", "failure", None))
            continue
        kind = "or" if draws.random() < 0.85 else "and"
        lag = draws.randint(0, 6) if draws.random() < 0.2 else None
        nodes.append((f"N{node}", kind, lag))
        before = range(max(0, node - band), node)
        for source in sorted(draws.sample(before, min(len(before), draws.randint(2, 4)))):
            tmin = draws.randint(0, 5)
            tmax = None if draws.random() < 0.05 else tmin + draws.randint(0, 12)
            active = MODES if draws.random() < 0.7 else tuple(sorted(draws.sample(MODES, draws.randint(1, 2))))
            edges.append((source, node, tmin, tmax, active))
    return nodes, edges


def draw_chain(draws, count, failures=FAILURES):
    """The same of a chain, which all failure modes lead to."""
    nodes, edges = [(f"F{node}", "failure", None) for node in range(failures)], []
    for node in range(failures, count):
        kind = "and" if node % 3 == 0 and node > failures + 2 else "or"
        nodes.append((f"N{node}", kind, draws.randint(0, 6) if draws.random() < 0.2 else None))
        sources = [node - 1]
        if node == failures:
            sources = range(failures)
        elif kind == "and":
            sources = [node - 2, node - 1]
        elif draws.random() < 0.3 and node - 3 >= failures:
            sources = [node - 3, node - 1]
        for source in sources:
            tmin = draws.randint(0, 5)
            active = MODES if draws.random() < 0.9 else tuple(sorted(draws.sample(MODES, 2)))
            edges.append((source, node, tmin, tmin + draws.randint(0, 12), active))
    return nodes, edges


def reversed_graph(nodes, edges):
    """The same graph, declared from its last node and edge to its first."""
    last = len(nodes) - 1
    return nodes[::-1], [(last - source, last - target, *others) for source, target, *others in edges[::-1]]


def graph_text(nodes, edges):
    lines = ["tfpg 1", *[f"mode {mode}" for mode in MODES]]
    for name, kind, lag in nodes:
        if kind == "failure":
            lines.append(f"failure {name} {1 + len(name)}")
        else:
            lines.append(f"{kind} {name} {'hidden' if lag is None else f'watch {lag}'}")
    for source, target, tmin, tmax, active in edges:
        words = "*" if active == MODES else ",".join(active)
        lines.append(f"edge {nodes[source][0]} {nodes[target][0]} {tmin} {'inf' if tmax is None else tmax} {words}")
    return "\n".join([*lines, "end"]) + "\n"


def run(draws, nodes, edges, starts, changes, end):
    """The time at which each node becomes active, or None, instant by instant."""
    delay = [draws.randint(tmin, tmin + 15 if tmax is None else tmax) for _, _, tmin, tmax, _ in edges]
    incoming = [[] for _ in nodes]
    for index, edge in enumerate(edges):
        incoming[edge[1]].append(index)
    times, since, mode = [None] * len(nodes), [None] * len(edges), 0
    for instant in range(end + 1):
        for at, to in changes:
            if at + 1 == instant:
                mode = to
        for index, edge in enumerate(edges):
            if MODES[mode] not in edge[4]:
                since[index] = None
            elif since[index] is None:
                since[index] = instant
        for node, (_, kind, _) in enumerate(nodes):
            if times[node] is not None:
                continue
            arrived = []
            for index in incoming[node]:
                began = times[edges[index][0]]
                arrived.append(since[index] is not None and began is not None and instant - max(began, since[index]) >= delay[index])
            if starts.get(node) == instant if kind == "failure" else (any if kind == "or" else all)(arrived):
                times[node] = instant
    return times


def draw_log(draws, nodes, edges, count):
    """The log of a run, and the failure modes that started in it."""
    failures = [node for node, (_, kind, _) in enumerate(nodes) if kind == "failure"]
    end = count + draws.randint(20, 40)
    first = draws.choice(failures)
    starts = {first: draws.randint(1, 10)}
    if draws.random() < 0.5:
        starts[draws.choice([node for node in failures if node != first])] = draws.randint(1, end // 2)
    changes = sorted((draws.randint(5, end - 5), draws.randrange(3)) for _ in range(draws.randint(2, 4)))
    times = run(draws, nodes, edges, starts, changes, end)
    timed = [(at, 0, f"{at} mode {MODES[to]}") for at, to in changes]
    for node, (name, _, lag) in enumerate(nodes):
        if lag is None:
            continue
        if times[node] is not None:
            at = times[node] + draws.randint(0, lag)
            if at <= end:
                timed.append((at, 1, f"{at} alarm {name}"))
        # A silence at T says that the node is not active at T.
        last = (end if times[node] is None else times[node] - 1)
        for _ in range(draws.randint(0, 2)):
            if last >= 1:
                at = draws.randint(max(1, last - 40), last)
                timed.append((at, 2, f"{at} silent {name}"))
    timed.append((end, 3, f"{end} tick"))
    lines = [line for _, _, line in sorted(timed)]
    return "\n".join(lines) + "\n", [nodes[node][0] for node in sorted(starts)]


def drawn(count, draw, failures=FAILURES, chain=False, backwards=False):
    """The graph text, the log text and the failure modes that started, of one draw with so many failure modes."""
    draws = random.Random(1000 * count + draw)
    nodes, edges = (draw_chain if chain else draw_graph)(draws, count, failures)
    if backwards:
        nodes, edges = reversed_graph(nodes, edges)
    log, true = draw_log(draws, nodes, edges, 6 * count if chain else count)
    return graph_text(nodes, edges), log, true


def main():
    reader = argparse.ArgumentParser(description=__doc__, formatter_class=argparse.RawDescriptionHelpFormatter)
    reader.add_argument("--sizes", type=int, nargs="+", default=SIZES)
    reader.add_argument("--chain", action="store_true")
    reader.add_argument("--backwards", action="store_true")
    reader.add_argument("folder", type=Path, metavar="FOLDER")
    reader.add_argument("draws", nargs="?", type=int, default=24, metavar="DRAWS")
    words = reader.parse_args()
    folder = words.folder
    folder.mkdir(parents=True, exist_ok=True)
    for count in words.sizes:
        for draw in range(words.draws):
            graph, log, true = drawn(count, draw, chain=words.chain, backwards=words.backwards)
            (folder / f"{count}-{draw}.tfpg").write_text(graph)
            (folder / f"{count}-{draw}.log").write_text(log)
            (folder / f"{count}-{draw}.true").write_text(" ".join(true) + "\n")
    return 0


if __name__ == "__main__":
    sys.exit(main())

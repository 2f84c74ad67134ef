#!/usr/bin/env python3
"""Times whole diagnoses: seconds, milliseconds an event, and peak memory, the shortest of three runs each.

    bench/diagnose.py [--program FILE]

- "two faults": 64 failure modes, 512 nodes, 2,048 edges, two modes, and the log of a script that starts two failure modes.
- "many pairs": 64 failure modes, of which 1,020 pairs explain the log and none alone; so each round writes 1,020 traces.
- "long log": 65,536 ticks over a small graph, after no alarm and after one.
- "chatter": an alarm, and then 16,383 ticks, or 16,383 alarms of the same monitor, which has a lag that allows them all.
- "kept searches": 64 failure modes and 512 nodes, and a budget of 1 that leaves nearly all hypotheses open, so that their searches
  are kept: of 2,081 hypotheses, and of 4,096, where one of 31 monitors may be doubted.
- "generated": `generate` with the sizes 10, 30 and 100, ten numbers each.
"""

import random
import sys

from lib.graphs import discrepancies, node_names, script_text, ticks
from lib.program import built_program, folder_for, word_reader
from lib.timing import shortest
from tfpg.limits import MOST_EDGES, MOST_EVENTS, MOST_FAILURES, MOST_INCOMING, MOST_NODES

HUBS = 20  # hidden nodes between the failure modes and what they lead to
TWO_MODES = """tfpg 1
mode N
mode D
failure F1 3
failure F2 5
or A watch 0
or B hidden
and C watch 0
edge F1 A 10 20 N,D
edge F2 A 5 5 N
edge F1 B 0 inf *
edge A C 0 10 *
edge B C 0 10 *
end
"""


def large_graph(draws, failures=MOST_FAILURES, nodes=MOST_NODES, edges=MOST_EDGES):
    """A graph of so many nodes and edges, each of which leads to a later node."""
    names = node_names(failures, nodes)
    lines = ["tfpg 1", "mode N", "mode D"]
    lines += [f"failure F{position} {position + 1}" for position in range(failures)]
    lines += discrepancies(draws, names[failures:], 0.15)
    seen, incoming = set(), dict.fromkeys(range(nodes), 0)

    def add(source, target):
        if (source, target) in seen or incoming[target] == MOST_INCOMING:
            return
        seen.add((source, target))
        incoming[target] += 1
        least = draws.randint(1, 50)
        greatest = "inf" if draws.random() < 0.1 else least + draws.randint(0, 60)
        modes = "*" if draws.random() < 0.8 else "N"
        lines.append(f"edge {names[source]} {names[target]} {least} {greatest} {modes}")

    for node in range(failures, nodes):
        add(draws.randint(0, failures - 1 if draws.random() < 0.5 else node - 1), node)
    while len(seen) < edges:
        target = draws.randint(failures, nodes - 1)
        add(draws.randint(0, target - 1), target)
    return "\n".join([*lines, "end"]) + "\n"


def large_script(draws, events=250):
    """A script that starts two failure modes, with changes of mode, sweeps and ticks."""
    timed, now = [(5, "start F3"), (40, "start F17")], 0
    for _ in range(events):
        now += draws.randint(1, 6)
        chance = draws.random()
        timed.append((now, f"mode {draws.choice('ND')}" if chance < 0.03 else "sweep" if chance < 0.06 else "tick"))
    return script_text(timed, now + 10)


def many_pairs(failures=MOST_FAILURES, hubs=HUBS):
    """A graph in which each failure mode leads to one of two monitored nodes, by way of a hidden one."""
    lines = ["tfpg 1", "mode N", *[f"failure F{position} {position + 1}" for position in range(failures)]]
    lines += [*[f"or H{hub} hidden" for hub in range(hubs)], "or A watch 10", "or B watch 10"]
    lines += [f"edge F{position} H{position % hubs} 1 50 *" for position in range(failures)]
    lines += [f"edge H{hub} {'A' if 2 * hub < hubs else 'B'} 1 50 *" for hub in range(hubs)]
    return "\n".join([*lines, "end"]) + "\n"


def kept_searches(failures=MOST_FAILURES, nodes=MOST_NODES, hubs=HUBS, monitors=31):
    """A graph in which each failure mode leads to A by way of a hidden node, and A to a chain of all other nodes."""
    chain = ["A", *[f"D{node}" for node in range(nodes - failures - hubs - 1)]]
    lines = ["tfpg 1", "mode N", *[f"failure F{position} {position + 1}" for position in range(failures)]]
    lines += [f"or H{hub} hidden" for hub in range(hubs)]
    lines += [f"or {node} {'watch 10' if place < monitors else 'hidden'}" for place, node in enumerate(chain)]
    lines += [f"edge F{position} H{position % hubs} 1 50 *" for position in range(failures)]
    lines += [f"edge H{hub} A 1 50 *" for hub in range(hubs)]
    lines += [f"edge {source} {target} 1 50 *" for source, target in zip(chain, chain[1:])]
    return "\n".join([*lines, "end"]) + "\n"


def show(name, events, ran):
    counts = ran.output.decode().rstrip("\n").split("\n")[-1]
    each = 1000 * ran.seconds / max(events, 1)
    print(f"{name:22} {events:6} events {ran.seconds:8.3f} s {each:8.4f} ms an event {ran.peak / 1024:6.1f} MB  {counts}")


def main():
    program = built_program(word_reader(__doc__).parse_args().program)
    run = lambda words, log=b"": shortest([program, *words], log, peak=True)
    with folder_for() as top:
        draws = random.Random(7)
        (top / "large").write_text(large_graph(draws))
        (top / "script").write_text(large_script(draws))
        (top / "small").write_text(TWO_MODES)
        (top / "pairs").write_text(many_pairs())
        for size in (10, 30, 100):
            for number in range(10):
                ran = run(["generate", "--draw", str(number), "--size", str(size)])
                show(f"generated {size} {number}", int(ran.output.split(b"\n", 1)[0].rsplit(b" ", 1)[1]), ran)
        log = run(["simulate", "--draw", "5", top / "large", top / "script"]).output
        for k in (1, 2):
            show(f"two faults, k {k}", log.count(b"\n"), run(["diagnose", "--k", str(k), top / "large"], log))
        later = ticks(6, MOST_EVENTS + 5).encode()
        for name, first in (("no alarm", b"5 tick\n"), ("an alarm", b"5 alarm A\n")):
            show(f"long log, {name}", MOST_EVENTS, run(["diagnose", top / "small"], first + later))
        (top / "chatter").write_text(TWO_MODES.replace("or A watch 0", "or A watch 100000"))
        for name, what in (("ticks", "tick"), ("alarms", "alarm A")):
            events = "".join(f"{at} {what}\n" for at in range(6, 16389)).encode()
            show(f"chatter, {name}", 16384, run(["diagnose", top / "chatter"], b"5 alarm A\n" + events))
        pairs = "100 alarm A\n110 alarm B\n" + ticks(111, 409)
        show("many pairs", 300, run(["diagnose", top / "pairs"], pairs.encode()))
        (top / "kept").write_text(kept_searches())
        for doubt in (0, 1):
            words = ["diagnose", "--doubt", str(doubt), "--budget", "1", top / "kept"]
            show(f"kept searches, doubt {doubt}", 1, run(words, b"100 alarm A\n"))
    return 0


if __name__ == "__main__":
    sys.exit(main())

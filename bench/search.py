#!/usr/bin/env python3
"""Times the search of one hypothesis, and counts its steps. The one failure mode is its only member; the empty set costs next to
nothing beside it.

    bench/search.py [--program FILE]

- "wide": 512 nodes, 2,048 edges, the log of a script with 300 sweeps and ticks and the alarms that come of them.
- "spans": the same graph, 1,024 changes of mode and then ticks, without an alarm: no node is overdue, so no event looks at the 1,024
  spans.
- "dense": a small graph with AND nodes, whose edges are cut by changes of mode, where many splits are needed.

Seconds are the shortest of three runs of `diagnose --k 1`, with the start of the program.
"""

import random
import sys

from lib.graphs import discrepancies, later_edges, script_text, steady_script
from lib.program import built_program, folder_for, simulated, word_reader
from lib.timing import shortest
from tfpg.limits import MOST_CHANGES, MOST_EDGES, MOST_NODES


def wide_graph(draws, nodes=MOST_NODES, edges=MOST_EDGES):
    """A graph with one failure mode, in which each edge leads to a later node."""
    names = ["F", *[f"D{node}" for node in range(1, nodes)]]
    lines = ["tfpg 1", "mode N", "mode D", "failure F 1", *discrepancies(draws, names[1:], 0.2)]
    for source, target in later_edges(draws, 1, nodes, edges, edges):
        least = draws.randint(1, 50)
        modes = "*" if draws.random() < 0.9 else "N"
        lines.append(f"edge {names[source]} {names[target]} {least} {least + draws.randint(0, 60)} {modes}")
    return "\n".join([*lines, "end"]) + "\n"


def span_script(changes=MOST_CHANGES, ticks=100):
    """A script in which nothing fails, with so many changes of mode."""
    timed = [(at, f"mode {'DN'[at % 2]}") for at in range(changes)]
    return script_text(timed + [(changes + at, "tick") for at in range(ticks)], changes + ticks)


def dense_graph(draws, layers, width, modes):
    """Layers of nodes, each with edges from up to three nodes of the layer before, active in some of the modes."""
    lines = ["tfpg 1", *[f"mode M{mode}" for mode in range(modes)], "failure F 1"]
    rows = [["F"]]
    for layer in range(layers):
        rows.append([f"N{layer}_{number}" for number in range(width)])
        for name in rows[-1]:
            kind = "and" if draws.random() < 0.4 else "or"
            seen = layer == layers - 1 and draws.random() < 0.5
            lines.append(f"{kind} {name} {f'watch {draws.randint(0, 3)}' if seen else 'hidden'}")
    for before, row in zip(rows, rows[1:]):
        for target in row:
            for source in draws.sample(before, min(len(before), draws.randint(1, 3))):
                least = draws.randint(0, 6)
                greatest = least + draws.randint(0, 8)
                active = sorted(draws.sample(range(modes), draws.randint(1, modes)))
                words = "*" if len(active) == modes else ",".join(f"M{mode}" for mode in active)
                lines.append(f"edge {source} {target} {least} {greatest} {words}")
    return "\n".join([*lines, "end"]) + "\n"


def dense_script(draws, events, modes):
    """A script that changes the mode at every second event or so."""
    now, timed = 0, [(1, "start F")]
    for _ in range(events):
        now += draws.randint(1, 4)
        chance = draws.random()
        timed.append((now, f"mode M{draws.randrange(modes)}" if chance < 0.5 else "sweep" if chance < 0.6 else "tick"))
    return script_text(timed, now + 5)


def log_of(program, folder, draw, graph, script):
    """The log of the script on the graph."""
    (folder / "graph").write_text(graph)
    (folder / "script").write_text(script)
    return simulated(program, draw, folder / "graph", folder / "script")


def show(name, program, folder, log):
    """Diagnoses the log, and says what it cost."""
    ran = shortest([program, "diagnose", "--k", "1", "--budget", "1000000", folder / "graph"], log)
    lines = ran.output.decode().split("\n")
    splits = sum(line.startswith("split ") for line in lines)
    cycles = sum(line.startswith("cycle ") for line in lines)
    events = log.count(b"\n")
    alarms = log.count(b" alarm ")
    print(f"{name:10} {events:5} events, {alarms:3} alarms: {splits:6} splits {cycles:6} cycles {ran.seconds:8.3f} s  {lines[-2]}")


def main():
    program = built_program(word_reader(__doc__).parse_args().program)
    with folder_for() as folder:
        draws = random.Random(11)
        graph = wide_graph(draws)
        show("wide", program, folder, log_of(program, folder, 1, graph, steady_script(draws, "F", 300, 0.2)))
        show("spans", program, folder, log_of(program, folder, 1, graph, span_script()))
        for seed in SEEDS:
            draws = random.Random(seed)
            layers, width, modes = draws.randint(2, 6), draws.randint(2, 5), draws.randint(2, 3)
            graph = dense_graph(draws, layers, width, modes)
            log = log_of(program, folder, seed, graph, dense_script(draws, draws.randint(10, 40), modes))
            # Without the sweeps less is known, and more has to be searched.
            show(f"dense {seed}", program, folder, b"".join(line for line in log.splitlines(True) if b"sweep" not in line))
    return 0


# Draws that gave hard cases.
SEEDS = [129, 302, 48, 243]


if __name__ == "__main__":
    sys.exit(main())

#!/usr/bin/env python3
"""Times `explain` on the largest log.

    bench/explain.py [--program FILE] [FOLDER]

It writes a graph of 512 nodes and 2,048 edges, a log of 65,536 events of which 1,024 change the mode, and a map of all nodes
into the folder, or into a temporary one, and prints the shortest of five runs.

The verdict is yes, so that nothing is left out: each edge is active in one of two modes, and the mode changes before a failure
is due, so that the must rule looks at each span; and the other events are sweeps before anything is active, so that each asks
for each node.
"""

import sys

from lib.program import work_in_folder
from lib.timing import shortest
from tfpg.limits import MOST_CHANGES, MOST_EDGES, MOST_EVENTS, MOST_FAILURES, MOST_NODES

FAILURES, EFFECTS, EDGES = MOST_FAILURES, MOST_NODES - MOST_FAILURES, MOST_EDGES
CHANGES, EVENTS = MOST_CHANGES, MOST_EVENTS
STEP = 10  # milliseconds from one change of mode to the next
RUNS = 5


def graph():
    """Each effect has edges from failure modes alone. A failure needs 5 ms, and is due after 15, but no mode lasts so long."""
    lines = ["tfpg 1", "mode Day", "mode Night"]
    lines += [f"failure F{number} 1" for number in range(FAILURES)]
    lines += [f"{'and' if number % 4 == 3 else 'or'} E{number} watch 1000" for number in range(EFFECTS)]
    for edge in range(EDGES):
        effect, turn = edge % EFFECTS, edge // EFFECTS
        lines.append(f"edge F{(effect + 7 * turn) % FAILURES} E{effect} 5 15 Day")
    return lines + ["end"]


def log():
    """The mode changes every 10 ms; sweeps come between, and a tick at the end."""
    lines = []
    sweeps = EVENTS - CHANGES - 1
    for change in range(1, CHANGES + 1):
        count = sweeps * change // CHANGES - sweeps * (change - 1) // CHANGES
        lines += [f"{STEP * change} sweep"] * count
        lines.append(f"{STEP * change} mode {'Night' if change % 2 else 'Day'}")
    return lines + [f"{STEP * CHANGES + 6} tick"]


def all_nodes():
    """All failure modes from the beginning, and all effects 5 ms after the last change of mode."""
    failures = [f"F{number}" for number in range(FAILURES)]
    lines = ["set " + ",".join(failures)] + [f"at {name} 0" for name in failures]
    return lines + [f"at E{number} {STEP * CHANGES + 6}" for number in range(EFFECTS)]


def time_verdict(program, folder):
    """Prints the shortest of the runs."""
    texts = {"graph": graph(), "log": log(), "map": all_nodes()}
    for name, lines in texts.items():
        (folder / name).write_text("".join(line + "\n" for line in lines))
    ran = shortest([program, "explain", folder / "graph", folder / "log"], folder / "map", RUNS)
    if ran.output != b"yes\n":
        sys.exit(f"the verdict is {ran.output!r}")
    print(f"{len(texts['log'])} events, {CHANGES} changes of mode, {FAILURES + EFFECTS} nodes, {EDGES} edges: {ran.seconds:.3f} s")


if __name__ == "__main__":
    work_in_folder(__doc__, time_verdict)

#!/usr/bin/env python3
"""Times `predict` on the largest graph that takes a probe.

    bench/predict.py [--program FILE] [FOLDER]

It writes a graph of 511 nodes and 2,047 edges with two modes, and a log of 300 events into the folder, or into a temporary one. Then it
asks for the last effect, 1,000 ms ahead, with `--k 1` and the budget 1,000, and for the same log without the last line, which ranks the
empty set alone. It prints the shortest of five runs of each, and what a ranked hypothesis costs.

Each of the 16 failure modes explains the alarm of the first effect. Of the edges every third one is active in one mode alone, and the mode
changes a hundred times, so that there are windows to look at. The silences come before anything need be active.
"""

from lib.program import work_in_folder
from lib.timing import shortest
from tfpg.limits import MOST_EDGES, MOST_NODES

FAILURES = 16
EFFECTS, EDGES = MOST_NODES - 1 - FAILURES, MOST_EDGES - 1  # with room for the probe
CHANGES = 100
SILENCES = 198
STEP = 1000  # milliseconds from one change of mode to the next
AHEAD = 1000
RUNS = 5


def graph():
    """The first effect follows each failure mode, and every other one some nodes before it, with delays that differ."""
    lines = ["tfpg 1", "mode Day", "mode Night"]
    lines += [f"failure F{number} {number + 1}" for number in range(FAILURES)]
    lines += [f"or E{number} {'watch 5' if number % 2 == 0 else 'hidden'}" for number in range(EFFECTS)]
    edges = [(f"F{number}", 0) for number in range(FAILURES)]
    for turn in range(1, 6):
        edges += [(f"E{number - turn * turn}", number) for number in range(turn * turn, EFFECTS)]
    for index, (source, target) in enumerate(edges[:EDGES]):
        modes = "Day" if index % 3 == 2 else "*"
        lines.append(f"edge {source} E{target} {1 + index % 4} {20 + index % 30} {modes}")
    return lines + ["end"]


def log():
    """Changes of mode with two silences after each, then the alarm of the first effect, and a tick."""
    lines = []
    for change in range(1, CHANGES + 1):
        lines.append(f"{STEP * change} mode {'Night' if change % 2 else 'Day'}")
        for silence in range(2 * change - 2, min(2 * change, SILENCES)):
            lines.append(f"{STEP * change + 10} silent E{2 * silence}")
    return lines + [f"{STEP * CHANGES + 20} alarm E0", f"{STEP * CHANGES + 30} tick"]


def forecasts(program, folder, name):
    """The forecasts after this log, and the seconds of the shortest run."""
    words = ["predict", "--k", "1", "--ahead", str(AHEAD), folder / "graph", folder / name, f"E{EFFECTS - 1}"]
    ran = shortest([program, *words], runs=RUNS)
    return [line for line in ran.output.decode().splitlines() if line.startswith("forecast ")], ran.seconds


def time_forecasts(program, folder):
    """Prints what the forecasts cost."""
    texts = {"graph": graph(), "log": log(), "quiet": log()[:-2]}
    for name, lines in texts.items():
        (folder / name).write_text("".join(line + "\n" for line in lines))
    lines, took = forecasts(program, folder, "log")
    _, quiet = forecasts(program, folder, "quiet")
    print(f"{FAILURES + EFFECTS} nodes, {EDGES} edges, {len(texts['log'])} events, {AHEAD} ms ahead")
    print(f"without an alarm: {quiet:.3f} s")
    print(f"{len(lines)} ranked: {took:.3f} s, {(took - quiet) / max(len(lines), 1):.3f} s each")
    for outlook in ("earliest", "never", "unsettled"):
        print(f"{outlook}: {sum(outlook in line.split() for line in lines)}")


if __name__ == "__main__":
    work_in_folder(__doc__, time_forecasts)

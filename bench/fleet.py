#!/usr/bin/env python3
"""Times a fleet of 64 vehicles with 128 hypotheses each, by 64,000 lines that come in turn, beside 64 diagnoses of one vehicle each:
processor seconds, the quotient of both, and peak memory. What is written goes to files, some 2 GB each.

    bench/fleet.py [--program FILE] [--lines N] [--folder FOLDER]

The graph has 64 failure modes and 63 monitors, so that with `--k 1 --doubt 1` there are 128 hypotheses: the empty one, and one for each
failure mode and each monitor. 64 times as many are the most that a fleet may have. The log of each vehicle is that of a script that starts
one failure mode, another one for each vehicle, with sweeps and ticks up to 1,000 lines. The blocks of each vehicle are compared with those
of its own diagnosis.
"""

import filecmp
import random
import sys
import tempfile
from pathlib import Path

import lib.timing
from diagnose import HUBS, kept_searches
from lib.graphs import script_text
from lib.program import built_program, simulated, word_reader
from tfpg.limits import MOST_FAILURES, MOST_VEHICLES

VEHICLES, MONITORS = MOST_VEHICLES, 63
LINES = 1000
TERMS = ["--k", "1", "--doubt", "1"]


def script(draws, failure):
    """A script that starts this failure mode, with sweeps and ticks."""
    timed, now = [(500, f"start F{failure}")], 0
    for _ in range(LINES + 100):
        now += draws.randint(1, 6)
        timed.append((now, "sweep" if draws.random() < 0.03 else "tick"))
    return script_text(timed, now + 10)


def run(program, words, given, written):
    """The processor seconds of a run over these files, and its peak memory in KB."""
    with open(written, "w") as output:
        ran = lib.timing.run([program, *words], given, peak=True, stdout=output)
    if ran.status != 0:
        raise SystemExit(f"{words[0]}: status {ran.status}")
    return ran.seconds, ran.peak


def part_by_vehicle(output, files):
    """Writes what the output of a fleet says of each vehicle to the file of its name."""
    to = None
    with open(output) as lines:
        for line in lines:
            if line.startswith("vehicle "):
                to = files[line.split()[1]]
            elif line.startswith(("stray ", "mode ")):
                to = None
            elif to is not None:
                to.write(line)


def main():
    arguments = word_reader(__doc__)
    arguments.add_argument("--lines", type=int, default=LINES, help="lines of each vehicle")
    arguments.add_argument("--folder", type=Path, help="where the files lie meanwhile")
    words = arguments.parse_args()
    program = built_program(words.program)
    draws = random.Random(20)
    names = [f"v{number}" for number in range(VEHICLES)]
    with tempfile.TemporaryDirectory(dir=words.folder) as folder:
        top = Path(folder)
        graph = top / "graph"
        graph.write_text(kept_searches(nodes=MOST_FAILURES + HUBS + MONITORS, monitors=MONITORS))
        logs = {}
        for number, name in enumerate(names):
            (top / "script").write_text(script(draws, number))
            logs[name] = simulated(program, number, graph, top / "script").decode().split("\n")[:words.lines]
            (top / f"{name}.log").write_text("\n".join(logs[name]) + "\n")
        (top / "stream").write_text("".join(f"{name} {logs[name][place]}\n" for place in range(words.lines) for name in names))
        seconds, peak = run(program, ["fleet", *TERMS, graph, ",".join(names)], top / "stream", top / "output")
        files = {name: open(top / f"{name}.blocks", "w") for name in names}
        part_by_vehicle(top / "output", files)
        (top / "output").unlink()
        alone = 0.0
        for name in names:
            files[name].close()
            took, _ = run(program, ["diagnose", *TERMS, graph], top / f"{name}.log", top / "report")
            alone += took
            if not filecmp.cmp(top / "report", top / f"{name}.blocks", shallow=False):
                print(f"the blocks of {name} are not its own report")
            (top / f"{name}.blocks").unlink()
        print(f"{VEHICLES} vehicles, {VEHICLES * words.lines} lines: {seconds:8.3f} s in a fleet, {peak / 1024:6.1f} MB; {alone:8.3f} s alone; {seconds / alone:5.2f} times")
    return 0


if __name__ == "__main__":
    sys.exit(main())

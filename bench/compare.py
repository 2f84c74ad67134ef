#!/usr/bin/env python3
"""Compares two built programs, side by side: processor time, and peak memory where searches are kept.

    bench/compare.py [--runs N] [--only WORD].. BEFORE AFTER

BEFORE and AFTER are the programs of two checkouts, as `crates/tfpg/out/tfpg` of each. All data is made here, and logs are
simulated by AFTER. The seconds are user and system time of the process, the least of 15 runs; the runs of the two programs take
turns. The two must write the same bytes, or the row says that they differ.

- "hard": small dense graphs of 6 to 10 nodes and 20 to 30 edges, many of them into AND nodes, with three modes, a dozen changes of
  mode, and the alarms and silences of a possible run. Of each the splits, the steps, and what a split costs beyond the start of
  the program, with the text of its cycles.
- "generate": `generate` of the sizes 10, 30 and 100, the sum of 20 draws.
- "ticks": a log of 65,536 ticks over 512 nodes.
- "modes": 64 failure modes, 512 nodes, 2,048 edges and k 2, and the log of a script that starts two of them.
- "kept": as in `bench/diagnose.py`, the searches of 2,081 and of 4,096 hypotheses over 512 nodes, which stay open and are kept.
- "latency": 10,000 lines, given one by one, each once the block of the one before has come: of the pump, and of the graph of "modes" with
  k 1 and 2. Of each line the processor time of the program until its block is there, the least of three runs; of the lines the median,
  the 99th of 100 and the worst.

`bench/compare.py --find FIRST LAST PROGRAM` prints which draws give hard graphs.
"""

import argparse
import random
import subprocess
import sys
import time
from dataclasses import dataclass
from pathlib import Path

import lib.timing
from diagnose import kept_searches, large_graph, large_script
from lib import TOP
from lib.graphs import discrepancies, script_text, ticks
from lib.program import folder_for, simulated
from tfpg.limits import MOST_EVENTS

MODES = ["M0", "M1", "M2"]
LATENCY_LINES, LATENCY_RUNS = 10_000, 3
SCRIPT_EVENTS = 8_000  # a script has at most 8,192 lines


@dataclass
class Row:
    """Something to run: the words, and the file that is the input."""

    name: str
    words: list
    log: Path
    memory: bool = False


def hard_graph(draws):
    """Two failure modes, and some discrepancies with edges from anywhere. An edge back takes some time."""
    nodes, edges = draws.randint(6, 10), draws.randint(20, 30)
    names = ["F", "G", *[f"N{node}" for node in range(2, nodes)]]
    lines = ["tfpg 1", *[f"mode {mode}" for mode in MODES], "failure F 1", "failure G 2"]
    lines += discrepancies(draws, names[2:], 0.6, 0.35, 3)
    pairs = [(source, target) for target in range(2, nodes) for source in range(nodes) if source != target]
    chosen = [(draws.randrange(target), target) for target in range(2, nodes)]
    others = [pair for pair in pairs if pair not in chosen]
    draws.shuffle(others)
    for source, target in chosen + others[: max(0, edges - len(chosen))]:
        least = draws.randint(0 if source < target else 1, 6)
        greatest = least + draws.randint(0, 12)
        active = sorted(draws.sample(MODES, draws.randint(1, 3)))
        words = "*" if active == MODES else ",".join(active)
        lines.append(f"edge {names[source]} {names[target]} {least} {greatest} {words}")
    return "\n".join([*lines, "end"]) + "\n"


def hard_script(draws, changes=12):
    """A script that starts the second failure mode, with so many changes of mode, and a sweep after about every other one."""
    now, timed = 0, [(1, "start G")]
    for _ in range(changes):
        now += draws.randint(1, 5)
        timed.append((now, f"mode {draws.choice(MODES)}"))
        if draws.random() < 0.5:
            now += draws.randint(0, 2)
            timed.append((now, "sweep"))
    return script_text(timed, now + 5)


def with_silences(draws, graph, log):
    """The log with the silences of some monitors in place of each sweep, which says that of all of them."""
    words = [line.split() for line in graph.splitlines()]
    monitors = [line[1] for line in words if line[0] in ("or", "and") and "watch" in line]
    alarmed, lines = set(), []
    for line in log.decode().splitlines():
        at, what, *node = line.split()
        alarmed.update(node if what == "alarm" else [])
        if what == "sweep":
            silent = [monitor for monitor in monitors if monitor not in alarmed and draws.random() < 0.3]
            lines += [f"{at} silent {monitor}" for monitor in silent]
        else:
            lines.append(line)
    return ("\n".join(lines) + "\n").encode()


def hard_row(program, top, draw):
    """The graph and the log of a draw."""
    draws = random.Random(draw)
    graph, script, log = (top / f"hard{draw}.{kind}" for kind in ("tfpg", "script", "log"))
    graph.write_text(hard_graph(draws))
    script.write_text(hard_script(draws))
    log.write_bytes(with_silences(draws, graph.read_text(), simulated(program, draw, graph, script)))
    return Row(f"hard {draw}", ["diagnose", "--k", "1", "--budget", "1000000", str(graph)], log)


def other_rows(program, top):
    """The rows whose cost is not one of splits."""
    draws = random.Random(7)
    files = {name: top / name for name in ("large", "script", "two", "ticks", "kept", "alarm", "empty")}
    files["large"].write_text(large_graph(draws))
    files["script"].write_text(large_script(draws))
    files["two"].write_bytes(simulated(program, 5, files["large"], files["script"]))
    files["ticks"].write_text(ticks(0, MOST_EVENTS))
    files["kept"].write_text(kept_searches())
    files["alarm"].write_text("100 alarm A\n")
    files["empty"].write_text("")
    kept = ["diagnose", "--budget", "1", str(files["kept"])]
    return [
        Row("ticks, 65,536 over 512 nodes", ["diagnose", str(files["large"])], files["ticks"]),
        Row("modes, 64 and k 2", ["diagnose", "--k", "2", str(files["large"])], files["two"]),
        Row("kept, 2,081 hypotheses", kept, files["alarm"], memory=True),
        Row("kept, 4,096 hypotheses", [*kept, "--doubt", "1"], files["alarm"], memory=True),
    ]


def run(program, row):
    """What one run of a row cost."""
    ran = lib.timing.run([program, *row.words], row.log, row.memory, stdout=subprocess.DEVNULL)
    if ran.status:
        sys.exit(f"{program} {' '.join(row.words)}: status {ran.status}")
    return ran


def costs(programs, row, runs):
    """The shortest run of each program. They take turns."""
    found = [[run(program, row) for program in programs] for _ in range(runs)]
    return [min(each, key=lambda one: one.seconds) for each in zip(*found)]


def output(program, row):
    return subprocess.run([program, *row.words], stdin=open(row.log, "rb"), stdout=subprocess.PIPE, check=True).stdout


def counted(report):
    """How many splits a report has, and how many steps."""
    words = [line.split(b" ", 1)[0] for line in report.split(b"\n")]
    splits = words.count(b"split")
    return splits, splits + words.count(b"cycle") + words.count(b"again")


def note(programs, row):
    before, after = (output(program, row) for program in programs)
    return "" if before == after else "  the reports differ"


def show_hard(programs, top, draws, runs):
    """What a split costs on each hard graph."""
    print(f"{'':12}{'splits':>9}{'steps':>9}{'us a split':>14}{'after':>9}")
    for draw in draws:
        row = hard_row(programs[1], top, draw)
        idle = Row("start", row.words, top / "empty")
        splits, steps = counted(output(programs[1], row))
        before, after = (
            1e6 * (whole.seconds - start.seconds) / max(splits, 1)
            for whole, start in zip(costs(programs, row, runs), costs(programs, idle, runs))
        )
        print(f"{row.name:12}{splits:9}{steps:9}{before:14.2f}{after:9.2f}{note(programs, row)}")


def show_generated(programs, top, runs, numbers=20):
    """The sum of the least times of 20 draws, for each size."""
    print(f"{'':34}{'ms before':>12}{'after':>10}")
    for size in (10, 30, 100):
        rows = [Row("", ["generate", "--draw", str(draw), "--size", str(size)], top / "empty") for draw in range(numbers)]
        found = [costs(programs, row, runs) for row in rows]
        before, after = (1000 * sum(cost.seconds for cost in each) for each in zip(*found))
        different = "".join(note(programs, row) for row in rows)
        print(f"{f'generate, size {size}, {numbers} draws':34}{before:12.1f}{after:10.1f}{different[:22]}")


def show_others(programs, rows, runs):
    for row in rows:
        before, after = costs(programs, row, runs)
        memory = f"   MB {before.peak / 1024:7.1f}{after.peak / 1024:8.1f}" if row.memory else ""
        print(f"{row.name:34}{1000 * before.seconds:12.1f}{1000 * after.seconds:10.1f}{memory}{note(programs, row)}")


def with_ticks(log):
    """The first lines of the log, and then ticks, one each millisecond."""
    lines = log.splitlines()[:LATENCY_LINES]
    now = int(lines[-1].split()[0])
    return "\n".join(lines) + "\n" + ticks(now + 1, now + 1 + LATENCY_LINES - len(lines))


def latency_rows(program, top):
    """The rows of lines that are given one by one."""
    (top / "pump").write_text(with_ticks((TOP / "examples" / "pump.log").read_text()))
    draws = random.Random(7)
    (top / "wide").write_text(large_graph(draws))
    (top / "long-script").write_text(large_script(draws, SCRIPT_EVENTS))
    (top / "long").write_text(with_ticks(simulated(program, 5, top / "wide", top / "long-script").decode()))
    pump = ["diagnose", str(TOP / "examples" / "pump.tfpg")]
    return [
        Row("latency, pump", pump, top / "pump"),
        *[Row(f"latency, 512 nodes and k {k}", ["diagnose", "--k", k, str(top / "wide")], top / "long") for k in "12"],
    ]


def line_times(program, row):
    """The processor seconds of each line of the log, from the end of the block before it to that of its own."""
    with subprocess.Popen([program, *row.words], stdin=subprocess.PIPE, stdout=subprocess.PIPE, bufsize=0) as process:
        clock = (~process.pid << 3) | 2  # the processor clock of that process, as the kernel numbers it
        ends = []
        for line in row.log.read_bytes().splitlines(keepends=True):
            process.stdin.write(line)
            block = b""
            while not block.endswith(b"\n") or not block[block.rfind(b"\n", 0, -1) + 1 :].startswith((b"counts ", b"refused ")):
                block += process.stdout.read(1 << 20)
            ends.append(time.clock_gettime(clock))
        process.stdin.close()
    return [end - begun for begun, end in zip([ends[0], *ends], ends)][1:]


def show_latencies(programs, rows):
    """Of the lines after the first: the median, the 99th of 100, and the worst."""
    print(f"{'microseconds a line':34}{'median':>12}{'99th of 100':>14}{'worst':>12}")
    for row in rows:
        runs = [[line_times(program, row) for program in programs] for _ in range(LATENCY_RUNS)]
        for when, each in zip(("before", "after"), zip(*runs)):
            times = sorted(1e6 * min(of_line) for of_line in zip(*each))
            print(f"{row.name + ', ' + when:34}{times[len(times) // 2]:12.1f}{times[len(times) * 99 // 100]:14.1f}{times[-1]:12.1f}")


def find(program, first, last):
    """The draws of a range that need most splits."""
    found = []
    with folder_for() as folder:
        for draw in range(first, last):
            row = hard_row(program, folder, draw)
            splits, steps = counted(output(program, row))
            found.append((splits, steps, draw))
    for splits, steps, draw in sorted(found, reverse=True)[:20]:
        print(f"draw {draw}: {splits} splits, {steps} steps")


def read_words():
    """The words of the command line."""
    reader = argparse.ArgumentParser(description=__doc__, formatter_class=argparse.RawDescriptionHelpFormatter)
    reader.add_argument("--runs", type=int, default=15, help="runs of each program for each row")
    reader.add_argument("--only", action="append", metavar="WORD", help="only the rows of this word: hard, generate, ticks, modes, kept or latency")
    reader.add_argument("--find", nargs=2, type=int, metavar=("FIRST", "LAST"), help="look for hard draws in this range")
    reader.add_argument("programs", nargs="+", type=Path, metavar="PROGRAM")
    words = reader.parse_args()
    if len(words.programs) != (1 if words.find else 2):
        reader.error("two programs, or one with --find")
    words.programs = [str(program.resolve()) for program in words.programs]
    return words


def main():
    words = read_words()
    if words.find:
        return find(words.programs[0], *words.find)
    wanted = lambda name: not words.only or name.split(",")[0] in words.only
    with folder_for() as top:
        rows = other_rows(words.programs[1], top)
        if wanted("hard"):
            show_hard(words.programs, top, HARD, words.runs)
        if wanted("generate"):
            show_generated(words.programs, top, words.runs)
        show_others(words.programs, [row for row in rows if wanted(row.name)], words.runs)
        if wanted("latency"):
            show_latencies(words.programs, latency_rows(words.programs[1], top))


# Draws that gave hard graphs.
HARD = [871, 13582, 9671, 11276, 2470, 4727]


if __name__ == "__main__":
    sys.exit(main())

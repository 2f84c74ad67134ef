#!/usr/bin/env python3
"""Says how many processor minutes the prover takes for each crate: for proofs, tests and edits.

    bench/gate_minutes.py

Start it before `rt ci`, which it outlives; stop it by Ctrl-C, and it prints the table. It looks at all processes of the prover
once a second, by whatever command they were started, so nothing else should be proved meanwhile. What a process takes
between the last look and its end is not counted.

Processors differ, and so do the minutes. So it runs `rt selftest` first and last, which proves and builds one small crate of the
toolchain. The mean of what both took is the unit, in which it gives each figure too: these compare on any two days and machines.
"""

import argparse
import os
import sys
import time
from collections import defaultdict
from pathlib import Path

from lib.timing import shortest

TICKS = os.sysconf("SC_CLK_TCK")


def work_of(words, folder):
    """Which crate a prover with these words works on, and for what; None where they name no crate."""
    if "--crate-name" not in words:
        return None
    crate = words[words.index("--crate-name") + 1]
    return crate, "edits" if "rt-edit" in folder else "tests" if "--test" in words else "proof"


def look(seconds):
    """Notes for each process of the prover how many seconds it and its children have taken."""
    for process in Path("/proc").iterdir():
        if not process.name.isdigit():
            continue
        try:
            words = (process / "cmdline").read_text().split("\0")
            if not Path(words[0]).name.startswith("rattle"):
                continue
            fields = (process / "stat").read_text().rpartition(")")[2].split()
            work = work_of(words, os.readlink(process / "cwd"))
        except OSError:
            continue
        if work:
            begun = fields[19]
            seconds[process.name, begun] = (work, sum(map(int, fields[11:15])) / TICKS)


def selftest_seconds():
    """How many processor seconds the toolchain takes for its own small crate."""
    return shortest(["rt", "selftest"], runs=1).seconds


def show(seconds, unit):
    """Prints the minutes of each crate, their sum, and all in units of so many seconds."""
    minutes = defaultdict(lambda: defaultdict(float))
    for (crate, purpose), taken in seconds.values():
        minutes[crate][purpose] += taken / 60
    print(f"{'minutes':20} {'proof':>7} {'tests':>7} {'edits':>7} {'units':>7}   a unit is {unit / 60:.2f} minutes")
    for crate, by_purpose in sorted(minutes.items()):
        taken = [by_purpose[purpose] for purpose in ("proof", "tests", "edits")]
        print(f"{crate:20} {taken[0]:7.1f} {taken[1]:7.1f} {taken[2]:7.1f} {60 * sum(taken) / unit:7.1f}")
    every = sum(taken for _, taken in seconds.values())
    print(f"{'all':20} {every / 60:23.1f} {every / unit:7.1f}")


def main():
    argparse.ArgumentParser(description=__doc__, formatter_class=argparse.RawDescriptionHelpFormatter).parse_args()
    seconds, first = {}, selftest_seconds()
    print("gate_minutes: begin the gate now", file=sys.stderr, flush=True)
    try:
        while True:
            look(seconds)
            time.sleep(1)
    except KeyboardInterrupt:
        show(seconds, (first + selftest_seconds()) / 2)
    return 0


if __name__ == "__main__":
    sys.exit(main())

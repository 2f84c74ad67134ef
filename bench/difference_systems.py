#!/usr/bin/env python3
"""Times `push` on random difference systems.

    bench/difference_systems.py

It writes a program over the crates `tfpg_base` and `tfpg_diff` into a temporary folder, gives it random systems of 10, 100
and 512 variables with 4 constraints for each variable, and proves and runs it (`rt run`). The program prints how long a push
took on average, over 20 rounds for each system. Proving takes a minute or more. The feasible systems lie around hidden times; the infeasible ones have
bounds that are a little tighter, and a push that conflicts is left out.
"""

import argparse
import pathlib
import random
import shutil
import subprocess
import tempfile

HERE = pathlib.Path(__file__).resolve().parent.parent

MAIN = """//! Times pushes. The input has a line `COUNT` for each system, and then a line `LEFT RIGHT MOST` for each push.
#![tactic(auto)]

ghost use Rattle.std.specs.Prelude.{◌≡◌, ◌<◌};

use std::alloc::Global;
use std::io;
use std::io::{BufRead, BufReader};
use std::marker::Brand;
use std::sync::ledger::{Blank, Ledger};
use std::time::Instant;

use tfpg_base::{Constraint, Steps};
use tfpg_diff::System;

const ROUNDS: u32 = 20;

/// Pushes all picks that can be pushed, and returns how many conflicted.
fn conflicts<L: Ledger>(alloc: Global, blank: Blank, count: u32, picks: &[Constraint]) -> u32
    requires name { blank.name ≡ L.name }
    requires parts { blank.parts ≡ L.parts }
    requires some { 0 < blank.parts }
{
    let mut work = Steps::<L>::new(blank);
    let mut conflicts = 0u32;
    let Ok(mut system) = System::new(alloc, count) else {
        return 0;
    };
    for pick in picks {
        if pick.left <= count && pick.right <= count && system.reserve(1).is_ok() {
            if system.push(*pick, 1, &mut work).is_err() {
                conflicts = conflicts.wrapping_add(1);
            }
        }
    }
    conflicts
}

fn timed(rt: &HostRuntime, count: u32, picks: &[Constraint]) -> io::Result<()> {
    let start = Instant::now(rt)?;
    let mut fell = 0;
    for _ in 0..ROUNDS {
        fell = conflicts::<Brand>(rt.alloc(), Blank::new(1), count, picks);
    }
    let took = start.elapsed(rt)?.as_nanos();
    let all = picks.len();
    let each = took.checked_div(all as u128 * u128::from(ROUNDS)).unwrap_or(0);
    println!(rt; "{count} variables, {all} pushes, {fell} conflicts: {each} ns per push")
}

fn main(rt: HostRuntime) -> io::Result<()> {
    let mut count = 0u32;
    let mut picks = Vec::new(rt.alloc());
    for line in BufReader::new(rt.alloc(), rt.reader())?.lines(rt.alloc()) {
        let line = line?;
        let mut words = line.as_str().split_whitespace();
        let first = words.next().and_then(|word| word.parse::<u32>().ok());
        let second = words.next().and_then(|word| word.parse::<u32>().ok());
        let third = words.next().and_then(|word| word.parse::<i64>().ok());
        match (first, second, third) {
            (Some(left), Some(right), Some(bound)) => picks.push(Constraint { left, right, bound })?,
            (Some(next), _, _) => {
                if !picks.is_empty() {
                    timed(&rt, count, &picks)?;
                }
                picks.clear();
                count = next;
            }
            _ => {}
        }
    }
    timed(&rt, count, &picks)
}
"""

INVARIANTS = {
    "timed": """use Rattle.timed_pushes.proofs.timed.Given as goal

abbrev pub ghosts-conflicts : goal.ghosts-conflicts
ghosts-conflicts a = record { name = a.blank.name; parts = a.blank.parts }
""",
    "conflicts": """use Rattle.std.proofs.Common.{◌≡◌, length}
use Rattle.timed_pushes.proofs.conflicts.Given as goal

abbrev pub invariant-loop-pick : goal.invariant-loop-pick
invariant-loop-pick g l = length l.system.demands.bounds ≡ l.count
""",
}


def system(count, slack):
    """4 constraints for each variable round hidden times; a negative slack makes some of them clash."""
    times = [0] + [random.randint(0, 10**6) for _ in range(count)]
    lines = [str(count)]
    for _ in range(4 * count):
        left, right = random.sample(range(count + 1), 2)
        lines.append(f"{left} {right} {times[left] - times[right] + random.randint(slack, 1000)}")
    return lines


def main():
    argparse.ArgumentParser(description=__doc__, formatter_class=argparse.RawDescriptionHelpFormatter).parse_args()
    random.seed(1)
    lines = []
    for count in (10, 100, 512):
        for slack in (0, -200):
            lines += system(count, slack)
    with tempfile.TemporaryDirectory() as folder:
        root = pathlib.Path(folder)
        for name in ("tfpg_base", "tfpg_diff"):
            shutil.copytree(HERE / "crates" / name, root / "crates" / name, ignore=shutil.ignore_patterns("out"))
        (root / "crates.txt").write_text(
            "tfpg_base:\ntfpg_diff: tfpg_base\ntimed_pushes: tfpg_base tfpg_diff\n"
        )
        crate = root / "crates" / "timed_pushes"
        (crate / "src").mkdir(parents=True)
        (crate / "src" / "main.rt").write_text(MAIN)
        for name, text in INVARIANTS.items():
            (crate / "proofs" / name).mkdir(parents=True)
            (crate / "proofs" / name / "Invariants.antt").write_text(text)
        built = subprocess.run(["rt", "run"], cwd=crate, stdin=subprocess.DEVNULL, capture_output=True, text=True)
        program = crate / "out" / "timed_pushes"
        if not program.exists():
            raise SystemExit(built.stdout + built.stderr)
        subprocess.run([program], input="\n".join(lines) + "\n", text=True, check=True)


if __name__ == "__main__":
    main()

#!/usr/bin/env python3
"""Small difference systems with their latest solutions, found by trying all times.

It shares nothing with the crate `tfpg_diff`: for each system it walks through every list of times up to a
small ceiling, keeps those that meet all constraints, and takes the greatest time of each variable. It prints
the table of `crates/tfpg_model_tests/src/diff.rt`.
"""

import argparse
import itertools
import random

TOP = 7  # the ceiling of every variable in the table


def latest(count, floors, picks):
    """The greatest times over all lists of times that meet the constraints, or None where there are none."""
    best = None
    for times in itertools.product(range(TOP + 1), repeat=count):
        numbers = (0,) + times
        if any(numbers[v + 1] < least for v, least in floors):
            continue
        if any(numbers[left] - numbers[right] > bound for left, right, bound in picks):
            continue
        best = times if best is None else tuple(max(a, b) for a, b in zip(best, times))
    return best


def main():
    argparse.ArgumentParser(description=__doc__, formatter_class=argparse.RawDescriptionHelpFormatter).parse_args()
    random.seed(7)
    wanted = {"some": 8, "none": 6}
    while any(wanted.values()):
        count = random.choice([2, 3, 3, 4])
        floors = [(v, random.randint(0, 4)) for v in range(count) if random.random() < 0.4]
        picks = []
        for _ in range(random.randint(2, 6)):
            left, right = random.sample(range(count + 1), 2)
            picks.append((left, right, random.randint(-4, 3)))
        solution = latest(count, floors, picks)
        kind = "none" if solution is None else "some"
        if not wanted[kind] or (solution and all(t == TOP for t in solution)):
            continue
        # the systems without a solution are to lose it at the last pick
        if solution is None and latest(count, floors, picks[:-1]) is None:
            continue
        wanted[kind] -= 1
        shown = "None" if solution is None else f"Some(&{list(solution)})"
        print(f"    Case {{ count: {count}, floors: &{floors}, picks: &{picks}, latest: {shown} }},")


if __name__ == "__main__":
    main()

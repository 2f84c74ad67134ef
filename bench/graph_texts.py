#!/usr/bin/env python3
"""Times the reading of the largest graph texts.

    bench/graph_texts.py [--program FILE] [FOLDER]

It writes three texts into the folder, or into a temporary one: as many nodes, edges and modes as a graph may have, with
names of 32 bytes; 16 MiB of comments; and 16 MiB of empty lines. For each it prints the shortest of five runs of

- the program on that text and an empty log, so that all it does is to start, to read the graph, and to write the head of a
  report,
- `wc -l`, which only goes through the bytes,
- Python splitting the same text into lines and words.
"""

import random
import sys

from lib.program import work_in_folder
from lib.timing import shortest
from tfpg.limits import FILE_BYTES, LONGEST_NAME, MOST_EDGES, MOST_FAILURES, MOST_MODES, MOST_NODES, MOST_RARITY, MOST_TIME

RUNS = 5

SPLIT = """
import sys
text = open(sys.argv[1], "rb").read()
words = 0
for line in text.split(b"\\n"):
    words += len(line.split(b" "))
"""


def long_name(kind, number):
    """A name as long as may be."""
    return f"{kind}{number}".ljust(LONGEST_NAME, "x")


def largest_graph():
    """As many modes, failure modes, discrepancies and edges as may be. All edges may take no time, and each names all modes but one.

    Each discrepancy has an edge from the one before it, so that a walk over edges that take no time can be as long as there
    are nodes.
    """
    modes = [long_name("Mode", number) for number in range(MOST_MODES)]
    failures = [long_name("Failure", number) for number in range(MOST_FAILURES)]
    discrepancies = [long_name("Effect", number) for number in range(MOST_NODES - MOST_FAILURES)]
    lines = ["tfpg 1"] + [f"mode {mode}" for mode in modes]
    lines += [f"failure {name} {MOST_RARITY}" for name in failures]
    for name in discrepancies:
        lines.append(f"{random.choice(['or', 'and'])} {name} {random.choice(['hidden', f'watch {MOST_TIME}'])}")
    edges = 0
    for number, target in enumerate(discrepancies):
        wanted = MOST_EDGES // len(discrepancies) + (number >= len(discrepancies) - MOST_EDGES % len(discrepancies))
        sources = random.sample(failures + discrepancies[: max(number - 1, 0)], wanted - 1)
        sources.append(discrepancies[number - 1] if number > 0 else next(f for f in failures if f not in sources))
        for source in sources:
            listed = random.sample(modes, MOST_MODES - 1)
            lines.append(f"edge {source} {target} 0 {MOST_TIME - 1} {','.join(listed)}")
            edges += 1
    assert edges == MOST_EDGES
    return "\n".join(lines + ["end"]) + "\n"


def repeated(line):
    """A text as large as may be that has this line as often as it fits."""
    front, back = "tfpg 1\n", "mode N\nend\n"
    count = (FILE_BYTES - len(front) - len(back)) // (len(line) + 1)
    return front + (line + "\n") * count + back


def time_texts(program, folder):
    """Prints how long each text takes."""
    random.seed(1)
    texts = {
        "largest": largest_graph(),
        "comments": repeated("#".ljust(79, "-")),
        "empty_lines": repeated(""),
    }
    print(f"{'text':12} {'bytes':>10} {'lines':>10} {'tfpg':>9} {'wc -l':>9} {'python':>9}")
    for name, text in texts.items():
        path = folder / f"{name}.tfpg"
        path.write_text(text)
        read = shortest([program, "diagnose", "--k", "0", path], runs=RUNS)
        if read.output != b"report 2 k 0 doubt 0 budget 1000\n":
            raise SystemExit(f"{name} was not read: {read.output!r}")
        counted, split = (shortest([*words, path], runs=RUNS) for words in (["wc", "-l"], [sys.executable, "-c", SPLIT]))
        count = text.count("\n")
        print(f"{name:12} {len(text):10} {count:10} {read.seconds:8.3f}s {counted.seconds:8.3f}s {split.seconds:8.3f}s")


if __name__ == "__main__":
    work_in_folder(__doc__, time_texts)

#!/usr/bin/env bash
# Says what a session from C takes, as three tables for `docs/c.md`: memory over a log of 65,600 lines, of which 65,536 are accepted; time and
# stack over 10,000 lines; and over the same lines the time of a tick and of its numbers:
#
#   bench/measure.sh [LINES [LIBRARY]]
#
# It needs the library, which `./build library` builds, a C compiler with POSIX threads, and Python. LINES takes the place of 65,600, and
# LIBRARY that of the built one. `measure.c` says what each column is. Run it on a machine that is quiet: the worst time of a line is that of
# one line.
#
# The logs begin with the one of the examples, or with the alarms of two failure modes. Ticks follow, and in one log 900 changes of mode
# before them. "64 failure modes" has 512 nodes and 2,048 edges.
set -eu -o pipefail

top=$(dirname "$(dirname "$(readlink -f "${BASH_SOURCE[0]}")")")
. "$top/tools/help.sh"
. "$top/tools/sources.sh"
lines=${1-65600}
library=${2-$archive}
[ -e "$library" ] || give_up "$library is not there: ./build library builds it"
made=$(mktemp -d)
trap 'rm -r "$made"' EXIT
cc -std=c99 -O2 -pthread -I "$top/include" -o "$made/measure" "$top/bench/measure.c" "$library"

# The graph of 64 failure modes, and the alarms where F3 begins at 5 and F17 at 40, each node is active as early as it can be, and each
# monitor takes a part of its lag that is drawn.
PYTHONPATH=$top/bench python3 - "$made" << 'END'
import random
import sys
from pathlib import Path

from diagnose import large_graph

draws = random.Random(7)
graph = large_graph(draws)
times, kinds, lags, sources = {"F3": 5, "F17": 40}, {}, {}, {}
for words in map(str.split, graph.splitlines()):
    if words[0] in ("or", "and"):
        kinds[words[1]] = words[0]
        if words[2] == "watch":
            lags[words[1]] = int(words[3])
    elif words[0] == "edge":
        sources.setdefault(words[2], []).append((words[1], int(words[3])))
for node, kind in kinds.items():
    arrivals = [times[source] + least if source in times else None for source, least in sources[node]]
    known = [arrival for arrival in arrivals if arrival is not None]
    if kind == "or" and known:
        times[node] = min(known)
    elif kind == "and" and len(known) == len(arrivals):
        times[node] = max(known)
alarms = sorted((times[node] + draws.randint(0, lag), node) for node, lag in lags.items() if node in times)
Path(sys.argv[1], "large.tfpg").write_text(graph)
Path(sys.argv[1], "large.log").write_text("".join(f"{at} alarm {node}\n" for at, node in alarms))
END

# So many lines: this log, then so many changes between two modes, then ticks, one each millisecond.
log_of() {
    awk -v lines="$1" -v changes="$3" '
        { print; if ($1 + 0 > now) now = $1 + 0 }
        END {
            for (line = NR + 1; line <= lines; line++)
                if (line - NR <= changes) print ++now, "mode", line % 2 ? "Sun" : "Eclipse"
                else print ++now, "tick"
        }' "$2"
}

# Runs the program over a log, for a name, a graph, k, the first lines and a number of changes.
measure() {
    log_of "$6" "$4" "$5" > "$made/log"
    "$made/measure" "$1" "$2" "$3" "$made/log" >> "$made/$7"
}

# All rows, of so many lines, into this file.
rows() {
    measure 'pump' "$top/examples/pump.tfpg" 2 "$top/examples/pump.log" 0 "$@"
    measure 'pump, no alarm' "$top/examples/pump.tfpg" 2 /dev/null 0 "$@"
    measure 'satellite' "$top/examples/satellite.tfpg" 2 "$top/examples/satellite-relay.log" 0 "$@"
    measure 'satellite, 900 changes of mode' "$top/examples/satellite.tfpg" 2 "$top/examples/satellite-relay.log" 900 "$@"
    measure '64 failure modes, k 1' "$made/large.tfpg" 1 "$made/large.log" 0 "$@"
    measure '64 failure modes, k 2' "$made/large.tfpg" 2 "$made/large.log" 0 "$@"
}

rows "$lines" long
rows 10000 short
echo '| Session | Open, bytes | After 1,000 events | After 16,384 | After 65,536 | Most at once | Most in a pool | Calls a line |'
echo '|---|---|---|---|---|---|---|---|'
sed -n 's/^memory //p' "$made/long"
echo
echo '| Session | Lines | A line, microseconds | 99th of 100 | Worst | Its block | To open | Stack, bytes | Report | Check | Ask | Predict | Explain |'
echo '|---|---|---|---|---|---|---|---|---|---|---|---|---|'
sed -n 's/^time //p' "$made/short"
echo
echo '| Session | Ticks | A tick by a line, microseconds | By an event | The numbers of a line |'
echo '|---|---|---|---|---|'
sed -n 's/^numbers //p' "$made/short"
grep -v '^memory \|^time \|^numbers ' "$made/long" "$made/short" || true

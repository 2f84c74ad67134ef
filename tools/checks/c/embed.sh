#!/usr/bin/env bash
# Builds the diagnoser as a static library, and links the C programs of `examples` with it under the sanitizers:
#
# - Runs them on each example log, and compares what they write with what the program writes, byte for byte.
# - Does so once more with `examples/pool.c` in place of `malloc`, and with pools that are too small.
# - Compares what `examples/answers.c` writes with what the program writes for `ask`, `predict` and `explain`: for each example log, each
#   node of its graph, and each example map.
# - Compares the numbers of sessions, which took lines or events, with the lines of reports, for each example log and for 20,000 random lines.
#   Compares what `examples/monitor.c` says of each example log with its report, and all names of the graphs with those of the graphs' texts.
# - Gives a hard log to a pool that is too small for it, and to one that is enough.
# - Fills sessions, and compares what `examples/renew.c` says in the end with what is said of the same log without that. Compares what looser
#   graphs reject with what is rejected.
# - Lets reads fail, at once and in a line.
# - Compares the numbers of the header with those of the library, and tries the calls where they do not end well.
# - Finds each cause that the header names in a small text, and compares it and its line with those that the program says.
# - Runs each call on the deepest inputs in a thread that has just as much stack as the header says, and adds up the frames of its code.
# - Looks at what the library asks for. Prints its size, the time of a line, and what two sessions take.
#
# Ends with status 1 where something differs. With the word `alone` the program is not built: the one C program is compared with the other, and
# each cause only with its name in the header. `tools/checks/c/compile.sh` says whether the C programs can be compiled at all.
set -eu -o pipefail

top=$(dirname "$(dirname "$(dirname "$(dirname "$(readlink -f "${BASH_SOURCE[0]}")")")")")
. "$top/tools/help.sh"
. "$top/tools/checks/differs.sh"
. "$top/tools/sources.sh"
. "$top/tools/library.sh"
need_library
alone=
if [ "${1-}" = alone ]; then alone=yes; fi
made=$(mktemp -d)
trap 'rm -r "$made"' EXIT
sanitized=(-g '-fsanitize=address,undefined' -fno-sanitize-recover=all)

# Links this program under this name, with these flags.
link_with() {
    cc -std=c11 -Wall -Wextra -Werror -I "$top/include" -o "$made/$2" "$top/$1" "$archive" "$heap" "${@:3}"
}

# The same with a pool of 2^N bytes in place of `malloc`, for this N.
link_with_pool() {
    cc -std=c99 -Wall -Wextra -Werror "${sanitized[@]}" -DPOOL_BITS="$3" -I "$top/include" -o "$made/$2" "$top/$1" \
        "$top/examples/pool.c" "$archive"
}

# The report of this log that the C programs have to write.
wanted() {
    if [ "$alone" ]; then
        "$made/report" "$1" "$2" 2> /dev/null
    else
        "$top/tfpg" diagnose "$1" < "$2"
    fi
}

"$top/build" library
link_with examples/report.c report "${sanitized[@]}"
link_with examples/embed.c embed "${sanitized[@]}"
link_with examples/renew.c renew "${sanitized[@]}"
link_with examples/monitor.c monitor "${sanitized[@]}"
link_with examples/answers.c answers "${sanitized[@]}"
link_with tools/checks/c/numbers.c numbers "${sanitized[@]}"
link_with_pool examples/report.c report_pool 24
link_with_pool examples/embed.c embed_pool 24
link_with_pool examples/answers.c answers_pool 24
link_with_pool tools/checks/c/statuses.c statuses_pool 24
link_with tools/checks/c/statuses.c statuses "${sanitized[@]}"
link_with tools/checks/c/causes.c causes "${sanitized[@]}"
link_with examples/report.c plain -O2
link_with bench/measure.c measure -O2 -pthread
link_with tools/checks/c/stack.c stack -O2 -pthread

# What the last round of a report ranks and leaves open, and its counts.
last_round() {
    awk '/^round / { said = "" } /^(ranked|open|counts) / { said = said $0 "\n" } END { printf "%s", said }' "$1"
}

# The numbers of the hypotheses that a report rejects.
rejected() {
    awk '/^rejected / { print $2 }' "$1" | LC_ALL=C sort -u
}

# Compares what the numbers of a session say of a log, with `k` 2 and this doubt, with the report that the program writes, or that is wanted.
try_numbers() {
    local graph=$1 log=$2 name=$3 doubt=$4
    if [ "$alone" ]; then
        [ "$doubt" = 0 ] || return 0
        wanted "$graph" "$log" > "$made/written"
    else
        "$top/tfpg" diagnose --doubt "$doubt" "$graph" < "$log" > "$made/written"
    fi
    "$made/numbers" "$graph" 2 "$doubt" 1000 < "$log" > "$made/said" || differs "$name: numbers that contradict"
    grep -E '^(round|ranked|at|counts|refused) ' "$made/written" | diff - "$made/said" > "$made/text" || differs "$name: numbers"
}

# 10,000 lines with the names of a graph, of which many are refused.
random_log() {
    awk -v seed="$2" '
        $1 == "mode" { mode[modes++] = $2 }
        $1 == "or" || $1 == "and" || $1 == "failure" { node[nodes++] = $2 }
        END {
            srand(seed)
            for (line = 1; line <= 10000; line++) {
                now += int(rand() * 300)
                kind = int(rand() * 40)
                name = node[int(rand() * nodes)]
                at = kind == 39 ? now - 1000 : now
                if (kind < 1) print at, "alarm", name
                else if (kind < 6) print at, "silent", name
                else if (kind < 12) print at, "sweep"
                else if (kind < 14) print at, "mode", rand() < 0.9 ? mode[int(rand() * modes)] : "Nowhere"
                else if (kind < 15) print at, "alarm Nobody"
                else if (kind < 16) print at
                else print at, "tick"
            }
        }' "$1"
}

# Each name of a graph with its kind and its index, by the graph's text.
names_of() {
    awk '$1 ~ /^(failure|or|and)$/ { print "node", nodes++, $2 }' "$1"
    awk '$1 == "failure" { print "failure", failures++, $2 }' "$1"
    awk '$1 == "mode" { print "mode", modes++, $2 }' "$1"
}

# What a report says of each line: why it was refused, and what the last round ranks, with a star where this failure mode is in the set.
monitored() {
    awk -v watched="$2" '
        /^round / { said = "" }
        /^ranked / {
            star = index("," $8 ",", "," watched ",") ? "*" : " "
            gsub(",", " ", $8)
            said = said star " cost " $4 " robust " $6 ":" ($8 == "-" ? "" : " " $8) "\n"
        }
        /^refused / { printf "refused %s\n%s", $3, said }
        /^counts / { printf "refused -\n%s", said }' "$1"
}

# Compares what the monitor says of a log, and of the tick that it adds, with the report.
try_monitor() {
    local graph=$1 log=$2 name=$3 failure
    failure=$(awk '$1 == "failure" { print $2; exit }' "$graph")
    { cat "$log"; awk '/^round / { now = $4 } END { print now + 0, "tick" }' "$made/wanted"; } > "$made/log"
    wanted "$graph" "$made/log" > "$made/written"
    "$made/monitor" "$graph" "$failure" < "$log" > "$made/text" 2> "$made/said" || differs "$name, the monitor: the status"
    [ "$(cat "$made/said")" = 'monitor: DONE -' ] || differs "$name, the monitor: its last words"
    sed -E 's/^line [0-9]+ refused ([A-Za-z-]+) changed .*/refused \1/; s/^([ *]) [0-9a-f]+ /\1 /' "$made/text" |
        diff <(monitored "$made/written" "$failure") - || differs "$name, the monitor"
}

# Compares an answer with what the program writes, where they end well, and their statuses.
try_answer() {
    local name=$1 ended=0 wanted=0 pooled=0
    "$made/answers" "${@:2:4}" > "$made/text" || ended=$?
    case $2 in
        ask) "$top/tfpg" ask "$3" "$4" > "$made/written" || wanted=$? ;;
        predict) "$top/tfpg" predict --ahead 3600000 "$3" "$4" "$5" > "$made/written" || wanted=$? ;;
        explain) "$top/tfpg" explain "$3" "$4" < "$5" > "$made/written" || wanted=$? ;;
    esac
    [ "$ended" = "$wanted" ] || differs "$name: status $ended"
    cmp -s "$made/text" "$made/written" || differs "$name"
    "$made/answers_pool" "${@:2:4}" > "$made/pooled" || pooled=$?
    [ "$pooled" = "$wanted" ] || differs "$name, by a pool: status $pooled"
    cmp -s "$made/pooled" "$made/text" || differs "$name, by a pool"
}

# The graph of this log.
graph_of() {
    local name
    name=$(basename "$1" .log)
    if [ -e "$top/examples/${name%%-*}.tfpg" ]; then echo "$top/examples/${name%%-*}.tfpg"; else echo "$top/examples/pump.tfpg"; fi
}

for log in "$top"/examples/*.log; do
    name=$(basename "$log" .log)
    graph=$(graph_of "$log")
    wanted "$graph" "$log" > "$made/wanted"
    "$made/report" "$graph" "$log" 2> "$made/judged" | cmp -s - "$made/wanted" || differs "$name"
    "$made/embed" "$graph" < "$log" | cmp -s - "$made/wanted" || differs "$name, line by line"
    for doubt in 0 1; do try_numbers "$graph" "$log" "$name, doubt $doubt" "$doubt"; done
    try_monitor "$graph" "$log" "$name"
    cmp -s "$made/judged" <(echo "accepted $(grep -c '^counts ' "$made/wanted")") || differs "$name, judged"
    if [ ! "$alone" ]; then
        try_answer "$name, asked" ask "$graph" "$log"
        for node in $(awk '$1 == "or" || $1 == "and" || $1 == "failure" { print $2 }' "$graph"); do
            try_answer "$name, predicted for $node" predict "$graph" "$log" "$node"
        done
    fi
    "$made/report_pool" "$graph" "$log" 2> "$made/judged" | cmp -s - "$made/wanted" || differs "$name, by a pool"
    "$made/embed_pool" "$graph" < "$log" | cmp -s - "$made/wanted" || differs "$name, line by line and by a pool"
    for events in 1 3 5; do
        "$made/renew" "$graph" "$events" < "$log" > "$made/renewed"
        diff <(last_round "$made/wanted") <(last_round "$made/renewed") || differs "$name, opened anew after $events events"
        diff <(grep -c '^refused ' "$made/wanted") <(grep -c '^refused ' "$made/renewed") || differs "$name, refused after $events events"
    done
    # The looser graph of `docs/c.md`, which is told no mode, rejects nothing that the graph does not reject.
    awk '$1 == "edge" { $5 = "inf"; $6 = "*" } { print }' "$graph" > "$made/loose.tfpg"
    grep -v ' mode ' "$log" | "$made/embed" "$made/loose.tfpg" > "$made/text" || differs "$name, by a looser graph: the status"
    if LC_ALL=C comm -23 <(rejected "$made/text") <(rejected "$made/wanted") | grep .; then differs "$name, by a looser graph"; fi
done

if [ ! "$alone" ]; then
    for map in "$top"/examples/*.map; do
        try_answer "$(basename "$map" .map), explained" explain "$top/examples/pump.tfpg" "$top/examples/pump.log" "$map"
    done
fi

"$made/statuses" || differs statuses
"$made/statuses_pool" || differs 'statuses, by a pool'

# A pool that is too small: a run ends well, or with the status of no memory after whole blocks.
graph=$top/examples/satellite.tfpg
log=$top/examples/satellite-relay.log
wanted "$graph" "$log" > "$made/wanted"
for bits in 10 12 13 14 15 16 17; do
    link_with_pool examples/embed.c embed_small "$bits"
    ended=0
    "$made/embed_small" "$graph" < "$log" > "$made/text" || ended=$?
    if [ "$ended" != 0 ] && [ "$ended" != 8 ]; then differs "a pool of 2^$bits bytes: status $ended"; fi
    cmp -s "$made/text" <(head -c "$(stat -c %s "$made/text")" "$made/wanted") || differs "a pool of 2^$bits bytes: the report"
    case $ended,$(tail -n 1 "$made/text") in
        8,report* | 8,counts* | 8,refused* | 8, | 0,*) ;;
        *) differs "a pool of 2^$bits bytes: the last block" ;;
    esac
done

# A hard log, for which a pool of 4 MB is too small, and one of 16 MB is enough.
python3 "$top/bench/banded.py" "$made/banded" 8
link_with_pool examples/embed.c embed_small 22
ended=0
"$made/embed_small" "$made/banded/150-7.tfpg" < "$made/banded/150-7.log" > "$made/text" || ended=$?
[ "$ended" = 8 ] || differs "a hard log in a pool of 4 MB: status $ended"
"$made/embed_pool" "$made/banded/150-7.tfpg" < "$made/banded/150-7.log" > "$made/said" || differs 'a hard log in a pool of 16 MB: the status'
[ -s "$made/text" ] && cmp -s "$made/text" <(head -c "$(stat -c %s "$made/text")" "$made/said") || differs 'a hard log in a pool of 4 MB'

# A full log. The pump's own, with 70,000 ticks after its third line, is said to be the same in the end. So is one with 2,000 changes to
# the mode that is already there. Where 1,100 changes matter, the run ends with 7, and with a line that is refused.
graph=$top/examples/pump.tfpg
awk '{ print } NR == 3 { for (tick = 1; tick <= 70000; tick++) print 2715000 + tick, "tick" }' "$top/examples/pump.log" > "$made/long"
wanted "$graph" "$top/examples/pump.log" > "$made/wanted"
"$made/renew" "$graph" < "$made/long" > "$made/renewed" || differs 'a full log: the status'
diff <(last_round "$made/wanted") <(last_round "$made/renewed") || differs 'a full log'
[ "$(grep -c '^report ' "$made/renewed")" = 2 ] || differs 'a full log: how often it was opened'
[ "$(grep -c ' LogFull$' "$made/renewed")" = 1 ] || differs 'a full log: what was refused'
graph=$top/examples/satellite.tfpg
mode_log() {
    awk -v names="$1" -v lines="$2" '
        BEGIN { split(names, name, " "); for (line = 1; line <= lines; line++) print line * 1000, "mode", name[line % 2 + 1] }'
}
mode_log 'Sun Sun' 2000 | "$made/renew" "$graph" > "$made/renewed" || differs 'changes to the same mode: the status'
[ "$(grep -c ' ModesFull$' "$made/renewed")" = 1 ] || differs 'changes to the same mode: what was refused'
ended=0
mode_log 'Sun Eclipse' 1100 | "$made/renew" "$graph" > "$made/renewed" || ended=$?
[ "$ended" = 7 ] || differs "changes that matter: status $ended"
[ "$(tail -n 1 "$made/renewed")" = 'refused 1025 ModesFull' ] || differs 'changes that matter: the last block'

# A read that fails: at once, where the log is a folder, and after so many bytes, where it is a terminal that is gone.
graph=$top/examples/pump.tfpg
fails() {
    local ended=0
    "${@:2}" > "$made/text" 2> "$made/said" || ended=$?
    [ "$ended" = 70 ] || differs "$1: status $ended"
}
cut_after() {
    python3 -c '
import os, pty, subprocess, sys, tty
reader, writer = pty.openpty()
tty.setraw(writer)
os.write(writer, open(sys.argv[1], "rb").read(int(sys.argv[2])))
os.close(writer)
sys.exit(subprocess.run(sys.argv[3:], stdin=reader).returncode)' "$@"
}
fails 'a folder as log, whole' "$made/report" "$graph" "$top/examples"
[ ! -s "$made/text" ] || differs 'a folder as log, whole: a report'
fails 'a folder as log, line by line' "$made/embed" "$graph" < "$top/examples"
fails 'a folder as log, by the monitor' "$made/monitor" "$graph" FilterClogged < "$top/examples"
fails 'a folder as graph, line by line' "$made/embed" "$top/examples" < "$top/examples/pump.log"
fails 'a folder as graph, by the monitor' "$made/monitor" "$top/examples" FilterClogged < "$top/examples/pump.log"
head -n 2 "$top/examples/pump.log" > "$made/log"
wanted "$graph" "$made/log" > "$made/wanted"
for program in embed renew; do
    fails "a cut log, by $program" cut_after "$top/examples/pump.log" 39 "$made/$program" "$graph"
    cmp -s "$made/text" "$made/wanted" || differs "a cut log, by $program: the report"
done
fails 'a cut log, by the monitor' cut_after "$top/examples/pump.log" 39 "$made/monitor" "$graph" FilterClogged
[ "$(grep -c '^line ' "$made/text")" = 3 ] || differs 'a cut log, by the monitor: its lines and the tick'

# Random lines, by numbers, and all names.
for seed in 1 2; do
    random_log "$top/examples/satellite.tfpg" "$seed" > "$made/log"
    try_numbers "$top/examples/satellite.tfpg" "$made/log" "random lines $seed" 0
done
for graph in "$top"/examples/*.tfpg; do
    "$made/numbers" "$graph" > "$made/said" || differs "$(basename "$graph"): names that do not lead back"
    names_of "$graph" | diff - "$made/said" || differs "$(basename "$graph"): names"
done

# The names of the header for the causes of a graph, or of a report.
causes_of() {
    sed -nE "s/^    TFPG_$1_([A-Z_]*) = .*/\1/p" "$top/include/tfpg.h"
}

# What is said of a line, with the cause as the header writes it.
as_in_header() {
    sed -E 's/([a-z])([A-Z])/\1_\2/g; s/(_[A-Z])([A-Z])/\1_\2/g; s/[A-Za-z_]*$/\U&/'
}

# What the program says of the text of each cause, in the order of the header.
causes_wanted() {
    for cause in $(causes_of GRAPH); do
        "$top/tfpg" diagnose "$made/causes_found/$cause.graph" 2>&1 > "$made/text" < "$made/log_of_none" || true
    done
    for cause in $(causes_of REPORT); do
        "$top/tfpg" check "$made/causes_found/judged.graph" "$made/causes_found/judged.log" 2>&1 > "$made/text" \
            < "$made/causes_found/$cause.report" || true
    done
}

mkdir "$made/causes_found"
: > "$made/log_of_none"
"$made/causes" "$made/causes_found" > "$made/causes_said" || differs 'the order of the causes'
{ causes_of GRAPH; causes_of REPORT; } | diff - <(sed 's/.* //' "$made/causes_said") || differs 'the causes found'
[ "$alone" ] || causes_wanted | as_in_header | diff "$made/causes_said" - || differs 'what the program says of the causes'

# The statuses of a file, by this pattern of its lines, in order.
statuses_of() {
    sed -nE "s/$1/\\1 \\2/p" "$2" | sort
}
diff <(statuses_of '^pub const ([A-Z_]*): u32 = ([0-9]*);' "$top/crates/tfpg_embed/src/status.rt") \
    <(statuses_of '^    TFPG_([A-Z_]*) = ([0-9]*),?' "$top/include/tfpg.h" | grep -v '^GRAPH_\|^REPORT_\|^LOG_') || differs 'the numbers of the header'

# The numbers of the causes of a graph or of a report: in the library, and in the header.
numbers_of() {
    sed -nE "s/^ *$1Cause::([A-Za-z]*) => ([0-9]*),$/\2 \1/p" "$top/crates/tfpg_embed/src/answer.rt" | as_in_header
}
numbers_in_header() {
    sed -nE "s/^    TFPG_$1_([A-Z_]*) = ([0-9]*),?$/\2 \1/p" "$top/include/tfpg.h"
}
refusals_of() {
    sed -nE 's/^ *Refus[a-zA-Z]*::([A-Za-z]*)( \{ last: _ \})? => ([0-9]+),$/\3 \1/p' "$top/crates/tfpg_embed/src/results.rt" | grep -v '^0 ' | sort -n | as_in_header
}
diff <(refusals_of) <(numbers_in_header LOG) || differs 'the numbers of the refusals'
diff <(numbers_of Graph) <(numbers_in_header GRAPH) || differs 'the numbers of the causes of a graph'
diff <(numbers_of Check | grep -v 'BAD_MAP\|BAD_SCRIPT') <(numbers_in_header REPORT) || differs 'the numbers of the causes of a report'

# The library asks for memory by the three functions, and for what compilers ask for. No instruction needs a newer processor than x86-64-v2 is.
nm "$archive" 2> "$made/said" | awk 'NF == 2 && $1 == "U" { print $2 }' | LC_ALL=C sort -u > "$made/wanted"
nm "$archive" 2> "$made/said" | awk 'NF == 3 { print $3 }' | LC_ALL=C sort -u | LC_ALL=C comm -23 "$made/wanted" - > "$made/asked"
[ "$(grep -cxE 'rattle_(alloc|realloc|dealloc)' "$made/asked")" = 3 ] || differs 'how the library asks for memory'
if grep -vxE 'rattle_(alloc|realloc|dealloc)|mem(cpy|move|set|cmp)|_GLOBAL_OFFSET_TABLE_' "$made/asked"; then
    differs 'what else the library asks for'
fi
newer='v[a-z0-9]+|mulx|pdep|pext|andn|bextr|bls[ir]|blsmsk|shlx|sarx|shrx|rorx|lzcnt|movbe'
if objdump -d --no-show-raw-insn "$archive" | grep -E "%[yz]mm|^ +[0-9a-f]+:[[:space:]]+($newer) "; then differs 'the instructions of the library'; fi

# The stack of each call: by the code, and by runs on the deepest inputs.
"$top/tools/checks/c/stack.py" "$archive" > "$made/text" || { cat "$made/text"; differs 'the stack by the code'; }
"$made/stack" "$top/examples/satellite.tfpg" "$top/examples/satellite-relay.log" > "$made/said" || { cat "$made/said"; differs 'the stack'; }
[ "$(awk '/^stack / { print $2 }' "$made/said" | sort)" = "$(awk '/^stack / { print $2 }' "$made/text" | sort)" ] ||
    differs 'the calls whose stack is tried'

strip -g -o "$made/small.a" "$archive"
printf 'library: %s bytes, asks for %s\n' "$(stat -c %s "$made/small.a")" "$(tr '\n' ' ' < "$made/asked")"

# A log of the pump of so many lines.
pump_log() {
    awk -v lines="$1" 'BEGIN { for (line = 1; line <= lines; line++) print line * 1000, "tick" }'
}

# Microseconds to diagnose a log of the pump of so many lines, and to judge the report.
time_of() {
    pump_log "$1" > "$made/log"
    command time -f %e -o "$made/seconds" "$made/plain" "$top/examples/pump.tfpg" "$made/log" > "$made/text" 2> "$made/judged"
    awk '{ printf "%d\n", $1 * 1000000 }' "$made/seconds"
}

few=$(time_of 0)
many=$(time_of 20000)
printf 'a line of the pump, diagnosed twice and judged: %d microseconds\n' $(((many - few) / 20000))

# What the columns are stands at the top of `measure.c`.
"$made/measure" 'pump, 20,000 ticks' "$top/examples/pump.tfpg" 2 "$made/log" || differs 'memory is left'
"$made/measure" 'satellite' "$top/examples/satellite.tfpg" 2 "$top/examples/satellite-relay.log" || differs 'memory is left'

exit "$status"

#!/usr/bin/env bash
# Runs the example of the pump with panels over real files: one of each kind, two of one kind over one file, and one whose file cannot be
# made. Compares what they write with the report. Ends with status 1 where something differs.
set -u -o pipefail

top=$(dirname "$(dirname "$(dirname "$(readlink -f "${BASH_SOURCE[0]}")")")")
. "$top/tools/help.sh"
. "$top/tools/checks/differs.sh"
files=$(mktemp -d)
trap 'rm -r "$files"' EXIT

echo 'what an earlier run wrote' > "$files/top"
"$top/tfpg" diagnose "$top/examples/pump.tfpg" "top:$files/top" "count:$files/count" "json:$files/json" \
    "top:$files/twice" "top:$files/twice" "top:$files/no/such/folder" < "$top/examples/pump.log" > "$files/report" ||
    differs "the status"

# The report of a run without panels, with a line after its first round for the panel that is lost.
awk '{ print } /^counts / && !lost++ { print "panel 6 lost" }' "$top/examples/pump.report" | cmp -s - "$files/report" || differs "the report"

awk '/^round / { number = $2; best = "none" }
     /^ranked / && best == "none" { best = $NF " cost " $4 }
     /^counts / { print "round " number " best " best }' "$files/report" > "$files/best"
cmp -s "$files/best" "$files/top" || differs "top"
cmp -s "$files/best" "$files/twice" || differs "two panels over one file"
awk '/^round / { number = $2 } sub(/^counts/, "round " number)' "$files/report" > "$files/counts"
cmp -s "$files/counts" "$files/count" || differs "count"
jq -r '.counts as $n | "round \(.round) ranked \($n.ranked) covered \($n.covered) rejected \($n.rejected) open \($n.open)"' "$files/json" |
    cmp -s "$files/counts" - || differs "json"

exit "$status"

#!/usr/bin/env bash
# Compares what the program writes on each example with the report or the verdict beside it, byte for byte, and lets it judge each of
# these reports. Compares the log of the car with what its records make, too. Ends with status 1 where something differs.
set -u -o pipefail

top=$(dirname "$(dirname "$(dirname "$(readlink -f "${BASH_SOURCE[0]}")")")")
. "$top/tools/help.sh"
. "$top/tools/checks/differs.sh"

for report in "$top"/examples/*.report "$top"/examples/*/*.report; do
    name=$(basename "$report" .report)
    graph=$(dirname "$report")/${name%%-*}.tfpg
    "$top/tfpg" diagnose "$graph" < "${report%.report}.log" | cmp -s - "$report" || differs "$name"
    rounds=$(grep -c '^counts ' "$report")
    "$top/tfpg" check "$graph" "${report%.report}.log" < "$report" | cmp -s - <(echo "accepted $rounds") || differs "$name, judged"
done

for verdict in "$top"/examples/*.verdict; do
    name=$(basename "$verdict" .verdict)
    system=$top/examples/${name%%-*}
    "$top/tfpg" explain "$system.tfpg" "$system.log" < "${verdict%.verdict}.map" | cmp -s - "$verdict" || differs "$name"
done

car=$top/examples/car
PYTHONPATH=$top/python PYTHONDONTWRITEBYTECODE=1 python3 -m tfpg records --before 24h --offset engine=1764573000000 \
    --names "$car/names.csv" "$car/car.tfpg" "$car/body.csv" "$car/engine.csv" 2> /dev/null | cmp -s - "$car/car.log" ||
    differs "car, made of its records"

exit "$status"

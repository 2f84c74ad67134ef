#!/usr/bin/env bash
# Runs worked command lines both ways: by the built program, and by `tfpg` of a copy of this checkout in which nothing is built, so that a
# trial answers. Each runs in a folder of its own with the same files. Compares standard output, the rest of the input, the files that
# panels write, the status, and the last line of standard error that is not the script's. Ends with status 1 where something differs.
set -u -o pipefail

top=$(dirname "$(dirname "$(readlink -f "${BASH_SOURCE[0]}")")")
. "$top/tools/help.sh"
. "$top/tools/sources.sh"
[ -x "$program" ] || give_up 'the program is not built: ./build proves and builds it'
made=$(mktemp -d)
trap 'rm -r "$made"' EXIT
lines=0
status=0

# The copy has the trial that this checkout has, if there is one.
copy=$made/copy
trials=$(dirname "$trial")
mkdir -p "$copy" "$trials"
cp -a "$top/tfpg" "$top/tools" "$top/crates.txt" "$copy"
tar -C "$top" --exclude=out -c crates | tar -C "$copy" -x
mkdir "$copy$(dirname "${trials#"$top"}")"
ln -s "$trials" "$copy${trials#"$top"}"

# The files that the words name, in both folders.
make_files() {
    mkdir -p "$1/folder"
    cp "$top"/examples/*.{tfpg,log,map,report} "$1"
    cd "$1" || exit
    head -3 pump.log > early.log
    echo '3200000 tick' >> early.log
    sed 's/cost 2/cost 3/' pump.report > forged.report
    printf '5 alarm LowFlow\nno line\n9 tick' > broken.log
    printf '2700000 start FilterClogged\n5400000 stop\n' > script
    echo 'no step' > broken.script
    printf 'tfpg 1\nmode N\nfailure F 1\nor F watch 0\nend\n' > twice.tfpg
    { printf 'tfpg 1\nmode N\n'; seq -f 'failure F%g 1' 64; echo end; } > wide.tfpg
    head -c 16777217 /dev/zero > long.log
    cp pump.tfpg ./-graph
    cp pump.tfpg 'top:graph'
    "$program" convert pump.tfpg > pump.json
    mkfifo pipe
}

# Runs this program or script in this folder, with this file as its input, or none. Its output is a file, a full disk, a pipe that nobody reads, or
# none.
run_in() {
    local folder=$1 answering=$2 input=$3 output=$4
    shift 4
    cd "$folder" || exit
    case $output in
        file) exec > "$folder.stdout" ;;
        full) exec > /dev/full ;;
        unread) exec 5<> pipe > pipe 5<&- ;;
        closed) exec >&- ;;
    esac
    case $input in
        closed) exec <&- ;;
        *) exec < "$input" ;;
    esac
    "$answering" "$@" 2> "$folder.stderr"
    echo $? > "$folder.status"
    if [ "$input" != closed ]; then cat > "$folder.rest" 2> /dev/null; fi
}

# The last line of a standard error that is the program's.
last_line() {
    grep -v '^tfpg: ' "$made/$1.stderr" | tail -n 1
}

# Runs these words both ways, and compares what came of it.
both() {
    local way
    lines=$((lines + 1))
    rm -f "$made"/*.{stdout,rest}
    (run_in "$made/built" "$program" "$@")
    (run_in "$made/trial" "$copy/tfpg" "$@")
    for way in stdout rest status; do
        if [ -e "$made/built.$way" ] && ! cmp -s "$made/built.$way" "$made/trial.$way"; then differs "$way" "$@"; fi
    done
    [ "$(last_line built)" = "$(last_line trial)" ] || differs 'standard error' "$@"
    diff -r --exclude=pipe "$made/built" "$made/trial" > /dev/null || differs 'files' "$@"
}

differs() {
    printf 'differs, %s: input %s, output %s, words %s\n' "$1" "$2" "$3" "${*:4}"
    status=1
}

(make_files "$made/built")
(make_files "$made/trial")

both pump.log file diagnose pump.tfpg
both satellite-array.log file diagnose satellite.tfpg
both satellite-relay.log file diagnose --k 1 satellite.tfpg
both pump-gauge.log file diagnose --doubt 1 pump.tfpg
both pump.log file diagnose --budget=1 pump.tfpg --k=3
both broken.log file diagnose pump.tfpg
both long.log file diagnose pump.tfpg
both /dev/null file diagnose pump.tfpg
both pump.log file diagnose pump.tfpg top:top count:count json:json
both pump.log file diagnose pump.tfpg top:same top:same top:folder/top count:a:b=c
both pump.log file diagnose pump.tfpg top:absent/top json:/dev/full 'top:a b' top:folder
both early.log file diagnose pump.tfpg -- top:-top
both pump.log file diagnose -- -graph
both pump.log file diagnose top:graph
both pump.log file diagnose "$made/built/pump.tfpg"
both pump.log file diagnose ./folder/../pump.tfpg
both pump.log file diagnose pump
both pump.log file diagnose folder
both pump.log file diagnose twice.tfpg
both pump.log file diagnose --k 3 wide.tfpg
both pump.log file diagnose --k=1 wide.tfpg
both folder file diagnose pump.tfpg
both closed file diagnose pump.tfpg
both pump.log full diagnose pump.tfpg
both pump.log unread diagnose pump.tfpg
both pump.log closed diagnose pump.tfpg
both pump.log full diagnose pump.tfpg top:full
both pump.report file check pump.tfpg pump.log
both forged.report file check pump.tfpg pump.log
both pump.report file check pump.tfpg early.log
both pump.report file check pump.tfpg absent.log
both pump.report file check pump.tfpg long.log
both pump.report full check pump.tfpg pump.log
both pump-filter.map file explain pump.tfpg pump.log
both pump-early.map file explain pump.tfpg pump.log
both pump.log file explain pump.tfpg pump.log
both pump.log file simulate pump.tfpg script
both pump.log file simulate --trace --draw 7 pump.tfpg script
both pump.log file simulate pump.tfpg broken.script
both pump.log file generate
both pump.log file generate --size=20 --draw=3
both pump.log unread generate
both pump.log file convert pump.tfpg
both pump.log file convert --json pump.json
both pump.log file convert --json pump.tfpg
both pump.log full convert satellite.tfpg
both pump.log file ask pump.tfpg early.log
both pump.log file ask --k 1 --doubt=1 pump.tfpg pump-gauge.log
both pump.log file ask pump.tfpg absent
both pumps.log file fleet pump.tfpg north,south,east
both pumps.log file fleet --k 1 pump.tfpg one
both pumps.log file fleet pump.tfpg one,one
both pump.log file predict --ahead 3600000 pump.tfpg early.log MotorHot
both pump.log file predict pump.tfpg pump.log HighPressure
both pump.log file predict pump.tfpg pump.log Nothing
both pump.log file
both pump.log file judge pump.tfpg
both pump.log file --help me
both pump.log file diagnose
both pump.log file diagnose pump.tfpg pump.log
both pump.log file diagnose pump.tfpg top:
both pump.log file diagnose --k x pump.tfpg
both pump.log file diagnose --k 65 pump.tfpg
both pump.log file diagnose ''
both pump.log file diagnose $'\xff'
both pump.log full judge

printf '%s command lines were run both ways\n' "$lines"
exit "$status"

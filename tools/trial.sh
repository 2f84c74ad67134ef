#!/usr/bin/env bash
# What `tfpg` does where the program is not built of the sources as they stand: it runs the program after all if its code and definitions
# are as they were, by their contents. Else a trial answers: the same sources, compiled with checks at run time, of which nothing is
# proved. Compiling it takes about two minutes. It is kept until the sources change. The last line on standard error, which begins with
# `tfpg: `, says that a trial answered, unless TFPG_QUIET is 1. The status is 70 if there is no trial, or if it stops by itself.
set -eu

name=tfpg
top=$(dirname "$(dirname "$(readlink -f "${BASH_SOURCE[0]}")")")
package=$top/python
. "$top/tools/sources.sh"
. "$top/tools/words.sh"

folder=$(dirname "$trial")
output=$folder/try.log

# Copies the program that `rt try` compiled in this folder. It waits until that reads the pipe, and so is whole, and holds it there.
copy_compiled() {
    local compiled
    exec 3> "$1/graph"
    compiled=$(find "$1" -type f -perm -u+x -size +1M -print -quit)
    cp "$compiled" "$1/part"
    mv "$1/part" "$1/copy"
}

# Says on a terminal how far the compiler is, as long as this process runs.
report_compiling() {
    [ -t 2 ] || return 0
    SECONDS=0
    while kill -0 "$1" 2> /dev/null; do
        printf '\rtfpg: compiling a trial, which takes about two minutes: %s seconds so far' "$SECONDS" >&2
        sleep 1
    done
    printf '\r\033[K' >&2
}

stop_compiling() {
    jobs -p | xargs -r kill 2> /dev/null || true
    wait
    exit 130
}

# Compiles the trial. `rt try` removes what it compiled as soon as that has run. So it runs on a pipe as its graph, until it is copied.
compile_trial() {
    local room=$folder/room try copier sum
    rm -rf "$trial" "$room"
    mkdir -p "$room"
    mkfifo "$room/graph"
    touch "$room/start"
    sum=$(sum_of "$top" tfpg code)
    trap stop_compiling INT TERM HUP
    (cd "$top/crates/tfpg" && TMPDIR=$room exec rt try -- convert "$room/graph") < /dev/null > "$output" 2>&1 9>&- &
    try=$!
    copy_compiled "$room" 9>&- 2> /dev/null &
    copier=$!
    report_compiling "$try"
    wait "$try" || true
    trap - INT TERM HUP
    kill "$copier" 2> /dev/null || true
    if [ -s "$room/copy" ]; then
        put_in_place "$room/copy" "$trial" "$room/start"
        if [ "$sum" = "$(sum_of "$top" tfpg code)" ]; then printf 'code %s\n' "$sum" > "$trial.sums"; fi
    fi
    rm -rf "$room"
}

# Has the trial compiled, unless it is there as the sources stand. Whoever can read the checkout can read what is made.
need_trial() {
    local mask
    is_current "$trial" tfpg code && return
    mask=$(umask)
    umask 022
    need_linux
    need_rt
    { mkdir -p "$folder" 2> /dev/null && [ -w "$folder" ]; } ||
        give_up "there is no trial, and this user may not make one: $folder is not writable"
    take_turn "$folder/lock" 'another run compiles a trial already, and this one waits for it'
    is_current "$trial" tfpg code || compile_trial
    exec 9>&-
    umask "$mask"
    [ -x "$trial" ] || give_up "there is no trial: $output has what rt try said"
}

# Runs the trial with these words. A check at run time that fails ends it by a signal, or with the status that its sanitizer is given here.
run_trial() {
    local ended=0
    ASAN_OPTIONS=exitcode=70 "$trial" "$@" || ended=$?
    case $ended in
        70 | 13[2-79]) give_up "the trial stopped by itself ($ended): this needs the built program, which ./build makes in $build_time" ;;
    esac
    if [ -t 2 ]; then say_where_to_look "$ended" "$@"; fi
    if [ "${TFPG_QUIET-}" != 1 ]; then
        say "a trial answered, since $why: the same sources, checked while they ran and not proved. ./build proves and builds the \
program, in $build_time"
    fi
    exit "$ended"
}

if [ -x "$program" ] && is_current "$program" tfpg code; then run_program "$@"; fi
why='the program is not built here'
if [ -x "$program" ]; then why='sources are newer than the built program'; fi
need_trial
run_trial "$@"

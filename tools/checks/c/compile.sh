#!/usr/bin/env bash
# Compiles the header and the C programs of `examples` in C99, C11, C17 and C++11 to C++20, and those of this folder and of `bench` in C99 and
# C17, by gcc and by clang, where they are there. Each warning counts as an error. Then tries `examples/pool.c` by itself, under the sanitizers, which lines
# `examples/renew.c` keeps, and whether the names that the header says are those of its numbers and of `docs/formats.md`. Compares what
# `cppcheck` says by MISRA of header and examples, where it is there, with the table of `docs/certification.md`. It needs no library and no
# toolchain but these compilers. Ends with status 1 where something differs.
set -eu -o pipefail

top=$(dirname "$(dirname "$(dirname "$(dirname "$(readlink -f "${BASH_SOURCE[0]}")")")")")
. "$top/tools/help.sh"
. "$top/tools/checks/differs.sh"
made=$(mktemp -d)
trap 'rm -r "$made"' EXIT
strict=(-O2 -Wall -Wextra -Wpedantic -Wconversion -Wshadow -Werror)

# The header by itself, included twice. The places of the members are those that the library has.
cat > "$made/header.c" << 'END'
#include "tfpg.h"
#include "tfpg.h"
typedef char answer_is_as_in_the_library[sizeof(tfpg_answer) == 32 && offsetof(tfpg_answer, cause) == 4 && offsetof(tfpg_answer, line) == 8
    && offsetof(tfpg_answer, count) == 16 && offsetof(tfpg_answer, count_high) == 24 ? 1 : -1];
typedef char session_is_as_in_the_library[sizeof(tfpg_session) == 16 && offsetof(tfpg_session, held) == 8 ? 1 : -1];
typedef char result_is_as_in_the_library[sizeof(tfpg_result) == 56 && offsetof(tfpg_result, line) == 8 && offsetof(tfpg_result, last) == 16
    && offsetof(tfpg_result, now) == 32 && offsetof(tfpg_result, ranked) == 40 && offsetof(tfpg_result, open) == 52 ? 1 : -1];
typedef char ranked_is_as_in_the_library[sizeof(tfpg_ranked) == 96 && offsetof(tfpg_ranked, doubts) == 8 && offsetof(tfpg_ranked, cost) == 72
    && offsetof(tfpg_ranked, hypothesis) == 80 && offsetof(tfpg_ranked, active) == 92 ? 1 : -1];
typedef char prediction_terms_are_as_in_the_library[sizeof(tfpg_prediction_terms) == 24 && offsetof(tfpg_prediction_terms, budget) == 8
    && offsetof(tfpg_prediction_terms, ahead) == 16 ? 1 : -1];
extern tfpg_session kept;
tfpg_session kept = TFPG_SESSION;
static tfpg_session many[2] = {TFPG_SESSION, TFPG_SESSION};
extern void forget(void);
void forget(void) {
    kept = TFPG_CLOSED_SESSION;
    many[0] = many[1] = TFPG_CLOSED_SESSION;
}
END

# Prints what the header says of each number of a status or a cause up to 30.
cat > "$made/names.c" << 'END'
#include "tfpg.h"
#include <stdio.h>
int main(void) {
    for (uint32_t number = 0; number <= 30; number++)
        printf("STATUS %u %s\nGRAPH %u %s\nREPORT %u %s\nLOG %u %s\n", number, tfpg_status_name(number), number,
               tfpg_cause_name(TFPG_BAD_GRAPH, number), number, tfpg_cause_name(TFPG_NOT_ACCEPTED, number), number,
               tfpg_cause_name(TFPG_DONE, number));
    printf("no cause %s\na cause %s\n", tfpg_cause_name(TFPG_ENDED, 0), tfpg_cause_name(TFPG_ENDED, 1));
    return 0;
}
END

# The same by the enumerations of the header.
names_in_header() {
    sed -nE 's/^    TFPG_(GRAPH|REPORT|LOG)_([A-Z_]*) = ([0-9]+),?$/\1 \3 \2/p; t; s/^    TFPG_([A-Z_]*) = ([0-9]+),?$/STATUS \2 \1/p' \
        "$top/include/tfpg.h"
    printf '%s -\n' 'GRAPH 0' 'REPORT 0' 'LOG 0' 'no cause'
}

# Compares what a program says, which this compiler made of that, with the enumerations and with `docs/formats.md`.
try_names() {
    local cause
    "$1" -std=c99 -g -O1 -fsanitize=address,undefined -fno-sanitize-recover=all -I "$top/include" -o "$made/names" "$made/names.c"
    "$made/names" > "$made/all" || differs "the names of the header, by $1"
    grep -v ' ?$' "$made/all" > "$made/said"
    sed -E '/^STATUS/! { s/([a-z])([A-Z])/\1_\2/g; s/(_[A-Z])([A-Z])/\1_\2/g; s/ ([A-Za-z_]*)$/ \U\1/ }' "$made/said" | LC_ALL=C sort |
        diff <(names_in_header | LC_ALL=C sort) - || differs "the names of the header and its numbers, by $1"
    for cause in $(sed -nE 's/^(GRAPH|REPORT|LOG) [0-9]+ ([A-Za-z]+)$/\2/p' "$made/said"); do
        grep -q "\`$cause\`" "$top/docs/formats.md" || differs "$cause is not in docs/formats.md"
    done
}

# Compiles these files by this compiler in this language.
compile() {
    local file
    for file in "${@:3}"; do
        "$1" -x "${2%%[0-9]*}" "-std=$2" "${strict[@]}" -I "$top/include" -c -o "$made/object" "$file" || differs "$1 $2 $(basename "$file")"
    done
}

here=$top/tools/checks/c
mine=("$here/statuses.c" "$here/numbers.c" "$here/causes.c" "$here/pool_test.c" "$here/renew_test.c" "$here/stack.c" "$top/bench/measure.c"
    "$top/bench/worst.c")
for compiler in gcc clang; do
    if ! command -v "$compiler" > /dev/null; then
        printf '%s is not there, and is left out\n' "$compiler"
        continue
    fi
    for language in c99 c11 c17; do
        compile "$compiler" "$language" "$made/header.c" "$top"/examples/*.c
    done
    for language in c99 c17; do
        compile "$compiler" "$language" "${mine[@]}"
    done
    for language in c++11 c++14 c++17 c++20; do
        compile "${compiler/#gcc/g++}" "$language" "$made/header.c" "$top"/examples/*.c
    done
    # Each size of a pool that its page allows can be linked, without a warning, and each other is refused.
    "$compiler" -std=c99 -O2 -c -o "$made/pool_test.o" "$here/pool_test.c"
    for bits in {3..38}; do
        linked=yes
        "$compiler" -std=c99 "${strict[@]}" -DPOOL_BITS="$bits" -o "$made/pool" "$top/examples/pool.c" "$made/pool_test.o" \
            2> "$made/said" || linked=no
        case $bits,$linked in
            [345],no | 3[1-8],no) grep -q 'POOL_BITS is from 6 to 30' "$made/said" || differs "why a pool of 2^$bits bytes is refused" ;;
            [6-9],yes | [12][0-9],yes | 30,yes) ;;
            *) differs "whether a pool of 2^$bits bytes can be linked, by $compiler: $linked" ;;
        esac
    done
    # Pools of 1 KB, 64 KB and 4 MB.
    for bits in 10 16 22; do
        "$compiler" -std=c99 -g -O1 -fsanitize=address,undefined -fno-sanitize-recover=all -DPOOL_BITS=$bits -o "$made/pool" \
            "$top/examples/pool.c" "$here/pool_test.c"
        "$made/pool" 200000 "$bits" || differs "the pool of 2^$bits bytes, by $compiler"
    done
    "$compiler" -std=c99 -g -O1 -fsanitize=address,undefined -fno-sanitize-recover=all -I "$top/include" -o "$made/renew" "$here/renew_test.c"
    "$made/renew" 1000 1 || differs "what is kept of a log, by $compiler"
    try_names "$compiler"
done

# The rules of MISRA from which a file deviates, `RULE FILE`: by the table, and by `cppcheck`, which leaves files beside those that it reads.
deviations_said() {
    sed -n '/^| Rule | Where /,$p' "$top/docs/certification.md" | awk -F '|' '
        NR > 2 { rules = split($2, rule, ","); files = split($3, file, ",")
            for (one = 1; one <= rules; one++) for (other = 1; other <= files; other++) print rule[one], file[other] }' | tr -s ' '
}
deviations_found() {
    cp -r "$top/examples" "$top/include" "$made"
    (cd "$made" && cppcheck --addon=misra --std=c99 -I include -q examples/*.c 2>&1) |
        sed -nE 's/^.*\/([a-z]+\.[ch]):[0-9]+:.*\[misra-c2012-([0-9.]+)\]/ \2 \1/p'
}
if command -v cppcheck > /dev/null && deviations_found > "$made/found" && [ -s "$made/found" ]; then
    diff <(deviations_said | sed 's/ *$//' | LC_ALL=C sort -u) <(LC_ALL=C sort -u "$made/found") || differs 'the deviations from MISRA'
else
    printf 'cppcheck or its addon is not there, and is left out\n'
fi

exit "$status"

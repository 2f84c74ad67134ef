# What the scripts around the program share: which sources something is made of, whether it is as they stand, and who may make it. Who reads
# this file has the top of the repository in `top`. `name` is what the script is called in what it says.

. "$top/tools/places.sh"

name=${name-$(basename "$0")}
build_time='half an hour to an hour on four processors'

# Says this on standard error, which is all that the scripts themselves write to. Where that fails nothing more can be said.
say() {
    printf '%s: %s\n' "$name" "$1" >&2 || true
}

# Ends with the status of the scripts' own, and says why.
give_up() {
    say "$1"
    exit 70
}

need_linux() {
    [[ $OSTYPE == linux* ]] || give_up "this needs Linux, and here is $OSTYPE"
}

need_rt() {
    command -v rt > /dev/null ||
        give_up 'rt, the command of the Rattle toolchain, is not on the PATH: "What is trusted" in README.md names the kit that has it'
}

# The lines of `crates.txt` of a crate and of the crates of the repository that it stands on, lowest first. The first word is the top of
# the repository, or of a copy of it, as in what follows.
crates_up_to() {
    awk -F '[: ]+' -v highest="$2" '
        { line[NR] = $0 }
        END {
            needed[highest]
            for (number = NR; number; number--) {
                split(line[number], words)
                if (words[1] in needed) for (place in words) needed[words[place]]
            }
            for (number = 1; number <= NR; number++) {
                split(line[number], words)
                if (words[1] in needed) print line[number]
            }
        }' "$1/crates.txt"
}

# The same by their names alone.
names_up_to() {
    crates_up_to "$1" "$2" | sed 's/[: ].*//'
}

# Looks through the sources of these crates, and not through what was made there nor through edits that must fail. Of `code` it leaves
# proofs out, which neither run nor promise anything. The other words are those of `find`.
find_sources() {
    local names=$2 what=$3 proofs=()
    [ "$what" = all ] || proofs=(-o -name proofs)
    (cd "$1/crates" && shift 3 && find $names \( -name out -o -name must-fail "${proofs[@]}" \) -prune -o "$@")
}

# The sum of the contents of what a crate and those below it are made of: of `all` of it, or of `code` and definitions.
sum_of() {
    {
        crates_up_to "$1" "$2"
        find_sources "$1" "$(names_up_to "$1" "$2")" "$3" -type f -print0 | LC_ALL=C sort -z | (cd "$1/crates" && xargs -0 sha256sum)
    } | sha256sum | cut -c -64
}

# Whether something changed since this file was made: a file, or a folder, from which one may be gone. The time of a change counts, which
# also a copy with an older time has; or with `modified` the time that the file bears.
has_changed_since() {
    local newer=-newercm
    [ "${4-}" != modified ] || newer=-newer
    [ -n "$(find "$top/crates.txt" "$newer" "$1")" ] ||
        [ -n "$(find_sources "$top" "$(names_up_to "$top" "$2")" "$3" -path '*/*' "$newer" "$1" -print -quit)" ]
}

# Whether this file is there, and made of `all` sources of the crate and those below it as they stand, or of their `code`. Where something
# changed since, the sums of the contents tell, which were noted when it was made. If none were, times of modification tell.
is_current() {
    [ -s "$1" ] || return 1
    has_changed_since "$1" "$2" "$3" || return 0
    if [ -e "$1.sums" ]; then
        grep -q "^$3 $(sum_of "$top" "$2" "$3")$" "$1.sums"
    else
        ! has_changed_since "$1" "$2" "$3" modified
    fi
}

# Puts what was made in its place, at once and whole, as old as the moment before its sources were read, for whoever can read the checkout.
put_in_place() {
    mkdir -p "$(dirname "$2")" && cp "$1" "$2.new" && touch -r "$3" "$2.new" && chmod a+rX "$2.new" && rm -f "$2.sums" && mv "$2.new" "$2"
}

# Waits until no other process of this checkout does what this file stands for, and says so where one does. The lock ends with the
# processes that have it open.
take_turn() {
    mkdir -p "$(dirname "$1")"
    exec 9> "$1"
    if ! flock -n 9; then
        say "$2"
        flock 9
    fi
}

# What the script `tfpg` says itself, in the checkout and where it is installed, and how it runs the program. The script that reads this
# has the folder of the texts of help in `texts`, the file with the version in `version`, the program in `program`, and in `package` the
# folder of the package for Python, which is empty if Python finds that by itself.

# Writes a text, and ends. It ends as the program does if writing fails.
write_text() {
    cat "$1" || exit 6
    exit 0
}

# Answers these words and ends, if they ask for help or for the version, and for nothing else.
answer_words() {
    case $#:${1-} in
        1:--help | 1:-h | 1:help) write_text "$texts/tfpg.txt" ;;
        1:--version)
            printf 'tfpg ' || exit 6
            write_text "$version"
            ;;
        2:help)
            case $2 in
                diagnose | check | explain | simulate | generate | convert | ask | predict | fleet) write_text "$texts/tfpg-$2.txt" ;;
            esac
            ;;
    esac
}

# Runs the program in the place of this process, or on a terminal says after a failure where to look.
run_program() {
    if [ ! -t 2 ]; then exec "$program" "$@"; fi
    status=0
    "$program" "$@" || status=$?
    say_where_to_look "$status" "$@"
    exit "$status"
}

# Says on standard error after an end with this status where to look: which file could not be read and why, or which command tells more.
say_where_to_look() {
    ended=$1
    shift
    case $ended in
        2 | 4) say_next "$(lint_command) --words $(quoted "$@") says why" ;;
        3) say_graph "$@" ;;
        5) say_next "$(file_fault "$@" || echo 'the input could not be read')" ;;
        7) say_next "$(file_fault "$@" || echo 'the input has more than 4,294,967,296 bytes, which is its limit')" ;;
    esac
}

say_next() {
    printf 'tfpg: %s\n' "$1" >&2 || true
}

lint_command() {
    if [ -n "$package" ]; then printf 'PYTHONPATH=%s ' "$(quoted "$package")"; fi
    printf 'python3 -m tfpg lint'
}

# The words as a shell reads them.
quoted() {
    for word in "$@"; do
        case $word in
            '' | *[!A-Za-z0-9_./:,=+@-]*) printf "'%s' " "$(printf '%s' "$word" | sed "s/'/'\\\\''/g")" ;;
            *) printf '%s ' "$word" ;;
        esac
    done | sed 's/ $//'
}

# The names of the files that these words of a command name, each in a line, in their order.
files_named() {
    case $1 in
        diagnose | convert | fleet) left=1 ;;
        check | explain | simulate | ask | predict) left=2 ;;
        *) left=0 ;;
    esac
    shift
    options=yes
    while [ $# -gt 0 ] && [ "$left" -gt 0 ]; do
        case $options$1 in
            yes--) options=no ;;
            yes--k | yes--doubt | yes--budget | yes--ahead | yes--draw) shift ;;
            yes-?*) ;;
            *)
                case $1 in -*) printf './' ;; esac
                printf '%s\n' "$1"
                left=$((left - 1))
                ;;
        esac
        shift
    done
}

# Says which command tells more of a graph. Of one that is JSON none does.
say_graph() {
    case " $* " in *' --json '*) return ;; esac
    say_next "$(lint_command) $(quoted "$(files_named "$@" | head -n 1)") says why"
}

# The first of the files that cannot be read or is too large, and why. Ends with 1 if there is none.
file_fault() {
    files_named "$@" | while IFS= read -r file; do
        why=$(why_unread "$file")
        if [ -n "$why" ]; then
            printf '%s %s\n' "$file" "$why"
            break
        fi
    done | grep .
}

why_unread() {
    if [ -d "$1" ]; then
        echo 'is a folder'
    elif [ ! -e "$1" ]; then
        echo 'is not there'
    elif [ ! -r "$1" ]; then
        echo 'may not be read by this user'
    elif [ -f "$1" ] && [ "$(wc -c < "$1")" -gt 16777216 ]; then
        echo 'has more than 16,777,216 bytes, which is the limit of a file'
    fi
}

# Read by a script of the shell: if its first word is --help it says what the script does, as the comment at its top has it, and ends it.
case ${1-} in
    -h | --help)
        while IFS= read -r line; do
            case $line in
                '#!'*) ;;
                '#'*) line=${line#\#} && printf '%s\n' "${line# }" ;;
                *) exit 0 ;;
            esac
        done < "$0"
        ;;
esac

# Read by a check of the shell: it ends with `status`, which is 1 once something differs.

status=0

differs() {
    printf 'differs: %s\n' "$1"
    status=1
}

# Completion of the words of tfpg for bash, by bash-completion: commands, options, and files, panels and nodes by place.

_tfpg_options() {
    case $1 in
        diagnose | ask | fleet) echo --k --doubt --budget ;;
        predict) echo --k --doubt --budget --ahead ;;
        simulate) echo --draw --trace ;;
        generate) echo --draw --size ;;
        convert) echo --json ;;
    esac
}

# What stands at this place of a command, counted from 1.
_tfpg_place() {
    case $1$2 in
        generate* | fleet2) ;;
        diagnose1 | check1 | explain1 | simulate1 | convert1 | ask1 | fleet1 | predict1) echo graph ;;
        check2 | explain2 | ask2 | predict2) echo log ;;
        simulate2) echo script ;;
        predict3) echo node ;;
        diagnose*) echo panel ;;
    esac
}

# The nodes that a graph declares. compgen expands the words that it is given, and so would run what is no name.
_tfpg_nodes() {
    awk '/^(failure|or|and) / && $2 ~ /^[A-Za-z][A-Za-z0-9_.-]*$/ { print $2 }' 2> /dev/null < "$1"
}

# Files with this ending, if any is there that begins so, or else all files.
_tfpg_files() {
    if [ -n "$(compgen -f -X "!*.$1" -- "$cur")" ]; then _filedir "$1"; else _filedir; fi
}

_tfpg_panels() {
    case $cur in
        top:* | count:* | json:*)
            cur=${cur#*:}
            _filedir
            ;;
        *)
            COMPREPLY=($(compgen -W 'top: count: json:' -- "$cur"))
            compopt -o nospace
            ;;
    esac
}

_tfpg() {
    local cur prev words cword word place=0 graph='' after=''
    _init_completion -n =: || return
    if [ "$cword" -eq 1 ]; then
        COMPREPLY=($(compgen -W 'diagnose check explain simulate generate convert ask predict fleet help --help --version' -- "$cur"))
        return
    fi
    if [ "${words[1]}" = help ]; then
        [ "$cword" -gt 2 ] || COMPREPLY=($(compgen -W 'diagnose check explain simulate generate convert ask predict fleet' -- "$cur"))
        return
    fi
    for word in "${words[@]:2:cword-2}"; do
        case $after:$word in
            value:*) after='' ;;
            :--) after=options ;;
            :--k | :--doubt | :--budget | :--ahead | :--draw | :--size) after=value ;;
            :-?*) ;;
            *)
                place=$((place + 1))
                graph=${graph:-$word}
                ;;
        esac
    done
    [ "$after" != value ] || return 0
    if [[ $cur == -* && $after != options ]]; then
        COMPREPLY=($(compgen -W "$(_tfpg_options "${words[1]}")" -- "$cur"))
        return
    fi
    case $(_tfpg_place "${words[1]}" $((place + 1))) in
        graph) if [[ " ${words[*]} " == *' --json '* ]]; then _tfpg_files json; else _tfpg_files tfpg; fi ;;
        log) _tfpg_files log ;;
        script) _filedir ;;
        panel) _tfpg_panels ;;
        node) COMPREPLY=($(compgen -W "$(_tfpg_nodes "$graph")" -- "$cur")) ;;
    esac
} && complete -F _tfpg tfpg

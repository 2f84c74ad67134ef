# Completion of the words of tfpg for fish: commands, options, and files, panels and nodes by place.

set -l commands diagnose check explain simulate generate convert ask predict fleet

# Whether so many words stand after this command that are no options, nor values of options. After -- no word is an option.
function __tfpg_at -a command place
    set -l words (commandline -opc)
    test (count $words) -gt 1; and test "$words[2]" = $command; or return 1
    set -l seen 0
    set -l after ''
    for word in $words[3..-1]
        if test "$after" = value
            set after ''
        else if test "$after" != options; and test "$word" = --
            set after options
        else if test "$after" != options; and contains -- $word --k --doubt --budget --ahead --draw --size
            set after value
        else if test "$after" = options; or not string match -q -- '-?*' $word
            set seen (math $seen + 1)
        end
    end
    test $seen -ge $place
end

# The nodes that the graph of the words declares.
function __tfpg_nodes
    for word in (commandline -opc)[3..-1]
        if test -f $word
            string match -rg -- '^(?:failure|or|and) (\S+)' <$word
            return
        end
    end
end

complete -c tfpg -n '__fish_is_first_token' -f -a 'help --help --version'
complete -c tfpg -n '__fish_is_first_token' -f -a diagnose -d 'say after each line of a log which sets can explain it'
complete -c tfpg -n '__fish_is_first_token' -f -a check -d 'judge a report, whoever wrote it'
complete -c tfpg -n '__fish_is_first_token' -f -a explain -d 'judge a history that you propose'
complete -c tfpg -n '__fish_is_first_token' -f -a simulate -d 'make a log whose cause you know'
complete -c tfpg -n '__fish_is_first_token' -f -a generate -d 'draw a case, and say what a diagnosis says of it'
complete -c tfpg -n '__fish_is_first_token' -f -a convert -d 'write a graph as JSON, and JSON as a graph'
complete -c tfpg -n '__fish_is_first_token' -f -a ask -d 'say which observation would tell most'
complete -c tfpg -n '__fish_is_first_token' -f -a predict -d 'say when at the earliest a node can become active'
complete -c tfpg -n '__fish_is_first_token' -f -a fleet -d 'diagnose many systems of one graph on one stream'
complete -c tfpg -n '__fish_seen_subcommand_from help' -f -a "$commands"
for command in diagnose ask predict fleet
    complete -c tfpg -n "__tfpg_at $command 0" -l k -x -d 'members of a set at most, 0 to 64'
    complete -c tfpg -n "__tfpg_at $command 0" -l doubt -x -d 'monitors among them that may be wrong, 0 to 4'
    complete -c tfpg -n "__tfpg_at $command 0" -l budget -x -d 'splits for a set in a round, 1 to 10^12'
end
complete -c tfpg -n '__tfpg_at predict 0' -l ahead -x -d 'milliseconds after the last event, 0 to 10^12'
complete -c tfpg -n '__tfpg_at simulate 0' -l draw -x -d 'by which number delays are drawn, 0 to 10^12'
complete -c tfpg -n '__tfpg_at simulate 0' -l trace -d 'write the map of what happened'
complete -c tfpg -n '__tfpg_at generate 0' -l draw -x -d 'by which number the case is drawn, 0 to 10^12'
complete -c tfpg -n '__tfpg_at generate 0' -l size -x -d 'how large it is, 1 to 100'
complete -c tfpg -n '__tfpg_at generate 0' -f
complete -c tfpg -n '__tfpg_at convert 0' -l json -d 'the file has JSON, and the graph is written'
complete -c tfpg -n '__tfpg_at diagnose 1' -f -a 'top: count: json:'
complete -c tfpg -n '__tfpg_at predict 2' -f -a '(__tfpg_nodes)'
complete -c tfpg -n '__tfpg_at fleet 1' -f

# Completion of cilkwork for fish.

set -l commands check run scale sites gain greedy speedup page help
set -l runs run scale sites gain greedy speedup page
set -l burdened run scale sites gain speedup page

complete -c cilkwork -f
complete -c cilkwork -n "not __fish_seen_subcommand_from $commands" -a check -d 'compile a program and print ok'
complete -c cilkwork -n "not __fish_seen_subcommand_from $commands" -a run -d 'run a program and print its output'
complete -c cilkwork -n "not __fish_seen_subcommand_from $commands" -a scale -d 'work and span of the program and of each region'
complete -c cilkwork -n "not __fish_seen_subcommand_from $commands" -a sites -d 'work and span of each call statement'
complete -c cilkwork -n "not __fish_seen_subcommand_from $commands" -a gain -d 'spans if one function took no time'
complete -c cilkwork -n "not __fish_seen_subcommand_from $commands" -a greedy -d 'number of steps of a greedy schedule on P processors'
complete -c cilkwork -n "not __fish_seen_subcommand_from $commands" -a speedup -d 'steps and speedup by number of processors'
complete -c cilkwork -n "not __fish_seen_subcommand_from $commands" -a page -d 'an HTML page that draws all reports'
complete -c cilkwork -n "not __fish_seen_subcommand_from $commands" -a help -d 'print the help of a command'
complete -c cilkwork -n "not __fish_seen_subcommand_from $commands" -s V -l version -d 'print the version'
complete -c cilkwork -n "__fish_seen_subcommand_from help" -a "$commands"
complete -c cilkwork -n "__fish_seen_subcommand_from $commands; and not __fish_seen_subcommand_from help" -k -a "(__fish_complete_suffix .cilk)"
complete -c cilkwork -s h -l help -d 'print the help'
complete -c cilkwork -l explain -d 'explain errors in words'
complete -c cilkwork -n "__fish_seen_subcommand_from $runs" -l limit -x -d 'maximum number of instructions of the run'
complete -c cilkwork -n "__fish_seen_subcommand_from $runs" -l workers -x -d 'number of threads that execute the program'
complete -c cilkwork -n "__fish_seen_subcommand_from $burdened" -l burden -x -d 'instructions added for each charged edge'
complete -c cilkwork -n "__fish_seen_subcommand_from $burdened" -l edges -x -a 'spawn both' -d 'edges that the burden is charged on'
complete -c cilkwork -n "__fish_seen_subcommand_from scale sites gain speedup" -l table -d 'align the columns, instead of CSV'
complete -c cilkwork -n "__fish_seen_subcommand_from gain page" -l top -x -d 'maximum number of functions'
complete -c cilkwork -n "__fish_seen_subcommand_from speedup page" -l processors -x -d 'largest number of processors'

# Completions of the tool mdb for fish: commands, their options and values, and files.
set -l commands run share make audit judge fleet proxy help version
complete -c mdb -n "not __fish_seen_subcommand_from $commands" -f
complete -c mdb -n "not __fish_seen_subcommand_from $commands" -l help -d 'all commands'
complete -c mdb -n "not __fish_seen_subcommand_from $commands" -l version -d 'the version'
complete -c mdb -n "not __fish_seen_subcommand_from $commands" -a run -d 'run a script of steps, and write its log'
complete -c mdb -n "not __fish_seen_subcommand_from $commands" -a share -d 'run a script by several threads'
complete -c mdb -n "not __fish_seen_subcommand_from $commands" -a make -d 'run a script that is made'
complete -c mdb -n "not __fish_seen_subcommand_from $commands" -a audit -d 'say whether a log is legal'
complete -c mdb -n "not __fish_seen_subcommand_from $commands" -a judge -d 'judge a recording of a driver'
complete -c mdb -n "not __fish_seen_subcommand_from $commands" -a fleet -d 'run a replica set that fails over'
complete -c mdb -n "not __fish_seen_subcommand_from $commands" -a proxy -d 'run a proxy that shares connections'
complete -c mdb -n "not __fish_seen_subcommand_from $commands" -a help -d 'the usage of a command'
complete -c mdb -n "not __fish_seen_subcommand_from $commands" -a version -d 'the version'
complete -c mdb -n '__fish_seen_subcommand_from run share audit judge fleet proxy' -l help -d 'its usage'
complete -c mdb -n '__fish_seen_subcommand_from judge' -l cmap -x -a '2020 2021' -d 'the standard of a year'
complete -c mdb -n '__fish_seen_subcommand_from share; and test (count (commandline -opc)) -eq 2' -f -a '1 2 3 4 5 6 7 8'
complete -c mdb -n '__fish_seen_subcommand_from make version' -f
complete -c mdb -n '__fish_seen_subcommand_from help; and test (count (commandline -opc)) -eq 2' -f -a "$commands"

# The words of lockrun for fish. tools/compare_words holds them to what the program knows.
set -l commands check step run ticks profile
complete -c lockrun -f
complete -c lockrun -l chains -x -d 'Chains of each sort of queue, 1 to 64'
complete -c lockrun -l turns -x -d 'Turns of the run at most, 1 to 1000000'
complete -c lockrun -n "not __fish_seen_subcommand_from $commands" -a check -d 'Read the script, and count what it has'
complete -c lockrun -n "not __fish_seen_subcommand_from $commands" -a step -d 'Make the scheduled run'
complete -c lockrun -n "not __fish_seen_subcommand_from $commands" -a run -d 'Run the threads beside each other'
complete -c lockrun -n "not __fish_seen_subcommand_from $commands" -a ticks -d 'Run a script of sleeps over ticks'
complete -c lockrun -n "not __fish_seen_subcommand_from $commands" -a profile -d 'Count how each lock was held'

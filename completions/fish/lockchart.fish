# The words of lockchart for fish. tools/compare_words holds them to what the program knows.
complete -c lockchart -f
complete -c lockchart -l turns -x -d 'Turns of the run at most, 1 to 1000000'
complete -c lockchart -l chains -x -d 'Chains of each sort of queue, 1 to 64'
complete -c lockchart -l from -x -d 'The first state that is drawn, 0 to 1000000'
complete -c lockchart -l to -x -d 'The last state that is drawn, 0 to 1000000'
complete -c lockchart -l title -x -d 'The title of the picture'
complete -c lockchart -l form -x -a 'svg html trace text json' -d 'What the picture is written as'
complete -c lockchart -l version -d 'Write the version, and read nothing'
complete -c lockchart -s h -l help -d 'Write the options, and read nothing'

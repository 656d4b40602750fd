# The words of lockplan for fish. tools/compare_words holds them to what the program knows.
complete -c lockplan -f
complete -c lockplan -l by -x -a 'priority chance' -d 'Who has the next turn; a seed stands behind chance'
complete -c lockplan -l without-loans -d 'By base priorities, as if nothing were lent'
complete -c lockplan -s h -l help -d 'Write the options, and read nothing'

# Completions of first_moves for fish: install this file as PREFIX/share/fish/vendor_completions.d/first_moves.fish.

complete -c first_moves -f
complete -c first_moves -s h -l help -d 'Print help'
complete -c first_moves -s V -l version -d 'Print the version'
complete -c first_moves -l list -d 'Write a line for each turn'
complete -c first_moves -l json -d 'Write JSON, an object a line'
complete -c first_moves -l grade -d 'Write JSON with traps and a grade'
complete -c first_moves -l coordinates -d 'Name points as at the edge of the board'
complete -c first_moves -l steps -x -d 'The most steps of the search after each turn'
complete -c first_moves -l depth -x -d 'Judge the turns of the winner on the line too, up to its Nth'
complete -c first_moves -l progress -d 'Tell each turn on standard error'

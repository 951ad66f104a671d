# Completions of mark-table for fish: install this file as PREFIX/share/fish/vendor_completions.d/mark-table.fish.

complete -c mark-table -s h -l help -d 'Print help'
complete -c mark-table -l bare -d 'Write each position alone, without the moves before it'
complete -c mark-table -l circles -d 'Mark the stones that are put up by circles'

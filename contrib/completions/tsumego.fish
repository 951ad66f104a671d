# Completions of tsumego for fish: install this file as PREFIX/share/fish/vendor_completions.d/tsumego.fish.

complete -c tsumego -f
complete -c tsumego -s h -l help -d 'Print help'
complete -c tsumego -s V -l version -d 'Print the version'
complete -c tsumego -n __fish_use_subcommand -a check -d 'Judge the claim that follows a record'
complete -c tsumego -n __fish_use_subcommand -a within -d 'Say who can force a win within K turns'
complete -c tsumego -n __fish_use_subcommand -a audit -d 'Judge the answer tree of a record'
complete -c tsumego -n __fish_use_subcommand -a solve -d 'Search for a solution, and write it'
complete -c tsumego -n __fish_use_subcommand -a gtp -d 'Serve GTP commands, one a line'
complete -c tsumego -n __fish_use_subcommand -a help -d 'Print the commands, or the options of one'
complete -c tsumego -n '__fish_seen_subcommand_from solve' -l steps -x -d 'The most steps of the search'
complete -c tsumego -n '__fish_seen_subcommand_from solve' -l table -x -d 'The most entries of the table'
complete -c tsumego -n '__fish_seen_subcommand_from solve' -l proof -d 'Write the record and a claim in place of the tree'
complete -c tsumego -n '__fish_seen_subcommand_from solve' -l lift -d 'With --proof, write the claim as one lemma'
complete -c tsumego -n '__fish_seen_subcommand_from within' -l nodes -x -d 'The most states of the tree'
complete -c tsumego -n '__fish_seen_subcommand_from help' -a 'check within audit solve gtp'

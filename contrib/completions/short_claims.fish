# Completions of short_claims for fish: install this file as PREFIX/share/fish/vendor_completions.d/short_claims.fish.

complete -c short_claims -f
complete -c short_claims -s h -l help -d 'Print help'
complete -c short_claims -s V -l version -d 'Print the version'
complete -c short_claims -n __fish_use_subcommand -a prove -d 'Search for a short claim'
complete -c short_claims -n __fish_use_subcommand -a tree -d 'Search for a short claim, and write a record for readers'
complete -c short_claims -n __fish_use_subcommand -a check -d 'Judge the claim after a record'
complete -c short_claims -n __fish_use_subcommand -a help -d 'Print the commands, or the options of one'
complete -c short_claims -n '__fish_seen_subcommand_from prove' -l whole -d 'Search for a claim by answers'
complete -c short_claims -n '__fish_seen_subcommand_from prove tree' -l steps -x -d 'The most steps of the search'
complete -c short_claims -n '__fish_seen_subcommand_from help' -a 'prove tree check help'

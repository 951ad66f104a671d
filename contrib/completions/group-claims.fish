# Completions of group-claims for fish: install this file as PREFIX/share/fish/vendor_completions.d/group-claims.fish.

complete -c group-claims -l help -d 'Print help'
complete -c group-claims -l target -x -d 'A stone of the group'
complete -c group-claims -l node -x -d 'The node of the main line'
complete -c group-claims -l quick -d 'Ask by one procedure in place of two'
complete -c group-claims -l first -x -a 'attacker defender' -d 'Ask only who wins where this side moves first'
complete -c group-claims -l steps -x -d 'The most steps of the search for each question'
complete -c group-claims -l position-only -d 'Forget what was played before'
complete -c group-claims -l full-claims -d 'Claims for tsumego check in place of short ones'
complete -c group-claims -l progress -d 'Tell each question on standard error'

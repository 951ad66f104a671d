# Completions of solve-folder for fish: install this file as PREFIX/share/fish/vendor_completions.d/solve-folder.fish.

complete -c solve-folder -s h -l help -d 'Print help'
complete -c solve-folder -l run -x -d 'Ask another program, as first_moves --json'
complete -c solve-folder -l steps -x -d 'Steps for each record'
complete -c solve-folder -l timeout -x -d 'End the search of a record after so many seconds'
complete -c solve-folder -l recursive -d 'Take the files of subfolders too'
complete -c solve-folder -l all-games -d 'Take each game of a file'
complete -c solve-folder -l jobs -x -d 'Records at once, on each machine'
complete -c solve-folder -l program -r -F -d 'The program tsumego'
complete -c solve-folder -l hosts -r -F -d 'Ask on these machines by ssh, one a line'
complete -c solve-folder -l shard -x -d 'Ask this share alone'
complete -c solve-folder -l totals -d 'Join the tables of shards, and count'

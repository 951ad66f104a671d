# Completions of tsumego-server for fish: install this file as PREFIX/share/fish/vendor_completions.d/tsumego-server.fish.

complete -c tsumego-server -f
complete -c tsumego-server -s h -l help -d 'Print help'
complete -c tsumego-server -l listen -x -d 'Where to listen, as 127.0.0.1:8080'
complete -c tsumego-server -l socket -r -F -d 'Listen on this Unix socket'
complete -c tsumego-server -l jobs -x -d 'Questions that run at once'
complete -c tsumego-server -l queue -x -d 'Questions that may wait'
complete -c tsumego-server -l timeout -x -d 'End a question that runs for so long'
complete -c tsumego-server -l steps-most -x -d 'Steps that a question may ask for'
complete -c tsumego-server -l memory -x -d 'Megabytes of each process'
complete -c tsumego-server -l allow-origin -x -d 'Let pages of this origin ask'

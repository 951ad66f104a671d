# Completions of tsumego-server for bash: source this file, or install it as PREFIX/share/bash-completion/completions/tsumego-server.

_tsumego_server() {
    local word=${COMP_WORDS[COMP_CWORD]} before=${COMP_WORDS[COMP_CWORD - 1]}
    COMPREPLY=()
    case $before in
    # What follows is typed.
    --listen | --jobs | --queue | --timeout | --steps-most | --memory | --allow-origin) return ;;
    --socket | '>' | '>>' | '2>')
        compopt -o default
        return
        ;;
    esac
    mapfile -t COMPREPLY < <(compgen -W '--listen --socket --jobs --queue --timeout --steps-most --memory --allow-origin --help -h' -- "$word")
}
complete -F _tsumego_server tsumego-server

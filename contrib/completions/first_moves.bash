# Completions of first_moves for bash: source this file, or install it as PREFIX/share/bash-completion/completions/first_moves.

_first_moves() {
    local word=${COMP_WORDS[COMP_CWORD]} before=${COMP_WORDS[COMP_CWORD - 1]}
    COMPREPLY=()
    case $before in
    # What follows is a number.
    --steps | --depth) return ;;
    # Files stand only where input comes from or output goes to.
    '<' | '>' | '>>' | '2>')
        compopt -o default
        return
        ;;
    esac
    mapfile -t COMPREPLY < <(compgen -W '--list --json --grade --coordinates --steps --depth --progress --help -h --version -V' -- "$word")
}
complete -F _first_moves first_moves

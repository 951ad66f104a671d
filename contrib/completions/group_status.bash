# Completions of group_status for bash: source this file, or install it as PREFIX/share/bash-completion/completions/group_status.

_group_status() {
    local word=${COMP_WORDS[COMP_CWORD]} before=${COMP_WORDS[COMP_CWORD - 1]}
    COMPREPLY=()
    case $before in
    # What follows is a number or a point.
    --node | --target | --steps) return ;;
    --first)
        mapfile -t COMPREPLY < <(compgen -W 'attacker defender' -- "$word")
        return
        ;;
    # Files stand only where input comes from or output goes to.
    '<' | '>' | '>>' | '2>')
        compopt -o default
        return
        ;;
    esac
    mapfile -t COMPREPLY < <(compgen -W '--target --node --all --score --quick --why --first --answer --steps --position-only --json --sgf --claims --full-claims --progress --help -h --version -V' -- "$word")
}
complete -F _group_status group_status

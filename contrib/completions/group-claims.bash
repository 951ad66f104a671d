# Completions of group-claims for bash: source this file, or install it as PREFIX/share/bash-completion/completions/group-claims.

_group_claims() {
    local word=${COMP_WORDS[COMP_CWORD]} before=${COMP_WORDS[COMP_CWORD - 1]}
    COMPREPLY=()
    case $before in
    # What follows is typed.
    --target | --node | --steps) return ;;
    --first)
        mapfile -t COMPREPLY < <(compgen -W 'attacker defender' -- "$word")
        return
        ;;
    '<' | '>' | '>>' | '2>')
        compopt -o default
        return
        ;;
    esac
    case $word in
    -*) mapfile -t COMPREPLY < <(compgen -W '--target --node --quick --first --steps --position-only --full-claims --progress --help' -- "$word") ;;
    # Files and folders.
    *) compopt -o default ;;
    esac
}
complete -F _group_claims group-claims

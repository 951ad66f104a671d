# Completions of tsumego for bash: source this file, or install it as PREFIX/share/bash-completion/completions/tsumego.

_tsumego() {
    local word=${COMP_WORDS[COMP_CWORD]} before=${COMP_WORDS[COMP_CWORD - 1]} command='' options='' i
    local commands='check within audit solve gtp help'
    for ((i = 1; i < COMP_CWORD; i++)); do
        case ${COMP_WORDS[i]} in
        check | within | audit | solve | gtp | help)
            command=${COMP_WORDS[i]}
            break
            ;;
        esac
    done
    COMPREPLY=()
    case $before in
    # What follows these is a number.
    --steps | --table | --nodes) return ;;
    # Files stand only where input comes from or output goes to.
    '<' | '>' | '>>' | '2>')
        compopt -o default
        return
        ;;
    esac
    case $command in
    '') options="$commands --help -h --version -V" ;;
    solve) options='--steps --table --proof --lift --help -h' ;;
    within) options='--nodes --help -h' ;;
    help) options=$commands ;;
    *) options='--help -h' ;;
    esac
    mapfile -t COMPREPLY < <(compgen -W "$options" -- "$word")
}
complete -F _tsumego tsumego

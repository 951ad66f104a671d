# Completions of short_claims for bash: source this file, or install it as PREFIX/share/bash-completion/completions/short_claims.

_short_claims() {
    local word=${COMP_WORDS[COMP_CWORD]} before=${COMP_WORDS[COMP_CWORD - 1]} command='' options='' i
    local commands='prove tree check help'
    for ((i = 1; i < COMP_CWORD; i++)); do
        case ${COMP_WORDS[i]} in
        prove | tree | check | help)
            command=${COMP_WORDS[i]}
            break
            ;;
        esac
    done
    COMPREPLY=()
    case $before in
    # What follows this is a number.
    --steps) return ;;
    # Files stand only where input comes from or output goes to.
    '<' | '>' | '>>' | '2>')
        compopt -o default
        return
        ;;
    esac
    case $command in
    '') options="$commands --help -h --version -V" ;;
    prove) options='--whole --steps --help -h' ;;
    tree) options='--steps --help -h' ;;
    help) options=$commands ;;
    *) options='--help -h' ;;
    esac
    mapfile -t COMPREPLY < <(compgen -W "$options" -- "$word")
}
complete -F _short_claims short_claims

# Completions of problem_tools for bash: source this file, or install it as PREFIX/share/bash-completion/completions/problem_tools.

_problem_tools() {
    local word=${COMP_WORDS[COMP_CWORD]} before=${COMP_WORDS[COMP_CWORD - 1]} command='' options='' i
    local commands='split mark page picture help'
    for ((i = 1; i < COMP_CWORD; i++)); do
        case ${COMP_WORDS[i]} in
        split | mark | page | picture | help)
            command=${COMP_WORDS[i]}
            break
            ;;
        esac
    done
    COMPREPLY=()
    case $before in
    # What follows these is a number, points, or a text.
    --node | --target | --shut | --short | --depth | --numbers | --caption) return ;;
    # Files stand only where input comes from or output goes to.
    '<' | '>' | '>>' | '2>')
        compopt -o default
        return
        ;;
    --into)
        mapfile -t COMPREPLY < <(compgen -d -- "$word")
        return
        ;;
    esac
    case $before:$command in
    --to-play:*) options='black white' ;;
    --region:*) options='auto board' ;;
    --walls:*) options='open kind natural hard race given alone' ;;
    *:) options="$commands --help -h --version -V" ;;
    *:split) options='--into --help -h' ;;
    *:mark) options='--node --target --region --walls --shut --to-play --bare --help -h' ;;
    *:page) options='--short --depth --past --json --unaudited --help -h' ;;
    *:picture) options='--node --numbers --plain --no-squares --whole --caption --dark --auto --ascii --help -h' ;;
    *:help) options=$commands ;;
    *) options='--help -h' ;;
    esac
    mapfile -t COMPREPLY < <(compgen -W "$options" -- "$word")
}
complete -F _problem_tools problem_tools

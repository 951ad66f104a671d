# Completions of mark-table for bash: source this file, or install it as PREFIX/share/bash-completion/completions/mark-table.

_mark_table() {
    local word=${COMP_WORDS[COMP_CWORD]} before=${COMP_WORDS[COMP_CWORD - 1]}
    COMPREPLY=()
    case $before in
    '<' | '>' | '>>' | '2>')
        compopt -o default
        return
        ;;
    esac
    case $word in
    -*) mapfile -t COMPREPLY < <(compgen -W '--bare --circles --help -h' -- "$word") ;;
    # Files and folders.
    *) compopt -o default ;;
    esac
}
complete -F _mark_table mark-table

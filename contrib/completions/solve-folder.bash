# Completions of solve-folder for bash: source this file, or install it as PREFIX/share/bash-completion/completions/solve-folder.

_solve_folder() {
    local word=${COMP_WORDS[COMP_CWORD]} before=${COMP_WORDS[COMP_CWORD - 1]}
    COMPREPLY=()
    case $before in
    # What follows is typed.
    --run | --steps | --timeout | --jobs | --shard) return ;;
    --program | --hosts | '<' | '>' | '>>' | '2>')
        compopt -o default
        return
        ;;
    esac
    case $word in
    -*) mapfile -t COMPREPLY < <(compgen -W '--run --steps --timeout --recursive --all-games --jobs --program --hosts --shard --totals --help -h' -- "$word") ;;
    # Files and folders.
    *) compopt -o default ;;
    esac
}
complete -F _solve_folder solve-folder

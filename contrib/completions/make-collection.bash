# Completions of make-collection for bash: source this file, or install it as PREFIX/share/bash-completion/completions/make-collection.

_make_collection() {
    local word=${COMP_WORDS[COMP_CWORD]} before=${COMP_WORDS[COMP_CWORD - 1]}
    COMPREPLY=()
    case $before in
    # What follows is typed.
    --every | --stones | --liberties | --put-up | --best | --jobs | --shard | --title) return ;;
    --hosts | --program | '<' | '>' | '>>' | '2>')
        compopt -o default
        return
        ;;
    esac
    case $word in
    -*) mapfile -t COMPREPLY < <(compgen -W '--every --stones --liberties --put-up --best --jobs --hosts --program --shard --title --help -h' -- "$word") ;;
    *)
        # A step comes first; else files and folders.
        [ "$COMP_CWORD" != 1 ] || mapfile -t COMPREPLY < <(compgen -W 'find cut first grade same out game' -- "$word")
        compopt -o default
        ;;
    esac
}
complete -F _make_collection make-collection

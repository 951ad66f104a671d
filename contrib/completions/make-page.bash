# Completions of make-page for bash: source this file, or install it as PREFIX/share/bash-completion/completions/make-page.

_make_page() {
    local word=${COMP_WORDS[COMP_CWORD]} before=${COMP_WORDS[COMP_CWORD - 1]}
    COMPREPLY=()
    case $before in
    # What follows is typed.
    --per-page | --short | --depth | --title) return ;;
    --into | '<' | '>' | '>>' | '2>')
        compopt -o default
        return
        ;;
    esac
    case $word in
    -*) mapfile -t COMPREPLY < <(compgen -W '--sheet --per-page --into --keep-going --unaudited --judged --grade --short --depth --title --help -h' -- "$word") ;;
    # Files and folders.
    *) compopt -o default ;;
    esac
}
complete -F _make_page make-page

# Completions of ./faasm for bash: `source tools/completions.bash`, or a line of that kind in ~/.bashrc.
# shellcheck shell=bash

# Files of this ending, and folders, that begin as the word does.
_faasm_files() {
    local found
    compopt -o filenames 2>/dev/null
    while IFS= read -r found; do COMPREPLY+=("$found"); done < <(compgen -f -X "!*.$1" -- "$2"; compgen -d -- "$2")
}

_faasm_words() {
    local found
    while IFS= read -r found; do COMPREPLY+=("$found"); done < <(compgen -W "$1" -- "$2")
}

_faasm() {
    local word=${COMP_WORDS[COMP_CWORD]}
    COMPREPLY=()
    case "$COMP_CWORD:${COMP_WORDS[1]-}" in
    1:*) _faasm_words "check call trace run load help --build --help" "$word" ;;
    2:check | 2:call) _faasm_files wasm "$word" ;;
    2:trace | 2:run) _faasm_files json "$word" ;;
    2:help) _faasm_words "check call trace run load" "$word" ;;
    esac
}

complete -F _faasm faasm ./faasm

# Completion of vuthrel(8) in bash: its words, the options that the help of a word names, and file names. In zsh it is
# read behind `autoload -U bashcompinit && bashcompinit`.
# shellcheck shell=bash

_vuthrel_words() { "$1" --help 2>/dev/null | sed -nE 's/^    ([a-z][a-z-]*).*/\1/p'; }

# The options of a word: those that stand at the beginning of a line of its help, or in the brackets of a script's.
_vuthrel_options() {
    local help word at
    help=$("$1" "$2" --help 2>/dev/null)
    sed -nE '/^  -/{ s/^  //; s/  .*//; p }' <<<"$help" | grep -oE '(^| )--?[A-Za-z][a-z-]*' | tr -d ' '
    while read -r word; do
        for ((at = 1; at < ${#word}; at++)); do printf '%s\n' "-${word:at:1}"; done
    done < <(grep -E '^  [a-z-]+\.sh ' <<<"$help" | grep -oE '[ []-[A-Za-z]+' | tr -d ' [')
}

_vuthrel() {
    local cur=${COMP_WORDS[COMP_CWORD]}
    COMPREPLY=()
    if ((COMP_CWORD == 1)); then
        mapfile -t COMPREPLY < <(compgen -W "$(_vuthrel_words "$1")" -- "$cur")
    elif [[ $cur == -* ]]; then
        mapfile -t COMPREPLY < <(compgen -W "$(_vuthrel_options "$1" "${COMP_WORDS[1]}" | LC_ALL=C sort -u)" -- "$cur")
    else
        compopt -o filenames 2>/dev/null
        mapfile -t COMPREPLY < <(compgen -f -- "$cur")
    fi
}

complete -F _vuthrel vuthrel

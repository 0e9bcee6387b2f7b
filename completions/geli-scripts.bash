# Completion in bash of the scripts that stand beside geli(8), as geli-copy-in. It offers the options that a script's
# own help names, and file names.
# shellcheck shell=bash

# The options that the lines of a script's help have which begin with its name. -af there is -a and -f.
_geli_script_options() {
    local word at
    echo --help
    while read -r word; do
        case $word in
            --*) echo "$word" ;;
            *) for ((at = 1; at < ${#word}; at++)); do printf '%s\n' "-${word:at:1}"; done ;;
        esac
    done < <("$1" --help 2>/dev/null | grep -E "^ +${1##*/} " | grep -oE '[ []--?[A-Za-z]+' | tr -d ' [')
}

_geli_script() {
    local cur=${COMP_WORDS[COMP_CWORD]}
    COMPREPLY=()
    if [[ $cur == -* ]]; then
        mapfile -t COMPREPLY < <(compgen -W "$(_geli_script_options "$1" | LC_ALL=C sort -u)" -- "$cur")
    else
        compopt -o filenames 2>/dev/null
        mapfile -t COMPREPLY < <(compgen -f -- "$cur")
    fi
}

# shellcheck disable=SC2046
complete -F _geli_script $(compgen -c geli- | grep -vx geli-nbd | LC_ALL=C sort -u)

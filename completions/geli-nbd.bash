# Completion of geli-nbd(8) in bash: options, the numbers of key slots, and file names.
# shellcheck shell=bash

# File names. Of a word with colons, as behind:FILE, readline puts in only what is behind the last one.
_geli_nbd_files() {
    local files=$1
    compopt -o filenames 2>/dev/null
    case $1 in behind:* | join:*) files=${1##*:} ;; esac
    mapfile -t COMPREPLY < <(compgen -f -- "$files")
}

_geli_nbd() {
    local cur=${COMP_WORDS[COMP_CWORD]} before=
    ((COMP_CWORD < 2)) || before=${COMP_WORDS[COMP_CWORD - 1]}
    COMPREPLY=()
    if [[ $cur == : ]]; then cur=; fi
    case $before in
        -n | -[pr]*n) mapfile -t COMPREPLY < <(compgen -W '0 1' -- "$cur") ;;
        *)
            case $cur in
                --*) mapfile -t COMPREPLY < <(compgen -W '--help --version' -- "$cur") ;;
                -*) mapfile -t COMPREPLY < <(compgen -W '-p -r -v -j -k -n --help --version' -- "$cur") ;;
                *) _geli_nbd_files "$cur" ;;
            esac ;;
    esac
}

complete -F _geli_nbd geli-nbd

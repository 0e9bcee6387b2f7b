# Completion of geli(8) in bash: `. completions/geli.bash`, or put this file where bash looks for completions.
# It offers verbs, the options of each verb, values with a fixed choice, and file names. It runs no geli.
# shellcheck shell=bash

# What follows is printed by tools/verbs.py from man/geli.8: change the page and run it again.
_geli_verbs='attach backup delkey detach dump eject fill flush init kill list read reap resize restore resume script setkey step submit sum suspend verify write'

# The option letters of a verb: those without a value, then behind a colon those with one.
_geli_letters() {
    case $1 in
        init) echo PRv:aBeiJKls ;;
        attach) echo Cprv:jkn ;;
        detach | restore) echo fv: ;;
        setkey) echo pPv:ijJkKn ;;
        delkey) echo afv:n ;;
        kill | backup | dump | suspend) echo v: ;;
        resize) echo v:s ;;
        resume) echo pv:jk ;;
        verify) echo rv: ;;
    esac
}

# What is offered for an operand: VERB, how many operands stand before it, and what is typed of it.
_geli_operand() {
    case $1:$2 in
        list:0) ;;
        submit:1) mapfile -t COMPREPLY < <(compgen -W 'read write flush' -- "$3") ;;
        *:0 | backup:1 | restore:1 | verify:1) _geli_files "$3" ;;
    esac
}
# End of what tools/verbs.py prints.

# File names. Of a word with colons readline puts in only what is behind the last one, so that alone is offered.
_geli_files() {
    local at head=
    compopt -o filenames 2>/dev/null
    case $1 in
        behind:* | join:*) mapfile -t COMPREPLY < <(compgen -f -- "${1##*:}") ;;
        *)
            mapfile -t COMPREPLY < <(compgen -f -- "$1")
            [[ $1 != *:* ]] || head=${1%:*}:
            for at in "${!COMPREPLY[@]}"; do COMPREPLY[at]=${COMPREPLY[at]#"$head"}; done ;;
    esac
}

# Sets `words` and `place` to the words of the line and the cursor's among them: readline breaks words at colons.
_geli_words() {
    local at word joins=
    words=() place=0
    for ((at = 0; at < ${#COMP_WORDS[@]}; at++)); do
        word=${COMP_WORDS[at]}
        if [ -n "$joins" ] || { [[ $word == :* ]] && ((${#words[@]} > 1)); }; then
            words[-1]+=$word
        else
            words+=("$word")
        fi
        case $word in *:) joins=yes ;; *) joins= ;; esac
        ((at != COMP_CWORD)) || place=$((${#words[@]} - 1))
    done
}

# What may stand behind an option with a value, of this verb.
_geli_value() {
    case $1 in
        a) mapfile -t COMPREPLY < <(compgen -W 'HMAC/SHA256 HMAC/SHA384 HMAC/SHA512' -- "$2") ;;
        e) mapfile -t COMPREPLY < <(compgen -W 'AES-XTS AES-CBC' -- "$2") ;;
        l) mapfile -t COMPREPLY < <(compgen -W '128 192 256' -- "$2") ;;
        n) mapfile -t COMPREPLY < <(compgen -W '0 1' -- "$2") ;;
        i) mapfile -t COMPREPLY < <(compgen -W '100000 1000000' -- "$2") ;;
        s) [ "$3" = resize ] || mapfile -t COMPREPLY < <(compgen -W '512 1024 2048 4096 8192 16384 32768 65536' -- "$2") ;;
        *) _geli_files "$2" ;;
    esac
}

_geli() {
    local words place cur verb alone valued word letter
    local -i at operands=0 waits=0 ended=0
    _geli_words
    cur=${words[place]} verb=${words[1]}
    COMPREPLY=()
    if ((place == 1)); then
        mapfile -t COMPREPLY < <(compgen -W "$_geli_verbs" -- "$cur")
        return
    fi
    if [ "$verb" = script ]; then
        _geli_files "$cur"
        return
    fi
    IFS=: read -r alone valued <<<"$(_geli_letters "$verb")"

    # What the words before the cursor's say: whether an option waits for its value, and how many operands there are.
    for ((at = 2; at < place; at++)); do
        word=${words[at]}
        if ((waits)); then
            waits=0
        elif ((ended == 0)) && [ "$word" = -- ]; then
            ended=1
        elif ((ended == 0)) && [[ $word == -?* ]]; then
            word=${word#-}
            while [ -n "$word" ]; do
                letter=${word:0:1}
                word=${word:1}
                if [[ -n $valued && $valued == *"$letter"* ]]; then
                    if [ -z "$word" ]; then waits=1; fi
                    break
                fi
            done
        else
            ended=1
            operands+=1
        fi
    done

    if ((waits)); then
        _geli_value "$letter" "$cur" "$verb"
        return
    fi
    if ((ended == 0)) && [[ $cur == -* ]]; then
        local options=
        for ((at = 0; at < ${#alone}; at++)); do options+=" -${alone:at:1}"; done
        for ((at = 0; at < ${#valued}; at++)); do options+=" -${valued:at:1}"; done
        mapfile -t COMPREPLY < <(compgen -W "$options" -- "$cur")
        return
    fi
    _geli_operand "$verb" "$operands" "$cur"
}

complete -F _geli geli

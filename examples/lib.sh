# lib.sh: what the scripts of this folder share. They read it with `.`; alone it does nothing.
#
# GELI and GELI_NBD name the programs, `geli` and `geli-nbd` on the path if they aren't set. The scripts need bash 4.4
# or later, and python3.
# shellcheck shell=bash

GELI=${GELI:-geli}
GELI_NBD=${GELI_NBD:-geli-nbd}
library=$(dirname -- "$(readlink -f -- "${BASH_SOURCE[0]}")")
program=${GELI_CALLED_AS:-${0##*/}} # as another name starts it
unset GELI_CALLED_AS
umask 077 # every file that is made here is the caller's alone
ulimit -c 0 # a core would have keys

# shown TEXT: a text as a terminal may get it: a control character, as of a file's name, is shown as ?. Newlines stay.
shown() {
    local LC_ALL=C text
    text=${1//[$'\001'-$'\010'$'\013'-$'\037'$'\177']/?}
    printf '%s\n' "${text//$'\302'[$'\200'-$'\237']/?}" # those of UTF-8
}
note() { shown "$*" >&2; }
fail() {
    note "$program: $*"
    exit 1
}

# go_on_as WORD OPTION...: goes on as `vuthrel WORD`, in a clone or where it is installed. It says the script's name.
go_on_as() {
    local starter=$library/../vuthrel
    [ -f "$starter" ] || starter=$library/../../bin/vuthrel
    VUTHREL_CALLED_AS=$program GELI=$GELI GELI_NBD=$GELI_NBD exec "$starter" "$@"
}

# -h or --help: the head of the script, which says what it does and takes.
case ${1:-} in
    -h | --help)
        sed -n '2,/^[^#]/s/^# \{0,1\}//p' "$0"
        exit 0 ;;
esac

# A script that may stop halfway says here what it leaves then, and how to go on.
left() { :; }
private='' secrets=() on_disk='' asker=''
at_end() {
    local status=$? descriptor
    if [ -n "$asker" ]; then # it shows again what is typed
        kill "$asker" 2>/dev/null || :
        wait "$asker" || :
    fi
    if [ "$status" != 0 ]; then left; fi
    for descriptor in ${secrets[@]+"${secrets[@]}"}; do : >|"/dev/fd/$descriptor"; done
    if [ -n "$private" ]; then rm -rf -- "$private"; fi
}
trap at_end EXIT
trap 'exit 130' INT TERM HUP

# Sets `memory` to a folder in memory, if the system has such a place. Its name is part of words of a script.
find_memory() {
    for memory in "${XDG_RUNTIME_DIR:-}" /dev/shm "${TMPDIR:-/tmp}"; do
        if [ -d "$memory" ] && [ -w "$memory" ] && [[ $memory != *[[:space:]:]* ]]; then return; fi
    done
    fail 'there is no folder for a passphrase: TMPDIR names another, without blanks'
}

# private_folder [FILE]: a folder in memory, which goes away when the script ends. FILE gets its name before it is
# there, so that who comes after a kill can remove it. No key or passphrase is put there: see secret_file.
# shellcheck disable=SC2120 # one script gives it
private_folder() {
    [ -z "$private" ] || return 0
    find_memory
    private=$(mktemp -u "$memory/geli.XXXXXXXXXX")
    [ -z "${1:-}" ] || printf '%s\n' "$private" >"$1"
    mkdir -- "$private" || { private='' && fail "no private folder in $memory"; }
}

# Says it once if the folder is on a disk, which may keep what was removed.
tell_disk() {
    case ${on_disk:=$(stat -f -c %T -- "$memory")} in
        tmpfs | ramfs | told) ;;
        *) on_disk=told && note "note: a passphrase goes to a removed file on the disk of '$memory'" \
            '(XDG_RUNTIME_DIR names a folder in memory)' ;;
    esac
}

# secret_file: sets `secret` to the name /dev/fd/N of a new, empty file in memory that is in no folder. The programs
# that are started here have it too, and can open it again and again. Nothing of it is left once they all have ended,
# however they end, by SIGKILL too.
secret_file() {
    local name descriptor
    find_memory
    name=$(mktemp "$memory/geli.XXXXXXXXXX") || fail "no file for a passphrase can be made in $memory"
    exec {descriptor}<>"$name"
    rm -f -- "$name"
    tell_disk
    secrets+=("$descriptor")
    secret=/dev/fd/$descriptor
}

# sure_of NAME WHAT: goes on only if somebody types the name at the terminal.
sure_of() {
    local typed
    has_terminal || fail 'nothing was changed: no terminal to ask at'
    IFS= read -r -p "type the name of the image to $2: " typed </dev/tty || fail 'nothing was changed'
    [ "$typed" = "$1" ] || fail 'nothing was changed: the names differ'
}

# If geli makes the file, its name in a command can't be a link as in one_word.
is_text() {
    python3 -I -c 'import sys; sys.argv[1].encode()' "$1" 2>/dev/null || fail "the name '$1' is no UTF-8: use another"
}

# usable NAME: refuses an empty name, and one from whose end `$(...)` would take a newline: that is another file.
usable() {
    case $1 in
        '') fail 'a file name is empty' ;;
        *$'\n') fail "the name of a file ends in a newline, and is refused: $1" ;;
    esac
}

# The name of a file, so that it is no option, and no layer.
plain() {
    usable "$1"
    case $1 in
        */*) printf '%s' "$1" ;;
        *) printf './%s' "$1" ;;
    esac
}

# one_word NAME: sets `word` to a name of the file that a line of a script can hold. Where the name itself can't, as
# with blanks, that is a link in the private folder.
links=0
one_word() {
    local LC_ALL=C
    usable "$1"
    case $1 in
        *[!A-Za-z0-9._/:,+=@%~^-]*)
            private_folder
            word=$private/name$((links += 1))
            ln -s -- "$(realpath -ms -- "$1")" "$word" ;;
        *) word=$(plain "$1") ;;
    esac
}

# image_of NAME: sets `image` to the word for the image, and `files` to the files that it lies in. As for geli itself,
# `behind:FILE` and `join:FILE:FILE` are layers over files; ./behind:FILE is a file of that name.
image_of() {
    local LC_ALL=C # a name need be no UTF-8
    if [[ $1 =~ ^behind:(.+)$ ]]; then
        files=("${BASH_REMATCH[1]}")
        image=behind:
    elif [[ $1 =~ ^join:([^:]+):(.+)$ ]]; then
        files=("${BASH_REMATCH[1]}" "${BASH_REMATCH[2]}")
        image=join:
    else
        files=("$1")
        image=''
    fi
    one_word "${files[0]}"
    image+=$word
    if [ ${#files[@]} = 2 ]; then
        one_word "${files[1]}"
        image+=:$word
    fi
}

# A file, or a block device, that can be read.
readable() {
    [ -e "$1" ] || fail "there is no file '$1'"
    if [ ! -r "$1" ] || { [ ! -f "$1" ] && [ ! -b "$1" ]; }; then
        fail "'$1' is no file that can be read"
    fi
}

# The files of the image can be read; with `written`, and written.
image_is_there() {
    local file
    for file in "${files[@]}"; do
        readable "$file"
        [ "${1:-}" != written ] || [ -w "$file" ] || fail "'$file' can't be written"
    done
}

# The programs that are used here: geli, python3 and these.
need() {
    local name package
    for name in "$GELI" python3 "$@"; do
        if command -v "$name" >/dev/null; then
            # The launcher of a clone builds the program now, so that this can be said: not while it mounts, nor once a
            # passphrase was typed.
            [ "$name" != "$GELI" ] || "$name" list </dev/null >/dev/null || fail "'$name' doesn't run"
            [ "$name" != "$GELI_NBD" ] || "$name" --version </dev/null >/dev/null || fail "'$name' doesn't run"
            continue
        fi
        case $name in
            python3) package='Debian: python3' ;;
            nbdkit) package='Debian: nbdkit' ;;
            nbdfuse) package='Debian: libnbd-bin' ;;
            fusermount3) package='Debian: fuse3' ;;
            fuse2fs) package='Debian: fuse2fs' ;;
            mke2fs) package='Debian: e2fsprogs, in /sbin' ;;
            grub-mount) package='Debian: grub-common' ;;
            "$GELI") package='GELI names the geli to use' ;;
            "$GELI_NBD") package='GELI_NBD names the geli-nbd to use' ;;
            *) package='' ;;
        esac
        fail "the program '$name' isn't there${package:+ ($package)}"
    done
}

has_terminal() { { : </dev/tty; } 2>/dev/null; }

LARGEST_KEY_FILE=1048576 # bytes, as for geli itself
# stays NAME: sets `stays` to a name under which the file can be read again and again, by other processes too. A pipe,
# as of `-j <(pass show disk)`, is copied into memory: a device, or what has no end, isn't.
stays() {
    if [ ! -r "$1" ] || [ -d "$1" ]; then
        [ "$1" != - ] || fail "the file '-' can't be read: standard input is /dev/stdin"
        [ -e "$1" ] || fail "there is no file '$1'"
        fail "the file '$1' can't be read"
    fi
    [ ! -b "$1" ] || fail "'$1' is a disk, and no key file or passphrase file"
    stays=$1
    if [ -f "$1" ] && (($(stat -Lc '0%a & 6' -- "$1"))); then note "note: everybody may use the file '$1'"; fi
    if [ ! -f "$1" ] || [[ $1 == /dev/* || $1 == /proc/* ]]; then
        secret_file
        stays=$secret
        head -c $((LARGEST_KEY_FILE + 1)) -- "$1" >"$stays" || fail "the file '$1' can't be read"
        (($(stat -Lc %s -- "$stays") <= LARGEST_KEY_FILE)) || fail "'$1' has more than 1 MiB: no key file is longer"
    fi
}

# What looks at a passphrase, or asks for one, does it in a shell of its own that ends with that: so the script's own
# memory never has it, for however long the script runs.

# ask_passphrase WHAT: asks at the terminal, and sets `secret` to a file whose first line the answer is.
ask_passphrase() {
    local -i status=0
    has_terminal || fail "no terminal to ask for the $1: name a file whose first line it is, by -j"
    secret_file
    trap '' TSTP # one that was stopped here would go on with what is typed shown
    (
        trap - INT TERM HUP
        IFS= read -r -s -p "$1: " first </dev/tty || fail 'nothing was typed'
        printf '\n' >/dev/tty
        [ -n "$first" ] || fail "the $1 is empty"
        printf '%s\n' "$first" >"$secret"
    ) &
    asker=$! # a signal to this shell is heard meanwhile
    wait "$asker" || status=$?
    asker=''
    [ "$status" = 0 ] || exit "$status"
    trap - TSTP
}

# The options -k, -j and -p of a key: `key_option LETTER VALUE` for each, then `key_ready`.
key=()
has_passphrase=
key_option() {
    case $1 in
        k | j)
            stays "$2"
            one_word "$stays"
            key+=("-$1" "$word") ;;
        p) key+=(-p) ;;
    esac
    case $1 in p | j) has_passphrase=$1 ;; esac
}
key_ready() {
    if [ -z "$has_passphrase" ]; then
        ask_passphrase passphrase
        key+=(-j "$secret")
    fi
    tell_iterations
}

MANY=50000000 # iterations, of which each try of a key takes about a minute
# A provider of somebody else may ask for as many as there can be.
tell_iterations() {
    local iterations
    iterations=$("$GELI" dump "$image" | sed -n 's/^iterations: \([0-9]*\)$/\1/p') || :
    ((${iterations:-0} < MANY)) || note "note: a key of '$image' goes through $iterations iterations of PBKDF2:" \
        "each try may take $((iterations / MANY)) minutes and more"
}


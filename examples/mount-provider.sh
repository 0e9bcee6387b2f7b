#!/usr/bin/env bash
# mount-provider.sh: mounts the filesystem in a provider on a folder, without being root, until it is unmounted.
#
#   mount-provider.sh [-mMrcgK] [-n PARTITION] [-p] [-j PASSFILE] [-k KEYFILE]... IMAGE FOLDER
#   mount-provider.sh -u [-f] FOLDER
#   mount-provider.sh -l
#
# An ext2, ext3 or ext4 is mounted by fuse2fs; any other filesystem by grub-mount, read-only, such as FreeBSD's UFS.
# -m: makes an ext4 first, if the provider is new. -M: makes one over whatever is in it, and asks before.
# -r: read-only. -n: the filesystem in this partition of the data, counted from 1. -g: grows an ext4 to its provider.
# The passphrase is asked for; -j names a file whose first line it is, -p says that there is none.
#
# An ext4 is checked before it is mounted to be written to. A damaged one isn't mounted: -c repairs it (e2fsck -fy);
# copy the image before.
#
# It stays mounted when the terminal is closed. -u unmounts it, and exits with 0 only if all that was written meanwhile
# is in the provider and flushed, and no write was refused. umount(8) unmounts it too, without that exit status. If
# another mount namespace has the mount too, -u waits for it; with -f it ends it there. The state of the mounts is kept
# in /tmp/geli-mounts-UID (GELI_MOUNTS names another folder). -l lists them, and those that go wrong, as when the image
# was removed or replaced, or went wrong and for which -u wasn't given yet; if there are such, with status 1.
#
# If a program of the mount dies, each access to the folder is an error until -u, so that nobody goes on writing plain
# text to the folder below. After an end by a signal, such as a logout's, only root can write there until -u or the next
# mount.
#
# What was written is safe from a power failure once an fsync(2) of a file that is open for writing has succeeded, or
# some seconds later: every three seconds all that was done is written and synced (for that an empty
# lost+found/.geli-sync is made where there is no file at all). At once fuse2fs does nothing for an fsync of a folder,
# or of a file that is open for reading, nor for `sync`, `sync FILE` and `sync -f`. So a database of sqlite needs
# `pragma journal_mode=wal` or truncate, or -K. The check before the next mount mends the rest; if it refuses, -c does,
# and keeps what was fsynced.
#
# -K, as root, mounts by the kernel and a loop device instead. Its ext4 has a journal, and keeps each fsync and `sync`.
#
# fuse2fs 1.47 has its limits: on a full disk cp may exit with 0, but -u then with 1. It loses blocks of files with
# extents whose space was allocated ahead, so -m makes an ext4 without extents; its largest file has 4,402,345,721,856
# bytes. A file that is deleted while it is open stays as .fuse_hidden..., and deleting frees no space of the image's
# disk.
#
# It needs geli-nbd, python3 with pyfuse3 and libnbd's module, fusermount3, and fuse2fs or grub-mount; -n needs nbdkit.
# Without those modules nbdfuse does, and writing takes some six times as long. On Debian:
#
#   apt install python3-pyfuse3 python3-libnbd fuse3 fuse2fs e2fsprogs grub-common nbdkit
set -euo pipefail
# shellcheck source=lib.sh
. "$(dirname -- "$(readlink -f -- "${BASH_SOURCE[0]}")")/lib.sh"

usage() {
    note "usage: $program [-mMrcgK] [-n PARTITION] [-p] [-j PASSFILE] [-k KEYFILE]... IMAGE FOLDER" \
        "or $program -u [-f] FOLDER or $program -l"
    exit 2
}

# absolute NAME: the whole path of a folder, also of a mount whose program has died.
absolute() { realpath -e -- "$1" 2>/dev/null || realpath -ms -- "$1"; }

# In /tmp anybody can make a folder, or a link, of this name; nobody can replace one that is another's.
is_own() { [[ -d $mounts && ! -L $mounts && -O $mounts ]] || fail "'$mounts' is another user's"; }

# Whether the options exclude each other, or the user may not.
options_agree() {
    [[ $options != *[mMcg]*r* && $options != *r*[mMcg]* ]] || fail 'one of the options writes, and -r only reads'
    [[ $options != *K* ]] || ((EUID == 0)) || fail '-K is for root: the kernel mounts it'
}

# keeper WORD...: goes on in python3. No signal ends that before it can hear them.
keeper() {
    trap '' INT TERM HUP
    exec env --block-signal=INT,TERM,HUP python3 -I -B "$library/keep_mount.py" "$program" "$@"
}

# Says by how much the disk could fall short, of an image that takes space as it is written.
tell_shortage() {
    local -i lacks=0 whole room
    local file
    for file in "${files[@]}"; do
        [ ! -f "$file" ] || lacks+=$(stat -Lc '%s-%b*%B' -- "$file")
    done
    read -r whole room < <(df --output=size,avail -B1 -- "${files[0]}" | tail -n 1)
    ((whole == 0 || lacks <= room)) || # nbdfuse's file has no disk
        note "note: '$1' may come to take $lacks bytes more, and its disk has room for $room: writes may be refused"
}

# Sets `bridge` to a python3 that has what nbd_bridge.py needs; to nothing if none has.
find_bridge() {
    for bridge in python3 /usr/bin/python3 ''; do
        ! "${bridge:-true}" -I -c 'import nbd, pyfuse3, trio' 2>/dev/null || return 0
    done
}

# take_over: the folder of a mount is there. It is an end that nobody asked for yet, a mount, or one whose
# mount-provider.sh died before anything was begun.
take_over() {
    local hint
    hint="give '$program -u $(printf %q "$folder")' first"
    exec {claim}<>"$state/result"
    flock -n "$claim" || fail "a mount of '$folder' begins, is there or ends: $hint"
    [ ! -s "$state/result" ] || fail "the last mount of '$folder' went wrong: $hint"
    [ ! -e "$state/device" ] || fail "there are leftovers of a mount of '$folder': $hint"
    remove_claim
}

# Removes the folder of a mount for which nothing runs yet; nobody else claims it meanwhile.
remove_claim() {
    local old=''
    [ ! -s "$state/private" ] || old=$(<"$state/private")
    [ -z "$old" ] || rm -rf -- "$old"
    rm -rf --one-file-system -- "$state"
}

# claim_folder: makes the folder of the mount, and locks its result, which is a claim that ends with this process and
# the keeper. Of two at once one is first.
claim_folder() {
    mkdir -p -- "$mounts"
    is_own
    chmod 700 "$mounts"
    exec {top}<"$mounts"
    flock "$top"
    [ ! -d "$state" ] || take_over
    mkdir -- "$state"
    exec {claim}<>"$state/result"
    flock "$claim"
    fallocate -n -l 4096 -- "$state/result" 2>/dev/null || : # room for what is said in the end
    exec {top}<&-
    left() {
        exec {top}<"$mounts"
        flock "$top"
        remove_claim
    }
    printf '%s\n' "$$" >"$state/keeper"
}

options='' partition='' ends='' lists=''
while getopts lmMrcgKfun:pj:k: option; do
    case $option in
        u) ends=yes ;;
        l) lists=yes ;;
        n) partition=$OPTARG ;;
        p | j | k) key_option "$option" "${OPTARG:-}" ;;
        [mMrcgKf]) options+=$option ;;
        *) usage ;;
    esac
done
shift $((OPTIND - 1))
if [ -n "$lists" ]; then
    [ $# -eq 0 ] || usage
elif [ -n "$ends" ]; then
    [ $# -eq 1 ] || usage
else
    [[ $# -eq 2 && $options != *f* ]] || usage
fi
PATH=$PATH:/usr/sbin:/sbin # blkid and mke2fs
usable "${!#}"
folder=$(absolute "${!#}")
# Of everybody's places the one that is the same in each session, and stays when one ends.
mounts=$(realpath -ms -- "${GELI_MOUNTS:-/tmp/geli-mounts-$(id -u)}")
state=$mounts/$(printf '%s' "$folder" | sha256sum | cut -c1-16)
if [ -n "$lists" ]; then
    [ ! -e "$mounts" ] || is_own
    keeper list state="$mounts"
fi
if [ -n "$ends" ]; then
    [ ! -d "$state" ] || is_own
    keeper unmount state="$state" folder="$folder" options="$options"
fi
need "$GELI_NBD" fusermount3 blkid mountpoint flock
find_bridge
[ -n "$bridge" ] || need nbdfuse
[ -z "$partition" ] || need nbdkit
options_agree
! mountpoint -q -- "$folder" || fail "something is mounted on '$folder' already"
image_of "$1"
image_is_there ''
for file in "${files[@]}"; do
    [[ $options = *r* ]] || [ -w "$file" ] || fail "'$file' can't be written: give -r"
done
claim_folder
[ -d "$folder" ] || fail "'${!#}' is no folder"
[ -z "$(find "$folder" -mindepth 1 -print -quit)" ] || fail "'$folder' isn't empty: what is in it would be hidden"
if [[ $options = *M* ]]; then
    note "$1: the files in it will be lost"
    sure_of "$1" 'make an ext4 over them'
fi
if [ -n "$private" ]; then printf '%s\n' "$private" >"$state/private"; else private_folder "$state/private"; fi
key_ready
[[ $options = *r* ]] || tell_shortage "$1"
# From here on the keeper removes what there is.
keeper mount state="$state" folder="$folder" options="$options" claim="$claim" here="$PWD" name="$1" \
    geli-nbd="$(command -v "$GELI_NBD")" image="$image" file="${files[0]}" key="${key[*]}" partition="$partition" \
    bridge="$bridge"

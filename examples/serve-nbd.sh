#!/usr/bin/env bash
# serve-nbd.sh: serves the data of a provider as a network block device, on a socket that its owner alone may use.
#
#   serve-nbd.sh [-r] [-n PARTITION] [-p] [-j PASSFILE] [-k KEYFILE]... IMAGE SOCKET
#   serve-nbd.sh -e SOCKET
#
# SOCKET must not exist. The server runs until `serve-nbd.sh -e SOCKET` ends it. It is geli-nbd(8) with nbdkit at the
# socket, so that the key is derived once for all clients. -e waits for the clients to disconnect, says who they are,
# and flushes and detaches the provider. It exits with 0 only if that went well and no write of a client was refused,
# for example on a full disk. Otherwise it says how many writes were refused, when the first was, and why.
# -r: read-only. -n: only this partition of the data, counted from 1. The passphrase is asked for; -j names a
# file whose first line it is, -p says that there is none.
# It needs nbdkit; geli-nbd(8) alone serves one client. Some clients, with URI=nbd+unix:///?socket=SOCKET (whole path):
#
#   nbdcopy disk.img "$URI"; nbdcopy "$URI" disk.img          a whole copy in, or out
#   nbdfuse FOLDER "$URI" & mke2fs -t ext4 FOLDER/nbd         the data as a plain file, for any program
#   fuse2fs FOLDER/nbd DIR -o fakeroot                        its ext4 mounted, without being root
#   qemu-system-x86_64 -drive id=d,if=none,file="$URI",format=raw,cache=none \
#       -device virtio-blk-pci,drive=d,werror=stop,rerror=stop,logical_block_size=4096,physical_block_size=4096
#   nbd-client -unix SOCKET /dev/nbd0 && mount /dev/nbd0 DIR  a disk of Linux (root, kernel module nbd)
#
# With werror=stop a virtual machine waits while the image's disk is full, and goes on by `cont` of its monitor;
# otherwise it may get an I/O error, which damages its filesystem. It is told sectors of 512 bytes if nothing else is
# said, and each write of less than a sector here is a read too. fstrim(8) in it says that space was freed, and none is:
# geli-nbd has no trimming.
#
# If the provider is in a partition of a whole disk image, IMAGE can be a loop device of that partition:
#
#   losetup --find --show --offset BYTES --sizelimit BYTES disk.img
#
# A client's write is in the image once it is acknowledged, and safe from a power failure once the client has flushed,
# as it does when it unmounts; no `sync` reaches fuse2fs 1.47. IMAGE may be a file on another machine; what is below it
# must not connect anew by itself (CAVEATS of geli-nbd(8)). After a crash see after-a-power-failure.sh, and check the
# filesystem (e2fsck). Reading a sector of an authenticated provider that was never written is an I/O error: make such a
# provider by make-provider.sh -a.
set -euo pipefail
# shellcheck source=lib.sh
. "$(dirname -- "$(readlink -f -- "${BASH_SOURCE[0]}")")/lib.sh"

usage() {
    note "usage: $program [-r] [-n PARTITION] [-p] [-j PASSFILE] [-k KEYFILE]... IMAGE SOCKET" \
        "or $program -e SOCKET"
    exit 2
}

# Whether a process is a server that still runs.
is_server() {
    local name state
    { read -r _ name state _ <"/proc/$1/stat"; } 2>/dev/null && [[ $name = '(python'* ]] && [ "$state" != Z ]
}

# Says who is connected to the server at a socket.
tell_clients() {
    local client
    note "$1: a client is connected, and is waited for: unmount, or end it"
    while read -r client; do
        [ "$client" = 0 ] || note "  process $client: $({ tr '\0' ' ' <"/proc/$client/cmdline"; } 2>/dev/null || :)"
    done <"$2"
}

# Ends the server at a socket, and returns whether all was flushed. It serves its clients until they disconnect.
end_server() {
    local socket=$1 pid said=''
    local -i turns=0
    [ -r "$socket.pid" ] || fail "there is no '$socket.pid': no server runs behind '$socket'"
    [[ -O $socket.pid && ! -L $socket.pid ]] || fail "'$socket.pid' is another user's"
    pid=$(<"$socket.pid")
    ! is_server "$pid" || kill "$pid"
    while is_server "$pid"; do
        if ((++turns == 10)) && [ -s "$socket.clients" ]; then tell_clients "$1" "$socket.clients"; fi
        if ((turns == 30)) && [ ! -s "$socket.clients" ]; then note "$1: waiting for the disk"; fi
        sleep 0.1
    done
    if [ -r "$socket.ended" ]; then said=$(<"$socket.ended"); fi
    rm -f -- "$socket" "$socket.pid" "$socket.ended" "$socket.clients"
    case $said in
        ok) note "$1: ended, all is flushed" ;;
        '') fail 'the server had ended by itself: what was written since the last flush may be lost' ;;
        *) fail "what clients wrote may be lost: $said" ;;
    esac
    exit 0
}

readonly=() partition=() ends=''
while getopts ern:pj:k: option; do
    case $option in
        e) ends=yes ;;
        r) readonly=(-r) ;;
        n) partition=("partition=$OPTARG") ;;
        p | j | k) key_option "$option" "${OPTARG:-}" ;;
        *) usage ;;
    esac
done
shift $((OPTIND - 1))
if [ -n "$ends" ]; then
    [ $# -eq 1 ] || usage
    usable "$1"
    end_server "$1"
fi
[ $# -eq 2 ] || usage
image_of "$1"
usable "$2"
socket=$(realpath -m -- "$2")
need "$GELI_NBD" nbdkit setsid
image_is_there ''
for file in "${files[@]}"; do
    [ ${#readonly[@]} -gt 0 ] || [ -w "$file" ] || fail "'$file' can't be written: give -r"
done
for name in "$socket" "$socket.pid" "$socket.ended" "$socket.clients"; do
    if [ -e "$name" ] || [ -L "$name" ]; then fail "'$name' is there already: is a server running?"; fi
done
[ -d "${socket%/*}/" ] || fail "there is no folder '${socket%/*}'"
is_text "$socket"
((${#socket} < 100)) || fail "'$socket' is too long for a socket: use a shorter path"
key_ready

# It goes to the background once the provider is attached; no key file is needed any more then. A session of its own
# keeps it running when the terminal is closed. If this is broken off before, nobody has asked it to write yet.
left() {
    [ -z "${!:-}" ] || kill -KILL -- "-$!" "$!" 2>/dev/null || : # it may have no session yet
    rm -f -- "$socket" "$socket.pid"{,.new} "$socket.ended" "$socket.clients"
}
setsid python3 -I -B "$library/nbd_server.py" ended="$socket.ended" "${partition[@]}" socket="$socket" \
    clients="$socket.clients" pid="$socket.pid" -- "$(command -v "$GELI_NBD")" "${readonly[@]}" "${key[@]}" "$image" &
wait "$!" || fail 'nothing is served'
path=$(python3 -I -c 'import sys, urllib.parse; print(urllib.parse.quote(sys.argv[1]))' "$socket")
note "$1: served at nbd+unix:///?socket=$path until $program -e $(printf %q "$2")"

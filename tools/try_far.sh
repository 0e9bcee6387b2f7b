#!/usr/bin/env bash
# Tries mounts of images that are elsewhere: an image at the far end of a connection, as a file of nbdfuse(1). The far
# end is killed in the middle of writes. The status is 1 where something is otherwise than said.
#
#   tools/try_far.sh [PROGRAM [CASE...]]      without a word: the program that ./geli runs, and all cases
#
# tcp: nbdkit's plain file over TCP on this machine. ssh: a file by nbdkit's plugin ssh, where `ssh localhost` asks for
# nothing. join: an image of two parts, the first here and the second by TCP. retry: what must not be below an image, a
# connection that is made anew by itself: it loses what it acknowledged, and nobody is told. So it is seen, not held.
#
# GELI_NBD names the other program, without it that which ./geli-nbd runs. It needs what mount-provider.sh needs, nbdfuse
# and nbdkit. ROUNDS is how often the far end is killed in a case (5). It is no part of the gate.
set -u
top=$(cd "$(dirname "$(readlink -f "${BASH_SOURCE[0]}")")/.." && pwd)
PATH=$PATH:/usr/sbin:/sbin
mount=$top/examples/mount-provider.sh make=$top/examples/make-provider.sh
rounds=${ROUNDS:-5} failures=0
far='' near=''

says() {
    local name=$1
    shift
    if "$@"; then echo "holds: $name"; else
        echo "FAILS: $name"
        failures=$((failures + 1))
    fi
}
until_is() { # SECONDS TEST...: waits until it is so
    local -i turns=$(($1 * 20))
    shift
    while ! "$@"; do
        ((turns-- > 0)) || return 1
        sleep 0.05
    done
}
listens() { (: <"/dev/tcp/127.0.0.1/$port") 2>/dev/null; }

# The far end serves far.img, and notes what it is asked for; near/nbd is that file here.
begin_far() {
    nbdkit -f -i 127.0.0.1 -p "$port" --filter=log file far.img logfile=far.log logappend=true &
    far=$!
    until_is 10 listens
}
begin_near() { # WORD...: for nbdfuse
    nbdfuse near "$@" >near.notes 2>&1 &
    near=$!
    until_is 10 test -e near/nbd
}
end_near() {
    fusermount3 -uz near 2>notes
    [ -z "$near" ] || kill "$near" 2>/dev/null
    [ -z "$near" ] || wait "$near" 2>/dev/null
    near=''
}
kill_far() {
    kill -KILL "$far"
    wait "$far" 2>/dev/null
    far=''
}
up() { "$mount" -k key -j pass "$@" files 2>notes; }
down() { "$mount" -u files 2>notes; }
told() { grep -q -- "$1" notes; }
flushes() { grep -c Flush far.log; }

write_synced() { # prints each file that was written and synced, until one isn't
    python3 -c 'import hashlib, os, sys
for number in range(100000):
    data = os.urandom(30000)
    try:
        with open(f"files/{sys.argv[1]}.{number}", "wb") as file:
            file.write(data), file.flush(), os.fsync(file.fileno())
    except OSError:
        break
    print(f"files/{sys.argv[1]}.{number}", hashlib.sha256(data).hexdigest(), flush=True)' "$1"
}
lost() { # how many of what was acknowledged isn't there
    local name sum missing=0
    while read -r name sum; do
        [ "$(sha256sum 2>/dev/null <"$name" | cut -d' ' -f1)" = "$sum" ] || missing=$((missing + 1))
    done <acknowledged
    echo "$missing"
}

# far_case WHAT IMAGE BEGIN: a filesystem in this image, whose far part BEGIN brings here
far_case() {
    local what=$1 image=$2 begin=$3 at wrong=0 before kept=0
    says "$what: an ext4 is made in a new provider" up -m "$image"
    before=$(flushes)
    echo one >files/one && python3 -c 'import os; os.fsync(os.open("files/one", os.O_RDWR))'
    [ "$what" = ssh ] || says "$what: an fsync reaches the far end as a flush" test "$(flushes)" -gt "$before"
    says "$what: it ends" down
    : >acknowledged
    for ((at = 0; at < rounds; at++)); do
        up "$image" || { told 'give -c' && up -c "$image"; } || { wrong=$((wrong + 1)) && cat notes && continue; }
        [ "$(lost)" = 0 ] || { wrong=$((wrong + 1)) && echo "  at $at: $(lost) are lost"; }
        write_synced "$at" >>acknowledged &
        sleep "$(python3 -c "print(0.5 + $at % 4 / 3)")"
        "kill_$begin"
        wait $! 2>/dev/null
        ! down || { wrong=$((wrong + 1)) && echo "  at $at: -u answered 0"; }
        told 'may be lost' || { wrong=$((wrong + 1)) && cat notes; }
        end_near
        "begin_$begin"
    done
    kept=$(wc -l <acknowledged)
    says "$what: after $rounds kills of the far end -u says each time that something may be lost" test $wrong = 0
    up "$image" || { told 'give -c' && up -c "$image"; }
    says "$what: and each of $kept files that were synced is there" test "$kept$(lost)" -gt 0 -a "$(lost)" = 0
    says "$what: and it ends" down
    says "$what: and nothing is left" test -z "$(ls "$GELI_MOUNTS")"
}

begin_tcp() { begin_far && begin_near "nbd://127.0.0.1:$port"; }
kill_tcp() { kill_far; }
begin_ssh() { begin_near --command nbdkit -s ssh host=localhost "$PWD/far.img"; }
kill_ssh() { kill -KILL "$(pgrep -P "$near")"; } # nbdkit, and its connection with it

new_image() { # SIZE FILE: a provider with a key
    rm -f key backup
    "$make" -i 100 -J pass "$1" "$2" key backup 2>notes
}
case_tcp() {
    new_image 60M far.img
    begin_tcp
    far_case tcp near/nbd tcp
}
case_join() {
    truncate -s 20M here.img
    truncate -s 60M far.img
    begin_tcp
    rm -f key backup && head -c 64 /dev/urandom >key
    "$GELI" init -i 100 -K key -J pass -B backup -l 256 -s 4096 join:here.img:near/nbd >notes
    far_case join join:here.img:near/nbd tcp
}
case_ssh() {
    nbdkit ssh --version >notes 2>&1 && ssh -o BatchMode=yes -o StrictHostKeyChecking=no localhost true 2>notes ||
        { echo "not tried: ssh"; return; }
    new_image 60M far.img
    begin_ssh
    far_case ssh near/nbd ssh
}
case_retry() { # a write that was acknowledged and not flushed is lost with the far end, and the flush after it succeeds
    truncate -s 1M far.img
    begin_far
    begin_near --command nbdkit -s --filter=retry nbd uri="nbd://127.0.0.1:$port" retry-delay=1
    python3 -c 'import os
near = os.open("near/nbd", os.O_RDWR)
os.pwrite(near, b"a" * 4096, 0)
open("wrote", "w").close()
while not os.path.exists("again"):
    pass
os.pwrite(near, b"b" * 4096, 8192)
os.fsync(near)' &
    until_is 10 test -e wrote
    kill_far
    fallocate -z -l 4096 far.img # what a power failure of the far end leaves of what it hadn't synced
    begin_far
    : >again
    wait $! && echo "seen: below nbdkit's filter retry a flush succeeds, and $(head -c 4096 far.img | tr -d '\0' | wc -c)" \
        "of 4096 bytes that were acknowledged before it are there"
    kill_far
}

GELI=$(readlink -f "${1:-$top/geli}")
GELI_NBD=$(readlink -f "${GELI_NBD:-$top/geli-nbd}")
export GELI GELI_NBD
[ $# = 0 ] || shift
names=("$@")
[ ${#names[@]} -gt 0 ] || names=(tcp join ssh retry)
work=$(mktemp -d)
at_end() {
    "$mount" -u "$work/files" 2>/dev/null
    end_near
    [ -z "$far" ] || kill "$far"
    cd / && rm -rf --one-file-system "$work"
}
trap at_end EXIT
trap 'exit 130' INT TERM
cd "$work" || exit 2
export GELI_MOUNTS=$work/mounts
mkdir files near mounts
printf 'a passphrase\n' >pass
port=$(python3 -c 'import socket; it = socket.socket(); it.bind(("127.0.0.1", 0)); print(it.getsockname()[1])')
for name in "${names[@]}"; do
    echo "case $name"
    "case_$name"
    end_near
    [ -z "$far" ] || kill_far
    rm -f far.img here.img far.log wrote again
done
[ "$failures" = 0 ] || { echo "$failures fail" && exit 1; }

#!/usr/bin/env bash
# Tries geli-nbd with clients of other makers, each against a model that stands in the test: nbdinfo, nbdcopy, libnbd,
# qemu, nbdfuse with what uses files, hostile bytes, SIGKILL, a full disk, valgrind. What it wrote is read by geli.
#
#   tools/try_nbd.sh [PROGRAM [CASE...]]      without a word: the program that ./geli-nbd runs, and all cases
#
# GELI names the other program, without it that which ./geli runs. The programs should be proved (a trial is too slow).
# What a case lacks it tells by `not tried`. It is no part of the gate: it takes about half an hour. REQUESTS is how
# many requests a provider gets (2000), SESSIONS how many hostile sessions are tried (20000), MOMENTS how many SIGKILLs
# (100).
set -u
top=$(cd "$(dirname "$(readlink -f "${BASH_SOURCE[0]}")")/.." && pwd)
PATH=$PATH:/usr/sbin:/sbin
program=$(readlink -f "${1:-$top/geli-nbd}")
GELI=$(readlink -f "${GELI:-$top/geli}")
export GELI GELI_NBD=$program PYTHONPATH=$top/tools PYTHONDONTWRITEBYTECODE=1
[ $# = 0 ] || shift
names=("$@")
[ ${#names[@]} -gt 0 ] || names=(words copies zeros sockets requests qemu files hostile kill full valgrind)
failures=0
work=$(mktemp -d)
folder=$work/none
at_end() {
    local process
    for process in $(grep -slzx "NBD_TRY=$work" /proc/[0-9]*/environ | cut -d/ -f3); do
        [ "$process" = $$ ] || kill "$process" 2>/dev/null
    done
    grep -oE " $work/[^ ]* " /proc/self/mountinfo | tac | while read -r name; do umount -l "$name" 2>/dev/null; done
    rm -rf --one-file-system "$work"
}
trap at_end EXIT
trap 'exit 130' INT TERM

exec 3>&1 # what is said of a command goes there, wherever the command prints
says() {
    local name=$1
    shift
    if "$@"; then echo "holds: $name" >&3; else
        echo "FAILS: $name" >&3
        failures=$((failures + 1))
    fi
}
have() {
    local name
    for name; do command -v "$name" >/dev/null || { echo "not tried: $case (no $name)" && return 1; }; done
}
provider() { # NAME SIZE OPTION...: a provider with the key file `key` and no passphrase
    local name=$1 size=$2
    shift 2
    rm -f "$name" && truncate -s "$size" "$name" && "$GELI" init -P -K key "$@" "$name" >init.out
}
# sum NAME: SHA-256 of all that the provider has, by geli.
sum() {
    local width sectors
    printf '%s\n' "attach -r -p -k key $1" list >lines
    read -r width sectors < <("$GELI" script "$1" <lines | sed -n 2p | cut -d' ' -f3-)
    printf '%s\n' "attach -r -p -k key $1" "sum $1 0 $sectors" | "$GELI" script "$1" | sed -n '2s/^ok //p'
}
status_is() { # STATUS COMMAND...
    local wanted=$1 status=0
    shift
    "$@" >command.out 2>command.err || status=$?
    [ "$status" = "$wanted" ] || { echo "  status $status: $*" && return 1; }
}
# tries CASE NAME=VALUE...: a case of nbd_tries.py, with libnbd
tries() { env "${@:2}" nbdsh -n -c "import nbd_tries; nbd_tries.$1()"; }
# waits WORD...: one client at the socket `sock`; its geli-nbd's status goes to `status`.
waits() {
    rm -f sock status
    printf '%q ' "$program" "$@" >starts
    printf '2>errors; echo $? >status' >>starts
    NBD_TRY=$work socat UNIX-LISTEN:sock EXEC:'sh starts' &
    for _ in {1..100}; do [ ! -S sock ] || return; sleep 0.05; done
}
ended_with() { # STATUS
    for _ in {1..100}; do [ ! -s status ] || break; sleep 0.05; done
    [ "$(cat status)" = "$1" ]
}

case_words() {
    provider a.img 1M
    printf 'wrong' >wrong
    says "a wrong key: status 1" status_is 1 "$program" -p -k wrong a.img
    says "  which is said on standard error alone" test "$(cat command.err)" = 'error 15 WrongKey' -a ! -s command.out
    says "no image: status 1" status_is 1 "$program" -p -k key none.img
    says "other words: status 2" status_is 2 "$program" -x a.img
    says "  with the usage" grep -q '^usage: geli-nbd ' command.err
    says "-C is no word of it: status 2" status_is 2 "$program" -C -p -k key a.img
    says "two images: status 2" status_is 2 "$program" -p -k key a.img b.img
    says "--help: status 0" status_is 0 "$program" --help
    says "--version: status 0" status_is 0 "$program" --version
    says "no client: status 0" status_is 0 "$program" -p -k key a.img </dev/null
    says "  whom it greets" test "$(xxd -p command.out)" = 4e42444d4147494349484156454f50540003
    printf '\0\0\0\100' >malformed
    says "what no client says: status 6" status_is 6 "$program" -p -k key a.img <malformed
    export IMAGE=a.img
    says "each reply comes before the next message" python3 -c 'import nbd_tries; nbd_tries.waiting()'
    says "what was refused: status 1 however the client ends, and words" python3 -c 'import nbd_tries; nbd_tries.ends()'
    says "  and if it goes before the reply" python3 -c 'import nbd_tries; nbd_tries.goes_early()'
    if have strace; then
        says "a last flush that fails: status 1, and words" python3 -c 'import nbd_tries; nbd_tries.last_flush_fails()'
    fi
    says "an output that is closed: status 4" test "$("$program" -p -k key a.img </dev/null >&- 2>errors; echo $?)" = 4
}

case_copies() { # nbdinfo, nbdcopy
    have nbdinfo nbdcopy socat || return
    local uri="nbd+unix:///?socket=$PWD/sock"
    provider a.img 20M -s 4096
    head -c 20967424 /dev/urandom >data
    waits -p -k key a.img
    says "nbdinfo tells its size" test "$(nbdinfo --size "$uri")" = 20967424
    says "  and ends well" ended_with 0
    waits -r -p -k key a.img
    says "  and that -r is read-only" nbdinfo --is readonly "$uri"
    ended_with 0
    waits -p -k key a.img
    says "nbdcopy in" nbdcopy --flush data "$uri"
    says "  ends well" ended_with 0
    says "  and geli has the same bytes" test "$(sum a.img)" = "$(sha256sum <data | cut -d' ' -f1)"
    waits -p -k key a.img
    says "  and nbdcopy out" cmp data <(nbdcopy "$uri" -)
    ended_with 0
    # A size that is no multiple of 4096: 1953 sectors of 512.
    provider o.img 1000448 -s 512
    head -c 999936 data >odd
    waits -p -k key o.img
    says "nbdcopy into a provider of 999936 bytes" nbdcopy --flush odd "$uri"
    says "  ends well" ended_with 0
    says "  and geli has the same bytes" test "$(sum o.img)" = "$(sha256sum <odd | cut -d' ' -f1)"
    waits -p -k key o.img
    says "  and nbdcopy out" nbdcopy "$uri" odd.out
    says "  the same bytes" cmp odd odd.out
    ended_with 0
    truncate -s 6M l.img && truncate -s 6M r.img && "$GELI" init -P -K key join:l.img:r.img >init.out
    head -c 12582400 data >data2
    waits -p -k key join:l.img:r.img
    says "nbdcopy into a join" nbdcopy --flush data2 "$uri"
    says "  ends well" ended_with 0
    says "  and geli has the same bytes" test "$(sum join:l.img:r.img)" = "$(sha256sum <data2 | cut -d' ' -f1)"
}

case_zeros() { # requests for more zeros than 32 MiB
    have nbdcopy qemu-io mke2fs socat || return
    local uri="nbd+unix:///?socket=$PWD/sock"
    truncate -s 250M sparse && mke2fs -q -F -t ext4 -E nodiscard sparse
    provider a.img 251M -s 4096
    waits -p -k key a.img
    says "nbdcopy of a sparse file of 250 MB in" nbdcopy --flush sparse "$uri"
    says "  ends well" ended_with 0
    waits -r -p -k key a.img
    says "  and out" nbdcopy "$uri" sparse.out
    says "  the same bytes, before what the provider has more" cmp -n 262144000 sparse sparse.out
    ended_with 0
    rm -f a.img sparse.out
    provider b.img 3100M -s 4096
    waits -p -k key b.img
    # Two requests, since qemu-io itself takes none of 2 GiB.
    says "qemu-io writes 3 GB of zeros" qemu-io -f raw "$uri" -c 'write -P 7 1000 9000' -c 'write -P 7 3000M 9000' \
        -c 'write -z 2001 1500M' -c 'write -z 1572866001 1500M' -c 'read -P 7 1000 1001' -c 'read -P 0 2001 8000' \
        -c 'read -P 0 1500M 1M' -c 'read -P 0 3000M 2001' -c 'read -P 7 3145730001 4999' -c flush >qemu.out
    says "  with what was written" test "$(grep -c 'Pattern verification failed' qemu.out)" = 0
    says "  and ends well" ended_with 0
    nbdsh -c pass 2>errors || { echo "not tried: libnbd's part of $case (no nbdsh)" && rm -f b.img && return; }
    says "zeros of 3.1 GB from the second byte on, by one request" tries many_zeros IMAGE=b.img
    rm -f b.img
    local auth
    for auth in '' HMAC/SHA256; do
        provider c.img 80M -s 4096 ${auth:+-a $auth}
        says "  of 79 MB${auth:+, $auth}" tries many_zeros IMAGE=c.img
    done
}

case_sockets() { # the page's other ways to a socket
    have systemd-socket-activate nbdcopy nbdinfo || return
    local uri="nbd+unix:///?socket=$PWD/sock" activates front
    provider a.img 4M -s 4096
    head -c 4190208 /dev/urandom >data
    ! command -v sfdisk >/dev/null || printf 'label: dos\nstart=2048, size=4096\n' | sfdisk -q data
    NBD_TRY=$work systemd-socket-activate -l "$PWD/sock" -a --inetd "$program" -p -k "$PWD/key" "$PWD/a.img" \
        2>activated &
    activates=$!
    ended() { # COUNT: so many sessions have ended, each with status 0
        for _ in {1..100}; do [ "$(grep -c 'died with code' activated)" -lt "$1" ] || break; sleep 0.05; done
        test "$(grep -c 'died with code 0' activated)" = "$1"
    }
    ended 0
    for _ in {1..100}; do [ ! -S sock ] || break; sleep 0.05; done
    says "nbdcopy in, by systemd-socket-activate" nbdcopy --flush data "$uri"
    says "  ends well" ended 1
    says "  and out, by the next one" cmp data <(nbdcopy "$uri" -)
    says "  ends well" ended 2
    if have sfdisk nbdkit; then
        NBD_TRY=$work nbdkit -f -U "$PWD/clients" --filter=partition nbd socket="$PWD/sock" shared=true partition=1 &
        front=$!
        uri="nbd+unix:///?socket=$PWD/clients"
        for _ in {1..100}; do [ ! -S clients ] || break; sleep 0.05; done
        says "a partition, by nbdkit in front" test "$(nbdinfo --size "$uri")" = 2097152
        nbdcopy "$uri" first & nbdcopy "$uri" second
        wait $!
        says "  for two clients at once" cmp first second
        says "  with its bytes" cmp first <(tail -c +1048577 data | head -c 2097152)
        kill $front && wait $front
        says "  ends well" ended 3
    fi
    kill $activates
}

case_requests() { # libnbd against a model
    nbdsh -c pass 2>errors || { echo "not tried: $case (no nbdsh)"; return; }
    local width auth
    for width in 512 4096 65536; do
        for auth in '' HMAC/SHA256 HMAC/SHA384 HMAC/SHA512; do
            provider a.img 6M -s $width ${auth:+-a $auth}
            says "${REQUESTS:-2000} requests, sectors of $width bytes${auth:+, $auth}" tries requests IMAGE=a.img \
                REQUESTS="${REQUESTS:-2000}"
            says "  and geli has the same bytes" test "$(sum a.img)" = "$(cat model.sum)"
        done
    done
    provider a.img 2M -s 4096 -e AES-CBC
    says "and with AES-CBC" tries requests IMAGE=a.img REQUESTS=500
    says "  and geli has the same bytes" test "$(sum a.img)" = "$(cat model.sum)"
    says "behind:FILE" tries requests IMAGE=behind:a.img REQUESTS=500
    says "  and geli has the same bytes" test "$(sum a.img)" = "$(cat model.sum)"
    before=$(sha256sum a.img)
    says "-r serves the same, and refuses to be written" tries read_only IMAGE=a.img
    says "  indeed" test "$(sha256sum a.img)" = "$before"
}

case_qemu() {
    have qemu-io qemu-img socat || return
    local uri="nbd+unix:///?socket=$PWD/sock"
    provider a.img 9M -s 4096
    waits -p -k key a.img
    says "qemu-io writes, reads and flushes at odd places" qemu-io -f raw "$uri" -c 'write -P 7 1234 70000' -c 'flush' \
        -c 'read -P 7 1234 70000' -c 'write -z 4096 8192' -c 'read -P 0 4096 8192' -c 'writev -P 9 100000 4096 512' \
        -c 'write -f -P 5 8 1' -c 'read -P 5 8 1' -c 'discard 0 4096' >qemu.out
    says "  with what was written" test "$(grep -c 'Pattern verification failed' qemu.out)" = 0
    says "  and ends well" ended_with 0
    head -c 9433088 /dev/urandom >data && qemu-img convert -f raw -O qcow2 data data.qcow2
    waits -p -k key a.img
    says "qemu-img converts into it" qemu-img convert -n -f qcow2 -O raw data.qcow2 "$uri"
    says "  and ends well" ended_with 0
    says "  and geli has the same bytes" test "$(sum a.img)" = "$(sha256sum <data | cut -d' ' -f1)"
    waits -r -p -k key a.img
    says "  and out of it" qemu-img convert -f raw -O raw "$uri" out.raw
    says "  the same bytes" cmp data out.raw
    ended_with 0
    # A size that is no multiple of 4096: 1953 sectors of 512.
    provider o.img 1000448 -s 512
    head -c 999936 /dev/urandom >odd
    waits -p -k key o.img
    says "qemu-img converts into a provider of 999936 bytes" qemu-img convert -n -f raw -O raw odd "$uri"
    says "  and ends well" ended_with 0
    says "  and geli has the same bytes" test "$(sum o.img)" = "$(sha256sum <odd | cut -d' ' -f1)"
    waits -r -p -k key o.img
    says "  and out of it" qemu-img convert -f raw -O raw "$uri" odd.raw
    says "  the same bytes" cmp odd odd.raw
    ended_with 0
}

case_files() { # nbdfuse with what uses files
    have nbdfuse fusermount3 mke2fs fuse2fs e2fsck || return
    provider a.img 80M -s 4096
    mkdir -p disk files
    opened() {
        NBD_TRY=$work nbdfuse disk --command "$program" -p -k key a.img &
        device=$!
        for _ in {1..200}; do [ ! -e disk/nbd ] || return 0; sleep 0.05; done
    }
    mounted() { # OPTIONS
        NBD_TRY=$work fuse2fs -f disk/nbd files -o "$1" >fuse.out 2>&1 &
        filesystem=$!
        for _ in {1..200}; do ! mountpoint -q files || return 0; sleep 0.05; done
    }
    closed() {
        fusermount3 -u files && wait "$filesystem"
        fusermount3 -u disk && wait "$device"
    }
    opened
    if command -v fio >/dev/null; then
        says "fio's random writes into the device are all there" fio --name=v --filename=disk/nbd --size=40M \
            --bsrange=512-64k --rw=randwrite --verify=crc32c --do_verify=1 --ioengine=psync --fsync=64 --output=fio.out
    fi
    says "an ext4 is made" mke2fs -q -F -t ext4 -b 4096 -E nodiscard -O ^extent,^64bit,^metadata_csum disk/nbd
    mounted fakeroot
    says "  and mounted" mountpoint -q files
    cp -r "$top/crates/nbd_words" files/
    if command -v git >/dev/null; then
        git init -q files/work && cp -r "$top/tools" files/work/ && git -C files/work add -A &&
            git -C files/work -c user.name=a -c user.email=a -c gc.auto=0 commit -qm a
    fi
    python3 -c 'import sqlite3
base = sqlite3.connect("files/base")
base.execute("create table t (a)")
for at in range(50):
    base.execute("insert into t values (?)", (at,))
    base.commit()'
    closed
    opened
    says "  it is clean" e2fsck -fn disk/nbd >fsck.out
    mounted fakeroot,ro
    says "  with its files" diff -r "$top/crates/nbd_words" files/nbd_words
    ! command -v git >/dev/null || says "  and git's" git -C files/work fsck --strict
    says "  and sqlite's" test "$(python3 -c 'import sqlite3
base = sqlite3.connect("file:files/base?immutable=1", uri=True)
for what in "pragma integrity_check", "select count(*) from t":
    print(base.execute(what).fetchone()[0])')" = $'ok\n50'
    closed
}

case_hostile() { # bytes of no client; each session against a model of the protocol
    provider a.img 100K -s 512
    says "${SESSIONS:-20000} hostile sessions: no signal, no hang, and only whole writes" env IMAGE=a.img \
        SESSIONS="${SESSIONS:-20000}" python3 -c 'import nbd_tries; nbd_tries.hostile()'
}

case_kill() { # what was answered is there
    nbdsh -c pass 2>errors || { echo "not tried: $case (no nbdsh)"; return; }
    provider a.img 1M -s 4096
    says "SIGKILL at ${MOMENTS:-100} moments: what was answered is there" tries killed IMAGE=a.img \
        MOMENTS="${MOMENTS:-100}"
}

case_full() { # a full disk
    nbdsh -c pass 2>errors || { echo "not tried: $case (no nbdsh)"; return; }
    mkdir small && mount -t tmpfs -o size=2M small small 2>errors ||
        { echo "not tried: $case (no mount of a tmpfs)"; return; }
    provider small/a.img 8M -s 4096
    says "a full disk: ENOSPC, and the rest is served" tries full IMAGE=small/a.img
    says "  with status 1" test "$(cat status)" = 1
    umount small
}

case_valgrind() {
    have valgrind || return
    nbdsh -c pass 2>errors || { echo "not tried: $case (no nbdsh)"; return; }
    provider a.img 300K -s 4096 -a HMAC/SHA256
    says "valgrind finds nothing" tries requests IMAGE=a.img REQUESTS=60 PREFIX='valgrind -q --error-exitcode=99'
    says "  and geli has the same bytes" test "$(sum a.img)" = "$(cat model.sum)"
}

for case in "${names[@]}"; do
    echo "case $case"
    folder=$work/$case SECONDS=0
    mkdir "$folder" && cd "$folder" || exit 2
    head -c 64 /dev/urandom >key
    "case_$case"
    echo "  ($SECONDS seconds)"
done
[ "$failures" = 0 ] || { echo "$failures fail" && exit 1; }

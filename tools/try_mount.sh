#!/usr/bin/env bash
# Tries how a mount of mount-provider.sh ends: in order, on a slow, a stalled or a full disk, by signals, by an
# interrupt at a terminal, by hand, and by SIGKILL; and what a copy of the image has that is taken at rest. The status
# is 1 where something is otherwise.
#
#   tools/try_mount.sh [PROGRAM [CASE...]]      without a word: the program that ./geli runs, and all cases
#
# GELI_NBD names the other program, without it that which ./geli-nbd runs. All of it holds in any language, as with
# LC_ALL=de_DE.UTF-8; the case `language` tries that too, where German is there.
#
# It needs what mount-provider.sh needs, and a program that is proved (a trial is too slow). What else it lacks it tells
# by `not tried`: fio, nbdsh, git, root. It is no part of the gate: it takes about an hour. ROUNDS is how many moments
# are tried (20), BOUND how many seconds a case may take (3000). SIGNALS and ROLES pick some of the case `moments`. Each
# case has a folder and mounts of its own (GELI_MOUNTS), and what a case leaves is ended before the next.
# shellcheck disable=SC2046 # numbers of processes are words
set -u
top=$(cd "$(dirname "$(readlink -f "${BASH_SOURCE[0]}")")/.." && pwd)
PATH=$PATH:/usr/sbin:/sbin
unset GELI_MOUNTS
mount=$top/examples/mount-provider.sh make=$top/examples/make-provider.sh out=$top/examples/copy-out.sh
serve=$top/examples/serve-nbd.sh grow=$top/examples/grow-provider.sh
copy_in() { "$top/examples/copy-in.sh" -f "$@"; }
rounds=${ROUNDS:-20}
exec 3>&1

says() {
    local name=$1
    shift
    if "$@"; then echo "holds: $name" >&3; else
        echo "FAILS: $name" >&3
        failures=$((failures + 1))
    fi
}
have() {
    local name
    for name; do command -v "$name" >/dev/null || return 1; done
}
share() { python3 -c "print($1)"; } # seconds, by arithmetic with fractions

# --- What stands behind the mounts of this case, and nothing else: the variable that names their folder tells it.

behind() { grep -slzx "GELI_MOUNTS=$folder/mounts" /proc/[0-9]*/environ | cut -d/ -f3; }
words_of() { tr '\0' ' ' 2>/dev/null <"/proc/$1/cmdline"; }
# process_of ROLE: the process of the keeper, the one who asks for the mount (front), the device, the server, the
# filesystem (files), or geli.
process_of() {
    local process keeper
    keeper=$(cat "$folder"/mounts/*/keeper 2>/dev/null)
    for process in $(behind); do
        case $1:$(words_of "$process") in
            keeper:*keep_mount.py*) [ "$process" != "$keeper" ] || echo "$process" ;;
            front:*keep_mount.py*) [ "$process" = "$keeper" ] || echo "$process" ;;
            geli:*python3\ * | server:*nbd_bridge.py\ *) ;; # the keeper and the bridge have the words of others
            device:*nbd_bridge.py\ *) echo "$process" ;;
            device:nbdfuse\ * | server:python3\ *nbd_server.py\ * | files:fuse2fs\ * | geli:/*geli-nbd*) echo "$process" ;;
        esac
    done
}
# sweep: ends what a case has left.
sweep() {
    local process name
    for process in $(behind); do kill -KILL "$process" 2>/dev/null; done
    grep -oE " $folder/[^ ]* " /proc/self/mountinfo | tac | while read -r name; do umount -l "$name" 2>/dev/null; done
}
left_behind() {
    local process
    for process in $(behind); do echo "process $process: $(words_of "$process")"; done
    ls -d "$folder"/mounts/* 2>/dev/null
    grep -o " $folder/\(files\|mounts\)[^ ]* " /proc/self/mountinfo
    flock -n "${1:-m.img}" true || echo "a lock of ${1:-m.img}"
    losetup -n -O NAME,BACK-FILE 2>/dev/null | grep -F " $folder/"
    ls -d "$XDG_RUNTIME_DIR"/* 2>/dev/null # passphrases
}
# nothing_left [IMAGE [SECONDS]]: no process, folder, mount, lock, or passphrase, within two seconds.
nothing_left() {
    local at
    for ((at = 0; at < 10 * ${2:-2}; at++)); do
        [ -n "$(left_behind "${1:-m.img}")" ] || return 0
        sleep 0.1
    done
    left_behind "${1:-m.img}" | sed 's/^/  left: /' >&3
    return 1
}

# --- A mount, and what is in the image.

fresh() { cp --sparse=always made.img m.img; } # a provider with an ext4 and the file `hello` in it
up() { GELI_MOUNTS=$folder/mounts "$mount" -k key -j pass "$@" files 2>notes; }
down() { GELI_MOUNTS=$folder/mounts "$mount" -u files 2>notes; }
told() { grep -q -- "$1" notes; }
# checked IMAGE: whether e2fsck finds nothing in the data of an image, which are `raw` then.
checked() {
    rm -f raw
    "$out" -k key -j pass "$1" raw 2>out.notes || return 9
    e2fsck -fn raw >checked.out 2>&1
}
is_clean() { checked "${1:-m.img}" && LC_ALL=C dumpe2fs -h raw 2>&1 | grep -q '^Filesystem state: *clean'; }
# What a power failure would leave now: a copy of the image, while it is mounted and nobody writes. Every three seconds
# what was written is synced.
copied_at_rest() { sleep 6 && cp --sparse=always m.img rest.img; }
at_rest() { copied_at_rest && checked rest.img; }
# After deletions fuse2fs keeps some numbers in its own memory, over a plain file too: e2fsck mends them.
# A journal, which the kernel's ext4 leaves, is played only where e2fsck may write.
mended() {
    checked "$1"
    [ $? != 9 ] || return
    e2fsck -fy raw >checked.out 2>&1 || [ $? = 1 ]
}
at_rest_or_mended() { copied_at_rest && mended rest.img; }
has() { debugfs -R "cat /$1" raw 2>/dev/null | cmp -s - "$2"; }
query() { # SQL: the first value that it gives; what it changes is committed
    python3 - "$1" <<'EOS'
import sqlite3, sys
base = sqlite3.connect("files/base", isolation_level=None)
print(*(base.execute(sys.argv[1]).fetchone() or ())[:1])
EOS
}
commit() { # NUMBER: one into the repository in files/, which is made where it isn't there
    [ -d files/work/.git ] || git -c init.defaultBranch=main init -q files/work
    head -c 3000 /dev/urandom >"files/work/$1" && git -C files/work add -A &&
        git -C files/work -c user.name=a -c user.email=a -c gc.auto=0 commit -qm "$1"
}
write_slow() { # geli-nbd on a disk whose sync takes SYNC seconds, and that stands still while the file `stalls` is there
    cat >slow <<EOS
#!/usr/bin/env python3
import os, signal, struct, subprocess, sys, threading, time
geli = subprocess.Popen(["$GELI_NBD", *sys.argv[1:]], stdin=subprocess.PIPE)
threading.Thread(target=lambda: os._exit(geli.wait() % 256), daemon=True).start()
client, head = sys.stdin.buffer, b""
def relay(size):
    piece = client.read(size)
    geli.stdin.write(piece)
    geli.stdin.flush()
    return piece
relay(4)
while head[8:12] not in (b"\0\0\0\1", b"\0\0\0\7"):  # EXPORT_NAME, GO
    head = relay(16)
    if len(head) < 16:
        break
    relay(int.from_bytes(head[12:], "big"))
while len(head) >= 16:
    head = client.read(28)
    kind, size = struct.unpack(">4x2xH16xI", head) if len(head) == 28 else (2, 0)
    if kind in (2, 3):  # the end, and a flush
        time.sleep(float(os.environ.get("SYNC", "0")))
    while os.path.exists("$folder/stalls"):
        time.sleep(0.05)
    geli.stdin.write(head)
    if kind == 1:
        geli.stdin.write(client.read(size))
    geli.stdin.flush()
    if kind == 2:
        break
geli.stdin.close()
signal.pause()
EOS
    chmod +x slow
}

# --- The cases.

case_rest() { # at rest nothing of a client waits in memory, so that a power failure finds what was written
    fresh
    up m.img
    echo precious >files/precious
    says "a copy at rest after a small write is right" at_rest
    says "  with the file" has precious files/precious
    sync files/precious && sync -f files
    says "  and after a sync" at_rest
    for at in {1..20}; do head -c "$((at * 1000))" /dev/urandom >"files/f$at"; done
    says "  and after 20 files" at_rest
    says "  with the last of them" has f20 files/f20
    mkdir files/d && mv files/f2 files/d/
    says "  and after moving" at_rest
    rm files/f1?
    says "  and after removing it is, or can be mended" at_rest_or_mended
    dd if=/dev/urandom of=files/synced bs=1M count=3 conv=fsync status=none
    says "  and after dd with fsync" at_rest_or_mended
    says "  with its file" has synced files/synced
    query 'create table t (a)' 2>notes
    for at in {1..5}; do query "insert into t values ($at) returning a" >query.out; done
    says "  and after commits of sqlite" at_rest_or_mended
    if have git; then
        commit 1 && commit 2
        says "  and after commits of git" at_rest_or_mended
        git clone -q --no-hardlinks files/work files/clone
        says "  and after a clone" at_rest_or_mended
    fi
    says "  and it ends" down
    says "  with nothing left" nothing_left
    says "  and clean" is_clean
    says "  and mounts again" up m.img
    says "  with its database" test "$(query 'pragma integrity_check')" = ok
    if have git; then
        says "  and its repository" git -C files/work fsck --strict 2>notes
        says "  and the clone" git -C files/clone fsck --strict 2>notes
    fi
    says "  and ends" down
}

is_in() { debugfs -R "stat /$1" raw 2>/dev/null | grep -q '^Inode:'; }
case_removed() { # what was removed last is gone at rest, though fuse2fs holds that back
    fresh
    up m.img
    sleep 4
    says "where nothing was done nothing is made" test ! -e files/lost+found/.geli-sync
    echo one >files/one && sync files/one && rm files/one
    copied_at_rest
    says "a file that was removed is gone at rest" eval 'mended rest.img && ! is_in one'
    python3 -c 'import sqlite3
base = sqlite3.connect("files/base", isolation_level=None)
base.execute("create table t (a)"), base.execute("insert into t values (1)")'
    copied_at_rest && mended rest.img
    says "  and so is the journal of a commit" eval 'is_in base && ! is_in base-journal'
    rm files/base files/hello
    copied_at_rest
    says "  and the last file of all" eval 'mended rest.img && ! is_in hello'
    says "  by a file that is made in lost+found" is_in lost+found/.geli-sync
    echo two >files/two
    sleep 5
    kill -KILL "$(process_of files)"
    says "what is killed at rest is told" test "$(down; echo $?)" = 1
    says "  and mounts again" up m.img
    says "  with all that was done" eval '[ -e files/two ] && [ ! -e files/hello ]'
    says "  and ends" down
    says "  with nothing left" nothing_left
}

case_bridge() { # what stands between the server and the filesystem's program
    local module
    fresh
    module=$(/usr/bin/python3 -c 'import pyfuse3; print(pyfuse3.__file__)' 2>notes) ||
        { echo "not tried: the bridge (no pyfuse3)"; return; }
    up m.img
    says "a mount goes through the bridge" grep -q nbd_bridge.py <(words_of "$(process_of device)")
    head -c 3M /dev/urandom >three && cp three files/
    says "  and ends" down
    says "  with nothing left" nothing_left
    says "  and is clean" is_clean
    says "  with the file" has three three
    if unshare -m true 2>notes; then
        says "without pyfuse3 nbdfuse stands in" unshare -m --propagation private sh -c 'mount --bind /dev/null "$4" &&
            GELI_MOUNTS=$1/mounts "$2" -k key -j pass m.img files 2>notes && cmp three files/three &&
            tr "\0" " " <"/proc/$(cat "$1"/mounts/*/keeper)/cmdline" >"$3" && pgrep -f "^nbdfuse $1/mounts" >"$3" &&
            cp three files/again && GELI_MOUNTS=$1/mounts "$2" -u files' - "$folder" "$mount" out.notes "$module"
        says "  which is said" told "pyfuse3 and libnbd's python3 aren't there"
        says "  with nothing left" nothing_left
        says "  and it is clean" is_clean
        says "  with the file" has again three
    fi
    mkdir -p small
    command mount -t tmpfs -o size=20M small small 2>notes || { echo "not tried: refused writes (no tmpfs)"; return; }
    "$make" -i 100 -J pass 100M small/s.img key small.backup 2>notes
    GELI_MOUNTS=$folder/mounts "$mount" -m -k key -j pass small/s.img files 2>notes
    says "a write that is refused later is told to fsync" python3 - <<'EOS'
import errno, os, sys
file = os.open("files/large", os.O_RDWR | os.O_CREAT)
try:
    for _ in range(40):
        os.write(file, os.urandom(1 << 20))
    os.fsync(file)
except OSError as failed:
    sys.exit(failed.errno not in (errno.EIO, errno.ENOSPC, errno.ERANGE) and str(failed))  # fuse2fs says ERANGE for EIO
sys.exit("nothing was refused")
EOS
    says "  and by -u" test "$(down; echo $?)" = 1
    says "  with its cause" told 'a write or a flush was refused .*(.* is full)$'
    says "  and nothing is left" nothing_left small/s.img
    umount small
}

case_memory() { # much is written where there is little memory
    local group=/sys/fs/cgroup/memory/try_mount.$$ limit=memory.limit_in_bytes process
    [ -d "${group%/*}" ] || group=/sys/fs/cgroup/try_mount.$$ limit=memory.max
    mkdir "$group" 2>notes && echo 512M 2>notes >"$group/$limit" || { echo "not tried: little memory (no cgroup)"; return; }
    "$make" -i 100 -J pass 4300M m.img key memory.backup 2>notes
    up -m m.img
    for process in $(behind); do echo "$process" >"$group/cgroup.procs"; done
    cat >large.py <<'EOS'
import hashlib, os, random
made = random.Random(1)
with open("files/large", "wb") as file:
    for _ in range(3800):
        file.write(made.randbytes(1 << 20))
    os.fsync(file.fileno())
EOS
    says "3,800 MiB are written where all programs of a mount, and who writes, have 512 MiB" timeout 1500 \
        sh -c 'echo $$ >"$1/cgroup.procs" && exec python3 large.py' - "$group"
    says "  and it ends" down
    says "  with nothing left" nothing_left
    says "  and mounts again" up m.img
    says "  with all of it" python3 - <<'EOS'
import random, sys
made = random.Random(1)
with open("files/large", "rb") as file:
    sys.exit(not all(file.read(1 << 20) == made.randbytes(1 << 20) for _ in range(3800)))
EOS
    says "  and ends" down
    sleep 1
    rmdir "$group"
}

# goes_on FILE: writes a file in files/ every 20 ms, whatever becomes of the folder
goes_on() { LC_ALL=C && for _ in {1..150}; do echo plain >"files/w$RANDOM"; sleep 0.02; done 2>"$1"; }
below() { unshare -m sh -c 'umount -l files 2>/dev/null; ls -A files'; } # what is in the folder below
case_below() { # who goes on after the end of a mount writes nothing in the folder below it
    local who wrong=0 at writer
    unshare -m true 2>notes || { echo "not tried: the folder below a mount (no unshare)"; return; }
    for ((at = 0; at < 15; at++)); do
        fresh && up m.img
        case $((at % 5)) in 0 | 1) who=files ;; 2 | 3) who=device ;; *) who='files device' ;; esac
        goes_on writer.notes &
        writer=$!
        sleep 0.5
        for it in $who; do kill -KILL "$(process_of "$it")"; done
        sleep 1
        mountpoint -q files 2>notes && { wrong=$((wrong + 1)) && echo "  at $at: it works"; }
        [ -z "$(below)" ] || { wrong=$((wrong + 1)) && echo "  at $at ($who): $(below | wc -l) files below"; }
        kill "$writer" && wait "$writer" 2>/dev/null
        grep -q 'not connected' writer.notes || { wrong=$((wrong + 1)) && echo "  at $at: no error"; }
        ! down || { wrong=$((wrong + 1)) && echo "  at $at: -u answered 0"; }
        nothing_left || wrong=$((wrong + 1))
        rmdir files 2>notes && mkdir files || { wrong=$((wrong + 1)) && echo "  at $at: not empty"; rm -rf files/*; }
    done
    says "after SIGKILL to what a mount lives by, 15 times, who writes gets errors, and nothing is below" test $wrong = 0
    says "what the keeper syncs is never a file of another mount, or below it" python3 -I - "$top/examples" <<'EOP'
import os, sys, types
sys.path.insert(0, sys.argv[1])
import keep_mount
rest = keep_mount.Rest("files", "m.img", types.SimpleNamespace(process=types.SimpleNamespace(pid=os.getpid())))
rest.number, rest.seen = None, None
try:
    rest.look()
except OSError:
    sys.exit(bool(os.listdir("files")))
sys.exit(1)
EOP
    local user=65534 as
    mknod -m 666 fuse c 10 229 2>notes && setpriv --reuid $user --clear-groups true 2>notes ||
        { echo "not tried: the folder below a mount of another user (no setpriv)"; return; }
    as=(unshare -m --propagation private sh -c 'mount --bind fuse /dev/fuse && exec setpriv --reuid "$@"' - "$user"
        --clear-groups env HOME=/ XDG_RUNTIME_DIR=/nowhere GELI_MOUNTS="$folder/users")
    chmod 755 . .. && mkdir -m 700 users && fresh && chown $user m.img key pass users files
    cat >user.sh <<'EOS'
# A mount of this user, which a signal ends: what the folder below lets him do then.
"$1" -k key -j pass m.img files || exit 1
kill -TERM "$(cat "$GELI_MOUNTS"/*/keeper)"
for at in 1 2 3 4 5 6 7 8 9 10; do [ -e "$GELI_MOUNTS"/*/keeper ] || break; sleep 0.3; done
! touch files/plain 2>/dev/null || echo "it can be written to"
"$1" -k key -j pass m.img files && "$1" -u files && touch files/plain && rm files/plain || echo "not the next time"
"$1" -k key -j pass m.img files && kill -TERM "$(cat "$GELI_MOUNTS"/*/keeper)"
for at in 1 2 3 4 5 6 7 8 9 10; do [ -e "$GELI_MOUNTS"/*/keeper ] || break; sleep 0.3; done
"$1" -u files && touch files/plain && rm files/plain || echo "not by -u"
EOS
    "${as[@]}" sh user.sh "$mount" >said 2>notes
    says "after a SIGTERM its user can't write to the folder below, until the next mount or -u" test ! -s said
    cat said >&3
    says "  which says so" told 'a signal has ended its mount'
    chown 0 m.img key pass files
}

case_reader() { # -r beside a run that writes
    fresh
    mkdir other
    up m.img
    says "a mount by -r beside one that writes" eval 'GELI_MOUNTS=$folder/mounts "$mount" -r -k key -j pass m.img other 2>notes'
    says "  says who may write" told "note: process [0-9]* (.*geli-nbd.*) may write to 'm.img' now"
    says "  and ends" eval 'GELI_MOUNTS=$folder/mounts "$mount" -u other 2>notes'
    says "  as the other does" down
    says "  with nothing left" nothing_left
    up -r m.img
    says "  and alone it says nothing" test "$(grep -c 'may write' notes)" = 0
    down
}

case_state() { # the disk of the state of the mounts, usually /tmp, is full
    mkdir -p mounts
    command mount -t tmpfs -o size=1M mounts mounts 2>notes || { echo "not tried: a full disk (no tmpfs)"; return; }
    fresh
    up m.img
    head -c 1M /dev/urandom >one && cp one files/
    head -c 2M /dev/zero >mounts/filler 2>notes
    says "where /tmp is full a mount ends in order" down
    rm mounts/filler
    says "  with nothing left" test -z "$(ls mounts; behind)"
    says "  and clean" is_clean
    says "  with its file" has one one
    up m.img
    head -c 2M /dev/zero >mounts/filler 2>notes
    kill -KILL "$(process_of files)"
    sleep 1
    says "  and one that doesn't tells why" test "$(down; echo $?)" = 1
    says "  in words" told "the filesystem's program was ended by SIGKILL"
    rm mounts/filler
    umount mounts
}

case_torn() { # an authenticated provider whose first sectors can't be read
    local size
    for size in 20M 160M; do
        rm -f t.img torn.backup
        "$make" -a -i 100 -J pass $size t.img key torn.backup 2>notes
        up -m t.img
        echo precious >files/precious
        says "a mount of $size with authentication ends" down
        head -c 16 /dev/urandom | dd of=t.img bs=1 seek=600 conv=notrunc status=none
        says "  and where its superblock can't be read it isn't mounted" test "$(up t.img; echo $?)" = 1
        says "  which is said" told "its first sectors can't be read"
        says "  and that nothing is to be made there" told "Don't make one over it"
        [ $size = 160M ] || continue
        says "  and -c takes the second superblock" up -c t.img
        says "  which is said" told 'mended by the second superblock'
        says "  and its file is there" grep -q precious files/precious
        says "  and it ends" down
        says "  and mounts again" up t.img
        says "  and ends" down
        says "  with nothing left" nothing_left t.img
    done
}

case_sync() { # some seconds after the last write it is synced, though nobody asked
    have strace || { echo "not tried: a sync that nobody asks for (no strace)"; return; }
    fresh
    up m.img
    timeout 8 strace -f -qq -e trace=fdatasync,fsync -o traced -p "$(process_of geli)" 2>notes &
    sleep 1
    echo one >files/one
    sleep 6
    says "a sync reaches the image some seconds after a write" grep -q 'fdatasync\|fsync' traced
    wait
    timeout 10 strace -f -qq -e trace=fdatasync,fsync -o traced -p "$(process_of geli)" 2>notes
    says "  and then none any more" test ! -s traced
    says "  and it ends" down
    says "  with nothing left" nothing_left
}

case_fio() { # blocks whose space is allocated ahead
    have fio || { echo "not tried: random writes into a file that is allocated ahead (no fio)"; return; }
    "$make" -i 100 -J pass 100M m.img key big.backup 2>notes
    up -m m.img
    says "fio's random writes into a file that is allocated ahead are all there" timeout 900 fio --name=v \
        --directory=files --size=48M --bs=4k --rw=randwrite --verify=crc32c --do_verify=1 --ioengine=psync \
        --end_fsync=1 --output=fio.out
    says "  and it ends" down
    says "  and is clean" is_clean
    says "  with nothing left" nothing_left
    mke2fs -q -t ext4 -b 4096 -E nodiscard extents.raw 18000 && copy_in -k key -j pass extents.raw m.img 2>notes
    says "an ext4 with extents is warned of" test "$(up m.img; grep -c 'has extents' notes)" = 1
    says "  and it ends" down
}

case_large() { # files above 2 GiB, and the largest one, in the ext4 that -m makes
    "$make" -i 100 -J pass 6G m.img key large.backup 2>notes
    cat >large.py <<'EOS'
import os, sys
GIB, MOST = 1 << 30, 4402345721856
PLACES = [0, 2 * GIB - 5000, 3 * GIB, 4 * GIB - 5000, 1000 * GIB, 2048 * GIB - 5000, 4000 * GIB, MOST - 9000]
file = os.open("files/large", os.O_RDWR | os.O_CREAT)
if sys.argv[1] == "write":
    for place in PLACES:
        os.pwrite(file, place.to_bytes(9, "big") * 1000, place)
    try:
        os.pwrite(file, b"x", MOST)
        sys.exit("more than the largest file is taken")
    except OSError:
        pass
assert os.fstat(file).st_size == MOST
for place in PLACES:
    assert os.pread(file, 9000, place) == place.to_bytes(9, "big") * 1000, place
EOS
    says "an ext4 of 6 GiB is made" up -m m.img
    says "  which takes a file of 4402345721856 bytes, with holes, and no longer one" python3 large.py write
    dd if=/dev/urandom of=files/full bs=1M count=100 seek=2000 conv=fsync status=none
    sha256sum <files/full >full
    says "  and ends" down
    says "  with nothing left" nothing_left
    says "  and mounts again, with a whole check and growth (-g)" up -g m.img
    says "  which finds nothing" test "$(grep -c 'was mended' notes)" = 0
    says "  with that file" python3 large.py read
    says "  and one whose end crosses 2 GiB" test "$(sha256sum <files/full)" = "$(cat full)"
    says "  and ends" down
    says "  with nothing left" nothing_left
}

case_kernel() { # -K: the kernel's ext4
    fresh
    if [ "$(id -u)" != 0 ]; then
        says "-K is refused to whom isn't root" test "$(up -K m.img; echo $?)" = 1
        says "  which is said" told 'is for root'
        return
    fi
    truncate -s 1M loop.raw
    loop=$(losetup --find --show loop.raw 2>notes) || { echo "not tried: -K (no loop device)"; return; }
    losetup -d "$loop"
    "$make" -i 100 -J pass 60M k.img key k.backup 2>notes
    says "-K mounts by the kernel" up -K -m k.img
    says "  indeed" test "$(findmnt -no FSTYPE files)" = ext4
    says "  and no program of it gets more rights, nor is a device one" \
        test "$(findmnt -no OPTIONS files | tr , '\n' | grep -cx 'nosuid\|nodev')" = 2
    head -c 3M /dev/urandom >kernel && cp kernel files/ && sync -f files
    cp --sparse=always k.img rest.img
    says "  and a sync reaches the image" mended rest.img
    says "  with the file" has kernel kernel
    says "  and it ends by -u" down
    says "  with nothing left" nothing_left k.img
    says "  and is clean" is_clean k.img
    up -K k.img
    says "  and by hand" umount files
    says "  with nothing left" nothing_left k.img
    up -K k.img
    kill -TERM "$(process_of keeper)"
    says "  and by a signal" nothing_left k.img
    up -K k.img && cp kernel files/again && sync -f files
    cp --sparse=always k.img crashed.img
    says "what a power failure leaves of it" down
    cp --sparse=always crashed.img k.img
    says "  mounts again" up -K k.img
    says "  with what was synced" cmp kernel files/again
    says "  and ends" down
    says "  and is clean" is_clean k.img
    local who noted
    for who in keeper all; do
        for noted in before after; do
            up -K k.img && cp kernel "files/$who-$noted" && sync -f files
            [ $noted = after ] || rm "$folder"/mounts/*/up
            kill -KILL $(if [ $who = all ]; then behind; else process_of keeper; fi)
            says "SIGKILL to $who, $noted it was noted that -K has mounted it" \
                test "$(down; echo $?)" = "$([ $who$noted = keeperafter ]; echo $?)"
            says "  leaves nothing" nothing_left k.img
            says "  and it mounts again" up -K k.img
            says "  with what was synced" cmp kernel "files/$who-$noted"
            says "  and ends" down
            says "  and is clean" is_clean k.img
        done
    done
    local began took at wrong=0
    began=$(date +%s%N)
    up -K k.img
    took=$(share "($(date +%s%N) - $began) / 10**9")
    down
    for ((at = 0; at < rounds; at++)); do
        up -K k.img 2>/dev/null &
        sleep "$(share "$at / $rounds * $took")"
        kill -KILL $(process_of keeper) 2>/dev/null
        wait
        down
        nothing_left k.img 5 || { wrong=$((wrong + 1)) && sweep && rm -rf run/*; }
        is_clean k.img || { wrong=$((wrong + 1)) && echo "  at $at: $(tail -n 1 checked.out)"; }
    done
    says "SIGKILL to the keeper at $rounds moments of mounting by -K leaves nothing, and it is clean" test $wrong = 0
}

case_partition() { # a filesystem in a partition of the data: nbdkit stands between
    have nbdkit sfdisk || { echo "not tried: a partition (no nbdkit and sfdisk)"; return; }
    local who
    "$make" -i 100 -J pass 40M p.img key p.backup 2>notes
    truncate -s 36M table.raw && printf 'label: dos\nstart=2048\n' | sfdisk -q table.raw
    copy_in -k key -j pass table.raw p.img 2>notes
    says "a table of partitions is told" test "$(up p.img; echo $?)" = 1
    says "  and what to give" told 'it has partitions (dos).*: -n names one of them'
    says "-n mounts what is in a partition, in which -m makes an ext4" up -n 1 -m p.img
    head -c 3M /dev/urandom >three && cp three files/by-u
    says "  and it ends" down
    says "  with nothing left" nothing_left p.img
    says "  and mounts again" up -n 1 p.img
    cp three files/by-signal
    kill -TERM $(behind)
    says "  and SIGTERM to all ends it in order" nothing_left p.img
    for who in all server; do
        says "  so that nothing is mended" test "$(up -n 1 p.img; grep -c 'was mended' notes)" = 0
        cp three "files/by-$who" && sync "files/by-$who" && sleep 6
        kill -KILL $(if [ $who = all ]; then behind; else process_of server; fi)
        says "  and SIGKILL to $who is told" test "$(down; echo $?)" = 1
        says "  with nothing left" nothing_left p.img 5
        says "  and it mounts again" up -n 1 p.img
        says "  with its files" eval 'for it in files/by-*; do cmp three "$it" || exit 1; done'
        says "  and ends" down
    done
    says "  with the table as it was" cmp -n 512 table.raw <("$out" -b 512 -k key -j pass p.img first 2>notes; cat first)
}

case_full() { # a full disk, that gets room again or not
    mkdir -p small
    command mount -t tmpfs -o size=20M small small 2>notes || { echo "not tried: a full disk (no tmpfs)"; return; }
    "$make" -i 100 -J pass 100M large.img key large.backup 2>notes
    GELI_MOUNTS=$folder/mounts "$mount" -m -k key -j pass large.img files 2>notes && down
    cp --sparse=always large.img small/s.img
    head -c 6M /dev/urandom >six
    GELI_MOUNTS=$folder/mounts "$mount" -k key -j pass small/s.img files 2>notes
    for at in 1 2 3 4; do timeout 200 cp six "files/p$at"; done 2>copies
    sleep 8 # until the keeper has had the kernel write what it keeps
    command mount -o remount,size=200M small
    for at in 1 2 3; do timeout 200 cp six "files/q$at"; done 2>copies
    down
    says "where writes were refused the unmounting answers 1" test $? = 1
    says "  and tells it, how often, since when and why" told \
        'what was written may be lost: a write or a flush was refused [0-9]* times, the first at [0-9:]* (.* is full)$'
    says "  and nothing is left" nothing_left small/s.img
    says "  and it is told once" test "$(down; grep -c 'nothing was mounted' notes)" = 1
    rm small/s.img && command mount -o remount,size=20M small 2>notes
    cp --sparse=always large.img small/s.img
    GELI_MOUNTS=$folder/mounts "$mount" -k key -j pass small/s.img files 2>notes
    says "a disk that may become too small for the image is warned of" told 'its disk has room for'
    fallocate -l $(($(df --output=avail -B1 small | tail -n 1) - 8192)) small/filler
    timeout 200 cp six files/p1 2>copies
    fusermount3 -u files
    sleep 3
    says "where it stays full, and is unmounted by hand, that is told to the next mount" \
        test "$(GELI_MOUNTS=$folder/mounts "$mount" -k key -j pass small/s.img files 2>&1 | grep -c 'went wrong')" = 1
    down
    says "  and by -u, with 1" test $? = 1
    says "  and tells why" told 'a write or a flush was refused [0-9]* times, .* (.* is full)$'
    says "  and nothing is left" nothing_left small/s.img
    umount small
}

server() { GELI_MOUNTS=$folder/mounts "$serve" "$@" 2>notes; } # the variable marks what belongs to this case
is_gone() { ! kill -0 "$1" 2>/dev/null; }
case_serve() { # the end of a server with a client
    nbdsh -c pass 2>notes || { echo "not tried: a client of a server (no nbdsh)"; return; }
    local uri="nbd+unix:///?socket=$folder/sock" how client process wrong=0 at
    fresh
    cat >client.py <<'EOS'
import os, time
h.pwrite(b"a" * 4096, 20 << 20)
h.flush()
open("go", "w").close()
while not os.path.exists("gone"):
    time.sleep(0.05)
for at in range(1, 4):
    h.pwrite(b"b" * 4096, (20 << 20) + at * 4096)
EOS
    for how in 'serve-nbd.sh -e' SIGTERM 'SIGTERM to all'; do
        rm -f go gone
        server -k key -j pass m.img sock
        process=$(cat sock.pid)
        timeout 60 nbdsh -u "$uri" -c - <client.py 2>client.out &
        client=$!
        for _ in {1..200}; do [ ! -e go ] || break; sleep 0.1; done
        case $how in
            SIGTERM) kill "$process" ;;
            *all) kill $(behind) ;;
            *) server -e sock & ;;
        esac
        sleep 2
        [[ $how = SIGTERM* ]] || says "serve-nbd.sh -e says who is connected" told 'process [0-9]*: .*nbd'
        says "after $how nobody else is let in" test ! "$(timeout 20 nbdinfo --size "$uri" 2>/dev/null)"
        : >gone
        says "  and the last writes of who is connected are served" wait "$client"
        wait
        for _ in {1..100}; do is_gone "$process" && break; sleep 0.1; done
        says "  and it ends" is_gone "$process"
        [[ $how != SIGTERM* ]] || server -e sock
        says "  with all flushed" told 'all is flushed'
        says "  and nothing is left" nothing_left
        "$out" -k key -j pass m.img raw 2>out.notes
        says "  and they are there" test "$(tail -c +$(((20 << 20) + 4097)) raw | head -c 12288 | tr -d b | wc -c)" = 0
        rm -f raw
    done
    server -k key -j pass m.img sock
    timeout 60 nbdsh -u "$uri" -c 'import time; time.sleep(3); h.pwrite(b"c" * 4096, 20 << 20); h.flush()' 2>client.out &
    client=$!
    sleep 1
    kill -KILL "$(cat sock.pid)"
    says "after SIGKILL to who waits for a server its client is served" wait "$client"
    says "  and it is told" test "$(server -e sock; echo $?)" = 1
    says "  and nothing is left" nothing_left m.img 5
    server -k key -j pass m.img sock
    kill -KILL "$(cat sock.pid)"
    says "  and without a client it ends at once" nothing_left m.img 5
    server -e sock
    "$make" -i 300000 -J pass 20M i.img key i.backup 2>notes
    for ((at = 0; at < rounds; at++)); do
        GELI_MOUNTS=$folder/mounts timeout -s INT "$(share "0.05 + $at / $rounds * 3")" \
            "$serve" -k key -j pass i.img sock 2>notes
        [ ! -e sock.pid ] || server -e sock || wrong=$((wrong + 1))
        nothing_left i.img && [ -z "$(ls sock* 2>/dev/null)" ] ||
            { wrong=$((wrong + 1)) && ls sock*; sweep; rm -f sock*; }
    done
    says "an interrupt of serve-nbd.sh at $rounds moments leaves nothing" test $wrong = 0
}

# refused_from PIECE: how many are refused of 20 writes of a client that goes on
refused_from() {
    timeout 60 nbdsh -u "$uri" -c - 2>client.out <<EOS
refused = 0
for at in range($1, $1 + 20):
    try:
        h.pwrite(b"b" * 65536, at << 18)
    except nbd.Error:
        refused += 1
print(refused)
EOS
}
# What a server's notes of requests take, in blocks of 512 bytes.
blocks_of_log() { find "/proc/$1/fd" -lname '/memfd:log*' -exec stat -Lc %b {} +; }
in_order() { printf '%s\n' "$@" | sort -c; }
case_refused() { # writes of a server's clients that are refused, and room again
    nbdsh -c pass 2>notes || { echo "not tried: writes of clients that are refused (no nbdsh)"; return; }
    local uri="nbd+unix:///?socket=$folder/sock" process before after first second
    mkdir -p small
    command mount -t tmpfs -o size=20M small small 2>notes || { echo "not tried: a full disk (no tmpfs)"; return; }
    "$make" -i 100 -J pass 40M small/s.img key small.backup 2>notes
    server -k key -j pass small/s.img sock
    process=$(cat sock.pid)
    fallocate -l $(($(df --output=avail -B1 small | tail -n 1) - 8192)) small/filler
    before=$(date +%T)
    first=$(refused_from 4)
    after=$(date +%T)
    sleep 1
    kill -STOP "$process"
    second=$(refused_from 40)
    kill -CONT "$process"
    says "on a full disk writes of a client are refused" test "${first:-0}" -gt 0
    says "  and of another one, while who waits for the server stands still" test "${second:-0}" -gt 0
    rm small/filler
    says "  and done once there is room again" timeout 60 nbdsh -u "$uri" -c \
        'h.pwrite(b"c" * 65536, 1 << 20); h.flush(); [h.pread(512, 0) for _ in range(5000)]'
    sleep 1
    says "  and what is noted of each request takes no room" test "$(blocks_of_log "$process")" -lt 100
    says "  but serve-nbd.sh -e answers 1" test "$(server -e sock; echo $?)" = 1
    says "  and says how many, and why" told \
        "what clients wrote may be lost: a write or a flush was refused $((first + second)) times, .* (.* is full)\$"
    says "  and since when" in_order "$before" "$(sed 's/.*the first at //; s/ .*//' notes)" "$after"
    says "  and nothing is left" nothing_left small/s.img
    server -k key -j pass small/s.img sock
    says "  and it is told once" server -e sock
    umount small
}

case_slow() { # a disk whose sync is slow
    head -c 100000 /dev/urandom >new
    for SYNC in 0.2 1; do
        export SYNC
        fresh
        GELI_NBD=$folder/slow up m.img
        cp new files/new
        says "with a sync of $SYNC s it ends" down
        says "  with nothing left" nothing_left
        says "  and clean" is_clean
        says "  and with the file" has new new
        GELI_NBD=$folder/slow up m.img
        cp new files/new2
        down &
        for _ in {1..200}; do grep -q " $folder/files " /proc/self/mountinfo || break; sleep 0.05; done
        kill -TERM "$(process_of front)"
        says "  and where the unmounting is broken off too" nothing_left m.img 15
        says "  clean" is_clean
        says "  and with the file" has new2 new
    done
    unset SYNC
}

case_stalled() { # a disk that stands still for a while, in any call
    head -c 100000 /dev/urandom >new
    fresh
    GELI_NBD=$folder/slow up m.img
    cp new files/new
    : >stalls
    (sleep 6 && rm stalls) &
    says "a disk that stands still at the end is waited for" down
    says "  which is told" told 'waiting for the disk'
    says "  and nothing is left" nothing_left
    says "  and it is clean" is_clean
    GELI_NBD=$folder/slow up m.img
    : >stalls
    (sleep 6 && rm stalls) &
    says "one that stands still while a file is written too" timeout 60 cp new files/new2
    says "  and it ends" down
    says "  and is clean" is_clean
    says "  with the file" has new2 new
    : >stalls
    (sleep 4 && rm stalls) &
    GELI_NBD=$folder/slow GELI_MOUNTS=$folder/mounts "$mount" -k key -j pass m.img files 2>notes &
    sleep 1.5
    kill -TERM $(process_of front) 2>/dev/null
    wait
    says "and a mount that is broken off while the disk stands still leaves nothing" nothing_left m.img 10
    says "  and is clean" is_clean
}

case_damaged() { # a filesystem that is damaged, or was mounted by a kernel that crashed
    fresh
    up m.img; cp -r "$top/examples" files/; down
    "$out" -k key -j pass m.img raw 2>notes
    debugfs -w -R 'clri /examples/lib.py' raw 2>notes
    debugfs -w -R 'set_super_value state 2' raw 2>notes
    debugfs -w -R 'set_inode_field /examples/lib.sh links_count 7' raw 2>notes
    debugfs -w -R 'set_inode_field /examples block[0] 3' raw 2>notes
    copy_in -k key -j pass raw m.img 2>notes
    says "a damaged filesystem isn't mounted" test "$(up m.img; echo $?)" = 1
    says "  and what to give is told" told "copy 'm.img' to another disk, and then give -c"
    says "  and no path that is gone" test "$(grep -c "$folder/mounts" notes)" = 0
    says "  and nothing is left" nothing_left
    says "  and -c repairs it" up -c m.img
    says "  which is said" told 'the filesystem was mended'
    says "  and its file is there" grep -q hello files/hello
    says "  and it ends" down
    says "  and is clean" is_clean
    "$make" -i 100 -J pass 80M b.img key b.backup 2>notes
    mke2fs -q -t ext4 -E nodiscard small.raw 70M 2>notes
    # The superblock's checksum; so small an ext4 has no second one.
    printf '\377\377' | dd of=small.raw bs=1 seek=2044 conv=notrunc status=none
    rm -f m.img && copy_in -k key -j pass small.raw b.img 2>notes && mv b.img m.img
    says "a superblock whose checksum is wrong isn't mounted" test "$(up m.img; echo $?)" = 1
    says "  and -c mends it" up -c m.img
    says "  and it ends" down
    fresh
    mkdir kernel
    truncate -s 80M journal.raw && mke2fs -q -t ext4 journal.raw 2>notes
    if command mount -o loop journal.raw kernel 2>notes; then
        echo kernel >kernel/kernel && sync -f kernel && cp --sparse=always journal.raw crashed.raw
        umount kernel
        "$make" -i 100 -J pass 90M j.img key j.backup 2>notes
        copy_in -k key -j pass crashed.raw j.img 2>notes
        says "  (a journal must be played)" grep -q needs_recovery <(dumpe2fs -h crashed.raw 2>&1)
        says "a kernel's journal isn't played by -r" test "$(up -r j.img; echo $?)" = 1
        says "  which tells what to give" told '^without -r it is mounted'
        says "a kernel's journal is played" up j.img
        says "  and the file is there" grep -q kernel files/kernel
        says "  and it ends" down
        says "  and nothing is left" nothing_left j.img
    else
        echo "not tried: a kernel's journal (no loop mount)"
    fi
    before=$(up m.img; df --output=size files | tail -n 1; down)
    "$grow" -k key -j pass 60M m.img grown.backup 2>notes
    says "grow-provider.sh says that the filesystem doesn't grow" told 'vuthrel mount -g'
    says "the filesystem in a grown provider grows by -g" up -g m.img
    says "  indeed" test "$(df --output=size files | tail -n 1)" -gt $((before * 3 / 2))
    says "  and it ends" down
    says "  and is clean" is_clean
}

case_interrupt() { # ^C at a terminal, and two mounts at once
    cat >interrupt.py <<'EOS'
import os, pty, select, sys, time
# interrupt.py SECONDS COMMAND...: types the passphrase at the prompt, and ^C so long after it (0: at it; -1: never, and
# no passphrase either).
seconds = float(sys.argv[1])
process, terminal = pty.fork()
if process == 0:
    os.execvp(sys.argv[2], sys.argv[2:])
said, at = b"", None
while True:
    left = None if at is None else max(at - time.monotonic(), 0)
    if not select.select([terminal], [], [], left)[0]:
        os.write(terminal, b"\x03")
        at = time.monotonic() + 3
        continue
    try:
        piece = os.read(terminal, 4096)
    except OSError:
        break
    if not piece:
        break
    said += piece
    if seconds >= 0 and at is None and said.rstrip().endswith(b"passphrase:"):
        if seconds:
            os.write(terminal, b"a passphrase\n")
        at = time.monotonic() + seconds
sys.stdout.buffer.write(said)
sys.exit(os.waitstatus_to_exitcode(os.waitpid(process, 0)[1]) % 256)
EOS
    local mounted=0 broken=0 wrong=0 at began took
    "$make" -i 300000 -J pass 20M i.img key i.backup 2>notes
    up -m i.img && down
    began=$(date +%s%N)
    up i.img
    took=$(share "($(date +%s%N) - $began) / 10**9")
    down
    for ((at = 0; at < rounds; at++)); do
        GELI_MOUNTS=$folder/mounts timeout 60 python3 interrupt.py "$(share "$at / $rounds * $took * 1.2")" "$mount" \
            -k key i.img files >typed
        case $? in
            0) mounted=$((mounted + 1)) && { down || wrong=$((wrong + 1)); } ;;
            130) broken=$((broken + 1)) ;;
            *) wrong=$((wrong + 1)) && echo "  at $at: $(tail -n 2 typed)" ;;
        esac
        nothing_left i.img || { wrong=$((wrong + 1)) && sweep; }
    done
    says "an interrupt at $rounds moments ($broken broken off, $mounted mounted) leaves nothing" test $wrong = 0
    says "  and some of each" test $broken -gt 1
    wrong=0
    fresh
    for at in {1..10}; do
        GELI_MOUNTS=$folder/mounts "$mount" -k key -j pass m.img files 2>first & first=$!
        GELI_MOUNTS=$folder/mounts "$mount" -k key -j pass m.img files 2>second & second=$!
        wait $first; first=$?
        wait $second; second=$?
        [ $((first + second)) = 1 ] || { wrong=$((wrong + 1)) && cat first second; }
        down || { wrong=$((wrong + 1)) && cat notes; }
        nothing_left || wrong=$((wrong + 1))
    done
    says "of two mounts at once, ten times, one is there" test $wrong = 0
    GELI_MOUNTS=$folder/mounts setsid python3 interrupt.py -1 "$mount" -k key i.img files >typed &
    sleep 2
    kill -KILL $(behind) 2>notes
    wait
    says "a mount whose asking was killed doesn't keep the next one off" up i.img
    says "  which ends" down
    says "  and nothing is left" nothing_left i.img
    state=$folder/mounts/$(printf %s "$folder/files" | sha256sum | cut -c1-16)
    mkdir "$state" && : >"$state/keeper.new"
    says "one that was killed once its folder was made" test "$(down; echo $?)" = 1
    says "  leaves nothing behind -u" nothing_left i.img
}

case_by_hand() {
    for how in 'fusermount3 -u' 'umount' 'fusermount -u'; do
        have "${how%% *}" || continue
        fresh
        up m.img
        echo by hand >files/hand
        cp files/hand hand
        says "unmounted by '$how'" $how files
        says "  nothing is left" nothing_left
        says "  and it is clean" is_clean
        says "  with its file" has hand hand
    done
    fresh
    up m.img
    exec 9>files/open
    says "what is in use isn't unmounted by -u" test "$(down; echo $?)" = 1
    says "  and who uses it is told" told "in use by process $$ "
    says "  and it goes on" eval 'echo goes on >&9'
    exec 9>&-
    says "  and ends" down
    says "  with nothing left" nothing_left
    up m.img
    cp hand files/hand2
    kill -KILL "$(process_of keeper)"
    says "where the keeper was killed, and it is unmounted by hand" fusermount3 -u files
    says "  the next mount says what to give" test "$(up m.img; told "give .* -u .*files' first"; echo $?)" = 0
    says "  which takes down the rest" down
    says "  with nothing left" nothing_left
    says "  and clean" is_clean
    says "  with its file" has hand2 hand
}

in_german() { LANGUAGE=de LC_ALL=C.UTF-8 "$@"; } # needs no locale, but the programs' texts
case_language() { # what programs say in another language
    [ "$(in_german stat -c %F .)" != directory ] || { echo "not tried: German (stat(1) has no texts of it)"; return; }
    fresh
    says "a mount in German" in_german up m.img
    echo hallo >"files/Grüße" && cp "files/Grüße" hallo
    says "  and its list" test "$(GELI_MOUNTS=$folder/mounts in_german "$mount" -l)" = "$folder/files: $folder/m.img (ext4)"
    exec 9>files/open
    says "  isn't unmounted while it is in use" test "$(in_german down; echo $?)" = 1
    says "  which is told" told "in use by process $$ "
    exec 9>&-
    says "  and then is" in_german down
    says "  with nothing left" nothing_left
    says "  and mounts again, by -r" in_german up -r m.img
    says "  with its file" cmp hallo "files/Grüße"
    says "  and ends" in_german down
    in_german up m.img
    kill -KILL "$(process_of keeper)" "$(process_of files)"
    sleep 0.5
    says "  and where its keeper and its filesystem's program were killed" test "$(in_german down; echo $?)" = 1
    says "  which is told" told "the filesystem's end wasn't orderly\|the filesystem's program"
    says "  nothing is left" nothing_left
    says "a mount in English" up m.img
    says "  ends in German" in_german down
    says "  with nothing left" nothing_left
}

case_replaced() { # the image goes from under its mount
    local how
    for how in 'rm m.img' 'mv m.img other.img' 'truncate -s 20M m.img'; do
        fresh
        up m.img
        echo lost >files/lost
        sleep 1
        $how
        sleep 4
        says "an image after '$how' is shown by -l" test "$(GELI_MOUNTS=$folder/mounts "$mount" -l 2>&1 |
            grep -c 'goes wrong.*removed or replaced\|goes wrong.*made shorter')" = 1
        says "  and is told" test "$(down; echo $?)" = 1
        says "  in words" told "m.img' was \(removed or replaced\|made shorter\)\|a write or a flush was refused"
        rm -f m.img && fresh
        says "  and nothing is left" nothing_left
    done
}

case_programs() { # what the programs behind it say is shown
    fresh
    if unshare -m mount --bind /dev/null /dev/fuse 2>notes; then
        SECONDS=0
        says "a bridge that can't begin" test "$(unshare -m --propagation private sh -c \
            'mount --bind /dev/null /dev/fuse && GELI_MOUNTS=$1/mounts exec "$2" -k key -j pass m.img files 2>notes' \
            - "$folder" "$mount"; echo $?)" = 1
        says "  tells why" told 'nbd[a-z_.]*: .*mount failed'
        says "  at once" test $SECONDS -lt 10
        says "  and nothing is left" nothing_left
    else
        echo "not tried: a bridge that can't begin (no unshare)"
    fi
    mkdir -p bin
    cat >bin/fusermount3 <<EOS
#!/bin/sh
case "\$*" in *"\$(cat "$folder/refuses" 2>/dev/null || echo none)") echo "fusermount3: no, not now" >&2; exit 1 ;; esac
exec $(command -v fusermount3) "\$@"
EOS
    chmod +x bin/fusermount3
    (
        PATH=$folder/bin:$PATH
        up m.img
        echo /files >refuses
        says "a fusermount3 that fails" test "$(down; echo $?)" = 1
        says "  is quoted" told 'stays mounted: fusermount3: no, not now'
        echo /disk >refuses
        (sleep 6 && rm refuses) &
        says "one that fails at the device is waited for" down
        says "  which is told" told 'waiting for the disk: fusermount3: no, not now'
        says "  and nothing is left" nothing_left
        says "  and it is clean" is_clean
        exit $((failures > 0))
    ) || failures=$((failures + 1))
}

case_namespace() { # another mount namespace, which has the mount too
    unshare -m true 2>notes || { echo "not tried: another mount namespace (no unshare)"; return; }
    fresh
    up m.img
    unshare -m --propagation private sleep 8 &
    sleep 0.5
    says "a mount that another mount namespace has ends with that" down
    says "  and who that is is told" told 'waiting for process [0-9]* (sleep 8)'
    says "  and nothing is left" nothing_left
    says "  and it is clean" is_clean
    wait
    local listed=yes
    if ! mountpoint -q /sys/fs/fuse/connections; then
        command mount -t fusectl fusectl /sys/fs/fuse/connections 2>notes ||
            { echo "not tried: -f (no fusectl)"; return; }
        listed=''
    fi
    up m.img
    echo last >files/last && cp files/last last
    unshare -m --propagation private sleep 60 &
    sleep 0.5
    SECONDS=0
    says "-u -f doesn't wait for it" env GELI_MOUNTS="$folder/mounts" "$mount" -u -f files 2>notes
    says "  indeed" test $SECONDS -lt 20
    says "  and it is clean" is_clean
    says "  with its file" has last last
    says "  and nothing is left" nothing_left
    kill $!
    wait
    [ -n "$listed" ] || umount /sys/fs/fuse/connections
}

# signalled SIGNAL WHO: a mount of which the program of this role, or all programs, get a signal
signalled() {
    fresh && { up m.img || cat notes >&3; } && echo a >files/a
    # shellcheck disable=SC2046 # they are numbers
    if [ "$2" = all ]; then kill "-$1" $(behind); else kill "-$1" "$(process_of "$2")"; fi
}
case_signals() { # signals to a mount that is used
    local signal who
    for signal in TERM INT HUP; do
        signalled $signal keeper
        says "SIG$signal to the keeper unmounts" nothing_left
        says "  in order" is_clean
        signalled $signal all
        says "SIG$signal to all unmounts" nothing_left
        says "  in order" is_clean
        for who in device server files geli; do
            signalled $signal $who
            sleep 0.3
            echo b >files/b
            says "SIG$signal to the $who is left alone" grep -q b files/b
            says "  and it ends" down
            says "  in order" is_clean
        done
    done
    for who in device server files geli; do
        fresh && up m.img && echo a >files/a && sleep 6 # until what the kernel keeps is written
        kill -KILL "$(process_of $who)"
        sleep 1
        says "SIGKILL to the $who is told" test "$(down; echo $?)" = 1
        says "  in words" told 'may be lost'
        says "  and nothing is left" nothing_left
        says "  and it mounts again" up m.img
        says "  with its file" grep -q a files/a
        says "  and ends" down
        says "  in order" is_clean
    done
    fresh && up m.img && echo a >files/a
    kill -KILL "$(process_of keeper)"
    echo b >files/b
    says "SIGKILL to the keeper leaves the mount, which ends in order" down
    says "  with nothing left" nothing_left
    says "  and clean" is_clean
    fresh && up m.img
    rm "$folder"/mounts/*/up
    kill -KILL $(behind)
    says "SIGKILL to all before the keeper has noted its mount is told" test "$(down; echo $?)" = 1
    says "  and nothing is left" nothing_left
    fresh && up m.img
    exec 9>files/open
    kill -TERM "$(process_of keeper)"
    sleep 1
    says "what is open at a SIGTERM is still written" eval 'echo still >&9'
    sleep 6
    exec 9>&-
    says "  and it ends with that" nothing_left
    says "  in order" is_clean
    echo still >still
    says "  with what was written" has open still
}

# used: mounts, writes a file, and unmounts, in the background of a round; the status of -u in `used.status`.
used() {
    rm -f used.status
    SYNC=0.1 GELI_NBD=$folder/slow GELI_MOUNTS=$folder/mounts "$mount" -k key -j pass i.img files 2>used.notes || return
    cp new files/new 2>>used.notes || return
    sleep 0.2
    GELI_MOUNTS=$folder/mounts "$mount" -u files 2>>used.notes
    echo $? >used.status
}
# round SIGNAL WHO MOMENT: what is wrong after a signal at this moment of `used`; nothing, where all is right. Where
# somebody got the signal `reached` has one line more.
round() {
    local targets
    cp --sparse=always i.made i.img
    head -c 50000 /dev/urandom >new
    used 2>/dev/null &
    sleep "$3"
    if [ "$2" = all ]; then targets=$(behind); else targets=$(process_of "$2"); fi
    # shellcheck disable=SC2086
    if [ -n "$targets" ] && kill "-$1" $targets 2>/dev/null; then echo >>reached; fi
    wait 2>/dev/null
    # Who was signalled may have left the mount to its keeper, or been that.
    down
    nothing_left i.img 8 || echo "something is left"
    if [ -e files/new ]; then
        rm files/new used.status # it was unmounted before the file was written, which so was to the folder under it
    fi
    case $1:$(cat used.status 2>/dev/null) in
        *:0) { is_clean i.img && has new new; } || echo "-u answered 0, and it is: $(tail -n 1 checked.out)" ;;
        KILL:*) mended i.img || echo "it can't be mended" ;;
        *) is_clean i.img || echo "it isn't clean: $(tail -n 1 checked.out)" ;;
    esac
}
case_moments() { # signals to each process and to all, from the passphrase to the end of -u
    local signal who at said wrong began took
    "$make" -i 100000 -J pass 20M i.img key i.backup 2>notes
    up -m i.img && down
    mv i.img i.made
    for signal in ${SIGNALS:-TERM INT KILL}; do
        for who in ${ROLES:-all front keeper device server files geli}; do
            wrong=0
            : >reached
            cp --sparse=always i.made i.img && head -c 50000 /dev/urandom >new
            began=$(date +%s%N) # anew, as the load changes
            used
            took=$(share "($(date +%s%N) - $began) / 10**9")
            for ((at = 0; at < rounds; at++)); do
                said=$(round $signal $who "$(share "0.05 + $at / $rounds * $took")" 3>&1)
                [ -z "$said" ] || { wrong=$((wrong + 1)) && echo "  at $at: $said" && sweep && rm -rf run/*; }
            done
            says "SIG$signal to $who at $rounds moments leaves nothing, and -u tells the truth" test $wrong = 0
            says "  of which $(wc -l <reached) found somebody" test -s reached
        done
    done
}

case_shutdown() { # SIGTERM to all, and to who writes, as at a shutdown
    local at wrong=0 writer
    cat >commits.sh <<'EOS'
# Commits of sqlite and git, one after another: the number of each is printed once it is made.
for number in {1..200}; do
    query "insert into t values ($1, $number) returning 1" >query.out && echo "$number" || exit 1
    commit "$1.$number" || exit 1
done
EOS
    fresh
    up m.img && query 'create table t (round, number)' && commit 0
    down || wrong=1
    for ((at = 0; at < rounds; at++)); do
        # In every other round the disk's sync is slow.
        SYNC=$(share "$at % 2 / 5") GELI_NBD=$folder/slow up m.img || wrong=$((wrong + 1))
        : >acknowledged
        (set -- "$at" && . ./commits.sh >acknowledged 2>commits.notes) &
        writer=$!
        sleep "$(share "0.5 + $at % 7 / 4")"
        kill -TERM $(behind)
        sleep 0.2
        kill -TERM $writer 2>/dev/null
        wait $writer 2>/dev/null
        nothing_left m.img 15 || wrong=$((wrong + 1))
        is_clean || { wrong=$((wrong + 1)) && echo "  at $at: $(tail -n 3 checked.out)"; }
        rm -rf files/work files/base* # what was written to the folder under it since
        up m.img || wrong=$((wrong + 1))
        [ "$(query "select count(*) from t where round = $at")" -ge "$(wc -l <acknowledged)" ] ||
            { wrong=$((wrong + 1)) && echo "  at $at: a commit of the database is lost"; }
        [ "$(query 'pragma integrity_check')" = ok ] || { wrong=$((wrong + 1)) && echo "  at $at: the database"; }
        git -C files/work fsck --strict >git.out 2>&1 || { wrong=$((wrong + 1)) && cat git.out; }
        rm -f files/work/.git/*.lock
        down || wrong=$((wrong + 1))
    done
    says "SIGTERM to all and to who writes, $rounds times: it is clean, and has each commit" test $wrong = 0
    says "  with nothing left" nothing_left
}

case_kill() { # SIGKILL to all in the middle of writes, and mounted again
    local at wrong=0 lost=0 repaired=0 name sum
    cat >writes.py <<'EOS'
import hashlib, os, random, sqlite3, sys
random.seed(int(sys.argv[1]))
base = sqlite3.connect("files/base")
base.execute("create table if not exists t (name, sum)")
base.commit()
for number in range(30):
    data = random.randbytes(random.choice([10, 3000, 60000, 300000]))
    name = f"files/r{sys.argv[1]}_{number}"
    with open(name, "wb") as file:
        file.write(data)
        file.flush()
        os.fsync(file.fileno())
    base.execute("insert into t values (?, ?)", (name, hashlib.sha256(data).hexdigest()))
    base.commit()
    print(name, hashlib.sha256(data).hexdigest(), flush=True)
EOS
    fresh
    up m.img || wrong=1
    have git && commit 0
    for ((at = 0; at < rounds; at++)); do
        timeout 60 python3 writes.py $at >acknowledged 2>writes.notes &
        sleep "$(share "0.3 + $at % 7 / 5")"
        kill -KILL $(behind)
        wait $! 2>/dev/null
        ! down || { wrong=$((wrong + 1)) && echo "  at $at: -u answered 0"; }
        nothing_left || wrong=$((wrong + 1))
        if ! up m.img; then
            repaired=$((repaired + 1))
            told 'give -c' && up -c m.img || { wrong=$((wrong + 1)) && cat notes && fresh && up m.img && continue; }
        fi
        at_rest || { wrong=$((wrong + 1)) && echo "  at $at, mounted: $(tail -n 3 checked.out)"; }
        while read -r name sum; do
            [ "$(sha256sum <"$name" | cut -d' ' -f1)" = "$sum" ] || { lost=$((lost + 1)) && echo "  at $at: $name"; }
        done <acknowledged
        [ "$(query 'pragma integrity_check')" = ok ] || { wrong=$((wrong + 1)) && echo "  at $at: the database"; }
        ! have git || git -C files/work fsck --strict >git.out 2>&1 || { wrong=$((wrong + 1)) && cat git.out; }
        rm -f files/r*
        at_rest_or_mended || { wrong=$((wrong + 1)) && echo "  at $at: $(tail -n 3 checked.out)"; }
    done
    says "SIGKILL to all, $rounds times ($repaired repaired by -c): each is told, and mounts again" test $wrong = 0
    says "  and each file that was synced is there" test $lost = 0
    says "  and it ends" down
    says "  in order" is_clean
    says "  with nothing left" nothing_left
}

# --- One case, or all of them.

if [ "${1:-}" = --case ]; then
    folder=$3 failures=0
    cd "$folder" || exit 2
    export XDG_RUNTIME_DIR=$folder/run # its passphrases are there, and no others
    write_slow
    "case_$2"
    exit $((failures > 0))
fi
GELI=$(readlink -f "${1:-$top/geli}")
GELI_NBD=$(readlink -f "${GELI_NBD:-$top/geli-nbd}")
export GELI GELI_NBD
[ $# = 0 ] || shift
names=("$@")
[ ${#names[@]} -gt 0 ] || names=(rest removed sync bridge below reader state torn memory fio large kernel partition full serve refused slow stalled damaged interrupt by_hand
    language replaced programs namespace signals shutdown moments kill)
work=$(mktemp -d)
folder=$work/none failures=0
at_end() {
    sweep
    rm -rf --one-file-system "$work"
}
trap at_end EXIT
trap 'exit 130' INT TERM
mkdir "$folder" && cd "$folder" || exit 2
mkdir files run
export XDG_RUNTIME_DIR=$folder/run
printf 'a passphrase\n' >pass
"$make" -i 100 -J pass 40M m.img key made.backup 2>notes || { cat notes && exit 2; }
says "a mount with an ext4 made" up -m m.img
echo hello >files/hello
says "  is unmounted" down
says "  with nothing left" nothing_left
says "  and clean" is_clean
mv m.img ../made.img
for name in "${names[@]}"; do
    folder=$work/$name SECONDS=0
    echo "case $name"
    mkdir -p "$folder/files" "$folder/run" && cp pass key "$folder" && cp --sparse=always ../made.img "$folder/"
    timeout -k 30 "${BOUND:-3000}" "$top/tools/try_mount.sh" --case "$name" "$folder"
    status=$?
    [ $status != 124 ] || echo "FAILS: it took too long"
    [ -z "$(behind)" ] || { status=1 && echo "FAILS: processes were left" && left_behind made.img; }
    sweep
    [ $status = 0 ] || failures=$((failures + 1))
    rm -rf --one-file-system "$folder"
    echo "  ($SECONDS seconds)"
done
[ "$failures" = 0 ] || { echo "$failures fail" && exit 1; }

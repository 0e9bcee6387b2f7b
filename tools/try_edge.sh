#!/usr/bin/env bash
# Runs the program on real files, where data could be lost, and looks at what is left. Each line says what was tried; the
# status is 1 where something wasn't as said. A tmpfs and a loop device are made where the user may make them.
#
#   tools/try_edge.sh [PROGRAM]      without a word: the program that ./geli runs
#
# A second writer, a second name and the moment of a reply are tried by scripts that are asked line by line.
set -u
top=$(cd "$(dirname "$(readlink -f "${BASH_SOURCE[0]}")")/.." && pwd)
program=$(readlink -f "${1:-$top/geli}")
folder=$(mktemp -d)
trap 'umount "$folder"/{small,one,two} 2>/dev/null; [ -z "${loop:-}" ] || losetup -d "$loop"; rm -rf "$folder"' EXIT
cd "$folder" || exit 2
umask 022
failures=0

# says NAME COMMAND...: the command holds, or not
says() {
    local name=$1
    shift
    if "$@"; then echo "holds: $name"; else
        echo "FAILS: $name"
        failures=$((failures + 1))
    fi
}
# answers STATUS TEXT WORDS...: the program's status and the last line of its output
answers() {
    local status=$1 text=$2 out got
    shift 2
    out=$(timeout 20 "$program" "$@" 2>&1)
    got=$?
    [ "$got" = "$status" ] && [ "$(tail -n 1 <<<"$out")" = "$text" ] || {
        echo "  $* gave $got: $out"
        return 1
    }
}
same() { cmp -s "$1" "$2"; }
mode() { stat -c %a "$1"; }
fresh() { # an image of 3 sectors, its copy, and a key
    rm -rf ./*.img ./*.key ./copy soft hard
    head -c 1536 /dev/zero >c.img && cp c.img copy && printf key >k.key
}
changed_last_sector() { [ "$(stat -c %s c.img)" = 1536 ] && cmp -s -n 1024 c.img copy && [ "$(tail -c 512 c.img | head -c 9)" = GEOM::ELI ]; }

fresh
says "a key that is the image is refused" answers 1 "error 28 CabinetFault 3" init -P -K c.img c.img
says "  and the image stays" same c.img copy
ln -s c.img soft && ln c.img hard
says "a key that links to the image is refused" answers 1 "error 28 CabinetFault 3" init -P -K soft c.img
says "a key that is a second name of the image is refused" answers 1 "error 28 CabinetFault 3" init -P -K hard c.img
says "  and the image stays" same c.img copy
for name in c.img ./c.img soft hard "$folder/c.img"; do
    fresh
    ln -s c.img soft && ln c.img hard
    says "a backup over the image as $name is refused" answers 1 "error 28 CabinetFault 5" init -P -K k.key -B "$name" c.img
    says "  and the image has its length and the new metadata" changed_last_sector
done

fresh
printf old >b && chmod 644 b
says "a backup replaces the old one" answers 0 ok init -P -K k.key -B b c.img
says "  it is the metadata" test "$(tail -c 512 c.img | sha256sum)" = "$(sha256sum <b)"
says "  its owner alone may read it" test "$(mode b)" = 600
says "  and no other file is left" test -z "$(find . -maxdepth 1 -name '*new*')"
for left in 0 1 2; do printf left >"b.new$left"; done
says "files that a crash left are no hindrance" answers 0 ok init -P -K k.key -B b c.img
says "  and stay" test "$(cat b.new0 b.new1 b.new2) $(names=(*new*) && echo ${#names[@]})" = 'leftleftleft 3'
rm -f b b.new?
mkfifo pipe && mkdir sub
for name in pipe sub /dev/null; do
    says "a backup over $name is refused" answers 1 "error 28 CabinetFault 5" init -P -K k.key -B "$name" c.img
done
says "a key comes out of a pipe" answers 0 ok init -P -K <(printf key) c.img
says "  and the same bytes in a file open the provider" answers 0 ok attach -C -p -k k.key c.img
for name in pipe sub /dev/null absent; do
    says "$name is no image" answers 1 "error 26 DeviceFault" dump "$name"
    says "  and none to be changed" answers 1 "error 26 DeviceFault" init -s 512 -P -K k.key "$name"
done

says "the program waits for nobody who holds an image" flock c.img true
tr '\0' a <copy >c.img # a zero that is written to it would show
flock c.img sleep 3 &
sleep 0.5
cp c.img copy
says "an image that another run holds isn't changed" answers 1 "error 26 DeviceFault" init -P -K k.key c.img
says "  and stays" same c.img copy
wait
fresh
"$program" init -P -K k.key c.img >out
flock c.img sleep 3 &
sleep 0.5
says "  dump reads it" answers 0 ok dump c.img
says "  attach -C reads it" answers 0 ok attach -C -p -k k.key c.img
wait
chmod 444 c.img
says "an image that may only be read is read" answers 0 ok attach -C -p -k k.key c.img
chmod 644 c.img

if mkdir small && mount -t tmpfs -o size=64k tmpfs small 2>/dev/null; then
    fresh
    printf old >small/b
    head -c 1M /dev/zero >small/full 2>/dev/null
    says "a backup that finds no room is refused" answers 1 "error 28 CabinetFault 5" init -P -K k.key -B small/b c.img
    says "  the old one stands" test "$(cat small/b)" = old
    says "  and no other file is left" test "$(ls small)" = "$(printf 'b\nfull')"
    umount small
    mkdir one two
    mount -t tmpfs -o size=64k tmpfs one && mount -t tmpfs -o size=64k tmpfs two
    head -c 1536 /dev/zero >one/a.img && head -c 1536 /dev/zero >two/a.img
    if [ "$(stat -c %i one/a.img)" = "$(stat -c %i two/a.img)" ]; then
        says "two images with one inode number on two file systems are two" test "$(for at in one two; do
            printf '%s\n' "init -P -K k.key $at/a.img" "attach -p -k k.key $at/a.img"; done | "$program" script one/a.img two/a.img | paste -sd,)" = ok,ok,ok,ok
    else
        echo "not tried: one inode number on two file systems (they number otherwise)"
    fi
    umount one two
else
    echo "not tried: a full disk (no tmpfs)"
fi
(
    ulimit -f 0
    trap '' XFSZ
    exec "$program" init -P -K k.key -B limited c.img
) 2>&1 | cat >out
says "a write that the system refuses is told" grep -q "^error 26 DeviceFault$" out
says "  and nothing is stored" test ! -e limited

# limited BYTES WORDS...: the program may make or reach no file beyond so many bytes
limited() {
    (
        trap '' XFSZ
        prlimit --fsize="$1" "$program" "${@:2}"
    ) 2>/dev/null
}
fresh
"$program" init -P -K k.key c.img >out
says "a stored file of which the system takes a part is refused" test "$(limited 256 backup c.img part)" = "error 28 CabinetFault 2"
says "  and no part of it is left" test -z "$(ls part* 2>/dev/null)"
head -c 2048 /dev/zero >e.img
"$program" init -P -K k.key e.img >out
says "a write of which the system takes a part is refused" test "$(printf '%s\n' "attach -p -k k.key e.img" "write e.img 1 $(head -c 1024 /dev/zero | tr '\0' a | od -An -v -tx1 | tr -d ' \n')" | limited 1024 script e.img | head -n 2 | paste -sd,)" = "ok,error 26 DeviceFault"

# Of random bytes no eight come twice: the salts of two providers, and their keys.
cp c.img d.img
"$program" init -P -K k.key d.img >out
salt() { "$program" dump "$1" | sed -n 's/^ *salt: *//p'; }
eights() { fold -w 16 | sort | uniq -d; }
says "the salts of two providers differ, and repeat nothing" test -z "$(printf '%s%s' "$(salt c.img)" "$(salt d.img)" | eights)"
says "  nor do their key slots" test -z "$(for at in c.img d.img; do tail -c 512 $at | tail -c +130 | head -c 192 | od -An -v -tx1 | tr -d ' \n'; done | eights)"
says "  and both have one" test "$(salt c.img | tr -d '\n' | wc -c) $(salt d.img | tr -d '\n' | wc -c)" = "128 128"

if loop=$(losetup -f --show c.img 2>/dev/null); then
    says "a block device is an image" answers 0 ok init -P -K k.key "$loop"
    says "  its last sector has the metadata" answers 0 ok attach -C -p -k k.key c.img
    losetup -d "$loop"
    loop=
else
    echo "not tried: a block device (no loop device)"
fi

fresh
says "with no words the status is 2" answers 2 "usage: geli script IMAGE... or geli VERB ..."
"$program" dump c.img >/dev/full 2>err
says "with a full output the status is 4" test $? = 4
"$program" init -P -K k.key c.img >&-
says "with a closed output the status is 4" test $? = 4
says "  and nothing is printed into the image" changed_last_sector
says "nothing goes to standard error" test ! -s err

# ---- scripts: `begin IMAGE...` starts one at the two ends of a pipe; the next line is said when the reply is there

begin() {
    coproc run { exec "$program" script "$@"; }
    run_is=$!
}
reply() { # the last line of a reply, or what is there after ten seconds
    local line
    while IFS= read -r -t 10 line <&"${run[0]}"; do
        case $line in ok | 'ok '* | 'error '*) break ;; esac
    done
    printf '%s' "$line"
}
ask() { printf '%s\n' "$*" >&"${run[1]}" && reply; }
end() { # the input ends, if the script is still there; `ended` is the status
    local to=${run[1]:-}
    [ -z "$to" ] || exec {to}>&-
    { wait "$run_is"; } 2>/dev/null
    ended=$?
}
digits() { head -c "$2" /dev/zero | tr '\0' "$1" | od -An -v -tx1 | tr -d ' \n'; }
attach="attach -p -k k.key"
a=$(digits a 512) b=$(digits b 512)

fresh
begin c.img
says "a script: a reply comes before the next line is said" test "$(ask init -P -K k.key c.img)" = ok
says "  to each line" test "$(ask "$attach c.img")" = ok
says "  a refusal too" test "$(ask flush d.img)" = "error 2 UnknownProvider"
says "  and rows" test "$(ask list)" = ok
says "  a write" test "$(ask write c.img 1 "$a")" = ok
says "  and the sector" test "$(ask read c.img 1 1)" = "ok $a"
printf '# no reply\n\n \t \nflush c.im' >&"${run[1]}"
says "a line without its newline has no reply yet, nor have comments" test -z "$(read -r -t 1 line <&"${run[0]}" && echo "$line")"
says "  and has one when it is whole" test "$(ask g)" = ok
kill -STOP "$run_is" && kill -CONT "$run_is"
says "a script that was stopped goes on" test "$(ask read c.img 1 1)" = "ok $a"

cp c.img copy
says "a second run has no image that a script has" test "$(printf '%s c.img\ndump c.img\nwrite c.img 1 %s\n' "$attach" "$b" | "$program" script c.img | tr '\n' ,)" = \
    "error 26 DeviceFault,error 26 DeviceFault,error 3 NotAttached,"
ln c.img hard && ln -s c.img soft
says "  nor under a second name" answers 1 "error 26 DeviceFault" init -P -K k.key hard
says "  nor by a link" answers 1 "error 26 DeviceFault" attach -p -k k.key soft
says "  and it stays" same c.img copy
says "  but it is read alone" answers 0 ok attach -C -p -k k.key c.img
says "the first run has it still" test "$(ask write c.img 1 "$b")" = ok
truncate -s 512 c.img
says "a write behind the end of an image that became shorter is refused" test "$(ask write c.img 1 "$a")" = "error 26 DeviceFault"
says "  and doesn't make it longer" test "$(stat -c %s c.img)" = 512
says "  and what is before the end is written" test "$(ask write c.img 0 "$a")" = ok
end
says "a refusal makes the status 1" test "$ended" = 1

fresh
begin c.img
says "a run that is killed" test "$(ask init -P -K k.key c.img)" = ok
kill -KILL "$run_is"
end
says "  leaves the image to the next" answers 0 ok init -P -K k.key c.img

fresh
cp c.img d.img
ln c.img hard && ln -s c.img soft
"$program" init -P -K k.key c.img >out
cp c.img copy
for name in hard soft ./c.img; do
    says "in one run $name is no second image" test "$(printf '%s\n' "init -P -K k.key $name" "$attach $name" "dump $name" list "$attach c.img" | "$program" script c.img $name | tr '\n' ,)" = \
        "error 26 DeviceFault,error 26 DeviceFault,error 26 DeviceFault,c.img idle,$name idle,ok,ok,"
    says "  and the first stays" same c.img copy
done
cp d.img d.copy
for name in d.img c.img; do
    says "a script's image $name is no key" test "$(echo "init -P -K $name c.img" | "$program" script c.img d.img)" = "error 28 CabinetFault 3"
done
says "  and both stay" test "$(cmp c.img copy; cmp d.img d.copy)" = ""
says "a script's other image is no backup" test "$(echo "init -P -K k.key -B d.img c.img" | "$program" script c.img d.img)" = "error 28 CabinetFault 5"
says "  and stays" same d.img d.copy

fresh
names=()
for ((i = 0; i < 17; i++)); do
    cp c.img "$i.img"
    names+=("$i.img")
done
says "sixteen images are those of a run" test "$(for i in "${names[@]:0:16}"; do echo "init -P -K k.key $i"; done | "$program" script "${names[@]:0:16}" | sort | uniq -c | tr -d ' ')" = 16ok
says "  and seventeen are too many" answers 2 "usage: geli script IMAGE... or geli VERB ..." script "${names[@]}"
says "  and no image is there twice" answers 2 "usage: geli script IMAGE... or geli VERB ..." script c.img c.img

fresh
"$program" init -P -K k.key c.img >out
"$program" script c.img <. >out
says "an input that can't be read makes the status 3" test $? = 3
{ printf 'list\n'; head -c 300001 /dev/zero | tr '\0' a; } | "$program" script c.img >out
says "a line that is too long makes the status 6" test $? = 6
says "  and the lines before are served" test "$(cat out)" = "$(printf 'c.img idle\nok')"
{ head -c 300000 /dev/zero | tr '\0' a; echo; } | "$program" script c.img >out
says "  and one of 300,000 bytes is read" test "$(cat out)" = "error 1 Usage 0 UnknownVerb"
printf '%s\n' "$attach c.img" "write c.img 0 $a" | "$program" script c.img >/dev/full
says "a full output makes the status 4" test $? = 4
says "  and ends the script at the first reply" test "$("$program" script c.img <<<"$attach c.img
read c.img 0 1" | tail -n 1)" != "ok $a"
printf '%s\n' "$attach c.img" "write c.img 0 $a" "read c.img 0 1" | { sleep 0.5; "$program" script c.img; echo $? >status; } | true
says "a reader that went away makes the status 4" test "$(cat status)" = 4
(
    ulimit -f 0
    trap '' XFSZ
    printf '%s\n' "$attach c.img" "write c.img 1 $b" "read c.img 1 1" "flush c.img" | "$program" script c.img
) 2>&1 | cut -c 1-20 >out
says "a write that the system refuses in a script is told, and the next lines are served" test "$(sed -n 2p out; sed -n 4p out; wc -l <out)" = "$(printf 'error 26 DeviceFault\nok\n4')"

# ---- images by the names of layers
session() { printf '%s\n' "${@:2}" | "$program" script "$1" | cut -c 1-24 | paste -sd, ; }
fresh
head -c 1024 /dev/zero >left.img && head -c 1536 /dev/zero >right.img
two=join:left.img:right.img
says "a provider in two files is made" answers 0 ok init -P -K k.key $two
says "  its metadata stand at the end of the second" test "$(tail -c 512 right.img | head -c 9)" = GEOM::ELI
says "  and the first is as it was" cmp -s left.img <(head -c 1024 /dev/zero)
says "a write passes the seam" test "$(session $two "$attach $two" "write $two 1 $a$b" "read $two 2 1")" = "ok,ok,ok ${b:0:21}"
says "  and reaches both" test "$(cmp -s -n 512 left.img copy && ! cmp -s -n 1024 left.img copy && ! cmp -s -n 512 right.img copy; echo $?)" = 0
says "  but for the sectors between" cmp -s <(tail -c +513 right.img | head -c 512) <(head -c 512 /dev/zero)
says "a file is no second one of its own" answers 1 "error 26 DeviceFault" init -P -K k.key join:c.img:./c.img
says "  and stays" same c.img copy
says "a half of a pair is no key" answers 1 "error 28 CabinetFault 3" init -P -K right.img $two
"$program" init -P -K k.key c.img >out
late=behind:c.img
says "what waits is read, and lost by an eject" test \
    "$(session $late "$attach $late" "write $late 0 $a" "flush $late" "write $late 0 $b" "read $late 0 1" "eject $late")" = "ok,ok,ok,ok,ok ${b:0:21},ok"
says "  and what was flushed stays" test "$(session c.img "$attach c.img" "read c.img 0 1")" = "ok,ok ${a:0:21}"
says "what waits at the end of a run is written" test "$(session $late "$attach $late" "write $late 0 $b")" = "ok,ok"
says "  and is there" test "$(session c.img "$attach c.img" "read c.img 0 1")" = "ok,ok ${b:0:21}"

# ---- requests in flight, suspended providers and sweeps: `told IMAGE LINE...` gives the beginnings of the replies
told() { printf '%s\n' "${@:2}" | "$program" script "$1" | cut -c 1-32 | paste -sd, ; }
fresh
"$program" init -P -K k.key c.img >out
cp c.img copy
says "a request writes a sector at each of its steps" test "$(told c.img "$attach c.img" "submit c.img write 0 $a$b" "step c.img 0" "eject c.img")" = "ok,ok 0,ok 1,ok"
says "  and the next one stays" test "$(! cmp -s -n 512 c.img copy && cmp -s <(tail -c +513 c.img) <(tail -c +513 copy); echo $?)" = 0
says "a request that isn't done isn't reaped" test "$(told c.img "$attach c.img" "submit c.img write 0 $a$b" "step c.img 0" "reap c.img 0" "step c.img 0" "step c.img 0" "reap c.img 0" "reap c.img 0")" = \
    "ok,ok 0,ok 1,error 40 RequestNotDone 0 1,ok 0,error 41 RequestDone 0,ok,error 39 NoRequest 0"
says "  and what it wrote is read back by another" test "$(told c.img "$attach c.img" "submit c.img read 1 1" "step c.img 0" "reap c.img 0")" = "ok,ok 0,ok 0,ok ${b:0:29}"
head -c 64 /dev/zero >x.key
says "a provider with an open request isn't suspended" test "$(told c.img "$attach c.img" "submit c.img flush" "suspend c.img" "step c.img 0" "reap c.img 0" "suspend c.img" list)" = \
    "ok,ok 0,error 42 RequestsOpen 1,ok 0,ok,ok,c.img suspended 512 2,ok"
says "a suspended one serves no sector, and is resumed by its key alone" test \
    "$(told c.img "$attach c.img" "suspend c.img" "read c.img 0 1" "resume -p -k x.key c.img" "write c.img 0 $b" "resume -p -k k.key c.img" "read c.img 0 1" "resume -p -k k.key c.img")" = \
    "ok,ok,error 43 Suspended,error 15 WrongKey,error 43 Suspended,ok,ok ${a:0:29},error 44 NotSuspended"
cp c.img copy && cp c.img d.img && "$program" init -P -K k.key d.img >out
begin c.img
says "a suspended provider whose metadata another program replaces" test "$(ask "$attach c.img")$(ask suspend c.img)$(dd if=d.img of=c.img bs=512 skip=2 seek=2 conv=notrunc status=none)" = okok
says "  isn't resumed by a key of the new ones" test "$(ask resume -p -k k.key c.img)" = "error 45 DifferentKey"
says "  and is with its own in place" test "$(dd if=copy of=c.img bs=512 skip=2 seek=2 conv=notrunc status=none; ask resume -p -k k.key c.img)" = ok
end
says "  and nothing was written" same c.img copy

head -c 4096 /dev/zero >e.img # three sectors of two device sectors each
"$program" init -a HMAC/SHA256 -P -K k.key e.img >out
says "a provider without authentication isn't swept" test "$(told c.img "$attach c.img" "verify c.img place 1")" = "ok,error 47 NotAuthenticated"
says "  and no place is stored" test ! -e place
says "a sector that is changed is listed, and where it goes on" test "$(told e.img "$attach e.img" "fill e.img 1 0 3" "detach e.img" && printf '\377\376' | dd of=e.img bs=1 seek=1064 conv=notrunc status=none; told e.img "$attach e.img" "verify e.img place 2")" = \
    "$(printf 'ok,ok,ok\nok,bad 1024,ok 2 1')"
says "  in a file of eight bytes, for its owner alone" test "$(od -An -v -tu8 place | tr -d ' ') $(stat -c %s place) $(mode place)" = "2 8 600"
cp e.img copy
says "the next run goes on there, to the end" test "$(told e.img "$attach -r e.img" "verify e.img place 2" "verify e.img place 2" "verify -r e.img place 1")" = "ok,ok 3 0,ok 3 0,ok 1 0"
printf '\11\0\0\0\0\0\0\0' >far && printf abc >short
says "a file that has no place is refused" test "$(told e.img "$attach e.img" "verify e.img far 1" "verify e.img short 1" "verify e.img k.key 1" "verify e.img copy 1")" = \
    "ok,error 46 BadPlace 9 3,error 48 BadPlaceFile 2 3,error 48 BadPlaceFile 2 3,error 30 FileTooLong 2 8"
says "  and an image of the run is" test "$(told e.img "$attach e.img" "verify e.img e.img 1" "verify -r e.img e.img 1")" = "ok,error 28 CabinetFault 2,error 28 CabinetFault 3"
says "  and a sweep changes no image" same e.img copy

# ---- calls of the system that fail, where strace can make them: `broken INJECTION` runs the lines on standard input
broken() { strace -qq -o traced -P "$PWD/c.img" -e inject="$1" "$program" script c.img | cut -c 1-24 | paste -sd, ; }
if strace -qq -o traced -e inject=fdatasync:error=EIO:when=1 true 2>/dev/null; then
    fresh
    "$program" init -P -K k.key c.img >out
    session=$(printf '%s\n' "$attach c.img" "write c.img 0 $a" "flush c.img" "read c.img 0 1" "flush c.img" "detach c.img" "$attach c.img" "flush c.img")
    fault="error 26 DeviceFault"
    says "a sync that failed stays failed, and all else goes on" test "$(broken fdatasync:error=EIO:when=1 <<<"$session")" = "ok,ok,$fault,ok ${a:0:21},$fault,$fault,ok,$fault,$fault"
    says "  and the system isn't asked again" test "$(grep -c fdatasync traced)" = 1
    says "a sync that fails at the end is told" test "$(broken fdatasync:error=EIO:when=1 < <(head -n 2 <<<"$session"))" = "ok,ok,$fault"
    says "a lock that fails for another reason is none" test "$(broken flock:error=ENOLCK:when=1 <<<"$attach c.img")" = "$fault"
    says "  and isn't asked for again" test "$(grep -c flock traced)" = 1
    for call in pread64 pwrite64 fdatasync; do
        says "$call that a signal interrupts is called again" test "$(broken $call:error=EINTR:when=1 <<<"$session")" = "ok,ok,ok,ok ${a:0:21},ok,ok,ok,ok"
        says "  as was tried" grep -q INJECTED traced
    done
    each=$(printf '%s\n' "$attach c.img" "write c.img 0 $b" "write c.img 1 $b" "read c.img 0 2" "read c.img 0 1" "read c.img 1 1" "flush c.img")
    printf '%s\n' "$attach c.img" "write c.img 0 $a$a" | "$program" script c.img >out
    says "a write that fails is told, and what was written before it stays" test "$(broken pwrite64:error=EIO:when=2 <<<"$each")" = \
        "ok,ok,$fault,ok ${b:0:21},ok ${b:0:21},ok ${a:0:21},ok"
    both=$(printf '%s\n' "$attach c.img" "write c.img 0 $b$b" "read c.img 0 2" "read c.img 0 1" "read c.img 1 1" "flush c.img")
    says "where a look at two sectors fails they are read one by one" test "$(broken pread64:error=EIO:when=2 <<<"$both")" = "ok,ok,ok ${b:0:21},ok ${b:0:21},ok ${b:0:21},ok"
    says "  in two reads" test "$(grep -c pread64 traced)" = 6
    says "a read that fails is told" test "$(broken pread64:error=EIO:when=2..3 <<<"$both")" = "ok,ok,$fault,ok ${b:0:21},ok ${b:0:21},ok"
    fresh
    "$program" init -P -K k.key c.img >out
    strace -f -qq -o traced -e trace=flock "$program" script c.img <<<"$session" >out
    says "an image is locked once in a run, and no other file is" test "$(grep -c flock traced)" = 1
    fresh
    strace -qq -y -o traced -e trace=fsync,fdatasync,rename,renameat,renameat2 "$program" init -P -K k.key -B b c.img >out
    steps=$(sed -nE "s|^fsync\([0-9]+<$PWD/(b\.new[0-9]+)>.*|sync \1|p; s|^fsync\([0-9]+<$PWD>.*|sync folder|p
        s|^rename[a-z0-9]*\(.*\"(b\.new[0-9]+)\", .*\"b\".*|name \1|p" traced | paste -sd,)
    says "a stored file is synced before it gets its name, and its folder after that" test "$steps" = "sync b.new0,name b.new0,sync folder"
else
    echo "not tried: calls of the system that fail (no strace)"
fi

[ "$failures" = 0 ] || exit 1

#!/usr/bin/env bash
# Runs what README.md, man/geli.8 and examples/ show, in a new folder, and compares. The status is 1 where
# something is otherwise.
#
#   tools/try_examples.sh [PROGRAM]      without a word: the program that ./geli runs
#
# GELI_NBD names the other program, without it that which ./geli-nbd runs.
# What serves a block device is tried with the clients that are there: nbdcopy, nbdinfo, nbdsh, nbdfuse with fuse2fs.
set -u
top=$(cd "$(dirname "$(readlink -f "${BASH_SOURCE[0]}")")/.." && pwd)
GELI=$(readlink -f "${1:-$top/geli}")
GELI_NBD=$(readlink -f "${GELI_NBD:-$top/geli-nbd}")
export GELI GELI_NBD
folder=$(mktemp -d)
trap 'rm -rf "$folder"' EXIT
cd "$folder" || exit 2
# A trial is some hundred times slower, so fewer iterations are shown to it.
is_trial() { [ -n "${GELI_TRIAL:-}" ] || [[ $GELI = *-trial ]]; }
trial() { if is_trial; then sed -i 's/1000000/100/' "$1"; fi; }
failures=0
exec 3>&1 # what is said of a command goes there, wherever the command prints
says() {
    local name=$1
    shift
    if "$@"; then echo "holds: $name" >&3; else
        echo "FAILS: $name" >&3
        failures=$((failures + 1))
    fi
}

# Whether all these programs are there. (`command -v` is content with one of several.)
have() {
    local name
    for name; do command -v "$name" >/dev/null || return 1; done
}

# The pages are laid out without a warning.
if command -v groff >/dev/null; then
    says "the pages are laid out" test -z "$(for it in "$top"/man/*; do groff -mandoc -Tutf8 -ww "$it"; done 2>&1 >/dev/null)"
fi
# The examples of geli(8), run by one shell: a command stands behind `$ `, goes on behind a `\` and down to the EOF of its
# input, and what stands below it is what it prints.
sed -n '/^\.Sh EXAMPLES/,/^\.Sh DIAGNOSTICS/p' "$top/man/geli.8" | sed -n '/^\.Bd/,/^\.Ed/p' | grep -v '^\.[BE]d' | sed 's/\\e/\\/g' >shown
awk '
    input { print >"words"; if ($0 == "EOF") input = 0; next }
    goes_on || sub(/^\$ /, "") { print >"words"; goes_on = /\\$/; input = /<<EOF/; next }
    { print >"wanted" }
' shown
trial words
trial wanted
mkdir bin && ln -s "$GELI" bin/geli && ln -s "$GELI_NBD" bin/geli-nbd
mkdir page
(cd page && PATH=$folder/bin:$PATH bash ../words >../printed 2>&1)
says "the examples of the page" diff wanted printed
says "  which are some" test "$(wc -l <wanted)" -gt 25

# The lines of the README.
sed -n '/^## Without the scripts/,/^prints/p' "$top/README.md" | sed '1,/^```/d; /^```/,$d' >lines
trial lines
mkdir readme
says "the lines of the README" test "$(cd readme && PATH=$folder/bin:$PATH bash ../lines)" = "$(printf 'ok\nok\nok\nok 68656c6c6f2020202')"

printf 'a passphrase\n' >pass && chmod 600 pass
make=$top/examples/make-provider.sh
says "make-provider.sh makes a provider" "$make" -i 100 -J pass 1048576 'an image' key backup 2>notes
says "  which opens" "$GELI" attach -C -k key -j pass 'an image' >out
says "  and only its owner may read what was made" test "$(stat -c %a 'an image' key backup | sort -u)" = 600
says "  and the backup is the metadata" cmp -s backup <(tail -c 512 'an image')
says "make-provider.sh overwrites nothing" test ! "$("$make" -i 100 -J pass 1048576 'an image' key other 2>&1)" = ok -a ! -e other
says "make-provider.sh makes an authenticated provider" "$make" -a -i 100 -J pass 262144 b.img key b.backup 2>notes

says "  every sector of which can be read" grep -q 'of 4096 bytes, 0 of them unreadable' <("$top/examples/after-a-power-failure.sh" -k key -j pass b.img 2>notes)
says "  which says that it didn't look at the filesystem" grep -q '^The filesystem in it was not looked at: vuthrel mount' \
    <("$top/examples/after-a-power-failure.sh" -k key -j pass b.img 2>notes)
says "  of a size such as 1M" test "$("$make" -i 100 -J pass 1M m.img key m.backup 2>notes; stat -c %s m.img)" = 1048576
says "  and of no other" test "$("$make" -i 100 -J pass 1MB n.img key n.backup 2>&1 | grep -c 'no number of bytes')" = 1 -a ! -e n.img
says "  nor of more than an image can have" test "$("$make" -i 100 -J pass 8192T n.img key n.backup 2>&1 | grep -c 'more than')" = 1

# A plain file into a provider and back.
"$make" -i 100 -J pass 524288 a.img key a.backup 2>notes
"$make" -a -i 100 -J pass 524288 c.img key c.backup 2>notes
mkdir forced # copies that ask nothing
printf '#!/bin/sh\nexec "%s" -f "$@"\n' "$top/examples/copy-in.sh" >forced/copy-in.sh && chmod +x forced/copy-in.sh
in=$folder/forced/copy-in.sh out=$top/examples/copy-out.sh look=$top/examples/after-a-power-failure.sh
head -c 462849 /dev/zero >long # a byte more than c.img takes
# An nbdcopy that notes its words, and one that ends at once.
mkdir noted dead
printf '#!/bin/sh\necho "$*" >>"%s/words"\nexec "%s" "$@"\n' "$folder" "$(command -v nbdcopy)" >noted/nbdcopy
printf '#!/bin/sh\nexit 1\n' >dead/nbdcopy
chmod +x noted/nbdcopy dead/nbdcopy
by() { # WAY COMMAND...: copies by nbdcopy, or by lines since there is no geli-nbd, or since nbdcopy ends
    case $1 in
        nbdcopy) PATH=$folder/noted:$PATH "${@:2}" ;;
        lines) GELI_NBD=none "${@:2}" ;;
        dead) PATH=$folder/dead:$PATH "${@:2}" ;;
    esac
}
ways='lines dead'
if command -v nbdcopy >commands; then ways+=' nbdcopy'; else echo "not tried: copies by nbdcopy (not there)"; fi
for way in $ways; do for image in a.img c.img; do
    head -c 400123 /dev/urandom >plain
    rm -f $image.plain
    says "copy-in.sh copies into $image, by $way" by "$way" "$in" -c -k key -j pass plain $image 2>notes
    says "  and says how far it is" grep -q '^400123 bytes in 98 sectors of 4096 bytes, read again' notes
    says "copy-out.sh copies out of it" by "$way" "$out" -b 400123 -k key -j pass $image $image.plain 2>notes
    says "  the same bytes" cmp plain $image.plain
    says "  which its owner alone may read" test "$(stat -c %a $image.plain)" = 600
    says "copy-out.sh overwrites nothing" test "$("$out" -k key -j pass $image plain 2>&1 | grep -c 'left alone')" = 1
    says "copy-out.sh copies all of it" by "$way" "$out" -k key -j pass $image $image.all 2>notes
    says "  the same bytes, and zeros to the end of the sector" cmp <(cat plain <(head -c 1285 /dev/zero)) <(head -c 401408 $image.all)
    rm $image.all
    says "after-a-power-failure.sh finds no fault" "$look" -k key -j pass $image >report 2>notes
done; done
if [[ $ways = *nbdcopy ]]; then
    says "  by nbdcopy indeed" test "$(grep -c '^--flush .*/plain nbd' words) $(grep -c '^nbd.* -$' words)" = '2 6'
fi

# Every byte goes in, and no other: sizes that are no multiple of a sector, or of what nbdcopy asks for.
for kind in '-s 512' '-s 4096 -e AES-CBC' '-s 65536' '-s 512 -a HMAC/SHA256' '-s 65536 -a HMAC/SHA512'; do
    rm -f odd.img && truncate -s 1000448 odd.img
    # shellcheck disable=SC2086 # it is words
    "$GELI" init -P -K key $kind odd.img >reply
    bytes=$("$top/examples/geli-info.sh" --json odd.img | python3 -c \
        'import json, sys; facts = json.load(sys.stdin); print(facts["data_bytes"], facts["sector_bytes"])')
    width=${bytes#* } bytes=${bytes% *}
    for way in ${ways/dead/}; do for short in 1 0 $((width - 1)) $((bytes / 2 + 77)); do
        size=$((bytes - short)) filled=$((bytes - short + (width - (bytes - short) % width) % width))
        head -c "$size" /dev/urandom >odd
        rm -f odd.before odd.after odd.out
        [[ $kind = *-a* ]] || "$out" -p -k key odd.img odd.before 2>notes
        says "$size of $bytes bytes go in by $way, sectors $kind" by "$way" "$in" -c -p -k key odd odd.img 2>notes
        says "  and come out" by "$way" "$out" -b "$size" -p -k key odd.img odd.out 2>notes
        says "  the same" cmp odd odd.out
        rm odd.out
        GELI_NBD=none "$out" -b "$filled" -p -k key odd.img odd.out 2>notes
        says "  with zeros to the end of the sector" cmp <(cat odd; head -c $((filled - size)) /dev/zero) odd.out
        if [ -e odd.before ]; then
            "$out" -p -k key odd.img odd.after 2>notes
            says "  and what is behind stays" cmp <(tail -c +$((filled + 1)) odd.before) <(tail -c +$((filled + 1)) odd.after)
        fi
    done; done
done
"$GELI" init -P -a HMAC/SHA512 -K key b.img >out # no sector of it can be read
says "copy-out.sh says where it stops" test "$("$out" -p -k key b.img b.plain 2>&1 | grep -c '^b.plain.part has the 0 bytes before\|error 25 Integrity 0')" = 2
says "  and makes no file of that name" test ! -e b.plain -a -e b.plain.part
says "after-a-power-failure.sh tells a range" test "$("$look" -p -k key b.img 2>notes | grep '^unreadable')" = 'unreadable: sectors 0 to 254'
cp c.img before
says "copy-in.sh refuses what is too long" test "$("$in" -k key -j pass long c.img 2>&1 | grep -c 'nothing was written')" = 1
says "  and writes nothing" cmp c.img before
printf 'another one\n' >wrong
says "a wrong passphrase is told" test "$("$in" -k key -j wrong plain c.img 2>&1 | grep -c 'error 15 WrongKey: wrong passphrase')" = 1
says "  and writes nothing" cmp c.img before

# What a crash, or something else, may leave.
for at in 0 4000 230400; do # sectors 0, 0 and 50: in a tag, in ciphertext, in a tag
    printf '\377\376\375' | dd of=c.img bs=1 seek=$at conv=notrunc status=none
done
cp c.img before
says "after-a-power-failure.sh tells what can't be read" test "$("$look" -k key -j pass c.img 2>notes | grep '^unreadable')" = "$(printf 'unreadable: sector 0\nunreadable: sector 50')"
says "  with status 1" test "$("$look" -k key -j pass c.img >report 2>notes; echo $?)" = 1
says "  and changes nothing" cmp c.img before
says "what is written again can be read again" "$in" -c -k key -j pass plain c.img 2>notes
says "  as can all" "$look" -k key -j pass c.img >report 2>notes
dd if=/dev/zero of=c.img bs=1 count=1 seek=$((524288 - 512 + 60)) conv=notrunc status=none
says "after-a-power-failure.sh tells damaged metadata" test "$("$look" -k key -j pass c.img 2>notes | grep -o '^metadata: error 7 BadHash')" = 'metadata: error 7 BadHash'
help=$("$look" -k key -j pass c.img 2>notes | sed -n 's/.*: geli \(restore BACKUP.*\)/"$GELI" \1/p')
eval "${help/BACKUP/c.backup}" >out 2>notes
says "  and its help mends them" "$look" -k key -j pass c.img >report 2>notes
says "after-a-power-failure.sh tells a wrong key" test "$("$look" -k key -j wrong c.img 2>notes | grep -c '^key: error 15')" = 1

# A provider that is looked at in parts.
scrub=$top/examples/scrub-provider.sh
"$in" -c -k key -j pass plain c.img 2>notes
rm -f place
says "scrub-provider.sh finds no fault" "$scrub" -k key -j pass c.img place >report 2>notes
says "  and says that all were looked at" grep -q '^c.img: 113 of 113 sectors were looked at, from sector 0 on, 0 of them unreadable$' report
says "  and shows no progress where nobody looks" test ! -s notes
for at in 0 4000 230400; do printf '\377\376\375' | dd of=c.img bs=1 seek=$at conv=notrunc status=none; done
cp c.img before
says "scrub-provider.sh begins anew behind the end" test "$("$scrub" -k key -j pass c.img place 2>notes | grep '^unreadable')" = "$(printf 'unreadable: sector 0\nunreadable: sector 50')"
says "  with status 1" test "$("$scrub" -k key -j pass c.img place >report 2>notes; echo $?)" = 1
says "  and changes nothing" cmp c.img before
printf '\062\0\0\0\0\0\0\0' >place # 50
says "  and goes on where it was" test "$("$scrub" -k key -j pass c.img place 2>notes | sed -n '1p;/^unreadable/p')" = "$(printf 'c.img: 63 of 113 sectors were looked at, from sector 50 on, 1 of them unreadable\nunreadable: sector 50')"
printf '\062\0\0\0\0\0\0\0' >place
says "  or anew by -r" test "$("$scrub" -r -k key -j pass c.img place 2>notes | grep -c '^unreadable')" = 2
printf 'abc' >place
says "scrub-provider.sh leaves another file alone" test "$("$scrub" -k key -j pass c.img place 2>&1; echo $?)" = "$(printf '%s\n3' 'scrub-provider.sh: verify: error 48 BadPlaceFile 2 3: the file of the place has no place: begin anew')"
says "  indeed" test "$(cat place)" = abc
says "  and tells where nothing can be told" test "$("$scrub" -r -k key -j pass a.img place 2>&1 | grep -c 'error 47 NotAuthenticated')" = 1
"$in" -c -k key -j pass plain c.img 2>notes

# A new passphrase, and a longer image.
change=$top/examples/change-passphrase.sh grow=$top/examples/grow-provider.sh
printf 'a new one\n' >new && printf 'a newer one\n' >newer
"$make" -i 100 -J pass 1048576 d.img key d.backup 2>notes
says "change-passphrase.sh changes it" "$change" -k key -j pass -J new d.img d1.backup 2>notes
says "  the new one opens" "$GELI" attach -C -k key -j new d.img >out
says "  the old one doesn't" test "$("$GELI" attach -C -k key -j pass d.img)" = 'error 15 WrongKey'
says "  the slot of the old one is empty" test "$("$GELI" dump d.img | grep '^keys')" = 'keys: 0x2'
says "  and the backup is the metadata" cmp -s d1.backup <(tail -c 512 d.img)
cp d.img before
says "change-passphrase.sh overwrites nothing" test "$("$change" -k key -j new -J newer d.img d1.backup 2>&1 | grep -c 'left alone')" = 1
says "  and refuses an old key that is wrong" test "$("$change" -k key -j pass -J newer d.img d2.backup 2>&1 | grep -c 'the old key: error 15')" = 1
says "  and writes nothing" cmp d.img before
"$GELI" setkey -n 0 -k key -j new -K key -J pass d.img >out
says "change-passphrase.sh takes the place where both slots have keys" "$change" -k key -j new -J newer d.img d2.backup 2>notes
says "  which opens" "$GELI" attach -C -n 1 -k key -j newer d.img >out
says "  and leaves the other" "$GELI" attach -C -n 0 -k key -j pass d.img >out
"$in" -k key -j pass key d.img 2>notes
says "grow-provider.sh grows it" "$grow" -k key -j pass 2097152 d.img d3.backup 2>notes
says "  to its new end" test "$(printf 'attach -k key -j pass d.img\nlist\n' | "$GELI" script d.img | sed -n 2p)" = 'd.img attached 4096 511'
says "  with the data as they were" "$out" -b 64 -k key -j pass d.img d.plain 2>notes
says "  the same bytes" cmp key d.plain
says "  and the backup is the metadata" cmp -s d3.backup <(tail -c 512 d.img)
truncate -s 4194304 d.img # and then power failed
says "grow-provider.sh goes on with -s" "$grow" -s 2097152 -k key -j pass 4194304 d.img d4.backup 2>notes
says "  to its new end" "$GELI" attach -C -k key -j pass d.img >out
# A `resize` that is refused, and what is advised then. `advised` does that, where it is a truncate.
advised() { eval "$(sed -n "s/.*, '\(truncate .*\)' makes it as it was$/\1/p" notes)"; }
is_grown() { "$GELI" attach -C -k key -j pass grown.img >out && "$out" -b 64 -k key -j pass grown.img grown.plain 2>out && cmp -s key grown.plain && rm grown.plain; }
"$make" -i 100 -J pass 1M grown.img key grown.backup 2>notes
"$in" -k key -j pass key grown.img 2>notes
cp grown.img before
"$grow" -s 512K -k key -j pass 2M grown.img grown1.backup 2>notes
says "grow-provider.sh with a wrong -s tells it" test "$? $(grep -c 'error 5 BadMagic\|is 524288 the length that the provider had' notes)" = '1 2'
says "  and how the image becomes as it was" advised
says "  indeed" cmp grown.img before
says "  with its data" is_grown
truncate -s 2M grown.img
"$grow" -s 512K -k key -j pass 2M grown.img grown1.backup 2>notes
says "  and no truncate where it made nothing longer" test "$? $(grep -c 'error 5 BadMagic' notes) $(grep -c truncate notes)" = '1 1 0'
"$grow" -s 512K -k key -j pass 3M grown.img grown1.backup 2>notes
says "  nor another than to the length that it found" advised
says "  indeed" test "$(stat -c %s grown.img)" = 2097152
says "  and with the right one it grows" "$grow" -s 1M -k key -j pass 2M grown.img grown1.backup 2>notes
says "  with its data" is_grown
says "  and none that no provider can have had" test "$("$grow" -s 1000001 -k key -j pass 3M grown.img grown2.backup 2>&1 | grep -c 'multiple of 512')" = 1
says "an image of no whole sectors grows" test "$(cp before grown.img; echo >>grown.img; "$grow" -k key -j pass 2M grown.img grown2.backup 2>&1 | grep -c 'a provider in 2097152 bytes')" = 1
says "  with its data" is_grown
if strace -qq -o traced -e inject=fdatasync:error=EIO:when=1 true 2>/dev/null; then
    # The first write is that of the new metadata, six passes over the old follow.
    for write in 1 2 3 7; do
        cp before grown.img
        rm -f grown2.backup
        printf '%s\n' '#!/bin/sh' '[ "$1" = resize ] || exec '"'$GELI'"' "$@"' \
            "exec strace -qq -o traced -e inject=pwrite64:error=EIO:when=$write '$GELI' \"\$@\"" >failing
        chmod +x failing
        GELI=$folder/failing "$grow" -k key -j pass 2M grown.img grown2.backup 2>notes
        says "grow-provider.sh where write $write of the resize fails tells it" test "$? $(grep -c 'error 26' notes)" = '1 1'
        says "  and to give it again with -s, and no truncate" test "$(grep -c 'give this again, with -s 1048576$' notes) $(grep -c truncate notes)" = '1 0'
        says "  and so it grows" "$grow" -s 1048576 -k key -j pass 2M grown.img grown2.backup 2>notes
        says "  with its data" is_grown
    done
else
    echo "not tried: a resize that fails on its way (no strace)"
fi
cp d.img before
says "grow-provider.sh changes nothing under a wrong key" test "$("$grow" -k key -j wrong 8388608 d.img d5.backup 2>&1 | grep -c 'nothing was changed: error 15')" = 1
says "  indeed" cmp d.img before
"$make" -a -i 100 -J pass 256K e.img key e.backup 2>notes
says "grow-provider.sh grows an authenticated one" "$grow" -k key -j pass 512K e.img e1.backup 2>notes
says "  every sector of which can be read" grep -q '^data: 113 sectors of 4096 bytes, 0 of them unreadable' <("$look" -k key -j pass e.img 2>notes)

# The end of a provider.
serve=$top/examples/serve-nbd.sh destroy=$top/examples/kill-provider.sh
head -c 4096 /dev/urandom >data && cp data before
says "kill-provider.sh leaves a file that is no provider" test "$("$destroy" -y data 2>&1 | grep -c 'nothing was changed: error 5')" = 1
says "  indeed" cmp data before
cp e.img before
says "  and where nobody can be asked" test "$(setsid "$destroy" e.img 2>&1 </dev/null | grep -c 'nothing was changed')" = 1
says "  indeed" cmp e.img before
says "kill-provider.sh -y destroys a provider" "$destroy" -y e.img 2>notes
says "  indeed" test "$("$GELI" dump e.img)" = 'error 5 BadMagic'

# The scripts' help, and what they do where something is amiss.
folder_of_scripts=$top/examples
for script in "$folder_of_scripts"/*.sh; do
    [ "${script##*/}" != lib.sh ] || continue
    says "${script##*/} -h says what it does" grep -q "^${script##*/}: " <("$script" -h)
    [ "${script##*/}" = why.sh ] || says "  and takes no option that it hasn't" test "$("$script" -Z 2>&1 | grep -c '^usage: ')" = 1
done
mkdir amiss && cd amiss || exit 2
cp ../pass ../key .
here=$folder/amiss
"$make" -i 100 -J pass 1M a.img key a.backup 2>notes
says "a disk is no key file" test "$("$in" -k /dev/zero -j pass pass a.img 2>&1 | grep -c 'more than 1 MiB')" = 1
says "  nor is standard input that is called -" test "$("$in" -k key -j - pass a.img 2>&1 | grep -c '/dev/stdin')" = 1
says "a backup is not the key file" test "$("$make" -i 100 -J pass 1M no.img same same 2>&1 |
    grep -c 'are one file')" = 1
says "  and nothing is made" test ! -e no.img -a ! -e same
says "a backup by a name that is no UTF-8 is refused" test "$("$make" -i 100 -J pass 1M no.img key $'caf\xe9' 2>&1 |
    grep -c 'is no UTF-8')" = 1 -a ! -e no.img
says "a key file that can't be made is told" test "$("$make" -i 100 -J pass 1M no.img none/key no.backup 2>&1)" = \
    "make-provider.sh: the key file 'none/key' can't be made"
says "a passphrase comes by a pipe" "$in" -k key -j <(cat pass) pass a.img 2>notes
says "  and by standard input" "$out" -b 13 -k key -j /dev/stdin a.img standard.out 2>notes <pass
says "  which gives what was copied in" cmp pass standard.out
by_pipe() { cat pass | "$out" -b 13 -k key -j /dev/stdin a.img pipe.out 2>notes; }
says "  and by a pipe into it" by_pipe
says "  and makes a provider" "$make" -i 100 -J <(cat pass) 1M pipe.img <(cat key) pipe.backup 2>notes
says "  which opens" "$GELI" attach -C -k key -j pass pipe.img >reply
says "  and grows" "$grow" -k <(cat key) -j <(cat pass) 2M pipe.img pipe2.backup 2>notes
says "  and gets a new one" "$change" -k key -j <(cat pass) -J <(echo new) pipe.img pipe3.backup 2>notes
says "  which opens" "$GELI" attach -C -k key -j <(echo new) pipe.img >reply
: >empty; printf '\nx\n' >blank; printf 'a passphrase\r\n' >returned
for name in empty blank; do
    says "an $name passphrase makes no provider" test "$("$make" -i 100 -J $name 1M no.img key no.backup 2>&1 | grep -c 'is empty')" = 1 -a ! -e no.img
    says "  and no new key" test "$("$change" -k key -j pass -J $name a.img no.backup 2>&1 | grep -c 'is empty')" = 1 -a ! -e no.backup
done
says "a carriage return at its end is told" test "$("$make" -i 100 -J returned 1M returned.img key returned.backup 2>&1 | grep -c 'carriage return')" = 1
says "without a terminal nobody is asked" test "$(setsid -w "$in" -k key pass a.img 2>&1 </dev/null)" = 'copy-in.sh: no terminal to ask for the passphrase: name a file whose first line it is, by -j (a new one: -J)'

# Names.
odd=$'b l\tank #1.img'
says "a name with blanks" "$make" -a -i 100 -J pass 256K "$odd" 'key of it' 'its backup' 2>notes
says "  is copied into" "$in" -c -k 'key of it' -j pass pass "$odd" 2>notes
says "  and out of" "$out" -b 13 -k 'key of it' -j pass "$odd" 'o u t' 2>notes
says "  the same bytes" cmp pass 'o u t'
says "  is looked at" grep -q '0 of them unreadable' <("$look" -k 'key of it' -j pass "$odd" 2>notes)
says "  and in parts" grep -qF "$odd: 56 of 56 sectors" <("$scrub" -k 'key of it' -j pass "$odd" place 2>notes)
mkdir 'a folder'
says "  with its place in a folder with blanks" "$scrub" -k 'key of it' -j pass "$odd" 'a folder/place' >report 2>notes
says "  and grows" "$grow" -k 'key of it' -j pass 512K "$odd" 'its next backup' 2>notes
says "  and its passphrase is changed" "$change" -k 'key of it' -j pass -J returned "$odd" 'its third backup' 2>notes
latin=$'caf\xe9.img'
says "a name that is no UTF-8" "$make" -i 100 -J pass 1M "$latin" key latin.backup 2>notes
says "  is copied into" "$in" -k key -j pass pass "$latin" 2>notes
says "layers over files" "$in" -k key -j pass pass behind:a.img 2>notes
says "  are read" "$out" -b 13 -k key -j pass behind:a.img layer.out 2>notes
head -c 512K a.img >first; tail -c 512K a.img >second
says "  two files as one" "$out" -b 13 -k key -j pass join:first:second join.out 2>notes
says "  the same bytes" cmp pass join.out
says "  of which the second grows" "$grow" -k key -j pass 2M join:first:second join.backup 2>notes
says "  indeed" test "$(stat -c %s second)" = $((3 * 524288)) -a "$(stat -c %s first)" = 524288
says "  and opens" "$look" -k key -j pass join:first:second >report 2>notes
says "  and none is made" test "$("$make" -i 100 -J pass 1M behind:no.img key no.backup 2>&1 | grep -c 'asks for a layer')" = 1
says "a file by such a name" "$make" -i 100 -J pass 1M ./behind:no.img key no.backup 2>notes
says "  is that file" "$GELI" attach -C -k key -j pass ./behind:no.img >reply

# Space on the disk.
says "an image takes no space before it is written" test "$(stat -c %b a.img)" -lt 1024
says "  and by -f takes all" "$make" -f -i 100 -J pass 1M full.img key full.backup 2>notes
says "  indeed" test "$(stat -c %b full.img)" -ge 2048
says "  and grows so" "$grow" -f -k key -j pass 2M full.img full2.backup 2>notes
says "  indeed" test "$(stat -c %b full.img)" -ge 4096
says "what the disk has no room for is told" test "$("$make" -i 100 -J pass 4096T huge.img key huge.backup 2>&1 | grep -c 'may come to take\|no room')" = 1
rm -f huge.*

# Causes of a fault.
exec 8<>a.img
flock 8
says "who holds an image is told" test "$("$in" -k key -j pass pass a.img 2>&1 | grep -c "26 DeviceFault: process [0-9]* holds it")" = 1
cp a.img before
says "one that is held isn't grown" test "$("$grow" -k key -j pass 2M a.img held.backup 2>&1 | grep -c 'nothing was changed: another program holds')" = 1
says "  indeed" cmp a.img before
says "  nor is its passphrase changed" test "$("$change" -k key -j pass -J returned a.img held.backup 2>&1 | grep -c 'holds it')" = 1
says "  nor is it destroyed" test "$("$destroy" -y a.img 2>&1 | grep -c 'holds it')" = 1
exec 8>&-
if mkdir small && mount -t tmpfs -o size=1200k small small 2>/dev/null; then
    says "a provider is made on a small disk" "$make" -i 100 -J pass 8M small/s.img key small.backup 2>notes
    says "  which warns of it" grep -q 'its disk has room for' notes
    head -c 4M /dev/urandom >large
    says "a full disk is told" test "$("$in" -k key -j pass large small/s.img 2>&1 | grep -c '26 DeviceFault: its file system is full\|give this again')" = 2
    says "  also by a copy out" test "$("$out" -k key -j pass small/s.img small/out 2>&1 | grep -c 'has room for')" = 1
    says "  which leaves nothing" test ! -e small/out.part
    says "  nor is it filled by -f" test "$("$make" -f -i 100 -J pass 8M small/f.img key f.backup 2>&1 | grep -c 'no room\|Remove it')" = 2
    mount -o remount,ro small
    says "a disk to be read alone is told" test "$("$change" -k key -j pass -J returned small/s.img small2.backup 2>&1 | grep -c "can't be written")" = 1
    if have nbdkit; then
        says "  also by a server" test "$("$serve" -k key -j pass small/s.img read.sock 2>&1 | grep -c 'give -r')" = 1
    else
        echo "not tried: a server of such a disk (no nbdkit)"
    fi
    umount small
else
    echo "not tried: a full disk (no mount of a tmpfs)"
fi
says "a folder that isn't there is told" test "$("$out" -b 13 -k key -j pass a.img none/there 2>&1 | grep -c Traceback)" = 0

# Broken off in the middle: by a geli that is slow, and the signal that a terminal sends.
printf '#!/bin/sh\ncase $1 in script) while read -r line; do sleep 0.5; echo "$line"; done | "%s" "$@" ;; *) exec "%s" "$@" ;; esac\n' "$GELI" "$GELI" >slow
chmod +x slow
broken() { GELI=$here/slow GELI_NBD=none timeout -s INT "${BREAK_AFTER:-3}" "$@"; } # seconds: more on a busy machine
# A geli-nbd that is slow.
cat >slow-nbd <<EOF
#!/usr/bin/env python3
import os, subprocess, sys, threading, time
if sys.argv[1] == "--version":
    os.execv("$GELI_NBD", ["$GELI_NBD", "--version"])
geli = subprocess.Popen(["$GELI_NBD", *sys.argv[1:]], stdin=subprocess.PIPE)
threading.Thread(target=lambda: os._exit(geli.wait() % 256), daemon=True).start()
while piece := os.read(0, 65536):
    geli.stdin.write(piece)
    geli.stdin.flush()
    time.sleep(0.5)
geli.stdin.close()
time.sleep(60)
EOF
chmod +x slow-nbd
says "what make-provider.sh leaves halfway is told" test "$(broken "$make" -a -i 100 -J pass 4M half.img key half.backup 2>&1 | grep -c 'half.img. is only half made. Remove it')" = 1
rm half.img half.backup
says "  and it can be given again" "$make" -a -i 100 -J pass 256K half.img key half.backup 2>notes
head -c 1500K /dev/urandom >many
says "what copy-in.sh leaves" test "$(broken "$in" -k key -j pass many full.img 2>&1 | grep -c 'full.img: some sectors are as before.*give this again')" = 1
says "what copy-out.sh leaves" test "$(broken "$out" -k key -j pass full.img full.out 2>&1 | grep -c 'full.out.part has the [0-9]* bytes before, in the clear: remove it')" = 1
says "  indeed" test -e full.out.part -a ! -e full.out
if command -v nbdcopy >commands; then
    rm full.out.part
    broken_nbdcopy() { GELI_NBD=$here/slow-nbd timeout -s INT "${BREAK_AFTER:-3}" "$@"; }
    says "  and by nbdcopy" test "$(broken_nbdcopy "$in" -k key -j pass many full.img 2>&1 |
        grep -c 'full.img: some sectors are as before.*give this again')" = 1
    says "  and out" test "$(broken_nbdcopy "$out" -k key -j pass full.img full.out 2>&1 |
        grep -c 'full.out.part has the [0-9]* bytes before, in the clear: remove it')" = 1
    says "  indeed" test -e full.out.part -a ! -e full.out
    says "  and no process is left" test -z "$(pgrep -f "$here/slow-nbd")"
fi
says "what grow-provider.sh leaves" test "$(broken "$grow" -k key -j pass 512K half.img half2.backup 2>&1 | grep -c 'Give this again, with -s 262144')" = 1
says "  and it goes on" "$grow" -s 262144 -k key -j pass 512K half.img half2.backup 2>notes
says "  to the end" grep -q ', 0 of them unreadable' <("$look" -k key -j pass half.img 2>notes)
says "a copy says how its bytes come back" grep -q '^vuthrel read-image -b 13 ' <("$in" -k key -j pass pass a.img 2>&1)

# What a provider is, and what is wrong with words.
info=$top/examples/geli-info.sh why=$top/examples/why.sh
says "geli-info.sh says what it is" grep -q '^cipher: AES-XTS, 256 bits$' <("$info" half.img)
says "  and how its data are authenticated" grep -q '^authentication: HMAC/SHA256$' <("$info" half.img)
says "  and of what size" grep -q '^data: 113 sectors of 4096 bytes, ' <("$info" half.img)
says "  and that a key opens it" grep -q '^this key: opens slot 0$' <("$info" -k key -j pass half.img)
says "  and that another doesn't" test "$("$info" -k key half.img | tail -n 1; echo "${PIPESTATUS[0]}")" = \
    "$(printf "this key file without a passphrase: doesn't open it (-j names the passphrase's file)\n1")"
says "  and all of it in JSON" python3 -c 'import json, sys; facts = json.load(sys.stdin); assert (facts["sectors"], facts["slots_with_keys"], facts["key_opens_slot"]) == (113, [0], 0)' < <("$info" --json -k key -j pass half.img)
says "  and where there is none" test "$("$info" pass 2>&1 | grep -c '^geli-info.sh: pass: error 35')" = 1
says "why.sh says what is wrong with words" test "$("$why" init -s 4k -P -K key a.img | head -n 1)" = "word 3, '4k': this is no decimal number, or it is out of its bounds (write 4096 and not 4k)"
says "  and that nothing is" "$why" kill 'a name.img' >reply
says "  and runs nothing" "$GELI" attach -C -k key -j pass half.img >reply
says "  and that an attaching doesn't stay" grep -q 'nothing stays attached.*vuthrel mount' \
    <("$why" attach -p -k a b)
says "why.sh says what a refusal is" grep -q "^15 WrongKey: No slot opens" <("$why" error 15 WrongKey)
says "  each that geli(8) has" test "$(for at in {1..48}; do "$why" error $at >reply && echo; done | wc -l)" = 48
says "  and no other" test "$("$why" error 49 >reply; echo $?)" = 1
for verb in status version label stop load unload onetime configure clear; do
    says "  and what does the work of FreeBSD's $verb" test "$("$why" "$verb" x | grep -c "^$verb: ")" = 1
done
for words in 'foo' 'init -Z a' 'init -s' 'resize a.img' 'write a.img 0 xyz' 'init -a foo b' 'attach -p -j x y' 'script a a' 'read a' 'init -K - a' 'delkey -a -n 0 a'; do
    # shellcheck disable=SC2086 # they are words
    says "  of: $words" test "$("$why" $words >reply; echo $?)" = 1 -a "$(grep -c 'error\|geli says' reply)" = 0
done
cd "$folder" || exit 2

# A provider as a network block device, for clients of other makers.
uri="nbd+unix:///?socket=$folder/sock"
if have nbdkit nbdcopy nbdinfo; then
    "$make" -i 100 -J pass 8M f.img key f.backup 2>notes
    head -c 8380416 /dev/urandom >data
    says "serve-nbd.sh refuses a wrong key" test "$("$serve" -k key -j wrong f.img sock 2>&1 | grep -c 'error 15 WrongKey: wrong\|nothing is served')" = 2
    says "  and leaves no socket" test ! -e sock -a ! -e sock.pid
    says "serve-nbd.sh serves a provider" "$serve" -k key -j pass f.img sock 2>notes
    says "  to its owner alone" test $((0$(stat -c %a sock) & 022)) = 0
    says "  of its size" test "$(nbdinfo --size "$uri")" = 8384512
    says "  which is held meanwhile" test "$("$GELI" setkey -k key -j pass -K key -J pass f.img)" = 'error 26 DeviceFault'
    says "  and not served twice" test "$("$serve" -k key -j pass f.img sock2 2>&1 | grep -c 'error 26\|nothing is served')" = 2
    says "  nor behind a name that is there" test "$("$serve" -k key -j pass f.img sock 2>&1 | grep -c 'is there already')" = 1
    says "a copy goes in" nbdcopy data "$uri"
    says "  and out" cmp -n 8380416 data <(nbdcopy "$uri" -)
    if nbdsh -c pass 2>commands; then
        cat >model.py <<'EOF'
import random
random.seed(5)
model = bytearray(open("data", "rb").read())
at = 0
for _ in range(400):
    if random.random() < 0.5 or at >= len(model):  # else behind the last one
        at = random.randrange(len(model))
    size = min(random.choice([1, 7, 511, 512, 4095, 4096, 4097, 10000, 131072, 400000]), len(model) - at)
    if random.random() < 0.5:
        piece = random.randbytes(size)
        h.pwrite(piece, at)
        model[at:at + size] = piece
    else:
        assert h.pread(size, at) == model[at:at + size], (at, size)
    at += size
h.flush()
open("data", "wb").write(model)
EOF
        says "400 requests at odd places and behind each other answer as a model does" nbdsh -u "$uri" -c - <model.py
    else
        echo "not tried: requests at odd places (no nbdsh)"
    fi
    says "serve-nbd.sh -e ends it" "$serve" -e sock 2>notes
    says "  and says that all is flushed" grep -q 'ended, all is flushed' notes
    says "  and leaves nothing behind" test ! -e sock -a ! -e sock.pid -a ! -e sock.ended
    says "  and the data are there" "$out" -b 8380416 -k key -j pass f.img f.out 2>notes
    says "  the same bytes" cmp data f.out
    # Writes that are refused: of a part of a sector that can't be read, and where there is no room. Each is answered so
    # at once, and the end tells it, also where all was written again: a filesystem may give the place to another file.
    cat >refused.py <<'EOS'
import errno, os
import nbd

def refused(work, *words, error=errno.EIO):
    try:
        work(*words)
    except nbd.Error as failed:
        return failed.errnum == error
    return False

EOS
    lost="serve-nbd.sh: what clients wrote may be lost: a write or a flush was refused"
    ended() { # what is said at the end, but for the reason and the time, and the status
        "$serve" -e sock 2>&1 | sed 's/ (.*)$//; s/[0-9][0-9]:[0-9:]*$/TIME/'
        echo "${PIPESTATUS[0]}"
    }
    if nbdsh -c pass 2>commands; then
        truncate -s 2M part.img && "$GELI" init -s 4096 -a HMAC/SHA256 -P -K key part.img >out
        cp refused.py part.py
        cat >>part.py <<'EOS'
assert refused(h.pwrite, b"a" * 512, 4096)
h.flush()
h.pwrite(b"b" * 4096, 65536)
assert h.pread(4096, 65536) == b"b" * 4096
assert refused(h.pread, 512, 4096)
assert refused(h.pwrite, b"c" * 12288, 20480 - 100)  # a part, two whole sectors and a part: nothing of it is written
assert refused(h.pread, 8192, 20480)
h.pwrite(b"d" * 4096, 4096)
h.pwrite(b"e" * 512, 4096 + 512)
assert h.pread(4096, 4096) == b"d" * 512 + b"e" * 512 + b"d" * 3072
h.flush()
EOS
        "$serve" -p -k key part.img sock 2>notes
        says "a write to a part of a sector that can't be read is refused, and others go on" nbdsh -u "$uri" -c - <part.py
        says "  and that is told at the end" test "$(ended)" = "$lost 2 times, the first at TIME"$'\n1'
        "$serve" -p -k key part.img sock 2>notes
        says "  and nothing is, where none was refused" test "$(nbdsh -u "$uri" -c 'h.pwrite(b"f" * 512, 4096)'
            ended)" = $'sock: ended, all is flushed\n0'
    else
        echo "not tried: writes to a part of a sector (no nbdsh)"
    fi
    if nbdsh -c pass 2>commands && mkdir small.d && mount -t tmpfs -o size=2500k small.d small.d 2>commands; then
        "$make" -i 100 -J pass 4M small.d/s.img key s.backup 2>notes
        cat >>refused.py <<'EOS'
at = 1 << 20
h.pwrite(b"a" * 8192, at)
with open("small.d/filler", "ab", buffering=0) as filler:
    try:
        while True:
            filler.write(bytes(4096))
    except OSError as failed:
        assert failed.errno == errno.ENOSPC
assert refused(h.pwrite, b"b" * 8192, at + 65536, error=errno.ENOSPC)
h.pwrite(b"c" * 8192, at)  # there is room for it already
os.truncate("small.d/filler", 0)
if os.environ["AGAIN"]:
    h.pwrite(b"b" * 8192, at + 65536)
h.flush()
assert h.pread(8192, at) == b"c" * 8192
EOS
        for again in '' yes; do
            "$serve" -k key -j pass small.d/s.img sock 2>notes
            says "a write on a full disk is refused${again:+, and made again}" env AGAIN=$again nbdsh -u "$uri" -c - <refused.py
            says "  and that is told at the end" test "$(ended)" = "$lost once, at TIME"$'\n1'
        done
        umount small.d
    else
        echo "not tried: writes on a full disk (no nbdsh, or no mount of a tmpfs)"
    fi
    says "serve-nbd.sh -r serves it to be read alone" "$serve" -r -k key -j pass f.img sock 2>notes
    says "  indeed" nbdinfo --is readonly "$uri"
    says "  the same bytes" cmp -n 8380416 data <(nbdcopy "$uri" -)
    says "  a server that ended by itself is told" test "$(kill -9 "$(cat sock.pid)"; sleep 1; "$serve" -e sock 2>&1 | grep -c 'may be lost')" = 1
    # Two partitions of 1 and 5 MiB.
    { head -c 446 /dev/zero; printf '\0\0\0\0\203\0\0\0\0\010\0\0\0\010\0\0\0\0\0\0\203\0\0\0\0\020\0\0\0\050\0\0'
      head -c 32 /dev/zero; printf '\125\252'; head -c 2M /dev/urandom; } >disk
    "$in" -k key -j pass disk f.img 2>notes
    says "serve-nbd.sh -n serves a partition" "$serve" -n 2 -k key -j pass f.img sock 2>notes
    says "  of its size" test "$(nbdinfo --size "$uri")" = 5242880
    if have nbdfuse fuse2fs mke2fs e2fsck fusermount3 && [ -w /dev/fuse ]; then
        mkdir plain.d fs
        nbdfuse plain.d "$uri" &
        for _ in 1 2 3 4 5 6 7 8 9 10; do [ -e plain.d/nbd ] || sleep 0.5; done
        says "  a filesystem is made in it" mke2fs -q -t ext4 plain.d/nbd
        says "  and mounted" fuse2fs plain.d/nbd fs -o fakeroot
        says "  files are copied into it" cp -r "$top/examples" fs/
        says "  and are there" diff -r "$top/examples" fs/examples
        fusermount3 -u fs
        fusermount3 -uz plain.d
    else
        echo "not tried: a filesystem that is mounted (no fuse)"
    fi
    says "  and it ends" "$serve" -e sock 2>notes
    "$out" -k key -j pass f.img disk.out 2>notes
    says "  what is before the partition stays" cmp -n 2097152 disk disk.out
    if [ -d fs ]; then
        tail -c +2097153 disk.out | head -c 5242880 >ext4
        says "  and the filesystem in it is clean" e2fsck -fn ext4 >commands 2>&1
        says "  with the files" test "$(debugfs -R 'cat /examples/lib.py' ext4 2>commands | sha256sum)" = "$(sha256sum <"$top/examples/lib.py")"
    fi
    if loop=$(losetup --find --show --offset 1M --sizelimit 4M disk.out 2>commands); then
        says "a provider can be in a partition of a disk image" "$GELI" init -i 100 -K key -J pass "$loop" >out
        says "  and is served out of it" "$serve" -k key -j pass "$loop" sock 2>notes
        says "  of its size" test "$(nbdinfo --size "$uri")" = 4193792
        says "  and it ends" "$serve" -e sock 2>notes
        says "  but it is no key file" test "$("$in" -k "$loop" -j pass pass a.img 2>&1 | grep -c 'is a disk, and no key')" = 1
        losetup -d "$loop"
    else
        echo "not tried: a partition of a disk image (no loop device)"
    fi
else
    echo "not tried: a network block device (no nbdkit, nbdcopy and nbdinfo)"
fi

# A filesystem that is mounted by one command.
mount=$top/examples/mount-provider.sh
export GELI_MOUNTS=$folder/behind
if have nbdkit nbdfuse fuse2fs mke2fs e2fsck fusermount3 blkid && [ -w /dev/fuse ]; then
    mkdir "$folder/mounts" && cd "$folder/mounts" || exit 2
    cp ../pass ../key .
    files="a folder"
    mkdir "$files"
    "$make" -i 100 -J pass 2M m.img key m.backup 2>notes
    says "mount-provider.sh finds no filesystem in a new provider" test "$("$mount" -k key -j pass m.img "$files" 2>&1 | grep -c 'no filesystem is known in it')" = 1
    says "  and takes all down again" test "$("$mount" -u "$files" 2>&1 | grep -c 'nothing was mounted')" = 1
    says "  and mounts one that it makes by -m" setsid -w "$mount" -m -k key -j pass m.img "$files" 2>notes
    says "  whose use holds the image" test "$("$GELI" setkey -k key -j pass -K key -J pass m.img)" = 'error 26 DeviceFault'
    says "  and the folder" test "$("$mount" -k key -j pass m.img "$files" 2>&1 | grep -c 'is mounted on .* already')" = 1
    says "  files are copied into it" cp "$top/README.md" "$files/"
    says "  and one that stays open" sh -c 'exec 9>"$1/open"; ! "$2" -u "$1" 2>../busy' - "$files" "$mount"
    says "  is told" grep -q 'is in use' ../busy
    says "  and it is unmounted" "$mount" -u "$files" 2>notes
    says "  with nothing behind it left" test -z "$(ls "$GELI_MOUNTS")"
    says "  and mounted again, to be read alone" "$mount" -r -k key -j pass m.img "$files" 2>notes
    says "  with the file" cmp "$top/README.md" "$files/README.md"
    says "  indeed" test ! "$(touch "$files/none" 2>&1)" = ''
    says "  and it is unmounted" "$mount" -u "$files" 2>notes
    "$out" -k key -j pass m.img m.out 2>notes
    says "  the filesystem is clean" e2fsck -fn m.out >commands 2>&1
    says "  and it is never made anew" test "$("$mount" -m -k key -j pass m.img "$files" 2>notes && cat "$files/README.md" && "$mount" -u "$files" 2>notes)" = "$(cat "$top/README.md")"
    # Where the folder behind the mounts is a link that another user may have made.
    mkdir planted
    mkdir "planted/$(realpath "$files" | tr -d '\n' | sha256sum | cut -c1-16)"
    another=$folder/another
    ln -s "$PWD/planted" "$another"
    says "another's folder behind the mounts is told" test "$(GELI_MOUNTS=$another "$mount" -u "$files" 2>&1
        echo $?)" = "mount-provider.sh: '$another' is another user's"$'\n1'
    says "  and left alone" test "$(ls planted | wc -l)" = 1
    says "  and nothing is mounted by it" test "$(GELI_MOUNTS=$another "$mount" -k key -j pass m.img "$files" 2>&1 |
        grep -c "is another user's")" = 1
    rm "$another"
    says "a wrong key is told" test "$("$mount" -k key -j key m.img "$files" 2>&1 | grep -c 'error 15 WrongKey: wrong')" = 1
    head -c 300K /dev/urandom >other && "$in" -k key -j pass other m.img 2>notes
    says "what is no filesystem is not overwritten" test "$("$mount" -m -k key -j pass m.img "$files" 2>&1 | grep -c 'nothing was made')" = 1
    says "  indeed" cmp other <("$out" -b 300K -k key -j pass m.img m2.out 2>notes; cat m2.out)
    touch "$files/there"
    says "a folder that isn't empty is left" test "$("$mount" -k key -j pass m.img "$files" 2>&1 | grep -c "isn't empty")" = 1
    rm "$files/there"
    "$in" -k key -j pass m.out m.img 2>notes
    "$mount" -k key -j pass m.img "$files" 2>notes
    says "a server that dies is told" test "$(pkill -KILL -f "^python3 -I -B [^ ]*nbd_server.py ended=$GELI_MOUNTS/"; sleep 1
        "$mount" -u "$files" 2>&1 | grep -c 'may be lost')" -ge 1
    says "  and nothing is left" test -z "$(ls "$GELI_MOUNTS")"
    mkdir full.d
    if command mount -t tmpfs -o size=2500k full.d full.d 2>commands; then
        cp --sparse=always m.img full.d/
        "$mount" -k key -j pass full.d/m.img "$files" 2>notes
        cat >refused.py <<'EOS'
import os, sys
disk = os.open(sys.argv[1], os.O_RDWR)
same, refused = os.pread(disk, 4096, 1 << 19), 0
os.pwrite(disk, same, 1 << 19)
os.fsync(disk)
filler = os.open("full.d/filler", os.O_WRONLY | os.O_CREAT)
try:
    while True:
        os.write(filler, bytes(4096))
except OSError:
    pass
at = (1 << 20) + (1 << 19)
try:
    os.pwrite(disk, os.pread(disk, 65536, at), at)
    os.fsync(disk)  # the kernel keeps what is written until then
except OSError:
    refused = 1
os.ftruncate(filler, 0)
os.fsync(disk)
assert refused
EOS
        says "a write that a mount refuses" python3 refused.py "$(echo "$GELI_MOUNTS"/*/disk/nbd)"
        says "  is told when it is unmounted" test "$("$mount" -u "$files" 2>&1 | sed 's/ [0-9][0-9:]\{7\}\( (.*)\)*$//'
            echo "${PIPESTATUS[0]}")" = "mount-provider.sh: $(realpath "$files"): what was written may be lost: \
a write or a flush was refused once, at"$'\n1'
        says "  and nothing is left" test -z "$(ls "$GELI_MOUNTS")"
        umount full.d
    else
        echo "not tried: a write that a mount refuses (no mount of a tmpfs)"
    fi
    if command -v makefs >commands && command -v grub-mount >commands; then
        mkdir tree && cp "$top/README.md" tree/
        says "a filesystem of FreeBSD's" makefs -t ffs -o version=2 -s 1m ufs.img tree >commands 2>&1
        "$in" -k key -j pass ufs.img m.img 2>notes
        says "  is mounted" "$mount" -k key -j pass m.img "$files" 2>notes
        says "  to be read alone" grep -q 'its ufs is mounted .* to be read alone' notes
        says "  with its file" cmp "$top/README.md" "$files/README.md"
        says "  and it is unmounted" "$mount" -u "$files" 2>notes
    else
        echo "not tried: a UFS (no makefs and grub-mount)"
    fi
    # A provider in the second partition of a disk's image.
    { head -c 446 /dev/zero; printf '\0\0\0\0\203\0\0\0\0\010\0\0\0\010\0\0\0\0\0\0\203\0\0\0\0\020\0\0\0\020\0\0'
      head -c 32 /dev/zero; printf '\125\252'; } >disk.img
    "$in" -k key -j pass m.out m.img 2>notes
    truncate -s 2M disk.img && cat m.img >>disk.img
    mkdir part
    nbdfuse part [ nbdkit --exit-with-parent --filter=partition file disk.img partition=2 ] 2>commands &
    for _ in 1 2 3 4 5 6 7 8 9 10; do [ -e part/nbd ] || sleep 0.5; done
    says "a provider in a partition of a disk's image" "$mount" -k key -j pass part/nbd "$files" 2>notes
    says "  of whose disk's room nothing is known" test "$(grep -c 'may come to take' notes)" = 0
    says "  is mounted with its file" cmp "$top/README.md" "$files/README.md"
    says "  and unmounted" "$mount" -u "$files" 2>notes
    fusermount3 -u part
    if command -v sfdisk >commands; then
        truncate -s 2M gpt.img && cat m.img >>gpt.img && truncate -s +1M gpt.img
        printf 'label: gpt\nstart=2048, size=2048\nstart=4096, size=%s\n' $(($(stat -c %s m.img) / 512)) | sfdisk -q gpt.img 2>commands
        nbdfuse part [ nbdkit --exit-with-parent --filter=partition file gpt.img partition=2 ] 2>commands &
        for _ in 1 2 3 4 5 6 7 8 9 10; do [ -e part/nbd ] || sleep 0.5; done
        says "a provider in a partition of a GPT" "$mount" -k key -j pass part/nbd "$files" 2>notes
        says "  is mounted with its file" cmp "$top/README.md" "$files/README.md"
        says "  and unmounted" "$mount" -u "$files" 2>notes
        fusermount3 -u part
    else
        echo "not tried: a provider in a partition of a GPT (no sfdisk)"
    fi
    # The README's lines, typed into a fresh folder; its three questions are answered as a person would.
    sed -n '/^\*\*A mount\*\*/,/^## /p' "$top/README.md" | sed '1,/^```/d; /^```/,$d' >block
    says "the README has the lines of a mount" test "$(cut -d' ' -f1 block | xargs)" = \
        'make-provider.sh mkdir mount-provider.sh echo mount-provider.sh'
    if is_trial; then sed -i 's/make-provider.sh 80M/make-provider.sh -i 100 2M/' block; fi
    mkdir fresh
    cat >type.py <<'EOF'
import os, pty, sys
process, terminal = pty.fork()
if process == 0:
    os.execvp("bash", ["bash", "-eux", sys.argv[1]])
said = b""
while True:
    try:
        piece = os.read(terminal, 4096)
    except OSError:
        break
    said += piece
    if said.rstrip().endswith((b"passphrase:", b"again:")):
        os.write(terminal, b"a few words\n")
        said += b"\n"
sys.stdout.buffer.write(said)
sys.exit(os.waitstatus_to_exitcode(os.waitpid(process, 0)[1]))
EOF
    typed() { (cd fresh && PATH=$folder/bin:$top/examples:$PATH env -u GELI -u GELI_NBD python3 ../type.py ../block >../typed); }
    SECONDS=0
    says "the README's filesystem, typed" typed
    echo "  ($SECONDS seconds)"
    printf 'a few words\n' >fresh/pass
    says "  is mounted again" "$mount" -k fresh/a.key -j fresh/pass fresh/a.img "$files" 2>notes
    says "  has its file in the end" grep -q '^hello' "$files/hello"
    says "  and it is unmounted" "$mount" -u "$files" 2>notes
    # The terminal that started it is closed.
    printf '%s\n' "mount-provider.sh -k ../key -j ../pass ../m.img files" >block
    "$in" -k key -j pass m.out m.img 2>notes
    says "a mount whose terminal is closed" typed
    sleep 1
    says "  goes on" cp "$top/README.md" fresh/files/again
    says "  and is unmounted" "$mount" -u fresh/files 2>notes
    cd "$folder" || exit 2
else
    echo "not tried: mount-provider.sh (no nbdkit, nbdfuse, fuse2fs, or /dev/fuse)"
fi

# At a terminal: `shown KEYS COMMAND...` runs the command at one of its own, types the keys at its first prompt, and
# prints what it shows.
cat >terminal.py <<'EOF'
import os, pty, select, sys
process, terminal = pty.fork()
if process == 0:
    os.execvp(sys.argv[2], sys.argv[2:])
said, keys, interrupts = b"", sys.argv[1].encode(), False
while True:
    # An interrupt between the prompt and bash's read of the answer is lost, so it is pressed again, as a user would.
    if interrupts and not select.select([terminal], [], [], 2)[0]:
        os.write(terminal, b"\x03")
        continue
    try:
        piece = os.read(terminal, 4096)
    except OSError:
        break
    if not piece:
        break
    said += piece
    if keys and said.rstrip().endswith(b":"):
        os.write(terminal, keys)
        keys, interrupts = b"", keys == b"\x03"
sys.stdout.buffer.write(said)
sys.exit(os.waitstatus_to_exitcode(os.waitpid(process, 0)[1]) % 256)
EOF
shown() { python3 terminal.py "$@"; }
cat >slow.py <<EOF
import sys, time
sys.path.insert(0, "$top/kit")
from vuthrel.text import Progress
progress = Progress(64 << 20)
time.sleep(1.1)
progress.at(16 << 20)
progress.end("67108864 bytes")
EOF
says "how far it is, at a terminal" test "$(shown '' python3 slow.py | grep -c '25 %, 16 of 64 MiB, .* left')" = 1
says "  and nothing but the end elsewhere" test "$(python3 slow.py 2>&1 | grep -c ' left')" = 0
says "a wait is told at a terminal" test "$(shown '' "$make" -i 100 -J pass 1M waits.img key waits.backup |
    grep -c '^making the key, and trying it \.\.\.')" = 1
says "  and not elsewhere" test "$("$make" -i 100 -J pass 1M waits2.img key waits2.backup 2>&1 | grep -c '\.\.\.')" = 0
head -c 2M /dev/urandom >used.disk && cp used.disk before
says "a used disk is left alone where another name is typed" test "$(shown $'other\n' "$make" -d -i 100 -J pass \
    used.disk key used.backup | grep -c 'nothing was changed: the names differ')" = 1
says "  indeed" cmp used.disk before
says "  and where nobody can be asked" test "$(setsid "$make" -d -i 100 -J pass used.disk key used.backup 2>&1 \
    </dev/null | grep -c 'nothing was changed')" = 1
says "  indeed" cmp used.disk before
says "  and a provider is made over it where its own is" shown $'used.disk\n' "$make" -d -i 100 -J pass \
    used.disk key used.backup >notes
says "  which opens" "$GELI" attach -C -k key -j pass used.disk >out
if have nbdkit nbdfuse fuse2fs mke2fs fusermount3 blkid && [ -w /dev/fuse ]; then
    mkdir used
    says "  in which -m makes a filesystem" "$mount" -m -k key -j pass used.disk used 2>notes
    says "  and it is unmounted" "$mount" -u used 2>notes
    says "  -M makes none over it where another name is typed" test "$(shown $'other\n' "$mount" -M -k key -j pass used.disk used |
        grep -c 'the names differ')" = 1
    says "  but where its own is" shown $'used.disk\n' "$mount" -M -k key -j pass used.disk used >notes
    says "  and it is unmounted" "$mount" -u used 2>notes
else
    echo "not tried: a filesystem over a used disk (no nbdkit, nbdfuse, fuse2fs, or /dev/fuse)"
fi
interrupted() { shown "$(printf '\3')" "$make" -i 100 1M asked.img key asked.backup >notes; [ $? = 130 ]; }
says "an interrupt at the prompt ends with 130" interrupted
says "  and leaves nothing" test ! -e asked.img -a ! -e asked.backup

# --- What is lost, leaked or misunderstood by one who means well, or by what another has put there.

mkdir careful && cd careful || exit 2
cp ../pass ../key .
cp ../terminal.py .
PATH=$PATH:/usr/sbin:/sbin
here=$folder/careful
copy_in=$top/examples/copy-in.sh restore=$top/examples/restore-provider.sh
# changed FIELD=VALUE...: makes changed.img, as a.img with other fields in its metadata, whose MD5 is right.
cat >change.py <<EOS
import dataclasses, sys
sys.path.insert(0, "$top/kit")
from vuthrel.metadata import Metadata
with open(sys.argv[1], "r+b") as file:
    file.seek(-512, 2)
    found = Metadata.of_sector(file.read(512))
    fields = dict(word.split("=") for word in sys.argv[2:])
    file.seek(-512, 2)
    file.write(dataclasses.replace(found, **{name: int(value, 0) for name, value in fields.items()}).sector())
EOS
changed() { cp a.img changed.img && python3 change.py changed.img "$@"; }
esc=$'\e'
"$make" -i 100 -J pass 1M a.img key a.backup 2>notes

# A copy over what is in a provider.
head -c 300K /dev/urandom >photo
mke2fs -q -t ext4 fs.raw 900K >out 2>notes
says "a copy into a new provider asks nothing" "$copy_in" -k key -j pass fs.raw a.img 2>notes </dev/null
cp a.img before
says "one over a filesystem isn't made where nobody can be asked" test "$(setsid -w "$copy_in" -k key -j pass photo a.img 2>&1 </dev/null |
    grep -c 'a.img: there is something in it, ext4: its first 307200 bytes will be lost\|nothing was changed.*-f does')" = 2
says "  indeed" cmp a.img before
says "  nor where another name is typed" test "$(shown $'other\n' "$copy_in" -k key -j pass photo a.img |
    grep -c 'nothing was changed: the names differ')" = 1
says "  indeed" cmp a.img before
says "  but where its own is" shown $'a.img\n' "$copy_in" -k key -j pass photo a.img >typed
says "  and -f doesn't ask, nor where what was there is no filesystem" "$copy_in" -f -k key -j pass fs.raw a.img 2>notes </dev/null
truncate -s 1M new.img && "$GELI" init -a HMAC/SHA256 -P -K key new.img >out
says "  and nobody is asked where nothing can be read" "$copy_in" -p -k key photo new.img 2>notes </dev/null
says "  but where some can" test "$(setsid -w "$copy_in" -p -k key pass new.img 2>&1 </dev/null | grep -c 'something in it')" = 1

# A disk that was another's before.
over() { shown "$1"$'\n' "$make" -d -i 100 -J pass "$1" key "$1.backup" >typed; }
if have cryptsetup blkid; then
    for size in 16k 4m; do
        rm -f luks luks.backup && truncate -s 24M luks
        printf x | cryptsetup -q luksFormat --pbkdf pbkdf2 --pbkdf-force-iterations 1000 --luks2-metadata-size $size luks - 2>notes
        says "a provider is made over a LUKS2 with $size of metadata" over luks
        says "  of which nothing is found again" test -z "$(blkid -p luks)"
        cp luks before
        says "  by cryptsetup either" test "$(cryptsetup isLuks luks; echo $?)" = 1
        says "  which changes nothing" cmp luks before
    done
else
    echo "not tried: a disk that was a LUKS (no cryptsetup)"
fi
if have sfdisk blkid; then
    truncate -s 3M gpt && printf 'label: gpt\nstart=2048, size=2048\n' | sfdisk -q gpt 2>notes
    says "a provider is made over a GPT" over gpt
    says "  which isn't found again" test -z "$(blkid -p gpt)$(sfdisk -d gpt 2>/dev/null)"
    says "  and opens" "$GELI" attach -C -k key -j pass gpt >out
else
    echo "not tried: a disk that was a GPT's (no sfdisk)"
fi
truncate -s 2M used.raw && mke2fs -q used.raw && cp used.raw before
if loop=$(losetup --find --show used.raw 2>notes); then
    says "a file that a loop device uses is left alone" test "$(shown $'used.raw\n' "$make" -d -i 100 -J pass used.raw key used.backup |
        grep -c "nothing was changed: 'used.raw' is in use by a loop device: $loop")" = 1
    says "  indeed" cmp used.raw before
    losetup -d "$loop"
else
    echo "not tried: a file that a loop device uses (no loop device)"
fi

# Names.
"$make" -i 100 -J pass 1M b.img key b.backup 2>notes
cp b.img before && cp b.img $'b.img\n'
for words in 'kill-provider.sh -y b.img?' 'geli-info.sh b.img?' 'make-provider.sh -J pass 1M no.img key? no.backup' \
    'change-passphrase.sh -k key -j pass -J pass b.img new?' 'copy-out.sh -k key -j pass b.img? no.out' 'mount-provider.sh -u b.img?' \
    'serve-nbd.sh -e b.img?' 'restore-provider.sh b.backup? b.img old'; do
    read -ra words <<<"$words"
    words=("${words[@]//\?/$'\n'}")
    says "a name that ends in a newline is refused: ${words[0]}" test "$("$top/examples/${words[0]}" "${words[@]:1}" 2>&1 |
        grep -c 'ends in a newline, and is refused')" = 1
done
says "  and no other file is changed" cmp b.img before
says "KEYFILE and IMAGE are two files" test "$("$make" -i 100 -J pass 1M q.img q.img q.backup 2>&1 | grep -c 'are one file')" = 1
says "  and nothing is made" test ! -e q.img -a ! -e q.backup
cp b.img d.img && ln d.img d.link
says "  not by another link either" test "$(shown $'d.img\n' "$make" -d -i 100 -J pass d.img d.link q.backup | grep -c 'are one file')" = 1
says "  indeed" cmp d.img b.img
ln -s elsewhere key.link
says "a key file isn't made through a link" test "$("$make" -i 100 -J pass 1M z.img key.link z.backup 2>&1 |
    grep -c "the key file './key.link' can't be made")" = 1
says "  indeed" test ! -e elsewhere
cp pass open.pass && chmod 644 open.pass
says "a passphrase file that all may read is told" test "$("$top/examples/geli-info.sh" -k key -j open.pass a.img 2>&1 |
    grep -c "^note: everybody may use the file 'open.pass'")" = 1

# What others see.
real=$(command -v python3)
mkdir watched urllib
printf '#!/bin/sh\nprintf "%%s\\n" "$@" >>"%s"\nexec "%s" "$@"\n' "$here/watched/words" "$real" >watched/python3
chmod +x watched/python3
PATH=$here/watched:$PATH "$info" -k key -j pass a.img >reply 2>notes
salt=$("$GELI" dump a.img | sed -n 's/^salt: //p')
says "geli-info.sh has no salt among the words of a process" test -s watched/words -a "$(grep -c "$salt" watched/words)" = 0
printf 'open("ran", "w")\n' >urllib/__init__.py
if have nbdkit; then
    # (The system's python3: another may have imported it by itself.)
    says "serve-nbd.sh serves in a folder that has a urllib" env PATH="/usr/bin:$PATH" "$serve" -k key -j pass a.img sock 2>notes
    says "  whose code isn't run" test ! -e ran
    "$serve" -e sock 2>notes
else
    echo "not tried: a folder that has a urllib (no nbdkit)"
fi
odd="${esc}]0;owned"$'\a'"${esc}[2J.img"
cp a.img "$odd"
says "a name with control characters" test "$("$info" "$odd" 2>&1 | grep -c '^?]0;owned??\[2J.img: a provider')" = 1
says "  of one that isn't there" test "$("$info" "none$odd" 2>&1 | grep -c "$esc")" = 0
cat >hold.py <<'EOS'
import fcntl, os
file = os.open("held.img", os.O_RDONLY)
fcntl.flock(file, fcntl.LOCK_EX)
os.set_inheritable(file, True)
os.execv("/bin/sleep", ["\x1b]0;owned\x07\x1b[2J\nmake-provider.sh: type your passphrase", "60"])
EOS
cp a.img held.img
python3 hold.py & held=$!
for _ in {1..50}; do ! flock -n held.img true || sleep 0.1; done
says "a process with control characters in its words holds an image" test "$("$change" -k key -j pass -J pass held.img held.backup 2>&1 |
    tee told | grep -c 'holds it (?\]0;owned??\[2J?make-provider.sh: type')" = 1
says "  and none of them is shown" test "$(grep -c "$esc" told)" = 0
kill $held
wait $held 2>notes

# A typed passphrase, and one of a pipe: in no file, in no process of a script, and in no core.
waits() { # PROGRAM: one that looks, tells and then does nothing for a while
    cat <<EOS
#!/bin/bash
case \$1 in list | dump | --version) exec "$1" "\$@" ;; esac
ulimit -c >"$here/cores"
touch "$here/reached"
sleep 20
EOS
}
waits "$GELI" >waits && waits "$GELI_NBD" >waits-nbd
chmod +x waits waits-nbd
cat >typed.py <<'EOS'
# typed.py FOLDER COMMAND...: types a passphrase at each prompt; once the program has begun: which files and processes
# have it, also its end alone. Then all that was started is killed, and it says what is left in the folder.
import os, pty, select, signal, subprocess, sys, time
def has_it(number):
    with open(f"/proc/{number}/maps") as rows, open(f"/proc/{number}/mem", "rb", 0) as memory:
        for row in rows:
            place, rights = row.split(" ")[:2]
            if rights.startswith("rw"):
                first, end = (int(digits, 16) for digits in place.split("-"))
                if b"of more than 32 bytes" in os.pread(memory.fileno(), end - first, first):
                    return True
    return False
folder, reached = sys.argv[1], "reached"
process, terminal = pty.fork()
if process == 0:
    os.environ["XDG_RUNTIME_DIR"] = folder
    os.execvp(sys.argv[2], sys.argv[2:])
said, until = b"", time.monotonic() + 30
while not os.path.exists(reached) and time.monotonic() < until:
    if select.select([terminal], [], [], 0.1)[0]:
        try:
            said += os.read(terminal, 4096)
        except OSError:
            break
        if said.rstrip().endswith((b"passphrase:", b"again:")):
            os.write(terminal, b"secret words of more than 32 bytes\n")
            said += b"\n"
if not os.path.exists(reached):
    print("the program isn't reached", said)
for name in subprocess.run(["grep", "-rl", "secret words", folder], stdout=subprocess.PIPE).stdout.split():
    print("a file has it:", name)
for number in filter(str.isdigit, os.listdir("/proc")):
    try:
        with open(f"/proc/{number}/environ", "rb") as file:
            if f"XDG_RUNTIME_DIR={folder}\0".encode() in file.read():
                if has_it(number):
                    print("a process has it:", os.readlink(f"/proc/{number}/exe"))
                os.kill(int(number), signal.SIGKILL)
    except OSError:
        pass
for name in subprocess.run(["grep", "-rl", "secret words", folder], stdout=subprocess.PIPE).stdout.split():
    print("a file has it behind SIGKILL:", name)
EOS
printf 'secret words of more than 32 bytes\n' >secret
truncate -s 1M s.img && "$GELI" init -i 100 -K key -J secret s.img >out
mkdir shm target
hides() { # NAME WORDS...: what has a passphrase that is typed, or comes by a pipe
    rm -rf reached shm/* sock* new.* target/*
    GELI=$here/waits GELI_NBD=$here/waits-nbd GELI_MOUNTS=$here/shm/mounts python3 typed.py "$here/shm" "$@"
}
for words in 'after-a-power-failure.sh -k key s.img' 'copy-out.sh -k key s.img new.out' 'copy-in.sh -f -k key pass s.img' \
    'change-passphrase.sh -k key s.img new.backup' 'make-provider.sh -i 100 1M new.img key new.backup' \
    'grow-provider.sh -k key 2M s.img new.backup' 'restore-provider.sh -k key a.backup a.img new.old' \
    'scrub-provider.sh -k key s.img new.place' 'serve-nbd.sh -k key s.img sock' 'mount-provider.sh -k key s.img target'; do
    read -ra words <<<"$words"
    case ${words[0]} in
        serve*) have nbdkit || continue ;;
        mount*) have nbdfuse fusermount3 && [ -w /dev/fuse ] || continue ;;
    esac
    (ulimit -c unlimited 2>notes; hides "$top/examples/${words[0]}" "${words[@]:1}") >left
    says "no file or process has the passphrase that is typed to ${words[0]}" test ! -s left
    says "  nor would a core" test "$(cat cores)" = 0
done
piped() { hides bash -c '"$1" -k key -j <(cat secret) s.img new.out' - "$out"; }
says "  nor has one that comes by a pipe" test -z "$(piped)"
rm -rf shm target
# Stopped at the prompt by ^Z, and taken up again.
cat >stopped.py <<'EOS'
import os, pty, select, sys
process, terminal = pty.fork()
if process == 0:
    os.environ["PS1"] = "prompt$ "
    os.execvp("bash", ["bash", "--norc", "--noediting", "-i"])
said = b""
def settle(text=b""):
    """Waits for a text, and until nothing more comes."""
    global said
    at, turns = len(said), 0
    while turns < 20 and (text not in said[at:] or select.select([terminal], [], [], 1)[0]):
        if select.select([terminal], [], [], 1)[0]:
            said += os.read(terminal, 4096)
        else:
            turns += 1
settle(b"prompt$ ")
os.write(terminal, " ".join(sys.argv[1:]).encode() + b"\n")
settle(b"passphrase:")
os.write(terminal, b"\x1a")
settle()
if b"Stopped" in said:
    os.write(terminal, b"fg\n")
    settle()
os.write(terminal, b"secret words of more than 32 bytes\n")
settle(b"prompt$ ")
sys.stdout.buffer.write(said)
EOS
python3 stopped.py "$out" -k key s.img stopped.out >stopped
says "what is typed after ^Z at the prompt isn't shown" test "$(grep -c 'secret words' stopped)" = 0
says "  and is taken" test -e stopped.out

# A program that can't be built is told before anything is asked or made.
printf '#!/bin/sh\nexit 70\n' >fails && chmod +x fails
says "a program that doesn't run is told" test "$(GELI=$here/fails shown $'\3' "$make" 1M fails.img fails.key fails.backup |
    tee told | grep -c "/fails' doesn't run")" = 1
says "  before a passphrase is asked for" test "$(grep -c 'passphrase' told)" = 0 -a ! -e fails.key

# Metadata that nobody can attach.
for what in sectorsize=0 sectorsize=1 sectorsize=100 provsize=0 ealgo=2 flags=0xffffffff; do
    changed $what
    "$info" changed.img >reply 2>notes
    says "geli-info.sh says that metadata with $what aren't served" test "$? $(grep -c '^served here: no, error [0-9]* ' reply)" = '1 1'
    says "  and has no fault of its own" test "$(cat reply notes | grep -c 'Traceback\|: -[0-9]')" = 0
    for script in "$copy_in -f -k key -j pass photo changed.img" "$out -k key -j pass changed.img changed.out" "$look -k key -j pass changed.img"; do
        # shellcheck disable=SC2086 # they are words
        $script >reply 2>&1
        says "  nor ${script##*/}" test "$? $(grep -c 'Traceback' reply) $(grep -c 'error [0-9]' reply)" = '1 0 1'
    done
    says "  which calls them whole, and no more" test "$(grep -c 'metadata: sound' reply)" -le "$(grep -c 'nobody can open their provider here\|^key: error 8' reply)"
done
changed ealgo=2
says "a cipher of FreeBSD's has its name" grep -q '^cipher: 3DES-CBC, ' <("$info" changed.img)
changed iterations=2147483647
says "how long a key may take is told" test "$(timeout -s INT 5 "$out" -k key -j pass changed.img changed.out 2>&1 |
    grep -c 'goes through 2147483647 iterations of PBKDF2')" = 1

# What an unknown image is.
says "a file that isn't there is told" test "$("$info" nosuch 2>&1)" = "geli-info.sh: there is no file 'nosuch'"
known() { "$info" "$1" 2>&1 >out | grep -c "$2"; }
(cat a.img; head -c 4096 /dev/zero) >behind
says "geli-info.sh says where the metadata are in a longer image" test "$(known behind 'it has 1052672 bytes, and metadata of a provider of 1048576 bytes end at its byte 1048576')" = 1
if have blkid; then
    says "  and what blkid knows" test "$(known fs.raw 'blkid(8) says that it is: ext4')" = 1
fi
if have sfdisk; then
    truncate -s 3M disk && printf 'label: gpt\nstart=2048, size=1024\nstart=3072, size=2048\n' | sfdisk -q disk 2>notes
    dd if=a.img of=disk bs=512 seek=3072 conv=notrunc status=none
    says "  and which partition has a provider" test "$(known disk 'partition 2 has a provider: .*offset=1572864 range=1048576')" = 1
fi
says "geli-info.sh knows a backup" grep -q '^a.backup: a backup of the metadata of a provider of 1048576 bytes' <("$info" a.backup)
says "  and whether a key opens it" grep -q '^this key: opens slot 0$' <("$info" -k key -j pass a.backup)
(cat a.backup; head -c 3584 /dev/zero) >a.sector
says "  also one of a larger sector" grep -q '^a.sector: a backup of the metadata' <("$info" a.sector)

# A backup that is put back.
"$change" -k key -j pass -J secret a.img later.backup 2>notes
cp a.img before
says "restore-provider.sh says what both are" test "$(setsid -w "$restore" a.backup a.img old 2>&1 </dev/null |
    grep -c '^a.backup: a provider of 1048576 bytes, keys 0x1, \|^a.img, as it is now: a provider .* keys 0x2, \|^both are of one provider')" = 3
says "  and does nothing where nobody can be asked" cmp a.img before
says "  nor makes a file" test ! -e old
says "  nor with a key that doesn't open the backup" test "$("$restore" -y -k key -j secret a.backup a.img old 2>&1 |
    grep -c "nothing was changed: the key doesn't open 'a.backup': error 15")" = 1
says "  indeed" cmp a.img before
says "  but by -y" "$restore" -y -k key -j pass a.backup a.img old 2>notes
says "  with the old key" "$GELI" attach -C -k key -j pass a.img >out
says "  and keeps what was there" cmp old later.backup
says "  and replaces no file" test "$("$restore" -y later.backup a.img old 2>&1 | grep -c 'left alone')" = 1
cp a.img before
says "another provider's is told" test "$(setsid -w "$restore" -y b.backup a.img other.old 2>&1 </dev/null |
    grep -c '^they are of two providers: \|nothing was changed: no terminal')" = 2
says "  and not put in" cmp a.img before
says "  but where the name of the image is typed" shown $'a.img\n' "$restore" b.backup a.img other.old >typed
says "  indeed" test "$("$GELI" dump a.img | sed -n 's/^salt: //p')" = "$("$GELI" dump b.img | sed -n 's/^salt: //p')"
says "  and goes back" "$GELI" restore other.old a.img >out
says "  indeed" cmp a.img before
"$destroy" -y a.img 2>notes
says "an image that was destroyed is told" test "$(shown $'a.img\n' "$restore" -k key -j pass a.backup a.img gone.old |
    grep -c '^a.img, as it is now: error 5\|^a.img: has the metadata of a.backup.$')" = 2
says "  and restored" "$GELI" attach -C -k key -j pass a.img >out
says "  with nothing to keep" test ! -e gone.old
says "a file that is no backup is left" test "$("$restore" -y photo a.img no.old 2>&1 | grep -c "'photo' is no backup")" = 1
cp a.backup damaged && printf '\1' | dd of=damaged bs=1 seek=60 conv=notrunc status=none
says "  and a damaged one" test "$("$restore" -y damaged a.img no.old 2>&1 | grep -c "no sound backup: error 7")" = 1
"$make" -i 100 -J pass 2M larger.img key larger.backup 2>notes
says "one for another size is told" test "$("$restore" -y larger.backup a.img no.old 2>&1 | grep -c 'the image has 1048576 bytes (-f')" = 1
says "  and a.img is as it was" "$GELI" attach -C -k key -j pass a.img >out

# A server of a socket.
if have nbdkit; then
    rm -rf urllib
    lets_go() { timeout 60 bash -c 'exec 7>&1; "$@"' - "$serve" -k key -j pass a.img sock 2>&1 | cat >said; }
    SECONDS=0
    lets_go
    says "serve-nbd.sh lets the pipe of its caller go" test -S sock -a $SECONDS -lt 45
    "$serve" -e sock 2>notes
    "$make" -i 100 -J pass 1M m.img key m.backup 2>notes
    says "a partition that isn't there isn't served" test "$(timeout 60 "$serve" -n 7 -k key -j pass m.img table.sock 2>&1 >out |
        tee told | grep -c 'nothing is served\|partition table')" = 2
    says "  and isn't called so" test "$(grep -c 'served at' told)" = 0
    says "  and leaves nothing" test -z "$(ls table.sock* 2>/dev/null)"
    echo precious >precious
    ln -s precious sock.pid.new && ln -s precious sock.ended.new
    "$serve" -k key -j pass a.img sock 2>notes
    "$serve" -e sock 2>notes
    says "no link beside a socket is written through" test "$(cat precious)" = precious
    ln -s nowhere sock.pid
    says "  nor is one taken for nothing" test "$("$serve" -k key -j pass a.img sock 2>&1 | grep -c 'is there already')" = 1
    rm sock.pid
    cp a.img gone.img
    "$serve" -k key -j pass gone.img sock 2>notes
    rm gone.img
    says "an image that is removed while it is served is told" test "$("$serve" -e sock 2>&1 |
        grep -c "may be lost: '.*/gone.img' was removed or replaced")" = 1
else
    echo "not tried: a server of a socket (no nbdkit)"
fi

# A mount.
if have nbdkit nbdfuse fuse2fs mke2fs e2fsck fusermount3 blkid && [ -w /dev/fuse ]; then
    mkdir files
    export GELI_MOUNTS=$here/mounts
    rm -f m.img m.backup
    "$make" -i 100 -J pass 2M m.img key m.backup 2>notes
    "$mount" -m -k key -j pass m.img files 2>notes
    echo hello >files/hello
    says "mount-provider.sh -l says what is mounted" test "$("$mount" -l)" = "$here/files: $here/m.img (ext4)"
    "$mount" -u files 2>notes
    says "  and nothing where nothing is" test -z "$("$mount" -l)"
    # The server ends a second after its connection.
    printf '#!/bin/sh\n"%s" "$@"\nstatus=$?\nexec </dev/null >/dev/null\nsleep 1\nexit $status\n' "$GELI_NBD" >late
    chmod +x late
    says "a mount that fails says why, though its server ends late" test "$(GELI_NBD=$here/late "$mount" -k key -j key m.img files 2>&1 |
        grep -c 'error 15 WrongKey')" = 1
    german=(env LANGUAGE=de LC_ALL=C.UTF-8)
    if [ "$("${german[@]}" stat -c %F .)" != directory ]; then
        says "a mount in German" "${german[@]}" "$mount" -k key -j pass m.img files 2>notes
        says "  with its file" test "$(cat files/hello)" = hello
        says "  which isn't unmounted while it is in use" test "$(cd files && "${german[@]}" "$mount" -u . 2>&1 | grep -c 'it is in use by')" = 1
        says "  and then is" "${german[@]}" "$mount" -u files 2>notes
    else
        echo "not tried: a mount in German (stat(1) speaks English)"
    fi
    cp m.img moved.img
    "$mount" -k key -j pass moved.img files 2>notes
    echo lost >files/lost && mv moved.img away.img && cp m.img moved.img
    says "an image that is replaced while it is mounted is told" test "$("$mount" -u files 2>&1 |
        grep -c "moved.img' was removed or replaced meanwhile")" = 1
    cp m.img moved.img
    "$mount" -k key -j pass moved.img files 2>notes
    truncate -s 1M moved.img
    says "  and one that is made shorter" test "$("$mount" -u files 2>&1 | grep -c "may be lost\|moved.img' was made shorter")" = 1
    truncate -s 1M bare.img && "$GELI" init -a HMAC/SHA256 -P -K key bare.img >out
    says "a beginning that can't be read is told" test "$("$mount" -p -k key bare.img files 2>&1 |
        grep -c "its first sectors can't be read")" = 1
    "$out" -k key -j pass m.img label.raw 2>notes
    tune2fs -L "${esc}[2J${esc}]0;X" label.raw >out 2>notes
    debugfs -w -R 'set_super_value state 0' label.raw 2>notes
    "$copy_in" -f -k key -j pass label.raw m.img 2>notes
    says "a label with control characters" "$mount" -k key -j pass m.img files 2>told
    says "  is told" grep -q 'was mended' told
    says "  without them" test "$(grep -c "$esc" told)" = 0
    "$mount" -u files 2>notes
else
    echo "not tried: mounts of these (no nbdkit, nbdfuse, fuse2fs, or /dev/fuse)"
fi
cd "$folder" || exit 2

# The scripts themselves.
if command -v shellcheck >commands; then
    says "shellcheck finds nothing in the scripts" shellcheck -S warning -x -P "$top/examples" "$top"/examples/*.sh
fi

# Completions, by bash itself.
offered() { # WORD...: what is offered for the last word
    COMP_WORDS=(geli "$@") COMP_CWORD=$#
    COMPREPLY=()
    _geli 2>/dev/null
    printf '%s ' "${COMPREPLY[@]}"
}
. "$top/completions/geli.bash"
says "completions of verbs" test "$(offered '')" = "$("$top/tools/verbs.py" --names) "
says "completions of options" test "$(offered attach -)" = "-C -p -r -v -j -k -n "
says "completions of values" test "$(offered init -e '')" = "AES-XTS AES-CBC "
says "  of detach" test "$(offered detach -)" = "-f -v "
says "  of delkey" test "$(offered delkey -)" = "-a -f -v -n "
says "  of setkey" test "$(offered setkey -)" = "-p -P -v -i -j -J -k -K -n "
says "  of resume" test "$(offered resume -)" = "-p -v -j -k "
says "  of suspend" test "$(offered suspend -)" = "-v "
says "  of verify" test "$(offered verify -)" = "-r -v "
says "  none of read" test "$(offered read -)" = " "
says "  none of step" test "$(offered step -)" = " "
says "completions of names" test "$(offered dump b.i)" = "b.img "
says "  of each of a script's" test "$(offered script a.img b.i)" = "b.img "
says "  of a backup" test "$(offered restore a.img b.i)" = "b.img "
says "  of a request's image" test "$(offered submit b.i)" = "b.img "
says "  of its job" test "$(offered submit b.img '')" = "read write flush "
says "  none of its sector" test "$(offered submit b.img read b.i)" = " "
says "  of a place" test "$(offered verify a.img b.i)" = "b.img "
says "  none of a count" test "$(offered verify a.img place 1)" = " "
says "  none behind it" test "$(offered restore a.img b.img b.i)" = " "
says "  none of a list's" test "$(offered list b.i)" = " "

[ "$failures" = 0 ] || exit 1

"""The words of the command over a fake geli: what they do, what they refuse, and what they leave."""
from __future__ import annotations

import gzip
import json
import os
import signal
import subprocess
import time
from dataclasses import replace
from pathlib import Path

import pytest
from conftest import COMMAND, KEY, Place
from vuthrel.metadata import Metadata

WORDS = ("make", "info", "grow", "destroy", "write-image", "read-image", "check", "scrub", "passwd", "backup",
         "restore", "explain")


def sector_of(place: Place, name: str = "a.img") -> Metadata:
    found = Metadata.of_sector(place.read(name)[-512:])
    assert found
    return found


def changed(place: Place, **fields: int) -> None:
    """Makes changed.img, as a.img with other fields in its metadata."""
    old = sector_of(place)
    place.write("changed.img", place.read("a.img")[:-512] + replace(old, **fields).sector())


@pytest.mark.parametrize("word", WORDS)
def test_help_and_words_that_are_not_understood(place: Place, word: str) -> None:
    assert place.run(word, "-h").out.startswith(f"usage: vuthrel {word} ")
    ran = place.run(word, *([] if word == "explain" else ["-Z"]), fails=True)
    assert ran.status == 2 and ran.err.startswith(f"usage: vuthrel {word} ")
    assert not place.notes.exists()


def test_the_help_has_a_line_for_each_word(place: Place) -> None:
    said = place.run("-h").out
    assert all(f"\n    {word}" in said for word in (*WORDS, "mount", "umount", "serve"))


def test_an_older_name_calls_itself_so(place: Place) -> None:
    ran = place.run("info", "nosuch", fails=True, VUTHREL_CALLED_AS="geli-info.sh")
    assert ran.err == "geli-info.sh: there is no file 'nosuch'\n"


def test_make(place: Place) -> None:
    place.make()
    assert sector_of(place).provsize == 1 << 20 and sector_of(place).iterations == 10
    assert place.read("a.img.backup") == place.read("a.img")[-512:]
    assert {place.path(name).stat().st_mode & 0o777 for name in ("a.img", "a.img.backup")} == {0o600}


def test_make_makes_a_key_file(place: Place) -> None:
    place.run("make", "-i", "10", "-J", "pass", "1M", "a.img", "new.key", "a.backup")
    assert len(place.read("new.key")) == 64 and place.path("new.key").stat().st_mode & 0o777 == 0o600


@pytest.mark.parametrize("words, said", [
    (("1M", "key", "new", "b"), "is there already"), (("1M", "a", "k", "k"), "are one file"),
    (("1M", "q", "q", "b"), "are one file"), (("1MB", "a", "key", "b"), "no number of bytes"),
    (("60K", "a", "key", "b"), "65536 at least"), (("65K", "a", "key", "b"), "multiple of 4096"),
    (("1M", "behind:a", "key", "b"), "asks for a layer"), (("1M", "a\n", "key", "b"), "ends in a newline"),
    (("1M", "a", "link", "b"), "can't be made"), (("1M", "a", "empty", "b"), "is empty"),
    (("1M", "a", "key", os.fsdecode(b"caf\xe9")), "no UTF-8"), (("1M", "a", "no/key", "b"), "can't be made")])
def test_make_refuses(place: Place, words: tuple[str, ...], said: str) -> None:
    place.path("link").symlink_to("elsewhere")
    place.write("empty", b"")
    before = sorted(os.listdir(place.folder))
    assert said in place.run("make", "-i", "10", "-J", "pass", *words, fails=True).err
    assert sorted({*os.listdir(place.folder)} - {"notes"}) == before and not place.path("elsewhere").exists()


def test_make_says_what_is_half_made(place: Place) -> None:
    place.write("fails", b"#!/bin/sh\n[ $1 != init ] || exit 9\nexec \"$REAL\" \"$@\"\n")
    place.path("fails").chmod(0o700)
    ran = place.run("make", "-i", "10", "-J", "pass", "1M", "a.img", "key", "b", fails=True, REAL=place.env["GELI"],
                    GELI=str(place.path("fails")))
    assert "geli ended without a reply" in ran.err and "'./a.img' is only half made. Remove it" in ran.err


def test_make_authenticated_writes_every_sector(place: Place) -> None:
    place.make("c.img", size="256K", tagged=True)
    assert sector_of(place, "c.img").is_tagged
    assert "56 of 56 sectors" in place.run("scrub", *KEY, "c.img", "place").out


def test_make_over_a_disk_asks(place: Place) -> None:
    place.write("disk", b"something" * 20000)
    before = place.read("disk")
    words = ("make", "-d", "-i", "10", "-J", "pass", "disk", "key", "b")
    assert "no terminal" in place.run(*words, fails=True).err
    assert "the names differ" in place.typed([b"other\n"], *words).out
    assert place.read("disk") == before and not place.path("b").exists()
    assert place.typed([b"disk\n"], *words).status == 0
    assert not place.read("disk")[:65536].strip(b"\0") and sector_of(place, "disk")


def test_a_typed_passphrase(provider: Place) -> None:
    ran = provider.typed([b"a passphrase\n"], "check", "-k", "key", "a.img")
    assert ran.status == 0 and "a passphrase" not in ran.out.replace("passphrase:", "")
    assert "255 sectors of 4096 bytes, 0 of them unreadable" in ran.out


def test_three_tries_for_a_typed_passphrase(provider: Place) -> None:
    right = provider.typed([b"x\n", b"y\n", b"a passphrase\n"], "check", "-k", "key", "a.img")
    assert right.status == 0 and right.out.count("again\r\n") == 2
    wrong = provider.typed([b"x\n", b"y\n", b"z\n", b"a passphrase\n"], "check", "-k", "key", "a.img")
    assert wrong.status == 1 and wrong.out.count("passphrase:") == 3


def test_an_interrupt_at_the_prompt(place: Place) -> None:
    ran = place.typed([b"\x03"], "make", "1M", "a.img", "key", "b")
    assert ran.status == 130 and not place.path("a.img").exists()


@pytest.mark.parametrize("answers, said", [([b"\n"], "is empty"), ([b"x\n", b"y\n"], "the two differ")])
def test_a_new_passphrase_that_is_refused(place: Place, answers: list[bytes], said: str) -> None:
    ran = place.typed(answers, "make", "1M", "a.img", "new.key", "b")
    assert ran.status == 1 and said in ran.out
    assert not place.path("a.img").exists() and not place.path("new.key").exists()


def test_without_a_terminal_nobody_is_asked(provider: Place) -> None:
    assert "no terminal to ask for the passphrase" in provider.run("check", "-k", "key", "a.img", fails=True).err


def test_a_passphrase_by_a_pipe(provider: Place) -> None:
    assert provider.run("check", "-k", "key", "-j", "/dev/stdin", "a.img", stdin=b"a passphrase\n").status == 0


@pytest.mark.parametrize("name, said", [("-", "/dev/stdin"), ("/dev/zero", "more than 1 MiB"), ("nosuch", "no file"),
                                        ("x\n", "ends in a newline")])
def test_key_files_that_are_refused(provider: Place, name: str, said: str) -> None:
    assert said in provider.run("info", "-k", name, "a.img", fails=True).err


def test_a_file_that_everybody_may_use_is_told(provider: Place) -> None:
    provider.path("pass").chmod(0o644)
    assert "everybody may use the file 'pass'" in provider.run("info", *KEY, "a.img").err


def test_info(provider: Place) -> None:
    facts = json.loads(provider.run("info", "--json", *KEY, "a.img").out)
    assert (facts["cipher"], facts["sectors"], facts["slots_with_keys"], facts["key_opens_slot"]) == \
        ("AES-XTS", 255, [0], 0)
    assert "this key: opens slot 0\n" in provider.run("info", *KEY, "a.img").out
    ran = provider.run("info", "-k", "key", "a.img", fails=True)
    assert ran.out.endswith("doesn't open it (-j names the passphrase's file)\n")


def test_info_of_a_backup(provider: Place) -> None:
    assert "a.img.backup: a backup of the metadata of a provider" in provider.run("info", *KEY, "a.img.backup").out


def test_info_of_what_is_not_served(provider: Place) -> None:
    changed(provider, ealgo=2)
    ran = provider.run("info", "changed.img", fails=True)
    assert "served here: no, error 9" in ran.out and "cipher: 3DES-CBC" in ran.out


def test_info_of_a_longer_image(provider: Place) -> None:
    provider.write("longer", provider.read("a.img") + bytes(4096))
    ran = provider.run("info", "longer", fails=True)
    assert "it has 1052672 bytes, and metadata of a provider of 1048576 bytes end at its byte 1048576" in ran.err


def test_info_of_a_packed_image(place: Place) -> None:
    place.write("packed", gzip.compress(bytes(2000)) + bytes(2000))
    assert "it begins as a gzip file does" in place.run("info", "packed", fails=True).err


def test_names_with_control_characters(provider: Place) -> None:
    name = "\x1b]0;x\x07.img"
    provider.write(name, provider.read("a.img"))
    assert "\x1b" not in provider.run("info", name).said
    assert "\x1b" not in provider.run("info", f"none{name}", fails=True).said


@pytest.mark.parametrize("name", ["b l\tank #1.img", os.fsdecode(b"caf\xe9.img"), "-k"])
def test_odd_names(provider: Place, name: str) -> None:
    os.rename(provider.path("a.img"), provider.path(name))
    provider.write("source", b"data" * 3000)
    provider.run("write-image", "-c", *KEY, "source", "--", name)
    provider.run("read-image", "-b", "12000", *KEY, "--", name, "target")
    assert provider.read("target") == provider.read("source")


def test_copies_have_holes_where_there_are_zeros(provider: Place) -> None:
    data = os.urandom(131072) + bytes(524288) + os.urandom(1000)
    provider.write("source", data)
    assert "vuthrel read-image -b" in provider.run("write-image", "-c", *KEY, "source", "a.img").err
    provider.run("read-image", "-b", str(len(data)), *KEY, "a.img", "target")
    assert provider.read("target") == data
    assert provider.path("target").stat().st_blocks * 512 < len(data) - 262144


def test_a_copy_over_data_asks(provider: Place) -> None:
    provider.write("source", b"data")
    provider.run("write-image", *KEY, "source", "a.img")
    before = provider.read("a.img")
    ran = provider.run("write-image", *KEY, "pass", "a.img", fails=True)
    assert "there is something in it" in ran.err and "no terminal" in ran.err
    assert provider.read("a.img") == before
    assert provider.typed([b"a.img\n"], "write-image", *KEY, "pass", "a.img").status == 0
    provider.run("write-image", "-f", *KEY, "source", "a.img")


def test_a_copy_that_is_too_long(provider: Place) -> None:
    provider.write("long", bytes(1 << 20))
    before = provider.read("a.img")
    assert "nothing was written" in provider.run("write-image", *KEY, "long", "a.img", fails=True).err
    assert provider.read("a.img") == before


def test_a_copy_out_that_stops(place: Place) -> None:
    place.make("c.img", size="256K", tagged=True)
    with open(place.path("c.img"), "r+b") as file:
        file.seek(4096 * 40)
        file.write(b"damaged")
    ran = place.run("read-image", *KEY, "c.img", "target", fails=True)
    assert "error 25 Integrity" in ran.err and "target.part has the" in ran.err and not place.path("target").exists()
    assert "is there already" in place.run("read-image", *KEY, "c.img", "target", fails=True).err


def test_check_and_scrub_find_what_cannot_be_read(place: Place) -> None:
    place.make("c.img", size="256K", tagged=True)
    with open(place.path("c.img"), "r+b") as file:
        for sector in 0, 7, 8, 40:
            file.seek(4096 * sector)
            file.write(b"damaged")
    before = place.read("c.img")
    for words in ("check", *KEY, "c.img"), ("scrub", *KEY, "c.img", "place"):
        ran = place.run(*words, fails=True)
        found = [row for row in ran.out.splitlines() if row.startswith("unreadable")]
        assert ran.status == 1
        assert found == ["unreadable: sector 0", "unreadable: sectors 7 to 8", "unreadable: sector 40"]
    assert place.read("c.img") == before
    place.write("place", (40).to_bytes(8, "little"))
    assert "16 of 56 sectors were looked at, from sector 40 on, 1 of" in place.run("scrub", *KEY, "c.img", "place",
                                                                                 fails=True).out


def test_scrub_s_statuses(provider: Place) -> None:
    assert provider.run("scrub", *KEY, "a.img", "place", fails=True).status == 3
    assert provider.run("scrub", "-m", "x", *KEY, "a.img", "place", fails=True).status == 3
    assert provider.run("scrub", "a.img", fails=True).status == 2


def test_check_tells_damaged_metadata(provider: Place) -> None:
    provider.write("a.img", provider.read("a.img")[:-400] + bytes(400))
    ran = provider.run("check", *KEY, "a.img", fails=True)
    assert ran.out.startswith("metadata: error 5") and "geli restore BACKUP a.img" in ran.out


def test_passwd(provider: Place) -> None:
    provider.write("new", b"another\n")
    provider.run("passwd", *KEY, "-J", "new", "a.img", "new.backup")
    assert sector_of(provider).slots == [1] and provider.read("new.backup") == provider.read("a.img")[-512:]
    provider.run("info", "-k", "key", "-j", "new", "a.img")
    provider.run("info", *KEY, "a.img", fails=True)
    before = provider.read("a.img")
    assert "left alone" in provider.run("passwd", "-k", "key", "-j", "new", "-J", "pass", "a.img", "new.backup",
                                        fails=True).err
    assert "the old key: error 15" in provider.run("passwd", *KEY, "-J", "new", "a.img", "b", fails=True).err
    assert provider.read("a.img") == before


def test_passwd_typed(provider: Place) -> None:
    ran = provider.typed([b"wrong\n", b"a passphrase\n", b"next\n", b"next\n"], "passwd", "-k", "key", "a.img", "b")
    assert ran.status == 0
    provider.run("check", "-k", "key", "-j", "/dev/stdin", "a.img", stdin=b"next\n")


@pytest.mark.parametrize("size", ["2M", "+1M"])
def test_grow(provider: Place, size: str) -> None:
    provider.run("grow", *KEY, size, "a.img", "grown.backup")
    assert sector_of(provider).provsize == 2 << 20 == len(provider.read("a.img"))
    assert provider.read("grown.backup") == provider.read("a.img")[-512:]


def test_grow_under_a_wrong_key(provider: Place) -> None:
    before = provider.read("a.img")
    ran = provider.run("grow", "-k", "key", "-j", "key", "2M", "a.img", "b", fails=True)
    assert "nothing was changed: error 15" in ran.err and provider.read("a.img") == before


def test_grow_goes_on(provider: Place) -> None:
    with open(provider.path("a.img"), "r+b") as file:
        file.truncate(2 << 20)
    ran = provider.run("grow", "-s", "512K", *KEY, "2M", "a.img", "b", fails=True)
    assert "is 524288 the length that the provider had before?" in ran.err and "truncate" not in ran.err
    provider.run("grow", "-s", "1M", *KEY, "2M", "a.img", "b")
    assert sector_of(provider).provsize == 2 << 20


def test_grow_of_one_that_is_held(provider: Place) -> None:
    with subprocess.Popen(["flock", str(provider.path("a.img")), "sleep", "60"]) as holder:
        while provider.run("grow", "-s", "1M", *KEY, "1M", "a.img", "held.backup").status or \
                subprocess.run(["flock", "-n", str(provider.path("a.img")), "true"], check=False).returncode == 0:
            provider.path("held.backup").unlink()
            time.sleep(0.05)
        ran = provider.run("grow", *KEY, "2M", "a.img", "b", fails=True)
        holder.terminate()
    assert "nothing was changed: another program holds" in ran.err
    assert len(provider.read("a.img")) == 1 << 20


def test_backup_and_restore(provider: Place) -> None:
    provider.run("backup", "a.img", "b1")
    assert "left alone" in provider.run("backup", "a.img", "b1", fails=True).err
    provider.run("passwd", *KEY, "-J", "pass", "a.img", "b2")
    assert "no terminal" in provider.run("restore", "b1", "a.img", "old", fails=True).err
    assert not provider.path("old").exists() and sector_of(provider).slots == [1]
    ran = provider.run("restore", "-y", *KEY, "b1", "a.img", "old")
    assert "both are of one provider" in ran.err
    assert sector_of(provider).slots == [0] and provider.read("old") == provider.read("b2")


def test_restore_of_another_provider_s(provider: Place) -> None:
    provider.make("b.img")
    before = provider.read("a.img")
    ran = provider.run("restore", "-y", "b.img.backup", "a.img", "old", fails=True)
    assert "they are of two providers" in ran.err and provider.read("a.img") == before
    assert provider.typed([b"a.img\n"], "restore", "b.img.backup", "a.img", "old").status == 0
    assert provider.read("old") == before[-512:]


@pytest.mark.parametrize("at, said", [(0, "is no backup"), (60, "no sound backup")])
def test_restore_of_no_backup(provider: Place, at: int, said: str) -> None:
    data = bytearray(provider.read("a.img.backup"))
    data[at] ^= 1
    provider.write("bad", bytes(data))
    before = provider.read("a.img")
    assert said in provider.run("restore", "-y", "bad", "a.img", "old", fails=True).err
    assert provider.read("a.img") == before


def test_destroy(provider: Place) -> None:
    before = provider.read("a.img")
    assert "no terminal" in provider.run("destroy", "a.img", fails=True).err
    assert "the names differ" in provider.typed([b"b.img\n"], "destroy", "a.img").out
    assert provider.read("a.img") == before
    provider.run("destroy", "-y", "a.img")
    assert "error 5" in provider.run("destroy", "-y", "a.img", fails=True).err


def test_explain(place: Place) -> None:
    assert place.run("explain", "error", "15").out.startswith("15 WrongKey: ")
    assert place.run("explain", "error", "WrongKey").out.startswith("15 WrongKey: ")
    assert place.run("explain", "error", "49", fails=True).status == 1
    assert "vuthrel info" in place.run("explain", "status", fails=True).out
    assert "nothing is wrong" in place.run("explain", "kill", "a.img").out
    assert "These are: attach backup" in place.run("explain", "foo", fails=True).out


def test_a_program_that_does_not_run(place: Place) -> None:
    assert "doesn't run" in place.run("make", "1M", "a", "new", "b", fails=True, GELI="/bin/false").err
    assert "isn't there (GELI names" in place.run("make", "1M", "a", "new", "b", fails=True, GELI="nosuch").err
    assert not place.path("new").exists()


def test_nothing_is_left_in_memory(provider: Place) -> None:
    memory = provider.path("memory")
    memory.mkdir()
    os.rename(provider.path("a.img"), provider.path("a b"))
    for words in ("check", *KEY, "a b"), ("check", "-k", "key", "-j", "key", "a b"):
        provider.run(*words, fails="pass" not in words, XDG_RUNTIME_DIR=str(memory))
    assert not os.listdir(memory)


def waiting(place: Place, verb: str, *words: str, stdin: bytes = b"") -> tuple[bytes, list[str]]:
    """The memory of the command while geli waits at a verb, and its limits of a core."""
    place.write("waits", b"#!/bin/sh\n[ $1 != $AT ] || { : >reached; exec sleep 20; }\nexec \"$REAL\" \"$@\"\n")
    place.path("waits").chmod(0o700)
    env = {**place.env, "GELI": str(place.path("waits")), "REAL": place.env["GELI"], "AT": verb}
    with subprocess.Popen([COMMAND, *words], cwd=place.folder, env=env, stdin=subprocess.PIPE,
                          start_new_session=True) as process:
        assert process.stdin
        process.stdin.write(stdin)
        process.stdin.close()
        while not place.path("reached").exists():
            time.sleep(0.05)
        held = memory_of(process.pid)
        limits = Path(f"/proc/{process.pid}/limits").read_text(encoding="ascii")
        os.killpg(process.pid, signal.SIGKILL)
    return held, next(row.split()[4:6] for row in limits.splitlines() if "core file" in row)


def memory_of(process: int) -> bytes:
    """All that a process can write to."""
    found = b""
    with open(f"/proc/{process}/maps", encoding="utf-8") as rows, open(f"/proc/{process}/mem", "rb", 0) as memory:
        for row in rows:
            place, rights = row.split(" ")[:2]
            first, end = (int(digits, 16) for digits in place.split("-"))
            if rights.startswith("rw"):
                found += os.pread(memory.fileno(), end - first, first)
    return found


def test_a_passphrase_is_not_in_the_memory_of_the_command(provider: Place) -> None:
    secret = b"secret words of more than 32 bytes"
    held, cores = waiting(provider, "script", "check", "-k", "key", "-j", "/dev/stdin", "a.img", stdin=secret + b"\n")
    assert secret not in held and b"/dev/stdin" in held and cores == ["0", "0"]


def test_a_new_key_is_not_in_the_memory_of_the_command(place: Place) -> None:
    place.write("pass", b"secret words of more than 32 bytes\n")
    held, _ = waiting(place, "init", "make", "-i", "10", "-J", "pass", "1M", "a.img", "new.key", "b")
    key = place.read("new.key")
    assert len(key) == 64 and b"new.key" in held
    assert not any(key[at:at + 16] in held for at in range(0, 64, 16))
    assert b"secret words" not in held


def test_a_signal_lets_the_command_of_geli_end(provider: Place) -> None:
    provider.write("slow", b"#!/bin/sh\n[ $1 != setkey ] || { touch reached; sleep 1; }\nexec \"$REAL\" \"$@\"\n")
    provider.path("slow").chmod(0o700)
    env = {**provider.env, "GELI": str(provider.path("slow")), "REAL": provider.env["GELI"]}
    with subprocess.Popen([COMMAND, "passwd", *KEY, "-J", "pass", "a.img", "b"], cwd=provider.folder, env=env,
                          stderr=subprocess.PIPE) as process:
        while not provider.path("reached").exists():
            time.sleep(0.05)
        process.terminate()
        assert process.stderr and b"broken off" in process.stderr.read()
    assert process.returncode == 130 and sector_of(provider).slots == [0, 1]


@pytest.mark.parametrize("words, called", [
    (("mount", "-m", "a b", "files"), "vuthrel mount|-m|a b|files"), (("mount", "-h"), "vuthrel mount|-h"),
    (("umount", "-f", "files"), "vuthrel mount|-u|-f|files"), (("umount", "-h"), "vuthrel mount|-h"),
    (("serve", "-e", "sock"), "vuthrel serve|-e|sock")])
def test_words_that_a_script_does(place: Place, words: tuple[str, ...], called: str) -> None:
    script = b"""#!/bin/bash\nIFS='|'\nprintf '%s\\n' "$GELI_CALLED_AS|$*" "$GELI"\n"""
    for name in "mount-provider.sh", "serve-nbd.sh":
        place.write(name, script)
    said = place.run(*words, VUTHREL_SCRIPTS=str(place.folder)).out.splitlines()
    assert said == [called, place.env["GELI"]]


def test_the_launcher_finds_the_package_and_the_programs(place: Place) -> None:
    ran = subprocess.run([COMMAND, "explain", "status"], cwd=place.folder, env=place.env, capture_output=True,
                         check=False)
    assert ran.returncode == 1 and ran.stdout.startswith(b"status: nothing stays attached")
    place.path("bin").mkdir()
    place.path("share/geli").mkdir(parents=True)
    place.path("share/geli/vuthrel").symlink_to(Path(COMMAND).parent / "kit/vuthrel")
    place.write("bin/vuthrel", Path(COMMAND).read_bytes())
    place.write("bin/geli", b"#!/bin/sh\necho \"$0\" >>called\n")
    for name in "bin/vuthrel", "bin/geli":
        place.path(name).chmod(0o700)
    subprocess.run([str(place.path("bin/vuthrel")), "explain", "status"], cwd=place.folder,
                   env={"PATH": os.environ["PATH"]}, capture_output=True, check=False)
    assert place.read("called").decode().strip() == str(place.path("bin/geli"))

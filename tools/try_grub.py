#!/usr/bin/env python3
"""Providers that the program makes are opened and read by GRUB, which has a reader of GELI of its own.

    tools/try_grub.py [-l] [PROGRAM]      without a word: the program that ./geli runs

It needs grub-fstest (Debian: grub-common), mkfs.fat (dosfstools) and mcopy (mtools). Each provider gets a FAT filesystem
with a file in it by examples/copy-in.sh, and GRUB computes the file's checksum, once of the plain filesystem and once
out of the provider. A line says one provider; the status is 1 where two checksums differ. With -l also a provider of
541 MiB, whose file lies behind sector 2^20 and so under its second key by offset. Outside the gate.

GRUB takes a passphrase and no key files, and no HMAC; of two keys that are set GRUB 2.06 opens the first alone. The
program makes providers of version 7: one of version 5 or 6 is made here, by another number in metadata that the program
made, and filled by the program.
"""
import argparse
import hashlib
import os
import pty
import select
import shutil
import subprocess
import sys
import tempfile
import time

TOP = os.path.join(os.path.dirname(os.path.realpath(__file__)), "..")
PASSPHRASE = "a passphrase"
OTHER = "another one"
# Cipher, bits of the key, bytes of a sector.
PROVIDERS = [("AES-XTS", 128, 512), ("AES-XTS", 128, 4096), ("AES-XTS", 256, 512), ("AES-XTS", 256, 4096),
             ("AES-CBC", 128, 512), ("AES-CBC", 192, 4096), ("AES-CBC", 256, 1024), ("AES-CBC", 256, 4096)]


def call(*words):
    subprocess.run(words, check=True, stdout=subprocess.DEVNULL, stderr=subprocess.DEVNULL)


def checksum(image, name, passphrase, *options):
    """The checksum that GRUB computes of a file; the passphrase is typed where it asks for one."""
    child, terminal = pty.fork()
    if child == 0:
        os.execvp("grub-fstest", ["grub-fstest", *options, os.path.realpath(image), "crc", name])
    text, end, typed = b"", time.time() + 120, False
    while time.time() < end:
        if not select.select([terminal], [], [], 1)[0]:
            continue
        try:
            text += os.read(terminal, 4096)
        except OSError:
            break
        if text.rstrip().endswith(b"):") and not typed:
            typed = True
            time.sleep(0.2)
            os.write(terminal, passphrase.encode() + b"\n")
    os.waitpid(child, 0)
    lines = text.decode(errors="replace").split()
    return lines[-1] if lines else ""


def make_filesystem(size):
    """fat.img of so many MiB with a file in it, behind all else where it is large."""
    call("truncate", "-s", f"{size}M", "fat.img")
    call("mkfs.fat", "-F", "32", "fat.img")
    if size > 512:
        call("truncate", "-s", f"{size - 15}M", "filler")
        call("mcopy", "-i", "fat.img", "filler", "::filler")
        os.remove("filler")
    call("mcopy", "-i", "fat.img", "file", "::file")


def make_provider(geli, cipher, bits, width, size):
    call("truncate", "-s", f"{size}M", "a.img")
    call(geli, "init", "-e", cipher, "-l", str(bits), "-s", str(width), "-i", "1000", "-J", "pass", "a.img")


def set_version(image, version):
    """Writes another version into the metadata, and their hash anew.

    By g_eli.h the version stands behind the 16 bytes of the magic, and the hash is the MD5 of what stands before it.
    """
    with open(image, "r+b") as file:
        file.seek(-512, os.SEEK_END)
        metadata = bytearray(file.read(512))
        end = 511 - 16
        assert hashlib.md5(metadata[:end]).digest() == metadata[end:end + 16], "the hash isn't where it should be"
        metadata[16:20] = version.to_bytes(4, "little")
        metadata[end:end + 16] = hashlib.md5(metadata[:end]).digest()
        file.seek(-512, os.SEEK_END)
        file.write(metadata)


def fill(geli, passfile="pass"):
    copy_in = os.path.join(TOP, "examples", "copy-in.sh")
    subprocess.run([copy_in, "-f", "-j", passfile, "fat.img", "a.img"], check=True, stderr=subprocess.DEVNULL,
                   env={**os.environ, "GELI": geli})


def says(what, holds):
    print(f"{'holds' if holds else 'FAILS'}: {what}", flush=True)
    return holds


def both(passphrase):
    """The file's checksum out of fat.img and out of the provider."""
    plain = checksum("fat.img", "(loop0)/file", passphrase)
    assert len(plain) == 8, "GRUB doesn't read the plain filesystem"
    return plain, checksum("a.img", "(crypto0)/file", passphrase, "-C")


def is_read(what, passphrase=PASSPHRASE):
    plain, got = both(passphrase)
    return says(f"{what}: {got}", got == plain)


def is_refused(what, passphrase):
    plain, got = both(passphrase)
    return says(f"{what}: not opened", got != plain)


def trials(geli, is_long):
    make_filesystem(39)
    for cipher, bits, width in PROVIDERS:
        make_provider(geli, cipher, bits, width, 40)
        fill(geli)
        yield is_read(f"{cipher}, {bits} bits, sectors of {width}")
    for version in (5, 6):
        for cipher in ("AES-XTS", "AES-CBC"):
            make_provider(geli, cipher, 256, 4096, 40)
            set_version("a.img", version)
            fill(geli)
            yield is_read(f"version {version}, {cipher}")
    make_provider(geli, "AES-XTS", 256, 4096, 40)
    fill(geli)
    call(geli, "setkey", "-n", "1", "-j", "pass", "-J", "other", "a.img")
    yield is_read("two keys, by the first")
    call(geli, "delkey", "-n", "0", "a.img")
    yield is_read("the first one deleted, by the second", OTHER)
    yield is_refused("by the deleted one", PASSPHRASE)
    size = os.path.getsize("a.img")
    call("truncate", "-s", "64M", "a.img")
    call(geli, "resize", "-s", str(size), "a.img")
    yield is_read("metadata moved to the end of a longer image", OTHER)
    call(geli, "backup", "a.img", "kept")
    call(geli, "kill", "a.img")
    yield is_refused("metadata destroyed", OTHER)
    call(geli, "restore", "kept", "a.img")
    yield is_read("metadata restored", OTHER)
    os.remove("a.img")
    if is_long:
        make_filesystem(540)
        make_provider(geli, "AES-XTS", 256, 512, 541)
        fill(geli)
        yield is_read("a file behind sector 2^20, under the second key by offset")


def main():
    parser = argparse.ArgumentParser(description=__doc__.splitlines()[0])
    parser.add_argument("-l", dest="is_long", action="store_true", help="also a provider of 541 MiB")
    parser.add_argument("program", nargs="?", default=os.path.join(TOP, "geli"))
    given = parser.parse_args()
    for program in ("grub-fstest", "mkfs.fat", "mcopy"):
        if not shutil.which(program):
            sys.exit(f"try_grub.py: {program} isn't there")
    geli = os.path.realpath(given.program)
    with tempfile.TemporaryDirectory() as folder:
        os.chdir(folder)
        with open("pass", "w") as file:
            file.write(PASSPHRASE + "\n")
        with open("other", "w") as file:
            file.write(OTHER + "\n")
        with open("file", "wb") as file:
            file.write(os.urandom(7_000_001))
        sys.exit(0 if all(list(trials(geli, given.is_long))) else 1)


main()

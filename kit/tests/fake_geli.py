#!/usr/bin/env -S python3 -I -S
"""A fake of geli for fast tests: metadata are real, keys are HMACs, and sectors are kept as they are written.

It knows what the words of `vuthrel` need of it, and refuses as geli does: by numbers. Each call is noted in the file
that FAKE_NOTES names. In an authenticated provider a sector that begins with `damaged` can't be read.
"""
from __future__ import annotations

import os
import pathlib
import sys
from collections.abc import Callable
from dataclasses import replace

sys.path.insert(0, str(pathlib.Path(__file__).resolve().parent.parent))
from vuthrel.metadata import AUTH, Metadata, hmac512  # noqa: E402  # pylint: disable=wrong-import-position

SLOT = 192  # bytes of a wrapped key


class Refused(Exception):
    """A reply that refuses."""


def options(words: list[str], alone: str) -> tuple[dict[str, list[str]], list[str]]:
    """The values of each option, and the operands."""
    found: dict[str, list[str]] = {}
    at = 0
    while at < len(words) and words[at].startswith("-") and len(words[at]) == 2:
        letter = words[at][1]
        if letter in alone:
            found.setdefault(letter, []).append("")
            at += 1
        else:
            if at + 1 == len(words):
                raise Refused(f"error 1 Usage {at + 2} MissingValue")
            found.setdefault(letter, []).append(words[at + 1])
            at += 2
    return found, words[at:]


def metadata(image: str) -> Metadata:
    try:
        with open(image, "rb") as file:
            file.seek(-512, os.SEEK_END)
            found = Metadata.of_sector(file.read(512))
    except OSError:
        raise Refused("error 35 TooSmall 0") from None
    if not found:
        raise Refused("error 5 BadMagic")
    return found


def put(image: str, it: Metadata) -> None:
    with open(image, "r+b") as file:
        file.seek(-512, os.SEEK_END)
        file.write(it.sector())


def key(found: dict[str, list[str]], letters: str) -> bytes:
    """A key, of the files and the first line of the passphrase, as a wrapped one."""
    files = b"".join(pathlib.Path(name).read_bytes() for name in found.get(letters[0], []))
    line = b"".join(pathlib.Path(name).read_bytes().split(b"\n")[0] for name in found.get(letters[1], []))
    return hmac512(b"", files + b"/" + line) * 3


def slot_of(it: Metadata, found: dict[str, list[str]]) -> int:
    if it.ealgo not in (11, 22):
        raise Refused(f"error 9 UnsupportedCipher {it.ealgo}")
    wanted = [int(found["n"][0])] if "n" in found else [0, 1]
    if "n" in found and wanted[0] not in it.slots:
        raise Refused(f"error 19 KeyNotSet {wanted[0]}")
    for slot in wanted:
        if slot in it.slots and it.mkeys[SLOT * slot:SLOT * (slot + 1)] == key(found, "kj"):
            return slot
    raise Refused("error 15 WrongKey")


def with_slot(it: Metadata, slot: int, wrapped: bytes | None) -> Metadata:
    slots = [it.mkeys[:SLOT], it.mkeys[SLOT:]]
    slots[slot] = wrapped or bytes(SLOT)
    keys = it.keys | 1 << slot if wrapped else it.keys & ~(1 << slot)
    return replace(it, mkeys=b"".join(slots), keys=keys)


def dump(image: str) -> None:
    it = metadata(image)
    for name in "version flags ealgo keylen aalgo provsize sectorsize keys iterations".split():
        value = getattr(it, name)
        print(f"{name}: {value:#x}" if name in ("flags", "keys") else f"{name}: {value}")
    print(f"salt: {it.salt.hex()}\nmkeys: {it.mkeys.hex()}")


def init(words: list[str]) -> None:
    found, (image,) = options(words, "P")
    size = os.path.getsize(image)
    flags = 0x200 | (AUTH if "a" in found else 0)
    it = Metadata(7, flags, 22, 256, 18, size, int(found.get("s", ["4096"])[0]), 0, int(found.get("i", ["-1"])[0]),
                  os.urandom(64), bytes(2 * SLOT))
    put(image, with_slot(it, 0, key(found, "KJ")))
    for name in found.get("B", []):
        backup([image, name])


def backup(words: list[str]) -> None:
    image, name = words
    with open(name, "wb") as file:
        file.write(metadata(image).sector())


def restore(words: list[str]) -> None:
    found, (name, image) = options(words, "f")
    it = Metadata.of_sector(pathlib.Path(name).read_bytes())
    if not it:
        raise Refused("error 5 BadMagic")
    if it.provsize != os.path.getsize(image) and "f" not in found:
        raise Refused(f"error 8 BadSize {it.provsize} {os.path.getsize(image)}")
    put(image, it)


def setkey(words: list[str]) -> None:
    found, (image,) = options(words, "pP")
    it = metadata(image)
    slot_of(it, {letter: values for letter, values in found.items() if letter != "n"})
    put(image, with_slot(it, int(found["n"][0]), key(found, "KJ")))


def resize(words: list[str]) -> None:
    found, (image,) = options(words, "")
    old, size = int(found["s"][0]), os.path.getsize(image)
    with open(image, "r+b") as file:
        file.seek(old - 512)
        it = Metadata.of_sector(file.read(512))
        if not it:
            raise Refused("error 5 BadMagic")
        file.seek(old - 512)
        file.write(bytes(512))
    put(image, replace(it, provsize=size))


class Script:
    """The lines of `geli script` over one image."""

    def __init__(self, image: str) -> None:
        self.image = image
        self.it: Metadata | None = None

    def place(self, sector: int) -> int:
        assert self.it
        return sector * self.it.sectorsize

    def line(self, words: list[str]) -> str:
        if words[0] not in ("attach", "dump", "list", "read", "write", "flush", "detach", "verify"):
            raise Refused("error 1 Usage 0 UnknownVerb" if words[0] not in COMMANDS else "error 2 UnknownProvider")
        return str(getattr(self, f"do_{words[0]}")(words[1:]))

    def do_attach(self, words: list[str]) -> str:
        found, _ = options(words, "rp")
        it = metadata(self.image)
        slot_of(it, found)
        self.it = it
        return "ok"

    def do_dump(self, _words: list[str]) -> str:
        dump(self.image)
        return "ok"

    def do_list(self, _words: list[str]) -> str:
        assert self.it
        print(f"{self.image} attached {self.it.sectorsize} {self.it.sectors}")
        return "ok"

    def bytes_of(self, first: int, count: int) -> bytes:
        with open(self.image, "rb") as file:
            file.seek(self.place(first))
            return file.read(self.place(count))

    def is_damaged(self, sector: int) -> bool:
        assert self.it
        return self.it.is_tagged and self.bytes_of(sector, 1).startswith(b"damaged")

    def do_read(self, words: list[str]) -> str:
        first, count = map(int, words[1:])
        for sector in range(first, first + count):
            if self.is_damaged(sector):
                raise Refused(f"error 25 Integrity {self.place(sector)}")
        return f"ok {self.bytes_of(first, count).hex()}"

    def do_write(self, words: list[str]) -> str:
        with open(self.image, "r+b") as file:
            file.seek(self.place(int(words[1])))
            file.write(bytes.fromhex(words[2]))
        return "ok"

    def do_flush(self, _words: list[str]) -> str:
        return "ok"

    def do_detach(self, _words: list[str]) -> str:
        self.it = None
        return "ok"

    def do_verify(self, words: list[str]) -> str:
        found, (_, place, _) = options(words, "r")
        assert self.it
        if not self.it.is_tagged:
            raise Refused("error 47 NotAuthenticated")
        path, first = pathlib.Path(place), 0
        if path.exists() and "r" not in found:
            first = int.from_bytes(path.read_bytes(), "little")
        first = 0 if first == self.it.sectors else first
        end = min(first + 16, self.it.sectors)
        for sector in range(first, end):
            if self.is_damaged(sector):
                print(f"damaged {sector * self.it.units * 512}")
        path.write_bytes(end.to_bytes(8, "little"))
        return f"ok {end}"

    def run(self) -> None:
        for line in sys.stdin:
            try:
                print(self.line(line.split()))
            except Refused as refused:
                print(refused)
            sys.stdout.flush()


def attach(words: list[str]) -> None:
    found, (image,) = options(words, "Cp")
    slot_of(metadata(image), found)


def delkey(words: list[str]) -> None:
    found, (image,) = options(words, "")
    put(image, with_slot(metadata(image), int(found["n"][0]), None))


def kill(words: list[str]) -> None:
    metadata(words[0])
    with open(words[0], "r+b") as file:
        file.seek(-512, os.SEEK_END)
        file.write(bytes(512))


def dump_of(words: list[str]) -> None:
    dump(words[0])


def nothing(_words: list[str]) -> None:
    """No image stays attached."""


COMMANDS: dict[str, Callable[[list[str]], None]] = {
    "init": init, "attach": attach, "setkey": setkey, "delkey": delkey, "backup": backup, "restore": restore,
    "resize": resize, "kill": kill, "dump": dump_of, "list": nothing,
}


def main() -> int:
    verb, *words = sys.argv[1:]
    if "FAKE_NOTES" in os.environ:
        with open(os.environ["FAKE_NOTES"], "a", encoding="utf-8") as notes:
            print(verb, *words, file=notes)
    if verb == "script":
        Script(words[0]).run()
        return 0
    try:
        COMMANDS[verb](words)
        print("ok")
        return 0
    except Refused as refused:
        print(refused)
        return 1


if __name__ == "__main__":
    sys.exit(main())

"""The word `info`: what a provider is, or what a file is that has none at its end."""
from __future__ import annotations

import argparse
import json
import os
import subprocess
from collections.abc import Iterator
from dataclasses import dataclass

from .image import Image, Trial, is_backup, kind_of
from .keys import Key, key_of
from .metadata import SECTOR, Metadata
from .program import WRONG_KEY, need
from .text import Failed, called_as, note, say, size_in_words

NEAR = 1 << 20  # bytes at the end in which metadata are looked for that aren't at the very end
ELSEWHERE = (5, 7, 35)  # refusals of a file behind which something else may be
# What an image may be packed in, which blkid(8) doesn't know.
PACKED = {b"PK\3\4": "a zip archive", b"\x1f\x8b": "a gzip file", b"\xfd7zXZ\0": "an xz file",
          b"\x28\xb5\x2f\xfd": "a zstd file", b"BZh": "a bzip2 file"}


def partitions(name: str) -> Iterator[tuple[int, int, int]]:
    """The partitions of a table: of each its number, its first byte, and the byte behind its last."""
    try:
        ran = subprocess.run(["sfdisk", "-J", name], stdout=subprocess.PIPE, stderr=subprocess.DEVNULL, check=False)
        table = json.loads(ran.stdout or "{}").get("partitiontable", {})
    except (FileNotFoundError, ValueError):
        return
    width = table.get("sectorsize", SECTOR)
    for at, row in enumerate(table.get("partitions", []), 1):
        digits = row["node"].removeprefix(name).lstrip("p")
        yield int(digits) if digits.isdigit() else at, row["start"] * width, (row["start"] + row["size"]) * width


class Look:
    """A look at a file that doesn't end with metadata. It only reads."""

    def __init__(self, name: str) -> None:
        self.name = name
        self.length = 0

    def before(self, end: int) -> Metadata | None:
        """The metadata in the device sector that ends at a byte, if there are any."""
        if not SECTOR <= end <= self.length:
            return None
        with open(self.name, "rb") as file:
            file.seek(end - SECTOR)
            return Metadata.of_sector(file.read(SECTOR))

    def in_partitions(self) -> Iterator[str]:
        """The partitions that end with metadata."""
        for number, first, end in partitions(self.name):
            if self.before(end):
                yield (f"its partition {number} has a provider: 'mkdir part; nbdfuse part [ nbdkit --exit-with-parent"
                       f" --filter=offset file FILE offset={first} range={end - first} ] &' makes part/nbd, its image")

    def near_the_end(self) -> Iterator[str]:
        """The places near its end, and not at it, at which metadata end."""
        whole = self.length // SECTOR * SECTOR
        for end in range(whole, max(whole - NEAR, 0), -SECTOR):
            found = self.before(end) if end < self.length else None
            if found:
                yield (f"it has {self.length} bytes, and metadata of a provider of {found.provsize} bytes end at its"
                       f" byte {end}")

    def findings(self) -> Iterator[str]:
        with open(self.name, "rb") as file:
            self.length = file.seek(0, os.SEEK_END)
        yield from self.in_partitions()
        yield from self.near_the_end()
        kind = kind_of(self.name)
        if kind:
            yield f"blkid(8) says that it is: {kind}"
        yield from self.packed()

    def packed(self) -> Iterator[str]:
        with open(self.name, "rb") as file:
            first = file.read(max(map(len, PACKED)))
        for mark, what in PACKED.items():
            if first.startswith(mark):
                yield f"it begins as {what} does: an image may be in it"


@dataclass(frozen=True)
class Facts:
    """What is known of a provider."""

    name: str
    is_backup: bool
    refusal: str | None
    metadata: Metadata
    tried: Key | None  # a key that was given
    slot: int | None  # which it opens

    def as_json(self) -> str:
        it = self.metadata
        facts: dict[str, object] = {
            "image": self.name, "is_backup": self.is_backup, "refusal": self.refusal, "version": it.version,
            "cipher": it.cipher, "key_bits": it.keylen, "authentication": it.code, "provider_bytes": it.provsize,
            "sector_bytes": it.sectorsize, "sectors": it.sectors, "data_bytes": it.sectors * it.sectorsize,
            "slots_with_keys": it.slots, "iterations": it.iterations if it.iterations >= 0 else None,
            "flags": it.flag_names,
        }
        if self.tried:
            facts["key_opens_slot"] = self.slot
        return json.dumps(facts, indent=2)

    def lines(self) -> Iterator[str]:
        it, of_what = self.metadata, "a backup of the metadata of " * self.is_backup
        yield f"{self.name}: {of_what}a provider of {size_in_words(it.provsize)}, metadata of version {it.version}"
        if self.refusal:
            yield f"served here: no, {self.refusal}"
        yield f"cipher: {it.cipher}, {it.keylen} bits"
        yield f"authentication: {it.code or 'none, so that changed data read as other data'}"
        yield (f"data: {it.sectors} sectors of {it.sectorsize} bytes,"
               f" {size_in_words(it.sectors * it.sectorsize)}")
        slots = " and ".join(map(str, it.slots))
        yield f"keys: {f'in slot {slots}' if slots else 'none, so that nobody can open it'}"
        yield f"passphrase: {passphrase(it.iterations)}"
        yield f"flags: {', '.join(it.flag_names) or 'none'}"
        if self.tried:
            yield self.told_of_key(self.tried)

    def told_of_key(self, key: Key) -> str:
        given = key.has_passphrase
        what = "this key" if given else "this key file without a passphrase"
        if self.slot is not None:
            return f"{what}: opens slot {self.slot}"
        return f"{what}: doesn't open it" + ("" if given else " (-j names the passphrase's file)")


def passphrase(iterations: int) -> str:
    if iterations < 0:
        return "none was set when it was made"
    if iterations == 0:
        return "without PBKDF2, if there is one"
    return f"through {iterations} iterations of PBKDF2, if there is one"


def subject(name: str) -> tuple[Image, Metadata, bool]:
    """The image to look at, its metadata, and whether that is a trial of a backup."""
    image = Image.of(name)
    image.is_there()
    if not image.is_layer and is_backup(name):
        trial = Trial(name)
        if not trial.metadata:
            raise Failed(f"{name}: a backup of metadata: {trial.reply.told()}")
        return trial.image, trial.metadata, True
    reply = image.ask("dump")
    if not reply.is_served:
        note(f"{called_as()}: {name}: {reply.told(image.files)}")
        for line in Look(image.files[-1]).findings() if reply.number in ELSEWHERE else ():
            note(line)
        raise SystemExit(1)
    return image, Metadata.of_rows(reply.rows), False


def info(args: argparse.Namespace) -> int:
    """Says what a provider is, by its metadata, and whether a key opens it.

    No key is needed, and nothing is asked. A key that is given is tried; -k or -p without -j means a key without a
    passphrase. IMAGE can be a backup of metadata too. Of a file that doesn't end with metadata it says on standard
    error what is known of it: a partition that has a provider, metadata near its end, or what blkid(8) finds.

    Status 0: there is a provider that is served here, and the key that was given opens it.
    """
    key = key_of(args)
    need()
    image, metadata, backup = subject(args.image)
    unserved, slot = image.unserved(), None
    tried = key if key.is_given and not unserved else None
    if tried:
        opener = Key(key.files, key.passfiles, key.bare or not key.passfiles, key.fds)
        slot, reply = opener.slot_of(image)
        if slot is None and reply.number != WRONG_KEY:
            raise Failed(f"{args.image}: {reply.told(image.files)}")
    facts = Facts(args.image, backup, unserved.told(image.files) if unserved else None, metadata, tried, slot)
    if args.json:
        print(facts.as_json())
    else:
        say(*facts.lines())
    return 1 if unserved or (tried and slot is None) else 0

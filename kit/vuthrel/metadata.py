"""The metadata of a provider: the sector that has them, what `geli dump` prints of it, and keys by g_eli.h."""
from __future__ import annotations

import hashlib
import hmac
import struct
from collections.abc import Iterable
from dataclasses import dataclass

SECTOR = 512  # bytes of a device sector
MAGIC = b"GEOM::ELI" + bytes(7)
HASHED = 495  # bytes of the sector before their MD5
BACKUP = 511  # bytes of a backup
HEAD = struct.Struct("<16sIIHHHQIBi")  # up to the salt
KEYS = 111  # where the wrapped keys begin
NUMBERS = ("version", "flags", "ealgo", "keylen", "aalgo", "provsize", "sectorsize", "keys", "iterations")

# By their numbers in FreeBSD's cryptodev.h.
CIPHERS = {2: "3DES-CBC", 3: "Blowfish-CBC", 11: "AES-CBC", 16: "NULL", 21: "Camellia-CBC", 22: "AES-XTS"}
CODES = {6: "HMAC/MD5", 7: "HMAC/SHA1", 8: "HMAC/RIPEMD160", 18: "HMAC/SHA256", 19: "HMAC/SHA384", 20: "HMAC/SHA512"}
TAGGED = {18: 480, 19: 464, 20: 448}  # bytes of data in a device sector, by the number of the authentication
AUTH = 0x10  # the flag of an authenticated provider
# The flags of g_eli.h, by their bits.
FLAGS = ("onetime", "boot", "wo-detach", "rw-detach", "auth", "readonly", "nodelete", "geliboot",
         "geliboot-displaypass", "autoresize")


def hmac512(key: bytes, message: bytes) -> bytes:
    return hmac.digest(key, message, "sha512")


def user_key(key_files: bytes, passphrase: bytes | None, salt: bytes, iterations: int) -> bytes:
    """The key that a user has, of the bytes of all key files and the passphrase, if there is one."""
    part = b""
    if passphrase is not None:
        part = salt + passphrase
        if iterations > 0:
            part = hashlib.pbkdf2_hmac("sha512", passphrase, salt, iterations, 64)
    return hmac512(b"", key_files + part)


@dataclass(frozen=True)
class Metadata:
    """The fields of the metadata."""

    version: int
    flags: int
    ealgo: int
    keylen: int
    aalgo: int
    provsize: int
    sectorsize: int
    keys: int
    iterations: int
    salt: bytes
    mkeys: bytes

    @classmethod
    def of_rows(cls, rows: Iterable[str]) -> Metadata:
        """By the lines of a dump."""
        fields = dict(row.split(": ", 1) for row in rows if ": " in row)
        numbers = {name: int(fields[name], 0) for name in NUMBERS}
        return cls(salt=bytes.fromhex(fields["salt"]), mkeys=bytes.fromhex(fields["mkeys"]), **numbers)

    @classmethod
    def of_sector(cls, sector: bytes) -> Metadata | None:
        """By the device sector that has them; nothing if its magic or its MD5 is another."""
        found = hashlib.md5(sector[:HASHED], usedforsecurity=False).digest()
        if not sector.startswith(MAGIC) or found != sector[HASHED:BACKUP]:
            return None
        numbers: dict[str, int] = dict(zip(NUMBERS, HEAD.unpack(sector[:HEAD.size])[1:]))
        return cls(salt=sector[HEAD.size:KEYS], mkeys=sector[KEYS:HASHED], **numbers)

    def sector(self) -> bytes:
        """The device sector that has them."""
        head = HEAD.pack(MAGIC, *(getattr(self, name) for name in NUMBERS))
        meta = head + self.salt + self.mkeys
        return meta + hashlib.md5(meta, usedforsecurity=False).digest() + b"\0"

    @property
    def is_tagged(self) -> bool:
        """Whether they are of an authenticated provider."""
        return bool(self.flags & AUTH)

    @property
    def units(self) -> int:
        """The device sectors of a logical sector."""
        return (self.sectorsize - 1) // (TAGGED.get(self.aalgo, 480) if self.is_tagged else SECTOR) + 1

    @property
    def sectors(self) -> int:
        """The logical sectors; 0 where nobody can attach such a provider."""
        return self.sectors_in(self.provsize)

    def sectors_in(self, size: int) -> int:
        """The logical sectors of such a provider, if it had so many bytes."""
        return (size - SECTOR) // (SECTOR * self.units) if self.sectorsize >= SECTOR and size >= 1024 else 0

    @property
    def slots(self) -> list[int]:
        """The slots that have keys."""
        return [slot for slot in (0, 1) if self.keys >> slot & 1]

    @property
    def cipher(self) -> str:
        return CIPHERS.get(self.ealgo, f"number {self.ealgo}")

    @property
    def code(self) -> str | None:
        """The authentication, if there is one."""
        return CODES.get(self.aalgo, f"number {self.aalgo}") if self.is_tagged else None

    @property
    def flag_names(self) -> list[str]:
        return [FLAGS[bit] if bit < len(FLAGS) else f"bit {bit}" for bit in range(32) if self.flags >> bit & 1]

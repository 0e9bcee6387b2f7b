#!/usr/bin/env python3
"""Reads what the program writes by a reader that follows docs/FORMAT.md alone, over hashlib, hmac and `cryptography`.

    tools/try_format.py [PROGRAM]      without a word: the program that ./geli runs

Of each kind of provider it makes one with two key files and a passphrase of two files, writes sectors by a script, at
the front and where there is a second range key, and opens them here. The same with version 6, and with 5 where there is
no authentication, made by another number in the metadata. A line says one provider; the status is 1 where one differs.
Outside the gate.
"""
import hashlib
import hmac
import mmap
import os
import struct
import subprocess
import sys
import tempfile

from cryptography.hazmat.primitives.ciphers import Cipher, algorithms, modes

TOP = os.path.join(os.path.dirname(os.path.realpath(__file__)), "..")
FILES = {"k1": bytes(range(64)), "k2": b"a second key file", "p1": b"pass\nnot read", "p2": b"phrase"}
KEY = ("-K k1 -K k2 -J p1 -J p2".split(), FILES["k1"] + FILES["k2"], b"passphrase")
CODES = {18: ("sha256", 32), 19: ("sha384", 48), 20: ("sha512", 64)}
# Cipher, bits of the key, bytes of a sector, authentication, iterations.
PROVIDERS = [("AES-XTS", 128, 512, "", 10), ("AES-XTS", 256, 4096, "", 0), ("AES-CBC", 192, 1024, "", 3),
             ("AES-CBC", 256, 65536, "", 1), ("AES-XTS", 128, 512, "HMAC/SHA256", 10),
             ("AES-XTS", 256, 4096, "HMAC/SHA384", 0), ("AES-CBC", 128, 4096, "HMAC/SHA512", 3)]
# So much that offsets behind 2^20 blocks of 512 bytes are there.
SIZE = 2**29 + 2**23


def hmac512(key, message):
    return hmac.digest(key, message, "sha512")


def le64(number):
    return struct.pack("<Q", number)


class Provider:
    """A provider as its image says, opened by a user key."""

    def __init__(self, image, key_files, passphrase):
        self.image, meta = image, image[-512:]
        assert meta[:16] == b"GEOM::ELI" + bytes(7) and meta[495:] == hashlib.md5(meta[:495]).digest() + bytes(1)
        (self.version, flags, cipher, bits, auth, size, self.sectorsize, keys, iterations) = struct.unpack(
            "<IIHHHQIBi", meta[16:47])
        assert size == len(image) and keys == 1
        self.is_xts, self.key_bytes = {11: False, 22: True}[cipher], bits // 8
        self.code, self.tag_bytes = CODES[auth] if flags & 0x10 else ("", 0)
        self.find_master(meta, iterations, key_files, passphrase)

    def find_master(self, meta, iterations, key_files, passphrase):
        salt, slot = meta[47:111], meta[111:303]
        stretched = hashlib.pbkdf2_hmac("sha512", passphrase, salt, iterations) if iterations else salt + passphrase
        user = hmac512(b"", key_files + stretched)
        opener = Cipher(algorithms.AES(hmac512(user, b"\1")[:self.key_bytes]), modes.CBC(bytes(16))).decryptor()
        text = opener.update(slot)
        master, check = text[:128], text[128:]
        assert check == hmac512(hmac512(user, b"\0"), master)
        self.iv_key, data_key = master[:64], master[64:]
        base = hmac512(data_key, b"\x10") if self.code else data_key
        self.range_base = base if self.version == 7 else self.iv_key
        self.auth_key = hmac512(data_key, b"\x11")

    def run(self, offset, text):
        """The plain bytes of a run of ciphertext."""
        number = offset // 2**20 // (512 if self.code else self.sectorsize)
        key = hmac512(self.range_base, b"ekey" + le64(number))
        if self.is_xts:
            return Cipher(algorithms.AES(key[:2 * self.key_bytes]),
                          modes.XTS(le64(offset) + bytes(8))).decryptor().update(text)
        vector = hashlib.sha256(self.iv_key + le64(offset)).digest()[:16]
        return Cipher(algorithms.AES(key[:self.key_bytes]), modes.CBC(vector)).decryptor().update(text)

    def units(self):
        return (self.sectorsize - 1) // (512 - self.tag_bytes) + 1

    def unit(self, offset, size):
        """The plain bytes of a unit with a tag."""
        stored = self.image[offset:offset + 512]
        text = stored[self.tag_bytes:self.tag_bytes + size]
        tag_key = hashlib.sha256(self.auth_key + le64(offset)).digest()
        assert stored == (hmac.digest(tag_key, text, self.code) + text).ljust(512, b"\0")
        return self.run(offset, text)

    def sector(self, k):
        if not self.code:
            return self.run(k * self.sectorsize, self.image[k * self.sectorsize:(k + 1) * self.sectorsize])
        room, units = 512 - self.tag_bytes, self.units()
        return b"".join(self.unit(512 * (k * units + j), min(room, self.sectorsize - j * room)) for j in range(units))


def with_version(image, version):
    """Puts another version into the metadata."""
    meta = bytearray(image[-512:])
    meta[16] = version
    meta[495:511] = hashlib.md5(meta[:495]).digest()
    image[-512:] = bytes(meta)


def lines_equal(program, image, version):
    """Whether sectors that the program writes under this version read as they were given."""
    with_version(image, version)
    provider = Provider(image, KEY[1], KEY[2])
    last = (len(image) - 512) // (512 * provider.units()) - 1
    plain = {k: os.urandom(provider.sectorsize) for k in (0, 1, 7, last)}
    lines = ["attach %s a.img" % " ".join(KEY[0]).lower()]
    lines += ["write a.img %d %s" % (k, plain[k].hex()) for k in plain] + ["detach a.img", ""]
    subprocess.run([program, "script", "a.img"], input="\n".join(lines).encode(), check=True, stdout=subprocess.DEVNULL)
    return all(provider.sector(k) == plain[k] for k in plain)


def try_kind(program, cipher, bits, size, auth, iterations):
    """What is equal and what isn't, version by version."""
    with open("a.img", "wb") as file:
        file.truncate(SIZE)
    kind = ["-e", cipher, "-l", str(bits), "-s", str(size), "-i", str(iterations), *(["-a", auth] if auth else [])]
    subprocess.run([program, "init", *kind, *KEY[0], "a.img"], check=True, stdout=subprocess.DEVNULL)
    with open("a.img", "r+b") as file, mmap.mmap(file.fileno(), 0) as image:
        equal = {version: lines_equal(program, image, version) for version in ((7, 6) if auth else (7, 6, 5))}
    told = ", ".join("version %d %s" % (version, "equal" if it else "DIFFERS") for version, it in equal.items())
    print("%s %d, sectors of %d%s: %s" % (cipher, bits, size, ", " + auth if auth else "", told))
    return all(equal.values())


def main():
    program = os.path.realpath(sys.argv[1] if len(sys.argv) > 1 else os.path.join(TOP, "geli"))
    with tempfile.TemporaryDirectory() as folder:
        os.chdir(folder)
        for name, text in FILES.items():
            with open(name, "wb") as file:
                file.write(text)
        results = [try_kind(program, *provider) for provider in PROVIDERS]
        os.chdir(TOP)
    return 0 if all(results) else 1


if __name__ == "__main__":
    sys.exit(main())

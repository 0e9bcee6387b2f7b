#!/usr/bin/env python3
"""The tables of the tests of auth_sectors.

For each authentication, cipher and key length: the SHA-256 of the device sectors of pieces of some lengths at some
byte offsets, one after the other, under the master key with the bytes 0 to 127 and metadata of version 7.
The same of four whole pieces, each behind the one before it.
"""
import hashlib
import hmac
import platform
import struct

import cryptography
from cryptography.hazmat.primitives.ciphers import Cipher, algorithms, modes

from test_tables import print_or_check, table

MADE_WITH = f"hashlib and hmac of Python {platform.python_version()} and cryptography {cryptography.__version__}"

MASTER = bytes(range(128))
IV_KEY, DATA_KEY = MASTER[:64], MASTER[64:]
BASE_KEY = hmac.new(DATA_KEY, b"\x10", hashlib.sha512).digest()
AUTH_KEY = hmac.new(DATA_KEY, b"\x11", hashlib.sha512).digest()
OFFSETS = (0, 512, 4608, 536870400, 536870912)
# Two of four pieces that begin here stand before the second range key, and two behind.
FIRST_OF_FOUR = 536869888
TAGS = {"Sha256": 32, "Sha384": 48, "Sha512": 64}
CIPHERS = (("AesXts", 128), ("AesXts", 256), ("AesCbc", 128), ("AesCbc", 192), ("AesCbc", 256))
FOURS = (("Sha256", "AesXts", 128), ("Sha384", "AesCbc", 192), ("Sha512", "AesXts", 256))


def sealed(base, cipher, bits, number, offset, plain):
    """The ciphertext of a run at a byte offset, under the range key of this number."""
    key = hmac.new(base, b"ekey" + struct.pack("<Q", number), hashlib.sha512).digest()
    size = bits // 8
    if cipher == "AesXts":
        mode = modes.XTS(struct.pack("<Q", offset) + bytes(8))
        algorithm = algorithms.AES(key[: 2 * size])
    else:
        mode = modes.CBC(hashlib.sha256(IV_KEY + struct.pack("<Q", offset)).digest()[:16])
        algorithm = algorithms.AES(key[:size])
    seal = Cipher(algorithm, mode).encryptor()
    return seal.update(plain) + seal.finalize()


def piece(auth, cipher, bits, offset, plain):
    """The device sector at a byte offset with these plain bytes."""
    text = sealed(BASE_KEY, cipher, bits, (offset >> 20) // 512, offset, plain)
    key = hashlib.sha256(AUTH_KEY + struct.pack("<Q", offset)).digest()
    return (hmac.new(key, text, auth.lower()).digest() + text).ljust(512, b"\0")


def plain_bytes(offset, length):
    return bytes((7 * i + offset // 512) % 256 for i in range(length))


def pieces_digest(auth, cipher, bits):
    digest = hashlib.sha256()
    for offset in OFFSETS:
        for length in (16, 32, 512 - TAGS[auth]):
            digest.update(piece(auth, cipher, bits, offset, plain_bytes(offset, length)))
    return digest.hexdigest()


def fours_digest(auth, cipher, bits):
    digest = hashlib.sha256()
    for offset in range(FIRST_OF_FOUR, FIRST_OF_FOUR + 2048, 512):
        digest.update(piece(auth, cipher, bits, offset, plain_bytes(offset, 512 - TAGS[auth])))
    return digest.hexdigest()


def row(auth, cipher, bits, digest):
    return f'(Auth::{auth}, Cipher::{cipher}, {bits}, "{digest(auth, cipher, bits)}")'


def main():
    digests = [row(auth, *cipher, pieces_digest) for auth in TAGS for cipher in CIPHERS]
    fours = [row(*each, fours_digest) for each in FOURS]
    test = "known_answers/src/pieces.rt"
    print_or_check(__doc__, MADE_WITH, {(test, "DIGESTS"): table(digests), (test, "FOURS"): table(fours)})


if __name__ == "__main__":
    main()

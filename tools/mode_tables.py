#!/usr/bin/env python3
"""The tables of the tests of cbc_mode and xts_mode.

Keys, initialization vectors and tweaks are random, from the seed below. The plaintext of a row is byte
i = (7 * i + i / 256) mod 256, for i below its length; the row holds the SHA-256 digest of its
ciphertext. Long numbers are big-endian.
"""
import hashlib
import platform
import random

import cryptography
from cryptography.hazmat.primitives.ciphers import Cipher, algorithms, modes

from test_tables import print_or_check, table

MADE_WITH = f"cryptography {cryptography.__version__} and hashlib of Python {platform.python_version()}"

LENGTHS = [0, 16, 48, 512, 4096, 65536]


def plain(length):
    return bytes((7 * i + i // 256) % 256 for i in range(length))


def digest_of(key, mode, length):
    if length == 0:
        return hashlib.sha256().digest()  # `cryptography` takes no empty text under XTS
    step = Cipher(algorithms.AES(key), mode).encryptor()
    return hashlib.sha256(step.update(plain(length)) + step.finalize()).digest()


def halves(value):
    value = value.ljust(32, b"\0")
    return f"0x{value[:16].hex()}, 0x{value[16:].hex()}"


def cbc_rows(rng):
    for at, length in enumerate(LENGTHS):
        size = (16, 24, 32)[at % 3]
        key, iv = rng.randbytes(size), rng.randbytes(16)
        digest = digest_of(key, modes.CBC(iv), length)
        yield (
            f"Row {{ key: [{halves(key)}], key_length: {size}, iv: 0x{iv.hex()},"
            f" length: {length}, digest: [{halves(digest)}] }}"
        )


def xts_rows(rng):
    for at, length in enumerate(LENGTHS):
        size = (16, 32)[at % 2]
        first, second, tweak = rng.randbytes(size), rng.randbytes(size), rng.randrange(2 ** 64)
        digest = digest_of(first + second, modes.XTS(tweak.to_bytes(16, "little")), length)
        yield (
            f"Row {{ first: [{halves(first)}], second: [{halves(second)}], key_length: {size},"
            f" tweak: {tweak:#018x}, length: {length}, digest: [{halves(digest)}] }}"
        )


def main():
    rng = random.Random(197)
    print_or_check(__doc__, MADE_WITH, {
        ("known_answers/src/cbc.rt", "ROWS"): table(cbc_rows(rng)),
        ("known_answers/src/xts.rt", "ROWS"): table(xts_rows(rng)),
    })


if __name__ == "__main__":
    main()

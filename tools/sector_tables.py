#!/usr/bin/env python3
"""The tables of the tests of plain_sectors.

A table for each cipher and key length, with a digest for each sector size S from 512 to 65536, in this order. It is the
SHA-256 digest of one plaintext sealed at five byte offsets, one sealed sector after the other: 0, S, the last sector
under key number 0, the first under key number 1, and the last below 2^53. And the digests of some sectors by their
number, of metadata of versions 5 to 7.

The master key is the bytes 0 to 127: IV-Key, then Data-Key. The plaintext of a logical sector of S bytes is byte
i = (7 * i + i / 256) mod 256.
"""
import hashlib
import hmac
import platform

import cryptography
from cryptography.hazmat.primitives.ciphers import Cipher, algorithms, modes

from test_tables import print_or_check, table

MADE_WITH = f"hashlib and hmac of Python {platform.python_version()} and cryptography {cryptography.__version__}"

TEST = "known_answers/src/sectors.rt"

MASTER = bytes(range(128))
IV_KEY, DATA_KEY = MASTER[:64], MASTER[64:]

KEYS = [("XTS", 128), ("XTS", 256), ("CBC", 128), ("CBC", 192), ("CBC", 256)]
SIZES = [512 << i for i in range(8)]

# A version of the metadata, a cipher and the bits of its key, the bytes of a logical sector and its number.
VECTORS = [
    (7, "XTS", 128, 512, 0),
    (7, "XTS", 128, 512, 3),
    (7, "XTS", 256, 4096, 5),
    (7, "XTS", 128, 512, 1048576),
    (7, "CBC", 128, 512, 3),
    (7, "CBC", 192, 4096, 5),
    (7, "CBC", 256, 65536, 1),
    (6, "XTS", 128, 512, 3),
    (5, "CBC", 128, 512, 3),
]


def le64(number):
    return number.to_bytes(8, "little")


def range_key(number, version):
    return hmac.digest(DATA_KEY if version == 7 else IV_KEY, b"ekey" + le64(number), "sha512")


def sealed(mode, bits, size, offset, version=7):
    key = range_key((offset >> 20) // size, version)
    length = bits // 8
    if mode == "XTS":
        tweak = le64(offset) + bytes(8)
        step = Cipher(algorithms.AES(key[: 2 * length]), modes.XTS(tweak)).encryptor()
    else:
        iv = hashlib.sha256(IV_KEY + le64(offset)).digest()[:16]
        step = Cipher(algorithms.AES(key[:length]), modes.CBC(iv)).encryptor()
    text = bytes((7 * i + i // 256) % 256 for i in range(size))
    return step.update(text) + step.finalize()


def offsets(size):
    return [0, size, (size << 20) - size, size << 20, 2 ** 53 - size]


def digest(mode, bits, size):
    return hashlib.sha256(b"".join(sealed(mode, bits, size, at) for at in offsets(size))).hexdigest()


def vector(version, mode, bits, size, number):
    digest = hashlib.sha256(sealed(mode, bits, size, number * size, version)).hexdigest()
    return (f"Vector {{ version: {version}, cipher: Cipher::Aes{mode.title()}, keylen: {bits}, sectorsize: {size}, "
            f'number: {number}, digest: "{digest}" }}')


def main():
    digests = {
        (TEST, f"{mode}_{bits}"): table(f'"{digest(mode, bits, size)}"' for size in SIZES) for mode, bits in KEYS
    }
    print_or_check(__doc__, MADE_WITH, {**digests, (TEST, "VECTORS"): table(vector(*row) for row in VECTORS)})


if __name__ == "__main__":
    main()

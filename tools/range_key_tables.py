#!/usr/bin/env python3
"""The constants of the tests of range_keys.

Range keys 0 and 1 of metadata of version 7 without authentication (PLAIN) and with it (TAGGED), and of versions 5 and 6
whatever the authentication (OLD), each as its front and its back half, and the initialization vectors and tag keys of
two byte offsets, all as big-endian numbers of 128 bits.

The master key is the bytes 0 to 127: IV-Key, then Data-Key.
"""
import hashlib
import hmac
import platform

from test_tables import print_or_check, table

MADE_WITH = f"hmac and hashlib of Python {platform.python_version()}"

TEST = "known_answers/src/rings.rt"

MASTER = bytes(range(128))
IV_KEY, DATA_KEY = MASTER[:64], MASTER[64:]


def le64(number):
    return number.to_bytes(8, "little")


def code(key, message):
    return hmac.digest(key, message, "sha512")


BASES = {"PLAIN": DATA_KEY, "TAGGED": code(DATA_KEY, b"\x10"), "OLD": IV_KEY}
AUTH_KEY = code(DATA_KEY, b"\x11")


def numbers(data):
    return [f"0x{data[i:i + 16].hex()}" for i in range(0, len(data), 16)]


def keys():
    for name, base in BASES.items():
        for number in (0, 1):
            values = numbers(code(base, b"ekey" + le64(number)))
            yield (TEST, f"{name}_{number}_FRONT"), table(values[:2])
            yield (TEST, f"{name}_{number}_BACK"), table(values[2:])


def vector(offset):
    [iv] = numbers(hashlib.sha256(IV_KEY + le64(offset)).digest()[:16])
    tag_key = numbers(hashlib.sha256(AUTH_KEY + le64(offset)).digest())
    return f"Vector {{ offset: {offset}, vector: {iv}, tag_key: [{', '.join(tag_key)}] }}"


def main():
    vectors = table(vector(offset) for offset in (0, 4608))
    print_or_check(__doc__, MADE_WITH, {**dict(keys()), (TEST, "VECTORS"): vectors})


if __name__ == "__main__":
    main()

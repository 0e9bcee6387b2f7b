#!/usr/bin/env python3
"""The table of aes_core's test of chained keys.

A chain begins with the key bytes 0x00 to 0x1f and a block of zeros. Each of its 1,000 steps
enciphers (or deciphers) the block under the key's first 16, 24 or 32 bytes, and adds the
outcome to both halves of the key, so each step has a new key.
"""
import cryptography
from cryptography.hazmat.primitives.ciphers import Cipher, algorithms, modes

from test_tables import print_or_check, table

MADE_WITH = f"cryptography {cryptography.__version__}"


def chain(length, backwards):
    key, block = bytearray(range(32)), bytes(16)
    for _ in range(1000):
        cipher = Cipher(algorithms.AES(bytes(key[:length])), modes.ECB())
        step = cipher.decryptor() if backwards else cipher.encryptor()
        block = step.update(block) + step.finalize()
        for i in range(32):
            key[i] ^= block[i % 16]
    return block


def main():
    rows = [
        f"({length}, {str(backwards).lower()}, 0x{chain(length, backwards).hex()})"
        for backwards in (False, True)
        for length in (16, 24, 32)
    ]
    print_or_check(__doc__, MADE_WITH, {("known_answers/src/aes.rt", "CHAINS"): table(rows)})


if __name__ == "__main__":
    main()

#!/usr/bin/env python3
"""The table of the tests of sha_stream: digests of texts of many lengths.

Byte i of a text is (7 * i + i / 256) mod 256. The lengths stand around the ends of blocks and of the padding.
"""
import hashlib
import platform

from test_tables import print_or_check, table

MADE_WITH = f"hashlib of Python {platform.python_version()}"

LENGTHS = [0, 1, 3, 4, 31, 55, 56, 57, 63, 64, 65, 119, 120, 121, 127, 128, 129, 191, 192, 193, 480, 1000, 4095, 4096, 65536]


def text(length):
    return bytes((7 * (i % 256) + i // 256 % 256) % 256 for i in range(length))


def row(length):
    return f'({length}, "{hashlib.sha256(text(length)).hexdigest()}")'


def main():
    print_or_check(__doc__, MADE_WITH, {
        ("known_answers/src/hashes.rt", "DIGESTS"): table(row(length) for length in LENGTHS),
    })


if __name__ == "__main__":
    main()

#!/usr/bin/env python3
"""Cases of images of every authentication and sector size, and their transcripts.

    tools/image_cases.py [--check]      writes images.cases and its transcript, or says whether they are equal

A case has an authentication, or none, and a run has a sector size, with one of the five ciphers and key lengths after the
other. A provider of two logical sectors is made, and the second is written. The random bytes are the salt 0x80 to 0xbf,
the master key 0x00 to 0x7f and filler of 0x55; the passphrase is `abc`.
"""
import argparse
import hashlib
import struct
import sys

from case_files import differing, put
from key_model import MASTER, SALT, sector, user_key, wrapped
from piece_digests import CIPHERS, DATA_KEY, TAGS, piece, sealed

FILLER = b"\x55" * 192

AUTHENTICATIONS = {None: 0, "Sha256": 18, "Sha384": 19, "Sha512": 20}

# The name in a line, and the number in the metadata.
NAMES = {"AesXts": ("AES-XTS", 22), "AesCbc": ("AES-CBC", 11)}

SIZES = [512 << i for i in range(8)]

ITERATIONS = 2


def counted(count, first):
    return bytes((first + i) % 251 for i in range(count))


def plain_sector(cipher, bits, number, block):
    """The device sectors of a logical sector without authentication, one after the other."""
    offset = number * len(block)
    return sealed(DATA_KEY, cipher, bits, (offset >> 20) // len(block), offset, block)


def tagged_sector(auth, cipher, bits, number, block):
    """The same with authentication."""
    data = 512 - TAGS[auth]
    units = (len(block) - 1) // data + 1
    return b"".join(piece(auth, cipher, bits, 512 * (number * units + j), block[data * j: data * (j + 1)])
                    for j in range(units))


def metadata(auth, cipher, bits, size, sectors):
    slots = wrapped(user_key(b"", b"abc", ITERATIONS), bits) + FILLER
    flags = 0x200 + (0x10 if auth else 0)
    return sector(flags, NAMES[cipher][1], bits, AUTHENTICATIONS[auth], 512 * sectors, size, 1, ITERATIONS, slots)


def run(auth, cipher, bits, size, number):
    """The lines of a run and of its transcript."""
    block = counted(size, number)
    device = tagged_sector(auth, cipher, bits, 1, block) if auth else plain_sector(cipher, bits, 1, block)
    units = len(device) // 512
    last = 2 * units
    writes = [(last, metadata(auth, cipher, bits, size, last + 1))]
    data = [(units + j, device[512 * j: 512 * j + 512]) for j in range(units)]
    events = ["F", *writes, "F", *data, "F"]
    digest = hashlib.sha256(b"".join(
        b"F" if event == "F" else b"W" + struct.pack("<Q", event[0]) + event[1] for event in events))
    named = f"W{units}" if units == 1 else f"W{units}-{last - 1}"
    option = f"-a HMAC/{auth.upper()} " if auth else ""
    lines = [
        f"disk a.img {last + 1} 1000",
        f"entropy-hex {(SALT + MASTER + FILLER).hex()}",
        "words script a.img",
        f"in init {option}-e {NAMES[cipher][0]} -l {bits} -s {size} -J p -i {ITERATIONS} a.img",
        "in attach -j p a.img",
        f"in-count {size} {number} write a.img 1",
        "in sum a.img 1 1",
        "run",
    ]
    told = [f"run {number}", "out ok", "out ok", "out ok", f"out ok {hashlib.sha256(block).hexdigest()}", "status 0", "unread 0",
            f"events a.img {len(events)} {digest.hexdigest()} F W{last} F {named} F", "taken 384"]
    return lines, told


def texts():
    """The cases and their transcripts."""
    cases = ["# Images of every authentication and sector size, by tools/image_cases.py."]
    transcript = []
    for auth in AUTHENTICATIONS:
        name = f"case images-{auth.lower() if auth else 'plain'}"
        cases += ["", name, "file p 6162630a"]
        transcript.append(name)
        for place, size in enumerate(SIZES):
            cipher, bits = CIPHERS[place % len(CIPHERS)]
            lines, told = run(auth, cipher, bits, size, place + 1)
            cases += lines
            transcript += told
    return "images", cases, transcript


def main():
    options = argparse.ArgumentParser(description=__doc__, formatter_class=argparse.RawDescriptionHelpFormatter)
    options.add_argument("--check", action="store_true", help="compare with the files that are there")
    if options.parse_args().check:
        sys.exit(differing(*texts()))
    put(*texts())


if __name__ == "__main__":
    main()

#!/usr/bin/env python3
"""The stored run of geli-nbd: what a client says, and what it is answered, by a model of doc/proto.md of the NBD project.

The model is a piece of memory. The provider in crates/geli_nbd/data/a.img has 16,384 bytes in sectors of 512. What the
client never wrote isn't read, for that is what the cipher makes of zeros.

    tools/nbd_run_case.py          prints which of stdin and stdout differ
    tools/nbd_run_case.py write    writes them
"""
import struct
import sys
from pathlib import Path

CRATE = Path(__file__).resolve().parent.parent / "crates/geli_nbd"
SIZE = 16384
IHAVEOPT = 0x49484156454F5054
REPLY_MAGIC = 0x3E889045565A9
READ, WRITE, DISC, FLUSH, TRIM, WRITE_ZEROES = 0, 1, 2, 3, 4, 6
FUA = 1
EINVAL, ENOSPC = 22, 28
# has flags, flush, FUA, zeros
FLAGS = 1 | 4 | 8 | 64


def option(code, data):
    return struct.pack(">QII", IHAVEOPT, code, len(data)) + data


def option_reply(code, kind, data=b""):
    return struct.pack(">QIII", REPLY_MAGIC, code, kind, len(data)) + data


class Talk:
    """What was said, what was answered, and the model."""

    def __init__(self):
        self.said = struct.pack(">I", 3)
        self.answered = b"NBDMAGIC" + struct.pack(">QH", IHAVEOPT, 3)
        self.memory = bytearray(SIZE)
        self.cookie = 0x1122334455667700

    def go(self):
        self.said += option(3, b"")
        self.answered += option_reply(3, 2, struct.pack(">I", 0)) + option_reply(3, 1)
        self.said += option(5, b"")
        self.answered += option_reply(5, 0x80000001)
        self.said += option(7, struct.pack(">IH", 0, 0))
        self.answered += option_reply(7, 3, struct.pack(">HQH", 0, SIZE, FLAGS))
        self.answered += option_reply(7, 3, struct.pack(">HIII", 3, 1, 4096, 1 << 25)) + option_reply(7, 1)

    def asks(self, kind, offset, length, flags=0, data=b"", error=None):
        self.cookie += 1
        self.said += struct.pack(">IHHQQI", 0x25609513, flags, kind, self.cookie, offset, length) + data
        if kind == DISC:
            return
        given = b""
        if error is None:
            error = 0
            if kind == WRITE:
                self.memory[offset:offset + length] = data
            elif kind == WRITE_ZEROES:
                self.memory[offset:offset + length] = bytes(length)
            elif kind == READ:
                given = bytes(self.memory[offset:offset + length])
        self.answered += struct.pack(">IIQ", 0x67446698, error, self.cookie) + given


def case():
    talk = Talk()
    talk.go()
    whole = bytes((7 * at + at // 251) % 256 for at in range(SIZE))
    talk.asks(WRITE, 0, SIZE, data=whole)
    talk.asks(FLUSH, 0, 0)
    talk.asks(READ, 1000, 100)
    talk.asks(WRITE, 1021, 9, flags=FUA, data=b"unaligned")
    talk.asks(READ, 1010, 40)
    talk.asks(WRITE_ZEROES, 5000, 1300)
    talk.asks(READ, 4990, 1320)
    talk.asks(TRIM, 0, 512, error=EINVAL)
    talk.asks(READ, SIZE - 1, 2, error=EINVAL)
    talk.asks(WRITE, SIZE - 1, 2, data=b"no", error=ENOSPC)
    talk.asks(READ, SIZE - 16, 16)
    talk.asks(FLUSH, 0, 0)
    talk.asks(DISC, 0, 0)
    return talk


def main():
    talk = case()
    files = {"stdin": talk.said, "stdout": talk.answered}
    for name, text in files.items():
        if sys.argv[1:] == ["write"]:
            (CRATE / name).write_bytes(text)
        elif (CRATE / name).read_bytes() != text:
            print(f"{name} differs")
    return 0


if __name__ == "__main__":
    sys.exit(main())

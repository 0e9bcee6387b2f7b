#!/usr/bin/env python3
"""The table of the tests of NBD: what libnbd said and nbdkit answered.

libnbd starts a relay, which starts `nbdkit -s` and keeps each piece that passes. nbdkit has an export of 262,144 bytes with
flushes, FUA and requests for zeros, without TRIM, and tells the block sizes 1, 4,096 and 32 MiB, as geli-nbd does. One
thing is put right here: of an export that is read-only nbdkit doesn't tell FUA and requests for zeros.
It needs nbdkit, its plugin eval, and libnbd for Python, as Debian has them.
"""
import os
import subprocess
import sys
import tempfile
import time
from pathlib import Path

from test_tables import print_or_check, table

TEST = "nbd_tests/src/vectors.rt"

SIZE = 262144

# The relay: it keeps a line for each piece, with `>` before the client's and `<` before the server's.
RELAY = r"""
import os, select, subprocess, sys
log = open(sys.argv[1], "ab", 0)
server = subprocess.Popen(sys.argv[2:], stdin=subprocess.PIPE, stdout=subprocess.PIPE)
ways = {0: (server.stdin.fileno(), b">"), server.stdout.fileno(): (1, b"<")}
while server.stdout.fileno() in ways:
    for there in select.select(list(ways), [], [])[0]:
        to, sign = ways[there]
        data = os.read(there, 1 << 20)
        log.write(sign + data.hex().encode() + b"\n")
        try:
            os.write(to, data)
        except BrokenPipeError:
            pass
        if not data:
            del ways[there]
            os.close(to)
log.write(b".\n")
"""

# What nbdkit tells of an export that is read-only, its size and flags, and what geli-nbd does.
READ_ONLY_TOLD = (SIZE.to_bytes(8, "big") + (7).to_bytes(2, "big"), SIZE.to_bytes(8, "big") + (79).to_bytes(2, "big"))


def nbdkit(image, *more):
    def dd(way):
        return f"dd {way} conv=notrunc status=none"

    return [
        "nbdkit", "-s", "--exit-with-parent", "--no-sr", *more, "--filter=multi-conn", "--filter=nocache", "eval",
        "multi-conn-mode=disable", "cachemode=none", f"get_size=echo {SIZE}", "block_size=echo 1 4096 33554432",
        "pread=" + dd(f"if={image} iflag=skip_bytes,count_bytes skip=$4 count=$3"),
        "pwrite=" + dd(f"of={image} oflag=seek_bytes seek=$4"),
        "can_write=exit 0", "can_flush=exit 0", "flush=exit 0", "can_fua=echo native",
        "can_fast_zero=exit 3",
    ]


class Session:
    """What passed between a client that does this and an export, cut into the negotiation and the requests."""

    def __init__(self, folder, client, *more):
        import nbd

        image, log = Path(folder, "image"), Path(folder, "log")
        image.write_bytes(bytes(SIZE))
        log.write_bytes(b"")
        handle = nbd.NBD()
        handle.set_request_structured_replies(False)
        handle.set_strict_mode(0)
        self.errors = []
        client(handle, [sys.executable, "-c", RELAY, str(log), *nbdkit(image, *more)], self)
        while not log.read_text().endswith(".\n"):
            time.sleep(0.01)
        self.pieces = [(line[0], bytes.fromhex(line[1:])) for line in log.read_text().split()[:-1]]

    def tries(self, call, *words):
        """A call that may be refused, and the number of its error."""
        import nbd

        try:
            call(*words)
            self.errors.append(0)
        except nbd.Error as error:
            self.errors.append(error.errnum)

    def said(self):
        return b"".join(data for sign, data in self.pieces if sign == ">")

    def answered(self):
        return b"".join(data for sign, data in self.pieces if sign == "<")


# What is asked for, in the order of the calls: the request's number, its flags, its offset and its length.
REQUESTS = [
    (1, 1, 512, 11), (0, 0, 512, 11), (0, 1, 515, 4), (3, 0, 0, 0), (1, 0, 102300, 700), (0, 0, 102300, 700),
    (6, 0, 102350, 300), (0, 0, 102300, 700), (6, 3, 512, 6), (0, 0, 512, 11), (1, 0, 131050, 50), (0, 0, 131050, 50),
    (4, 0, 0, 512), (0, 0, SIZE, 1), (0, 0, SIZE - 1, 2), (1, 0, SIZE, 1), (1, 0, SIZE - 3, 4), (6, 0, SIZE - 1, 2),
    (0, 0, 0, 0), (0, 4, 0, 16), (1, 2, 0, 16), (6, 4, 0, 16), (3, 1, 0, 0), (1, 1, SIZE - 4, 4), (0, 0, SIZE - 4, 4),
]


def text(offset, length):
    return bytes((7 * i + offset) % 256 for i in range(length))


def ask(handle, session, request):
    kind, flags, offset, length = request
    if kind == 0:
        session.tries(handle.pread, length, offset, flags)
    elif kind == 1:
        session.tries(handle.pwrite, text(offset, length), offset, flags)
    elif kind == 3:
        session.tries(handle.flush, flags)
    elif kind == 4:
        session.tries(handle.trim, length, offset, flags)
    else:
        session.tries(handle.zero, length, offset, flags)


def going(handle, command, session):
    handle.connect_command(command)
    for request in REQUESTS:
        ask(handle, session, request)
    handle.shutdown()


def by_name(flags):
    def client(handle, command, session):
        handle.set_handshake_flags(flags)
        handle.connect_command(command)
        handle.pwrite(text(0, 16), 512)
        handle.pread(16, 512)
        handle.shutdown()

    return client


def asking(handle, command, session):
    handle.set_opt_mode(True)
    handle.set_request_structured_replies(True)
    handle.connect_command(command)
    handle.opt_list(lambda name, description: 0)
    handle.opt_info()
    handle.set_export_name("another")
    handle.opt_info()
    handle.opt_go()
    handle.flush()
    handle.shutdown()


def leaving(handle, command, session):
    handle.set_opt_mode(True)
    handle.connect_command(command)
    handle.opt_abort()


def only_reading(handle, command, session):
    handle.connect_command(command)
    for request in [(1, 0, 0, 16), (6, 0, 0, 512), (1, 0, SIZE, 1), (1, 0, 0, 0), (3, 0, 0, 0), (0, 0, SIZE, 1)]:
        ask(handle, session, request)
    handle.shutdown()


def text_of(data):
    return f'"{data.hex()}"'


def pieces_of_requests(session):
    """The requests of a session and what answered each."""
    start = next(i for i, (sign, data) in enumerate(session.pieces) if sign == ">" and data[:4] == b"\x25\x60\x95\x13")
    found = []
    for sign, data in session.pieces[start:]:
        if sign == ">" and (not found or found[-1][1]):
            found.append([b"", b""])
        found[-1][sign == "<"] += data
    return found


def request_row(request, piece):
    kind, flags, offset, length = request
    cookie = int.from_bytes(piece[1][8:16], "big")
    return f"({text_of(piece[0][:28])}, {kind}, {flags}, {cookie}, {offset}, {length})"


def reply_row(error, piece):
    return f"({text_of(piece[1][:16])}, {error}, {int.from_bytes(piece[1][8:16], 'big')})"


def main():
    with tempfile.TemporaryDirectory() as folder:
        sessions = {
            "GOING": Session(folder, going),
            "BY_NAME": Session(folder, by_name(0)),
            "BY_NAME_WITHOUT_ZEROES": Session(folder, by_name(2)),
            "ASKING": Session(folder, asking),
            "LEAVING": Session(folder, leaving),
            "ONLY_READING": Session(folder, only_reading, "-r"),
        }
    whole = {
        (TEST, name): f"[{text_of(session.said())}, {text_of(session.answered().replace(*READ_ONLY_TOLD))}]"
        for name, session in sessions.items()
    }
    served = sessions["GOING"]
    pieces = pieces_of_requests(served)
    versions = [
        subprocess.run(["nbdkit", "--version"], capture_output=True, text=True, check=True).stdout.strip(),
        subprocess.run(["nbdinfo", "--version"], capture_output=True, text=True, check=True).stdout.split("\n")[1].strip(),
    ]
    print_or_check(__doc__, " and ".join(versions), {
        **whole,
        (TEST, "REQUESTS"): table(request_row(*row) for row in zip(REQUESTS, pieces)),
        (TEST, "REPLIES"): table(reply_row(*row) for row in zip(served.errors, pieces)),
    })


if __name__ == "__main__":
    main()

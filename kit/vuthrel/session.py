"""A running `geli script` that is asked line by line. Lines may be said ahead of their replies."""
from __future__ import annotations

import binascii
import collections
import contextlib
import fcntl
import os
import subprocess
from collections.abc import Iterable, Iterator
from typing import IO

from .image import NEW, Image, length_of
from .keys import Key
from .metadata import Metadata
from .program import Reply, program
from .text import Failed, Progress, say, slow

REQUEST = 131072  # bytes that a line can read or write
AHEAD = 4  # lines that may wait for their replies
DAMAGED = 25  # the refusal of a sector that can't be read

WHY_UNREADABLE = """\
An unreadable sector was never written, was cut off by a failure, or was changed from outside.
A write of the whole sector makes it readable again; what it held is lost."""

# What a line does, its words, and the bytes to write or how many to read.
Line = tuple[str, tuple[object, ...], "bytes | memoryview | int"]


def tell_unreadable(bad: Iterable[tuple[int, int]]) -> None:
    """Says which ranges of sectors can't be read."""
    for first, end in bad:
        say(f"unreadable: sector {first}" if end == first + 1 else f"unreadable: sectors {first} to {end - 1}")


class Session:
    """A `geli script` over one image."""

    def __init__(self, image: Image, key: Key) -> None:
        self.image, self.key = image, key
        self.script = subprocess.Popen([program("geli"), "script", image.word], stdin=subprocess.PIPE,
                                       stdout=subprocess.PIPE, bufsize=1 << 20, pass_fds=key.fds)
        assert self.script.stdin and self.script.stdout
        self.lines: IO[bytes] = self.script.stdin
        self.replies: IO[bytes] = self.script.stdout
        for pipe in self.lines, self.replies:
            with contextlib.suppress(OSError, AttributeError):  # python3 has its name from 3.10 on
                fcntl.fcntl(pipe, fcntl.F_SETPIPE_SZ, 1 << 20)  # a whole line and more
        self.digits = bytearray(2 * REQUEST + 1)  # of a reply
        self.width = self.sectors = 0  # the bytes of a sector, and how many there are, once the provider is attached

    def say(self, *words: object, data: bytes | memoryview | None = None) -> None:
        """Says a line of words, and bytes after them as digits."""
        try:
            self.lines.write(" ".join(map(str, words)).encode())
            if data is not None:
                self.lines.write(b" ")
                self.lines.write(binascii.hexlify(data))
            self.lines.write(b"\n")
            self.lines.flush()
        except OSError:
            raise Failed("geli has ended before its time") from None

    def reply(self) -> Reply:
        """The next reply."""
        rows: list[str] = []
        while True:
            line = self.replies.readline().decode().rstrip("\n")
            if not line:
                raise Failed("geli ended without a reply")
            if line == "ok" or line.startswith(("ok ", "error ")):
                return Reply(tuple(rows), line)
            rows.append(line)

    def told(self, reply: Reply) -> str:
        return reply.told(self.image.files, self.script.pid)

    def taken(self, what: str, size: int) -> bytes:
        """The bytes, so many, of the reply to a `read` that must be served; of that to a `write`, none."""
        start = self.replies.read(3)
        if start == b"ok\n":
            return b""
        if start != b"ok ":
            reply = Reply.of((start + self.replies.readline()).decode().rstrip())
            raise Failed(f"{what}: {self.told(reply)}" if reply.number > 0 else "geli ended without a reply")
        digits = memoryview(self.digits)[:2 * size + 1]
        if self.replies.readinto(digits) < len(digits):  # type: ignore[attr-defined]  # a buffered reader
            raise Failed("geli ended within a reply")
        return binascii.unhexlify(digits[:-1])

    def ask(self, *words: object) -> Reply:
        self.say(*words)
        return self.reply()

    def must(self, verb: str, *words: object) -> Reply:
        reply = self.ask(verb, *words)
        if not reply.is_served:
            raise Failed(f"{verb}: {self.told(reply)}")
        return reply

    def metadata(self) -> Metadata:
        return Metadata.of_rows(self.must("dump", self.image.word).rows)

    def try_attach(self, *words: str) -> Reply:
        """Attaches by the key: the reply. Where it is served, the sizes of the provider are taken."""
        slow("deriving the key")
        reply = self.key.tried(lambda: self.ask("attach", *words, *self.key.words(), self.image.word))
        if reply.is_served:
            self.width, self.sectors = map(int, self.must("list").rows[0].split(" ")[2:])
        return reply

    def attach(self, *words: str, is_last: bool = True) -> None:
        """Attaches by the key, which is forgotten unless something else needs it."""
        reply = self.try_attach(*words)
        if not reply.is_served:
            raise Failed(f"attach: {self.told(reply)}")
        if is_last:
            self.key.forget()

    def ahead(self, given: Iterable[Line]) -> Iterator[bytes]:
        """Says lines, and gives the bytes of each reply.

        Some are said ahead of the replies. Once one is refused no more are; that is told when the replies to all that
        were said are taken.
        """
        lines = iter(given)
        waiting: collections.deque[tuple[str, int]] = collections.deque()
        refused: Failed | None = None
        while True:
            while refused is None and len(waiting) < AHEAD:
                line = next(lines, None)
                if line is None:
                    break
                what, words, data = line
                self.say(*words, data=None if isinstance(data, int) else data)
                waiting.append((what, data if isinstance(data, int) else 0))
            if not waiting:
                break
            got = b""
            try:
                got = self.taken(*waiting.popleft())
            except Failed as failed:
                refused = refused or failed
            if refused is None:
                yield got
        if refused:
            raise refused

    def write_pieces(self, pieces: Iterable[tuple[int, bytes | memoryview]]) -> None:
        """Writes pieces, each of (first sector, bytes)."""
        lines: Iterator[Line] = ((f"write of sector {at}", ("write", self.image.word, at), piece)
                                 for at, piece in pieces)
        for _ in self.ahead(lines):
            pass

    def write(self, first: int, data: bytes) -> None:
        """Writes whole sectors from the first on."""
        step, view = REQUEST // self.width * self.width, memoryview(data)
        self.write_pieces((first + at // self.width, view[at:at + step]) for at in range(0, len(data), step))

    def zeros(self, first: int, progress: Progress) -> None:
        """Writes zeros from a sector to the end."""

        def pieces() -> Iterator[tuple[int, bytes]]:
            for at, some in self.steps(first):
                yield at, bytes(some * self.width)
                progress.at((at + some - first) * self.width)

        self.write_pieces(pieces())

    def zeros_where_unreadable(self, first: int, progress: Progress) -> None:
        """Writes zeros to the sectors from this one to the end that can't be read, and leaves the others."""
        for start, count in self.steps(first):
            if not self.can_read(start, count):
                for at in range(start, start + count):
                    if not self.can_read(at, 1):
                        self.write(at, bytes(self.width))
            progress.at((start + count - first) * self.width)

    def steps(self, first: int) -> Iterator[tuple[int, int]]:
        """The sectors from this one to the end as pieces that a line can write: where each begins, and how many."""
        step = REQUEST // self.width
        return ((at, min(step, self.sectors - at)) for at in range(first, self.sectors, step))

    def can_read(self, first: int, count: int) -> bool:
        """Whether these sectors can be read; what else may be refused ends the work."""
        reply = self.ask("read", self.image.word, first, count)
        if reply.number not in (0, DAMAGED):
            raise Failed(f"read of sector {first}: {self.told(reply)}")
        return reply.is_served

    def read_or_zeros(self, first: int, count: int) -> bytes:
        """The bytes of so many sectors from the first on; zeros if they can't be read."""
        return b"".join(self.read_pieces(first, count)) if self.can_read(first, count) else bytes(count * self.width)

    def beginning(self) -> bytes:
        """The first MiB of the data, with zeros in place of each sector that can't be read."""
        found = b""
        for first, some in self.steps(0):
            if len(found) >= NEW:
                break
            step = some if self.can_read(first, some) else 1
            found += b"".join(self.read_or_zeros(at, step) for at in range(first, first + some, step))
        return found[:NEW]

    def must_hold(self, source: str) -> None:
        """There is room for all of a file."""
        size, room = length_of(source), self.width * self.sectors
        if size > room:
            raise Failed(f"{source} has {size} bytes, the provider has room for {room}: nothing was written")

    def read_pieces(self, first: int, count: int) -> Iterator[bytes]:
        """The bytes of so many sectors from the first on, piece by piece."""
        step, end = REQUEST // self.width, first + count
        runs = ((at, min(step, end - at)) for at in range(first, end, step))
        return self.ahead((f"read of {some} sectors from {at} on", ("read", self.image.word, at, some),
                           some * self.width) for at, some in runs)

    def read_all(self) -> Iterator[tuple[int, list[int]]]:
        """Reads every sector: gives where each part ended. One that can't be read ends the work."""
        for at, some in self.steps(0):
            reply = self.ask("read", self.image.word, at, some)
            if not reply.is_served:
                raise Failed(self.told(reply))
            yield at + some, []

    def sweep(self, metadata: Metadata, place: str, first: int = 0,
              anew: bool = True) -> Iterator[tuple[int, list[int]]]:
        """Verifies an authenticated provider with these metadata to its end, anew or from the place that the file has.

        Gives of each part where it ended, and the sectors in which a unit fails.
        """
        while True:
            reply = self.must("verify", *["-r"] * anew, self.image.word, place, max(self.sectors - first, 1))
            first, anew = int(reply.last.split(" ")[1]), False
            yield first, [int(row.split(" ")[1]) // 512 // metadata.units for row in reply.rows]
            if first == self.sectors:
                return

    def detach(self) -> None:
        self.must("detach", self.image.word)

    def end(self) -> int:
        """The end of the script, which detaches, and its status. A flush that fails there prints one more line."""
        with contextlib.suppress(OSError):
            self.lines.close()
        rest = self.replies.read().decode().strip()
        status = self.script.wait()
        if rest:
            raise Failed(f"at the end: {Reply.of(rest).told()}")
        return status

    def close(self) -> None:
        """Detaches, and ends well."""
        self.detach()
        if self.end() != 0:
            raise Failed("geli ended with another status than 0")


def memory_file(data: bytes, size: int) -> int:
    """A file in memory of so many bytes, which begins with these."""
    place = os.memfd_create("data")
    os.write(place, data)
    os.ftruncate(place, size)
    return place

"""Copies between a plain file and a provider: by nbdcopy(1) over geli-nbd(8), and else by lines of `geli script`.

The first is quicker. What can't be copied so is only told as such, and `geli script` then says why.
"""
from __future__ import annotations

import contextlib
import itertools
import os
import shutil
import socket
import subprocess
import tempfile
import urllib.parse
from collections.abc import Callable, Iterator, Sequence
from typing import IO

from .image import Image
from .keys import Key
from .program import program
from .session import Session
from .text import slow

PIECE = 1 << 17


def nbdcopy_over() -> str | None:
    """The program that serves nbdcopy, if both are installed and it runs."""
    served = shutil.which(program("geli-nbd"))
    if not served or not shutil.which("nbdcopy"):
        return None
    # The launcher of a clone builds the program now, so that this can be said.
    ran = subprocess.run([served, "--version"], stdin=subprocess.DEVNULL, stdout=subprocess.DEVNULL, check=False)
    return served if ran.returncode == 0 else None


class Copy:
    """An nbdcopy, of whose words URI is a socket at which a geli-nbd serves a provider to it alone."""

    def __init__(self, words: Sequence[str], command: Sequence[str], key: Key, *, writes: int | None = None,
                 stdout: int | None = None) -> None:
        self.processes: list[subprocess.Popen[bytes]] = []
        try:
            with tempfile.TemporaryDirectory(prefix="geli.") as folder, socket.socket(socket.AF_UNIX) as place:
                path = f"{folder}/sock"
                place.bind(path)
                place.listen()
                place.settimeout(0.1)
                uri = f"nbd+unix:///?socket={urllib.parse.quote(path)}"
                words = ["nbdcopy", *(uri if word == "URI" else word for word in words)]
                self.processes.append(subprocess.Popen(words, stderr=subprocess.DEVNULL, stdout=stdout,
                                                       pass_fds=() if writes is None else (writes,)))
                client = self.accepted(place)
            with client:
                self.processes.append(subprocess.Popen(command, stderr=subprocess.PIPE, stdin=client.fileno(),
                                                       stdout=client.fileno(), pass_fds=key.fds))
        except OSError:
            self.break_off()
            raise

    def accepted(self, place: socket.socket) -> socket.socket:
        """The connection of nbdcopy, unless that ends before."""
        while True:
            with contextlib.suppress(socket.timeout):
                client, _ = place.accept()
                client.settimeout(None)
                return client
            if self.processes[0].poll() is not None:
                raise OSError("nbdcopy has ended")

    @property
    def output(self) -> IO[bytes]:
        stream = self.processes[0].stdout
        assert stream
        return stream

    def ended_well(self) -> bool | None:
        """Waits for both: whether all was copied and flushed, and None if the provider wasn't attached."""
        nbdcopy, geli = self.processes[0], self.processes[-1]
        assert geli.stderr
        if geli.stderr.read().startswith(b"error "):
            return None
        return nbdcopy.wait() == 0 and geli.wait() == 0

    def break_off(self) -> None:
        for process in self.processes:
            process.kill()
            process.wait()
            for stream in process.stdout, process.stderr:
                if stream:
                    stream.close()


def copied_in(served: str, key: Key, source: str, image: Image, at: Callable[[int], None]) -> bool | None:
    """Copies a whole file into a provider, and calls `at` with the percentage that is copied.

    Whether that went well, and None where nothing can have been written. Requests are of whole sectors, but for the
    end of the file.
    """
    reads, writes = os.pipe()
    with open(reads, encoding="ascii") as lines:
        try:
            words = ["--flush", "--no-extents", "--sparse=0", f"--progress={writes}", os.path.abspath(source), "URI"]
            copy = Copy(words, [served, *key.words(), image.word], key, writes=writes)
        except OSError:
            return None
        finally:
            os.close(writes)
        try:
            for line in lines:
                at(int(line.partition("/")[0]))
            return copy.ended_well()
        finally:
            copy.break_off()


def pieces_out(served: str, key: Key, image: Image, size: int) -> Iterator[bytes]:
    """Gives the first bytes of a provider, piece by piece, until there are so many, or no more can be copied."""
    try:
        copy = Copy(["URI", "-"], [served, "-r", *key.words(), image.word], key, stdout=subprocess.PIPE)
    except OSError:
        return
    try:
        while size > 0:
            piece = copy.output.read(min(size, PIECE))
            if not piece:
                return
            size -= len(piece)
            yield piece
    finally:
        copy.break_off()


class Reader:
    """The data of a provider: by nbdcopy as far as it goes, and by lines of `geli script` after that."""

    def __init__(self, image: Image, key: Key) -> None:
        self.image, self.key = image, key
        self.served = nbdcopy_over()
        self.session: Session | None = None
        metadata = image.metadata() if self.served else None
        self.width = metadata.sectorsize if metadata else 0
        self.room = self.width * metadata.sectors if metadata else 0
        if not self.room:
            self.attach()

    def attach(self) -> Session:
        self.session = Session(self.image, self.key)
        self.session.attach("-r")
        self.width, self.room = self.session.width, self.session.width * self.session.sectors
        return self.session

    def pieces(self, size: int) -> Iterator[bytes]:
        """The first bytes, piece by piece. If the provider can't be attached, that is reported at once."""
        copied: Iterator[bytes] = iter(())
        if self.served and not self.session:
            slow("deriving the key")
            copied = pieces_out(self.served, self.key, self.image, size)
        first = next(copied, b"")
        if not first and not self.session:
            self.attach()
        return self.all_pieces(itertools.chain([first], copied), size)

    def all_pieces(self, copied: Iterator[bytes], size: int) -> Iterator[bytes]:
        got = 0
        for piece in copied:
            got += len(piece)
            yield piece
        if got < size:
            session = self.session or self.attach()
            first, known = got // self.width, got % self.width
            for piece in session.read_pieces(first, -(-size // self.width) - first):
                yield piece[known:][:size - got]
                got, known = got + len(piece[known:]), 0

    def end(self) -> None:
        if self.session:
            self.session.close()

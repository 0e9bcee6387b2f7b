"""The words `write-image` and `read-image`: all data of a provider, from a plain file or into one."""
from __future__ import annotations

import argparse
import contextlib
import hashlib
import os
from collections.abc import Iterable, Iterator
from typing import IO

from .copying import Reader, copied_in, nbdcopy_over, pieces_out
from .image import Image, absent, kind_of, length_of, readable, room_at, usable
from .keys import Key, key_of
from .program import need
from .session import REQUEST, Session, memory_file
from .text import LEFT, Failed, Progress, note, size_of, slow, sure_of

DIFFERS = "what is read differs from what was written"


def standing(source: str, image: Image, key: Key) -> str:
    """What is in the provider already; nothing if its first MiB is zeros. That of a new image is."""
    if image.is_new:
        return ""
    session = Session(image, key)
    session.attach(is_last=False)
    session.must_hold(source)
    data, size = session.beginning(), session.sectors * session.width
    session.detach()
    session.end()
    if not data.strip(b"\0"):
        return ""
    place = memory_file(data, size)
    try:
        return kind_of(f"/dev/fd/{place}", place) or "data"
    finally:
        os.close(place)


class CopyIn:
    """A plain file that goes into a provider."""

    def __init__(self, source: str, image: Image, key: Key, check: bool) -> None:
        self.source, self.image, self.key, self.check = source, image, key, check
        self.size = length_of(source)
        self.progress = Progress(2 * self.size if check else self.size)

    def halfway(self) -> contextlib.AbstractContextManager[None]:
        """If it is broken off, some sectors are written, which is reported."""
        return LEFT.behind(
            lambda: f"{self.image.name}: some sectors are as before and some as in {self.source}: give this again")

    def copy(self) -> int:
        """Copies; the bytes of a sector."""
        served = nbdcopy_over()
        metadata = self.image.metadata() if served else None
        done = None
        if served and metadata and 0 < self.size <= metadata.sectorsize * metadata.sectors:
            done = self.by_nbdcopy(served, metadata.sectorsize)
            if done:
                return metadata.sectorsize
        return self.by_lines(done is False)

    def by_nbdcopy(self, served: str, width: int) -> bool | None:
        """Copies by nbdcopy; whether that went well, and None if nothing can have been written."""
        slow("deriving the key")
        with self.halfway():
            done = self.fill_up(width) if self.size % width else True
            if done:
                done = copied_in(served, self.key, self.source, self.image,
                                 lambda percent: self.progress.at(self.size * percent // 100))
        if done and self.check:
            self.compare(pieces_out(served, self.key, self.image, self.size))
        return done

    def fill_up(self, width: int) -> bool | None:
        """Writes the last sector, with zeros after the end of the file: nbdcopy leaves the bytes that are there."""
        session = Session(self.image, self.key)
        is_attached = False
        try:
            session.attach(is_last=False)
            is_attached = True
            with open(self.source, "rb") as file:
                file.seek(self.size // width * width)
                session.write(self.size // width, file.read(self.size % width) + bytes(-self.size % width))
            session.detach()
            return session.end() == 0
        except Failed:
            session.end()
            return False if is_attached else None

    def compare(self, pieces: Iterable[bytes]) -> None:
        """Compares the file with what is read again."""
        got = 0
        with open(self.source, "rb") as file:
            for piece in pieces:
                if piece != file.read(len(piece)):
                    raise Failed(DIFFERS)
                got += len(piece)
                self.progress.at(self.size + got)
        if got < self.size:
            raise Failed(f"after {got} bytes nothing more could be read again")

    def by_lines(self, is_begun: bool) -> int:
        """Copies by lines of `geli script`; the bytes of a sector."""
        session = Session(self.image, self.key)
        with self.halfway() if is_begun else contextlib.nullcontext():
            session.attach()
        width = session.width
        session.must_hold(self.source)
        whole = hashlib.sha256()
        with self.halfway():
            with open(self.source, "rb") as file:
                session.write_pieces(self.pieces(file, width, whole))
            session.must("flush", self.image.word)
        if self.check:
            back, got = hashlib.sha256(), self.size
            for piece in session.read_pieces(0, -(-self.size // width)):
                back.update(piece)
                got += len(piece)
                self.progress.at(got)
            if back.digest() != whole.digest():
                raise Failed(DIFFERS)
        session.close()
        return width

    def pieces(self, file: IO[bytes], width: int, whole: hashlib._Hash) -> Iterator[tuple[int, bytes]]:
        """Gives the first sector and the bytes of each line, the last ones with zeros after the end of the file."""
        count = -(-self.size // width)
        for at in range(0, count, REQUEST // width):
            some = min(REQUEST // width, count - at)
            wanted = min(some * width, self.size - at * width)
            piece = file.read(wanted)
            if len(piece) < wanted:
                raise Failed(f"{self.source} became shorter meanwhile")
            piece += bytes(-len(piece) % width)
            whole.update(piece)
            yield at, piece
            self.progress.at((at + some) * width)


def write_image(args: argparse.Namespace) -> int:
    """Writes a plain file, such as a filesystem image, into a provider, byte for byte from its sector 0 on.

    The data in those sectors of the provider are overwritten: a filesystem there is lost, with all its files. So the
    name of the image must be typed, unless the first MiB of its data is zeros, or can't be read; -f doesn't ask. (To
    copy files into a filesystem, mount it.) If SOURCE ends within a sector, the rest of that sector becomes zeros.

    It uses nbdcopy(1) over geli-nbd(8) if both are installed, and else lines of one `geli script`. Status 0:
    everything was written and flushed. If it is broken off, some sectors are new and some old: run it again.
    """
    image = Image.of(args.image)
    source = usable(args.source)
    need()
    readable(source)
    image.is_there(written=True)
    for file in image.files:
        if os.path.samefile(source, file):
            raise Failed(f"'{source}' and '{file}' are one file")
    key = key_of(args)
    key.ready(image)
    there = "" if args.force else standing(source, image, key)
    if there:
        note(f"{image.name}: there is something in it, {there}: its first {length_of(source)} bytes will be lost (to"
             " copy files into a filesystem: vuthrel mount)")
        sure_of(image.name, "copy over it", " (-f does it without)")
    copy = CopyIn(source, image, key, args.check)
    width = copy.copy()
    copy.progress.end(f"{copy.size} bytes in {-(-copy.size // width)} sectors of {width} bytes"
                      + ", read again" * args.check)
    note(f"vuthrel read-image -b {copy.size} gives them back")
    return 0


class CopyOut:
    """The data of a provider that go into a new file, which has another name until all is read and synced."""

    def __init__(self, target: str) -> None:
        self.target, self.part = target, f"{target}.part"
        self.got = 0

    def put(self, pieces: Iterable[bytes], progress: Progress) -> None:
        """Writes the pieces; one of zeros becomes a hole."""
        said = LEFT.behind(
            lambda: f"{self.part} has the {self.got} bytes before, in the clear: remove it, and give this again")
        with open(self.part, "xb") as file:
            with said:
                for piece in pieces:
                    if piece.strip(b"\0"):
                        file.write(piece)
                    else:
                        file.seek(len(piece), os.SEEK_CUR)
                    self.got += len(piece)
                    progress.at(self.got)
                file.truncate(self.got)
                file.flush()
                os.fsync(file.fileno())


def read_image(args: argparse.Namespace) -> int:
    """Reads a provider's data, from its sector 0 on, into a new plain file, byte for byte.

    TARGET must not exist; it holds the data in the clear, and has holes where they are zeros. The image isn't changed.
    Until all is read and synced the file is called TARGET.part. It keeps that name if a sector can't be read, or the
    copy is broken off. It uses nbdcopy(1) over geli-nbd(8) if both are installed, and else lines of one `geli script`.
    """
    image = Image.of(args.image)
    target = usable(args.target)
    need()
    size = size_of(args.bytes) if args.bytes else 0
    image.is_there()
    absent(target, f"{target}.part")
    key = key_of(args)
    key.ready(image)
    reader = Reader(image, key)
    if not size:
        note(f"all {reader.room} bytes of the provider are copied (-b: only the first ones)")
        size = reader.room
    if size > reader.room:
        raise Failed(f"the provider has {reader.room} bytes, fewer than {size}")
    room = room_at(os.path.dirname(target) or ".")
    if size > room:
        raise Failed(f"{size} bytes are to be copied, and the disk of {target} has room for {room} (-b: only the first"
                     " ones)")
    progress, copy = Progress(size), CopyOut(target)
    copy.put(reader.pieces(size), progress)
    reader.end()
    os.rename(copy.part, target)
    progress.end(f"{size} bytes")
    return 0

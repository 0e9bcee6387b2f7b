"""The words `make` and `grow`: a new provider, and a longer one."""
from __future__ import annotations

import argparse
import os
import re
import shlex
import stat
import subprocess

from .image import NEW, Image, absent, lengthen, locked, plain, same, sync, text
from .keys import Key, apart, key_of
from .metadata import SECTOR, Metadata
from .program import Reply, ask, need
from .session import Session
from .text import LEFT, Failed, Progress, note, size_of, slow, sure_of

SMALLEST = 65536  # bytes of an image
KEY_BYTES = 64  # of a new key file
WHOLE = 4096  # bytes of which an image has a multiple
BEFORE_ANY_WRITE = (5, 6, 7, 29, 32, 34, 35)  # refusals of `resize` that come before its first write


def must_write(place: int, data: bytes) -> None:
    """Writes all of it."""
    if os.write(place, data) != len(data):
        raise OSError("there is no room for it")


class Disk:
    """A disk, or an existing file, over which a provider is made: all that is on it is lost."""

    def __init__(self, name: str) -> None:
        self.name = name

    def size(self) -> int:
        """Its bytes, if nobody else uses it and the user confirms its loss."""
        mode = os.stat(self.name).st_mode if os.path.exists(self.name) else 0
        if not (stat.S_ISBLK(mode) or stat.S_ISREG(mode)):
            raise Failed(f"'{self.name}' is no disk")
        if not os.access(self.name, os.W_OK):
            raise Failed(f"'{self.name}' can't be written")
        try:
            disk = os.open(self.name, os.O_RDWR | os.O_EXCL)  # which says nothing of a file
        except OSError:
            raise Failed(f"nothing was changed: '{self.name}' is mounted, or otherwise in use") from None
        size = os.lseek(disk, 0, os.SEEK_END)
        os.close(disk)
        loop = self.loop() if stat.S_ISREG(mode) else ""
        if loop:
            raise Failed(f"nothing was changed: '{self.name}' is in use by a loop device: {loop}")
        note(f"{self.name}: all that is on it, {size} bytes, will be lost")
        sure_of(self.name, "make a provider over it")
        return size

    def loop(self) -> str:
        ran = subprocess.run(["losetup", "-n", "-O", "NAME", "-j", plain(self.name)], stdout=subprocess.PIPE,
                             check=False)
        return ran.stdout.decode(errors="replace").strip() if ran.returncode == 0 else ""

    def clear(self, size: int) -> None:
        """Nothing of what was there is found again: where a LUKS2 was, `cryptsetup isLuks` alone would write over the
        new data. The first MiB becomes zeros, by which `vuthrel mount -m` knows that it is new."""
        name = plain(self.name)
        if subprocess.run(["wipefs", "-aq", "--", name], check=False).returncode:
            raise Failed(f"what was on '{name}' can't be removed")
        try:
            with open(name, "r+b") as file:
                file.write(bytes(min(size // SMALLEST * SMALLEST, NEW)))
        except OSError:
            raise Failed(f"'{name}' can't be written") from None


class Make:
    """A new provider: its image, its key file and its backup."""

    def __init__(self, args: argparse.Namespace, words: list[str]) -> None:
        self.args = args
        self.image = Image.of(words[0])
        self.name, self.keyfile, self.backup = plain(words[0]), plain(words[1]), plain(words[2])
        self.key = Key()

    def names_differ(self) -> None:
        if self.image.is_layer:
            raise Failed(f"'{self.image.name}' asks for a layer over a file: make the file, or name it"
                         f" ./{self.image.name}")
        absent(self.backup)
        text(self.backup)
        for other in self.keyfile, self.name:
            if os.path.realpath(other) == os.path.realpath(self.backup):
                raise Failed(f"BACKUP and '{other}' are one file")
        if same(self.keyfile, self.name):
            raise Failed(f"KEYFILE and '{self.name}' are one file")

    def take_passphrase(self) -> None:
        for name in self.args.new_pass_file[-1:]:
            self.key.add_new_passfile(name)
        self.key.prompt("new passphrase", twice=True)

    def take_key_file(self) -> None:
        """Takes the key file as it stands, or makes one: not through a link, nor over what another has made there."""
        if os.path.exists(self.keyfile):
            if os.path.isfile(self.keyfile) and not os.path.getsize(self.keyfile):
                raise Failed(f"the key file '{self.keyfile}' is empty")
            note(f"key file: {self.keyfile}, as it stands")
        else:
            try:
                with open(self.keyfile, "xb", buffering=0) as file:
                    place = file.fileno()
                    apart(lambda: must_write(place, os.urandom(KEY_BYTES)))
            except OSError:
                raise Failed(f"the key file '{self.keyfile}' can't be made") from None
            note(f"key file: {self.keyfile}, new, of {KEY_BYTES} random bytes")
        self.key.add_files([self.keyfile])
        sync(self.keyfile)  # it must be on the disk before anything is locked by it

    def half(self) -> str:
        """What is said where it stops halfway."""
        what = f"'{self.name}' is only half made. Remove it, and"
        if self.args.over_disk:
            what = f"'{self.name}' may have lost what was on it, and has no provider yet. Remove"
        return f"{what} '{self.backup}' if it is there, and give this again: '{self.keyfile}' can stay"

    def lay(self, size: int) -> None:
        """Makes the image, or clears the disk."""
        if self.args.over_disk:
            Disk(self.image.name).clear(size)
            return
        try:
            with open(self.name, "xb"):
                pass
        except OSError:
            raise Failed(f"'{self.name}' can't be made") from None
        lengthen(self.name, size, self.args.allocate)

    def init(self) -> None:
        slow("making the key, and trying it")
        auth = ["-a", "HMAC/SHA256"] * self.args.authenticate
        reply = self.image.ask("init", *auth, "-e", "AES-XTS", "-l", "256", "-s", "4096", "-i", self.args.iterations,
                               *self.key.words(new=True), "-B", self.backup, fds=self.key.fds)
        # 28 at the word of the backup means that the provider was made: its metadata are at the end of the image.
        if reply.number == 28:
            raise Failed(f"{reply.last}: where the provider was made, its backup wasn't stored")
        if not reply.is_served:
            raise Failed(reply.told(self.image.files))
        reply = self.key.opens(self.image)
        if not reply.is_served:
            raise Failed(f"the new key doesn't open it: {reply.told(self.image.files)}")

    def write_sectors(self) -> None:
        """Writes every sector once: one of an authenticated provider that was never written can't be read."""
        session = Session(self.image, self.key)
        session.attach()
        progress = Progress(session.sectors * session.width)
        session.zeros(0, progress)
        session.detach()
        session.end()
        progress.end(f"{session.sectors} sectors written once")


def make(args: argparse.Namespace) -> int:
    """Makes a new image with an encrypted provider in it, and backs its keys up.

    SIZE is in bytes, or such as 80M or 2G, a multiple of 4096. IMAGE and BACKUP must not exist: nothing is
    overwritten. If KEYFILE exists it is used; otherwise it is made, of 64 random bytes. The passphrase is asked for
    twice. Opening the provider takes both the key file and the passphrase.

    IMAGE is a sparse file: it takes space on the disk as sectors are written, so a disk that is full later makes
    writes fail. With -f it takes all of its space now. Deleting files in the provider later frees no space on the
    disk.

    -d: over a disk, such as /dev/sdb, or over an existing file, in place of SIZE IMAGE. All that is on it is lost, so
    its name must be typed. Its first MiB becomes zeros, and the marks of what was on it are removed (wipefs), so that
    no program finds that again.

    The provider has AES-XTS with keys of 256 bits, sectors of 4096 bytes and 1,000,000 iterations. With -a its sectors
    are authenticated by HMAC/SHA256 and each of them is written once, with zeros. BACKUP gets a copy of the metadata.
    Keep it apart from the image, and as safe: it opens with the key of today, whatever is changed later.
    """
    words = list(args.operands)
    size = 0 if args.over_disk else size_of(words.pop(0))
    work = Make(args, words)
    if not re.fullmatch("[1-9][0-9]{0,9}", args.iterations):
        raise Failed(f"'{args.iterations}' is no number of iterations")
    need(*["wipefs", "losetup"] * args.over_disk)
    work.names_differ()
    if args.over_disk:
        size = Disk(work.image.name).size()
    else:
        absent(work.name)
    if size < SMALLEST:
        raise Failed(f"the size must be {SMALLEST} at least")
    if not args.over_disk and size % WHOLE:
        raise Failed(f"the size must be a multiple of {WHOLE}")
    work.take_passphrase()
    work.take_key_file()
    with LEFT.behind(work.half):
        work.lay(size)
        work.init()
        if args.authenticate:
            work.write_sectors()
        sync(work.name, work.backup)
    note(f"{work.name}: a provider with the key of {work.keyfile} and the passphrase")
    note(f"keep {work.keyfile} and {work.backup} apart from {work.name}; nobody can open it without {work.keyfile} and"
         " the passphrase")
    return 0


class Grow:
    """An image that becomes longer, and the provider in it."""

    def __init__(self, args: argparse.Namespace) -> None:
        self.image = Image.of(args.image)
        self.resumed = bool(args.old_size)
        self.allocate: bool = args.allocate
        self.old = self.old_size(args.old_size)
        for file in self.image.files:
            if not os.path.isfile(file) or not os.access(file, os.W_OK):
                raise Failed(f"'{file}' is no file that can be written")
        self.grown = plain(self.image.files[-1])  # the file that grows
        before = self.image.files[:-1]  # those before it have whole device sectors
        self.before = sum(os.path.getsize(file) // SECTOR * SECTOR for file in before)
        self.length = self.before + os.path.getsize(self.grown)
        self.size = self.new_size(args.size)
        self.is_longer = False
        self.again = ""  # how to go on, where that isn't the usual way
        self.key = Key()

    @staticmethod
    def old_size(word: str) -> int:
        if not word:
            return 0
        size = size_of(word)
        if size % SECTOR or size < 1024:
            raise Failed("the old size must be a multiple of 512, and 1024 or more")
        return size

    def new_size(self, word: str) -> int:
        """The new length that a word says: +1G is so much more than the image has."""
        more = word.startswith("+")
        size = size_of(word.removeprefix("+")) + (self.length if more else 0)
        if more:
            size -= size % WHOLE
        if size % WHOLE:
            raise Failed(f"the size must be a multiple of {WHOLE}")
        if self.length > size:
            raise Failed(f"the image has {self.length} bytes, more than {size}")
        return size

    def opens(self) -> Reply:
        return self.key.opens(self.image)

    def has_length(self) -> bool:
        """Whether the file that grows is as long as it was."""
        return os.path.getsize(self.grown) == self.length - self.before

    def try_key(self) -> None:
        """The key must open it before anything is changed."""
        slow("trying the key")
        reply = self.key.tried(self.opens)
        if not reply.is_served:
            raise Failed(f"nothing was changed: {reply.told(self.image.files)}")
        self.old = self.length // SECTOR * SECTOR
        if self.length >= self.size:
            raise Failed(f"the image has {self.size} bytes already")

    def how_to_go_on(self) -> str:
        """What is said where the work stops: nothing as long as the file is as it was."""
        if not self.is_longer and self.has_length():
            return ""
        return self.again or f"the metadata are at the old end, or at the new one: give this again, with -s {self.old}"

    def move(self) -> None:
        """Makes the image longer, and moves the metadata to its new end."""
        with LEFT.behind(self.how_to_go_on):
            # Once the image is longer, `resize` must not be refused because another program holds it.
            with locked(self.grown):
                if not self.has_length():
                    raise Failed(f"nothing was changed: another program has changed the length of '{self.grown}'"
                                 " meanwhile")
                lengthen(self.grown, self.size - self.before, self.allocate)
                self.is_longer = True
                sync(self.grown)
            slow("moving the metadata: six passes over the old ones")
            reply = ask("resize", "-s", str(self.old), self.image.word)
            if not reply.is_served:
                self.not_resized(reply)
            reply = self.opens()
            if not reply.is_served:
                raise Failed(f"the key doesn't open it: {reply.told(self.image.files)}")

    def not_resized(self, reply: Reply) -> None:
        """A `resize` that is refused. If that may come between two of its writes, only the new end of the image may
        have metadata: it must stay as long as it is."""
        if reply.number in BEFORE_ANY_WRITE:
            self.again = "no metadata were written"
            if self.resumed:
                self.again += f": is {self.old} the length that the provider had before?"
            if self.length != self.size:
                truncate = f"truncate -s {self.length - self.before} {shlex.quote(self.grown)}"
                self.again += f"\nwhere nothing else changed the image, '{truncate}' makes it as it was"
        raise Failed(reply.told(self.image.files))

    def write_new_sectors(self) -> None:
        """Writes the new sectors of an authenticated provider once: they couldn't be read otherwise."""
        session = Session(self.image, self.key)
        metadata: Metadata = session.metadata()
        session.attach()
        if metadata.is_tagged:
            first = metadata.sectors_in(self.old)
            progress = Progress((session.sectors - first) * session.width)
            write = session.zeros_where_unreadable if self.resumed else session.zeros
            write(first, progress)
            progress.end(f"{session.sectors - first} new sectors written once")
        session.detach()
        session.end()


def grow(args: argparse.Namespace) -> int:
    """Makes an image longer, and the provider in it, and backs its new metadata up.

    SIZE is the new length in bytes, or such as 80M or 2G, a multiple of 4096; +1G is so much more than it has. BACKUP
    must not exist. The data stay where they are. The new part of the file takes no space on the disk until it is
    written; with -f it takes all of it now. In `join:FIRST:SECOND` the second file grows.

    If power fails on the way, the metadata are at their old place or at the new one. If the image opens, all is well.
    If it doesn't (error 5), run this again with -s and the length that the image had before. Do so too if an error
    occurs on the way. Don't make the file shorter then: its end may have the only metadata.

    The new sectors of an authenticated provider are written once, with zeros. If that is broken off, -s goes on with
    it: it writes those that can't be read. Older backups don't fit any more: `vuthrel restore -f` restores them
    nevertheless. The filesystem in the provider stays as large as it was: `vuthrel mount -g` grows an ext4.
    """
    work = Grow(args)
    backup = plain(args.backup)
    need()
    absent(backup)
    text(backup)
    work.key = key_of(args)
    work.key.ready(work.image)
    if not work.resumed:
        work.try_key()
    if not work.resumed or work.length < work.size or not work.opens().is_served:
        work.move()
    with LEFT.behind(lambda: f"'{args.image}' has grown. Give this again, with -s {work.old}, to write the new sectors"
                             " and the backup"):
        work.write_new_sectors()
        work.image.store(backup, "the provider has grown, its backup wasn't stored")
        sync(backup)
    note(f"{args.image}: a provider in {work.size} bytes")
    note("the filesystem in it is as large as before: vuthrel mount -g grows an ext4")
    note(f"keep {backup} apart from {args.image}")
    return 0

"""Images and other files: their names as words of geli, how long they are, and what is in them."""
from __future__ import annotations

import contextlib
import fcntl
import os
import re
import shutil
import stat
import subprocess
import tempfile
from collections.abc import Iterator
from dataclasses import dataclass

from .metadata import BACKUP, MAGIC, SECTOR, Metadata
from .program import REFUSALS, UNSERVED, Reply, ask
from .text import Failed, note

PLAIN = re.compile("[A-Za-z0-9._/:,+=@%~^-]+")  # names that a line of a script can hold
NEW = 1 << 20  # bytes that are zeros at the beginning of a provider, or a file, if nobody wrote to it yet
LARGEST_SECTOR = 65536  # bytes, of which a backup that FreeBSD made has as many as a sector of its disk


class Private:
    """A folder in memory, which goes away when the command ends. No key or passphrase is put there."""

    def __init__(self) -> None:
        self.folder = ""
        self.links = 0

    def path(self) -> str:
        if not self.folder:
            for memory in os.environ.get("XDG_RUNTIME_DIR", ""), "/dev/shm", os.environ.get("TMPDIR") or "/tmp":
                if os.path.isdir(memory) and os.access(memory, os.W_OK) and not re.search(r"[\s:]", memory):
                    self.folder = tempfile.mkdtemp(prefix="geli.", dir=memory)
                    break
            else:
                raise Failed("there is no folder for links: TMPDIR names another, without blanks")
        return self.folder

    def link(self, name: str) -> str:
        """A name without blanks for a file."""
        self.links += 1
        link = f"{self.path()}/name{self.links}"
        os.symlink(os.path.abspath(name), link)
        return link

    def remove(self) -> None:
        if self.folder:
            shutil.rmtree(self.folder, ignore_errors=True)
        self.folder = ""


PRIVATE = Private()


def usable(name: str) -> str:
    """Refuses an empty name, and one that ends in a newline: a shell takes that away, and means another file."""
    if not name:
        raise Failed("a file name is empty")
    if name.endswith("\n"):
        raise Failed(f"the name of a file ends in a newline, and is refused: {name}")
    return name


def plain(name: str) -> str:
    """The name of a file, so that it is no option, and no layer."""
    return usable(name) if "/" in name else f"./{usable(name)}"


def word_of(name: str) -> str:
    """A name of a file that a line of a script can hold. Where the name itself can't, that is a link."""
    return plain(name) if PLAIN.fullmatch(usable(name)) else PRIVATE.link(name)


def text(name: str) -> str:
    """The name of a file that geli makes: a link doesn't help there."""
    try:
        name.encode()
    except UnicodeError:
        raise Failed(f"the name '{name}' is no UTF-8: use another") from None
    return name


def absent(*names: str) -> None:
    """Nothing is overwritten."""
    for name in names:
        if os.path.lexists(name):
            raise Failed(f"'{name}' is there already: it is left alone")


def readable(name: str) -> None:
    """It is a file, or a block device, that can be read."""
    if not os.path.exists(name):
        raise Failed(f"there is no file '{name}'")
    mode = os.stat(name).st_mode
    if not os.access(name, os.R_OK) or not (stat.S_ISREG(mode) or stat.S_ISBLK(mode)):
        raise Failed(f"'{name}' is no file that can be read")


def same(one: str, other: str) -> bool:
    """Whether two names lead to one file, or would."""
    with contextlib.suppress(OSError):
        return os.path.samefile(one, other)
    return os.path.realpath(one) == os.path.realpath(other)


def length_of(path: str) -> int:
    """The bytes of a file or a block device."""
    with open(path, "rb") as file:
        return file.seek(0, os.SEEK_END)


def is_zeros(path: str, behind: int = 0) -> bool:
    """Whether nobody wrote to a file yet, as far as its beginning tells, but for so many bytes at its end."""
    with open(path, "rb") as file:
        size = file.seek(0, os.SEEK_END) - behind
        file.seek(0)
        return not file.read(max(min(size, NEW), 0)).strip(b"\0")


def room_at(path: str) -> int:
    """The bytes that the disk of a file has room for."""
    disk = os.statvfs(path)
    return disk.f_bavail * disk.f_frsize


def lengthen(name: str, size: int, allocated: bool) -> None:
    """Makes a file so long; its new part takes no space on the disk before it is written, unless it is allocated."""
    try:
        with open(name, "r+b") as file:
            if allocated:
                os.posix_fallocate(file.fileno(), 0, size)
                return
            file.truncate(size)
    except OSError:
        raise Failed(f"there is no room for '{name}'") from None
    if room_at(name) < size:
        note(f"note: '{name}' may come to take {size} bytes, and its disk has room for {room_at(name)} (-f takes all"
             " now)")


def sync(*names: str) -> None:
    """These files, and their names, are on the disk. A pipe has none."""
    for name in filter(os.path.isfile, names):
        for path in name, os.path.dirname(os.path.realpath(name)):
            place = os.open(path, os.O_RDONLY)
            try:
                os.fsync(place)
            finally:
                os.close(place)


def kind_of(name: str, *fds: int) -> str:
    """What blkid(8) says that a file has, such as ext4 or gpt; nothing where it knows nothing, or isn't there."""
    with contextlib.suppress(FileNotFoundError):
        said = subprocess.run(["blkid", "-p", "-o", "export", name], stdout=subprocess.PIPE, stderr=subprocess.DEVNULL,
                              pass_fds=fds, check=False).stdout.decode(errors="replace")
        facts = dict(row.split("=", 1) for row in said.splitlines() if "=" in row)
        return facts.get("TYPE") or facts.get("PTTYPE") or ""
    return ""


def files_of(image: str) -> tuple[str, ...]:
    """The files of the word for an image: of layers those that they lie over."""
    layers = re.fullmatch("behind:(.+)|join:([^:]+):(.+)", image, re.DOTALL)
    return tuple(part for part in layers.groups() if part) if layers else (image,)


@dataclass(frozen=True)
class Image:
    """An image: its name as given, as a word of geli, and the files that it lies in.

    As for geli itself, `behind:FILE` and `join:FILE:FILE` are layers over files; ./behind:FILE is a file of that name.
    """

    name: str
    word: str
    files: tuple[str, ...]

    @classmethod
    def of(cls, name: str) -> Image:
        files = files_of(usable(name))
        if files == (name,):
            return cls(name, word_of(name), files)
        return cls(name, ":".join([name.partition(":")[0], *map(word_of, files)]), files)

    @property
    def is_layer(self) -> bool:
        return self.files != (self.name,)

    def is_there(self, written: bool = False) -> None:
        """Its files can be read, and written."""
        for file in self.files:
            readable(file)
            if written and not os.access(file, os.W_OK):
                raise Failed(f"'{file}' can't be written")

    @property
    def length(self) -> int:
        """Its bytes: of two files that are joined, the whole device sectors."""
        if len(self.files) == 1:
            return length_of(self.files[0])
        return sum(length_of(file) // SECTOR * SECTOR for file in self.files)

    @property
    def is_new(self) -> bool:
        """Whether nobody wrote yet to the data of a provider in it: its metadata are at the end."""
        return is_zeros(self.files[0], SECTOR)

    def ask(self, verb: str, *words: str, fds: tuple[int, ...] = ()) -> Reply:
        """The reply to a command on it."""
        return ask(verb, *words, self.word, fds=fds)

    def must(self, what: str, verb: str, *words: str) -> Reply:
        """The reply to a command on it that must be served."""
        reply = self.ask(verb, *words)
        if not reply.is_served:
            raise Failed(f"{what}{reply.told(self.files)}")
        return reply

    def metadata(self) -> Metadata | None:
        """Its metadata, without a key; nothing if they can't be read."""
        reply = self.ask("dump")
        return Metadata.of_rows(reply.rows) if reply.is_served else None

    def unserved(self) -> Reply | None:
        """The refusal of metadata that nobody can attach, by any key. No key is derived for that."""
        reply = self.ask("attach", "-C", "-p", "-k", os.fspath(REFUSALS))
        return reply if reply.number in UNSERVED else None

    def store(self, backup: str, otherwise: str) -> None:
        """Puts its metadata into a new file."""
        reply = ask("backup", self.word, backup)
        if not reply.is_served:
            raise Failed(f"{otherwise}: {reply.told(self.files)}")


def is_backup(name: str) -> bool:
    """Whether a file begins as a backup of metadata does, and isn't too long for one."""
    if not os.path.isfile(name) or os.path.getsize(name) > LARGEST_SECTOR:
        return False
    with open(name, "rb") as file:
        return file.read(9) == MAGIC[:9]


class Trial:
    """An image of zeros that ends with the metadata of a backup, as large as they say: it takes no space."""

    def __init__(self, backup: str) -> None:
        path = f"{PRIVATE.path()}/trial"
        self.image = Image(path, path, (path,))
        with open(backup, "rb") as file:
            self.last = file.read(BACKUP) + b"\0"
        self.write(1024)
        self.reply = self.image.ask("dump")
        self.metadata = Metadata.of_rows(self.reply.rows) if self.reply.is_served else None
        if self.metadata and 1024 <= self.metadata.provsize < 10**15:
            self.write(self.metadata.provsize)

    def write(self, size: int) -> None:
        try:
            with open(self.image.name, "wb") as file:
                file.truncate(size - SECTOR)
                file.seek(0, os.SEEK_END)
                file.write(self.last)
        except OSError:
            raise Failed(f"no image of {size} bytes can be made in '{PRIVATE.path()}'") from None


@contextlib.contextmanager
def locked(name: str) -> Iterator[None]:
    """Nobody else holds a file meanwhile."""
    with open(name, "r+b") as file:
        try:
            fcntl.flock(file, fcntl.LOCK_EX | fcntl.LOCK_NB)
        except OSError:
            raise Failed(f"nothing was changed: another program holds '{name}' (as vuthrel serve -e or vuthrel umount"
                         " ends it)") from None
        yield

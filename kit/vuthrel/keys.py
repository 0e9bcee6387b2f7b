"""Keys: the options -k -j -p, of a new key -K -J -P, prompts, and passphrases in files that have no name.

No process of this package ever has a passphrase in its memory but for a child that ends with that: it reads what is
typed, or comes by a pipe, into a file in memory. The programs inherit it, and it is gone once the last has ended.
"""
from __future__ import annotations

import argparse
import contextlib
import os
import signal
import stat
import termios
from collections.abc import Callable
from dataclasses import dataclass, field

from .image import Image, usable, word_of
from .program import EMPTY_SLOT, WRONG_KEY, Reply
from .text import SIGNALS, Failed, called_as, has_terminal, note

LARGEST_KEY_FILE = 1048576  # bytes, as for geli itself
MANY = 50000000  # iterations, of which each try of a key takes about a minute
TRIES = 3  # of a passphrase that is typed
PIECE = 65536


def apart(work: Callable[[], None]) -> None:
    """Does work that sees a passphrase in a child, which ends with it. What fails there is said there."""
    child = os.fork()
    if child == 0:
        status = 1
        try:
            for number in SIGNALS:
                signal.signal(number, signal.SIG_DFL)
            work()
            status = 0
        except (Failed, OSError) as failed:
            note(f"{called_as()}: {failed}")
        finally:
            os._exit(status)  # pylint: disable=protected-access  # what is above isn't done twice
    try:
        _, status = os.waitpid(child, 0)
    except KeyboardInterrupt:
        with contextlib.suppress(ProcessLookupError, ChildProcessError):  # the signal may have ended it too
            os.kill(child, signal.SIGKILL)
            os.waitpid(child, 0)
        raise
    if status:
        raise SystemExit(130 if os.WIFSIGNALED(status) else os.waitstatus_to_exitcode(status))


def in_memory() -> int:
    """An empty file without a name; it goes with the last process that has it, however that ends."""
    return os.memfd_create("passphrase", 0)


def typed_line(terminal: int, prompt: str) -> bytes:
    os.write(terminal, prompt.encode(errors="surrogateescape"))
    line = b""
    while not line.endswith(b"\n"):
        piece = os.read(terminal, PIECE)
        if not piece:
            raise Failed("nothing was typed")
        line += piece
    os.write(terminal, b"\n")
    return line


def ask_into(place: int, what: str, twice: bool) -> None:
    """Asks at the terminal, and puts what is typed into a file. ^Z is ignored: what is typed would be shown after
    it."""
    if not has_terminal():
        raise Failed(f"no terminal to ask for the {what}: name a file whose first line it is, by -j (a new one: -J)")
    terminal = os.open("/dev/tty", os.O_RDWR | os.O_NOCTTY)

    def read() -> None:
        line = typed_line(terminal, f"{what}: ")
        if line == b"\n":
            raise Failed(f"the {what} is empty")
        if twice and typed_line(terminal, f"{what}, again: ") != line:
            raise Failed("the two differ, nothing was done")
        os.ftruncate(place, 0)
        os.pwrite(place, line, 0)

    stops = signal.signal(signal.SIGTSTP, signal.SIG_IGN)
    shown = termios.tcgetattr(terminal)
    hidden = list(shown)
    hidden[3] = int(hidden[3]) & ~termios.ECHO
    try:
        termios.tcsetattr(terminal, termios.TCSAFLUSH, hidden)
        apart(read)
    finally:
        termios.tcsetattr(terminal, termios.TCSADRAIN, shown)
        signal.signal(signal.SIGTSTP, stops)
        os.close(terminal)


@dataclass
class Key:
    """The parts of a key, as words of geli."""

    files: list[str] = field(default_factory=list)
    passfiles: list[str] = field(default_factory=list)
    bare: bool = False
    fds: tuple[int, ...] = ()  # of the files in memory
    asked: int | None = None  # that which has what was typed

    @property
    def has_passphrase(self) -> bool:
        """Whether the options say what the passphrase is, or that there is none."""
        return self.bare or bool(self.passfiles)

    @property
    def is_given(self) -> bool:
        return self.has_passphrase or bool(self.files)

    def stays(self, name: str) -> str:
        """A name of a file that can be read again and again, by other processes too.

        A pipe, as of `-j <(pass show disk)`, is copied into memory: a device, or what has no end, isn't.
        """
        usable(name)
        if not os.access(name, os.R_OK) or os.path.isdir(name):
            if name == "-":
                raise Failed("the file '-' can't be read: standard input is /dev/stdin")
            if not os.path.exists(name):
                raise Failed(f"there is no file '{name}'")
            raise Failed(f"the file '{name}' can't be read")
        mode = os.stat(name).st_mode
        if stat.S_ISBLK(mode):
            raise Failed(f"'{name}' is a disk, and no key file or passphrase file")
        if stat.S_ISREG(mode) and mode & 0o6:
            note(f"note: everybody may use the file '{name}'")
        if stat.S_ISREG(mode) and not name.startswith(("/dev/", "/proc/")):
            return word_of(name)
        return self.copied(name)

    def copied(self, name: str) -> str:
        """The name of a copy in memory."""
        place = in_memory()
        self.fds += (place,)

        def copy() -> None:
            with open(name, "rb", buffering=0) as file:
                size = 0
                while size <= LARGEST_KEY_FILE and (piece := file.read(PIECE)):
                    size += os.write(place, piece)

        apart(copy)
        if os.fstat(place).st_size > LARGEST_KEY_FILE:
            raise Failed(f"'{name}' has more than 1 MiB: no key file is longer")
        return f"/dev/fd/{place}"

    def add_files(self, names: list[str]) -> None:
        self.files += map(self.stays, names)

    def add_passfiles(self, names: list[str]) -> None:
        self.passfiles += map(self.stays, names)

    def add_new_passfile(self, name: str) -> None:
        """A passphrase that a new key is to be made of. An empty one is refused."""
        word = self.stays(name)

        def look() -> None:
            with open(word, "rb", buffering=0) as file:
                whole = file.read(PIECE)
            if not whole:
                raise Failed(f"the passphrase file '{name}' is empty")
            line = whole.split(b"\n", 1)[0]
            if not line:
                raise Failed(f"the first line of the passphrase file '{name}' is empty")
            if line.endswith(b"\r"):
                note(f"note: the passphrase in '{name}' ends with a carriage return, which counts")

        apart(look)
        self.passfiles.append(word)

    def prompt(self, what: str, twice: bool = False) -> None:
        """Asks for the passphrase, if no option says what it is."""
        if self.has_passphrase:
            return
        self.asked = in_memory()
        self.fds += (self.asked,)
        ask_into(self.asked, what, twice)
        self.passfiles.append(f"/dev/fd/{self.asked}")

    def ready(self, image: Image) -> None:
        """Asks for the passphrase of an image, and says it if a try of the key takes long.

        A provider of somebody else may ask for as many iterations as there can be.
        """
        self.prompt("passphrase")
        metadata = image.metadata()
        if metadata and metadata.iterations >= MANY:
            note(f"note: a key of '{image.name}' goes through {metadata.iterations} iterations of PBKDF2: each try may"
                 f" take {metadata.iterations // MANY} minutes and more")

    def words(self, new: bool = False) -> list[str]:
        k, j, p = tuple("KJP" if new else "kjp")
        words = [word for name in self.files for word in (f"-{k}", name)]
        words += [word for name in self.passfiles for word in (f"-{j}", name)]
        return words + [f"-{p}"] * self.bare

    def tried(self, attempt: Callable[[], Reply]) -> Reply:
        """The reply to an attempt with this key. If a passphrase that was typed is wrong, it is asked for again."""
        reply = attempt()
        for _ in range(TRIES - 1):
            if self.asked is None or reply.number != WRONG_KEY:
                break
            note("wrong passphrase or wrong key file: again")
            ask_into(self.asked, "passphrase", False)
            reply = attempt()
        return reply

    def opens(self, image: Image, slot: int | None = None) -> Reply:
        """The reply to a try of the key, which attaches nothing."""
        at = [] if slot is None else ["-n", str(slot)]
        return image.ask("attach", "-C", *at, *self.words(), fds=self.fds)

    def slot_of(self, image: Image) -> tuple[int | None, Reply]:
        """The slot that it opens, and the reply; another refusal than a wrong key or an empty slot ends the search."""
        wrong = Reply((), f"error {WRONG_KEY} WrongKey")
        for slot in (0, 1):
            reply = self.opens(image, slot)
            if reply.is_served:
                return slot, reply
            if reply.number not in (WRONG_KEY, EMPTY_SLOT):
                return None, reply
        return None, wrong

    def forget(self) -> None:
        """No passphrase in memory is needed any more: who still has its file open finds nothing in it."""
        for number in self.fds:
            os.ftruncate(number, 0)


def options(new: bool = False) -> argparse.ArgumentParser:
    """The options of a key, for the words that take one."""
    parser = argparse.ArgumentParser(add_help=False)
    k, j, p = tuple("KJP" if new else "kjp")
    kind, it = ("new-", "the new key") if new else ("", "the key")
    parser.add_argument(f"-{k}", f"--{kind}key-file", action="append", default=[], metavar="KEYFILE",
                        help=f"a key file of {it}; several are joined in their order"
                             + (" (without it: those of the old key)" if new else ""))
    group = parser.add_mutually_exclusive_group()
    group.add_argument(f"-{j}", f"--{kind}pass-file", action="append", default=[], metavar="PASSFILE",
                       help=f"the passphrase of {it} is the first line of this file (without it: asked for)")
    group.add_argument(f"-{p}", f"--{kind}no-passphrase", action="store_true", help=f"{it} has no passphrase")
    return parser


def key_of(args: argparse.Namespace) -> Key:
    """The key of the options."""
    key = Key(bare=args.no_passphrase)
    key.add_files(args.key_file)
    key.add_passfiles(args.pass_file)
    return key


def new_key_of(args: argparse.Namespace, old: Key) -> Key:
    """The new key of the options: without key files of its own it takes those of the old one."""
    key = Key(bare=args.new_no_passphrase)
    key.add_files(args.new_key_file)
    for name in args.new_pass_file:
        key.add_new_passfile(name)
    if not key.files:
        key.files, key.fds = list(old.files), key.fds + old.fds
    return key

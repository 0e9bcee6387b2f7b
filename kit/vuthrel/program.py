"""Calls of the program geli: single commands, their replies, and what is the cause where one is refused."""
from __future__ import annotations

import contextlib
import os
import shutil
import stat
import subprocess
from collections.abc import Iterable
from dataclasses import dataclass
from pathlib import Path

from .text import BREAK, Failed, printable

PACKAGES = {
    "python3": "Debian: python3", "nbdkit": "Debian: nbdkit", "wipefs": "Debian: util-linux, in /sbin",
    "losetup": "Debian: util-linux, in /sbin",
}
REFUSALS = Path(__file__).with_name("refusals.txt")

WRONG_KEY, EMPTY_SLOT, NOT_AUTHENTICATED = 15, 19, 47
UNSERVED = (5, 6, 7, 8, 9, 10, 11, 12, 13)  # of metadata that nobody can attach, by any key
CAUSES = {
    5: "the image does not end with metadata: no provider, or longer or shorter than the provider in it",
    6: "this version of metadata is not served",
    7: "the metadata are damaged",
    8: "the image has another size than the provider in it",
    9: "this cipher is not served",
    10: "this authentication is not served",
    11: "the cipher has no keys of so many bits",
    12: "no provider has sectors of this size",
    13: "a flag of the metadata is not served, such as that of a onetime provider",
    14: "both key slots are empty: only a backup of the metadata helps",
    15: "wrong passphrase or wrong key file",
    16: "a key without a passphrase needs a key file",
    17: "this provider was made without a passphrase: give -p",
    19: "this key slot is empty",
    20: "it is the last key",
    22: "a passphrase is asked for: give -j, or -p where there is none",
    23: "past the end of the provider",
    24: "the provider is read-only",
    25: "an authenticated sector that was never written, was cut off by a power failure, or was changed",
    26: "the image cannot be opened, read, written or synced, or another run has it",
    27: "a key or passphrase file is not there",
    28: "a file cannot be read or written: look at the permissions and the space left",
    30: "a key file or passphrase is too long",
    32: "the provider had another size",
    34: "the image is not longer than before",
    35: "the image is too small, or cannot be opened",
    46: "the file of the place is of another provider, or of this one when it was longer: begin anew",
    47: "the provider is not authenticated: nothing tells whether its sectors are as they were written",
    48: "the file of the place has no place: begin anew",
}


def program(name: str) -> str:
    """The program `geli` or `geli-nbd`: GELI and GELI_NBD name others than those beside `vuthrel`."""
    return os.environ.get(name.upper().replace("-", "_")) or os.environ.get("VUTHREL_PROGRAMS", "") + name


def need(*names: str) -> None:
    """The programs that are used are there, and geli runs.

    The launcher of a clone builds geli now: not while the work goes on, nor once a passphrase was typed.
    """
    geli, nbd = program("geli"), program("geli-nbd")
    called = {geli: "GELI names the geli to use", nbd: "GELI_NBD names the geli-nbd to use"}
    for name in (geli, *names):
        if not shutil.which(name):
            more = called.get(name) or PACKAGES.get(name)
            raise Failed(f"the program '{name}' isn't there" + (f" ({more})" if more else ""))
        words = {geli: ["list"], nbd: ["--version"]}.get(name)
        if words and subprocess.run([name, *words], stdin=subprocess.DEVNULL, stdout=subprocess.DEVNULL,
                                    check=False).returncode:
            raise Failed(f"'{name}' doesn't run")


@dataclass(frozen=True)
class Reply:
    """What geli printed: the lines before the last one, and the last one."""

    rows: tuple[str, ...]
    last: str

    @classmethod
    def of(cls, text: str) -> Reply:
        *rows, last = text.rstrip("\n").split("\n")
        return cls(tuple(rows), last)

    @property
    def number(self) -> int:
        """Of the refusal; 0 where it was served, and -1 where geli ended without a reply."""
        words = self.last.split(" ")
        if words[0] == "error" and len(words) > 1 and words[1].isdigit():
            return int(words[1])
        return 0 if words[0] == "ok" else -1

    @property
    def is_served(self) -> bool:
        return self.number == 0

    def told(self, files: Iterable[str] = (), own: int | None = None) -> str:
        """The refusal with its usual cause, or that which is seen at the image's files."""
        if self.number < 0:
            return f"geli says no more than '{self.last}'" if self.last else "geli ended without a reply"
        found = None
        if self.number in (26, 35):
            found = next(filter(None, (seen(path, own) for path in files)), None)
        return f"{self.last}: {found or CAUSES.get(self.number) or f'vuthrel explain error {self.number} says more'}"


def ask(*words: str, fds: Iterable[int] = ()) -> Reply:
    """Runs one command. Files in memory are handed on by their numbers."""
    with BREAK.later():
        ran = subprocess.run([program("geli"), *words], stdin=subprocess.DEVNULL, stdout=subprocess.PIPE,
                             pass_fds=tuple(fds), check=False)
    return Reply.of(ran.stdout.decode(errors="replace"))


def name_of(process: int) -> str:
    """How a process was called."""
    try:
        with open(f"/proc/{process}/cmdline", "rb") as file:
            return printable(file.read().replace(b"\0", b" ").decode(errors="replace").replace("\n", "?")).strip()
    except OSError:
        return "of another user"


def holder_of(state: os.stat_result, own: int | None = None) -> int | None:
    """The process, other than `own`, that has a lock on the file with this state."""
    with contextlib.suppress(OSError, ValueError), open("/proc/locks", encoding="ascii") as locks:
        for line in locks:
            words = line.split()
            major, minor, inode = words[-3].split(":")
            here = int(inode) == state.st_ino and os.makedev(int(major, 16), int(minor, 16)) == state.st_dev
            if here and "FLOCK" in words and int(words[-4]) not in (own, os.getpid()):
                return int(words[-4])
    return None


def seen(path: str, own: int | None = None, is_ours: bool = False) -> str | None:
    """Why an image can't be opened, locked or written, if that can be seen. The process `own` may hold it; if it is
    ours, so may any."""
    try:
        state, disk = os.stat(path), os.statvfs(path)
    except OSError as failed:
        return failed.strerror
    holder = None if is_ours else holder_of(state, own)
    is_full = stat.S_ISREG(state.st_mode) and disk.f_blocks and disk.f_bavail * disk.f_frsize < 1 << 20
    causes = {
        "it is a folder": stat.S_ISDIR(state.st_mode),
        f"process {holder} holds it ({name_of(holder or 0)})": holder is not None,
        "it can't be read: look at its permissions": not os.access(path, os.R_OK),
        "its file system is read-only": disk.f_flag & os.ST_RDONLY,
        "it can't be written: look at its permissions": not os.access(path, os.W_OK),
        "its file system is full": is_full,
    }
    return next((cause for cause, is_so in causes.items() if is_so), None)

"""What keep_mount.py and nbd_server.py share, beside the package `vuthrel`.

Nothing happens when it is imported. What can't be done is told by an exception, `Failed`.
"""
import contextlib
import os
import re
import sys
import time

HERE = os.path.dirname(os.path.realpath(__file__))
KIT = os.path.join(HERE, "..", "kit")
sys.path.insert(0, KIT if os.path.isdir(KIT) else HERE)  # in a clone, or where it is installed

from vuthrel.image import files_of, is_zeros  # it is found only now
from vuthrel.program import Reply, holder_of, name_of, seen
from vuthrel.text import Failed, note, say

__all__ = ["REFUSED", "Failed", "Identity", "Refusals", "close_others", "descriptors_of", "files_of", "holder_of", "is_new",
           "is_zeros", "name_of", "note", "say", "told"]

REFUSED = "a write or a flush was refused"


def told(reply, files=()):
    """A refusal with its usual cause, or that which is seen at the image's files."""
    return Reply.of(reply).told(files)


def descriptors_of(key):
    """The numbers of the open files that the words of a key name: typed passphrases, and what came by a pipe. They are
    handed on to each program that takes the key."""
    return [int(word) for word in re.findall(r"(?<!\S)/dev/fd/(\d+)(?!\S)", key)]


def close_others(kept):
    """Closes all open files but the standard streams and those of these numbers: a program in the background keeps no
    pipe of its caller's open, which others may wait for."""
    for number in map(int, os.listdir("/proc/self/fd")):
        if number > 2 and number not in kept:
            with contextlib.suppress(OSError):
                os.close(number)


class Refusals:
    """The writes and flushes that a server of an image refused: how many, when the first one was, and why."""

    def __init__(self, files):
        self.files = files  # of the image
        self.count, self.first = 0, ""
        self.is_whole = True  # no more of them can have been

    def add(self, when=None):
        """One more, at a time in seconds, or now."""
        self.count += 1
        if self.count == 1:
            self.first = time.strftime("%H:%M:%S", time.localtime(when)) + self.why()

    def why(self):
        """Why, as far as that can be seen now."""
        why = next(filter(None, (seen(file, is_ours=True) for file in self.files)), "")
        return f" ({why})" * bool(why)

    def __str__(self):
        if not self.count:
            return REFUSED + self.why()
        how_many = "once, at" if self.count == 1 else f"{self.count} times, the first at"
        return f"{REFUSED} {'' if self.is_whole else 'at least '}{how_many} {self.first}"


def is_new(file):
    """Whether nobody wrote yet to the data of a provider that begins in this file: its metadata are at the end."""
    return is_zeros(file, 512)


class Identity:
    """Which file a name leads to now, and how long it is."""

    def __init__(self, name):
        self.name = name
        try:
            state = os.stat(name)
        except OSError:
            self.file, self.size = None, 0
        else:
            self.file, self.size = (state.st_dev, state.st_ino), state.st_size

    def became(self):
        """What became of it since; nothing if it is the same file, and no shorter."""
        now = Identity(self.name)
        if now.file != self.file:
            return f"'{self.name}' was removed or replaced meanwhile: it doesn't have what was written"
        return f"'{self.name}' was made shorter meanwhile" * (now.size < self.size)

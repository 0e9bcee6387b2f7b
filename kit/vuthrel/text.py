"""What is said to the user, sizes and times in words, and how the work of a word ends."""
from __future__ import annotations

import contextlib
import os
import re
import signal
import sys
import time
from collections.abc import Callable, Iterable, Iterator
from types import FrameType

SIGNALS = (signal.SIGINT, signal.SIGTERM, signal.SIGHUP)
SHIFTS = {"": 0, "K": 10, "M": 20, "G": 30, "T": 40}


class Failed(Exception):
    """What ends the work; its text is for the user."""


def called_as() -> str:
    """The command as the user called it: an older name of a word says its own."""
    return os.environ.get("VUTHREL_CALLED_AS", "vuthrel")


def printable(text: object) -> str:
    """A text as a terminal may get it: a control character, as of a file's name or a label, is shown as ?."""
    return re.sub("[\x00-\x08\x0b-\x1f\x7f-\x9f]", "?", str(text))


def note(text: object) -> None:
    print(printable(text), file=sys.stderr, flush=True)


def say(*lines: object) -> None:
    """Says lines on standard output."""
    print(*map(printable, lines), sep="\n")


def slow(what: str) -> None:
    """Says at a terminal what may take a while now."""
    if sys.stderr.isatty():
        note(f"{what} ...")


class Left:
    """What the work leaves where it stops halfway, and how to go on: it is said behind the cause."""

    def __init__(self) -> None:
        self.said: list[str] = []

    @contextlib.contextmanager
    def behind(self, text: Callable[[], str]) -> Iterator[None]:
        """If the work within stops, the text is said; nothing if it is empty."""
        try:
            yield
        except BaseException:
            self.said.append(text())
            raise

    def tell(self) -> None:
        for text in filter(None, self.said):
            note(text)
        self.said.clear()


LEFT = Left()


class Signals:
    """A signal breaks the work off: at once, or when the command that runs has ended."""

    def __init__(self) -> None:
        self.waits = self.heard = False

    def take(self) -> None:
        for number in SIGNALS:
            signal.signal(number, self.hear)

    def hear(self, _number: int, _frame: FrameType | None) -> None:
        self.heard = True
        if not self.waits:
            raise KeyboardInterrupt

    @contextlib.contextmanager
    def later(self) -> Iterator[None]:
        """A command within comes to its end before the work is broken off. The terminal's signals reach it too."""
        self.waits, self.heard = True, False
        try:
            yield
        finally:
            self.waits = False
        if self.heard:
            raise KeyboardInterrupt


BREAK = Signals()


def size_of(word: str) -> int:
    """The bytes that a word says, as 83886080, 80M or 2G. They end below 2^53, as geli's own sizes do."""
    match = re.fullmatch("(0|[1-9][0-9]{0,15})([KMGT]?)", word)
    if not match:
        raise Failed(f"'{word}' is no number of bytes: such as 83886080, 80M or 2G")
    size = int(match[1]) << SHIFTS[match[2]]
    if size >= 1 << 53:
        raise Failed(f"'{word}' is more than an image can have")
    return size


def size_in_words(size: int) -> str:
    for shift, unit in (40, "TiB"), (30, "GiB"), (20, "MiB"), (10, "KiB"):
        if size >= 1 << shift:
            return f"{size} bytes ({size / (1 << shift):.1f} {unit})"
    return f"{size} bytes"


def clock(seconds: float) -> str:
    """A time, as 0:07 or 12:34."""
    return f"{int(seconds) // 60}:{int(seconds) % 60:02}"


def ranges(numbers: Iterable[int]) -> list[tuple[int, int]]:
    """Ascending numbers as ranges: the first of each, and the one after its last."""
    found: list[tuple[int, int]] = []
    for number in numbers:
        if found and number <= found[-1][1]:
            found[-1] = (found[-1][0], number + 1)
        else:
            found.append((number, number + 1))
    return found


class Progress:
    """Says once a second how far it is, if standard error is a terminal."""

    def __init__(self, whole: int) -> None:
        self.whole = whole
        self.begun = self.shown = time.monotonic()
        self.is_seen = sys.stderr.isatty()

    def at(self, done: int) -> None:
        now = time.monotonic()
        if not self.is_seen or now - self.shown < 1:
            return
        self.shown = now
        speed = max(done, 1) / (now - self.begun)
        self.line(f"{done * 100 // self.whole} %, {done >> 20} of {self.whole >> 20} MiB, {speed / 2**20:.1f} MiB/s, "
                  f"{clock((self.whole - done) / speed)} left")

    def line(self, text: str, end: str = "") -> None:
        """Puts a line in place of the one before."""
        print(f"\r{text:<70}" if self.is_seen else text, end=end, file=sys.stderr, flush=True)

    def clear(self) -> None:
        """Takes the line away: another is printed there."""
        if self.is_seen:
            self.line("", end="\r")

    def end(self, text: str) -> None:
        spent = max(time.monotonic() - self.begun, 0.001)
        self.line(f"{text}, {spent:.1f} s, {self.whole / spent / 2**20:.1f} MiB/s", end="\n")


def has_terminal() -> bool:
    try:
        os.close(os.open("/dev/tty", os.O_RDWR | os.O_NOCTTY))
    except OSError:
        return False
    return True


def sure_of(name: str, what: str, otherwise: str = "") -> None:
    """Goes on only if somebody types the name at the terminal."""
    if not has_terminal():
        raise Failed(f"nothing was changed: no terminal to ask at{otherwise}")
    with open("/dev/tty", "r+b", buffering=0) as terminal:
        terminal.write(printable(f"type the name of the image to {what}: ").encode(errors="surrogateescape"))
        typed = terminal.readline()
    if not typed.endswith(b"\n"):
        raise Failed("nothing was changed")
    if typed[:-1] != os.fsencode(name):
        raise Failed("nothing was changed: the names differ")

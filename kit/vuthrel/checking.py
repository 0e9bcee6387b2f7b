"""The words `check` and `scrub`: whether all of a provider can be read."""
from __future__ import annotations

import argparse
import os
import re
import shlex
import time
from collections.abc import Iterable

from .image import PRIVATE, Image, plain, usable, word_of
from .keys import key_of
from .metadata import Metadata
from .program import Reply, need
from .session import WHY_UNREADABLE, Session, tell_unreadable
from .text import Failed, Progress, ranges, say

UNTOLD = (9, 10, 11, 12, 13)  # refusals of metadata that are whole, but of a provider that isn't served


class Stopped(Exception):
    """The look ends here, after these lines."""

    def __init__(self, *lines: str) -> None:
        super().__init__(*lines)
        self.lines = lines


def help_for_metadata(number: int, image: Image) -> Iterable[str]:
    """What to do where the metadata are refused so."""
    back = f"geli restore BACKUP {shlex.quote(image.name)}"
    torn = "If the disk tore the sector while a command wrote it"
    return {
        5: ("If the image became longer or shorter: make it as long as before, by truncate -s"
            f" (it has {image.length} bytes).",
            "If it was made longer and resize was at work: vuthrel grow -s, with the length before.",
            "If kill was at work: it destroyed the metadata.",
            f"If something else wrote over its last 512 bytes, with a backup of the metadata: {back}"),
        6: (f"{torn}, see error 7 in geli(8).",),
        7: (f"{torn}, or something else wrote there, with a backup of the metadata: {back}",),
        26: ("Look whether another geli has the image. Else copy the image to a sound disk first, and look at the"
             " copy.",),
    }.get(number, ())


HELP_FOR_KEYS = {
    14: ("If delkey was at work: it destroyed the keys.",),
    15: ("If init was at work: the image holds what it held before, or the new provider.",
         "If setkey or delkey was at work: the slot has its old key or the new one, or none; the other slot is as"
         " before."),
    8: ("The image was cut, lengthened or copied by other means. See BadSize in geli(8).",),
}


class Look:
    """A look at a provider after a crash. It changes nothing."""

    def __init__(self, session: Session) -> None:
        self.session, self.image = session, session.image

    def metadata(self) -> Metadata:
        """The metadata, if they are valid."""
        reply = self.session.ask("dump", self.image.word)
        if not reply.is_served:
            raise Stopped(f"metadata: {self.session.told(reply)}", *help_for_metadata(reply.number, self.image))
        return Metadata.of_rows(reply.rows)

    def open(self) -> None:
        reply: Reply = self.session.try_attach("-r")
        if reply.number in UNTOLD:
            raise Stopped(f"metadata: whole, but nobody can open their provider here: {reply.told()}")
        if not reply.is_served:
            raise Stopped(f"key: {self.session.told(reply)}", *HELP_FOR_KEYS.get(reply.number, ()))
        self.session.key.forget()

    def unreadable(self, metadata: Metadata) -> list[tuple[int, int]]:
        """The ranges of sectors that can't be read: without authentication none is so but by a failure."""
        session, bad, at = self.session, [], 0
        progress = Progress(session.sectors * session.width)
        try:
            place = f"{PRIVATE.path()}/place"
            for at, found in session.sweep(metadata, place) if metadata.is_tagged else session.read_all():
                bad += found
                progress.at(at * session.width)
        except Failed as failed:
            raise Stopped(f"from sector {at} on: {failed}") from None
        finally:
            progress.clear()
        return ranges(bad)

    def all(self) -> int:
        metadata, session, name = self.metadata(), self.session, self.image.name
        say(f"metadata: sound, version {metadata.version}, provider of {metadata.provsize} bytes in an image of"
            f" {self.image.length}")
        self.open()
        say("key: it opens the provider")
        bad = self.unreadable(metadata)
        session.detach()
        session.end()
        tell_unreadable(bad)
        lost = sum(end - first for first, end in bad)
        say(f"data: {session.sectors} sectors of {session.width} bytes, {lost} of them unreadable")
        if bad:
            copy = f"cp --sparse=always {shlex.quote(name)} {shlex.quote(f'{name}.copy')}"
            say(WHY_UNREADABLE,
                "Copy the image before anything is repaired, since a repair by e2fsck writes zeros there: "
                + ("it lies in several files" if self.image.is_layer else copy))
        elif not metadata.is_tagged:
            say("These sectors are not authenticated: damage in them reads as other bytes and is not told.")
        say("The filesystem in it was not looked at: vuthrel mount checks an ext4, and with -c repairs it.")
        return 1 if bad else 0


def check(args: argparse.Namespace) -> int:
    """Says what a provider is like after a crash, and what to do. It changes nothing.

    Work on a copy of the image if you can. First the metadata are checked, then the key is tried, then every sector is
    read, or verified if it is authenticated. Status 0: all can be read. Status 1: something can't, and standard output
    says what.

    What it can't see: a sector whose 512-byte parts come from different writes, all of them whole. That is what a
    crash may leave of sectors that were written after the last flush. The filesystem inside isn't checked: `vuthrel
    mount` does. Without authentication it doesn't see damaged sectors either. With it, what can't be read may be more
    than what was being written, where the disk tears 512 bytes: docs/THEOREM.md says how.
    """
    need()
    image = Image.of(args.image)
    image.is_there()
    key = key_of(args)
    key.ready(image)
    session = Session(image, key)
    try:
        return Look(session).all()
    except Stopped as stopped:
        say(*stopped.lines)
        session.end()
        return 1


def beginning(place: str, restart: bool, sectors: int) -> tuple[int, bool]:
    """The sector at which the run begins, and whether it starts over, as after a run that reached the end."""
    if restart or not os.path.exists(place):
        return 0, True
    with open(place, "rb") as file:
        at = int.from_bytes(file.read(9), "little")
    return (0, True) if at == sectors else (at, False)


def place_of(name: str) -> str:
    """The file of the place as a word. It is replaced when it changes, so it can't be a link; its folder can."""
    place = plain(name)
    if os.path.exists(place) and not os.path.isfile(place):
        raise Failed(f"'{name}' is no file")
    folder, base = os.path.split(place)
    if not re.fullmatch("[A-Za-z0-9._,+=@%~:-]+", base):
        raise Failed(f"'{name}' has other letters in its name than a geli script can hold")
    return os.path.join(word_of(folder + "/").rstrip("/"), base)


class Scrub:
    """A look at the sectors of an authenticated provider from a place on."""

    def __init__(self, session: Session, place: str) -> None:
        self.session, self.place = session, place
        self.bad: list[int] = []
        self.first = self.at = 0

    def run(self, metadata: Metadata, restart: bool, minutes: float) -> None:
        session = self.session
        self.first, anew = beginning(self.place, restart, session.sectors)
        self.at, until = self.first, time.monotonic() + 60 * minutes
        progress = Progress(max(session.sectors - self.first, 0) * session.width)
        try:
            for self.at, found in session.sweep(metadata, self.place, self.first, anew):
                self.bad += found
                progress.at((self.at - self.first) * session.width)
                if time.monotonic() >= until:
                    break
        finally:
            progress.clear()
            if self.at > self.first:
                self.report()

    def report(self) -> None:
        bad = ranges(self.bad)
        lost = sum(end - begin for begin, end in bad)
        say(f"{self.session.image.name}: {self.at - self.first} of {self.session.sectors} sectors were looked at, from"
            f" sector {self.first} on, {lost} of them unreadable")
        tell_unreadable(bad)
        if bad:
            say(WHY_UNREADABLE)


def scrub(args: argparse.Namespace) -> int:
    """Checks every sector of an authenticated provider, in parts, and says which can't be read. The image isn't
    changed.

    PLACE is a file that remembers where the next run goes on. A run goes on to the end, or with -m for so many
    minutes. After one that reached the end the next run starts over; -r starts over at once. The findings go to
    standard output, and the progress to standard error if that is a terminal. So cron mails the report of a line like
    this:

      0 3 * * 0  vuthrel scrub -m 120 -p -k /root/backup.key /dev/sdb2 /var/lib/backup.place

    Status 0: all sectors that were checked can be read. Status 1: some can't, and standard output says which. Status
    2: the words aren't understood. Status 3: it could not be done, or only in part, and standard error says why.
    """
    if not re.fullmatch("([1-9][0-9]{0,5})?", args.minutes):
        raise Failed(f"'{args.minutes}' is no number of minutes")
    image = Image.of(args.image)
    usable(args.place)
    need()
    image.is_there()
    place = place_of(args.place)
    key = key_of(args)
    key.ready(image)
    session = Session(image, key)
    metadata = session.metadata()
    session.attach("-r")
    run = Scrub(session, place)
    run.run(metadata, args.restart, float(args.minutes or "inf"))
    session.detach()
    session.end()
    say("The end was reached: the next run begins anew." if run.at == session.sectors
        else f"The next run goes on at sector {run.at}.")
    return 1 if run.bad else 0

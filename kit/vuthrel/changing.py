"""The words that change what opens a provider: `passwd`, `backup`, `restore` and `destroy`."""
from __future__ import annotations

import argparse

from .image import Image, Trial, absent, is_backup, plain, readable, sync, text
from .keys import Key, key_of, new_key_of
from .metadata import SECTOR, Metadata
from .program import Reply, ask, need
from .text import LEFT, Failed, has_terminal, note, slow, sure_of


def old_slot(image: Image, old: Key) -> int:
    """The slot that the old key opens. One that was typed wrong is asked for again."""
    slow("trying the old key")
    found: list[int | None] = []

    def attempt() -> Reply:
        slot, reply = old.slot_of(image)
        found.append(slot)
        return reply

    reply = old.tried(attempt)
    slot = found[-1]
    if slot is None:
        raise Failed(f"the old key: {reply.told(image.files)}")
    return slot


def passwd(args: argparse.Namespace) -> int:
    """Gives a provider a new passphrase, or key file, and backs its new metadata up.

    The old passphrase is asked for, and the new one twice. Without -K the new key takes the key files of the old one.
    BACKUP must not exist. If the other slot is empty, the new key goes into it. It is tried there, and only then the
    old key is deleted: so at each moment one of the two opens the provider. If both slots have keys, the new one takes
    the place of the old one at once; a power failure then leaves the old or the new.

    Older backups still open with the old passphrase, and give the same master key: destroy them.
    """
    image = Image.of(args.image)
    stored = plain(args.backup)
    need()
    image.is_there(written=True)
    absent(stored)
    text(stored)
    old = key_of(args)
    new = new_key_of(args, old)
    old.ready(image)
    slot = old_slot(image, old)
    metadata = image.metadata()
    is_other_empty = metadata is not None and 1 - slot not in metadata.slots
    target = 1 - slot if is_other_empty else slot
    new.prompt("new passphrase", twice=True)
    slow("making the new key")
    both = tuple({*old.fds, *new.fds})
    reply = image.ask("setkey", "-n", str(target), *old.words(), *new.words(new=True), fds=both)
    if not reply.is_served:
        raise Failed(f"the new key: {reply.told(image.files)}")
    reply = new.opens(image, target)
    if not reply.is_served:
        raise Failed(f"the new key doesn't open it: {reply.told(image.files)}")
    if target != slot:
        slow("destroying the old key: six passes, each synced")
        image.must("the old key is still there: ", "delkey", "-n", str(slot))
    image.store(stored, "the key is changed, its backup wasn't stored")
    sync(stored)
    note(f"{image.name}: the new key is in slot {target}, the old one is gone")
    note(f"keep {stored} apart from {image.name}, and destroy older backups: they open with the old key")
    return 0


def backup(args: argparse.Namespace) -> int:
    """Puts a copy of a provider's metadata into a new file: nothing is overwritten.

    Keep it apart from the image, since without metadata the data are lost. Keep it as safe as the image: it opens with
    the key of today, whatever is changed later.
    """
    image = Image.of(args.image)
    name = plain(args.backup)
    need()
    image.is_there()
    absent(name)
    text(name)
    image.store(name, f"'{args.backup}' can't be made")
    sync(name)
    note(f"{args.backup}: has the metadata of {image.name}")
    return 0


def describe(what: str, metadata: Metadata) -> None:
    note(f"{what}: a provider of {metadata.provsize} bytes, keys {metadata.keys:#x}, iterations {metadata.iterations},"
         f" salt {metadata.salt[:4].hex()}...")


class Restore:
    """A backup that is put back into an image."""

    def __init__(self, args: argparse.Namespace) -> None:
        self.args = args
        self.image, self.backup, self.old = Image.of(args.image), plain(args.backup), plain(args.old)
        self.kept = ""  # what is said of the metadata from before

    def trial(self) -> tuple[Image, Metadata]:
        """An image with the metadata of the backup, and these."""
        if not is_backup(self.backup):
            raise Failed(f"nothing was changed: '{self.args.backup}' is no backup of metadata")
        trial = Trial(self.backup)
        if not trial.metadata:
            raise Failed(f"nothing was changed: '{self.args.backup}' is no sound backup: {trial.reply.told()}")
        describe(self.args.backup, trial.metadata)
        unserved = trial.image.unserved()
        if unserved:
            raise Failed(f"nothing was changed: no provider of '{self.args.backup}' is served: {unserved.told()}")
        return trial.image, trial.metadata

    def is_of_one(self, new: Metadata) -> bool:
        """Says what is in the image now. A provider keeps its salt when its keys change, and no two have the same."""
        reply = self.image.ask("dump")
        if not reply.is_served:
            note(f"{self.image.name}, as it is now: {reply.told(self.image.files)}")
            return False
        now = Metadata.of_rows(reply.rows)
        self.kept = f"'{self.args.old}' has the metadata that were in '{self.image.name}'"
        describe(f"{self.image.name}, as it is now", now)
        note("both are of one provider" if now.salt == new.salt else
             f"they are of two providers: what is in '{self.image.name}' can then be read no more, but by"
             f" '{self.args.old}'")
        return now.salt == new.salt

    def ask(self, is_of_one: bool) -> None:
        if not (self.args.yes and is_of_one):
            if not has_terminal():
                raise Failed("nothing was changed: no terminal to ask at (-y asks nothing where both are of one"
                             " provider)")
            sure_of(self.image.name, f"put '{self.args.backup}' into it")

    def put(self, key: Key) -> None:
        image = self.image
        if self.kept:
            image.store(self.old, f"nothing was changed: '{self.args.old}' can't be made")
            sync(self.old)
        with LEFT.behind(lambda: self.kept):
            reply = ask("restore", *["-f"] * self.args.force, self.backup, image.word)
            if not reply.is_served:
                raise Failed(reply.told(image.files))
            reply = key.opens(image) if key.is_given else reply
            if not reply.is_served:
                raise Failed(f"the metadata are restored, but the key fails: {reply.told(image.files)}")


def restore(args: argparse.Namespace) -> int:
    """Puts a backup of the metadata back into an image, after it has said what both are.

    `geli restore` asks nothing, and takes the backup of any provider of the same size: all data then read as noise,
    and the metadata that were there are gone. This says what BACKUP is and what is in IMAGE, and by their salts
    whether they are of one provider. It asks for the name of the image. -y doesn't ask where both are of one provider.

    OLD, which must not exist, gets the metadata that are in the image now, if there are any: `geli restore OLD IMAGE`
    brings them back. A key that is given is tried on the backup before anything is changed, and on the image in the
    end.
    """
    work = Restore(args)
    need()
    readable(work.backup)
    work.image.is_there(written=True)
    absent(work.old)
    text(work.old)
    key = key_of(args)
    if key.is_given:
        key.ready(work.image)
    trial, new = work.trial()
    length = work.image.length // SECTOR * SECTOR
    if not args.force and length != new.provsize:
        raise Failed(f"nothing was changed: the image has {length} bytes (-f restores nevertheless)")
    is_of_one = work.is_of_one(new)
    if key.is_given:
        slow("trying the key")
        reply = key.tried(lambda: key.opens(trial))
        if not reply.is_served:
            raise Failed(f"nothing was changed: the key doesn't open '{args.backup}': {reply.told()}")
        note(f"the key opens '{args.backup}'")
    work.ask(is_of_one)
    work.put(key)
    note(f"{args.image}: has the metadata of {args.backup}" + (f", and {args.old} has those from before" if work.kept
                                                              else ""))
    return 0


def destroy(args: argparse.Namespace) -> int:
    """Destroys a provider after checking that there is one and asking for confirmation.

    `geli kill` asks nothing, and overwrites the last 512 bytes even of a file that holds no provider. This refuses if
    there are no valid metadata, says what would be lost, and asks for the name of the image; -y doesn't ask.

    The keys in the metadata are destroyed, so the data can't be read any more. Anyone who has a backup of the
    metadata, and its key, can bring them back (`vuthrel restore`): destroy the backups too.
    """
    image = Image.of(args.image)
    need()
    image.is_there(written=True)
    metadata = Metadata.of_rows(image.must("nothing was changed: ", "dump").rows)
    note(f"{image.name}: a provider of {metadata.provsize} bytes, keys {metadata.keys:#x}, will be lost for good where"
         " no backup of its metadata is elsewhere")
    if not args.yes:
        sure_of(image.name, "destroy it", " (-y does it without)")
    image.must("", "kill")
    note(f"{image.name}: its metadata are destroyed")
    return 0

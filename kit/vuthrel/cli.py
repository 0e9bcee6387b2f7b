"""The command line: a word for each thing to do, with its options, and how it ends."""
from __future__ import annotations

import argparse
import inspect
import io
import os
import resource
import sys
from collections.abc import Callable, Sequence

from . import changing, checking, explain, growing, info, keys, moving
from .image import PRIVATE
from .program import program
from .text import BREAK, LEFT, Failed, note

Work = Callable[[argparse.Namespace], int]
BROKEN_OFF = 130
ITERATIONS = 1000000  # of a new provider

# The words that a script does, as yet: its name, the options that stand before the user's, and what it does.
SCRIPTS: dict[str, tuple[str, list[str], str]] = {
    "mount": ("mount-provider.sh", [], "Mounts the filesystem in a provider on a folder, until it is unmounted."),
    "umount": ("mount-provider.sh", ["-u"], "Unmounts it; status 0 only if all that was written is flushed."),
    "serve": ("serve-nbd.sh", [], "Serves the data of a provider as a network block device, on a socket."),
}


class Words:
    """The parser of the command line."""

    def __init__(self, name: str) -> None:
        self.name = name
        self.top = argparse.ArgumentParser(
            prog="vuthrel", allow_abbrev=False, description="GELI, FreeBSD's disk encryption, over image files.",
            epilog="vuthrel WORD -h says more of each. GELI and GELI_NBD name the programs to use.")
        self.subs = self.top.add_subparsers(title="words", metavar="WORD", required=True, dest="word")

    def add(self, name: str, work: Work, *parents: argparse.ArgumentParser, usage: str | None = None,
            failed: int = 1) -> argparse.ArgumentParser:
        """A word, whose function says what it does."""
        text = inspect.getdoc(work) or ""
        called = self.name or f"vuthrel {name}"
        parser: argparse.ArgumentParser = self.subs.add_parser(
            name, prog=called, help=text.split("\n\n", 1)[0].replace("\n", " ").replace("%", "%%"), description=text,
            parents=list(parents), allow_abbrev=False, usage=usage and usage.replace("PROG", called),
            formatter_class=argparse.RawDescriptionHelpFormatter)
        parser.set_defaults(work=work, failed=failed, parser=parser, called=called)
        return parser

    def build(self) -> argparse.ArgumentParser:
        self.of_providers()
        self.of_data()
        self.of_keys()
        for name, (_, _, text) in SCRIPTS.items():
            self.subs.add_parser(name, help=text)
        it = self.add("explain", explain.explain)
        it.add_argument("words", metavar="WORD", nargs=argparse.REMAINDER, help="as behind `geli`, or: error NUMBER")
        return self.top

    def of_providers(self) -> None:
        it = self.add("make", growing.make,
                      usage="PROG [-af] [-i ITERATIONS] [-J PASSFILE] SIZE IMAGE KEYFILE BACKUP\n"
                            "       PROG -d [-a] [-i ITERATIONS] [-J PASSFILE] DISK KEYFILE BACKUP")
        flag(it, "-a", "--authenticate", "changed data are refused, and don't read as other data")
        flag(it, "-d", "--over-disk", "over a disk, or an existing file, in place of SIZE IMAGE")
        flag(it, "-f", "--allocate", "the image takes all of its space now")
        it.add_argument("-i", "--iterations", default=str(ITERATIONS), metavar="ITERATIONS",
                        help=f"of PBKDF2 (without it: {ITERATIONS:,})")
        it.add_argument("-J", "--new-pass-file", action="append", default=[], metavar="PASSFILE",
                        help="the passphrase is the first line of this file (without it: asked for)")
        it.add_argument("operands", nargs="*", metavar="SIZE IMAGE KEYFILE BACKUP")

        it = self.add("info", info.info, keys.options())
        flag(it, "-J", "--json", "one object of JSON, with sizes in bytes")
        it.add_argument("image", metavar="IMAGE")

        it = self.add("grow", growing.grow, keys.options())
        flag(it, "-f", "--allocate", "the new part takes all of its space now")
        it.add_argument("-s", "--old-size", default="", metavar="OLDSIZE", help="the length before: goes on with it")
        it.add_argument("size", metavar="SIZE", help="the new length, or +SIZE")
        it.add_argument("image", metavar="IMAGE")
        it.add_argument("backup", metavar="BACKUP")

        it = self.add("destroy", changing.destroy)
        flag(it, "-y", "--yes", "ask nothing")
        it.add_argument("image", metavar="IMAGE")

    def of_data(self) -> None:
        it = self.add("write-image", moving.write_image, keys.options())
        flag(it, "-c", "--check", "the sectors are read again afterwards and compared")
        flag(it, "-f", "--force", "ask nothing")
        it.add_argument("source", metavar="SOURCE")
        it.add_argument("image", metavar="IMAGE")

        it = self.add("read-image", moving.read_image, keys.options())
        it.add_argument("-b", "--bytes", default="", metavar="BYTES",
                        help="at most so many, such as 4000123 or 80M (without it: the whole provider)")
        it.add_argument("image", metavar="IMAGE")
        it.add_argument("target", metavar="TARGET")

        it = self.add("check", checking.check, keys.options())
        it.add_argument("image", metavar="IMAGE")

        it = self.add("scrub", checking.scrub, keys.options(), failed=3)
        flag(it, "-r", "--restart", "start over")
        it.add_argument("-m", "--minutes", default="", metavar="MINUTES", help="end after so many")
        it.add_argument("image", metavar="IMAGE")
        it.add_argument("place", metavar="PLACE")

    def of_keys(self) -> None:
        it = self.add("passwd", changing.passwd, keys.options(), keys.options(new=True))
        it.add_argument("image", metavar="IMAGE")
        it.add_argument("backup", metavar="BACKUP")

        it = self.add("backup", changing.backup)
        it.add_argument("image", metavar="IMAGE")
        it.add_argument("backup", metavar="BACKUP")

        it = self.add("restore", changing.restore, keys.options())
        flag(it, "-f", "--force", "also into an image of another size than the backup says")
        flag(it, "-y", "--yes", "ask nothing where both are of one provider")
        it.add_argument("backup", metavar="BACKUP")
        it.add_argument("image", metavar="IMAGE")
        it.add_argument("old", metavar="OLD")


def flag(parser: argparse.ArgumentParser, short: str, long: str, text: str) -> None:
    parser.add_argument(short, long, action="store_true", help=text)


def fits(args: argparse.Namespace) -> bool:
    """Whether the words are as many as their options say."""
    if args.work is growing.make:
        many = 3 if args.over_disk else 4
        return len(args.operands) == many and not (args.over_disk and args.allocate)
    return args.work is not explain.explain or bool(args.words)


def go_on_as_script(word: str, words: list[str]) -> None:
    """Goes on as the script that does the work of the word."""
    script, options, _ = SCRIPTS[word]
    if words[:1] in (["-h"], ["--help"]):
        options = []  # the script looks for it first
    os.environ["GELI_CALLED_AS"] = f"vuthrel {word.removeprefix('u')}"
    os.environ["GELI"], os.environ["GELI_NBD"] = program("geli"), program("geli-nbd")
    path = os.path.join(os.environ.get("VUTHREL_SCRIPTS", ""), script)
    os.execvp("bash", ["bash", path, *options, *words])


def settle() -> None:
    """What holds for all words: files are the user's alone, no core has keys, a signal ends the work in order."""
    os.umask(0o077)
    resource.setrlimit(resource.RLIMIT_CORE, (0, 0))
    os.environ["PATH"] = os.environ.get("PATH", os.defpath) + ":/usr/sbin:/sbin"  # of blkid, sfdisk, wipefs, losetup
    if isinstance(sys.stdout, io.TextIOWrapper):
        sys.stdout.reconfigure(errors="backslashreplace")  # as standard error does by itself
    BREAK.take()


def run(args: argparse.Namespace) -> int:
    """Does the work of a word; the status."""
    work: Work = args.work
    try:
        return work(args)
    except KeyboardInterrupt:
        note(f"{args.called}: broken off")
        return BROKEN_OFF
    except SystemExit as ended:
        return ended.code if isinstance(ended.code, int) else 1
    except (Failed, OSError, UnicodeError) as failed:
        note(f"{args.called}: {failed}")
        failed_status: int = args.failed
        return failed_status
    finally:
        LEFT.tell()
        PRIVATE.remove()


def main(given: Sequence[str] | None = None) -> int:
    words = list(sys.argv[1:] if given is None else given)
    if words and words[0] in SCRIPTS:
        go_on_as_script(words[0], words[1:])
    settle()
    args, others = Words(os.environ.get("VUTHREL_CALLED_AS", "")).build().parse_known_args(words)
    if others or not fits(args):
        args.parser.print_usage(sys.stderr)
        return 2
    os.environ["VUTHREL_CALLED_AS"] = args.called
    return run(args)

"""The word `explain`: what is wrong with the words of a geli command, and what a refusal is."""
from __future__ import annotations

import argparse
import re
import shutil
import subprocess
import textwrap
from collections.abc import Sequence

from .program import REFUSALS, Reply, need, program
from .text import Failed, say

MISSING = {
    "status": "nothing stays attached after a run: vuthrel info says what an image is, vuthrel mount -l what is"
              " mounted",
    "version": "vuthrel info says of which version the metadata of an image are",
    "label": "vuthrel make makes a provider; geli itself does by 'init'",
    "stop": "vuthrel umount unmounts a provider, vuthrel serve -e ends its server",
    "load": "there is no kernel module: vuthrel mount mounts a provider",
    "unload": "there is no kernel module: vuthrel mount mounts a provider",
    **dict.fromkeys(("onetime", "configure", "clear"), "that isn't built, and nothing does its work (docs/FREEBSD.md)"),
}
REASONS = {
    "UnknownOption": "'{verb}' has no such option",
    "MissingValue": "this option needs a value",
    "BadNumber": "this is no decimal number, or it is out of its bounds (write 4096 and not 4k)",
    "BadName": "the cipher is AES-XTS or AES-CBC, the authentication HMAC/SHA256, HMAC/SHA384 or HMAC/SHA512",
    "DashFile": "the file name '-' is refused: use a real file, or /dev/stdin",
    "TooManyFiles": "one option has more than 16 files",
    "OperandCount": "'{verb}' takes more words than these, or fewer (options stand before names)",
    "Exclusive": "two options exclude each other: -p and -j, or -P and -J",
    "MissingOption": "an option is missing: 'resize' needs -s OLDSIZE",
    "BadHex": "these are no hexadecimal digits, or an odd number of them, or more than 262144",
    "NotText": "these words are no UTF-8",
}
OF_VERBS = {
    ("BadName", "submit"): "a request is read SECTOR COUNT, write SECTOR HEX or flush",
    ("Exclusive", "init"): "two options exclude each other: -P with -J or -i",
    ("Exclusive", "delkey"): "two options exclude each other: -a and -n",
}
IMAGES = 16  # of a script
NOTHING_DONE = "error 2 UnknownProvider"  # the reply to a command for an image that a script doesn't have


def lines_of(part: str) -> list[str]:
    """The lines of refusals.txt of one part: the refusals, or the verbs."""
    rows = [row for row in REFUSALS.read_text(encoding="utf-8").splitlines() if not row.startswith("#")]
    return [row for row in rows if row[:1].isdigit() == (part == "refusals")]


def verbs(which: str) -> list[str]:
    """The verbs that are of use as single commands, or in a script alone."""
    return next(row.split()[1:] for row in lines_of("verbs") if row.startswith(f"{which}: "))


def explain(args: argparse.Namespace) -> int:
    """Says in words what is wrong with the words of a geli command, or what a refusal is.

    `vuthrel explain init -s 4k -P -K a.key a.img`: WORD... are the words after `geli`. Status 0: they are a command,
    or would be one as a line of a script. Status 1: they aren't, and standard output says why. For a verb of FreeBSD's
    that is missing here it says what to use instead. `vuthrel explain error 15` gives what geli(8) says about a
    refusal.

    `geli` prints its usage line alone for wrong words, but says more about a line of a script. So this runs the words
    as such a line; that script names an image that can't exist, so nothing is ever done, whatever the words say.
    """
    words = list(args.words)
    if words[0] == "geli" and len(words) > 1:
        del words[0]
    need()
    if words[0] == "error" and len(words) > 1:
        return refusal(words[1])
    if words[0] in MISSING:
        say(f"{words[0]}: {MISSING[words[0]]}")
        return 1
    return of_script(words[1:]) if words[0] == "script" else of_command(words)


def refusal(number: str) -> int:
    """What the page says of a refusal. (Its fields stand between its name and the colon.)"""
    for row in lines_of("refusals"):
        if row.split(" ")[0] == number or (not number.isdigit() and row.split(" ")[1].rstrip(":") == number):
            say(*textwrap.wrap(row, shutil.get_terminal_size().columns))
            return 0
    say(f"no refusal has the number '{number}': geli(8) has all of them")
    return 1


def of_script(images: Sequence[str]) -> int:
    wrong = ""
    if not images:
        wrong = f"it needs the names of 1 to {IMAGES} images"
    elif len(images) > IMAGES:
        wrong = f"it takes {IMAGES} images at most, and here are {len(images)}"
    elif len(set(images)) < len(images):
        wrong = "two of its images have one name"
    say(f"script: {wrong}" if wrong else
        "these words run a script: lines of it, on standard input, are commands as vuthrel explain explains them")
    return 1 if wrong else 0


def reply_to(words: Sequence[str]) -> str:
    """What geli says of the words as a line. A word with blanks is one word of a command, but several of a line."""
    line = " ".join(re.sub(r"\s", "_", word) for word in words) + "\n"
    ran = subprocess.run([program("geli"), "script", "/dev/null/none"], input=line.encode(errors="surrogateescape"),
                         stdout=subprocess.PIPE, check=False)
    return Reply.of(ran.stdout.decode(errors="replace")).last


def of_command(words: Sequence[str]) -> int:
    if "" in words:
        say("a word is empty: look for a name that is not set")
        return 1
    reply = reply_to(words)
    if reply in ("ok", NOTHING_DONE):
        say("these words are a command: nothing is wrong with them", *more_of(words[0]),
            "where geli refuses them, 'vuthrel explain error NUMBER' says why")
        return 0
    if not reply.startswith("error 1 Usage "):
        raise Failed(f"geli says '{reply}'")
    at, reason = reply.split(" ")[3:5]
    say(*fault(words, int(at), reason))
    return 1


def more_of(verb: str) -> list[str]:
    if verb in verbs("in-scripts"):
        return ["but it is of use only as a line of 'geli script IMAGE', behind a line 'attach'"]
    if verb == "attach":
        return ["but nothing stays attached after a run: vuthrel mount mounts what is in the image"]
    return []


def fault(words: Sequence[str], at: int, reason: str) -> list[str]:
    verb = words[0]
    if reason == "UnknownVerb":
        return [f"word 1, '{verb}': no command has this name. These are: {' '.join(verbs('alone'))}; in a script also:"
                f" {' '.join(verbs('in-scripts'))}"]
    wrong = f"word {at + 1}, '{words[at]}'" if at < len(words) else f"behind '{words[-1]}'"
    text = OF_VERBS.get((reason, verb), REASONS.get(reason, reason))
    return [f"{wrong}: {text.format(verb=verb)}", f"geli(8) has the words of '{verb}' under COMMANDS."]

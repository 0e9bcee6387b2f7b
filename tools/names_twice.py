#!/usr/bin/env python3
"""Finds a name that two definitions of specs/ have, and a word that docs/GLOSSARY.md explains twice.

    tools/names_twice.py [--check | --write]

A name should stand for one thing. tools/names_twice.txt has the names that stand for several today, each with the
files of its definitions; the list should only become shorter.
Without a word the tool prints all names that are defined more than once. With --check it prints those that aren't on
the list with just these files, and ends with status 1 where there is one. --write makes the list anew.
"""
import re
import sys
from pathlib import Path

from definitions import files_of, read

ROOT = Path(__file__).resolve().parent.parent
LIST, GLOSSARY = ROOT / "tools/names_twice.txt", ROOT / "docs/GLOSSARY.md"
NOTE = "# Names that more than one definition of specs/ has: NAME: CRATE/FILE... (tools/names_twice.py)\n"


def places():
    """Where each name is defined: crate and file."""
    found = {}
    for crate in sorted(folder.name for folder in (ROOT / "crates").iterdir()):
        for file in files_of(crate):
            for name in [name for name, _, _ in read(file)[1] if name]:
                found.setdefault(name, []).append("%s/%s" % (crate, file.stem))
    return {name: files for name, files in sorted(found.items()) if len(files) > 1}


def allowed():
    if not LIST.exists():
        return {}
    lines = [line for line in LIST.read_text(encoding="utf-8").split("\n") if line and not line.startswith("#")]
    return {name: files.split() for name, files in (line.split(": ") for line in lines)}


def words_explained():
    """The words in bold print in the glossary, as often as they stand there."""
    return [word.lower() for word in re.findall(r"\*\*([^*]+)\*\*", GLOSSARY.read_text(encoding="utf-8"))]


def faults(found, known):
    """What --check prints: names that are new, or on the list in vain, and words that are explained twice."""
    for name in sorted({*found, *known}):
        new = sorted(set(found.get(name, [])) - set(known.get(name, [])))
        gone = sorted(set(known.get(name, [])) - set(found.get(name, [])))
        if new and name in known:
            yield "`%s` is defined once more: %s" % (name, ", ".join(new))
        elif new:
            yield "`%s` is defined twice: %s" % (name, ", ".join(new))
        if gone:
            yield "`%s` is no longer defined in %s: take it from %s" % (name, ", ".join(gone), LIST.relative_to(ROOT))
    words = words_explained()
    for word in sorted({word for word in words if words.count(word) > 1}):
        yield "docs/GLOSSARY.md explains \"%s\" twice" % word


def main(arguments):
    found = places()
    lines = ["%s: %s" % (name, " ".join(files)) for name, files in found.items()]
    if arguments == ["--write"]:
        LIST.write_text(NOTE + "\n".join(lines) + "\n", encoding="utf-8")
        return 0
    if arguments == ["--check"]:
        lines = list(faults(found, allowed()))
    for line in lines:
        print(line)
    return 1 if arguments == ["--check"] and lines else 0


if __name__ == "__main__":
    sys.exit(main(sys.argv[1:]))

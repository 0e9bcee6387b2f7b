#!/usr/bin/env python3
"""The tables of the tests of lines and words, by the reader of the syntax that stands here, in Python alone.

A row of the first table has the separator, a line, and what the line says; one of the second has the words of a command
line and the images that they name. This takes lines and words from the tables, reads them itself, and prints the rows
that come of it, or with `--check` those that differ. It ends with status 1 where they aren't the tables'.

The options and operands of each verb are those of man/geli.8 (tools/verbs.py).
"""
import argparse
import re
import sys
from collections import namedtuple
from pathlib import Path

from verbs import verbs_of_page

CRATES = Path(__file__).parent.parent / "crates"

# Bytes that the tables write by other signs.
SIGNS = {b"~": b"\0", b"`": b"\t", b"^": b"\r", b"!": b"\xff", b"%": b"\xc3", b"{": b"a" * 262140, b"}": b"a" * 37855}

# What operands are called here, where the page calls them otherwise.
KINDS = {"image": "prov", "place": "file", "count": "many"}


def kind_of(name, form, operand):
    """What an operand is called here; a job has its name. Of sectors that are printed, few are asked for at a time."""
    if operand == "count" and (name == "read" or "=read" in form):
        return "few"
    return "job" + operand if operand.startswith("=") else KINDS.get(operand, operand)


def forms_of(name, verb):
    return [" ".join(kind_of(name, form, operand) for operand in form) for form in verb.forms]


# The verbs of the page, with the operands of each form as they are called here.
VERBS = {name.encode(): verb._replace(forms=forms_of(name, verb)) for name, verb in verbs_of_page().items()}
# The lowest and the highest value of an option or an operand that is a number, and the step from one to the next.
BOUNDS = {
    "i": (0, 2**31 - 1, 1), "l": (0, 2**16 - 1, 1), "s": (0, 2**32 - 1, 1), "n": (0, 2**8 - 1, 1),
    "resize s": (1024, 2**53 - 512, 512),
    "sector": (0, 2**63 - 1, 1), "few": (1, 256, 1), "many": (1, 2**63 - 1, 1), "seed": (0, 2**64 - 1, 1),
    "tag": (0, 31, 1),
}
# The names that an option may have.
NAMES = {"a": {b"HMAC/SHA256": "Sha256", b"HMAC/SHA384": "Sha384", b"HMAC/SHA512": "Sha512"},
         "e": {b"AES-XTS": "AesXts", b"AES-CBC": "AesCbc"}}
# Options that exclude each other, under one verb or under all.
APART = [(None, "p", "j"), (None, "P", "J"), (b"init", "P", "i"), (b"delkey", "a", "n")]
# Options that gather their files, at most 16.
GATHERED = "jJkK"

# A word or the value of an option: the number of its word, its place in the line, and its bytes.
Value = namedtuple("Value", "number start text")


class Usage(Exception):
    """Why a line is no command: the number of a word, and what is wrong."""


def words(line, sep):
    """Between blanks words are the longest runs of other bytes; between zero bytes they may be empty."""
    if sep == "B":
        found = [(run.start(), run.group()) for run in re.finditer(rb"[^ \t]+", line)]
    else:
        found, start = [], 0
        for part in line.split(b"\0") if line else []:
            found.append((start, part))
            start += len(part) + 1
    return [Value(number, *word) for number, word in enumerate(found)]


def is_number(bounds, text):
    low, high, step = bounds
    return re.fullmatch(rb"[0-9]{1,20}", text) and low <= int(text) <= high and int(text) % step == 0


def bounds_of(verb, letter):
    return BOUNDS.get(f"{verb.decode()} {letter}") or BOUNDS.get(letter)


def fault(verb, letter, text, before):
    """What is wrong with the value of an option, of which so many came before."""
    if bounds_of(verb, letter):
        return None if is_number(bounds_of(verb, letter), text) else "BadNumber"
    if letter in NAMES:
        return None if text.upper() in NAMES[letter] else "BadName"
    if text == b"-":
        return "DashFile"
    return "TooManyFiles" if letter in GATHERED and before == 16 else None


def operand_fault(kind, text):
    """What is wrong with an operand."""
    if kind in BOUNDS:
        return None if is_number(BOUNDS[kind], text) else "BadNumber"
    if kind == "file":
        return "DashFile" if text == b"-" else None
    if kind == "hex":
        return None if len(text) <= 2**18 and re.fullmatch(rb"([0-9A-Fa-f]{2})+", text) else "BadHex"
    if kind.startswith("job="):
        return None if text == kind[4:].encode() else "BadName"
    return None


def form_of(verb, operands):
    """The kinds of these operands: of the forms with as many that whose job is named, or else the first; None without."""
    forms = [form.split() for form in VERBS[verb].forms]
    forms = [form for form in forms if len(form) == len(operands)]
    for form in forms:
        if not any(operand_fault(kind, word.text) for kind, word in zip(form, operands) if kind.startswith("job=")):
            return form
    return forms[0] if forms else None


def options(verb, found):
    """The values of each option that is given, and the operands behind the options."""
    given, at = {}, 1
    while at < len(found):
        word = found[at]
        if word.text == b"--":
            return given, found[at + 1:]
        if word.text[:1] != b"-" or word.text == b"-":
            break
        for place, letter in enumerate(map(chr, word.text)):
            if place == 0:
                continue
            values = given.setdefault(letter, [])
            if letter in VERBS[verb].alone:
                continue
            if letter not in VERBS[verb].valued:
                raise Usage(word.number, "UnknownOption")
            # The value is the rest of the group, or else the next word.
            value = Value(word.number, word.start + place + 1, word.text[place + 1:])
            if not value.text:
                at += 1
                if at == len(found):
                    raise Usage(at, "MissingValue")
                value = found[at]
            wrong = fault(verb, letter, value.text, len(values))
            if wrong:
                raise Usage(value.number, wrong)
            values.append(value)
            break
        at += 1
    return given, found[at:]


def is_text(line):
    try:
        line.decode()
    except UnicodeDecodeError:
        return False
    return True


def read(line, sep):
    """The verb, the options and the operands of a line; None where it says nothing."""
    found = words(line, sep)
    if not found or sep == "B" and found[0].text[:1] == b"#":
        return None
    if not is_text(line):
        raise Usage(0, "NotText")
    verb = found[0].text
    if verb not in VERBS:
        raise Usage(0, "UnknownVerb")
    given, operands = options(verb, found)
    kinds = form_of(verb, operands)
    if kinds is None:
        raise Usage(len(found), "OperandCount")
    if any(letter not in given for letter in VERBS[verb].needed):
        raise Usage(len(found), "MissingOption")
    for own, one, other in APART:
        if own in (None, verb) and one in given and other in given:
            raise Usage(len(found), "Exclusive")
    for kind, operand in zip(kinds, operands):
        wrong = operand_fault(kind, operand.text)
        if wrong:
            raise Usage(operand.number, wrong)
    return verb, given, dict(zip(kinds, operands))


def show_value(value):
    return f"{value.number}@{value.start}..{value.start + len(value.text)}"


def show_key(given, files, passphrases, without):
    shown = [", ".join(map(show_value, given.get(letter, []))) for letter in (files, passphrases)]
    return f"KeyWords {{ files: [{shown[0]}], pass: [{shown[1]}], without: {str(without in given).lower()} }}"


# The fields of a command, in order: operands, and options by their letters.
FIELDS = {
    b"init": "prov cipher=e auth=a keylen=l sectorsize=s iterations=i autoresize=R fresh=KJP backup=B",
    b"attach": "prov only_check=C readonly=r slot=n old=kjp",
    b"setkey": "prov iterations=i slot=n old=kjp fresh=KJP",
    b"delkey": "prov all=a force=f slot=n",
    b"restore": "file prov force=f",
    b"resize": "prov oldsize=s",
    b"read": "prov sector count=few",
    b"fill": "prov seed start=sector count=many",
    b"sum": "prov start=sector count=many",
    b"submit": "prov job",
    b"resume": "prov old=kjp",
    b"verify": "prov file count=many restart=r",
}
# Those of a request.
JOBS = {"read": "sector count=few", "write": "sector hex", "flush": ""}


def show_option(verb, given, last, letter):
    """What an option comes to, or what stands for it where it isn't given. The last value counts."""
    if len(letter) == 3:
        return show_key(given, *letter)
    if letter in VERBS[verb].alone:
        return str((letter in given) != (letter == "R")).lower()
    if letter in "in":
        return f"Some({int(last[letter])})" if letter in last else "None"
    if letter in "ls":
        return str(int(last.get(letter, {"l": 128, "s": 512}[letter])))
    if letter == "B":
        return f"Some({show_value(given[letter][-1])})" if last.get(letter, b"none") != b"none" else "None"
    if letter == "a" and letter not in last:
        return "Off"
    return NAMES[letter][last.get(letter, b"AES-XTS").upper()]


def show_named(name, fields, verb, given, operands):
    last = {letter: values[-1].text for letter, values in given.items() if values}
    shown = []
    for field in fields.split():
        label, _, place = field.partition("=")
        operand = operands.get(place or label)
        if label == "job":
            job = next(kind[4:] for kind in operands if kind.startswith("job="))
            shown.append(f"job: {show_named(job, JOBS[job], verb, given, operands)}")
        elif operand is None:
            shown.append(f"{label}: {show_option(verb, given, last, place)}")
        elif (place or label) in BOUNDS:
            shown.append(f"{label}: {int(operand.text)}")
        else:
            shown.append(f"{label}: {show_value(operand)}")
    return name.title() + (" { " + ", ".join(shown) + " }" if shown else "")


def show_command(verb, given, operands):
    return show_named(verb.decode(), FIELDS.get(verb, VERBS[verb].forms[0]), verb, given, operands)


def reply(line, sep):
    try:
        said = read(line, sep)
    except Usage as usage:
        return "usage {} {}".format(*usage.args)
    return show_command(*said) if said else "none"


def images(words):
    """The images that the words of a command line name."""
    if words[0] == b"script" and 1 <= len(words[1:]) == len(set(words[1:])) <= 16:
        return words[1:]
    line = b"\0".join(words)
    try:
        said = len(line) <= 300000 and read(line, "Z")
    except Usage:
        return []
    return [said[2]["prov"].text] if said and "prov" in said[2] else []


def plain(text):
    return b"".join(SIGNS.get(bytes([byte]), bytes([byte])) for byte in text.encode())


def line_row(row):
    sep, line, _ = row.split("|", 2)
    return f"{sep}|{line}|{reply(plain(line), sep)}"


def image_row(row):
    words = row.partition("||")[0]
    signs = {plain(word): word for word in words.split("|")}
    shown = ", ".join(f'"{signs[name]}"' for name in images([plain(word) for word in words.split("|")]))
    return f"{words}||[{shown}]"


def main():
    options = argparse.ArgumentParser(description=__doc__, formatter_class=argparse.RawDescriptionHelpFormatter)
    options.add_argument("--check", action="store_true", help="say only which rows differ")
    check = options.parse_args().check
    wrong = False
    for name, path, make in (("LINES", "known_answers/src/words/table.rt", line_row),
                             ("IMAGES", "geli_tests/src/words/table.rt", image_row)):
        table = (CRATES / path).read_text(encoding="utf-8").split('r#"')[1]
        before = table.split('"#')[0].splitlines()
        rows = [make(row) for row in before]
        differ = [(old, new) for old, new in zip(before, rows) if old != new]
        if check:
            print(f"{path}: {name}: {f'{len(differ)} rows differ' if differ else 'equal'}")
            print("".join(f"  {old}\n  here {new}\n" for old, new in differ), end="")
        else:
            print("\n".join(rows))
        wrong |= bool(differ)
    sys.exit(wrong)


if __name__ == "__main__":
    main()

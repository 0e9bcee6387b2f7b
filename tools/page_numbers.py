#!/usr/bin/env python3
"""Makes the numbers that pages repeat, each out of the one place that has it.

    tools/page_numbers.py [--check]

A rule is a page, what stands around the number there, and what the number is: the refusals, iterations and waiting
writes of the code, the tables and measurements in docs/PERFORMANCE.md and bench/gate.txt, the verbs that are missing
by docs/FREEBSD.md, and what packaging/control has.
Without --check each page is written anew where a number differs; with it each such number is printed, and the status is
1 where there is one. It is 2 where a page hasn't what a rule looks for.
"""
import math
import pathlib
import re
import sys

ROOT = pathlib.Path(__file__).resolve().parent.parent
SPEEDS, GATE = "docs/PERFORMANCE.md", "bench/gate.txt"
WORDS = "no one two three four five six seven eight nine ten eleven twelve".split()


class Lacking(Exception):
    """A page hasn't what is looked for."""


def text_of(name):
    return (ROOT / name).read_text(encoding="utf-8")


def first(name, pattern):
    """The groups of the first place in a page that matches."""
    found = re.search(pattern, text_of(name))
    if not found:
        raise Lacking(f"{name}: nothing matches {pattern}")
    return found.groups()


def cells(first_cell, *more):
    """The other cells of the first row of docs/PERFORMANCE.md that begins with these."""
    start = "| " + " | ".join([first_cell, *more]) + " | "
    for line in text_of(SPEEDS).splitlines():
        if line.startswith(start):
            return line.removeprefix(start).strip(" |").split(" | ")
    raise Lacking(f"{SPEEDS}: no row {start}")


def ratios(title, *columns):
    """The numbers in brackets of these columns of a table of docs/PERFORMANCE.md."""
    lines = text_of(SPEEDS).splitlines()
    at = next((at for at, line in enumerate(lines) if line.startswith(title)), None)
    if at is None:
        raise Lacking(f"{SPEEDS}: no table {title}")
    found = []
    for line in lines[at + 2:]:
        if not line.startswith("|"):
            break
        row = line.strip(" |").split(" | ")
        found += [re.search(r"\((.*)\)", row[column]).group(1) for column in columns]
    return sorted(found, key=float)


def refusals():
    return str(len(re.findall(r"Refusal::\w+(?: \{ \.\. \})? => \d+,", text_of("crates/eli_base/src/refusals.rt"))))


def waiting():
    """How many writes wait for a `behind:` image."""
    return first("crates/image_layers/src/image_disks.rt", r"const ROOM: u32 = (\d+);")


def iterations(grouped):
    """How often `init` iterates if nothing is said; with a comma in it if so asked."""
    count = int(first("crates/key_commands/src/set_key.rt", r"USUAL_ITERATIONS: i32 = ([\d_]+);")[0])
    return [f"{count:,}" if grouped else str(count)]


def missing_verbs():
    return WORDS[len(re.findall("`", first("docs/FREEBSD.md", r"(?m)^\| (.*) \| missing \|$")[0])) // 2]


def speed(column):
    """MB/s of `fill` for the usual provider: of the program (0), and of C with so many bytes a call."""
    return cells("xts 128, 4096", "fill")[column].split(" ")[0]


def copied(row, column):
    """Seconds that nbdcopy took: of `geli-nbd` at x86-64-v2 (0) and x86-64-v3 (1), of LUKS without and with help."""
    return cells(row)[column]


def first_build(which):
    """The least (0) and most (1) minutes of a first build, rounded down and up."""
    least, seconds, most, more = map(int, first(SPEEDS, r"(\d+) min (\d+) s to (\d+) min (\d+) s for both programs"))
    assert seconds < 60 and more < 60
    return str(most + (more > 0) if which else least)


def gate():
    """What the gate took with nothing kept: seconds of the clock, and those of processors."""
    clock, spent = first(GATE, r"(?m)^([\d,]+) s, with ([\d,]+) s of processor time")
    return int(clock.replace(",", "")), spent


def by_the_call():
    """What a call of AES-XTS over 4,096 bytes takes of OpenSSL with its instructions: the least and the most."""
    shares = []
    for row in ("AES-128 xts seal, 4096", "AES-128 xts open, 4096", "AES-256 xts seal, 4096", "AES-256 xts open, 4096"):
        _, here, _, other = cells(row)
        shares.append(float(here.split(" ")[0]) / float(other))
    return f"{min(shares):.2f}", f"{max(shares):.2f}"


# A page, what stands around the numbers (each is a #), and what they are.
RULES = [
    ("README.md", r"\[# refusals\]", lambda: [refusals()]),
    ("crates/reply_text/README.md", r"the # refusals", lambda: [refusals()]),
    ("README.md", r"\(# writes wait", waiting),
    ("man/geli.8", r"up to # device writes wait", waiting),
    ("man/geli-nbd.8", r"up to # device writes wait", waiting),
    ("man/geli.8", r"from 0 to 2147483647\.\nDefault: #\.", lambda: iterations(False)),
    ("man/geli.8", r"or # if its keys had no passphrase", lambda: iterations(False)),
    ("man/geli.8", r"not measured: the default is #\.", lambda: iterations(False)),
    ("docs/FREEBSD.md", r"`-i`, by default #;", lambda: iterations(True)),
    ("docs/FREEBSD.md", r"make-provider\.sh takes #\.(?=\s)",
     lambda: [f"{int(first('kit/vuthrel/cli.py', r'ITERATIONS = ([0-9]+)')[0]):,}"]),
    ("README.md", r"\[# verbs\]", lambda: [missing_verbs()]),
    ("README.md", r"# MB/s written, where C over OpenSSL writes # without AES instructions and # with them",
     lambda: [speed(0), speed(1), speed(3)]),
    ("README.md", r"300 files are copied in # s, out of it in #; over nbdkit's LUKS with them in # and #(?=\s)",
     lambda: [copied(f"300 files, 120 MB, {way}", side).split(" ")[0] for side in (0, 3) for way in ("in", "out")]),
    ("README.md", r"builds: # to # min", lambda: [first_build(0), first_build(1)]),
    ("README.md", r"program; # min", lambda: [str(math.floor(gate()[0] / 60 + 0.5))]),
    (SPEEDS, r"gate costs # s of processor with nothing kept, in # minutes and # s",
     lambda: [gate()[1], *map(str, divmod(gate()[0], 60))]),
    ("README.md", r"glibc # or later", lambda: first("packaging/control", r"libc6 \(>= (.*?)\)")),
    ("package", r"glibc # or later", lambda: first("packaging/control", r"libc6 \(>= (.*?)\)")),
    ("geli", r"# minutes and more", lambda: [first_build(0)]),
    ("packaging/programs.sh", r"# minutes and more", lambda: [first_build(0)]),
    (SPEEDS, r"program runs at # to # of the speed", lambda: extremes("| provider | call | geli", 5, 6)),
    (SPEEDS, r"ahead in every row \(# to #\)", lambda: extremes("| provider | call | geli", 3)),
    (SPEEDS, r"over 4,096 bytes runs at # to # of OpenSSL", by_the_call),
    (SPEEDS, r"copies 500 MB out in # s with those instructions, `geli-nbd` in #\.(?=\s)",
     lambda: [copied("nbdcopy out", 3), copied("nbdcopy out", 1)]),
]


def extremes(title, *columns):
    found = ratios(title, *columns)
    return found[0], found[-1]


def corrected(page, around, numbers):
    """A page's text with these numbers, and what of it differed."""
    text = text_of(page)
    found = re.search(around.replace("#", r"([\w.,]*\w)").replace(" ", r"\s+"), text)
    if not found:
        raise Lacking(f"{page}: nothing matches {around}")
    differing = []
    for group in range(len(numbers), 0, -1):
        if found.group(group) != numbers[group - 1]:
            line = text.count("\n", 0, found.start(group)) + 1
            differing.insert(0, f"{page}:{line}: {found.group(group)}, and not {numbers[group - 1]} ({around})")
            text = text[:found.start(group)] + numbers[group - 1] + text[found.end(group):]
    return text, differing


def main(words):
    is_check, status = words == ["--check"], 0
    if words and not is_check:
        print(__doc__.split("\n\n")[1].strip(), file=sys.stderr)
        return 2
    for page, around, numbers in RULES:
        try:
            text, differing = corrected(page, around, list(numbers()))
        except Lacking as what:
            print(what)
            status = 2
            continue
        for line in differing:
            print(line)
        if differing and is_check:
            status = max(status, 1)
        elif differing:
            (ROOT / page).write_text(text, encoding="utf-8")
    return status


if __name__ == "__main__":
    sys.exit(main(sys.argv[1:]))

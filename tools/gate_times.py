#!/usr/bin/env python3
"""Runs a command and prints what each crate cost in it, or draws what was printed.

    tools/gate_times.py [--edits] COMMAND...         as rt ci
    tools/gate_times.py [--edits] --watch PROCESS    looks at a command that runs already, by its number, to its end
    tools/gate_times.py --picture LOG                keeps a log's table in bench/gate.txt, and draws gate.svg of it
    tools/gate_times.py [--check]                    draws it of what is kept; with --check compares it

A line has processor seconds of a crate's proof, of its tests' proof and of its must-fail edits, and what one of these
edits took in the mean. The dearest crate comes first. Then come the ten dearest wrong bodies, proofs and proofs of
tests, and the whole beside that of bench/gate.txt, which is of a gate with nothing kept. With --edits all wrong bodies
are listed, and for each crate what its edits begin and end with (`as it stands`). It is started at the repository's
root and ends with the command's status.

It looks at the running checks every half second, so what a check does in its last half second is lost, and each sum is
a little too low; the last line has the whole as the system counts it. With --watch it has what was seen, and nothing of
what had ended before.
"""
import collections
import itertools
import os
import pathlib
import re
import resource
import subprocess
import sys
import threading
import time

from drawing import ROOT, box, label, made, picture, text_of

TICKS = os.sysconf("SC_CLK_TCK")
DEAREST = 10
AS_IT_STANDS = "as it stands"
HEAD = "| Crate | Proof | Tests | Edits | Of each edit | Sum |"
KEPT = "bench/gate.txt"
WHOLE = re.compile(r"^([\d,]+) s, with ([\d,]+) s of processor time, on (\d+) processors$", re.M)
# What the parts of a bar are, and their colours in drawing.py.
KINDS = (("proof", "bar"), ("proof of its tests", "far"), ("wrong bodies", "near"))
LEFT, ROW, WIDTH = 150, 17, 560


def children():
    """Yields each process that the command started: its number, its parent and its processor seconds."""
    for name in os.listdir("/proc"):
        if not name.isdigit():
            continue
        try:
            with open(f"/proc/{name}/stat", errors="replace") as it:
                fields = it.read().rpartition(")")[2].split()
        except OSError:
            continue
        yield int(name), int(fields[1]), (int(fields[11]) + int(fields[12])) / TICKS, int(fields[19])


def changed_by(edit):
    """Returns the texts that a wrong body makes, by their files in the crate."""
    texts, path, old = {}, "", ""
    for line in edit.read_text(encoding="utf-8").split("\n"):
        word, _, rest = line.partition(":")
        if word == "file":
            path = rest.strip()
        elif word == "old":
            old = rest.removeprefix(" ")
        elif word == "new":
            text = texts.get(path) or (edit.parent.parent / path).read_text(encoding="utf-8")
            texts[path] = text.replace(old, rest.removeprefix(" "))
    return texts


def edit_in(crate, folder):
    """Returns the wrong body that a copy of the crate has, if it has one."""
    for edit in sorted(pathlib.Path("crates", crate, "must-fail").glob("*.edit")):
        texts = changed_by(edit).items()
        if all(pathlib.Path(folder, path).read_text(encoding="utf-8") == text for path, text in texts):
            return edit.stem
    return AS_IT_STANDS


def work_of(number):
    """Returns the crate that a process checks, what of it and which wrong body, or None."""
    try:
        with open(f"/proc/{number}/cmdline", errors="replace") as it:
            words = it.read().split("\0")
        folder = os.readlink(f"/proc/{number}/cwd")
    except OSError:
        return None
    if not words[0].endswith("/rattle") or "--crate-name" not in words:
        return None
    crate = words[words.index("--crate-name") + 1]
    if "rt-edit-" in folder:
        try:
            return crate, "edits", edit_in(crate, folder)
        except OSError:
            return crate, "edits", "not known"
    return crate, "tests" if "--test" in words else "proof", ""


def watch(top, works, seconds, has_ended):
    """Notes what each process below this one works at, and the seconds that it took, until the work has ended."""
    while not has_ended():
        found = list(children())
        below = {top}
        while True:
            more = {number for number, parent, _, _ in found if parent in below} - below
            if not more:
                break
            below |= more
        for number, _, taken, begun in found:
            if number in below:
                work = works.get((number, begun)) or work_of(number)
                if work:
                    works[number, begun] = work
                    seconds[number, begun] = taken
        time.sleep(0.5)


def print_row(name, row, edits):
    """Prints the seconds of a crate, or of all, which has this many edits."""
    each = f"{row['edits'] / edits:,.0f}" if edits else ""
    parts = [f"{row[it]:,.0f}" for it in ("proof", "tests", "edits")]
    print("| " + " | ".join([name, *parts, each, f"{sum(row.values()):,.0f}"]) + " |")


def print_each(each, words, most=None):
    """Prints the seconds of each crate's work of a kind, the dearest first."""
    print(f"\n| Crate | {words} | Seconds |\n|---|---|---|")
    for (crate, name), taken in sorted(each.items(), key=lambda it: -it[1])[:most]:
        print(f"| `{crate}` | {name} | {taken:,.0f} |")


def print_table(works, seconds, shows_edits):
    """Prints what was seen, by crate, and the dearest of each kind; and returns the sum."""
    table = collections.defaultdict(lambda: collections.defaultdict(float))
    each = {it: collections.defaultdict(float) for it in ("edits", "proof", "tests")}
    for key, taken in seconds.items():
        crate, kind, edit = works[key]
        table[crate][kind] += taken
        each[kind][crate, edit or "all"] += taken
    print(f"{HEAD}\n|---|---|---|---|---|---|")
    for crate, row in sorted(table.items(), key=lambda it: -sum(it[1].values())):
        print_row(f"`{crate}`", row, len(list(pathlib.Path("crates", crate, "must-fail").glob("*.edit"))))
    kinds = {it: sum(row[it] for row in table.values()) for it in ("proof", "tests", "edits")}
    print_row("all", kinds, len(list(pathlib.Path("crates").glob("*/must-fail/*.edit"))))
    print_each({key: it for key, it in each["edits"].items() if shows_edits or key[1] != AS_IT_STANDS}, "Wrong body",
               None if shows_edits else DEAREST)
    print_each(each["proof"], "Proof", DEAREST)
    print_each(each["tests"], "Proof of its tests", DEAREST)
    return sum(seconds.values())


def whole_of(text):
    """The seconds of the clock and of the processors that a table ends with, and how many of these there were."""
    found = WHOLE.search(text)
    return [int(it.replace(",", "")) for it in found.groups()] if found else None


def print_whole(clock, spent):
    kept = whole_of(text_of(KEPT))
    if kept:
        print(f"\n{spent / kept[1]:.0%} of the {kept[1]:,} s of processor of the gate that {KEPT} has")
    print(f"{clock:,.0f} s, with {spent:,.0f} s of processor time, on {os.cpu_count()} processors", flush=True)


def run(words, shows_edits):
    works, seconds, ended, began = {}, {}, threading.Event(), time.time()
    command = subprocess.Popen(words)
    watcher = threading.Thread(target=watch, args=(command.pid, works, seconds, ended.is_set))
    watcher.start()
    status = command.wait()
    ended.set()
    watcher.join()
    whole = resource.getrusage(resource.RUSAGE_CHILDREN)
    print_table(works, seconds, shows_edits)
    print_whole(time.time() - began, whole.ru_utime + whole.ru_stime)
    return status


def look_at(process, shows_edits):
    works, seconds, began = {}, {}, time.time()
    watch(process, works, seconds, lambda: not os.path.exists(f"/proc/{process}"))
    print_whole(time.time() - began, print_table(works, seconds, shows_edits))
    return 0


def table_of(text):
    """The lines of the last table by crate in a text, and the line that has the whole."""
    lines = text.splitlines()
    at = max((at for at, line in enumerate(lines) if line == HEAD), default=None)
    whole = WHOLE.search(text)
    if at is None or not whole:
        sys.exit(f"no table of tools/gate_times.py, with the whole below it: {HEAD}")
    rows = [*itertools.takewhile(lambda line: line.startswith("|"), lines[at:])]
    if not any(row.startswith("| `") for row in rows):
        sys.exit("no crate is in its table: what was kept costs nothing, as in rt ci without --anew")
    return [*rows, "", whole[0]]


def rows_of(lines):
    """Each row below the head of a table: its name and its numbers."""
    for line in lines[2:]:
        name, *cells = [cell.strip() for cell in line.strip("|").split("|")]
        if len(cells) == 5:
            numbers = [float(cell.replace(",", "")) if cell else 0.0 for cell in cells]
            yield name, numbers[:3], numbers[4]


def bar(y, numbers, scale):
    x, parts = LEFT, []
    for number, (_, kind) in zip(numbers, KINDS):
        parts.append(f'<rect x="{x:.1f}" y="{y:.1f}" width="{number * scale:.1f}" height="{ROW - 5}" class="{kind}"/>')
        x += number * scale
    return parts, x


def drawn():
    """The table that is kept, as a picture: a bar for each crate, and in words what the table has of several."""
    text = text_of(KEPT)
    rows = list(rows_of(table_of(text)))
    crates = [row for row in rows if row[0].startswith("`")]
    clock, spent, processors = whole_of(text)
    said = f"{clock / 60:.0f} minutes on {processors} processors, {spent:,} s of these; of each crate, in seconds:"
    parts = [label(20, 32, "What the gate costs, by crate", "title"), label(20, 54, said, "faint")]
    at = 20
    for name, kind in KINDS:
        parts += [box(at, 68, 26, 14, kind), label(at + 34, 80, name, "small")]
        at += 60 + 8 * len(name)
    scale, y = WIDTH / max(row[2] for row in crates), 98
    for name, numbers, whole in crates:
        pieces, end = bar(y, numbers, scale)
        parts += [label(LEFT - 10, y + 11, name.strip("`"), "small", "end"), *pieces]
        parts.append(label(end + 6, y + 11, f"{whole:,.0f}", "small faint"))
        y += ROW
    for name, numbers, whole in rows:
        if not name.startswith("`"):
            each = ", ".join(f"{kind} {number:,.0f}" for number, (kind, _) in zip(numbers, KINDS))
            parts.append(label(20, y + 16, f"{name}: {whole:,.0f} ({each})", "small"))
            y += ROW
    return picture(LEFT + WIDTH + 70, y + 20, "What the gate costs, by crate", parts)


def main(words):
    shows_edits = words[:1] == ["--edits"]
    words = words[shows_edits:]
    if words[:1] == ["--picture"] and len(words) == 2:
        lines = table_of(pathlib.Path(words[1]).read_text(encoding="utf-8", errors="replace"))
        (ROOT / KEPT).write_text("\n".join(lines) + "\n", encoding="utf-8")
        words = []
    if words in ([], ["--check"]):
        return made([("gate.svg", drawn)], words)
    if words[0] == "--watch" and len(words) == 2 and words[1].isdigit():
        return look_at(int(words[1]), shows_edits)
    if words[0].startswith("-"):
        print(__doc__.split("\n\n")[1], file=sys.stderr)
        return 2
    return run(words, shows_edits)


if __name__ == "__main__":
    sys.exit(main(sys.argv[1:]))

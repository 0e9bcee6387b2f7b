#!/usr/bin/env python3
"""Draws the pictures of docs/pictures/, each from what it shows.

    tools/pictures.py [--check]

- layers.svg: the crates of crates.txt, each above those that it uses; what another one brings has no line.
- write.svg: the way of a `write` through the crates (STEPS below; each call must stand in its crate's src/).
- speed.svg: the table of the whole program in docs/PERFORMANCE.md, as bench/whole.py prints it.
- crash.svg: what `read` says after a power failure, by the transcript of an acceptance case that the gate runs.

Without --check the pictures are written; with it each is compared, and the status is 1 where one differs.
"""
import hashlib
import re
import sys

import case_files
from drawing import ROOT, box, label, made, picture, text_of
from layer_layout import direct, ordered, ranks, reach, spread, uses_of, with_threads

PROGRAMS = ("geli_cli", "geli_nbd")
BOX, ROW, EDGE = 30, 88, 24

# How deep a call stands below the first, the crate, its calls, and what it does for the line `write a.img 0 00..`.
STEPS = [
    (0, "image_run", ["run_files"], "opens the images that the words name, and hands on their disks"),
    (1, "geli_core", ["run_over", "serve_and_print"], "takes the script in pieces, and serves each line as it ends"),
    (2, "command_words", ["read_line"], "reads the line as a command, or says what is wrong with its words"),
    (2, "shelf", ["serve", "serve_request"], "finds the drawer, and decodes the digits into the buffer"),
    (3, "provider", ["write"], "refuses what is read-only or out of range"),
    (4, "sector_runs", ["write_run"], "goes by as many sectors as 32 KiB hold: seals them, and writes them at once"),
    (5, "plain_sectors", ["seal_plain"], "without authentication: the logical sector is one run"),
    (5, "auth_sectors", ["seal_piece", "seal_apart"], "with authentication: units with their tags, one or four at once"),
    (6, "range_keys", ["key_at", "iv_at", "tag_key_at"], "for both: the keys of a byte offset"),
    (6, "sealing", ["seal_run"], "for both: enciphers one run of blocks under these keys"),
    (7, "xts_mode", ["xts_seal_sliced"], "AES-XTS, sixteen blocks at a time (aes_planes); or cbc_mode"),
    (5, "block_traits", ["write", "write_sectors"], "the trait Disk: device sectors go to whatever disk is below"),
    (6, "disk_layers", ["write_at", "write_sectors"], "behind:FILE, whose writes wait, and join:FILE:FILE, two as one"),
    (7, "file_edge", ["write", "write_sectors"], "the file, by calls of the system"),
    (2, "reply_text", ["write_reply"], "gives the reply to the output, before the next line is served"),
]

# ---- the layers

def sources(crate):
    files = sorted((ROOT / "crates" / crate / "src").rglob("*.rt"))
    return "\n".join(file.read_text(encoding="utf-8") for file in files)


def kind_of(crate, uses):
    """Whether a crate has laws alone, is part of a program, or is for tests and measurements."""
    text = sources(crate)
    calls = len(re.findall(r"^\s*(?:pub(?:\(crate\))? )?(?:const )?fn ", text, re.M))
    if calls and calls == len(re.findall(r"^\s*\{\s*\}\s*$|\{\}\s*$", text, re.M)):
        return "law"
    is_reached = any(crate == it or crate in reach(uses, it) for it in PROGRAMS)
    return "code" if is_reached else "test"


def width_of(crate):
    return 8.2 * len(crate) + 18


def line_through(points):
    """A line from point to point that leaves and meets each row upright."""
    path = "M%.1f %.1f" % points[0]
    for (x, y), (to, above) in zip(points, points[1:]):
        middle = (y + above) / 2
        path += " L%.1f %.1f" % (to, above) if x == to else " C%.1f %.1f %.1f %.1f %.1f %.1f" % (
            x, middle, to, middle, to, above)
    return '<path d="%s"/>' % path


def ends(place, others, middle):
    """Where the lines of one side of a box begin: side by side, in the order of where they lead."""
    others = sorted(others, key=lambda other: middle[other])
    step = min(14, (width_of(place[0]) - 24) / max(1, len(others) - 1))
    return {other: (number - (len(others) - 1) / 2) * step for number, other in enumerate(others)}


def lines_of(lines, rows, middle, height_of):
    """All lines: each from the box that uses to the one that is used."""
    chains = {line: [(line[1],)] + [(line[1], line[0], row) for row in range(rows[line[1]] + 1, rows[line[0]])]
              + [(line[0],)] for line in lines}
    over = {(name,): ends((name,), [c[1] for c in chains.values() if c[0] == (name,)], middle) for name in rows}
    under = {(name,): ends((name,), [c[-2] for c in chains.values() if c[-1] == (name,)], middle) for name in rows}
    for chain in chains.values():
        points = [(middle[chain[0]] + over[chain[0]][chain[1]], height_of(rows[chain[0][0]]))]
        for place in chain[1:-1]:
            points += [(middle[place], height_of(place[2]) + BOX), (middle[place], height_of(place[2]))]
        last = chain[-1]
        points.append((middle[last] + under[last][chain[-2]], height_of(rows[last[0]]) + BOX))
        yield line_through(points)


def layers():
    whole = uses_of(text_of("crates.txt"))
    uses = direct(whole)
    rows = ranks(uses)
    places, pieces = with_threads(uses, rows)
    order, near = ordered(places, pieces)
    middle = spread(order, near, width_of)
    half = {place: width_of(place[0]) / 2 if len(place) == 1 else 0 for place in middle}
    left = min(middle[place] - half[place] for place in middle) - EDGE
    middle = {place: x - left for place, x in middle.items()}
    width = max(middle[place] + half[place] for place in middle) + EDGE
    top = 96
    height_of = lambda row: top + (max(rows.values()) - row) * ROW
    on_way = {crate for _, crate, _, _ in STEPS}
    parts = list(lines_of([(name, used) for name in uses for used in uses[name]], rows, middle, height_of))
    for name, row in rows.items():
        kind = kind_of(name, whole) + (" way" if name in on_way else "")
        parts.append(box(middle[name,] - width_of(name) / 2, height_of(row), width_of(name), BOX, kind))
        parts.append(label(middle[name,], height_of(row) + 20, name, anchor="middle"))
    parts += legend_of_layers()
    return picture(width, height_of(0) + BOX + EDGE, "The crates, each above those that it uses", parts)


def legend_of_layers():
    parts = [label(EDGE, 32, "The crates, each above those that it uses", "title")]
    x = EDGE
    for kind, text in (("code", "in the program"), ("law", "laws alone: no code"), ("test", "tests and measurements"),
                       ("code way", "on the way of a write")):
        parts += [box(x, 48, 26, 18, kind), label(x + 34, 62, text)]
        x += 52 + 7.4 * len(text)
    return parts


# ---- the way of a write

def way():
    parts = [label(EDGE, 32, "The way of a write through the crates", "title"),
             label(EDGE, 54, "write a.img 0 00.. as a line of a script; each call stands below its caller", "faint")]
    indent, step, top = 34, 46, 76
    at = {}
    for number, (depth, crate, calls, text) in enumerate(STEPS):
        for call in calls:
            if not re.search(r"\bfn %s\b" % call, sources(crate)):
                sys.exit("tools/pictures.py: crates/%s/src has no %s" % (crate, call))
        x, y = EDGE + depth * indent, top + number * step
        if depth:
            parts.append('<path class="way" d="M%d %d V%d H%d"/>' % (x - 18, at[depth - 1] + BOX, y + BOX / 2, x))
        at[depth] = y
        width = width_of(crate)
        parts += [box(x, y, width, BOX, "code way"), label(x + width / 2, y + 20, crate, anchor="middle"),
                  label(x + width + 12, y + 13, ", ".join(calls), "mono small"),
                  label(x + width + 12, y + 29, text, "faint small")]
    return picture(880, top + len(STEPS) * step + 8, "The way of a write through the crates", parts)


# ---- the speed of the whole program

SIDES = [("C, 512 bytes a call", "far empty", "circle"),
         ("C, 131,072 bytes a call", "far", "circle"),
         ("C, 512 bytes, AES instructions", "near empty", "rect"),
         ("C, 131,072 bytes, AES instructions", "near", "rect")]


def speeds():
    """Provider, call, and MB/s of the program and of the four other sides: the table as bench/whole.py prints it."""
    lines = text_of("docs/PERFORMANCE.md").split("\n")
    at = next(at for at, line in enumerate(lines) if line.startswith("| provider | call | geli |"))
    for line in lines[at + 2:]:
        if not line.startswith("|"):
            return
        cells = [cell.strip() for cell in line.strip("|").split("|")]
        yield cells[0], cells[1], [float(cell.split()[0]) for cell in cells[2:]]


def mark(x, y, kind, shape):
    if shape == "circle":
        return '<circle cx="%.1f" cy="%.1f" r="4.5" class="%s"/>' % (x, y, kind)
    return '<rect x="%.1f" y="%.1f" width="8" height="8" class="%s"/>' % (x - 4, y - 4, kind)


def mesh(left, top, bottom, scale, most):
    for rate in range(0, int(most) + 1, 100):
        yield '<path class="mesh" d="M%.1f %d V%d"/>' % (left + rate * scale, top - 6, bottom)
        if rate % 200 == 0:
            yield label(left + rate * scale, bottom + 16, "%d" % rate, "faint small", "middle")


def legend_of_speed(left):
    parts = [label(EDGE, 32, "The whole program beside C over OpenSSL, MB/s by processor time", "title"),
             '<rect x="%d" y="50" width="26" height="14" class="bar"/>' % EDGE, label(EDGE + 34, 62, "geli")]
    for number, (text, kind, shape) in enumerate(SIDES):
        x, y = left + number % 2 * 260, 57 + number // 2 * 22
        parts += [mark(x, y, kind, shape), label(x + 14, y + 5, text)]
    note = "geli and the circles do AES without the processor's instructions for it, the squares with them."
    return parts + [label(EDGE, 106, note, "faint small")]


def speed():
    table = list(speeds())
    left, scale, row, top = 250, 0.56, 24, 152
    most = max(max(rates) for _, _, rates in table)
    parts = legend_of_speed(left)
    for call in dict.fromkeys(call for _, call, _ in table):
        rows = [(name, rates) for name, other, rates in table if other == call]
        bottom = top + len(rows) * row
        parts += [label(EDGE, top - 12, call, "mono"), *mesh(left, top, bottom, scale, most)]
        for number, (name, rates) in enumerate(rows):
            y = top + number * row
            parts += [label(left - 10, y + 16, name, "small", "end"),
                      '<rect x="%d" y="%d" width="%.1f" height="14" class="bar"/>' % (left, y + 4, rates[0] * scale)]
            for rate, (_, kind, shape) in zip(rates[1:], SIDES):
                parts.append(mark(left + rate * scale, y + 11, kind, shape))
        top = bottom + 64
    return picture(int(left + most * scale + 40), top - 24, "The whole program beside C over OpenSSL", parts)


# ---- what a power failure leaves

# A sector of 4,096 bytes with HMAC/SHA256 is nine units, each in a device sector of its own; bytes of data in each.
CASE_FILE, CASE = "torn-and-altered", "authenticated-crash"
UNITS = [480] * 8 + [256]
# The case writes COUNT(4096, 1), flushes, and writes COUNT(4096, 101) over it (docs/CASES.md).
OLD, NEW = 1, 101
FIRST_MOMENT = 10
UNIT_WIDTH, CRASH_ROW = 40, 26


def counted(first):
    """The data of a sector, by units."""
    data = [(first + at) % 251 for at in range(4096)]
    ends = [sum(UNITS[:number + 1]) for number in range(len(UNITS))]
    return [bytes(data[end - size:end]) for end, size in zip(ends, UNITS)]


def mixtures():
    """What `read` prints of each mixture of old and new units, by its digest: a letter for each unit."""
    sides = {"o": counted(OLD), "n": counted(NEW)}
    for number in range(2 ** len(UNITS)):
        letters = ["n" if number >> at & 1 else "o" for at in range(len(UNITS))]
        data = b"".join(sides[letter][at] for at, letter in enumerate(letters))
        yield hashlib.sha256(b"ok " + data.hex().encode()).hexdigest(), letters


def case_lines(lines):
    at = lines.index("case " + CASE) + 1
    end = next((number for number in range(at, len(lines)) if lines[number].startswith("case ")), len(lines))
    return lines[at:end]


def survivors():
    """For each crash of the case that no mixture was picked for: its moment, the unit that was torn, or None, and what
    `read` then said: a letter for each unit, or the error."""
    read_as = dict(mixtures())
    said = iter(case_lines(case_files.transcript_of(CASE_FILE).split("\n")))
    torn, picks = [], 0
    for line in case_lines(text_of("crates/geli_cases/data/%s.cases" % CASE_FILE).split("\n")):
        word, *rest = line.split(" ")
        if word == "tear":
            torn.append(int(rest[0]))
        picks += word == "pick"
        if word != "survivor":
            continue
        is_plain = len(torn) < 2 and not picks
        if next(it for it in said if it.startswith("survivor ")).endswith(" ok") and is_plain:
            reply = [it for it in (next(said) for _ in range(3)) if it.startswith("out")][-1]
            found = reply.removeprefix("out ") if reply.startswith("out error") else read_as[reply.split(" ")[2]]
            yield int(rest[2]), torn[0] if torn else None, found
        torn, picks = [], 0


def moment_of(moment, torn):
    done = moment - FIRST_MOMENT
    if torn is not None:
        return "within write %d of %d, torn" % (torn + 1, len(UNITS))
    return "before the first write" if not done else "after write %d of %d" % (done, len(UNITS))


def crash():
    rows = sorted({(moment, torn is not None, torn, str(found)): (moment, torn, found)
                   for moment, torn, found in survivors()}.values(), key=lambda it: (it[0], it[1] is None))
    left, top = 236, 108
    parts = [label(EDGE, 32, "Power fails while a flushed sector is written over", "title"),
             label(EDGE, 54, "4,096 bytes with HMAC/SHA256: nine units, a device write each. What read says after it:",
                   "faint")]
    for x, kind, text in ((EDGE, "code", "as flushed"), (150, "law", "as written later"),
                          (316, "mark", "a named fault"), (464, "test", "not returned with that fault")):
        parts += [box(x, 68, 26, 16, kind), label(x + 34, 81, text, "small")]
    for number, (moment, torn, found) in enumerate(rows):
        y = top + number * CRASH_ROW
        parts.append(label(left - 12, y + 15, moment_of(moment, torn), "small", "end"))
        for unit in range(len(UNITS)):
            if isinstance(found, list):
                kind = {"o": "code", "n": "law"}[found[unit]]
            else:
                kind = "mark" if int(found.rpartition(" ")[2]) // 512 == unit else "test"
            parts.append(box(left + unit * UNIT_WIDTH, y, UNIT_WIDTH - 4, CRASH_ROW - 5, kind))
        if not isinstance(found, list):
            parts.append(label(left + len(UNITS) * UNIT_WIDTH + 6, y + 15, found, "mono small"))
    return picture(790, top + len(rows) * CRASH_ROW + 16, "What a power failure leaves of a sector", parts)


if __name__ == "__main__":
    PICTURES = [("layers.svg", layers), ("write.svg", way), ("speed.svg", speed), ("crash.svg", crash)]
    sys.exit(made(PICTURES, sys.argv[1:]))

#!/usr/bin/env python3
"""Draws the pictures of the format, for docs/FORMAT.md: image.svg, keys.svg and sectors.svg in docs/pictures.

    tools/format_pictures.py [--check]

- image.svg: an image, and its metadata to scale, by the places of their fields in eli_metadata and key_slots.
- keys.svg: the tree of keys (KEYS and ARROWS below). Each key's definition must stand in its file of specs/.
- sectors.svg: one logical sector of 4,096 bytes under each authentication, to scale, by the bytes of tags in eli_base.

Without --check the pictures are written; with it each is compared, and the status is 1 where one differs.
"""
import re
import sys

from definitions import read
from drawing import ROOT, box, label, made, picture, text_of
from format_numbers import field_places

BOX, EDGE, WIDE, HIGH, STEP_X, STEP_Y = 30, 24, 286, 62, 310, 100

# Where each key stands (column, row), its kind of box, its name and bytes, how it is made, and its definition.
KEYS = {
    "files": (0, 0, "test", "key files", "one behind the other (-K, -k)", ""),
    "pass": (1, 0, "test", "passphrase", "the first lines of files, joined (-J, -j)",
             "user_key/Passphrase/joined_passphrase"),
    "salt": (2, 0, "law", "salt [64], iterations", "in the metadata", "eli_metadata/Format/fields"),
    "stretched": (1, 1, "code", "stretched passphrase", "PBKDF2 [64]; of 0 iterations salt ++ it",
                  "user_key/Derivation/stretched"),
    "user": (0.5, 2, "code", "user key [64]", "HMAC512 (no bytes, files ++ stretched)", "user_key/Derivation/user_key"),
    "wrapping": (0, 3, "code", "wrapping key [keylen / 8]", "of HMAC512 (user key, 01)",
                 "key_slots/Slots/wrapping_key"),
    "check": (1, 3, "code", "check key [64]", "HMAC512 (user key, 00)", "key_slots/Slots/check_code"),
    "slot": (0.5, 4, "law", "slot [192], in the metadata", "AES-CBC of master key ++ HMAC512 of it",
             "key_slots/Slots/wrapped"),
    "master": (0.5, 5, "code", "master key [128]", "where the code in the slot is right", "key_slots/Slots/master_in"),
    "iv": (0, 6, "code", "IV-Key [64]", "bytes 0 to 63", "range_keys/Keys/iv_key"),
    "data": (1.5, 6, "code", "Data-Key [64]", "bytes 64 to 127", "range_keys/Keys/data_key"),
    "base": (1, 7, "code", "base key [64]", "Data-Key; with tags HMAC512 (it, 10)", "range_keys/Keys/base_key"),
    "auth": (2, 7, "code", "authentication key [64]", "HMAC512 (Data-Key, 11)", "range_keys/Keys/auth_key"),
    "range base": (1, 8, "code", "range base [64]", "base key; versions 5, 6: IV-Key", "range_keys/Keys/range_base"),
    "vector": (0, 9, "code", "vector of AES-CBC [16]", "of SHA-256 (IV-Key ++ le64 (offset))", "range_keys/Keys/iv"),
    "range": (1, 9, "code", "range key [64]", 'HMAC512 (base, "ekey" ++ le64 (number))',
              "range_keys/Keys/numbered_key"),
    "tag": (2, 9, "code", "tag key [32]", "SHA-256 (it ++ le64 (offset))", "range_keys/Keys/tag_key"),
    "first": (0.5, 10, "code", "key of AES-CBC, K1 of AES-XTS", "the first keylen / 8 bytes",
              "range_keys/Keys/first_part"),
    "second": (1.5, 10, "code", "K2 of AES-XTS", "the keylen / 8 bytes after them", "range_keys/Keys/second_part"),
}
ARROWS = [("pass", "stretched"), ("salt", "stretched"), ("files", "user"), ("stretched", "user"), ("user", "wrapping"),
          ("user", "check"), ("wrapping", "slot"), ("check", "slot"), ("slot", "master"), ("master", "iv"),
          ("master", "data"), ("data", "base"), ("data", "auth"), ("base", "range base"), ("iv", "range base"),
          ("iv", "vector"), ("range base", "range"), ("auth", "tag"), ("range", "first"), ("range", "second")]


def corner(key):
    column, row = KEYS[key][:2]
    return EDGE + column * STEP_X, 84 + row * STEP_Y


def arrow(above, below):
    (x, y), (to, under) = corner(above), corner(below)
    x, y, to = x + WIDE / 2, y + HIGH, to + WIDE / 2
    middle = under - (STEP_Y - HIGH) / 2
    return '<path d="M%.0f %.0f L%.0f %.0f C%.0f %.0f %.0f %.0f %.0f %.0f"/>' % (
        x, y, x, middle - 19, x, middle, to, middle, to, under)


def looked_up(place):
    """The name of a definition, which must stand in its file."""
    crate, file, name = place.split("/")
    if name not in [found for found, _, _ in read(ROOT / ("crates/%s/specs/%s.antt" % (crate, file)))[1]]:
        sys.exit("tools/format_pictures.py: crates/%s/specs/%s.antt has no %s" % (crate, file, name))
    return name


def legend(kinds, y):
    parts, x = [], EDGE
    for kind, text in kinds:
        parts += [box(x, y, 26, 18, kind), label(x + 34, y + 14, text)]
        x += 60 + 7.4 * len(text)
    return parts


def keys():
    note = "In brackets the bytes; HMAC512 (key, message); ++ joins."
    parts = [label(EDGE, 32, "The tree of keys", "title"), label(EDGE + 400, 60, note, "faint small")]
    parts += legend([("test", "given"), ("law", "in the metadata"), ("code", "computed")], 46)
    parts += [arrow(above, below) for above, below in ARROWS]
    for key, (_, _, kind, name, how, place) in KEYS.items():
        x, y = corner(key)
        parts += [box(x, y, WIDE, HIGH, kind), label(x + 10, y + 19, name, "strong")]
        parts.append(label(x + 10, y + 36, how, "small"))
        if place:
            parts.append(label(x + 10, y + 53, looked_up(place), "mono small faint"))
    return picture(EDGE * 2 + 2 * STEP_X + WIDE, 84 + 10 * STEP_Y + HIGH + EDGE, "The tree of keys", parts)


# ---- an image, and its metadata to scale

SECTORS = [("logical sector 0", 190, "code"), ("logical sector 1", 190, "code"), ("..", 60, "code"),
           ("the last one", 190, "code"), ("unused", 90, "test"), ("metadata", 140, "law")]
METADATA_SCALE, LEAST = 1.62, 24


def fields():
    """The places of the metadata in order: name, offset and bytes; small ones that are side by side are one."""
    found, run = [], []
    for name, (at, size) in sorted(field_places(), key=lambda it: it[1]):
        if size < LEAST and name not in ("md_magic", "md_hash", ""):
            run.append((name, at, size))
            continue
        if run:
            found.append((", ".join(it[0].removeprefix("md_") for it in run), run[0][1], sum(it[2] for it in run)))
            run = []
        found.append((name.removeprefix("md_") or "zero", at, size))
    return found


def image():
    x, top = EDGE, 84
    parts = [label(EDGE, 32, "An image", "title"),
             label(EDGE, 54, "A logical sector is a whole number of device sectors of 512 bytes; the metadata are one.",
                   "faint small"), label(EDGE, top - 8, "offset 0", "small")]
    for name, width, kind in SECTORS:
        parts += [box(x, top, width, BOX, kind), label(x + width / 2, top + 20, name, anchor="middle")]
        x += width
    begin = x - SECTORS[-1][1]
    parts += [label(begin, top - 8, "size - 512", "small", "middle"), label(x, top - 8, "size", "small", "end")]
    under, left, slots = top + 96, EDGE, 0
    width = 512 * METADATA_SCALE
    parts.append('<path d="M%.0f %d L%d %d M%.0f %d L%.0f %d"/>' % (begin, top + BOX, left, under, x, top + BOX,
                                                                   left + width, under))
    for number, (name, at, size) in enumerate(fields()):
        if name == "mkeys":
            name, slots = "key slot %d" % slots, slots + 1
        start, room = left + at * METADATA_SCALE, size * METADATA_SCALE
        parts.append(strip_of(start, under, room, "law" if slots and "slot" in name else "code"))
        if room > 60:
            parts += [label(start + room / 2, under + 20, name, "small", "middle"),
                      label(start, under + 46, "%d" % at, "small faint", "middle")]
        else:
            y = under + 90 - number % 2 * 20
            parts += ['<path d="M%.1f %d V%d"/>' % (start + room / 2, under + 30, y - 12),
                      label(start + room / 2 - 4, y, "%s, from %d" % (name, at), "small",
                            "start" if at < 256 else "end")]
    return picture(EDGE * 2 + x - EDGE, under + 108, "An image, and its metadata", parts)


# ---- sealed sectors, to scale

SIZE, SCALE = 4096, 0.186
NAMES = {"Off": "Without authentication", "Sha256": "HMAC/SHA256", "Sha384": "HMAC/SHA384", "Sha512": "HMAC/SHA512"}


def strip_of(x, y, width, kind):
    return '<rect x="%.1f" y="%d" width="%.1f" height="30" class="%s"/>' % (x, y, width, kind)


def strip(x, y, size, kind):
    return strip_of(EDGE + x * SCALE, y, size * SCALE, kind)


def sealed(code, tag, top):
    """The plain bytes of a logical sector, unit by unit, and below them its device sectors."""
    room = 512 - tag
    units = (SIZE - 1) // room + 1
    parts = [label(EDGE, top - 10, "%s: %d units" % (NAMES[code], units), "strong")]
    for j in range(units):
        size = min(room, SIZE - j * room)
        x, to = EDGE + (j * room + size / 2) * SCALE, EDGE + (512 * j + tag + size / 2) * SCALE
        parts += [strip(j * room, top, size, "law"), label(x, top + 20, "%d" % size, "small", "middle")]
        below = [(0, tag, "mark"), (tag, size, "code"), (tag + size, room - size, "test")]
        parts += [strip(512 * j + start, top + 54, count, kind) for start, count, kind in below if count]
        parts.append('<path d="M%.1f %d L%.1f %d"/>' % (x, top + 30, to, top + 54))
    return parts


def sectors():
    tags = re.findall(r"^tag_bytes (\w+) = (\d+)$", text_of("crates/eli_base/specs/Units.antt"), re.M)
    parts = [label(EDGE, 32, "A logical sector of 4,096 bytes, and the device sectors that it is sealed to", "title")]
    parts += legend([("law", "plain bytes of a unit"), ("mark", "tag"), ("code", "ciphertext"), ("test", "zeros")], 46)
    for number, (code, tag) in enumerate(tags):
        parts += sealed(code, int(tag), 104 + number * 122)
    return picture(int(EDGE * 2 + 5120 * SCALE), 104 + len(tags) * 122 - 12, "Sealed sectors, to scale", parts)


if __name__ == "__main__":
    sys.exit(made([("image.svg", image), ("keys.svg", keys), ("sectors.svg", sectors)], sys.argv[1:]))

#!/usr/bin/env python3
"""Compares the tables of docs/FORMAT.md, and its drawings of units, with the definitions from which they are.

    tools/format_numbers.py --check

It reads the tables of the page, and the numbers in specs/: the places of the fields of eli_metadata, its
flags, the slots of key_slots, and of eli_base the numbers of algorithms, the bytes of tags and the sizes of sectors.
It prints what differs, and ends with status 1 where something does.
"""
import re
import sys
from pathlib import Path

ROOT = Path(__file__).resolve().parent.parent
PAGE = "docs/FORMAT.md"
# The fields as g_eli.h names them, in order, and as Metadata does.
FIELDS = {"md_version": "version", "md_flags": "flags", "md_ealgo": "ealgo", "md_keylen": "keylen", "md_aalgo": "aalgo",
          "md_provsize": "provsize", "md_sectorsize": "sectorsize", "md_keys": "keys", "md_iterations": "iterations",
          "md_salt": "salt", "md_mkeys": "mkeys"}
CODES = {"HMAC/SHA256": "Sha256", "HMAC/SHA384": "Sha384", "HMAC/SHA512": "Sha512"}


def text_of(name):
    return (ROOT / name).read_text(encoding="utf-8")


def specs(crate, file):
    return text_of("crates/%s/specs/%s.antt" % (crate, file))


def numbers(text):
    return [int(number.replace(",", ""), 0) for number in re.findall(r"0x[0-9A-F]+|\d[\d,]*", text)]


def rows(first):
    """The rows of the page's table whose first row begins so, each as its cells."""
    lines = text_of(PAGE).split("\n")
    at = next(at for at, line in enumerate(lines) if line.startswith(first))
    for line in lines[at + 2:]:
        if not line.startswith("|"):
            return
        yield [cell.strip() for cell in line.strip("|").split(" | ")]


def equations(text, name):
    """What a definition by cases gives for each of them."""
    return dict(re.findall(r"^%s (\w+) = (\S+)$" % name, text, re.M))


def field_places():
    """Offset and bytes of each row of the metadata's table, by the definitions."""
    kinds = {"number_at": None, "field_at": None, "signed_at": 4, "slice_index": 1}
    found = {}
    for field, kind, rest in re.findall(r"^  (\w+) = (\w+) bytes ([\d ]+);", specs("eli_metadata", "Format"), re.M):
        place, *size = map(int, rest.split())
        found[field] = (place, size[0] if size else kinds[kind])
    slot = int(re.search(r"slot_bytes m s = take (\d+) \(drop", specs("key_slots", "Slots")).group(1))
    mkeys, size = found["mkeys"]
    of = [("md_magic", (0, 16))] + [(name, found[field]) for name, field in FIELDS.items() if field != "mkeys"]
    of += [("md_mkeys", (mkeys + slot * s, slot)) for s in range(size // slot)]
    hash_place = re.search(r"field_at bytes (\d+) (\d+)\)", specs("eli_metadata", "Format"))
    return of + [("md_hash", tuple(map(int, hash_place.groups()))), ("", (511, 1))]


def table_of_fields():
    shown = [((re.search(r"`(md_\w+)`", cells[2]) or ["", ""])[1], tuple(numbers(cells[0] + " " + cells[1])))
             for cells in rows("| Offset | Bytes")]
    return shown, field_places()


def table_of_units():
    tags = equations(specs("eli_base", "Units"), "tag_bytes")
    powers = numbers(re.search(r"\((9 ∷.*?)\[\]", specs("eli_base", "SectorSize")).group(1))
    made = []
    for size in [2 ** power for power in powers]:
        made.append([size])
        for code in CODES.values():
            room = 512 - int(tags[code])
            units = (size - 1) // room + 1
            made[-1] += [units, size - (units - 1) * room]
    return [numbers(" ".join(cells)) for cells in rows("| S | HMAC/SHA256")], made


def bar(parts):
    """A bar of 64 columns for 512 bytes: its edge, and its text."""
    edge, text = "+", "|"
    for name, size in parts:
        room = size // 8 - 1
        edge, text = edge + "-" * room + "+", text + name.center(room) + "|"
    return edge, text


def drawing(name, tag):
    """The device sectors of a logical sector of 4,096 bytes under a code, as the page draws them."""
    room = 512 - tag
    units = (4096 - 1) // room + 1
    rest = 4096 - (units - 1) * room
    edge, whole = bar([("tag", tag), ("%d bytes of ciphertext" % room, room)])
    last = "%d bytes of ciphertext" % rest if rest > 200 else "%d" % rest
    under, shorter = bar([("tag", tag), (last, rest), ("zeros", room - rest)])
    middle = "".join("+" if "+" in pair else "-" for pair in zip(edge, under))
    ruler = "0".ljust(tag // 8) + str(tag)
    lines = ["%s: %d units" % (name, units)]
    for left, text in (("", ruler.ljust(62) + "512"), ("", edge), ("0 to %d" % (units - 2), whole), ("", middle),
                       ("%d" % (units - 1), shorter), ("", under)):
        lines.append(left.ljust(9) + text)
    return "\n".join("    " + line for line in lines) + "\n"


def drawings_of_units():
    tags, page = equations(specs("eli_base", "Units"), "tag_bytes"), text_of(PAGE)
    made = [drawing(name, int(tags[code])) for name, code in CODES.items()]
    starts = [page.find("    %s: " % name) for name in CODES]
    return [page[start:page.find("\n\n", start) + 1] for start in starts], made


def table_of_flags():
    """The refused flags together, and the bits of AUTH, RO and AUTORESIZE."""
    checks, new = specs("eli_metadata", "Checks"), specs("key_commands", "NewMetadata")
    found = {cells[0]: (numbers(cells[1])[0], cells[2].startswith("refused")) for cells in rows("| Flag | Bit")}
    shown = [sum(bit for bit, refused in found.values() if refused)]
    shown += [found[name][0] for name in ("AUTH", "RO", "AUTORESIZE")]
    places = [re.search(r"unsupported_flags flags = bit_and flags (\w+)", checks), re.search(
        r"is_authenticated m = .*flags (\w+)\)", checks), re.search(r"is_readonly m = .*flags (\w+)\)", checks),
              re.search(r"autoresize_flag true = (\w+)", new)]
    return shown, [int(place.group(1), 0) for place in places]


def example_of_fields():
    """The lines of the example, and the fields in front of the salt with the values that the example names."""
    lines = re.findall(r"^    ((?:[0-9a-f]{2})+)  +\S.*$", text_of(PAGE), re.M)
    sizes = [size for _, (place, size) in field_places() if place < 47]
    values = (7, 0x210, 22, 256, 18, 1048576, 4096, 1, 1000)
    made = [number.to_bytes(size, "little").hex() for number, size in zip(values, sizes[1:])]
    return lines, [b"GEOM::ELI".ljust(16, b"\0").hex()] + made


def numbers_of_algorithms():
    page, algorithms = text_of(PAGE), specs("eli_base", "Algorithms")
    shown = dict(re.findall(r"(\d+) is (AES-\w+)", page)), dict(re.findall(r"(\d+) (?:is )?(HMAC/SHA\d+)", page))
    ciphers, codes = equations(algorithms, "cipher_number"), equations(algorithms, "auth_number")
    made = {ciphers["AesCbc"]: "AES-CBC", ciphers["AesXts"]: "AES-XTS"}
    return shown, (made, {codes[kind]: name for name, kind in CODES.items()})


def main():
    status = 0
    for table in (table_of_fields, example_of_fields, table_of_units, drawings_of_units, table_of_flags,
                  numbers_of_algorithms):
        shown, made = table()
        if shown != made:
            print("%s, %s:\n  the page:        %s\n  the definitions: %s" % (PAGE, table.__name__, shown, made))
            status = 1
    return status


if __name__ == "__main__":
    if sys.argv[1:] != ["--check"]:
        sys.exit(__doc__)
    sys.exit(main())

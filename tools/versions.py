#!/usr/bin/env python3
"""Compares what says a version with packaging/version, which alone makes it.

    tools/versions.py                 the tree
    tools/versions.py PLACE...        what was installed or packed: the prefix of ./install, an archive, a package

In the tree the day of packaging/version is that of `geli-nbd --version`, as the program's sources have it and as each
program in out/ prints it; of both manual pages; and of a version without a tag. `geli` prints no version: its replies
are fixed, and its manual page has it. The toolchain is the one that `rt version` names, where rt is on the path.

In a place the version is that of share/doc/geli/version: at the foot of each manual page, and in the package's name and
fields. The program and the pages have the day of the tree, and of that version if it has one.

It prints what differs, and ends with status 1 where something does.
"""
import datetime
import gzip
import pathlib
import re
import shutil
import subprocess
import sys
import tempfile

ROOT = pathlib.Path(__file__).resolve().parent.parent
SOURCES = {"crates/nbd_run/src/words.rt": r'VERSION: &\[u8\] = b"(.*)\\n"',
           "crates/nbd_run/specs/Words.antt": r'version_text = codes "(.*)\\n"'}
DATE = re.compile(r"^\.Dd (.+)$", re.M)
FOOT = re.compile(r'^\.Os "geli (.+)"$', re.M)
DAY_OF = re.compile(r"0~git(\d{8})")
PACKED = re.compile(r"geli[-_](.+?)[-_](?:x86_64-linux|amd64)")


def printed(*words):
    """What a command prints, or how it failed."""
    ran = subprocess.run(words, stdout=subprocess.PIPE, stderr=subprocess.PIPE, encoding="utf-8", check=False)
    return ran.stdout.strip() if ran.returncode == 0 else f"status {ran.returncode}"


def first(pattern, text):
    found = re.search(pattern, text)
    return found.group(1) if found else "nothing"


def differing(where, has, wanted):
    if has != wanted:
        yield f"{where} has {has}, and not {wanted}"


def written(day):
    """A day as manual pages have it."""
    date = datetime.datetime.strptime(day, "%Y%m%d")
    return f"{date:%B} {date.day}, {date.year}"


def in_sources(day):
    for name, pattern in SOURCES.items():
        yield from differing(name, first(pattern, (ROOT / name).read_text(encoding="utf-8")), f"geli-nbd {day}")
    for page in sorted((ROOT / "man").glob("*.8")):
        yield from differing(f"man/{page.name}", first(DATE, page.read_text(encoding="utf-8")), written(day))
    for program in sorted((ROOT / "out").glob("geli-nbd-x86-64-v?")):
        yield from differing(f"out/{program.name} --version", printed(program, "--version"), f"geli-nbd {day}")
    version = printed(ROOT / "packaging/version")
    for has in DAY_OF.findall(version):
        yield from differing("packaging/version", has, day)


def toolchain():
    """The pages that name the toolchain, or its logic, otherwise than rt does."""
    named = re.fullmatch(r"(rattle-kit-\w+) logic (\w+)", printed("rt", "version")) if shutil.which("rt") else None
    if not named:
        return
    kit, logic = named.groups()
    for page in [ROOT / "README.md", *sorted((ROOT / "docs").glob("*.md"))]:
        text = page.read_text(encoding="utf-8")
        for has in re.findall(r"\brattle-kit-\w+", text):
            yield from differing(page.relative_to(ROOT), has, kit)
        for has in re.findall(r"logic ([0-9a-f]{8,})", text):
            yield from differing(page.relative_to(ROOT), has, logic)


def text_of_page(page):
    return gzip.decompress(page.read_bytes()).decode() if page.suffix == ".gz" else page.read_text(encoding="utf-8")


def in_place(place, prefix, day):
    """What differs below a prefix; `place` is what the user named."""
    file = prefix / "share/doc/geli/version"
    if not file.is_file():
        yield f"{place}: no share/doc/geli/version, so nothing is installed there"
        return
    version = file.read_text(encoding="utf-8").strip()
    for has in DAY_OF.findall(version):
        yield from differing(f"{place}: share/doc/geli/version", has, day)
    pages = sorted((prefix / "share/man/man8").glob("geli*.8*"))
    if len(pages) < 2:
        yield f"{place}: not both manual pages are there"
    for page in pages:
        text = text_of_page(page)
        yield from differing(f"{place}: {page.name}", first(FOOT, text), version)
        yield from differing(f"{place}: {page.name}", first(DATE, text), written(day))
    said = printed(prefix / "bin/geli-nbd", "--version")
    yield from differing(f"{place}: geli-nbd --version", said, f"geli-nbd {day}")


def in_package(place, day):
    """What differs in an archive or a Debian package, which is unpacked for that."""
    with tempfile.TemporaryDirectory() as folder:
        is_debian = place.suffix == ".deb"
        unpack = ["dpkg-deb", "-x", place, folder] if is_debian else ["tar", "-xzf", place, "-C", folder]
        subprocess.run(unpack, check=True)
        prefix = pathlib.Path(folder, "usr") if is_debian else pathlib.Path(folder)
        yield from in_place(place, prefix, day)
        version = (prefix / "share/doc/geli/version").read_text(encoding="utf-8").strip()
        yield from differing(f"{place}: its name", first(PACKED, place.name), version)
        if is_debian:
            yield from differing(f"{place}: Version", printed("dpkg-deb", "-f", place, "Version"), version)
        sums = place.with_name(place.name + ".sha256")
        if sums.is_file():
            has = first(r"# version (.*)", sums.read_text(encoding="utf-8"))
            yield from differing(sums, has, version)


def main(*places):
    day = printed(ROOT / "packaging/version", "--day")
    found = [*in_sources(day), *toolchain()]
    for place in map(pathlib.Path, places):
        found += in_place(place, place, day) if place.is_dir() else in_package(place, day)
    print("\n".join(found), end="\n" if found else "")
    return 1 if found else 0


if __name__ == "__main__":
    sys.exit(main(*sys.argv[1:]))

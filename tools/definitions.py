#!/usr/bin/env python3
"""Prints the definitions of each crate from its specs/, one page a crate: docs/definitions/CRATE.md.

    tools/definitions.py [--check] [CRATE...]

A page has, file by file, each public definition with the comment over it, or with its type where it has no comment.
docs/DEFINITIONS.md is the list of the pages.
Without --check the pages are written; with it each is compared, and the status is 1 where one differs or is left over.
"""
import re
import sys
import textwrap
from pathlib import Path

ROOT = Path(__file__).resolve().parent.parent
PAGES, LIST = ROOT / "docs/definitions", ROOT / "docs/DEFINITIONS.md"
HEAD = re.compile(r"(?:abbrev |unfoldable )*pub (?!use )(?:abbrev |unfoldable |record |data )*([^\s({:]+)(.*)")
PARTS = "-- ----"

INTRODUCTION = """# The definitions

Contracts are stated in definitions, which each crate has in `specs/`.
Each page below prints those of one crate: name, comment and file.
If neither the comment nor the head of its file names a source, a definition is this project's own.
`tools/definitions.py` makes the pages; with `--check` it lists pages that differ from `specs/`.
To change a page, change the comment over the definition and run the tool.

"""


def crates():
    """The crates of crates.txt that have definitions, from the bottom."""
    lines = (ROOT / "crates.txt").read_text(encoding="utf-8").split("\n")
    names = [line.split(":")[0] for line in lines if ":" in line and not line.startswith("#")]
    return [name for name in names if definitions_in(name)]


def files_of(crate):
    files = sorted((ROOT / "crates" / crate / "specs").rglob("*.antt"))
    return [file for file in files if file.name != "Lib.antt"]


def comment_of(line):
    return re.sub(r"^--+ ?", "", line).strip()


def outward(lines):
    """The lines, with those of a `module _` as if they stood outside of it."""
    depth = 0
    for line in lines:
        indent = len(line) - len(line.lstrip())
        depth = min(depth, indent // 2) if line else depth
        if line[2 * depth:].startswith("module _"):
            depth += 1
        else:
            yield line[2 * depth:]


def read(file):
    """The comment at the head of a file, and its items: a heading of a part, or a name with its comment and type."""
    lines = list(outward(file.read_text(encoding="utf-8").split("\n")))
    end = next((at for at, line in enumerate(lines) if not line.startswith("--")), len(lines))
    head, comment, items = [comment_of(line) for line in lines[:end]], [], []
    for line in lines[end:]:
        found = HEAD.match(line)
        if line.startswith(PARTS):
            items.append(("", comment_of(line[2:].strip()), ""))
            comment = []
        elif line.startswith("--"):
            comment.append(comment_of(line))
        elif found and not line.startswith("pub mod"):
            kind = re.sub(r"\s*where$", "", found.group(2).strip())
            items.append((found.group(1), " ".join(comment), found.group(1) + " " + kind))
            comment = []
        else:
            comment = []
    return " ".join(head), items


def definitions_in(crate):
    return [name for file in files_of(crate) for name, _, _ in read(file)[1] if name]


def shown(text):
    """Text that Markdown shows as it stands: names in backquotes are left, and the name of a page is a link to it."""
    parts = re.split(r"(`[^`]*`)", text)
    parts = [part if part.startswith("`") else re.sub(r"([*<])", r"\\\1", part) for part in parts]
    return re.sub(r"\bdocs/([A-Z_]+\.md)", r"[docs/\1](../\1)", "".join(parts))


def wrapped(text, first="", rest=""):
    return "\n".join(textwrap.wrap(text, 118, initial_indent=first, subsequent_indent=rest, break_on_hyphens=False,
                                   break_long_words=False))


def page(crate):
    text = ["# Definitions of " + crate, "",
            "Printed by `tools/definitions.py` from `crates/%s/specs/`: change the comments there." % crate,
            "What the crate is for: [its page](../../crates/%s/README.md)." % crate]
    for file in files_of(crate):
        head, items = read(file)
        name = file.relative_to(ROOT / "crates" / crate / "specs")
        text += ["", "## [%s](../../crates/%s/specs/%s)" % (name, crate, name), ""]
        text += [wrapped(shown(head)), ""] if head else []
        for name, comment, kind in items:
            if not name:
                text += ["", "### " + shown(comment), ""]
            else:
                text.append(wrapped("`%s`: %s" % (name, shown(comment)) if comment else "`%s`" % kind, "- ", "  "))
    return re.sub(r"\n{3,}", "\n\n", "\n".join(text).rstrip() + "\n")


def page_of_pages(names):
    rows = ["- [%s](definitions/%s.md): %d" % (name, name, len(definitions_in(name))) for name in names]
    return INTRODUCTION + "From the bottom, with how many each has:\n\n" + "\n".join(rows) + "\n"


def main(arguments):
    check = "--check" in arguments
    names = crates()
    asked = [name for name in arguments if not name.startswith("-")]
    pages = {PAGES / (name + ".md"): page(name) for name in names if not asked or name in asked}
    if not asked:
        pages[LIST] = page_of_pages(names)
    differing = []
    for file, text in pages.items():
        if not file.exists() or file.read_text(encoding="utf-8") != text:
            differing.append(file)
            if not check:
                file.parent.mkdir(exist_ok=True)
                file.write_text(text, encoding="utf-8")
    left = [] if asked else [file for file in PAGES.glob("*.md") if file not in pages]
    for file in differing:
        print("%s: %s" % (file.relative_to(ROOT), "isn't what specs/ say" if check else "written"))
    for file in left:
        print("%s: there is no such crate with definitions" % file.relative_to(ROOT))
    return 1 if left or (check and differing) else 0


if __name__ == "__main__":
    sys.exit(main(sys.argv[1:]))

#!/usr/bin/env python3
"""Looks in the pages for links that lead nowhere, for pages that are named without a link, and for pictures not shown.

    tools/check_links.py [FOLDER]      without a word: the repository; else a folder that has README.md and docs/

It reads README.md, the pages under docs/ and those of the crates, and prints, each with its file and line:
- links and pictures that lead to no file, or to no heading of it;
- pages of the folder that are named, as docs/FORMAT.md, and are no link there;
- pictures that are named or linked, and aren't shown there (`![..](..)`).
It also prints pictures of docs/pictures that no page shows. It ends with status 1 if it found something.
"""
import re
import sys
from pathlib import Path

from check_pages import without_code

LINK = re.compile(r"(!?)\[[^\]]*\]\(([^)\s]+)\)")
CODE = re.compile(r"`[^`\n]+`")
PAGE = re.compile(r"(?<![\w/.-])(?:\.\./)*((?:docs|crates)/[\w/]+\.md|[A-Z_]+\.md)(?![\w/])")
PICTURE = re.compile(r"\w+\.svg\b")


def pages(root):
    return sorted(it for it in [root / "README.md", *root.glob("docs/**/*.md"), *root.glob("crates/*/README.md"),
                   *root.glob("examples/README.md"), *root.glob("packaging/README.md")]
                  if it.is_file())


def blanked(found):
    """As many characters and lines as were found, with nothing in them."""
    return re.sub(r"[^\n]", " ", found.group())


def prose(page):
    """The text of a page; the lines of blocks of code are empty."""
    return "\n".join(without_code(page.read_text(encoding="utf-8").split("\n")))


def headings(page):
    """The headings of a page, as links name them."""
    titles = [line.lstrip("#").strip().lower() for line in prose(page).split("\n") if line.startswith("#")]
    return {re.sub(r"[^\w\- ]", "", title).replace(" ", "-") for title in titles}


def dead_links(page, text):
    for found in LINK.finditer(CODE.sub(blanked, text)):
        link = found.group(2)
        name, _, heading = link.partition("#")
        file = page.parent / name if name else page
        if link.startswith(("http:", "https:")):
            continue
        if not file.exists():
            yield found.start(), "no file " + link
        elif heading and heading not in headings(file):
            yield found.start(), "no heading " + link
        elif name.endswith(".svg") and not found.group(1):
            yield found.start(), "not shown: " + link


def bare_names(root, page, text):
    """Pages and pictures that are named outside of links."""
    text = LINK.sub(blanked, text)
    for found in PAGE.finditer(text):
        name = found.group(1)
        files = [root / name, root / "docs" / name, page.parent / name]
        if any(it.is_file() and it.resolve() != page.resolve() for it in files) and name != "README.md":
            yield found.start(), "no link: " + name
    for found in PICTURE.finditer(text):
        if (root / "docs/pictures" / found.group()).is_file():
            yield found.start(), "not shown: " + found.group()


def main(folder=None):
    root = Path(folder).resolve() if folder else Path(__file__).resolve().parent.parent
    count, shown = 0, set()
    for page in pages(root):
        text = prose(page)
        shown |= {(page.parent / link).resolve() for mark, link in LINK.findall(text) if mark}
        for at, what in sorted([*dead_links(page, text), *bare_names(root, page, text)]):
            print("%s:%d: %s" % (page.relative_to(root), text.count("\n", 0, at) + 1, what))
            count += 1
    for picture in sorted(set(root.glob("docs/pictures/*")) - shown):
        print("%s: no page shows it" % picture.relative_to(root))
        count += 1
    return 1 if count else 0


if __name__ == "__main__":
    sys.exit(main(*sys.argv[1:]))

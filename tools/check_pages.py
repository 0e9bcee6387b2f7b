#!/usr/bin/env python3
"""Looks for dead names and long lines in the pages: README.md, docs/*.md and the README.md of crates/*,
examples and packaging; for wrong bodies; and
for destructors.

    tools/check_pages.py [PAGE...]

It prints, each with its file and line:
- lines of more than 120 columns, but for rows of tables and blocks of code;
- sentences of more than 40 words, where what stands in backquotes is one word;
- names in backquotes that look like those of definitions, clauses, functions or crates, and that stand in no file of
  the tree beside the pages;
- paths that lead to no file, from the root or from the page's own folder;
- in a list under a file of specs/ each definition that this file hasn't;
- a README of more than 7 KB, which nobody reads in three minutes, and other pages that grow beyond BYTES;
- crates that docs/PROOFS.md doesn't name, and where the table of docs/ARCHITECTURE.md isn't crates.txt: its groups, the
  crates of each in their order, and what each stands on; crates of crates.txt before one that they use;
- wrong bodies that must stay (STAY) and have no row in docs/WRONG_BODIES.md or no file, each wrong body whose old text
  doesn't stand exactly once in the file that it names, and a sentence of that page that counts them wrongly;
- destructors that aren't those of WIPERS, word for word, and each of WIPERS that is missing: no clause of a caller says
  what an `impl Drop` of a type does when a value is let go, so one could write to an image after the last flush, and
  one that is to overwrite a secret could leave it.
It ends with status 1 where it found something.
"""
import itertools
import re
import statistics
import subprocess
import sys
from collections import Counter
from pathlib import Path

from layer_layout import direct, uses_of

ROOT = Path(__file__).resolve().parent.parent
COLUMNS, WORDS = 120, 40
# The bytes that pages may have which somebody is to read whole.
BYTES = {"README.md": 7168, "docs/PERFORMANCE.md": 16384, "docs/DECISIONS.md": 18432}

PAGE = re.compile(r"README\.md|docs/[^/]*\.md|(?:crates/[^/]*|examples|packaging)/README\.md")
NAME = re.compile(r"[A-Za-z_]\w*(?:(?:::|/)[A-Za-z_]\w*)*(?:\(\))?")
PATH = re.compile(r"(?<![\w./-])(?:crates|docs|tools|specs|src|proofs|must-fail|examples|kit|man|bench|completions)/"
                  r"[\w./-]*\w")
CODE = re.compile(r"`([^`]+)`")
ITEM = re.compile(r"\s*(?:[-*]|\d+\.) ")
SENTENCE = re.compile(r"(?<=[.?!])[)\"*]* +(?=[\"(*]*[A-Z0-9`~])")

BODIES = "docs/WRONG_BODIES.md"
EDIT = "crates/%s/must-fail/%s.edit"
FIELD = re.compile(r"^(file|old|new): (.*)$", re.M)
LIBRARY = re.compile(r"(?<![\w:])([a-z]\w*)::")
DESTRUCTOR = re.compile(r"\bimpl\b[^{};]*?\bDrop\s+for\b")
COMMENT = re.compile(r"//[^\n]*")

# The destructors that there are, by file: each overwrites a secret through a pointer, and does nothing else.
WIPERS = {
    "crates/block_traits/src/byte_list.rt":
        "impl Drop for ByteList { fn drop(self) { let ByteList { mut bytes } = self; wipe(bytes.as_mut_slice()); } }",
    "crates/range_keys/src/held.rt":
        "impl Drop for HeldRing { fn drop(self) { let HeldRing { mut ring } = self; ring.forget(); } }",
}

# The wrong bodies that must stay, by crate.
STAY = {
    "auth_sectors": ["tag_skipped", "one_tag_key_for_all_offsets"],
    "bio_queue": ["all_steps_at_submit"],
    "block_traits": ["sectors_written_from_the_last_on"],
    "eli_metadata": ["hash_ignored", "bytes_behind_the_magic_accepted"],
    "file_edge": ["look_is_counted"],
    "geli_core": ["always_a_read_fault", "always_a_device_fault"],
    "key_commands": ["fresh_master_key_wrapped", "slot_cleared_before_the_new_key", "wrapped_bytes_left_in_a_slot"],
    "key_slots": ["always_a_wrong_key", "sealed_by_xts"],
    "provider": [
        "flush_without_a_device_flush", "device_fault_for_good", "read_fault_for_good", "flush_fault_for_good"],
    "range_keys": [
        "range_key_0_everywhere", "one_tag_key_for_all_offsets", "key_of_another_number_lent",
        "master_left_when_forgotten", "kept_keys_left_when_forgotten"],
    "reply_text": ["always_a_write_fault"],
    "resize_kill": ["old_place_destroyed_before_the_new_is_flushed"],
    "sector_runs": [
        "sectors_kept_in_memory", "failed_look_is_counted", "look_given_though_a_tag_differs",
        "run_written_in_another_order"],
    "suspend": ["any_key_that_opens_taken", "suspend_keeps_the_key"],
    "verify_sweep": ["lists_nothing", "stops_at_the_first"],
    "sealing": ["tweak_is_the_sector_number", "opened_with_the_sector_number"],
    "user_key": ["key_files_behind_the_passphrase", "passphrase_before_the_key_files"],
}

# Names that stand in no file of this tree: of the kit, of the toolchain, and instructions of the processor.
OUTSIDE = {"Lts", "Rng", "fill_bytes", "pextrd", "pinsrd", "pxor"}


def files():
    asked = ["git", "ls-files", "-co", "--exclude-standard"]
    names = subprocess.run(asked, cwd=str(ROOT), stdout=subprocess.PIPE, universal_newlines=True, check=True).stdout
    return [name for name in names.split("\n") if name and (ROOT / name).exists()]


def words_in(file):
    return set(re.findall(r"\w+", file.read_text(encoding="utf-8", errors="replace")))


def words_of_the_tree(names):
    """All words of the files that are no pages, and of the paths of all."""
    words = set()
    for name in names:
        words.update(re.findall(r"\w+", name))
        if not name.endswith(".md"):
            words.update(words_in(ROOT / name))
    return words


def without_code(lines):
    """The lines, with those of blocks of code empty: between fences, or indented by four behind an empty line."""
    fenced = indented = False
    before = ""
    for line in lines:
        fence = line.startswith("```")
        indented = line.startswith("    ") and (indented or not before.strip())
        yield "" if fenced or fence or indented else line
        fenced, before = fenced != fence, line


def blocks(lines):
    """Each paragraph, item, heading and cell: the number of its first line, its kind and its text."""
    number, kind, text = 0, "", ""
    for at, line in enumerate(lines + [""], 1):
        if text and (not line.strip() or line[0] in "|#" or ITEM.match(line)):
            yield number, kind, text
            text = ""
        if line.startswith("|"):
            for cell in line.strip().strip("|").split(" | "):
                yield at, "cell", cell
        elif line.startswith("#"):
            yield at, "heading", line
        elif text:
            text += " " + line.strip()
        elif line.strip():
            number, kind, text = at, "item" if ITEM.match(line) else "text", ITEM.sub("", line, 1).strip()


def long_lines(lines):
    for at, line in enumerate(lines, 1):
        if len(line) > COLUMNS and not line.startswith("|"):
            yield at, "%d columns" % len(line)


def long_sentences(lines):
    for at, _, text in blocks(lines):
        for sentence in SENTENCE.split(CODE.sub("`x`", text)):
            words = [word for word in sentence.split() if re.search(r"\w", word)]
            if len(words) > WORDS:
                yield at, "%d words: %s .." % (len(words), " ".join(words[:6]))


def dead_names(page, lines, words):
    for at, _, text in blocks(lines):
        for code in CODE.findall(text):
            if NAME.fullmatch(code) and not set(re.findall(r"\w+", code)) <= words | OUTSIDE:
                yield at, "no `%s` in the tree" % code
        for path in PATH.findall(text):
            if "NAME" not in path and not (ROOT / path).exists() and not (page.parent / path).exists():
                yield at, "no file %s" % path


def strayed_definitions(page, lines):
    """The names before the colon of an item, under a line that begins with a file of specs/, which that file hasn't."""
    specs, words = [], set()
    for at, kind, text in blocks(lines):
        if kind != "item":
            specs = [page.parent / code for code in CODE.findall(text) if text.startswith("`specs/")]
            specs = [file for file in specs if file.is_file()]
            words = set().union(*map(words_in, specs))
        elif specs:
            for code in CODE.findall(re.split(r"[:.](?: |$)", text)[0]):
                if not set(re.findall(r"\w+", code)[:1]) <= words:
                    yield at, "no `%s` in %s" % (code, ", ".join(file.name for file in specs))


def long_pages():
    for name, most in BYTES.items():
        size = len((ROOT / name).read_bytes())
        if size > most:
            yield "%s: %d bytes, more than %d" % (name, size, most)


def missing_crates():
    text = (ROOT / "docs/PROOFS.md").read_text(encoding="utf-8")
    for crate in uses_of((ROOT / "crates.txt").read_text(encoding="utf-8")):
        if "`%s`" % crate not in text:
            yield "docs/PROOFS.md: nothing of the crate %s" % crate


def listed_crates():
    """The groups of crates.txt and their crates, with what each stands on that no other crate beside it brings."""
    text = (ROOT / "crates.txt").read_text(encoding="utf-8")
    uses = uses_of(text)
    least = direct(uses)
    for line in text.split("\n")[1:]:
        if line.startswith("# "):
            yield "**%s**" % line[2:]
        elif line:
            name, _, words = line.partition(":")
            yield name, sorted([*least[name], *(it for it in words.split() if it not in uses)])


def shown_crates():
    """The same by the table of docs/ARCHITECTURE.md. A row of several crates has one cell for all, or one for each."""
    for line in (ROOT / "docs/ARCHITECTURE.md").read_text(encoding="utf-8").split("\n"):
        cells = [cell.strip() for cell in line.strip().strip("|").split(" | ")]
        if line.startswith("| **"):
            yield cells[0].strip(" |")
        elif line.startswith("| `") and len(cells) == 3:
            names, below = CODE.findall(cells[0]), cells[2].split(";")
            for name, cell in zip(names, below * (1 if len(below) == len(names) else len(names))):
                yield name, sorted(CODE.findall(cell))


def early_crates():
    uses, before = uses_of((ROOT / "crates.txt").read_text(encoding="utf-8")), set()
    for crate, used in uses.items():
        yield from ("crates.txt: %s stands before %s, which it uses" % (crate, it) for it in used if it not in before)
        before.add(crate)


def differing_crates():
    listed, shown = list(listed_crates()), list(shown_crates())
    for here, there in itertools.zip_longest(listed, shown):
        if here != there:
            yield "docs/ARCHITECTURE.md: crates.txt has %s, the table %s" % (here, there)
            return


def missing_bodies():
    """The wrong bodies that must stay, and that have no file or no row."""
    page = ROOT / BODIES
    rows = page.read_text(encoding="utf-8") if page.exists() else ""
    for crate, bodies in STAY.items():
        for name in (EDIT % (crate, body) for body in bodies):
            if not (ROOT / name).exists():
                yield "%s: a wrong body that must stay has no file" % name
            if name not in rows:
                yield "%s: a wrong body that must stay has no row in %s" % (name, BODIES)


def bad_count(names):
    """The sentence that counts the wrong bodies, where docs/WRONG_BODIES.md hasn't just this one."""
    each = Counter(name.split("/")[1] for name in names if name.endswith(".edit")).values()
    count = "%d wrong bodies in %d crates, %d to %d in each, in the median %g." % (
        sum(each), len(each), min(each), max(each), statistics.median(each))
    if "There are " + count not in (ROOT / BODIES).read_text(encoding="utf-8"):
        yield "%s: there are %s" % (BODIES, count)


def bad_edits(names):
    """The wrong bodies that can't be made: some old text doesn't stand exactly once in the file named before it, or a
    new one names a library that the crate doesn't use."""
    uses = uses_of((ROOT / "crates.txt").read_text(encoding="utf-8"))
    libraries = {*uses, *itertools.chain(*uses.values())}
    for name in names:
        if name.endswith(".edit"):
            crate, text = (ROOT / name).parent.parent, ""
            for key, value in FIELD.findall((ROOT / name).read_text(encoding="utf-8")):
                if key == "file":
                    file = crate / value
                    text = file.read_text(encoding="utf-8") if file.exists() else ""
                elif key == "old":
                    if text.count(value) != 1:
                        yield "%s: its old text stands %d times in %s" % (name, text.count(value), file.name)
                else:
                    strange = libraries.difference(uses[crate.name]).intersection(LIBRARY.findall(value))
                    yield from ("%s: its crate doesn't use %s" % (name, it) for it in sorted(strange))


def destructors(names):
    for name in names:
        if name.endswith(".rt"):
            text = COMMENT.sub("", (ROOT / name).read_text(encoding="utf-8"))
            wiper = WIPERS.get(name)
            missing = wiper is not None
            for found in DESTRUCTOR.finditer(text):
                if missing and " ".join(text[found.start():].split()).startswith(wiper):
                    missing = False
                else:
                    yield "%s:%d: a destructor" % (name, text.count("\n", 0, found.start()) + 1)
            if missing:
                yield "%s: without its destructor, which overwrites a secret" % name


def main():
    names = files()
    words = words_of_the_tree(names)
    asked = sys.argv[1:] or [name for name in names if PAGE.fullmatch(name)]
    count = 0
    for name in asked:
        page = (ROOT / name).resolve()
        lines = list(without_code(page.read_text(encoding="utf-8").split("\n")))
        found = [*long_lines(lines), *long_sentences(lines), *dead_names(page, lines, words),
                 *strayed_definitions(page, lines)]
        for at, what in sorted(found):
            print("%s:%d: %s" % (name, at, what))
        count += len(found)
    if not sys.argv[1:]:
        others = [*long_pages(), *missing_crates(), *early_crates(), *differing_crates(), *missing_bodies(),
                  *bad_count(names), *bad_edits(names), *destructors(names)]
        print("".join(line + "\n" for line in others), end="")
        count += len(others)
    print("%d found in %d pages" % (count, len(asked)))
    return 1 if count else 0


if __name__ == "__main__":
    sys.exit(main())

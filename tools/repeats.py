#!/usr/bin/env python3
"""Runs of lines that stand twice in the .rt and .antt files of the repository.

    tools/repeats.py [--lines N] [--most N] [--since REVISION] [CRATE...]

White space counts as one blank; blank lines, comments, imports and lines of punctuation are passed over. The longest runs
come first. With --since only those of which one place has a line that was added since that revision.
"""
import argparse
import re
import subprocess
from collections import defaultdict
from pathlib import Path

ROOT = Path(__file__).parent.parent

PASSED_OVER = re.compile(r"//|--|/\*|(ghost |pub )?use |(pub )?mod |[\W_]*$")

# Runs that stand in more places than this are a form of the language, as the head of a proof.
MOST_PLACES = 8


def git(*words):
    return subprocess.run(["git", *words], cwd=ROOT, capture_output=True, text=True, check=True).stdout.splitlines()


def read(file):
    """The lines that count, each with its number and with single blanks."""
    text = (ROOT / file).read_text(encoding="utf-8", errors="replace")
    lines = enumerate((line.strip() for line in text.splitlines()), 1)
    return [(number, " ".join(line.split())) for number, line in lines if line and not PASSED_OVER.match(line)]


def added_since(revision):
    """The numbers of the lines that were added, for each file."""
    added, file, number = defaultdict(set), None, 0
    for line in git("diff", "-U0", revision, "--", "*.rt", "*.antt"):
        if line.startswith("+++ b/"):
            file = line[6:]
        elif line.startswith("@@"):
            number = int(re.search(r"\+(\d+)", line).group(1))
        elif line.startswith("+") and not line.startswith("+++"):
            added[file].add(number)
            number += 1
    return added


def places_of(texts, least):
    """Where each run of so many lines begins: a file and a place among its lines that count."""
    places = defaultdict(list)
    for file, lines in texts.items():
        for i in range(len(lines) - least + 1):
            places[tuple(line for _, line in lines[i:i + least])].append((file, i))
    return places


def length_of(texts, least, first, second):
    """How many lines are the same from two places on. Within one file the runs don't overlap."""
    (file, i), (other, j) = first, second
    length = least
    while (i + length < len(texts[file]) and j + length < len(texts[other]) and (file != other or i + length < j)
           and texts[file][i + length][1] == texts[other][j + length][1]):
        length += 1
    return length


def runs(texts, least):
    """Each run that stands twice: its length, its first two places, and how many more there are."""
    within = set()
    for places in places_of(texts, least).values():
        if not 2 <= len(places) <= MOST_PLACES:
            continue
        first, second = places[0], places[1]
        begun = ((first[0], first[1] - 1), (second[0], second[1] - 1)) in within
        within.add((first, second))
        if not begun:
            yield length_of(texts, least, first, second), first, second, len(places) - 2


def main():
    options = argparse.ArgumentParser(description=__doc__, formatter_class=argparse.RawDescriptionHelpFormatter)
    options.add_argument("--lines", type=int, default=6, help="the least lines of a run (6)")
    options.add_argument("--most", type=int, default=20, help="how many runs are printed (20)")
    options.add_argument("--since", metavar="REVISION")
    options.add_argument("crates", nargs="*", help="only runs of which a place is in one of these crates")
    asked = options.parse_args()
    files = [file for file in git("ls-files", "-co", "--exclude-standard", "*.rt", "*.antt") if (ROOT / file).exists()]
    texts = {file: read(file) for file in files}
    added = added_since(asked.since) if asked.since else None

    def numbers(place, length):
        file, i = place
        return file, texts[file][i][0], texts[file][i + length - 1][0]

    def is_asked(place):
        file, start, end = place
        return (added is None or any(number in added[file] for number in range(start, end + 1)),
                not asked.crates or file.split("/")[1] in asked.crates)

    rows = []
    for length, first, second, more in runs(texts, asked.lines):
        places = [numbers(first, length), numbers(second, length)]
        if all(any(answers) for answers in zip(*map(is_asked, places))):
            shown = " ~ ".join(f"{file}:{start}-{end}" for file, start, end in places)
            rows.append((length, shown + (f" (and {more} more)" if more else "")))
    rows.sort(reverse=True)
    print(f"{len(rows)} runs of {asked.lines} lines or more stand twice, in {len(files)} files")
    for length, shown in rows[:asked.most]:
        print(f"{length:4} lines  {shown}")


if __name__ == "__main__":
    main()

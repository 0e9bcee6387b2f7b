#!/usr/bin/env python3
"""The acceptance cases, which stand once, as data of the program geli_cases (docs/CASES.md).

    tools/case_files.py --check     says what doesn't agree, with status 1
    tools/case_files.py NAME        prints the transcript of NAME.cases, to compare with what the program prints

In crates/geli_cases, `data` has the case files, `args` their names, and `stdout` their transcripts one after the other.
The check finds a file that isn't named, or is named and isn't there; a case without its transcript, or with one that has
more or fewer runs; and what docs/CASES.md and other pages count otherwise.
"""
import argparse
import pathlib
import re
import sys

ROOT = pathlib.Path(__file__).resolve().parent.parent
CRATE = ROOT / "crates/geli_cases"

# The files that this repository's own models made. All others came from elsewhere.
OURS = ("images", "layers", "looks")

# Where the pages count all cases of the gate, or those of the independent model.
COUNTS = [
    ("crates/geli_cases/README.md", "N cases run in the gate", False),
    ("docs/PROOFS.md", "([docs/CASES.md](CASES.md)): N in the gate", False),
    ("docs/PROOFS.md", "independent model made N of them", True),
    ("README.md", "N cases of an independent model", True),
]


def read(path):
    return (ROOT / path).read_text(encoding="utf-8")


def stems():
    """The names of the case files, in the order in which the program reads them."""
    return [name.removesuffix(".cases") for name in read(CRATE / "args").split()]


def lines_of(stem):
    """The lines of a case file, but for its first: that says where the file came from."""
    return read(CRATE / f"data/{stem}.cases").splitlines()[1:]


def cases_of(stem):
    """The cases of a file: name, lines as they stand with the comments before them."""
    cases, before = [], []
    for line in lines_of(stem):
        if line.startswith("case "):
            cases.append((line.split(" ")[1], before + [line]))
            before = []
        elif cases and not before and line and not line.startswith("#"):
            cases[-1][1].append(line)
        else:
            before.append(line)
            if line and not line.startswith("#"):
                cases[-1][1].extend(before)
                before = []
    return cases


def transcripts():
    """The transcripts of all cases in their order: name, lines."""
    found = []
    for line in read(CRATE / "stdout").splitlines():
        if line.startswith("case ") or not found:
            found.append((line.split(" ")[-1], []))
        found[-1][1].append(line)
    return found


def parts():
    """The transcripts of each file, by its name. What is left over has the name ""."""
    left, found = transcripts(), {}
    for stem in stems():
        count = len(cases_of(stem))
        found[stem], left = left[:count], left[count:]
    return found | ({"": left} if left else {})


def transcript_of(stem):
    """The transcript of a file."""
    return "".join(f"{line}\n" for _, lines in parts()[stem] for line in lines)


def put(stem, cases, transcript):
    """Replaces the cases of a file that is there, and their transcript: both are lines."""
    path = CRATE / f"data/{stem}.cases"
    texts = {it: transcript_of(it) for it in stems()} | {stem: "".join(f"{line}\n" for line in transcript)}
    path.write_text("".join(f"{line}\n" for line in [read(path).split("\n")[0], *cases]), encoding="utf-8")
    (CRATE / "stdout").write_text("".join(texts.values()), encoding="utf-8")


def differing(stem, cases, transcript):
    """Says whether a file and its transcript have these lines; returns whether one of them hasn't."""
    equal = lines_of(stem) == cases and transcript_of(stem).splitlines() == transcript
    print(f"{stem}.cases: {'equal' if equal else 'differs'}")
    return not equal


def unlike_the_files():
    """What is wrong of the files: those that are named, and the transcript of each case."""
    named, there = read(CRATE / "args").split(), sorted(path.name for path in (CRATE / "data").iterdir())
    if named != there:
        yield f"args isn't the names of the files of data in their order: {' '.join(set(named) ^ set(there))}"
        return
    for stem, told in parts().items():
        cases = cases_of(stem) if stem else []
        for place in range(max(len(cases), len(told))):
            name, lines = cases[place] if place < len(cases) else ("no case", [])
            found, transcript = told[place] if place < len(told) else ("nothing", [])
            runs = sum(line == "run" for line in lines), sum(line.startswith("run ") for line in transcript)
            if name != found:
                yield f"{stem or 'stdout'}: for {name} stdout has {found}"
                return
            if runs[0] != runs[1]:
                yield f"{stem}: {name} has {runs[0]} runs, and in stdout {runs[1]}"


def counted_otherwise():
    """What the pages count otherwise."""
    counts = {stem: len(cases_of(stem)) for stem in stems()}
    rows = dict(re.findall(r"^\| `([a-z-]+)` \| (\d+) \|$", read("docs/CASES.md"), re.M))
    for stem in sorted(counts.keys() | rows.keys()):
        if rows.get(stem) != str(counts.get(stem)):
            yield f"docs/CASES.md: {stem} has {counts.get(stem, 'no')} cases, and the table says {rows.get(stem, 'none')}"
    for page, text, is_of_others in COUNTS:
        total = sum(count for stem, count in counts.items() if not (is_of_others and stem in OURS))
        text = text.replace("N", f"{total:,}")
        if read(page).count(text) != 1:
            yield f"{page} doesn't say once: {text}"


def main():
    options = argparse.ArgumentParser(description=__doc__, formatter_class=argparse.RawDescriptionHelpFormatter)
    options.add_argument("--check", action="store_true", help="say what doesn't agree")
    options.add_argument("name", nargs="?", choices=stems(), metavar="NAME")
    given = options.parse_args()
    if given.check == bool(given.name):
        options.error("--check or NAME is needed")
    if given.name:
        print(transcript_of(given.name), end="")
        return
    found = list(unlike_the_files())
    if not found:
        found = list(counted_otherwise())
    for line in found:
        print(line)
    print(f"cases: {len(found)} found")
    sys.exit(bool(found))


if __name__ == "__main__":
    main()

#!/usr/bin/env python3
"""Cases of other files once more, where the disks give no looks, and their transcripts.

    tools/looks_cases.py [--check]      writes looks.cases and its transcript, or says whether they are equal

What a run prints is the same with looks and without. So such a case has the lines of the other one and `looks off`,
and its transcript is the other's, but for the name.
"""
import argparse
import sys

from case_files import cases_of, differing, parts, put

# The file of each case, and its name. They read within a batch of the provider and across batches, with HMAC/SHA256 and
# without, in every sector size, also where a sector was changed; and they verify.
REPEATED = [
    ("plain-session", "lengths-of-read-512"),
    ("authenticated", "lengths-authenticated"),
    ("backup-resize-kill-fill-sum", "fill-each-sector-size"),
    ("torn-and-altered", "all-ones"),
    ("verify", "sweep-session"),
    ("verify", "random-verify-1010"),
]


def texts():
    """The cases and their transcripts."""
    cases = ["# Cases of other files, where the disks give no looks, by tools/looks_cases.py."]
    transcript = []
    for stem, name in REPEATED:
        lines = dict(cases_of(stem))[name]
        told = dict(parts()[stem])[name]
        begin = f"case without-looks-{name}"
        cases += ["", begin, "looks off", *lines[lines.index(f"case {name}") + 1:]]
        transcript += [begin, *told[1:]]
    return "looks", cases, transcript


def main():
    options = argparse.ArgumentParser(description=__doc__, formatter_class=argparse.RawDescriptionHelpFormatter)
    options.add_argument("--check", action="store_true", help="compare with the files that are there")
    if options.parse_args().check:
        sys.exit(differing(*texts()))
    put(*texts())


if __name__ == "__main__":
    main()

#!/usr/bin/env python3
"""Lists by which goal each wrong body was refused, from what the gate or `rt must-fail` printed.

    rt ci >gate.log; tools/refused_by.py gate.log            each wrong body, and the goal that refused it
    tools/refused_by.py --lacking gate.log                   those alone whose goal has no answer in proofs/
    tools/refused_by.py --before old.log gate.log            those alone that another function's goal refused before

A goal with no answer is searched for twice, since the prover then offers one: such a wrong body costs up to twice the
time (docs/CHANGING.md, "A wrong body that is cheap"). A wrong body whose text makes goals that the right one hasn't
can't have an answer. The status is 0, or 1 where a wrong body wasn't refused, or where --before lists one.
"""
import re
import sys
from pathlib import Path

ROOT = Path(__file__).resolve().parent.parent
TRIED = re.compile(r"(?:rt: )?must-fail (\w+)/([\w.-]+)\.edit: ([^:]*)(?:: (.*))?$")
STATED = re.compile(r"(?:note: )?(?:\./)?src/(\S+?)\.rt:(\d+):\d+: (.*)")
ANSWERED = re.compile(r"(?:note: )?(?:\./)?proofs/(\S+)/(\w+)/(\w+)\.antt:\d+:\d+: (.*)")
FUNCTION = re.compile(r"\s*(?:pub )?(?:const )?fn (\w+)")
GOAL = re.compile(r"\(`([^`]+)`\)|`(?:goal\.)?([^`]+)`")


def function_at(crate, file, number):
    """Returns the function that stands at a line of a crate's source, or whose head is next above it."""
    lines = (ROOT / "crates" / crate / "src" / f"{file}.rt").read_text(encoding="utf-8").split("\n")
    for at in [*range(number - 1, -1, -1)]:
        if found := FUNCTION.match(lines[at]):
            return found[1]
    return "?"


def goal_in(text):
    found = GOAL.search(text)
    return (found[1] or found[2]) if found else text[:60]


def place_of(crate, said):
    """Returns the file, the function and the goal that a refusal's first line names, and whether it has an answer."""
    if found := ANSWERED.match(said):
        return found[1].split("/")[0], found[2], goal_in(found[4]), True
    if found := STATED.match(said):
        return found[1], function_at(crate, found[1], int(found[2])), goal_in(found[3]), False
    return "?", "?", said[:60], False


def refusals(file):
    """Returns what each wrong body came to, by its crate and name: whether it was refused, and where."""
    found = {}
    for line in Path(file).read_text(encoding="utf-8", errors="replace").split("\n"):
        if tried := TRIED.match(line):
            crate, name, outcome, said = tried.groups()
            found[crate, name] = outcome.startswith("refused"), outcome, place_of(crate, said or "")
    return found


def main(words):
    lacking, before = words[:1] == ["--lacking"], words[:1] == ["--before"]
    files = words[1:] if lacking or before else words
    if len(files) != (2 if before else 1):
        sys.exit(__doc__)
    old, new, status = refusals(files[0]) if before else {}, refusals(files[-1]), 0
    print("| Crate | Wrong body | Function | Goal | Answer |\n|---|---|---|---|---|")
    for (crate, name), (refused, outcome, place) in sorted(new.items()):
        where, function, goal, answered = place
        moved = before and (crate, name) in old and old[crate, name][2][1] != function
        status |= not refused or moved
        if not refused or moved or not before and not (lacking and answered):
            outcome = ("yes" if answered else "no") if refused else outcome
            print(f"| `{crate}` | {name} | {where}::{function} | {goal} | {outcome} |")
    return int(status)


if __name__ == "__main__":
    sys.exit(main(sys.argv[1:]))

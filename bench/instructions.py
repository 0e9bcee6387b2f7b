#!/usr/bin/env python3
"""The instructions that `fill`, `sum` and `verify` of the whole program execute for a byte, and those of another one
beside it. `verify` is measured where there is authentication.

    python3 bench/instructions.py FOLDER PROGRAM [OTHER [PERCENT]]

FOLDER is one on a file system in memory (/dev/shm); PROGRAM and OTHER are built `geli` (crates/geli_cli/out/geli_cli).
Compare a proved program with a proved one, or an unproved with an unproved, and one level of processors: proofs remove
checks, and x86-64-v3 has wider instructions.
Instructions are counted by valgrind's callgrind and not by time, so a loaded machine doesn't disturb it. Those of a run
that only attaches are subtracted, and those of the system's calls aren't seen.
A contract doesn't speak of cost. So this finds what a proof doesn't: lanes that aren't used, work that is done twice.
With OTHER it ends with status 1 if in any row PROGRAM executes more than PERCENT (5) per cent more. It does too if a
program fails.
"""
import pathlib
import re
import shutil
import subprocess
import sys

from whole import ATTACH, PROVIDERS, init, name_of, verb_lines

# Tags are computed four at a time. The four are of one logical sector if it has four whole units, so these rows have
# sectors with fewer (512 and 1,024 bytes), and with too many for four such sectors to be checked at once (8,192).
ROWS = [
    *PROVIDERS,
    ("AES-XTS", 128, 512, "SHA512"),
    ("AES-XTS", 128, 1024, "SHA256"),
    ("AES-XTS", 128, 8192, "SHA256"),
]
# The plain bytes of a row.
SIZE = 1 << 18
CALLGRIND = ["valgrind", "--tool=callgrind", "--callgrind-out-file=/dev/null"]


def instructions(folder, program, lines=b""):
    """Runs a program over the lines of a script, and returns the instructions that it executed."""
    words = [*CALLGRIND, program, "script", "a.img"]
    done = subprocess.run(words, input=ATTACH + lines, capture_output=True, cwd=folder)
    collected = re.search(rb"Collected : (\d+)", done.stderr)
    if done.returncode or b"error" in done.stdout or not collected:
        sys.exit(f"{words}: status {done.returncode}, {done.stdout[-300:]} {done.stderr[-300:]}")
    return int(collected[1])


def measure(programs, folder, provider):
    """Yields, for each verb, the instructions for a byte of each program."""
    count = SIZE // provider[2]
    init(programs[0], folder, provider, count)
    idle = [instructions(folder, program) for program in programs]
    for verb, lines in verb_lines(provider, count):
        whole = [instructions(folder, program, lines) for program in programs]
        yield verb, [(all_of_it - attached) / SIZE for all_of_it, attached in zip(whole, idle)]


def main():
    if len(sys.argv) not in (3, 4, 5) or not shutil.which("valgrind"):
        sys.exit(__doc__ + "\nIt needs valgrind.")
    folder = pathlib.Path(sys.argv[1])
    programs = [str(pathlib.Path(it).resolve()) for it in sys.argv[2:4]]
    percent = float(sys.argv[4]) if len(sys.argv) > 4 else 5
    (folder / "key").write_bytes(b"k" * 64)
    print("instructions for a byte")
    print("| provider | call | program |" + (" other | ratio |" if programs[1:] else ""))
    print("|---|---|---|" + ("---|---|" if programs[1:] else ""))
    slow = 0
    for provider in ROWS:
        for verb, found in measure(programs, folder, provider):
            cells = [f"{it:.2f}" for it in found]
            if programs[1:]:
                ratio = found[0] / found[1]
                cells.append(f"{ratio:.3f}")
                slow += ratio > 1 + percent / 100
            print(f"| {name_of(provider)} | {verb} | {' | '.join(cells)} |", flush=True)
    if slow:
        sys.exit(f"rows with more than {percent:g} per cent more instructions: {slow}")


main()

#!/usr/bin/env python3
"""The time of a line of a script that waits for its reply before the next is said, and of lines that are said at once.

    python3 bench/pace.py FOLDER ROUNDS NAME=PROGRAM...

Each PROGRAM is a built `geli` of this NAME, as `old=../before/out/geli`; FOLDER is one on a quiet file system
(/dev/shm). The programs go by turns in one run, ROUNDS times (9 at least), each time with another one first. A row has
of each the least of the microseconds of a line, their median, and how much that is over the first program's.

What is done once a line, as overwriting what it left on the stack, shows in the first two rows.
"""
import os
import pathlib
import statistics
import subprocess
import sys
import time

INIT = ["init", "-l", "256", "-s", "4096", "-i", "1", "-J", "pass", "a.img"]
ATTACH = b"attach -j pass a.img\n"


def reads(count, sectors):
    return [b"read a.img %d %d\n" % (at % 1000, sectors) for at in range(count)]


# What is done, its lines, and whether each waits for its reply.
ROWS = [
    ("read of a sector, line by line", reads(2000, 1), True),
    ("suspend and resume, line by line", [b"suspend a.img\n", b"resume -j pass a.img\n"] * 500, True),
    ("read of a sector, 20,000 lines at once", reads(20000, 1), False),
    ("read of 16 sectors, 2,000 lines at once", reads(2000, 16), False),
]


def line_by_line(program, folder, lines):
    """Returns the seconds of these lines, each said when the one before it was answered."""
    words = [program, "script", "a.img"]
    with subprocess.Popen(words, stdin=subprocess.PIPE, stdout=subprocess.PIPE, cwd=folder) as script:
        said, replies = script.stdin.fileno(), script.stdout
        os.write(said, ATTACH)
        replies.readline()
        began = time.perf_counter()
        for line in lines:
            os.write(said, line)
            replies.readline()
        took = time.perf_counter() - began
        script.stdin.close()
        if replies.read() or script.wait():
            sys.exit(f"{program}: a line was refused")
    return took


def at_once(program, folder, lines):
    """Returns the seconds of a whole run over these lines."""
    text = ATTACH + b"".join(lines)
    began = time.perf_counter()
    done = subprocess.run([program, "script", "a.img"], input=text, cwd=folder, stdout=subprocess.DEVNULL, check=False)
    if done.returncode:
        sys.exit(f"{program}: a line was refused")
    return time.perf_counter() - began


def measure(programs, folder, rounds, lines, waits):
    """Returns the microseconds of a line of each program, round by round."""
    times = {name: [] for name in programs}
    for turn in range(rounds):
        names = list(programs)
        for name in names[turn % len(names):] + names[:turn % len(names)]:
            took = (line_by_line if waits else at_once)(programs[name], folder, lines)
            times[name].append(took / len(lines) * 1e6)
    return times


def main():
    folder, rounds = pathlib.Path(sys.argv[1]), int(sys.argv[2])
    programs = {}
    for word in sys.argv[3:]:
        name, _, program = word.partition("=")
        programs[name] = str(pathlib.Path(program).resolve())
    first = next(iter(programs))
    (folder / "pass").write_bytes(b"words\n")
    with open(folder / "a.img", "wb") as image:
        image.truncate(8 << 20)
    subprocess.run([programs[first], *INIT], cwd=folder, check=True, stdout=subprocess.DEVNULL)
    print(f"microseconds of a line: least, median of {rounds}, the median over that of {first}")
    print(f"| what | {' | '.join(programs)} |\n|---|{'---|' * len(programs)}")
    for what, lines, waits in ROWS:
        times = measure(programs, folder, rounds, lines, waits)
        middle = {name: statistics.median(of_it) for name, of_it in times.items()}
        cells = [f"{min(times[name]):.1f}, {median:.1f}, {median / middle[first] - 1:+.1%}"
                 for name, median in middle.items()]
        print(f"| {what} | {' | '.join(cells)} |", flush=True)


if __name__ == "__main__":
    main()

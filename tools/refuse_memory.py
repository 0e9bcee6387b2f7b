#!/usr/bin/env python3
"""Refuses each allocation of the program in turn, in sessions on real files, and looks at what it answers and leaves.

    tools/refuse_memory.py [-d FOLDER] [-s SESSION]... [PROGRAM]      without a program: the one that ./geli runs

PROGRAM is the built program, and not the script ./geli, whose own memory would be refused.

A session is a few runs of `geli script`, or of `geli` with one command, over files. Each run is played once with all its memory, and
then once for each of its allocations, from the same files, with that one refused (tools/refuse_memory.c says which calls are counted).
A line is given when the one before it is answered, so that what is done to files is known of each line. What must hold of each run:

- the replies, and the writes and syncs of the image by each line, are those of the whole run, up to the first
  `error 33 NoMemory`, which may stand on any line but those with the verbs of NEVER; or nothing is printed, with status 5;
- a line that answers 33, and a run with status 5, wrote and synced no image, and left each file as it was. But for
  `init -B`, which writes the metadata before the backup file;
- behind a 33 each line has a reply, none is 33 again, and the status is 1; without one the status is the whole run's.

With its whole memory each run answers what its session says.

The program has no call that allocates but malloc and realloc. One allocation is refused in a run. No session has `submit`,
`resume` or `verify`, which may answer 33 too.

When it was last run, six sessions of scripts were played once for each of their 496 allocations: an ordinary one, the
refusals of `attach`, `setkey` with what a crash in it leaves, backup with `kill` and `restore`, `init -B`, and the other
verbs. 208 runs ended with status 5, having printed and written nothing. 264 had a line that answered 33: only ever `init`,
`attach`, `list`, `setkey`, `backup` or `restore`. It wrote and synced no image and left every file as it was, but for two runs
of `init -B`, where the new metadata stood (the next line attached with them) and no backup file did. 24 ran to the end as if
nothing had been refused, because the block was optional: a range key that isn't kept, or a first try at a block before the
first line. Seventeen single commands were played likewise, for 358 allocations: 292 runs ended with status 5, 49 answered 33
(two of them `init -B`, as above), 17 ran to the end.
"""
import argparse
import os
import re
import shutil
import subprocess
import sys
import tempfile
import time

from verbs import verbs_of_page

HERE = os.path.dirname(os.path.realpath(__file__))
KEYS = "-k k -j p"
SET = "-K k -J p -i 1000"
DATA = "5a" * 4096
NO_MEMORY = "error 33 NoMemory"


def never_lacking():
    """The verbs that never answer 33: those that docs/REFUSALS.md doesn't name where it says when NoMemory comes."""
    with open(os.path.join(HERE, "../docs/REFUSALS.md"), encoding="utf-8") as page:
        row = next(line for line in page if "| NoMemory |" in line)
    lacking, verbs = set(re.findall("`([^`]+)`", row)), set(verbs_of_page())
    assert lacking <= verbs, f"docs/REFUSALS.md says of NoMemory what is no verb: {lacking - verbs}"
    return verbs - lacking


NEVER = never_lacking()

# Lines and their replies; None: whatever the run with all its memory answers.
ORDINARY = [
    (f"init -s 4096 {SET} a.img", "ok"), (f"attach {KEYS} a.img", "ok"), ("list", "a.img attached 4096 255\nok"),
    (f"write a.img 254 {DATA}", "ok"), ("read a.img 254 1", f"ok {DATA}"), ("read a.img 255 1", "error 23 OutOfRange 255 1 255"),
    ("write a.img 0 00", "error 36 BadLength 1 4096"), ("flush a.img", "ok"), (f"attach {KEYS} a.img", "error 4 StillAttached"),
    ("detach a.img", "ok"), ("read a.img 254 1", "error 3 NotAttached"), (f"attach -r {KEYS} a.img", "ok"),
    ("read a.img 254 1", f"ok {DATA}"), (f"write a.img 254 {DATA}", "error 24 ReadOnly"),
    ("flush b.img", "error 2 UnknownProvider"),
]
REFUSALS = [
    (f"attach -C {KEYS} a.img", "ok"), ("attach -k k -j q a.img", "error 15 WrongKey"),
    (f"attach -n 1 {KEYS} a.img", "error 19 KeyNotSet 1"), (f"attach -n 2 {KEYS} a.img", "error 18 KeyNumberOutOfRange 2"),
    ("attach -p a.img", "error 16 NoKeyComponents"), ("attach -k k a.img", "error 22 PassphraseNeeded"),
    ("attach -k none -j p a.img", "error 27 FileAbsent 2"), (f"attach {KEYS} -p a.img", "error 1 Usage 7 Exclusive"),
    ("attach -Z a.img", "error 1 Usage 1 UnknownOption"), ("delkey a.img", "error 37 KeyNumberNeeded"),
    ("list", "a.img idle\nok"),
]
WITHOUT_PASSPHRASE = [
    ("init -P -K k a.img", "ok"), (f"attach {KEYS} a.img", "error 17 PassphraseNotSet"), ("attach -pkk a.img", "ok"),
    ("list", "a.img attached 512 2047\nok"),
]
NEW_KEY = f"setkey -n 1 {KEYS} -K k -J q a.img"
OPENS = [f"attach -C {KEYS} s.img", "attach -C -k k -j q s.img", "attach -C -n 1 -k k -j q s.img", f"attach {KEYS} s.img", "list"]
ATTACHED = "s.img attached 512 2047\nok"
# A session: runs of an image and its lines, runs of one command on an image, and copies of the first BYTES of a file, with zeros behind a shorter one.
SESSIONS = {
    "ordinary-session": [("run", "a.img", ORDINARY)],
    "attach-refusals": [
        ("run", "a.img", [(f"init {SET} a.img", "ok")]), ("run", "a.img", REFUSALS), ("run", "a.img", WITHOUT_PASSPHRASE),
    ],
    # A crash in `setkey` leaves the old last sector or the new one.
    "setkey-crash": [
        ("run", "a.img", [(f"init {SET} a.img", "ok")]), ("copy", "s.img", "a.img", 1 << 20), ("run", "a.img", [(NEW_KEY, "ok")]),
        ("run", "s.img", list(zip(OPENS, ["ok", "error 15 WrongKey", "error 19 KeyNotSet 1", "ok", ATTACHED]))),
        ("copy", "s.img", "a.img", 1 << 20), ("run", "s.img", list(zip(OPENS, ["ok", "ok", "ok", "ok", ATTACHED]))),
        ("run", "a.img", [(f"setkey -i 5 {KEYS} -K k -J q a.img", "error 21 IterationsNeedOneKey")]),
    ],
    "backup-and-kill": [
        ("run", "a.img", ORDINARY),
        ("run", "a.img", [
            ("backup a.img b", "ok"), ("kill a.img", "ok"), (f"attach {KEYS} a.img", "error 5 BadMagic"),
            ("restore b a.img", "ok"), (f"attach {KEYS} a.img", "ok"), ("read a.img 254 1", f"ok {DATA}"),
        ]),
        ("copy", "short", "b", 510),
        ("run", "c.img", [
            ("restore b c.img", "error 8 BadSize 1048576 2097152"), ("restore -f b c.img", "ok"),
            ("restore short c.img", "error 31 BackupTooShort 510"), ("dump c.img", None),
        ]),
    ],
    "init-with-backup": [
        ("run", "a.img", [
            (f"init -B b {SET} a.img", "ok"), (f"attach {KEYS} a.img", "ok"), ("list", "a.img attached 512 2047\nok"),
        ]),
    ],
    "other-lines": [
        ("run", "a.img", [
            (f"init -a HMAC/SHA256 -s 4096 {SET} a.img", "ok"), (f"attach {KEYS} a.img", "ok"), ("fill a.img 7 0 227", "ok"),
            ("sum a.img 0 227", None), (f"write a.img 226 {DATA}", "ok"), ("read a.img 226 1", f"ok {DATA}"),
            ("setkey -n 1 -K k -J q a.img", "ok"), ("delkey -n 0 a.img", "ok"), ("flush a.img", "ok"),
        ]),
        ("copy", "d.img", "a.img", 1 << 21),
        ("run", "d.img", [
            ("resize -s 1048576 d.img", "ok"), ("dump d.img", None), ("attach -k k -j q d.img", "ok"),
            (f"write d.img 0 {DATA}", "ok"), ("eject d.img", "ok"), ("list", "ok"),
        ]),
        ("run", "a.img", [
            ("dump a.img", None), ("delkey -f -n 1 a.img", "ok"), ("kill a.img", "ok"), ("dump a.img", "error 5 BadMagic"),
        ]),
    ],
    "single-commands": [
        ("one", "a.img", f"init -B b {SET} a.img", "ok"), ("one", "a.img", f"attach -C {KEYS} a.img", "ok"),
        ("one", "a.img", f"attach {KEYS} a.img", "ok"), ("one", "a.img", "attach -C -k k -j q a.img", "error 15 WrongKey"),
        ("one", "a.img", "dump a.img", None), ("one", "a.img", NEW_KEY, "ok"), ("one", "a.img", "delkey -n 0 a.img", "ok"),
        ("one", "a.img", "backup a.img c", "ok"), ("one", "a.img", "kill a.img", "ok"), ("one", "a.img", "restore b a.img", "ok"),
        ("one", "a.img", "restore none a.img", "error 27 FileAbsent 1"), ("copy", "d.img", "a.img", 1 << 21),
        ("one", "d.img", "resize -s 1048576 d.img", "ok"), ("one", "d.img", f"attach -C {KEYS} d.img", "ok"),
        ("one", "a.img", "read a.img 0 1", "error 3 NotAttached"), ("one", "a.img", "eject a.img", "ok"), ("one", "a.img", "list", "ok"),
        ("one", "a.img", "detach", "usage: geli script IMAGE... or geli VERB ..."),
    ],
}
FILES = {"k": bytes(range(64)), "p": b"abc\n", "q": b"abd", "a.img": bytes(1 << 20), "c.img": bytes(1 << 21)}


class Run:
    """A run of the program with one refused allocation, or none: what each line answered, did and left."""

    def __init__(self, program, folder, image, lines, number, alone):
        self.folder, self.notes = folder, tempfile.NamedTemporaryFile(mode="r")
        inode = str(os.stat(os.path.join(folder, image)).st_ino)
        files = self.files()
        told = {"LD_PRELOAD": SHIM, "REFUSE": str(number), "NOTES": self.notes.name}
        process = subprocess.Popen(
            [program] + (lines[0].split() if alone else ["script", image]),
            cwd=folder, env=told, stdin=subprocess.PIPE, stdout=subprocess.PIPE, stderr=subprocess.DEVNULL,
        )
        self.begun, self.refused, self.refused_in, self.count = False, None, None, 0
        self.replies, self.events, self.changed = [], [], []
        for line in lines + [None]:  # None: the end of the input
            try:
                if line is None:
                    process.stdin.close()
                elif not alone:
                    process.stdin.write(line.encode() + b"\n")
                    process.stdin.flush()
            except BrokenPipeError:
                pass
            reply = self.reply(process.stdout)
            if line is None or alone:  # A single command's closing counts as its own, since nothing tells where it begins.
                self.status = process.wait()
            events, before, files = self.noted(inode, line), files, self.files()
            self.replies.append(reply)
            self.events.append(events)
            self.changed.append(sorted(name for name in before.keys() | files.keys() if before.get(name) != files.get(name)))
        self.notes.close()

    def files(self):
        found = {}
        for name in os.listdir(self.folder):
            with open(os.path.join(self.folder, name), "rb") as file:
                found[name] = file.read()
        return found

    def reply(self, output):
        """The lines up to the one that ends a reply, or to the end of the output."""
        text = ""
        for line in output:
            text += line.decode()
            if line.startswith((b"ok", b"error ")):
                break
        return text.removesuffix("\n")

    def noted(self, inode, line):
        """The events of the image that were noted since the last call."""
        events = []
        for note in self.notes.read().splitlines():
            word, value = note.split()
            if word == "input":
                self.begun = True
            elif word == "refused":
                self.refused = int(value)
                self.refused_in = (line or "the end") if self.begun else "the start"
            elif word == "allocations":
                self.count = int(value)
            elif value == inode:
                events.append(word)
        return events


def judge(whole, run, lines):
    """What became of a run with a refused allocation. Raises where the rule is broken."""
    wordless = not any(run.replies)
    if run.status == 5:
        assert wordless, "something was printed, with status 5"
        assert not any(run.events) and not any(run.changed), "something was written, with status 5"
        return "status 5"
    for at, line in enumerate(lines + [None]):
        reply, events, changed = run.replies[at], run.events[at], run.changed[at]
        if line and reply == NO_MEMORY:
            verb = line.split()[0]
            assert verb not in NEVER, "this line never answers 33"
            if verb == "init" and "-B" in line.split():
                assert changed in ([], [line.split()[-1]]), f"init -B answered 33 and changed {changed}"
            else:
                assert not events, f"the line answered 33 and made the events {events}"
                assert not changed, f"the line answered 33 and changed {changed}"
            for later in run.replies[at + 1 : -1]:
                assert later.split("\n")[-1].startswith(("ok", "error ")) and later != NO_MEMORY, f"behind 33: {later[:60]!r}"
            assert not run.replies[-1] and run.status == 1, f"behind 33: status {run.status}"
            return "init -B answered 33" if events else "answered 33"
        assert reply == whole.replies[at], f"{line and line[:60]!r} answered {reply[:60]!r} and not {whole.replies[at][:60]!r}"
        assert events == whole.events[at], f"{line and line[:60]!r} made the events {events} and not {whole.events[at]}"
    assert run.status == whole.status, f"status {run.status} and not {whole.status}"
    return "as the whole run"


def restore(folder, kept):
    shutil.rmtree(folder)
    shutil.copytree(kept, folder)


def play(program, folder, name):
    """Plays a session: of each run each allocation refused. What was seen, and the runs that broke the rule."""
    seen, broken, number_of_runs = {}, [], 0
    here, kept = os.path.join(folder, "here"), os.path.join(folder, "kept")
    os.mkdir(here)
    for file, content in FILES.items():
        with open(os.path.join(here, file), "wb") as out:
            out.write(content)
    for step in SESSIONS[name]:
        if step[0] == "copy":
            with open(os.path.join(here, step[2]), "rb") as source, open(os.path.join(here, step[1]), "wb") as out:
                out.write(source.read(step[3]).ljust(step[3], b"\0"))
            continue
        alone, image = step[0] == "one", step[1]
        told = [step[2:]] if alone else step[2]
        lines = [line for line, _ in told]
        number_of_runs += 1
        shutil.copytree(here, kept)
        whole = Run(program, here, image, lines, 0, alone)
        for (line, reply), found in zip(told, whole.replies):
            assert reply is None or reply == found, f"with all its memory {line[:60]!r} answered {found[:60]!r}"
        after = os.path.join(folder, "after")
        os.rename(here, after)
        os.mkdir(here)
        number = 0
        while True:
            number += 1
            restore(here, kept)
            run = Run(program, here, image, lines, number, alone)
            if run.refused is None:
                judge(whole, run, lines)
                break
            where = f"{name}, run {number_of_runs}, allocation {number} ({run.refused} bytes) in {run.refused_in[:60]!r}"
            try:
                verdict = judge(whole, run, lines)
            except AssertionError as error:
                verdict = "BROKE THE RULE"
                broken.append(f"{where}: {error}")
                print(f"FAILS: {broken[-1]}", file=sys.stderr, flush=True)
            verb = run.refused_in if run.refused_in.startswith("the ") else run.refused_in.split()[0]
            seen.setdefault(verdict, {}).setdefault(verb, []).append(number)
        seen["allocations"] = seen.get("allocations", 0) + number - 1
        shutil.rmtree(here)
        os.rename(after, here)
        shutil.rmtree(kept)
    return seen, broken


def main():
    global SHIM
    words = argparse.ArgumentParser(usage="%(prog)s [-d FOLDER] [-s SESSION]... [PROGRAM]")
    words.add_argument("-d", default=None)
    words.add_argument("-s", action="append", choices=SESSIONS)
    words.add_argument("program", nargs="?")
    given = words.parse_args()
    folder = tempfile.mkdtemp(dir=given.d)
    SHIM = os.path.join(folder, "refuse_memory.so")
    subprocess.run(["cc", "-O2", "-shared", "-fPIC", "-o", SHIM, os.path.join(HERE, "refuse_memory.c")], check=True)
    program = given.program
    if not program:
        # Without words it prints how it is used; the first use builds it.
        if subprocess.run([os.path.join(HERE, "..", "geli")], stdout=subprocess.DEVNULL).returncode == 70:
            sys.exit("the program can't be built")
        program = os.path.join(HERE, "..", "out", "geli")
    program = os.path.realpath(program)
    failures = 0
    try:
        for name in given.s or SESSIONS:
            begun, inside = time.monotonic(), os.path.join(folder, name)
            os.mkdir(inside)
            seen, broken = play(program, inside, name)
            print(f"{name}: {seen.pop('allocations')} allocations, {time.monotonic() - begun:.0f} s")
            for verdict, verbs in sorted(seen.items()):
                told = ", ".join(f"{verb} {len(numbers)}" for verb, numbers in verbs.items())
                print(f"  {verdict}: {sum(map(len, verbs.values()))} (refused in {told})", flush=True)
            failures += len(broken)
    finally:
        shutil.rmtree(folder)
    if failures:
        sys.exit(f"{failures} runs broke the rule")
    print("Every run answered, and left its files, as said.")


if __name__ == "__main__":
    main()

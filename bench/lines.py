#!/usr/bin/env python3
"""The time of `write` and `read` in hexadecimal, beside xxd, basenc and GRUB's reader, in one run.

    python3 bench/lines.py PROGRAM FOLDER [MIB [ROUNDS]]

PROGRAM is a built `geli` (crates/geli_cli/out/geli_cli), FOLDER one on a quiet file system (/dev/shm).
The commands go by turns, ROUNDS times, and of each the least counts. MB/s of plain bytes, by the processor time of all
processes of the command, user and system. The bytes that the copying example and GRUB read are compared.
"""
import os
import pathlib
import resource
import shutil
import subprocess
import sys

EXAMPLES = pathlib.Path(__file__).resolve().parent.parent / "examples"
# The most bytes of a line.
STEP = 131072


def processor_time(folder, command):
    """Runs a shell command and returns the processor seconds of all its processes."""
    before = resource.getrusage(resource.RUSAGE_CHILDREN)
    done = subprocess.run(command, shell=True, cwd=folder, capture_output=True, executable="/bin/bash")
    after = resource.getrusage(resource.RUSAGE_CHILDREN)
    if done.returncode:
        sys.exit(f"{command}: {done.returncode} {done.stdout[-300:]} {done.stderr[-300:]}")
    return after.ru_utime - before.ru_utime + after.ru_stime - before.ru_stime


def scripts(folder, data, size):
    """Writes the scripts of a provider of this sector size."""
    attach = b"attach -j pass a.img\n"
    with open(folder / "write", "wb") as it:
        it.write(attach)
        for at in range(0, len(data), STEP):
            it.write(b"write a.img %d %s\n" % (at // size, data[at : at + STEP].hex().encode()))
    with open(folder / "read", "wb") as it:
        it.write(attach)
        for at in range(0, len(data), STEP):
            it.write(b"read a.img %d %d\n" % (at // size, STEP // size))
    (folder / "fill").write_bytes(attach + b"fill a.img 3 0 %d\n" % (len(data) // size))
    (folder / "sum").write_bytes(attach + b"sum a.img 0 %d\n" % (len(data) // size))


def commands(program, size):
    """Returns what is measured, by its name: a shell command each."""
    rows = {
        "fill": f"{program} script a.img <fill >/dev/null",
        "write, from a file": f"{program} script a.img <write >out && ! grep -q error out",
        "write, through pipes": f"cat write | {program} script a.img | cat >/dev/null",
        "sum": f"{program} script a.img <sum >/dev/null",
        "read": f"{program} script a.img <read >/dev/null",
        "read, through pipes": f"cat read | {program} script a.img | cat >/dev/null",
        "xxd -r -p": "xxd -r -p <digits >/dev/null",
        "basenc --base16 -d": "basenc --base16 -d <upper >/dev/null",
        "xxd -p": "xxd -p plain >/dev/null",
        "basenc --base16": "basenc -w0 --base16 plain >/dev/null",
        "examples/copy-in.sh": f"{EXAMPLES}/copy-in.sh -f -j pass plain a.img",
        "examples/copy-out.sh": f"rm -f back && {EXAMPLES}/copy-out.sh -j pass a.img back",
    }
    if shutil.which("grub-fstest"):
        rows["GRUB's reader"] = f"printf 'abc\\n' | grub-fstest -C -r crypto0 -s 0 -n {size} a.img cp - grub"
    return rows


def main():
    program, folder = str(pathlib.Path(sys.argv[1]).resolve()), pathlib.Path(sys.argv[2])
    mib, rounds = (int(it) for it in (*sys.argv[3:5], *("32", "3")[len(sys.argv[3:5]):]))
    os.environ["GELI"] = program
    data = os.urandom(1 << 20) * mib
    (folder / "pass").write_bytes(b"abc\n")
    (folder / "plain").write_bytes(data)
    (folder / "digits").write_bytes(data.hex().encode())
    (folder / "upper").write_bytes(data.hex().upper().encode())
    for size in (512, 4096):
        (folder / "a.img").unlink(missing_ok=True)
        with open(folder / "a.img", "wb") as it:
            it.truncate(len(data) + 4096)
        subprocess.run([program, "init", "-i", "1000", "-J", "pass", "-l", "128", "-s", str(size), "a.img"], check=True, cwd=folder)
        scripts(folder, data, size)
        times = {}
        for _ in range(rounds):
            for name, command in commands(program, len(data)).items():
                times.setdefault(name, []).append(processor_time(folder, command))
        print(f"sectors of {size} bytes, {mib} MiB, least of {rounds}")
        for name, taken in times.items():
            print(f"| {name} | {len(data) / 1e6 / min(taken):.0f} |")
        for name in ("back", "grub"):
            if (folder / name).exists() and (folder / name).read_bytes()[: len(data)] != data:
                sys.exit(f"{name}: other bytes than were written")


main()

#!/usr/bin/env python3
"""The time of `fill`, `sum` and `verify` of the whole program over a file, beside the same work in C over OpenSSL's
libcrypto. `verify` is measured where there is authentication.

    python3 bench/whole.py PROGRAM FOLDER [MIB [ROUNDS [ROWS]]]

PROGRAM is a built `geli` (crates/geli_cli/out/geli_cli), FOLDER one on a quiet file system (/dev/shm). ROWS picks the
rows that have these letters. With LEVEL=x86-64-v2 in the environment C has no AVX, AVX2 or BMI either, as on a
processor of that level.
The sides go by turns in one run, ROUNDS times, and of each the least counts. MB/s by the processor time of the process,
user and system, less the least of a run that does nothing: of geli one that only attaches, of C one over no bytes.
On a virtual machine many short rounds (16 MiB, 25 rounds) tell more than a few long ones: what its host takes away is
then missing from some of them.
C's side is bench/whole.c, with calls of the system of 512 bytes and of 131,072, without and with AES instructions.
"""
import os
import pathlib
import resource
import subprocess
import sys

HERE = pathlib.Path(__file__).parent
# OpenSSL's mask of capabilities (OPENSSL_ia32cap(3)). AES-NI and PCLMULQDQ have bits in its first word, SHA one in the
# second; so do AVX in the first, and AVX2, both BMI and AVX512F in the second. Without a second word OpenSSL would do
# without AVX2 as well.
AES, SHA = 0x0200000200000000, 0x20000000
AVX, AVX2 = (0x1000000000000000, 0x00010128) if os.environ.get("LEVEL") == "x86-64-v2" else (0, 0)
MASKS = {"with": f"~{AVX:#x}:~{AVX2:#x}", "without": f"~{AES | AVX:#x}:~{SHA | AVX2:#x}"}
PROVIDERS = [
    ("AES-XTS", 128, 512, ""),
    ("AES-XTS", 128, 4096, ""),
    ("AES-XTS", 256, 512, ""),
    ("AES-XTS", 256, 4096, ""),
    ("AES-CBC", 128, 512, ""),
    ("AES-CBC", 128, 4096, ""),
    ("AES-XTS", 128, 512, "SHA256"),
    ("AES-XTS", 128, 4096, "SHA256"),
    ("AES-XTS", 128, 4096, "SHA384"),
    ("AES-XTS", 128, 4096, "SHA512"),
]
ATTACH = b"attach -p -k key a.img\n"
C_SIDES = [(mask, chunk) for mask in ("without", "with") for chunk in (512, 131072)]


def processor_time(folder, words, lines=b"", mask="with"):
    """Runs a program and returns the processor seconds that it took."""
    env = {**os.environ, "OPENSSL_ia32cap": MASKS[mask]}
    before = resource.getrusage(resource.RUSAGE_CHILDREN)
    done = subprocess.run(words, input=lines, capture_output=True, cwd=folder, env=env)
    after = resource.getrusage(resource.RUSAGE_CHILDREN)
    if done.returncode or b"error" in done.stdout:
        sys.exit(f"{words}: status {done.returncode}, {done.stdout[-300:]} {done.stderr[-300:]}")
    return after.ru_utime - before.ru_utime + after.ru_stime - before.ru_stime


def units(size, auth):
    """Returns how many device sectors a logical sector of so many bytes takes."""
    data = {"": 512, "SHA256": 480, "SHA384": 464, "SHA512": 448}[auth]
    return -(-size // data)


def sweep_lines(count, units_of_sector):
    """Returns the lines of a whole sweep, each of which goes over as many sectors as one line may."""
    of_line = 16384 // units_of_sector
    lines = -(-count // of_line)
    return f"verify -r a.img place {of_line}\n" + f"verify a.img place {of_line}\n" * (lines - 1)


def name_of(provider):
    """Returns the name of a row."""
    cipher, bits, size, auth = provider
    return f"{cipher[-3:].lower()} {bits}, {size}" + (f", HMAC/{auth}" if auth else "")


def empty(image, provider, count):
    """Makes a file with room for so many logical sectors and the metadata."""
    _, _, size, auth = provider
    image.unlink(missing_ok=True)
    with open(image, "wb") as it:
        it.truncate(count * units(size, auth) * 512 + 4096)


def init(program, folder, provider, count):
    """Makes a provider of so many logical sectors in a.img, by the file `key` alone."""
    cipher, bits, size, auth = provider
    empty(folder / "a.img", provider, count)
    kind = ["-e", cipher, "-l", str(bits), "-s", str(size), *(["-a", "HMAC/" + auth] if auth else [])]
    words = [program, "init", "-P", "-K", "key", *kind, "a.img"]
    subprocess.run(words, check=True, cwd=folder, stdout=subprocess.DEVNULL)


def verb_lines(provider, count):
    """Returns each verb that is measured, with the lines of one that goes over so many logical sectors."""
    _, _, size, auth = provider
    verbs = [("fill", f"fill a.img 7 0 {count}\n"), ("sum", f"sum a.img 0 {count}\n")]
    if auth:
        verbs.append(("verify", sweep_lines(count, units(size, auth))))
    return [(verb, lines.encode()) for verb, lines in verbs]


def measure(program, folder, mib, rounds, provider):
    """Yields, for each verb, the least processor seconds of each side."""
    cipher, bits, size, auth = provider
    count = (mib << 20) // size
    init(program, folder, provider, count)
    empty(folder / "c.img", provider, count)
    name = f"aes-{bits}-{cipher[-3:].lower()}" + (f"+{auth.lower()}" if auth else "")
    for verb, lines in verb_lines(provider, count):
        whole, idle = {}, {}
        for _ in range(rounds):
            for times, more, size_of_c in ((whole, lines, mib << 20), (idle, b"", 0)):
                words = [program, "script", "a.img"]
                times.setdefault("geli", []).append(processor_time(folder, words, ATTACH + more))
                for mask, chunk in C_SIDES:
                    words = ["./whole", verb, name, str(size), "c.img", str(size_of_c), str(chunk)]
                    times.setdefault((mask, chunk), []).append(processor_time(folder, words, mask=mask))
        yield verb, {side: min(times) - min(idle[side]) for side, times in whole.items()}


def main():
    program, folder = str(pathlib.Path(sys.argv[1]).resolve()), pathlib.Path(sys.argv[2])
    mib, rounds = (int(it) for it in (*sys.argv[3:5], *("64", "5")[len(sys.argv[3:5]):]))
    rows = sys.argv[5] if len(sys.argv) > 5 else ""
    build = ["gcc", "-O2", "-Wno-deprecated-declarations", "-o", folder / "whole", HERE / "whole.c", "-lcrypto"]
    subprocess.run(build, check=True)
    (folder / "key").write_bytes(b"k" * 64)
    print(f"MB/s of {mib} MiB by processor time, least of {rounds}; in brackets geli's ratio to that side")
    print("| provider | call | geli | C, 512 a call | C, 131,072 | C, 512, AES instructions | C, 131,072, AES instructions |")
    print("|---|---|---|---|---|---|---|")
    for provider in PROVIDERS:
        name = name_of(provider)
        if rows not in name:
            continue
        for verb, least in measure(program, folder, mib, rounds, provider):
            rate = {side: (mib << 20) / 1e6 / max(time, 1e-6) for side, time in least.items()}
            cells = [f"{rate[side]:.0f} ({rate['geli'] / rate[side]:.2f})" for side in C_SIDES]
            print(f"| {name} | {verb} | {rate['geli']:.0f} | {' | '.join(cells)} |", flush=True)


if __name__ == "__main__":
    main()

#!/usr/bin/env python3
"""The time of PBKDF2 with HMAC-SHA-512 beside Python's hashlib, in one run on one machine.

    (cd crates/bench_kdf && rt run) && python3 bench/kdf.py [COUNT [ROUNDS]]

Each round times both, one after the other; the least time of each counts. Ends with status 1 where the two
keys differ.
"""
import hashlib
import pathlib
import subprocess
import sys
import time

PROGRAM = pathlib.Path(__file__).parent.parent / "crates/bench_kdf/out/bench_kdf"
PASSWORD = b"correct horse battery staple"
SALT = b"\x5a" * 64


def ours(count):
    micros, key = subprocess.check_output([PROGRAM, str(count)], text=True).split()
    return int(micros) / 1e6, key


def theirs(count):
    start = time.perf_counter()
    key = hashlib.pbkdf2_hmac("sha512", PASSWORD, SALT, count, 64)
    return time.perf_counter() - start, key.hex()


def main():
    count = int(sys.argv[1]) if len(sys.argv) > 1 else 100_000
    rounds = int(sys.argv[2]) if len(sys.argv) > 2 else 7
    times = []
    for _ in range(rounds):
        (mine, key), (other, expected) = ours(count), theirs(count)
        if key != expected:
            sys.exit("the two keys differ")
        times.append((mine, other))
    mine, other = min(t[0] for t in times), min(t[1] for t in times)
    print(f"{count} iterations: {1000 * mine:.1f} ms here, {1000 * other:.1f} ms by hashlib, ratio {mine / other:.2f}")


main()

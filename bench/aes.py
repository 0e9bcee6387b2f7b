#!/usr/bin/env python3
"""The time of AES beside OpenSSL without and with its AES instructions, in one run on one machine.

    (cd crates/bench_aes && rt run) && python3 bench/aes.py [ROUNDS]

Each row is measured ROUNDS times on all three sides, one after the other; of each side the quickest slice of calls
counts.
OpenSSL's libcrypto is called through ctypes, with its schedules kept as ours are, and its tweak or initialization
vector set for each call as ours is given one; what two calls through ctypes cost that do nothing is subtracted. Ends
with status 1 where the bytes differ.
"""
import ctypes
import ctypes.util
import os
import pathlib
import subprocess
import sys
import tempfile
import time

PROGRAM = pathlib.Path(__file__).parent.parent / "crates/bench_aes/out/bench_aes"
# The bits of AES-NI, PCLMULQDQ and the like in OpenSSL's mask of capabilities.
WITHOUT_AES = "~0x200000200000000"
SLICE = 1 << 18
SLICES = 25


class OpenSSL:
    """A process of this script in which libcrypto was loaded under a mask."""

    def __init__(self, mask):
        environment = dict(os.environ)
        environment.pop("OPENSSL_ia32cap", None)
        if mask:
            environment["OPENSSL_ia32cap"] = mask
        self.process = subprocess.Popen(
            [sys.executable, __file__, "--openssl"], env=environment, text=True, stdin=subprocess.PIPE, stdout=subprocess.PIPE
        )
        # The least that two calls through ctypes cost that do nothing, of all measurements: on a loaded machine one alone may be too much.
        self.nothing = float("inf")
        for _ in range(20):
            self.measure("cbc", "open", 128, 512)

    def measure(self, *words):
        print(*words, file=self.process.stdin, flush=True)
        nanos, nothing, last = self.process.stdout.readline().split()
        self.nothing = min(self.nothing, float(nothing))
        return float(nanos), last

    def without_calls(self, nanos):
        return max(0.1, nanos - self.nothing)


def serve():
    """Replies to each line, as `xts seal 128 512`, with the nanoseconds of a call, those of calls that do nothing, and the last bytes that one leaves."""
    crypto = ctypes.CDLL(ctypes.util.find_library("crypto"))
    crypto.EVP_CIPHER_CTX_new.restype = ctypes.c_void_p
    update = crypto.EVP_CipherUpdate
    update.argtypes = [ctypes.c_void_p] * 4 + [ctypes.c_int]
    init = crypto.EVP_CipherInit_ex
    init.argtypes = [ctypes.c_void_p] * 5 + [ctypes.c_int]
    # Calls with as many arguments, of which the first alone is read.
    no_init, no_update = crypto["EVP_CIPHER_CTX_get_block_size"], crypto["EVP_CIPHER_CTX_get_block_size"]
    no_init.argtypes, no_update.argtypes = init.argtypes, update.argtypes
    for line in sys.stdin:
        mode, way, bits, size = line.split()
        bits, size = int(bits), int(size)
        cipher = getattr(crypto, f"EVP_aes_{bits}_{mode}")
        cipher.restype = ctypes.c_void_p
        key = b"\x01" * (bits // 8) + (b"\x02" * (bits // 8) if mode == "xts" else b"")
        context = crypto.EVP_CIPHER_CTX_new()
        init(context, cipher(), None, key, bytes(16), int(way == "seal"))
        crypto.EVP_CIPHER_CTX_set_padding(ctypes.c_void_p(context), 0)
        buffer, zeros = ctypes.create_string_buffer(size), bytes(16)
        got = ctypes.c_int(0)
        at, out = ctypes.addressof(buffer), ctypes.addressof(got)
        update(context, at, out, at, size)
        last = buffer.raw[-16:].hex()
        count = max(1, SLICE // size)

        def least(first, second):
            best = float("inf")
            for _ in range(SLICES):
                start = time.perf_counter_ns()
                for _ in range(count):
                    first(context, None, None, None, zeros, -1)
                    second(context, at, out, at, size)
                best = min(best, time.perf_counter_ns() - start)
            return best / count

        print(least(init, update), least(no_init, no_update), last, flush=True)


class Tables:
    """CBC by tables of columns, one block after the other, as gcc compiles bench/t_tables.c."""

    def __init__(self, folder):
        library = pathlib.Path(folder) / "t_tables.so"
        source = pathlib.Path(__file__).with_name("t_tables.c")
        subprocess.run(["gcc", "-O2", "-march=x86-64-v2", "-shared", "-fPIC", "-o", library, source], check=True)
        self.code = ctypes.CDLL(str(library))
        self.code.cbc_seal.argtypes = [ctypes.c_void_p, ctypes.c_int, ctypes.c_void_p, ctypes.c_void_p, ctypes.c_size_t]

    def measure(self, bits, size):
        """The nanoseconds of a call, and the last bytes that one leaves."""
        keys, zeros, buffer = ctypes.create_string_buffer(240), bytes(16), ctypes.create_string_buffer(size)
        rounds = self.code.expand(b"\x01" * (bits // 8), bits // 8, keys)
        self.code.cbc_seal(keys, rounds, zeros, buffer, size)
        last = buffer.raw[-16:].hex()
        count, best = max(1, SLICE // size), float("inf")
        for _ in range(SLICES):
            start = time.perf_counter_ns()
            for _ in range(count):
                self.code.cbc_seal(keys, rounds, zeros, buffer, size)
            best = min(best, time.perf_counter_ns() - start)
        return best / count, last


def print_single_blocks(rounds):
    """One block at a time, beside gcc's compilation of the same tables."""
    with tempfile.TemporaryDirectory() as folder:
        tables = Tables(folder)
        for bits in (128, 256):
            times = []
            for _ in range(rounds):
                (here, last), (other, expected) = ours("cbc", "seal", bits, 65536), tables.measure(bits, 65536)
                if last != expected:
                    sys.exit(f"the bytes of single blocks differ at {bits} bits")
                times.append((here, other))
            here, other = map(min, zip(*times))
            rate = lambda nanos: f"{1000 * 65536 / nanos:.1f}"
            print(f"single blocks, AES-{bits} cbc seal, 65536 | tables by gcc {rate(other)} | here {rate(here)} ({other / here:.2f})", flush=True)


def ours(*words):
    nanos, count, *last = subprocess.check_output([PROGRAM, *map(str, words), str(SLICES)], text=True).split()
    return int(nanos) / int(count), last[0] if last else ""


def row(without, with_aes, rounds, mode, way, bits, size):
    """The quickest call of each side, in nanoseconds: here, and in a sector; OpenSSL without and with AES instructions."""
    times = []
    for _ in range(rounds):
        here, last = ours(mode, way, bits, size)
        sector, _ = ours(f"sector-{mode}", way, bits, size)
        other, expected = without.measure(mode, way, bits, size)
        limit, _ = with_aes.measure(mode, way, bits, size)
        if last != expected:
            sys.exit(f"the bytes of {mode} {way} {bits} {size} differ")
        times.append((here, sector, other, limit))
    here, sector, other, limit = (min(column) for column in zip(*times))
    return here, sector, without.without_calls(other), with_aes.without_calls(limit)


def main():
    rounds = int(sys.argv[1]) if len(sys.argv) > 1 else 5
    without, with_aes = OpenSSL(WITHOUT_AES), OpenSSL(None)
    print("MB/s, and in brackets the ratio to OpenSSL without AES instructions")
    print("call, bytes | OpenSSL without | here | as a sector, key kept | OpenSSL with")
    for bits in (128, 256):
        for mode, way in (("xts", "seal"), ("xts", "open"), ("cbc", "seal"), ("cbc", "open")):
            for size in (512, 4096, 65536):
                here, sector, other, limit = row(without, with_aes, rounds, mode, way, bits, size)
                rate = lambda nanos: f"{1000 * size / nanos:.1f}" if nanos > 20 else "too quick for this clock"
                print(
                    f"AES-{bits} {mode} {way}, {size} | {rate(other)} | {rate(here)} ({other / here:.2f}) | "
                    f"{rate(sector)} ({other / sector:.2f}) | {rate(limit)}",
                    flush=True,
                )
    print_single_blocks(rounds)
    for name, numbers in (("kept, one number", 1), ("kept, 16 numbers in turn", 16), ("made, 17 numbers in turn", 17)):
        times = [ours("ring", "key", bits, numbers)[0] for bits in (128, 256) for _ in range(rounds)]
        print(f"a range key, {name}: {min(times[:rounds]):.0f} ns at 128 bits, {min(times[rounds:]):.0f} ns at 256", flush=True)
    for auth in ("HMAC/SHA256", "HMAC/SHA384", "HMAC/SHA512"):
        seal, open_, alone = (min(ours(auth, way, 128, 0)[0] for _ in range(rounds)) for way in ("seal", "open", "hash"))
        print(f"a piece with {auth}: sealed in {seal:.0f} ns, opened in {open_:.0f} ns, its code alone {alone:.0f} ns", flush=True)
    print("a logical sector of 4,096 bytes of a provider over a disk in memory, AES-128 xts, in ns")
    print("data | written | read | the disk's writes alone | its codes alone")
    for name in ("plain", "HMAC/SHA256", "HMAC/SHA384", "HMAC/SHA512"):
        call = "provider" if name == "plain" else f"provider-{name}"
        parts = ("write", "read", "disk", "codes")
        times = [[ours(call, part, 128, 0)[0] for part in parts] for _ in range(rounds)]
        print(f"{name} | " + " | ".join(f"{min(column):.0f}" for column in zip(*times)), flush=True)


if sys.argv[1:] == ["--openssl"]:
    serve()
else:
    main()

#!/usr/bin/env python3
"""The time of work through geli-nbd, beside nbdkit's filter `luks` with and without AES instructions, beside its plain
file, and of files beside gocryptfs, which enciphers each by itself.

    python3 bench/nbd.py GELI FOLDER TURNS NAME=GELI-NBD...

GELI makes the provider. FOLDER is one on a quiet file system with 4 GB of room (/dev/shm). Each GELI-NBD is a side of
this NAME, as `v2=out/geli-nbd-x86-64-v2`. ROWS in the environment picks the rows that have its letters.
The sides go by turns in one run, TURNS times (5 at least), each turn with another one first. A row has of each side the
median of the seconds, and the least and the most of them.

All keys are at hand: the provider has no passphrase, and LUKS the fewest iterations that qemu-img makes. Both have
AES-XTS of 256 bits, sectors of 4,096 bytes here and of 512 there. nbdcopy and nbdsh connect to a socket. For files
examples/nbd_bridge.py runs the server, or nbdfuse in the rows that say so, and fuse2fs mounts an ext4 as
mount-provider.sh makes it. Parts of sectors LUKS takes only behind nbdkit's filter `blocksize`. What goes in is flushed
within the time, and what comes out is compared in the first turn. It needs nbdkit, libnbd's programs with nbdsh,
qemu-img, fuse2fs, gocryptfs, and python3 with pyfuse3 and libnbd's module.
"""
import contextlib
import os
import pathlib
import random
import shutil
import socket
import statistics
import subprocess
import sys
import threading
import time

BRIDGE = pathlib.Path(__file__).resolve().parent.parent / "examples/nbd_bridge.py"
ROOM = 122_070 * 4096  # bytes of the data of each image: 500 MB of whole sectors
REQUESTS = 10_000
# Files of a mount: how many, and their bytes in turn.
TREES = {"300 files, 120 MB": (300, [400_000]), "1,200 files, 196 MB": (1_200, [1_000_000] + [3_000] * 5)}
MAKE = ("mke2fs", "-q", "-F", "-t", "ext4", "-b", "4096", "-E", "nodiscard", "-O", "^extent,^64bit,^metadata_csum")
# GnuTLS and Nettle each look for AES instructions.
WITHOUT = {"GNUTLS_CPUID_OVERRIDE": "0x1", "NETTLE_FAT_OVERRIDE": "vendor:intel"}
RANDOM = f"""
import random, time
random.seed(5)
size = h.get_size() // 4096
places = [random.randrange(size) * 4096 for _ in range({REQUESTS})]
piece = random.randbytes(4096)
began = time.perf_counter()
for place in places:
    WORK
h.flush()
print(time.perf_counter() - began)
"""


def run(*words, **how):
    """Runs a program to its end, and gives what it printed."""
    done = subprocess.run(list(map(str, words)), capture_output=True, text=True, check=False, **how)
    if done.returncode:
        sys.exit(f"{words}: status {done.returncode}, {done.stdout[-300:]} {done.stderr[-300:]}")
    return done.stdout


def until(is_so):
    """Waits until it is so."""
    for _ in range(3000):
        if is_so():
            return
        time.sleep(0.01)
    sys.exit("a server or a mount doesn't come up")


class Geli:
    """A geli-nbd, which serves one client on its standard streams."""

    def __init__(self, folder, name, program, geli):
        self.folder, self.name, self.env = folder, name, dict(os.environ)
        image = folder / f"{name}.img"
        with open(image, "wb") as file:
            file.truncate(ROOM + 4096)
        run(geli, "init", "-P", "-K", "key", "-l", "256", "-s", "4096", image.name, cwd=folder)
        self.streams = [program, "-p", "-k", str(folder / "key"), str(image)]

    @contextlib.contextmanager
    def served(self):
        """A socket at which one client is served; its end is the server's."""
        path = self.folder / "sock"
        started = []
        with socket.socket(socket.AF_UNIX) as listener:
            listener.bind(str(path))
            listener.listen()

            def serve():
                connection, _ = listener.accept()
                with connection:
                    started.append(subprocess.Popen(self.streams, stdin=connection, stdout=connection))

            thread = threading.Thread(target=serve, daemon=True)
            thread.start()
            yield path
            thread.join()
        path.unlink()
        if started[0].wait():
            sys.exit(f"{self.name}: status {started[0].returncode}")


class Nbdkit:
    """nbdkit over a file, or over LUKS in one."""

    def __init__(self, folder, name, image, env, *luks):
        self.folder, self.name, self.env = folder, name, {**os.environ, **env}
        self.words = [*["--filter=luks"] * bool(luks), "file", str(image), *luks]
        parts = ["--filter=blocksize", *self.words, "minblock=512"] if luks else self.words
        self.streams = ["nbdkit", "-s", *parts]

    @contextlib.contextmanager
    def served(self):
        """A socket at which clients are served."""
        path = self.folder / "sock"
        with subprocess.Popen(["nbdkit", "-f", "-U", path, *self.words], env=self.env) as server:
            until(path.exists)
            yield path
            server.terminate()
        path.unlink(missing_ok=True)


class Gocryptfs:
    """gocryptfs over a folder of the same file system, with the AES instructions. It is no device."""

    def __init__(self, folder):
        self.folder, self.name = folder, "gocryptfs"
        self.words = ["-q", "-passfile", folder / "pass", folder / "cipher"]

    def empty(self):
        cipher = self.folder / "cipher"
        shutil.rmtree(cipher, ignore_errors=True)
        cipher.mkdir()
        run("gocryptfs", "-init", "-scryptn", "10", *self.words)

    @contextlib.contextmanager
    def mounted(self, files):
        with subprocess.Popen(["gocryptfs", "-fg", *map(str, self.words), files], stdout=subprocess.DEVNULL) as program:
            until(lambda: os.path.ismount(files))
            yield files
            run("fusermount3", "-u", files)
        if program.returncode:
            sys.exit(f"gocryptfs ended with {program.returncode}")


def sides(folder, geli, programs):
    (folder / "key").write_bytes(random.randbytes(64))
    (folder / "pass").write_text("a passphrase")
    luks, plain = folder / "luks.img", folder / "file.img"
    run("qemu-img", "create", "-q", "-f", "luks", "--object", f"secret,id=it,file={folder}/pass",
        "-o", "key-secret=it,iter-time=10", luks, ROOM)
    with open(plain, "wb") as file:
        file.truncate(ROOM)
    word = f"passphrase=+{folder}/pass"
    return [*(Geli(folder, name, str(pathlib.Path(program).resolve()), geli) for name, program in programs),
            Nbdkit(folder, "luks without", luks, WITHOUT, word), Nbdkit(folder, "luks with", luks, {}, word),
            Nbdkit(folder, "file", plain, {}), Gocryptfs(folder)]


def timed(*words):
    began = time.perf_counter()
    run(*words)
    return time.perf_counter() - began


def copies_in(side, _):
    with side.served() as path:
        return timed("nbdcopy", "--flush", side.folder / "data", f"nbd+unix:///?socket={path}")


def copies_out(*options):
    def of_side(side, is_first):
        out = side.folder / "out"
        with side.served() as path:
            spent = timed("nbdcopy", *options, f"nbd+unix:///?socket={path}", out)
        if is_first:
            run("cmp", side.folder / "data", out)
        out.unlink()
        return spent
    return of_side


def at_random(work):
    def of_side(side, _):
        with side.served() as path:
            return float(run("nbdsh", "-u", f"nbd+unix:///?socket={path}", "-c", RANDOM.replace("WORK", work)))
    return of_side


def by_bridge(disk):
    return [sys.executable, "-I", "-B", BRIDGE, disk]


def by_nbdfuse(disk):
    return ["nbdfuse", disk, "--command"]


@contextlib.contextmanager
def device(side, by):
    """The file that is the device; in the end all is flushed."""
    disk = side.folder / "disk"
    words = [*by(disk), *side.streams]
    said = side.folder / "said"  # of requests that are refused
    with open(said, "wb") as file, subprocess.Popen(words, env=side.env, stderr=file) as server:
        until((disk / "nbd").exists)
        yield disk / "nbd"
        run("fusermount3", "-u", disk)
    if server.returncode or said.stat().st_size:
        sys.exit(f"{side.name}: the device ended with {server.returncode}: {said.read_text()[:300]}")


@contextlib.contextmanager
def mounted(side, by):
    """The folder on which the ext4 is mounted, or gocryptfs; in the end all is flushed."""
    files = side.folder / "files"
    if isinstance(side, Gocryptfs):
        with side.mounted(files):
            yield files
        return
    with device(side, by) as nbd:
        with subprocess.Popen(["fuse2fs", "-f", nbd, files, "-o", "fakeroot"], stdout=subprocess.DEVNULL,
                              stderr=subprocess.DEVNULL) as program:
            until(lambda: os.path.ismount(files))
            yield files
            run("fusermount3", "-u", files)
        if program.returncode:
            sys.exit(f"{side.name}: fuse2fs ended with {program.returncode}")


def files_in(name, by):
    def of_side(side, _):
        if isinstance(side, Gocryptfs):
            side.empty()
        else:
            with device(side, by) as nbd:
                run(*MAKE, nbd)
        with contextlib.ExitStack() as stack:
            files = stack.enter_context(mounted(side, by))
            began = time.perf_counter()
            run("cp", "-r", side.folder / name, files / "tree")
            stack.close()
            return time.perf_counter() - began
    return of_side


def files_out(name, by):
    def of_side(side, is_first):
        with mounted(side, by) as files:
            spent = timed("cp", "-r", files / "tree", side.folder / "tree")
        if is_first:
            run("diff", "-r", side.folder / "tree", side.folder / name)
        shutil.rmtree(side.folder / "tree")
        return spent
    return of_side


def make_inputs(folder):
    with open(folder / "data", "wb") as file:
        for _ in range(ROOM // 4096):
            file.write(random.randbytes(4096))
    for name, (count, sizes) in TREES.items():
        (folder / name).mkdir()
        for number in range(count):
            (folder / name / str(number)).write_bytes(random.randbytes(sizes[number % len(sizes)]))
    for name in "disk", "files":
        (folder / name).mkdir()


def rows():
    """Each row: its name, and what it does with a side, which gives seconds."""
    yield "nbdcopy in, 500 MB", copies_in
    yield "nbdcopy out, 500 MB", copies_out()
    yield "nbdcopy out, 500 MB, one connection", copies_out("-C", "1")
    yield f"{REQUESTS:,} reads of 4 KiB", at_random("h.pread(4096, place)")
    yield f"{REQUESTS:,} writes of 4 KiB", at_random("h.pwrite(piece, place)")
    for name in TREES:
        for how, by in ("", by_bridge), (", by nbdfuse", by_nbdfuse):
            yield f"{name}, in{how}", files_in(name, by)
            yield f"{name}, out{how}", files_out(name, by)


def takes_part(side, row):
    return not isinstance(side, Gocryptfs) or ("files" in row and "nbdfuse" not in row)


def cell(times):
    if not times:
        return ""
    return f"{statistics.median(times):.2f} ({min(times):.2f} to {max(times):.2f})"


def main():
    geli, folder, turns = str(pathlib.Path(sys.argv[1]).resolve()), pathlib.Path(sys.argv[2]) / "nbd", int(sys.argv[3])
    programs = [word.split("=", 1) for word in sys.argv[4:]]
    wanted = [row for row in rows() if os.environ.get("ROWS", "") in row[0]]
    folder.mkdir()
    try:
        make_inputs(folder)
        all_sides = sides(folder, geli, programs)
        times = {}
        for turn in range(turns):
            order = all_sides[turn % len(all_sides):] + all_sides[:turn % len(all_sides)]
            for name, work in wanted:
                for side in (side for side in order if takes_part(side, name)):
                    times.setdefault((name, side.name), []).append(work(side, turn == 0))
        print(f"seconds: median of {turns}, least and most")
        print(f"| | {' | '.join(side.name for side in all_sides)} |")
        print("|---" * (len(all_sides) + 1) + "|")
        for name, _ in wanted:
            print(f"| {name} | {' | '.join(cell(times.get((name, side.name))) for side in all_sides)} |")
    finally:
        shutil.rmtree(folder)


main()

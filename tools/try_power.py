#!/usr/bin/env python3
"""Tries what power failures leave of mounts: which of the promises that applications were given are kept.

    tools/try_power.py GELI GELI-NBD CUTS [SIDE...]      CUTS: images a side; without a side: xts hmac control

A side is a provider (`xts`, or `hmac` with HMAC/SHA256), or `control`, a plain file served by nbdkit in geli-nbd's place;
with -K behind it, as `xts-K`, it is mounted by the kernel. Of each: an ext4 is mounted by mount-provider.sh, and a
session runs in it of which each promise is noted: fsync(2) of this or that, and what is at rest. All writes and syncs of
the image are noted too (tools/power_log.c). Then images are made as a power failure at a moment leaves them: all that
was flushed by then, and of each other device sector any version since, or parts of that with TORN=PERCENT in the
environment. Half of the moments are those just after a promise. Each image is attached, checked by `e2fsck -p` and,
where that refuses, by `-fy`, mounted, and looked at. A table is printed: how often each promise was looked at, and
broken. Where the filesystem's program isn't to blame, the control keeps what a side breaks.

SEED picks another session and other moments, STEPS its length (150), WORK the folder (/dev/shm). It needs root (for
`mount -o loop`), a C compiler, nbdkit, and what mounting needs. 300 cuts of a side take some minutes.
"""
import collections
import contextlib
import hashlib
import json
import os
import pathlib
import random
import shutil
import sqlite3
import struct
import subprocess
import sys
import tempfile
import time
from collections.abc import Callable, Iterator
from typing import Any

import nbd

TOP = pathlib.Path(__file__).resolve().parent.parent
MOUNT = TOP / "examples/mount-provider.sh"
SIZE = 24 << 20
SECTOR = 512
REST = 7.5  # seconds without any call, after which all is at rest
SIZES = [10, 700, 4096, 5000, 12288, 30000, 60000]
KINDS = {"xts": [], "hmac": ["-a", "HMAC/SHA256"]}
Mark = dict[str, Any]


def run(*words: object, **how: Any) -> subprocess.CompletedProcess[str]:
    return subprocess.run(list(map(str, words)), stdout=subprocess.PIPE, stderr=subprocess.STDOUT, text=True,
                          errors="replace", check=False, **how)


def must(*words: object, **how: Any) -> str:
    done = run(*words, **how)
    if done.returncode:
        sys.exit(f"{' '.join(map(str, words))}: status {done.returncode}\n{done.stdout}")
    return done.stdout


def digest(data: bytes) -> str:
    return hashlib.sha256(data).hexdigest()


# The session, and what it was promised.


class Session:
    """Work in a mounted filesystem. Of each promise it is noted how long the log of the image was when the work for it
    had begun, and when it was given."""

    def __init__(self, folder: pathlib.Path, log: pathlib.Path, seed: str) -> None:
        self.folder, self.log, self.random = folder, log, random.Random(seed)
        self.marks: list[Mark] = []
        self.number = 0
        self.live: list[str] = []
        self.logged = b""
        self.bases: dict[str, tuple[sqlite3.Connection, int]] = {}

    def length(self) -> int:
        return self.log.stat().st_size

    def data(self) -> bytes:
        return self.random.randbytes(self.random.choice(SIZES))

    def new(self, letter: str) -> str:
        self.number += 1
        return f"{letter}{self.number}"

    def put(self, name: str, data: bytes, flags: int = 0, synced: bool = False) -> None:
        file = os.open(self.folder / name, os.O_RDWR | os.O_CREAT | os.O_TRUNC | flags, 0o644)
        for at in range(0, len(data), 16384):
            os.write(file, data[at:at + 16384])
        if synced:
            os.fsync(file)
        os.close(file)

    def sync_folder(self) -> None:
        folder = os.open(self.folder, os.O_RDONLY | os.O_DIRECTORY)
        os.fsync(folder)
        os.close(folder)

    @contextlib.contextmanager
    def promise(self, what: str, **state: Any) -> Iterator[Mark]:
        """The work of which a promise comes; `state` says what is there then, also what the work adds to it."""
        mark: Mark = {"what": what, "begun": self.length(), **state}
        yield mark
        mark["given"] = self.length()
        self.marks.append(mark)

    def file_synced(self) -> None:
        name, data = self.new("f"), self.data()
        with self.promise("fsync, fdatasync, O_SYNC of a file for writing", path=name, sha=digest(data)):
            self.put(name, data, synced=True)
        self.live.append(name)

    def appended(self) -> None:
        data = self.random.randbytes(self.random.choice([50, 300, 4000, 9000]))
        self.logged += data
        with self.promise("fsync, fdatasync, O_SYNC of a file for writing", path="log", first=len(self.logged),
                          sha=digest(self.logged)):
            file = os.open(self.folder / "log", os.O_RDWR | os.O_CREAT | os.O_APPEND, 0o644)
            os.write(file, data)
            os.fdatasync(file)
            os.close(file)

    def written_by_sync(self) -> None:
        name, data = self.new("o"), self.random.randbytes(4096)
        with self.promise("fsync, fdatasync, O_SYNC of a file for writing", path=name, sha=digest(data)):
            self.put(name, data, os.O_SYNC)

    def in_new_folder(self) -> None:
        name, data = self.new("d"), self.data()
        with self.promise("fsync, fdatasync, O_SYNC of a file for writing", path=f"{name}/x", sha=digest(data)):
            (self.folder / name).mkdir()
            self.put(f"{name}/x", data, synced=True)

    def replaced(self, synced: Callable[[str], None], what: str, letter: str) -> None:
        name, data = f"{letter}{self.random.randrange(6)}", self.data()
        with self.promise(what, path=name, sha=digest(data)):
            self.put(f"{name}.new", data, synced=True)
            os.rename(self.folder / f"{name}.new", self.folder / name)
            synced(name)

    def replaced_and_folder(self) -> None:
        self.replaced(lambda _: self.sync_folder(), "rename, fsync of the folder", "g")

    def replaced_and_file(self) -> None:
        def synced(name: str) -> None:
            file = os.open(self.folder / name, os.O_RDWR)
            os.fsync(file)
            os.close(file)
        self.replaced(synced, "rename, fsync of the file for writing", "h")

    def removed(self) -> None:
        if self.live:
            name = self.live.pop(self.random.randrange(len(self.live)))
            with self.promise("unlink, fsync of the folder", path=name, sha=None):
                os.unlink(self.folder / name)
                self.sync_folder()

    def by_program(self, what: str, *words: str) -> None:
        name, data = self.new("s"), self.data()
        with self.promise(what, path=name, sha=digest(data)):
            self.put(name, data)
            must("sync", *words, self.folder / name)

    def unsynced(self) -> None:
        """What nobody was promised."""
        for _ in range(self.random.randrange(1, 5)):
            name = self.new("u")
            self.put(name, self.data())
            if self.random.random() < 0.6:
                os.unlink(self.folder / name)

    def committed(self, mode: str, how: str, what: str = "") -> None:
        name = f"{what and 'rest'}{mode}{how}"
        if name not in self.bases:
            base = sqlite3.connect(self.folder / f"{name}.db", isolation_level=None)
            base.execute(f"pragma journal_mode={mode}")
            base.execute(f"pragma synchronous={how}")
            base.execute("create table t (n integer primary key, b blob, s text)")
            self.bases[name] = base, 0
        base, count = self.bases[name]
        data = self.random.randbytes(self.random.choice([20, 900, 6000]))
        with self.promise(what or f"sqlite {mode}, {how.upper()}", base=name, count=count + 1):
            base.execute("begin immediate")
            base.execute("insert into t values (?, ?, ?)", (count + 1, data, digest(data)))
            base.execute("update t set s = s where n % 3 = 0")
            base.execute("commit")
            if what:
                time.sleep(REST)
        self.bases[name] = base, count + 1

    def rested(self, kind: str) -> None:
        """What is there once nobody has done anything for some seconds."""
        what = "at rest: written, renamed, removed, committed"
        if kind == "committed":
            self.committed("delete", "full", what)
            return
        name, data = self.new("r"), self.data()
        with self.promise(what, path=name, sha=None if kind == "removed" else digest(data)):
            self.put(name if kind != "renamed" else f"{name}.new", data)
            if kind == "renamed":
                os.rename(self.folder / f"{name}.new", self.folder / name)
            if kind == "removed":
                os.unlink(self.folder / name)
            time.sleep(REST)

    def work(self, steps: int) -> None:
        each: list[Callable[[], None]] = [
            *[self.file_synced] * 3, *[self.replaced_and_folder] * 2, *[self.replaced_and_file] * 2,
            *[self.removed] * 2, *[self.appended] * 3, self.in_new_folder, *[self.unsynced] * 2, self.written_by_sync,
            lambda: self.by_program("sync FILE"), lambda: self.by_program("sync -f FILE", "-f"),
            *[lambda: self.committed("delete", "full"), lambda: self.committed("delete", "extra"),
              lambda: self.committed("wal", "full"), lambda: self.committed("truncate", "full")] * 2]
        for step in range(steps):
            if step % (steps // 3) == steps // 6:
                for kind in "written", "renamed", "removed", "committed":
                    self.rested(kind)
            self.random.choice(each)()
        for base, _ in self.bases.values():
            base.close()


# The image, as a power failure leaves it.


class Record(tuple[str, int, int, int, int]):
    """A write (W), zeros (Z) or a flush (F): what, offset, where its bytes are in the log, their number, where it ends."""


def records_of(log: bytes) -> list[Record]:
    found, at = [], 0
    while at + 13 <= len(log):
        what, offset, length = chr(log[at]), *struct.unpack_from("<QI", log, at + 1)
        end = at + 13 + (length if what == "W" else 0)
        if end > len(log):
            break
        found.append(Record((what, offset, at + 13, length, end)))
        at = end
    return found


class Failures:
    """Images of a side, at moments of its log."""

    def __init__(self, base: bytes, log: bytes, seed: str) -> None:
        self.base, self.log, self.records = base, log, records_of(log)
        self.random = random.Random(seed)
        self.torn = float(os.environ.get("TORN", "0")) / 100

    def bytes_of(self, record: Record) -> bytes:
        what, _, at, length, _ = record
        return self.log[at:at + length] if what == "W" else bytes(length)

    def image(self, count: int, mode: str) -> bytes:
        """After so many records. Of what wasn't flushed: nothing (`none`), `all`, or any of its `sectors`."""
        flushed = next((at + 1 for at in range(count - 1, -1, -1) if self.records[at][0] == "F"), 0)
        image = bytearray(self.base)
        waiting: dict[int, list[tuple[int, bytes]]] = {}
        for number, record in enumerate(self.records[:count]):
            if record[0] == "F":
                continue
            offset, data = record[1], self.bytes_of(record)
            if number < flushed:
                image[offset:offset + len(data)] = data
                continue
            for at in range(offset // SECTOR * SECTOR, offset + len(data), SECTOR):
                first, end = max(at, offset), min(at + SECTOR, offset + len(data))
                waiting.setdefault(at, []).append((first, data[first - offset:end - offset]))
        for at, versions in waiting.items():
            self.apply(image, at, versions, mode)
        return bytes(image)

    def apply(self, image: bytearray, at: int, versions: list[tuple[int, bytes]], mode: str) -> None:
        """One sector: some of what was written to it, in order."""
        many = {"none": 0, "all": len(versions)}.get(mode, self.random.randrange(len(versions) + 1))
        before = bytes(image[at:at + SECTOR])
        for first, data in versions[:many]:
            image[first:first + len(data)] = data
        if mode == "sectors" and self.random.random() < self.torn:
            cut = self.random.randrange(1, SECTOR)
            image[at + cut:at + SECTOR] = self.random.choice([before, self.random.randbytes(SECTOR)])[cut:]

    def moments(self, cuts: int, marks: list[Mark]) -> Iterator[tuple[int, str]]:
        ends = [record[4] for record in self.records]
        given = [sum(end <= mark["given"] for end in ends) for mark in marks]
        first = min(given)
        for number in range(cuts):
            if number % 2:  # just after a promise
                yield self.random.choice(given), self.random.choice(["none", "none", "sectors"])
            else:
                yield self.random.randrange(first, len(ends) + 1), self.random.choice(["none", "all", "sectors", "sectors"])


# What is left of the promises.


class Looks:
    """How often each promise was looked at, and broken."""

    def __init__(self, marks: list[Mark]) -> None:
        self.marks = marks
        self.looked: collections.Counter[str] = collections.Counter()
        self.broken: collections.Counter[str] = collections.Counter()
        self.checks: collections.Counter[str] = collections.Counter()
        self.examples: list[str] = []

    def look(self, folder: pathlib.Path, moment: int, tag: str) -> None:
        """What was promised by a moment, in a folder where the image is mounted."""
        files: dict[str, list[Mark]] = {}
        bases: dict[str, Mark] = {}
        for mark in self.marks:
            if "path" in mark and mark["begun"] < moment:
                files.setdefault(mark["path"], []).append(mark)
            if "base" in mark and mark["given"] <= moment:
                bases[mark["base"]] = mark
        for path, marks in files.items():
            given = [mark for mark in marks if mark["given"] <= moment]
            if given:
                later = [mark for mark in marks if mark["given"] > moment]  # may be there, or not yet
                why = [self.file_differs(folder / path, mark) for mark in [given[-1], *later]]
                self.count(given[-1]["what"], "" if "" in why else f"{path}: {why[0]}", tag)
        for name, mark in bases.items():
            self.count(mark["what"], self.base_differs(folder, name, mark["count"]), tag)

    def count(self, what: str, why: str, tag: str) -> None:
        self.looked[what] += 1
        self.broken[what] += bool(why)
        if why and len(self.examples) < 20:
            self.examples.append(f"{tag}: {what}: {why}")

    @staticmethod
    def file_differs(path: pathlib.Path, mark: Mark) -> str:
        try:
            data = path.read_bytes()
        except FileNotFoundError:
            return "" if mark["sha"] is None else "missing"
        except OSError as failed:
            return str(failed.strerror)
        if mark["sha"] is None:
            return "still there"
        return "" if digest(data[:mark.get("first")]) == mark["sha"] else f"its {len(data)} bytes differ"

    @staticmethod
    def base_differs(folder: pathlib.Path, name: str, count: int) -> str:
        with tempfile.TemporaryDirectory() as copy:
            for file in folder.glob(f"{name}.db*"):
                shutil.copyfile(file, pathlib.Path(copy) / file.name)
            if not (pathlib.Path(copy) / f"{name}.db").exists():
                return "there is no database"
            try:
                base = sqlite3.connect(f"{copy}/{name}.db")
                whole = base.execute("pragma integrity_check").fetchone()[0] == "ok"
                rows = base.execute("select n, b, s from t").fetchall()
                base.close()
            except sqlite3.Error as failed:
                return str(failed)
        right = whole and all(digest(data) == sha for _, data, sha in rows)
        return "" if right and len(rows) >= count else f"{len(rows)} of {count} transactions" if right else "it is damaged"


# One side.


class Side:
    """A provider, or the control, and how it is mounted."""

    def __init__(self, name: str, geli: str, geli_nbd: str, work: pathlib.Path) -> None:
        self.kind, self.by_kernel = name.removesuffix("-K"), name.endswith("-K")
        self.folder = work / name
        self.folder.mkdir()
        (self.folder / "files").mkdir()
        self.image, self.log = self.folder / "image", self.folder / "log"
        self.geli, self.geli_nbd = geli, geli_nbd
        self.key = ["-p"] if self.kind == "control" else ["-p", "-k", str(self.folder / "key")]
        self.server = self.folder / "server"
        self.write_server()

    def write_server(self) -> None:
        """The program that stands in geli-nbd's place: that, or nbdkit, with its writes noted."""
        real = ('exec nbdkit -s file "$image"' if self.kind == "control" else f'exec "{self.geli_nbd}" "$@"')
        if self.kind == "control":
            version = "echo nbdkit; exit"
        else:
            version = f'exec "{self.geli_nbd}" --version'
        self.server.write_text(f"""#!/bin/bash
if [ "$1" = --version ]; then {version}; fi
image=$(realpath -- "${{!#}}")
if [ -n "$POWER_LOG" ]; then export LD_PRELOAD={self.folder.parent}/power_log.so POWER_IMAGE=$image; fi
{real}
""")
        self.server.chmod(0o755)

    def mount(self, *words: object, log: str = "") -> str:
        geli = "/bin/true" if self.kind == "control" else self.geli
        env = {**os.environ, "GELI": geli, "GELI_NBD": str(self.server), "GELI_MOUNTS": f"{self.folder}/mounts",
               "POWER_LOG": log}
        return must(MOUNT, *words, env=env)

    def make(self) -> None:
        self.image.write_bytes(b"")
        os.truncate(self.image, SIZE)
        if self.kind != "control":
            (self.folder / "key").write_bytes(random.randbytes(64))
            must(self.geli, "init", "-P", "-K", "key", *KINDS[self.kind], "-l", "256", "-s", "4096", "-B", "none", "image",
                 cwd=self.folder)
        if self.kind == "hmac":
            self.fill()
        kernel = ["-K"] * self.by_kernel
        self.mount("-m", *kernel, *self.key, self.image, self.folder / "files")
        self.mount("-u", self.folder / "files")

    def fill(self) -> None:
        """Writes zeros, so that each sector can be read."""
        server = self.connected(self.image)
        for at in range(0, server.get_size(), 1 << 20):
            server.pwrite(bytes(min(1 << 20, server.get_size() - at)), at)
        server.shutdown()

    def connected(self, image: pathlib.Path) -> Any:
        server = nbd.NBD()
        server.connect_command([self.geli_nbd, *self.key, str(image)])
        return server

    def session(self, steps: int, seed: str) -> list[Mark]:
        self.log.touch()
        files = self.folder / "files"
        self.mount(*["-K"] * self.by_kernel, *self.key, self.image, files, log=str(self.log))
        session = Session(files, self.log, seed)
        session.work(steps)
        self.mount("-u", files)
        return session.marks

    def data_of(self, image: pathlib.Path, data: pathlib.Path) -> int:
        """The data of an image as a file; how many pieces of 4,096 bytes of them can't be read."""
        if self.kind == "control":
            image.rename(data)
            return 0
        server, unreadable = self.connected(image), 0
        with open(data, "wb") as file:
            for at in range(0, server.get_size(), 1 << 20):
                end = min(at + (1 << 20), server.get_size())
                try:
                    file.write(server.pread(end - at, at))
                except nbd.Error:
                    for piece in range(at, end, 4096):
                        try:
                            file.write(server.pread(min(4096, end - piece), piece))
                        except nbd.Error:
                            file.write(bytes(min(4096, end - piece)))
                            unreadable += 1
        server.shutdown()
        return unreadable

    def cut(self, looks: Looks, image: bytes, moment: int, tag: str) -> None:
        name, data, place = self.folder / "cut", self.folder / "data", self.folder / "files"
        name.write_bytes(image)
        looks.checks["torn: not all can be read"] += bool(self.data_of(name, data))
        status = run("e2fsck", "-p", data).returncode
        looks.checks["e2fsck -p mended nothing, or all" if status < 4 else "e2fsck -p refused, -fy mended all"] += 1
        if status >= 4:
            status = run("e2fsck", "-fy", data).returncode
        if status >= 4 or run("mount", "-o", "loop,ro", data, place).returncode:
            looks.count("can't be mounted", f"e2fsck: {status}", tag)
            return
        try:
            looks.look(place, moment, tag)
        finally:
            must("umount", place)

    def cuts(self, count: int, steps: int, seed: str) -> Looks:
        self.make()
        base = self.image.read_bytes()
        marks = self.session(steps, seed)
        failures, looks = Failures(base, self.log.read_bytes(), seed), Looks(marks)
        (self.folder / "marks").write_text("\n".join(map(json.dumps, marks)))
        for number, (records, mode) in enumerate(failures.moments(count, marks)):
            self.cut(looks, failures.image(records, mode), failures.records[records - 1][4],
                     f"cut {number} after {records} records, of the unflushed {mode}")
        print(f"{self.folder.name}: {count} cuts of {len(failures.records)} records,"
              f" {sum(record[0] == 'F' for record in failures.records)} syncs;",
              ", ".join(f"{what}: {many}" for what, many in sorted(looks.checks.items()) if many), flush=True)
        for example in looks.examples:
            print(f"  {example}", flush=True)
        return looks


def main(geli: str, geli_nbd: str, cuts: str, *names: str) -> None:
    seed, steps = os.environ.get("SEED", "1"), int(os.environ.get("STEPS", "150"))
    work = pathlib.Path(tempfile.mkdtemp(dir=os.environ.get("WORK", "/dev/shm"), prefix="power."))
    sides: dict[str, Looks] = {}
    try:
        must("cc", "-O2", "-shared", "-fPIC", "-o", work / "power_log.so", TOP / "tools/power_log.c", "-ldl")
        for name in names or ("xts", "hmac", "control"):
            side = Side(name, os.path.realpath(geli), os.path.realpath(geli_nbd), work)
            sides[name] = side.cuts(int(cuts), steps, seed)
            shutil.rmtree(side.folder)
    finally:
        shutil.rmtree(work, ignore_errors=True)
    rows = dict.fromkeys(what for looks in sides.values() for what in sorted(looks.looked))
    print(f"\nlooked at / broken, of {cuts} cuts each\n\n| | {' | '.join(sides)} |")
    print("|---" * (len(sides) + 1) + "|")
    for what in rows:
        print(f"| {what} | {' | '.join(f'{it.looked[what]} / {it.broken[what]}' for it in sides.values())} |")


if __name__ == "__main__":
    main(*sys.argv[1:])

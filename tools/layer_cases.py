#!/usr/bin/env python3
"""The transcript of layers.cases, worked out by the rules of the format and of the layers.

    tools/layer_cases.py            prints the transcript
    tools/layer_cases.py --check    says whether that of crates/geli_cases is equal

Metadata and sectors are sealed by the `cryptography` of Python, by geli(8) and g_eli.h, without authentication. Lines and replies are as docs/CASES.md and
docs/REFUSALS.md say, as far as the cases need them: what is met besides ends the model. Keys are derived from one passphrase file, and from the
key file `k` where `-k` or `-K` is given.
"""
import argparse
import hashlib
import hmac
import itertools
import struct
import sys

from cryptography.hazmat.primitives.ciphers import Cipher, algorithms, modes

from case_files import differing, lines_of

PASSPHRASE = b"abc"
NUMBERS = {"AES-CBC": 11, "AES-XTS": 22}


def sha512(key, message):
    return hmac.digest(key, message, "sha512")


def le64(number):
    return struct.pack("<Q", number)


def counted(count, first):
    return bytes((first + i) % 251 for i in range(count))


class Refused(Exception):
    """A reply that begins with `error`."""


class DiskFailed(Exception):
    """A device refuses a call."""


# ---- disks

class Disk:
    """A disk in memory: what it had at first, the events since, and the calls that fail."""

    def __init__(self, sectors, fails=()):
        self.first, self.events, self.fails = list(sectors), [], list(fails)
        self.calls = {"read": 0, "write": 0, "flush": 0}

    def __len__(self):
        return len(self.first)

    def values(self, n, events):
        """The values that a crash may leave in sector n: the one that was flushed, and each later one."""
        kept = [self.first[n]]
        for event in events:
            if event is None:
                kept = kept[-1:]
            elif event[0] == n:
                kept.append(event[1])
        return kept

    def image(self, events):
        return [self.values(n, events)[-1] for n in range(len(self))]

    def call(self, kind, event=()):
        self.calls[kind] += 1
        how = next((how for k, nth, how in self.fails if (k, nth) == (kind, self.calls[kind])), None)
        if kind != "read" and how != "lost":
            self.events.append(event)
        if how:
            raise DiskFailed

    def read(self, n):
        self.call("read")
        return self.values(n, self.events)[-1]

    def write(self, n, data):
        self.call("write", (n, data))

    def flush(self):
        self.call("flush", None)


class Behind:
    """Writes wait for a disk, as many as there is room for."""

    def __init__(self, under, room):
        self.under, self.room, self.waiting = under, room, []

    def __len__(self):
        return len(self.under)

    def read(self, n):
        found = [data for at, data in self.waiting if at == n]
        return found[-1] if found else self.under.read(n)

    def send(self):
        while self.waiting:
            self.under.write(*self.waiting[0])
            self.waiting.pop(0)

    def write(self, n, data):
        if len(self.waiting) == self.room:
            self.send()
        self.waiting.append((n, data))

    def flush(self):
        self.send()
        self.under.flush()


class Join:
    """Two disks as one."""

    def __init__(self, first, second):
        self.first, self.second = first, second

    def __len__(self):
        return len(self.first) + len(self.second)

    def of(self, n):
        return (self.first, n) if n < len(self.first) else (self.second, n - len(self.first))

    def read(self, n):
        disk, at = self.of(n)
        return disk.read(at)

    def write(self, n, data):
        disk, at = self.of(n)
        disk.write(at, data)

    def flush(self):
        self.first.flush()
        self.second.flush()


class Upon:
    """A provider with sectors of 512 bytes as a disk."""

    def __init__(self, under, provider):
        self.under, self.provider = under, provider

    def __len__(self):
        return self.provider.count

    def read(self, n):
        return self.provider.opened(n, self.under.read(n))

    def write(self, n, data):
        self.under.write(n, self.provider.sealed(n, data))

    def flush(self):
        self.under.flush()


# ---- providers

def user_key(salt, iterations, keyfile):
    return sha512(b"", keyfile + hashlib.pbkdf2_hmac("sha512", PASSPHRASE, salt, iterations, 64))


def slot_mode(key):
    return Cipher(algorithms.AES(sha512(key, b"\1")[:16]), modes.CBC(bytes(16)))


def metadata(random, size, cipher, sectorsize, iterations, keyfile):
    """The last sector of a new provider of so many bytes: salt, master key and the other slot are the random bytes in this order."""
    salt, master, other = random[:64], random[64:192], random[192:384]
    key = user_key(salt, iterations, keyfile)
    step = slot_mode(key).encryptor()
    slot = step.update(master + sha512(sha512(key, b"\0"), master)) + step.finalize()
    head = struct.pack("<16sIIHHHQIBi", b"GEOM::ELI", 7, 0x200, NUMBERS[cipher], 128, 0, size, sectorsize, 1, iterations)
    meta = head + salt + slot + other
    return meta + hashlib.md5(meta).digest() + b"\0"


class Provider:
    """A provider on a disk of so many sectors, by its last sector."""

    def __init__(self, last, sectors, keyfile):
        magic, version, _, number, bits, _, size, self.size, keys, iterations = struct.unpack("<16sIIHHHQIBi", last[:47])
        assert (magic[:9], version, bits, size, keys) == (b"GEOM::ELI", 7, 128, 512 * sectors, 1), "metadata"
        key = user_key(last[47:111], iterations, keyfile)
        step = slot_mode(key).decryptor()
        plain = step.update(last[111:303]) + step.finalize()
        assert plain[128:] == sha512(sha512(key, b"\0"), plain[:128]), "the key"
        self.iv_key, self.data_key = plain[:64], plain[64:128]
        self.is_cbc = number == 11
        self.count = (512 * sectors - 512) // self.size

    def mode(self, n):
        offset = n * self.size
        key = sha512(self.data_key, b"ekey" + le64((offset >> 20) // self.size))
        if self.is_cbc:
            return Cipher(algorithms.AES(key[:16]), modes.CBC(hashlib.sha256(self.iv_key + le64(offset)).digest()[:16]))
        return Cipher(algorithms.AES(key[:32]), modes.XTS(le64(offset) + bytes(8)))

    def sealed(self, n, data):
        step = self.mode(n).encryptor()
        return step.update(data) + step.finalize()

    def opened(self, n, data):
        step = self.mode(n).decryptor()
        return step.update(data) + step.finalize()


# ---- the program

class Drawer:
    def __init__(self, disk):
        self.disk, self.provider, self.readonly = disk, None, False


class Run:
    """One run over drawers by name."""

    def __init__(self, drawers, files, random):
        self.drawers, self.files, self.random, self.taken = drawers, files, random, 0
        self.out, self.status = [], 0

    def line(self, words):
        try:
            self.out += getattr(self, words[0])(*words[1:])
        except DiskFailed:
            self.refuse("26 DeviceFault")
        except Refused as why:
            self.refuse(str(why))

    def refuse(self, why):
        self.out.append(f"error {why}")
        self.status = 1

    def end(self):
        for drawer in self.drawers.values():
            if drawer.provider:
                try:
                    drawer.disk.flush()
                except DiskFailed:
                    self.refuse("26 DeviceFault")

    def drawer(self, name):
        if name not in self.drawers:
            raise Refused("2 UnknownProvider")
        return self.drawers[name]

    def attached(self, name):
        drawer = self.drawer(name)
        if not drawer.provider:
            raise Refused("3 NotAttached")
        return drawer, drawer.provider

    def keyfile(self, name):
        return self.files[name] if name else b""

    def init(self, *words):
        options, name = dict(zip(words[:-1:2], words[1:-1:2])), words[-1]
        assert set(options) <= {"-e", "-s", "-i", "-J", "-K"} and self.files[options["-J"]] == PASSPHRASE + b"\n", words
        drawer, random = self.drawer(name), self.random[:384]
        assert not drawer.provider and len(random) == 384, words
        self.random, self.taken = self.random[384:], self.taken + 384
        last = metadata(random, 512 * len(drawer.disk), options.get("-e", "AES-XTS"), int(options["-s"]),
                        int(options["-i"]), self.keyfile(options.get("-K")))
        drawer.disk.flush()
        drawer.disk.write(len(drawer.disk) - 1, last)
        drawer.disk.flush()
        return ["ok"]

    def attach(self, *words):
        drawer, options = self.drawer(words[-1]), list(words[:-1])
        if drawer.provider:
            raise Refused("4 StillAttached")
        readonly = options[0] == "-r"
        options = options[readonly:]
        options = dict(zip(options[::2], options[1::2]))
        assert set(options) <= {"-j", "-k"} and self.files[options["-j"]] == PASSPHRASE + b"\n", words
        last = drawer.disk.read(len(drawer.disk) - 1)
        drawer.provider, drawer.readonly = Provider(last, len(drawer.disk), self.keyfile(options.get("-k"))), readonly
        return ["ok"]

    def detach(self, name):
        drawer, _ = self.attached(name)
        drawer.provider = None
        drawer.disk.flush()
        return ["ok"]

    def eject(self, name):
        self.drawer(name)
        del self.drawers[name]
        return ["ok"]

    def list(self):
        shown = [f"{name} attached {d.provider.size} {d.provider.count}" if d.provider else f"{name} idle"
                 for name, d in self.drawers.items()]
        return shown + ["ok"]

    def flush(self, name):
        self.attached(name)[0].disk.flush()
        return ["ok"]

    def write(self, name, sector, digits):
        drawer, provider = self.attached(name)
        first, data, size = int(sector), bytes.fromhex(digits), provider.size
        if drawer.readonly:
            raise Refused("24 ReadOnly")
        if not data or len(data) % size:
            raise Refused(f"36 BadLength {len(data)} {size}")
        assert first + len(data) // size <= provider.count, "beyond"
        for n in range(len(data) // size):
            sealed = provider.sealed(first + n, data[n * size:(n + 1) * size])
            for unit in range(size // 512):
                drawer.disk.write((first + n) * size // 512 + unit, sealed[unit * 512:(unit + 1) * 512])
        return ["ok"]

    def read(self, name, sector, count):
        drawer, provider = self.attached(name)
        first, count, units = int(sector), int(count), provider.size // 512
        if first + count > provider.count:
            raise Refused(f"23 OutOfRange {first} {count} {provider.count}")
        found = b""
        for n in range(first, first + count):
            found += provider.opened(n, b"".join(drawer.disk.read(n * units + unit) for unit in range(units)))
        return [f"ok {found.hex()}"]


# ---- cases

def short(events):
    """The events in order, writes of ascending neighbours joined."""
    found = []
    for event in events:
        if event is not None and found and found[-1] and found[-1][1] + 1 == event[0]:
            found[-1][1] = event[0]
        else:
            found.append(event if event is None else [event[0], event[0]])
    return " ".join("F" if run is None else f"W{run[0]}" + (f"-{run[1]}" if run[0] < run[1] else "") for run in found)


def told(name, events):
    if not events:
        return f"events {name} 0"
    text = b"".join(b"F" if event is None else b"W" + le64(event[0]) + event[1] for event in events)
    return f"events {name} {len(events)} {hashlib.sha256(text).hexdigest()} {short(events)}"


def printed(line):
    if len(line) <= 200:
        return f"out {line}"
    return f"out-long {len(line)} {hashlib.sha256(line.encode()).hexdigest()} {line[:40]}"


class Case:
    """The world of a case between its lines."""

    def __init__(self):
        self.disks, self.layers, self.shelf, self.files, self.random = {}, {}, None, {}, b""
        self.runs, self.picks = 0, []
        self.forget()

    def forget(self):
        self.words, self.input, self.fails = [], [], {}

    def line(self, head, rest):
        """The lines of the transcript."""
        words = rest.split(" ")
        if head == "disk":
            self.disks[words[0]] = Disk([bytes(512)] * int(words[1]))
        elif head in ("behind", "join", "provider"):
            self.layers[words[0]] = (head, *words[1:])
        elif head == "shelf":
            self.shelf = words
        elif head == "file":
            self.files[words[0]] = bytes.fromhex(words[1])
        elif head == "file-count":
            self.files[words[0]] = counted(int(words[1]), int(words[2]))
        elif head == "entropy":
            self.random = counted(int(words[0]), int(words[1]))
        elif head == "fail":
            self.fails.setdefault(words[0], []).append((words[1], int(words[2]), words[3]))
        elif head == "words":
            self.words += words
        elif head == "in":
            self.input.append(words)
        elif head == "in-times":
            self.input.append(words[2:] + [words[1] * int(words[0])])
        elif head == "pick":
            self.picks.append((int(words[0]), int(words[1])))
        elif head == "survivor":
            return [f"survivor {rest} {self.survivor(words[0], self.disks[words[1]], int(words[2]))}"]
        elif head == "run":
            return self.run()
        else:
            sys.exit(f"no such line here: {head}")
        return []

    def survivor(self, new, disk, moment):
        picks, self.picks = self.picks, []
        image = disk.image(disk.events[:moment])
        for index, (n, place) in enumerate(picks):
            values = disk.values(n, disk.events[:moment])
            if place >= len(values):
                return f"BadPick {index}"
            image[n] = values[place]
        self.disks[new] = Disk(image)
        return "ok"

    def below(self, name):
        """The disks of a name on the shelf."""
        kind, *rest = self.layers.get(name, ("disk", name))
        return rest[:2 if kind == "join" else 1]

    def drawer(self, name):
        kind, *rest = self.layers.get(name, ("disk",))
        below = [self.disks[one] for one in self.below(name)]
        if kind == "behind":
            return Behind(below[0], int(rest[1]))
        if kind == "join":
            return Join(*below)
        if kind == "provider":
            assert rest[1].encode() == PASSPHRASE
            return Upon(below[0], Provider(below[0].first[-1], len(below[0]), b""))
        return below[0]

    def run(self):
        self.runs += 1
        shelf = self.shelf or list(self.disks)
        for name in itertools.chain(*map(self.below, shelf)):
            self.disks[name] = Disk(self.disks[name].image(self.disks[name].events), self.fails.get(name, ()))
        run = Run({name: Drawer(self.drawer(name)) for name in shelf}, self.files, self.random)
        for line in self.input if self.words[0] == "script" else [self.words]:
            run.line(line)
        run.end()
        lines = [f"run {self.runs}", *map(printed, run.out), f"status {run.status}"] + ["unread 0"] * bool(self.input)
        for name in shelf:
            if name not in run.drawers:
                lines.append(f"gone {name}")
            lines += [told(one, self.disks[one].events) for one in self.below(name)]
        self.shelf = [name for name in shelf if name in run.drawers]
        self.layers = {name: layer for name, layer in self.layers.items() if name not in shelf or name in run.drawers}
        self.random = run.random
        self.forget()
        return lines + [f"taken {run.taken}"] * bool(run.taken)


def transcript(cases):
    case, lines = None, []
    for line in cases:
        if not line or line.startswith("#"):
            continue
        head, _, rest = line.partition(" ")
        if head == "case":
            case = Case()
            lines.append(line)
        else:
            lines += case.line(head, rest)
    return lines


def main():
    options = argparse.ArgumentParser(description=__doc__, formatter_class=argparse.RawDescriptionHelpFormatter)
    options.add_argument("--check", action="store_true", help="compare with the transcript that is there")
    cases = lines_of("layers")
    made = transcript(cases)
    if options.parse_args().check:
        sys.exit(differing("layers", cases, made))
    print("".join(f"{line}\n" for line in made), end="")


if __name__ == "__main__":
    main()

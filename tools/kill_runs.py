#!/usr/bin/env python3
"""Kills the program at random moments of sessions with `write`, `fill` and `flush` on real files, and looks at what is left.

    tools/kill_runs.py [-n RUNS] [-s SEED] [-d FOLDER] [PROGRAM]      without a word: the program that ./geli runs

Each run is a `geli script` that attaches a provider and writes runs of sectors, some of them by `fill`, with a flush now and
then, until SIGKILL ends it. The bytes of `fill` are made here by a PCG64 of its own. Then a reader of the format of its own, over python3's hmac, hashlib and `cryptography`, opens every sector and
finds for each device sector which write it is of. Of each three sessions one is on a file, one on a file by `behind:`, and one on two files by
`join:`, whose bytes are those of the first and then those of the second. What must hold:

- a device sector that an answered flush covers reads as it was written before that flush, or as a later write of it;
- each other one reads as before the run, or as a write of it. With AES-CBC and no authentication the first 16 bytes of a
  device sector are looked at only where the one before it is of the same write;
- all writes that were answered are there, by `behind:` all but the last 256 device writes at most, and what is there is that of the first so
  many device writes of the session, in order;
- the program's own `read` gives the same bytes, or the same refusal, for each sector;
- an `init` that is killed leaves the metadata from before, or new ones that open;
- so does a `setkey`, and the other slot as it was; a `delkey` leaves the metadata from before, or those without the key, and
  the other slot as it was; a `resize` the metadata at their old place or at the new one; a `kill` the metadata or none.

SIGKILL doesn't drop what the system holds in memory for the file. So this shows the order and completeness of what the
program wrote, and not what a power failure does: that needs a disk that loses its cache.
"""
import argparse
import hashlib
import hmac
import os
import random
import shutil
import struct
import subprocess
import sys
import tempfile
import time

from cryptography.hazmat.primitives.ciphers import Cipher, algorithms, modes

KEY = bytes(range(64))
OTHER = bytes(range(64, 128))
CONFIGURATIONS = [  # cipher, bits, authentication, sector size
    ("AES-XTS", 128, "", 512), ("AES-XTS", 256, "", 4096), ("AES-XTS", 128, "", 16384),
    ("AES-CBC", 128, "", 1024), ("AES-CBC", 192, "", 4096), ("AES-CBC", 256, "", 8192),
    ("AES-XTS", 256, "HMAC/SHA256", 4096), ("AES-XTS", 128, "HMAC/SHA256", 512), ("AES-CBC", 256, "HMAC/SHA256", 2048),
    ("AES-XTS", 256, "HMAC/SHA384", 4096), ("AES-CBC", 128, "HMAC/SHA512", 4096), ("AES-XTS", 128, "HMAC/SHA512", 8192),
]
TAGS = {0: ("", 0), 18: ("sha256", 32), 19: ("sha384", 48), 20: ("sha512", 64)}
LAYERS = ["", "behind", "join"]
ROOM = 256  # how many device writes may wait by `behind:`
LENGTH = 200 * 1024 + 512
FRONT = 97 * 512  # what of it the first of two files has
LINES = 60


def sha512(key, message):
    return hmac.digest(key, message, "sha512")


def le64(number):
    return struct.pack("<Q", number)


def rotated(number, count, bits):
    """So many bits, turned to the right."""
    return (number >> count | number << (-count % bits)) & 2**bits - 1


def workload(seed, size):
    """The bytes of `fill`: PCG64 (O'Neill's XSL-RR over a state of 128 bits, stepped before each word), whose state and increment
    come from the seed by eight words of PCG32 (XSH-RR), as `seed_from_u64` of rand_core has it."""
    parts = b""
    for _ in range(8):
        seed = (seed * 6364136223846793005 + 11634580027462260723) % 2**64
        parts += struct.pack("<I", rotated((seed >> 18 ^ seed) >> 27 & 0xFFFFFFFF, seed >> 59, 32))
    factor = 0x2360ED051FC65DA44385DF649FCCF645
    increment = int.from_bytes(parts[16:], "little") | 1
    state = ((int.from_bytes(parts[:16], "little") + increment) * factor + increment) % 2**128
    words = []
    for _ in range(size // 8):
        state = (state * factor + increment) % 2**128
        words.append(rotated((state >> 64 ^ state) % 2**64, state >> 122, 64))
    return struct.pack(f"<{len(words)}Q", *words)


assert workload(7, 32).hex() == "0fe813d1643921004d221855746b383bd4012a3ffbaacee6f1d3a7105a6cc3d5"


def is_metadata(sector):
    return sector[:16] == b"GEOM::ELI" + bytes(7) and hashlib.md5(sector[:495]).digest() == sector[495:511]


def fields(sector):
    """Version, flags, cipher, bits, authentication, length, size of a sector, set slots and iterations."""
    return struct.unpack("<IIHHHQIBi", sector[16:47])


def master_in(sector, slot, key):
    """The master key that a key file opens a slot to, or None."""
    user, at = sha512(b"", key), 111 + 192 * slot
    opener = Cipher(algorithms.AES(sha512(user, b"\1")[: fields(sector)[3] // 8]), modes.CBC(bytes(16))).decryptor()
    text = opener.update(sector[at : at + 192]) + opener.finalize()
    return text[:128] if sha512(sha512(user, b"\0"), text[:128]) == text[128:] else None


class Reader:
    """A provider as its image and its key file say, without the program."""

    def __init__(self, image):
        meta = image[-512:]
        assert is_metadata(meta), "no metadata"
        version, flags, cipher, bits, auth, length, self.size, keys, iterations = fields(meta)
        assert (version, length, keys, iterations) == (7, len(image), 1, -1), "fields"
        self.is_cbc, self.bytes = cipher == 11, bits // 8
        self.hash, self.tag = TAGS[auth if flags & 0x10 else 0]
        master = master_in(meta, 0, KEY)
        assert master, "slot 0"
        self.iv_key, data_key = master[:64], master[64:]
        self.base = sha512(data_key, b"\x10") if self.hash else data_key
        self.tag_key = sha512(data_key, b"\x11")
        # The bytes of data in a device sector, and the device sectors of a logical one.
        self.room = 512 - self.tag
        self.units = (self.size - 1) // self.room + 1
        self.sectors = (len(image) - 512) // (512 * self.units)

    def run(self, offset, text):
        """The plain bytes of a run of ciphertext at a byte offset."""
        step = 512 if self.hash else self.size
        key = sha512(self.base, b"ekey" + le64((offset >> 20) // step))
        if self.is_cbc:
            mode = modes.CBC(hashlib.sha256(self.iv_key + le64(offset)).digest()[:16])
            opener = Cipher(algorithms.AES(key[: self.bytes]), mode).decryptor()
        else:
            opener = Cipher(algorithms.AES(key[: 2 * self.bytes]), modes.XTS(le64(offset) + bytes(8))).decryptor()
        return opener.update(text) + opener.finalize()

    def parts(self, image, sector):
        """The plain bytes of each device sector of a logical one, or None where its tag differs."""
        at = sector * self.units * 512
        if not self.hash:
            plain = self.run(at, image[at : at + self.size])
            return [plain[i : i + 512] for i in range(0, self.size, 512)]
        found = []
        for unit in range(self.units):
            offset = at + 512 * unit
            some = min(self.room, self.size - self.room * unit)
            text = image[offset + self.tag : offset + self.tag + some]
            key = hashlib.sha256(self.tag_key + le64(offset)).digest()
            same = hmac.digest(key, text, self.hash) == image[offset : offset + self.tag]
            found.append(self.run(offset, text) if same else None)
        return found

    def read(self, image, sector):
        """What `read` of a sector is to answer."""
        parts = self.parts(image, sector)
        for unit, part in enumerate(parts):
            if part is None:
                return f"error 25 Integrity {(sector * self.units + unit) * 512}"
        return "ok " + b"".join(parts).hex()


class Trial:
    """An image of one configuration, and the runs on it."""

    def __init__(self, program, folder, layer, number, chance):
        self.program, self.layer, self.chance = program, layer, chance
        self.cipher, self.bits, self.auth, self.size = CONFIGURATIONS[number]
        # The files, the first of them the image where there is no layer, and the name that the program is given.
        self.files = [os.path.join(folder, f"{number}{layer}.{part}") for part in ("img", "back")[: 1 + (layer == "join")]]
        self.name = ":".join([layer] * bool(layer) + self.files)
        self.key = os.path.join(folder, "key")
        self.lines, self.replies = os.path.join(folder, "lines"), os.path.join(folder, "replies")
        self.other = os.path.join(folder, "other")
        for name, key in ((self.key, KEY), (self.other, OTHER)):
            with open(name, "wb") as file:
                file.write(key)
        for name, length in zip(self.files, [FRONT, LENGTH - FRONT] if layer == "join" else [LENGTH]):
            with open(name, "wb") as file:
                file.truncate(length)
        self.init = ["init", "-P", "-K", self.key, "-e", self.cipher, "-l", str(self.bits), "-s", str(self.size)]
        self.init += (["-a", self.auth] if self.auth else []) + [self.name]
        begun = time.monotonic()
        subprocess.run([self.program, *self.init], check=True, stdout=subprocess.DEVNULL)
        self.init_span = time.monotonic() - begun
        self.span = 0.0  # how long a whole session takes
        self.spans = {}  # from what times the moments of the other commands are drawn

    def bytes(self):
        found = b""
        for name in self.files:
            with open(name, "rb") as file:
                found += file.read()
        return found

    def session(self, reader):
        """Lines of random writes, fills and flushes: for each line its words, and the writes (first sector, bytes) or None for a flush."""
        said = []
        most = min(reader.sectors, 65536 // self.size, 24)
        for _ in range(LINES):
            kind = self.chance.random()
            if kind < 0.08:
                said.append((f"flush {self.name}", None))
            elif kind < 0.18:
                # Up to the whole provider, so that one takes more pieces than one of 131,072 bytes.
                count = self.chance.randint(1, reader.sectors if self.chance.random() < 0.3 else most)
                at, seed = self.chance.randint(0, reader.sectors - count), self.chance.getrandbits(64)
                said.append((f"fill {self.name} {seed} {at} {count}", (at, workload(seed, count * self.size))))
            else:
                count = self.chance.randint(1, most)
                # Half of them go to a few sectors, so that these are written over and over.
                last = reader.sectors - count
                at = self.chance.randint(0, last if self.chance.random() < 0.5 else min(last, 3))
                plain = self.chance.randbytes(count * self.size)
                said.append((f"write {self.name} {at} {plain.hex()}", (at, plain)))
        return said

    def run(self):
        before = self.bytes()
        reader = Reader(before)
        old = [reader.parts(before, sector) for sector in range(reader.sectors)]
        words, said = zip(*self.session(reader))
        with open(self.lines, "w", encoding="ascii") as file:
            file.write(f"attach -p -k {self.key} {self.name}\n")
            file.writelines(f"{line}\n" for line in words)
        killed = self.play()
        with open(self.replies, encoding="ascii") as file:
            answers = file.read()
        assert answers.startswith("ok\n" * answers.count("\n")), answers
        answered = max(answers.count("\n") - 1, 0)  # that of `attach` isn't one of the lines
        after = self.bytes()
        assert len(after) == len(before) and after[-512:] == before[-512:], "the metadata changed"
        seen = self.judge(reader, old, said, answered, after, killed)
        self.compare(reader, after)
        return killed, answered, seen

    def play(self):
        """Runs the lines and kills the program at a random moment; whether it hadn't ended by itself."""
        begun = time.monotonic()
        with open(self.lines, "rb") as lines, open(self.replies, "wb") as replies:
            run = subprocess.Popen([self.program, "script", self.name], stdin=lines, stdout=replies)
            if self.span:
                time.sleep(self.chance.uniform(0, self.span * 1.05))
                run.kill()
            status = run.wait()
        if status == 0:
            self.span = time.monotonic() - begun
        else:
            assert status == -9, f"status {status}"
        return status != 0

    def judge(self, reader, old, said, answered, after, killed):
        """Which write each device sector is of; how many device writes there are behind those of the answered lines, or are lost of these."""
        steps = []  # (line, place of the device sector, its plain bytes)
        for number, line in enumerate(said):
            if line is None:
                continue
            for i in range(len(line[1]) // self.size):
                plain = line[1][i * self.size : (i + 1) * self.size]
                for unit in range(reader.units):
                    steps.append((number, (line[0] + i, unit), plain[unit * reader.room : (unit + 1) * reader.room]))
        flushed = max((n for n in range(answered) if said[n] is None), default=-1)
        new = [reader.parts(after, sector) for sector in range(reader.sectors)]
        written = {}  # of each place: the steps that wrote it
        for step, (number, place, plain) in enumerate(steps):
            written.setdefault(place, []).append(step)
        chained = reader.is_cbc and not reader.hash
        found, mixed = {}, 0
        for sector in range(reader.sectors):
            lines_here = set()
            for unit in range(reader.units):
                place, now = (sector, unit), new[sector][unit]
                tail = 16 if chained and unit else 0
                candidates = [-1] + written.get(place, [])
                value = lambda step: old[sector][unit] if step < 0 else steps[step][2]
                fits = [s for s in candidates if value(s) == now or (value(s) and now and tail and value(s)[tail:] == now[tail:])]
                assert fits, f"sector {sector}, part {unit} is neither old nor new"
                step = fits[-1]
                found[place] = step
                line = steps[step][0] if step >= 0 else -1
                lines_here.add(line)
                if tail and line == (steps[found[(sector, unit - 1)]][0] if found[(sector, unit - 1)] >= 0 else -1):
                    assert value(step)[:16] == now[:16], f"sector {sector}, part {unit}: the first 16 bytes"
                settled = [s for s in written.get(place, []) if steps[s][0] <= flushed]
                assert step >= (settled[-1] if settled else -1), f"sector {sector}, part {unit} is older than an answered flush"
            mixed += len(lines_here) > 1
        # The first so many device writes, in order, and at least those of the answered lines.
        done = max(found.values(), default=-1) + 1
        told = sum(1 for number, _, _ in steps if number < answered)
        # What waits is lost where the program is killed; at its end it flushes.
        least = max(0, told - ROOM) if self.layer == "behind" and killed else told
        last = {}
        for step in range(done):
            last[steps[step][1]] = step
        assert all(found[place] == last.get(place, -1) for place in found), "these aren't the first device writes in order"
        assert done >= least, f"{least} device writes must be there, {done} are"
        return done - told, mixed, flushed >= 0

    def compare(self, reader, after):
        """The program's own `read` of each sector."""
        asked = [f"attach -r -p -k {self.key} {self.name}"] + [f"read {self.name} {n} 1" for n in range(reader.sectors)]
        run = subprocess.run([self.program, "script", self.name], input="\n".join(asked).encode(), stdout=subprocess.PIPE)
        wanted = ["ok"] + [reader.read(after, n) for n in range(reader.sectors)]
        assert run.stdout.decode().splitlines() == wanted, "the program reads something else"
        assert self.bytes() == after, "reading changed the image"

    def killed_init(self):
        """Kills an `init` over the provider; whether it hadn't ended by itself, and whether the new metadata are there."""
        before = self.bytes()
        run = subprocess.Popen([self.program, *self.init], stdout=subprocess.DEVNULL)
        time.sleep(self.chance.uniform(0, self.init_span))
        run.kill()
        status = run.wait()
        assert status in (0, -9), f"status {status} of init"
        after = self.bytes()
        assert after[:-512] == before[:-512], "init changed data"
        Reader(after)
        assert status != 0 or after != before, "init answered and changed nothing"
        # The next moment is drawn from a shorter time where it ended by itself, else from a longer one.
        self.init_span *= 0.7 if status == 0 else 1.2
        return status != 0, after != before


    def killed(self, words):
        """Kills a command; whether it had ended by itself."""
        run = subprocess.Popen([self.program, *words], stdout=subprocess.DEVNULL)
        span = self.spans.setdefault(words[0], self.init_span)
        time.sleep(self.chance.uniform(0, span))
        run.kill()
        status = run.wait()
        assert status in (0, -9), f"status {status} of {words[0]}"
        self.spans[words[0]] = span * (0.7 if status == 0 else 1.2)
        return status == 0

    def killed_change(self, verb):
        """Kills a command that changes the metadata of a copy of a file; whether it hadn't ended by itself, and whether they are changed."""
        image = self.name + ".copy"
        shutil.copyfile(self.name, image)
        put = ["setkey", "-n", "1", "-p", "-k", self.key, "-P", "-K", self.other, image]
        take, grow = ["delkey", "-n", "1", image], ["resize", "-s", str(LENGTH), image]
        if verb == "delkey":
            subprocess.run([self.program, *put], check=True, stdout=subprocess.DEVNULL)
        if verb == "resize":
            os.truncate(image, LENGTH + 65536)
        with open(image, "rb") as file:
            before = file.read()
        ended = self.killed({"setkey": put, "delkey": take, "resize": grow, "kill": ["kill", image]}[verb])
        with open(image, "rb") as file:
            after = file.read()
        old, new, place = before[LENGTH - 512 : LENGTH], after[-512:], after[LENGTH - 512 : LENGTH]
        assert len(after) == len(before) and after[: LENGTH - 512] == before[: LENGTH - 512], f"{verb} changed data"
        if verb == "resize":
            assert not any(after[LENGTH:-512]), "resize changed other sectors"
            length = LENGTH + 65536
            moved = is_metadata(new) and new[:30] + new[38:495] == old[:30] + old[38:495] and fields(new)[5] == length
            assert moved or place == old, "the metadata are at neither place"
            assert not ended or (moved and not any(place)), "resize ended and left something"
            return not ended, moved
        if verb == "kill":
            assert new == old or not is_metadata(new), "kill left other metadata"
            assert not ended or not any(new), "kill ended and left something"
            return not ended, new != old
        assert is_metadata(new) and new[:42] + new[43:303] == old[:42] + old[43:303], f"{verb} changed more than its slot"
        opened = master_in(new, 1, OTHER) if fields(new)[7] & 2 else None
        assert fields(new)[7] in (1, 3) and master_in(new, 0, KEY) and opened in (None, master_in(new, 0, KEY)), "the slots"
        assert (fields(new)[7] == 3) == (opened is not None), f"{verb} left a slot that doesn't open"
        assert not ended or (fields(new)[7] == 3) == (verb == "setkey"), f"{verb} ended and changed nothing"
        assert not ended or verb == "setkey" or not any(new[303:495]), "delkey ended and left something"
        return not ended, new != old


def main():
    words = argparse.ArgumentParser(usage="%(prog)s [-n RUNS] [-s SEED] [-d FOLDER] [PROGRAM]")
    words.add_argument("-n", type=int, default=600)
    words.add_argument("-s", type=int, default=int(time.time()))
    words.add_argument("-d", default=None)
    words.add_argument("program", nargs="?", default=os.path.join(os.path.dirname(os.path.realpath(__file__)), "..", "geli"))
    given = words.parse_args()
    chance = random.Random(given.s)
    folder = tempfile.mkdtemp(dir=given.d)
    program = os.path.realpath(given.program)
    runs = killed = within = lost = mixed = covered = answered = 0
    begun = time.monotonic()
    try:
        trials = [Trial(program, folder, layer, number, chance) for number in range(len(CONFIGURATIONS)) for layer in LAYERS]
        for trial in trials:
            trial.run()  # to its end: how long a session takes
        for number in range(given.n):
            trial = trials[number % len(trials)]
            try:
                was_killed, lines, (more, parts, flushed) = trial.run()
            except AssertionError as error:
                kept = tempfile.mkdtemp(prefix="kill_runs.")
                shutil.copytree(folder, kept, dirs_exist_ok=True)
                sys.exit(f"FAILS: run {number} of seed {given.s}, {trial.layer} {trial.cipher} {trial.bits} {trial.auth} {trial.size}: {error} (kept in {kept})")
            runs += 1
            killed += was_killed
            answered += lines
            within += more > 0
            lost += more < 0
            mixed += parts
            covered += flushed
            if runs % 100 == 0:
                print(f"{runs} runs, {time.monotonic() - begun:.0f} s", file=sys.stderr, flush=True)
        inits = new = 0
        for number in range(given.n):
            was_killed, is_new = trials[number % len(trials)].killed_init()
            inits += was_killed
            new += was_killed and is_new
        changes = changed = 0
        plain = [trial for trial in trials if not trial.layer]
        for number in range(given.n):
            verb = ("setkey", "delkey", "resize", "kill")[number // len(plain) % 4]
            was_killed, is_new = plain[number % len(plain)].killed_change(verb)
            changes += was_killed
            changed += was_killed and is_new
    finally:
        shutil.rmtree(folder)
    print(f"{runs} runs, {killed} killed before they ended, {covered} of them behind an answered flush; {answered} answered lines.")
    print(f"{within} were killed behind device writes of a line that wasn't answered; {mixed} logical sectors had parts of different lines.")
    print(f"{lost} by `behind:` lost device writes that were answered and waited.")
    print(f"{inits} killed inits left sound metadata, {new} the new ones.")
    print(f"{changes} killed commands that change metadata left what they may, {changed} something new.")
    print("Every sector read as said, by the reader and by the program.")


if __name__ == "__main__":
    main()

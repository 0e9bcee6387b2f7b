#!/usr/bin/env python3
"""Looks for secrets in the memory of the programs, at the moments of a provider's life.

    tools/try_memory.py [-n RUNS] [-o NAME]... [GELI [GELI_NBD]]     without words: those that ./geli and ./geli-nbd run
    tools/try_memory.py --look PID [-s] [-k KEYFILE]... [-j PASSFILE]... IMAGE     another process

Of each kind of provider it makes some with two key files and a passphrase of two files, all random. It asks `geli
script` line by line, and geli-nbd as a client. Once the process waits in read(0) its memory is read by /proc/PID/mem:
all but the files' own that it can't write. Each 16 bytes of each secret are looked for, as tools/memory_secrets.py says
in which forms: so also what the allocator has written over the beginning of. The ends of the programs are looked at
just before they exit.

The table has what was found, and in how many places of the stack, of the heap and of the rest: the most of RUNS. What
an attached provider needs is wanted on the heap while it is attached. After requests what they make of it and data are
wanted too, also on the stack. Nothing else is, nor is anything at any other moment. The scripts are tried too where
nbdkit and what a mount needs are there: a passphrase is typed to them, and nothing of it may be in a process of theirs
but the programs.

-o: only these: script, nbd, ends, scripts. --look, for a process of one's own, tells all that it finds; with -s it
serves the provider, and what serving needs is wanted. The status is 1 where something is found that isn't wanted.
Give it proved programs: in what is built without a proof nothing keeps `scrub` of the crate wiping from being inlined,
and what calls leave then lies below the room that it overwrites.
Outside the gate. It needs the package `cryptography` of Python, and the right to read the memory of its children.
"""
import argparse
import contextlib
import ctypes
import os
import pty
import select
import shutil
import signal
import struct
import subprocess
import sys
import tempfile
import time

from memory_secrets import DATA, GIVEN, HELD, USED, Derived, Metadata, Secret, ring_secrets, windows

TOP = os.path.join(os.path.dirname(os.path.realpath(__file__)), "..")
PAGE = 4096
SHADOW = 1 << 30  # bytes of a part in which only what watches a trial's memory keeps its notes
KINDS = {
    "XTS": ["-e", "AES-XTS", "-l", "256"], "XTS, HMAC": ["-e", "AES-XTS", "-l", "256", "-a", "HMAC/SHA256"],
    "CBC": ["-e", "AES-CBC", "-l", "256"], "CBC, HMAC": ["-e", "AES-CBC", "-l", "256", "-a", "HMAC/SHA512"],
}
ITERATIONS = 3
RANGES = 18  # two more than a ring keeps
RANGE = 2**20  # device sectors of a range
UNITS = 2  # device sectors of a sector with a tag
KEY, SET, NEW = "-k k1 -k k2 -j p1 -j p2", "-K k1 -K k2 -J p1 -J p2", "-K n1 -J q"
NOTHING, SERVING, REQUESTS = (), (HELD,), (HELD, USED, DATA)


# What is in a process.


class Process:
    """A process whose memory is read."""

    def __init__(self, number):
        self.number = number

    def memory(self):
        """The parts of its memory that can have been written: where each is, and its bytes."""
        with open(f"/proc/{self.number}/maps", encoding="utf-8", errors="replace") as rows, \
                open(f"/proc/{self.number}/mem", "rb", buffering=0) as memory:
            for row in rows:
                span, rights, _, _, inode, *name = row.split(maxsplit=5)
                name = "".join(name).strip()
                first, end = (int(digits, 16) for digits in span.split("-"))
                is_own = rights[1] == "w" or inode == "0"
                if rights[0] == "r" and is_own and end - first < SHADOW and not name.startswith("[v"):
                    yield {"[stack]": "stack", "[heap]": "heap"}.get(name, "rest"), self.read(memory, first, end)

    @staticmethod
    def read(memory, first, end):
        text = b""
        while first + len(text) < end:
            piece = os.pread(memory.fileno(), end - first - len(text), first + len(text))
            if not piece:
                break
            text += piece
        return text

    def until_it_waits(self):
        """Waits until it waits in read(0): then all is done that comes behind its reply."""
        for _ in range(4000):
            with open(f"/proc/{self.number}/syscall", encoding="ascii") as file:
                if file.read().startswith("0 0x0 "):
                    return
            time.sleep(0.005)
        sys.exit(f"process {self.number} doesn't wait for its input")

    def find(self, looked_for):
        """In how many places of each part each secret stands: by secret and part."""
        found = {}
        for part, text in self.memory():
            for stretch in stretches(text):
                for width, of_width in looked_for.items():
                    for secret in places(stretch, width, of_width):
                        found[secret, part] = found.get((secret, part), 0) + 1
        return found


def stretches(text):
    """What isn't zeros of a text, in whole pages."""
    start = None
    for at in range(0, len(text) + PAGE, PAGE):
        if text[at:at + PAGE].strip(b"\0"):
            start = at if start is None else start
        elif start is not None:
            yield text[start:at]
            start = None


def places(text, width, of_width):
    """The secret of each place in which some of its bytes stand."""
    last = None
    for at in range(len(text) - width + 1):
        secret = of_width.get(text[at:at + width])
        if secret is not last and secret is not None:
            yield secret
        last = secret


class Table:
    """What was found, by the moment and the secret, of each kind."""

    def __init__(self):
        self.rows, self.moments, self.unwanted, self.looks = {}, {}, 0, 0

    def look(self, kind, moment, process, secrets, wanted=NOTHING):
        """Looks at a process. Of the groups that are wanted nothing is told but in the table."""
        self.looks += 1
        self.moments.setdefault(moment, len(self.moments))
        for (secret, part), count in process.find(windows(secrets)).items():
            is_wanted = secret.group in wanted and (part != "stack" or DATA in wanted)
            self.unwanted += not is_wanted
            cell = self.rows.setdefault((moment, is_wanted, secret.name), {}).setdefault(kind, {})
            cell[part] = max(cell.get(part, 0), count)

    def show(self, kinds):
        print(f"| moment | secret | wanted | {' | '.join(kinds)} |\n|---|---|---|{'---|' * len(kinds)}")
        for key, cells in sorted(self.rows.items(), key=lambda row: (self.moments[row[0][0]], row[0][1:])):
            moment, is_wanted, name = key
            texts = [", ".join(f"{part} {cells[kind][part]}" for part in sorted(cells.get(kind, {}))) for kind in kinds]
            print(f"| {moment} | {name} | {'yes' if is_wanted else 'NO'} | {' | '.join(texts)} |")
        clean = [moment for moment in self.moments if not any(row[0] == moment and not row[1] for row in self.rows)]
        print(f"{self.looks} looks; nothing but what is wanted: {', '.join(clean) or 'at no moment'}")
        print(f"{self.unwanted} findings where nothing is wanted")


# The programs.


class Script(Process):
    """A `geli script` that is asked line by line."""

    def __init__(self, program, *images):
        self.run = subprocess.Popen([program, "script", *images], stdin=subprocess.PIPE, stdout=subprocess.PIPE)
        super().__init__(self.run.pid)

    def ask(self, line, begins="ok"):
        """Says a line, takes its reply, and waits until the program waits for the next."""
        self.run.stdin.write(line.encode() + b"\n")
        self.run.stdin.flush()
        reply = b""
        while not reply.startswith((b"ok", b"error ")):
            reply = self.run.stdout.readline()
            assert reply, f"geli has ended at {line[:60]!r}"
        assert reply.startswith(begins.encode()), f"{line[:60]!r} answered {reply[:60]!r}"
        self.until_it_waits()

    def end(self):
        self.run.stdin.close()
        self.run.stdout.read()
        self.run.wait()


class Client(Process):
    """A geli-nbd, and its client here (doc/proto.md of the NBD project)."""

    def __init__(self, program, words):
        self.run = subprocess.Popen([program, *words], stdin=subprocess.PIPE, stdout=subprocess.PIPE)
        super().__init__(self.run.pid)
        self.cookie = 0
        assert self.take(18).startswith(b"NBDMAGIC")
        self.until_it_waits()

    def take(self, count):
        text = self.run.stdout.read(count)
        assert len(text) == count, "geli-nbd has ended"
        return text

    def begin(self):
        """Asks for the data: EXPORT_NAME."""
        self.say(struct.pack(">I8sII", 3, b"IHAVEOPT", 1, 0))
        self.take(10)

    def say(self, text):
        self.run.stdin.write(text)
        self.run.stdin.flush()

    def request(self, kind, offset, length, data=b""):
        self.cookie += 1
        self.say(struct.pack(">IHHQQI", 0x25609513, 0, kind, self.cookie, offset, length) + data)
        reply = self.take(16)
        assert reply[4:8] == bytes(4), f"request {kind} at {offset} was refused"
        return self.take(length if kind == 0 else 0)

    def end(self):
        self.run.stdin.close()
        self.run.stdout.read()
        self.run.wait()


# ptrace(2), by which a program is stopped just before it exits.

TRACEME, CONT, SETOPTIONS, SEIZE, TRACEEXIT, EVENT_EXIT = 0, 7, 0x4200, 0x4206, 0x40, 6
LIBC = ctypes.CDLL(None, use_errno=True)


def ptrace(what, number=0, data=0):
    if LIBC.ptrace(what, ctypes.c_long(number), None, ctypes.c_void_p(data)):
        raise OSError(ctypes.get_errno(), "ptrace")


@contextlib.contextmanager
def command_at_end(words):
    """Runs a command until it is at its end."""
    # Its exec stops it.
    run = subprocess.Popen(words, stdin=subprocess.DEVNULL, stdout=subprocess.PIPE, stderr=subprocess.DEVNULL,
                           preexec_fn=lambda: ptrace(TRACEME))
    os.waitpid(run.pid, 0)
    ptrace(SETOPTIONS, run.pid, TRACEEXIT)
    ptrace(CONT, run.pid)
    with at_end(run) as process:
        yield process


@contextlib.contextmanager
def input_at_end(run):
    """Ends the input of a program, and lets it go on until it is at its end."""
    ptrace(SEIZE, run.pid, TRACEEXIT)
    run.stdin.close()
    with at_end(run) as process:
        yield process


@contextlib.contextmanager
def at_end(run):
    while True:
        _, status = os.waitpid(run.pid, 0)
        assert os.WIFSTOPPED(status), f"process {run.pid} ended unseen"
        if status >> 8 == signal.SIGTRAP | EVENT_EXIT << 8:
            break
        number = os.WSTOPSIG(status)
        ptrace(CONT, run.pid, 0 if number == signal.SIGTRAP else number)
    yield Process(run.pid)
    ptrace(CONT, run.pid)
    run.stdout.read()
    run.wait()


# The moments.


def letters():
    return os.urandom(20).hex().encode()


class Trial:
    """One run over one kind of provider, in the current folder."""

    def __init__(self, geli, geli_nbd, kind, table):
        self.geli, self.geli_nbd, self.kind, self.table = geli, geli_nbd, kind, table
        self.is_tagged = "-a" in KINDS[kind]
        self.files = {"k1": os.urandom(3000), "k2": os.urandom(5000), "n1": os.urandom(64)}
        for name in "p1", "p2", "q", "wrong":
            self.files[name] = letters() + b"\n" + letters() + b"\n"
        for name, text in self.files.items():
            with open(name, "wb") as file:
                file.write(text)
        self.key_files = self.files["k1"] + self.files["k2"]
        self.passphrase = self.line("p1") + self.line("p2")
        self.written = []
        for image in "a.img", "b.img":
            self.make(image)

    def line(self, name):
        return self.files[name].split(b"\n")[0]

    def given(self):
        """What the user gave."""
        for name in sorted(self.files):
            what = "key file" if name[0] in "kn" else "passphrase"
            yield Secret({"wrong": "wrong passphrase", "q": "new passphrase", "n1": "new key file"}.get(name, what),
                         GIVEN, self.files[name])
        yield Secret("passphrase", GIVEN, self.passphrase)

    def empty(self, image):
        with contextlib.suppress(FileNotFoundError):
            os.unlink(image)
        with open(image, "wb") as file:
            file.truncate(RANGES * RANGE * 512 + 4096)

    def init_words(self, image, iterations=ITERATIONS):
        return ["init", *KINDS[self.kind], "-s", "512", "-i", str(iterations), *SET.split(), image]

    def make(self, image, iterations=ITERATIONS):
        self.empty(image)
        subprocess.run([self.geli, *self.init_words(image, iterations)], check=True, stdout=subprocess.DEVNULL)

    def secrets(self, image, numbers=range(RANGES)):
        """All secrets of an image under the first key, and what was written."""
        derived = Derived(Metadata(image), self.key_files, self.passphrase)
        yield from ring_secrets(derived.meta, derived.master(), numbers)
        yield from derived.secrets()
        yield from self.given()
        for text in self.written:
            yield Secret("plain data", DATA, text, "digits")

    def look(self, moment, process, secrets, wanted=NOTHING):
        self.table.look(self.kind, moment, process, list(secrets), wanted)

    def sector(self, number):
        """The first whole sector in a range."""
        return -(-number * RANGE // UNITS) + 1 if self.is_tagged else number * RANGE

    def write_line(self, number):
        text = os.urandom(512)
        self.written.append(text)
        return f"write a.img {self.sector(number)} {text.hex()}"

    # A script.

    def attach(self):
        script = Script(self.geli, "a.img")
        for what, words, reply in (
                ("a wrong passphrase", "-k k1 -k k2 -j wrong", "error 15 "),
                ("no second key file", "-k k1 -k absent -j p1 -j p2", "error 27 "),
                ("no second passphrase", "-k k1 -k k2 -j p1 -j absent", "error 27 "),
                ("a key file too much", "-k k1 -k k2 -k n1 -j p1 -j p2", "error 15 ")):
            script.ask(f"attach {words} a.img", reply)
            self.look(f"attach refused: {what}", script, self.secrets("a.img"))
        script.ask(f"attach {KEY} a.img")
        self.look("attached", script, self.secrets("a.img"), SERVING)
        for number in range(3):
            script.ask(self.write_line(number))
            script.ask(f"read a.img {self.sector(number)} 1")
        self.look("after reads and writes", script, self.secrets("a.img"), REQUESTS)
        script.ask("suspend a.img")
        self.look("suspended", script, self.secrets("a.img"))
        script.ask("resume -j wrong a.img", "error 15 ")
        self.look("resume refused", script, self.secrets("a.img"))
        script.ask(f"resume {KEY} a.img")
        self.look("resumed", script, self.secrets("a.img"), SERVING)
        for number in range(RANGES):
            script.ask(self.write_line(number))
        script.ask("list")
        kept = list(self.secrets("a.img", numbers=range(2, RANGES)))
        self.look("after 18 ranges: the 16 that are kept", script, kept, REQUESTS)
        self.look("after 18 ranges: the two dropped", script, self.dropped())
        script.ask("detach a.img")
        self.look("detached", script, self.secrets("a.img"))
        script.end()

    def dropped(self):
        """The first two range keys."""
        return [it for it in self.secrets("a.img", numbers=range(2)) if it.name.startswith("range key ")]

    def eject(self):
        script = Script(self.geli, "a.img", "b.img")
        script.ask(f"attach {KEY} a.img")
        script.ask(f"attach {KEY} b.img")
        script.ask("eject a.img")
        self.look("another ejected: it", script, self.secrets("a.img"))
        self.look("another ejected: the one that stays", script, self.secrets("b.img"), SERVING)
        script.ask("suspend b.img")
        self.look("another ejected, suspended", script, self.secrets("b.img"))
        script.ask(f"resume {KEY} b.img")
        script.ask("eject b.img")
        self.look("ejected", script, self.secrets("b.img"))
        script.end()

    def setkey(self):
        old = list(self.secrets("b.img"))
        master = Derived(Metadata("b.img"), self.key_files, self.passphrase).master()
        script = Script(self.geli, "b.img")
        script.ask(f"setkey -k k1 -k k2 -j wrong {NEW} b.img", "error 15 ")
        self.look("setkey refused", script, old)
        script.ask(f"setkey -i {ITERATIONS} {KEY} {NEW} b.img")
        derived = Derived(Metadata("b.img"), self.files["n1"], self.line("q"))
        assert derived.master() == master
        self.look("after setkey, idle", script, [*old, *derived.secrets("new ")])
        script.ask("attach -k n1 -j q b.img")
        # The salt stays, so it is the old key again.
        script.ask(f"setkey {SET} b.img")
        self.look("after setkey, attached", script, old, SERVING)
        script.ask("kill b.img")
        self.look("after kill", script, old)
        script.end()

    def init(self):
        self.empty("b.img")
        script = Script(self.geli, "b.img")
        script.ask(f"init {' '.join(KINDS[self.kind])} -K k1 -K absent -J p1 b.img", "error 27 ")
        self.look("init refused", script, self.given())
        script.ask(" ".join(self.init_words("b.img")))
        self.look("after init", script, self.secrets("b.img"))
        script.end()

    # geli-nbd.

    def nbd(self):
        client = Client(self.geli_nbd, [*KEY.split(), "a.img"])
        self.look("geli-nbd greeted", client, self.secrets("a.img"), SERVING)
        client.begin()
        for number in range(500):
            text = os.urandom(512)
            self.written = self.written[-20:] + [text]
            offset = 512 * self.sector(0) + 512 * (number % 100)
            client.request(1, offset, 512, text)
            assert client.request(0, offset, 512) == text
        client.until_it_waits()
        self.look("geli-nbd after 1,000 requests", client, self.secrets("a.img"), REQUESTS)
        with input_at_end(client.run) as process:
            self.look("geli-nbd at its end", process, self.secrets("a.img"))

    # The ends of the programs.

    def ends(self):
        words = {"attach -C": ["attach", "-C", *KEY.split(), "a.img"],
                 "attach -C, wrong": ["attach", "-C", "-k", "k1", "-j", "wrong", "a.img"],
                 "init": self.init_words("b.img"), "setkey": ["setkey", *KEY.split(), *SET.split(), "b.img"]}
        for name, command in words.items():
            with command_at_end([self.geli, *command]) as process:
                self.look(f"geli {name}, at its end", process, self.secrets(command[-1]))
        script = Script(self.geli, "a.img")
        script.ask(f"attach {KEY} a.img")
        script.ask(self.write_line(0))
        with input_at_end(script.run) as process:
            self.look("geli script, at its end", process, self.secrets("a.img"))
        with command_at_end([self.geli_nbd, "-k", "k1", "-j", "wrong", "a.img"]) as process:
            self.look("geli-nbd refused, at its end", process, self.secrets("a.img"))

    def script(self):
        self.attach()
        self.eject()
        self.setkey()
        self.init()

    # The scripts, whose passphrase is typed.

    def scripts(self):
        for name, words in (("make-provider.sh", ["-i", str(ITERATIONS), "1M", "c.img", "c.key", "c.backup"]),
                            ("copy-in.sh", ["-f", "-k", "one.key", "p1", "one.img"]),
                            ("serve-nbd.sh", ["-k", "one.key", "one.img", "sock"]),
                            ("mount-provider.sh", ["-m", "-k", "one.key", "one.img", "mnt"])):
            for left in "c.img", "c.key", "c.backup", "one.img", "one.key":
                with contextlib.suppress(FileNotFoundError):
                    os.unlink(left)
            self.typed(name, words)

    def typed(self, name, words):
        """Types a passphrase to a script, and looks at its processes while the program waits that gets the key, and
        once it serves."""
        self.make_small()
        os.makedirs("mnt", exist_ok=True)
        mark = f"TRY_MEMORY={os.urandom(8).hex()}"
        script = Typed(os.path.join(TOP, "examples", name), words, self.line("p1"), mark, self)
        try:
            script.until(lambda: os.path.exists("reached"))
            self.look_at_all(f"{name}, the key handed on", mark, NOTHING)
            os.unlink("reached")
            with open("go", "wb"):
                pass
            script.ends()
            if name in ("serve-nbd.sh", "mount-provider.sh"):
                self.look_at_all(f"{name}, served", mark, SERVING)
                end = ["-e", "sock"] if name == "serve-nbd.sh" else ["-u", "mnt"]
                subprocess.run([script.path, *end], check=True, stderr=subprocess.DEVNULL, env=script.environment)
        finally:
            script.kill()

    def make_small(self):
        """A small image under a passphrase that is typed, and a stand-in for each program that waits for the file `go`
        before it takes a key."""
        for name in "reached", "go":
            with contextlib.suppress(FileNotFoundError):
                os.unlink(name)
        with open("one.key", "wb") as file:
            file.write(self.files["k1"])
        with open("one.img", "wb") as file:
            file.truncate(8 << 20)
        words = [*KINDS[self.kind], "-s", "4096", "-i", str(ITERATIONS), "-K", "one.key", "-J", "p1", "one.img"]
        subprocess.run([self.geli, "init", *words], check=True, stdout=subprocess.DEVNULL)
        for name, program in (("geli", self.geli), ("geli-nbd", self.geli_nbd)):
            with open(name, "w", encoding="utf-8") as file:
                file.write(f'#!/bin/sh\ncase $1 in list | dump | --version) exec "{program}" "$@" ;; esac\n'
                           f'here={os.getcwd()}\n[ -e $here/go ] || : >$here/reached\n'
                           f'until [ -e $here/go ]; do sleep 0.05; done\nexec "{program}" "$@"\n')
            os.chmod(name, 0o755)

    def look_at_all(self, moment, mark, wanted):
        """Looks at each process of a script. The program that serves has what serving needs."""
        derived = Derived(Metadata("one.img"), self.files["k1"], self.line("p1"))
        secrets = [Secret("passphrase", GIVEN, self.files["p1"]), Secret("key file", GIVEN, self.files["k1"]),
                   *ring_secrets(derived.meta, derived.master(), [0]), *derived.secrets()]
        for number, name in marked(mark):
            with contextlib.suppress(FileNotFoundError, ProcessLookupError):  # it may have ended
                is_program = os.path.basename(os.readlink(f"/proc/{number}/exe")).startswith("geli-nbd")
                self.look(f"{moment}: {name}", Process(number), secrets, REQUESTS if is_program and wanted else NOTHING)


def marked(mark):
    """The processes with this word in their environment, and what they are called."""
    for number in filter(str.isdigit, os.listdir("/proc")):
        with contextlib.suppress(OSError):
            with open(f"/proc/{number}/environ", "rb") as file:
                is_ours = mark.encode() in file.read().split(b"\0")
            with open(f"/proc/{number}/cmdline", "rb") as file:
                words = [os.path.basename(word) for word in file.read().decode(errors="replace").split("\0")]
            runs = words[0] in ("bash", "sh", "python3", "env")
            if is_ours:
                yield int(number), next((word for word in words if runs and word.endswith((".py", ".sh"))), words[0])


class Typed:
    """A script at a terminal of its own, to which a passphrase is typed at each prompt."""

    def __init__(self, path, words, passphrase, mark, trial):
        self.path, self.passphrase, self.mark, self.said = os.path.realpath(path), passphrase, mark, b""
        here = os.getcwd()
        self.environment = {**os.environ, "GELI": f"{here}/geli", "GELI_NBD": f"{here}/geli-nbd",
                            "GELI_MOUNTS": f"{here}/mounts",
                            mark.partition("=")[0]: mark.partition("=")[2]}
        self.process, self.terminal = pty.fork()
        if self.process == 0:
            os.execve(self.path, [self.path, *words], self.environment)

    def turn(self):
        """Takes what it says, and answers a prompt; whether it goes on."""
        if select.select([self.terminal], [], [], 0.1)[0]:
            try:
                self.said += os.read(self.terminal, 4096)
            except OSError:
                return False
            if self.said.rstrip().endswith((b"passphrase:", b"again:")):
                os.write(self.terminal, self.passphrase + b"\n")
                self.said += b"\n"
        return True

    def until(self, is_so):
        for _ in range(600):
            if is_so():
                return
            if not self.turn():
                break
        sys.exit(f"{self.path} doesn't get there: {self.said.decode(errors='replace')}")

    def ends(self):
        """Waits for its end, which must be a good one."""
        while self.turn():
            pass
        status = os.waitstatus_to_exitcode(os.waitpid(self.process, 0)[1])
        self.process = None
        assert status == 0, f"{self.path}: status {status}: {self.said.decode(errors='replace')}"

    def kill(self):
        """Ends what is left of it."""
        for number, _ in marked(self.mark):
            with contextlib.suppress(ProcessLookupError):
                os.kill(number, signal.SIGKILL)
        os.close(self.terminal)
        if self.process:
            os.waitpid(self.process, 0)


def has_clients():
    names = ("nbdkit", "fusermount3", "fuse2fs", "mke2fs")
    lacking = [name for name in names if not shutil.which(name, path=os.environ["PATH"] + ":/usr/sbin:/sbin")]
    if lacking or not os.access("/dev/fuse", os.W_OK):
        print(f"not tried: the scripts ({', '.join(lacking) or '/dev/fuse'} is missing)")
        return False
    return True


def try_all(geli, geli_nbd, runs, parts):
    table = Table()
    for _ in range(runs):
        for kind in KINDS:
            with tempfile.TemporaryDirectory() as folder:
                os.chdir(folder)
                trial = Trial(geli, geli_nbd, kind, table)
                for part in parts:
                    if part != "scripts" or (kind == "XTS" and has_clients()):
                        getattr(trial, part)()
                os.chdir(TOP)
    table.show(list(KINDS))
    return 1 if table.unwanted else 0


def look_elsewhere(number, serves, key_files, passfiles, image):
    """Looks at a process for all secrets of an image and of a key, and for those of the key alone if it doesn't fit."""
    texts = [open(name, "rb").read() for name in key_files]
    lines = [open(name, "rb").read().partition(b"\n")[0] for name in passfiles]
    derived = Derived(Metadata(image), b"".join(texts), b"".join(lines) if lines else None)
    secrets = [*ring_secrets(derived.meta, derived.master(), range(RANGES)), *derived.secrets()]
    secrets += [Secret("key file", GIVEN, text) for text in texts]
    secrets += [Secret("passphrase", GIVEN, line) for line in lines]
    table = Table()
    table.look("found", f"process {number}", Process(number), secrets, REQUESTS if serves else NOTHING)
    table.show(["found"])
    return 1 if table.unwanted else 0


def main():
    parts = ("script", "nbd", "ends", "scripts")
    words = argparse.ArgumentParser(usage=__doc__.split("\n\n")[1])
    words.add_argument("-n", type=int, default=1)
    words.add_argument("-o", action="append", choices=parts)
    words.add_argument("--look", type=int)
    words.add_argument("-s", action="store_true")
    words.add_argument("-k", action="append", default=[])
    words.add_argument("-j", action="append", default=[])
    words.add_argument("names", nargs="*")
    given = words.parse_args()
    if given.look:
        return look_elsewhere(given.look, given.s, given.k, given.j, *given.names)
    programs = [os.path.realpath(name) for name in given.names]
    for name in ("geli", "geli-nbd")[len(programs):]:
        programs.append(os.path.realpath(os.path.join(TOP, name)))
        # The first use builds it.
        if subprocess.run([programs[-1], "--version"], stdout=subprocess.DEVNULL, check=False).returncode == 70:
            sys.exit(f"{name} can't be built")
    return try_all(*programs, given.n, given.o or parts)


if __name__ == "__main__":
    sys.exit(main())

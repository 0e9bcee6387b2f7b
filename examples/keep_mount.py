"""keep_mount.py: keeps the programs of one mount, from its server to its end. mount-provider.sh runs it.

    python3 keep_mount.py CALLED mount WORD=VALUE...
    python3 keep_mount.py CALLED unmount WORD=VALUE...
    python3 keep_mount.py CALLED list state=FOLDER

`mount` starts the keeper in a session of its own, shows what that says, and ends once the filesystem is mounted. The
keeper starts nbd_bridge.py with the server on its standard streams, or nbdfuse in its place; checks the filesystem in
the device, runs the filesystem's program, and waits for that to end, however it ends: by `unmount`, by hand, or because
it died. Then it takes down the device, waits for the server, which ends by its connection, and writes down how it went.

SIGTERM, SIGINT and SIGHUP to the keeper, at any moment, are an orderly unmount. They are blocked in all programs that
it starts, so that a signal to all leaves the writing to those who write.

A mount has a folder (STATE). Its files are `result`, which the one who keeps the mount holds a lock of, and where in
the end a status and words stand; `device` and `files`, of which the programs behind the device and those over it hold
locks while they run; `begun`, with what is mounted, from before that; `up`, once it is; `waits`, with what hinders its
end; `ended`, where the server says how it ended; `of`, the folder and the image; `keeper`, the number of a process;
`private`, the folder of links to files; `below`, the mode of the folder; `lost`, once the image isn't there any more; and
the folder `disk`, where the device is.

What has died stays on the folder until `unmount`. Whoever still writes there gets an error (ENOTCONN), and doesn't go on
in the folder below, where nothing is encrypted. For the end by a signal that folder is closed: see Below.
"""
import collections
import contextlib
import errno
import fcntl
import json
import os
import re
import select
import shlex
import shutil
import signal
import stat
import struct
import subprocess
import sys
import syslog
import threading
import time
from pathlib import Path

sys.path.insert(0, os.path.dirname(os.path.abspath(__file__)))  # which python3 -I leaves out
from lib import (REFUSED, Failed, Identity, Refusals, close_others, descriptors_of, files_of, holder_of, is_new,
                 is_zeros, name_of, note, say)

SIGNALS = {signal.SIGTERM, signal.SIGINT, signal.SIGHUP}
BLOCKED = SIGNALS | {signal.SIGCHLD}
EXT = ("ext2", "ext3", "ext4")
# fuse2fs 1.47 loses blocks of a file with extents whose space was allocated ahead. mke2fs takes a refused discard of a
# regular file for zeros. Blocks are as large as the sectors that make-provider.sh makes.
MAKE = ("mke2fs", "-q", "-F", "-t", "ext4", "-b", "4096", "-E", "nodiscard")
FOR_FUSE2FS = ("-O", "^extent,^64bit,^metadata_csum")
PACKAGES = {"fuse2fs": "fuse2fs", "grub-mount": "grub-common", "nbdfuse": "libnbd-bin"}
REFUSAL = re.compile(": (write|write-zeroes|flush): command failed: ")  # libnbd says it of what a server refused
SLOW = "note: pyfuse3 and libnbd's python3 aren't there (Debian: python3-pyfuse3, python3-libnbd): writing takes longer"
NEEDS_JOURNAL = "Journal needs recovery"  # fuse2fs says it if it may not write
JOURNAL = "Writing to the journal is not supported."  # fuse2fs says it of each ext4 that has one
AT_REST = 3.0  # seconds after which what was written is synced, though nobody asks
OWN_REQUESTS = 56 + 64 + 64  # bytes that fuse2fs reads of an fsync of a file, and of the close of it and of a folder
SOME = 1000  # names of a filesystem that are looked at for a file
OWN_FILE = ".geli-sync"  # in lost+found
SECOND_SUPERBLOCK = {1024: 8193, 2048: 16384, 4096: 32768}  # of an ext: the bytes of its blocks, and which block
PATIENCE = 5.0  # seconds in which a mount that is in use is waited for, once its end is asked for
GRACE = 2.0  # seconds in which a device that nobody needs any more may end by itself
CONNECTIONS = "/sys/fs/fuse/connections"


HERE = os.path.dirname(os.path.abspath(__file__))


def server(words, ended):
    """The server of the image: it speaks NBD on its standard streams, ends with its connection, and says in the file
    `ended` how that went."""
    parts = [f"partition={words['partition']}"] if words["partition"] else []
    return ["env", "-C", words["here"], "python3", "-I", "-B", f"{HERE}/nbd_server.py", f"ended={ended}", *parts, "--",
            words["geli-nbd"], *["-r"] * ("r" in words["options"]), *words["key"].split(" "), words["image"]]


# What is mounted, and who uses it.


class Mounted:
    """A row of mountinfo (proc(5)): its place there, the number of the mount, as 0:52, its folder, its type, and what
    it is of."""

    def __init__(self, row):
        fields, _, rest = row.partition(" - ")
        self.row = fields.split(" ")[0]
        self.number, self.folder = fields.split(" ")[2], self.plain(fields.split(" ")[4])
        self.kind, self.source = map(self.plain, rest.split(" ")[:2])

    @staticmethod
    def plain(field):
        return re.sub(r"\\([0-7]{3})", lambda code: chr(int(code[1], 8)), field)


def mounts(process="self"):
    with open(f"/proc/{process}/mountinfo", encoding="utf-8", errors="surrogateescape") as rows:
        return [Mounted(row) for row in rows]


def top_of(folder):
    """What is mounted on a folder, above all else there; None if nothing is."""
    return next((it for it in reversed(mounts()) if it.folder == str(folder)), None)


def mount_of(folder):
    """The number of what is mounted on a folder; None if nothing is."""
    top = top_of(folder)
    return top and top.number


def processes():
    """The numbers of all processes but this one."""
    return [int(name) for name in os.listdir("/proc") if name.isdigit() and int(name) != os.getpid()]


def uses(process, folder):
    """Whether a process is in what is mounted on a folder, or has a file in it open."""
    names = ["cwd", "root"]
    with contextlib.suppress(OSError):
        names += [f"fd/{number}" for number in os.listdir(f"/proc/{process}/fd")]
    for name in names:
        with contextlib.suppress(OSError):
            is_in = f"{os.readlink(f'/proc/{process}/{name}')}/".startswith(f"{folder}/")
            if is_in and not is_below(process, name, folder):
                return True
    return False


def is_below(process, name, folder):
    """Whether an open file is of what lies below all that is mounted on the folder, as the folder that the keeper has."""
    if not name.startswith("fd/"):
        return False
    info = Path(f"/proc/{process}/fdinfo/{name.removeprefix('fd/')}").read_text(encoding="ascii")
    row = re.search(r"^mnt_id:\s*(\d+)$", info, re.MULTILINE)[1]
    return row not in [it.row for it in mounts(process) if it.folder == str(folder)]


def has_elsewhere(process, number):
    """Whether a process of another mount namespace has this mount too."""
    with contextlib.suppress(OSError):
        if os.readlink(f"/proc/{process}/ns/mnt") != os.readlink("/proc/self/ns/mnt"):
            return any(it.number == number for it in mounts(process))
    return False


def named(numbers):
    """Some processes, by their numbers and words."""
    some = [f"process {number} ({name_of(number)[:60]})" for number in numbers[:3]]
    return ", ".join(some) + ", and others" * (len(numbers) > len(some))


def unmount_by(*words):
    """Unmounts by a program; what it said if it couldn't, else nothing."""
    ran = subprocess.run(words, stdin=subprocess.DEVNULL, stdout=subprocess.PIPE, stderr=subprocess.STDOUT, check=False)
    return "" if ran.returncode == 0 else ran.stdout.decode(errors="replace").strip() or f"{words[0]} failed"


def abort(number):
    """Ends a mount of FUSE in all mount namespaces: its program then ends as it does by an unmount."""
    major, minor = number.split(":")
    with contextlib.suppress(OSError):
        if major == "0":  # that of a disk has no connection, or another's
            Path(f"{CONNECTIONS}/{minor}/abort").write_text("1")


def loops_over(file):
    """The loop devices over a file."""
    found = []
    for path in Path("/sys/block").glob("loop*/loop/backing_file"):
        with contextlib.suppress(OSError):  # it may go meanwhile
            if path.read_text(errors="surrogateescape").strip() == str(file):
                found.append(f"/dev/{path.parts[3]}")
    return found


class Superblock:
    """What is asked of a superblock of an ext2, ext3 or ext4 (fields of struct ext2_super_block)."""

    def __init__(self, device, at=1024):
        with open(device, "rb") as file:
            file.seek(at)
            self.bytes = file.read(1024)

    def is_ext(self):
        return self.bytes[0x38:0x3A] == b"\x53\xef"

    def is_clean(self):
        return bool(struct.unpack_from("<H", self.bytes, 0x3A)[0] & 1)

    def has_extents(self):
        return bool(struct.unpack_from("<I", self.bytes, 0x60)[0] & 0x40)


class State:
    """The folder of a mount, and its files."""

    def __init__(self, path):
        self.path = Path(path)
        self.disk = self.path / "disk"
        self.nbd = self.disk / "nbd"
        self.result, self.ended = self.path / "result", self.path / "ended"
        self.begun, self.up, self.waits = self.path / "begun", self.path / "up", self.path / "waits"
        self.device, self.files = self.path / "device", self.path / "files"
        self.keeper, self.private = self.path / "keeper", self.path / "private"
        self.of, self.below, self.lost = self.path / "of", self.path / "below", self.path / "lost"

    def text(self, file):
        """What a file of it has; nothing if it isn't there."""
        with contextlib.suppress(OSError):
            return file.read_text(errors="surrogateescape").strip()
        return ""

    def put(self, file, text):
        """Writes a file as a whole: who sees it sees all of it."""
        new = file.with_suffix(".new")
        new.write_text(text + "\n", errors="surrogateescape")
        new.replace(file)

    def remove_private(self):
        """Removes the folder of links to files that mount-provider.sh made."""
        name = self.text(self.private)
        if name:
            shutil.rmtree(name, ignore_errors=True)

    def remove(self):
        """Removes it, with what is in it; nobody claims it meanwhile. A device that is mounted stays."""
        with self.unclaimed():
            self.remove_files()

    def remove_rest(self):
        """Removes what somebody left of it who was killed while he made or removed it: no result is there."""
        with contextlib.suppress(FileNotFoundError), self.unclaimed():
            if self.path.exists() and not self.result.exists():
                self.remove_files()

    @contextlib.contextmanager
    def unclaimed(self):
        """Nobody claims a folder of a mount meanwhile."""
        top = os.open(self.path.parent, os.O_RDONLY)
        try:
            fcntl.flock(top, fcntl.LOCK_EX)
            yield
        finally:
            os.close(top)

    def remove_files(self):
        self.remove_private()
        with contextlib.suppress(OSError):
            self.disk.rmdir()
        with contextlib.suppress(OSError):
            for file in sorted(self.path.iterdir(), key=lambda file: file == self.result):  # the claim goes last
                if file != self.disk:
                    file.unlink(missing_ok=True)
            self.path.rmdir()


def is_held(file):
    """Whether another process holds the lock of a file; if none does, this one takes it."""
    try:
        fcntl.flock(file, fcntl.LOCK_EX | fcntl.LOCK_NB)
    except BlockingIOError:
        return True
    return False


def is_used(path):
    """Whether a process holds the lock of a file, if it exists."""
    with contextlib.suppress(FileNotFoundError), open(path, "rb") as file:
        return is_held(file)
    return False


# The keeper.


def in_child():
    """In a program that is started: what ends a mount doesn't end it."""
    signal.pthread_sigmask(signal.SIG_SETMASK, SIGNALS)


def need(program):
    """The programs of a filesystem are looked for once it is known which it is."""
    if not shutil.which(program):
        raise Failed(f"the program '{program}' isn't there (Debian: {PACKAGES.get(program, 'e2fsprogs')})")


class Program:
    """A program that runs until something ends it, and holds a lock meanwhile. Its last lines are kept. It gets the
    open files of these numbers too."""

    def __init__(self, command, lock, descriptors=(), **how):
        self.lines = collections.deque(maxlen=20)
        with open(lock, "ab") as held:
            fcntl.flock(held, fcntl.LOCK_SH)
            # A keeper that is killed doesn't end those who write to its pipe: SIGPIPE stays ignored.
            self.process = subprocess.Popen(
                list(map(str, command)), stdin=subprocess.DEVNULL, stdout=subprocess.PIPE, stderr=subprocess.STDOUT,
                errors="replace", cwd="/", preexec_fn=in_child, restore_signals=False,
                pass_fds=[held.fileno(), *descriptors], **how)
        self.reader = threading.Thread(target=self.read, daemon=True)
        self.reader.start()

    def read(self):
        self.lines.extend(self.process.stdout)

    def runs(self):
        return self.process.poll() is None

    def said(self):
        """Its last lines; all of them, if it has ended."""
        self.reader.join(0 if self.runs() else 2)
        return "".join(self.lines).strip()


class Device(Program):
    """The program of the device. It says a line of each request that the server refused, of which who uses a filesystem
    need not hear."""

    def __init__(self, command, lock, files, descriptors):
        self.name = "nbdfuse" if command[0] == "nbdfuse" else "nbd_bridge.py"
        self.refusals = Refusals(files)
        super().__init__(command, lock, descriptors, start_new_session=True)

    def read(self):
        for line in self.process.stdout:
            self.lines.append(line)
            if REFUSAL.search(line):
                self.refusals.add()


class Below:
    """The folder below a mount. Once that is there nobody may write to the folder, until -u or an unmount by hand: a
    program that goes on after a signal has ended the mount would leave plain text there. Root isn't held by modes."""

    def __init__(self, folder):
        self.file = os.open(folder, os.O_RDONLY | os.O_DIRECTORY)
        self.mode = stat.S_IMODE(os.fstat(self.file).st_mode)
        if os.geteuid():
            self.mode |= stat.S_IWUSR  # without it nothing can be mounted there: a signal has ended the last mount
            self.reopen()

    def close(self):
        if os.geteuid():
            self.change(self.mode & ~0o222)

    def reopen(self):
        self.change(self.mode)

    def change(self, mode):
        with contextlib.suppress(OSError):  # it may be another user's
            os.fchmod(self.file, mode)


def open_below(folder, mode):
    """Lets its owner write to a folder again that was below a mount; whether it was closed."""
    with contextlib.suppress(OSError):
        state = os.stat(folder)
        if state.st_uid == os.geteuid() != 0 and not state.st_mode & 0o222:
            os.chmod(folder, mode or stat.S_IMODE(state.st_mode) | stat.S_IWUSR)
            return True
    return False


class Rest:
    """Writes what a filesystem still holds back, some seconds after it was used.

    fuse2fs does that at an fsync(2) of a file that is open for writing, and at nothing else. So one is opened, to which
    nothing is written. Whether the filesystem was used since then is seen by the bytes that fuse2fs has read: each
    request is some. The kernel's ext4 writes by itself, and is looked at by the writes of its loop device."""

    def __init__(self, folder, device, program):
        self.folder, self.device = folder, device
        self.process = program and program.process.pid
        self.number = os.stat(folder).st_dev
        self.file = None  # of the filesystem, from its root on
        self.seen = self.used()  # by which its use is seen; None if it must be synced, whatever that is

    def look(self):
        used = self.used()
        if used == self.seen:
            return
        self.seen = None
        try:
            self.seen = self.write_back() if self.process else used
        finally:
            with open(self.device, "rb") as device:
                os.fsync(device)

    def used(self):
        """What changes by each use of the filesystem."""
        if self.process:
            counts = Path(f"/proc/{self.process}/io").read_text(encoding="ascii")
            return int(re.search(r"^rchar: (\d+)$", counts, re.MULTILINE)[1])
        return [Path(f"/sys/block/{Path(loop).name}/stat").read_text(encoding="ascii").split()[4]
                for loop in loops_over(self.device)]

    def write_back(self):
        """Lets fuse2fs write; what it has read once that is done, if nobody else has asked it for anything meanwhile."""
        root = os.open(self.folder, os.O_RDONLY | os.O_DIRECTORY)
        try:
            file = self.opened(root)
            try:
                used = self.used()
                os.fsync(file)
            finally:
                os.close(file)
        finally:
            os.close(root)
        return used + OWN_REQUESTS

    def opened(self, root):
        """A file of the filesystem, open for writing. Where there is none, one is made, which stays. Each is opened
        from the mount's own root: so nothing is made below a mount that goes just now, nor asked of one inside it."""
        self.must_be_here(root)
        with contextlib.suppress(OSError):
            self.file = self.file or self.found(root)
            if self.file:
                return self.open_file(self.file, root)
        self.file = None
        return self.open_file(self.own(root), root, os.O_CREAT)

    def must_be_here(self, file):
        if os.fstat(file).st_dev != self.number:
            raise OSError(errno.EXDEV, os.strerror(errno.EXDEV), self.folder)

    def open_file(self, name, root, makes=0):
        file = os.open(name, os.O_WRONLY | os.O_NOFOLLOW | os.O_NONBLOCK | makes, 0o600, dir_fd=root)
        try:
            self.must_be_here(file)
        except OSError:
            os.close(file)
            raise
        return file

    @staticmethod
    def own(root):
        """The name of a file of its own."""
        try:
            is_there = stat.S_ISDIR(os.stat("lost+found", dir_fd=root, follow_symlinks=False).st_mode)
        except FileNotFoundError:
            is_there = False
        return os.path.join("lost+found", OWN_FILE) if is_there else OWN_FILE

    def found(self, root):
        """A regular file among the first names of the filesystem; None if there is none."""
        left = SOME
        for at, folders, names, file in os.fwalk(".", dir_fd=root):
            if os.fstat(file).st_dev != self.number:  # another is mounted there
                folders.clear()
                continue
            for name in names[:left]:
                if stat.S_ISREG(os.stat(name, dir_fd=file, follow_symlinks=False).st_mode):
                    return os.path.join(at, name)
            left -= len(names) + len(folders)
            if left <= 0:
                return None
        return None


class Keeper:
    """One mount. `say` reports to the one who asked for it, until it is mounted."""

    def __init__(self, words, say):
        self.words, self.say = words, say
        self.state, self.folder = State(words["state"]), words["folder"]
        self.options = words["options"]
        self.reads_only = "r" in self.options
        self.kind, self.number = "", None
        self.device = self.program = None
        self.secrets = descriptors_of(words.get("key", ""))
        self.files, self.were = [], []  # that the image lies in, and what they were
        self.below = self.rest = None
        self.ends = self.problem = ""

    def run(self):
        """Mounts it, waits for its end, and takes all down; nothing, or what went wrong."""
        try:
            self.start_device()
            self.prepare()
            self.start_filesystem()
            self.tell_mounted()
            self.wait()
        except (Failed, OSError, struct.error) as failed:
            self.problem = str(failed)
        self.forget_key()
        if self.device:
            self.take_down()
        return self.problem

    def forget_key(self):
        """No key file or passphrase is needed any more: who still has a typed one open finds nothing in it."""
        self.state.remove_private()
        while self.secrets:
            with open(self.secrets.pop(), "wb") as secret:
                secret.truncate(0)

    def pause(self, seconds=None):
        """Waits for a signal, for so many seconds at most."""
        got = signal.sigwaitinfo(BLOCKED) if seconds is None else signal.sigtimedwait(BLOCKED, seconds)
        if got and got.si_signo in SIGNALS:
            self.ends = self.ends or signal.Signals(got.si_signo).name
        return got

    def go_on(self):
        """Whether a signal asked for the end."""
        while self.pause(0):
            pass
        if self.ends:
            raise Failed(f"ended by {self.ends}")

    def work(self, step, *command):
        """Runs a program to its end, whatever is asked meanwhile; its status, and what it said."""
        self.go_on()
        need(command[0])
        self.say("step", step)
        program = Program(command, self.state.files)
        status = program.process.wait()
        return status, program.said().replace(str(self.state.nbd), self.words["name"])

    def start_device(self):
        """Starts the device over the server, and waits for its file."""
        names = files_of(self.words["image"])
        self.files = [os.path.realpath(os.path.join(self.words["here"], name)) for name in names]
        self.were = list(map(Identity, self.files))
        if self.reads_only:
            self.tell_writers()
        self.state.disk.mkdir()
        self.say("step", "opening the provider: its key is derived")
        command = [*self.bridge(), *server(self.words, self.state.ended)]
        self.device = Device(command, self.state.device, self.files, self.secrets)
        while not os.path.exists(self.state.nbd):
            self.pause(0.05)
            if self.ends:
                os.killpg(self.device.process.pid, signal.SIGKILL)  # nobody has asked it to write yet
                raise Failed(f"ended by {self.ends}")
            if not self.device.runs():
                while is_used(self.state.device):  # the server may still write down how it ended
                    time.sleep(0.02)
                said = self.state.text(self.state.ended)
                raise Failed(said if said not in ("", "ok") else f"{self.device.name}: {self.device.said()}")
        self.forget_key()

    def tell_writers(self):
        """Says who else has the image: -r takes no lock, and nobody keeps it from an image that is written to."""
        for file in self.files:
            writer = holder_of(os.stat(file))
            if writer:
                self.say("note", f"note: process {writer} ({name_of(writer)}) may write to '{self.words['name']}' now:"
                                 " what is read may be half old and half new, or damaged")

    def bridge(self):
        """What hands the device's requests on to a server, whose words follow."""
        if self.words["bridge"]:
            return [self.words["bridge"], "-I", "-B", f"{HERE}/nbd_bridge.py", self.state.disk]
        need("nbdfuse")
        self.say("note", SLOW)
        return ["nbdfuse", *["-r"] * self.reads_only, self.state.disk, "--command"]

    def prepare(self):
        """Finds, makes, checks and grows the filesystem."""
        self.kind = "" if "M" in self.options else self.found("TYPE")
        if not self.kind and set("mM") & set(self.options):
            self.make()
        if not self.kind and "c" in self.options and not self.is_readable():
            self.take_second_superblock()
        if not self.kind:
            self.must_be_readable()
            self.must_have_no_table()
            raise Failed("no filesystem is known in it (-m makes one, where the provider is new)")
        if self.kind in EXT and not self.reads_only:
            self.check()
        elif set("cg") & set(self.options):
            raise Failed(f"-c and -g are for ext2, ext3 and ext4, and this is {self.kind}")

    def found(self, what):
        """What blkid(8) finds in the device: its TYPE, or its table of partitions (PTTYPE)."""
        status, said = self.work("looking at the filesystem", "blkid", "-p", "-o", "value", "-s", what, self.state.nbd)
        if status and said:
            raise Failed(said)
        return said

    def is_readable(self, first=0, size=65536):
        """Whether the bytes of the data can be read: by default the beginning, which a filesystem is known by."""
        try:
            with open(self.state.nbd, "rb", buffering=0) as device:
                device.seek(first)
                return len(device.read(size)) == size or first + size > device.seek(0, os.SEEK_END)
        except OSError:
            return False

    def must_be_readable(self):
        if not self.is_readable():
            raise Failed("no filesystem is known in it, and its first sectors can't be read: they were never written,"
                         " or are damaged (vuthrel check says which). Don't make one over it: copy"
                         " it to another disk first, and then give -c, which takes an ext4's second superblock, if it"
                         " has one (from 128 MiB on)")

    def take_second_superblock(self):
        """Mends an ext whose first sectors can't be read: zeros are put there, and e2fsck(8) writes them anew."""
        for size, block in SECOND_SUPERBLOCK.items():
            if not self.is_readable(size * block, 1024) or not Superblock(self.state.nbd, size * block).is_ext():
                continue
            with open(self.state.nbd, "r+b", buffering=0) as device:
                for at in range(0, 65536, 4096):
                    if not self.is_readable(at, 4096):
                        device.seek(at)
                        device.write(bytes(4096))
            status, said = self.work("checking the filesystem", "e2fsck", "-fy", "-b", block, "-B", size, self.state.nbd)
            if not 0 <= status < 4:
                raise Failed(f"its first sectors couldn't be read, and the second superblock didn't help: {said}")
            self.say("note", "its first sectors couldn't be read: it was mended by the second superblock")
            self.kind = self.found("TYPE")
            return

    def must_have_no_table(self):
        """It has no partitions, in which the filesystem would be."""
        table = self.found("PTTYPE")
        if table:
            raise Failed(f"it has partitions ({table}), and no filesystem outside them: -n names one of them")

    def make(self):
        """Makes an ext4: by -m only if nobody wrote to the provider yet."""
        if "M" not in self.options:
            self.must_have_no_table()
            untouched = not self.words["partition"] and is_new(os.path.join(self.words["here"], self.words["file"]))
            if not untouched and not is_zeros(self.state.nbd):
                raise Failed("no filesystem is known in it, but it isn't new: nothing was made (-M makes one over it)")
        features = () if "K" in self.options else FOR_FUSE2FS
        status, said = self.work("making the ext4", *MAKE, *features, self.state.nbd)
        if status:
            raise Failed(f"no ext4 could be made: {said}")
        self.kind = "ext4"

    def check(self):
        """Checks an ext: fuse2fs mounts what a crash has left as it is, and fails if a journal must be played."""
        status, said = self.e2fsck()
        if not 0 <= status < 4:
            raise Failed(f"the filesystem in it is damaged, and wasn't mounted: {said}\n"
                         f"copy '{self.words['name']}' to another disk, and then give -c, which repairs it; after a"
                         " power failure that keeps the files that were fsynced")
        if status:
            self.say("note", f"the filesystem was mended: {said}")
        if "journal has been regenerated" in said:
            self.say("note", "its journal couldn't be read and was dropped: what was written before the crash, flushed"
                             " or not, may be missing")
        if "g" in self.options:
            status, said = self.work("growing the filesystem", "resize2fs", self.state.nbd)
            if status:
                raise Failed(f"the filesystem couldn't be grown: {said}")

    def e2fsck(self):
        """Runs e2fsck(8) as the options ask; its status, and the last lines that it said."""
        forced = "-fy" if "c" in self.options else "-fp" if "g" in self.options else "-p"
        status, said = self.work("checking the filesystem", "e2fsck", forced, self.state.nbd)
        if status >= 8 and "c" in self.options:
            # If the superblock's checksum alone is wrong, and there is no second superblock, this writes it anew.
            now = time.strftime("set_super_value mtime %Y%m%d%H%M%S")
            self.work("mending the superblock", "debugfs", "-w", "-n", "-R", now, self.state.nbd)
            status, said = self.work("checking the filesystem", "e2fsck", forced, self.state.nbd)
        return status, "\n".join(said.splitlines()[-4:])

    def start_filesystem(self):
        """Mounts the filesystem on the folder."""
        if self.kind in EXT and not self.reads_only and "K" not in self.options:
            if Superblock(self.state.nbd).has_extents():
                self.say("note", f"note: this {self.kind} has extents: fuse2fs loses blocks of files there whose space"
                                 " was allocated ahead (as root, -K mounts it by the kernel)")
        self.go_on()
        self.say("step", "mounting it")
        self.reads_only = self.reads_only or (self.kind not in EXT and "K" not in self.options)
        self.state.put(self.state.begun, f"{self.kind} {'r' if self.reads_only else 'w'}{'K' * ('K' in self.options)}")
        self.below = Below(self.folder)
        if "K" in self.options:
            self.mount_by_kernel()
        else:
            self.mount_by_program()
        self.number = mount_of(self.folder)
        self.state.put(self.state.below, f"{self.below.mode:o}")
        self.below.close()
        self.rest = Rest(self.folder, self.state.nbd, self.program)

    def mount_by_kernel(self):
        how = "loop,nosuid,nodev" + ",ro" * self.reads_only
        status, said = self.work("mounting it", "mount", "-t", self.kind, "-o", how, self.state.nbd, self.folder)
        if status:
            raise Failed(f"mount: {said}")

    def mount_by_program(self):
        """Runs the filesystem's program in the foreground, and waits until it has mounted it."""
        if self.kind in EXT:
            reads_only = ",ro" if self.reads_only else ""
            command = ["fuse2fs", "-f", self.state.nbd, self.folder, "-o", f"fakeroot{reads_only}"]
        else:
            command = ["grub-mount", self.state.nbd, self.folder, "--", "-f"]
        need(command[0])
        self.program = Program(command, self.state.files)
        while not mount_of(self.folder):
            self.pause(0.05)
            if not self.program.runs():
                said = self.program.said().replace(str(self.state.nbd), self.words["name"])
                plays = NEEDS_JOURNAL in said
                raise Failed(f"{command[0]}: {said}" + "\nwithout -r it is mounted, and the journal played" * plays)

    def tell_mounted(self):
        """Says what the filesystem's program warned of, and that it is mounted."""
        for line in list(self.program.lines) if self.program else []:
            if JOURNAL not in line:
                self.say("note", line.strip().replace(str(self.state.nbd), self.words["name"]))
        self.state.put(self.state.up, self.number)
        self.say("up", f"its {self.kind} is mounted on {self.folder}" + ", to be read alone" * self.reads_only)

    def look_at_rest(self):
        """Has what was written synced again and again, and looks whether the image is still there."""
        while True:
            time.sleep(AT_REST)
            with contextlib.suppress(OSError):
                self.rest.look()
            with contextlib.suppress(OSError):
                self.look_at_image()

    def look_at_image(self):
        """Notes once it isn't there any more: what is written from then on is lost. Nobody is there to be told, so it
        is said in the system's log, and by -l."""
        became = next(filter(None, (was.became() for was in self.were)), "")
        if became == self.state.text(self.state.lost):
            return
        self.state.put(self.state.lost, became)
        if became:
            syslog.syslog(syslog.LOG_WARNING, f"{self.words['called']}: {self.folder}: {became}")

    def is_up(self):
        return self.program.runs() if self.program else bool(loops_over(self.state.nbd))

    def wait(self):
        """Waits until the filesystem's program has ended; a signal unmounts it."""
        asked_at = None
        if not self.reads_only:
            threading.Thread(target=self.look_at_rest, daemon=True).start()
        while self.is_up():
            asks = self.ends and mount_of(self.folder) == self.number
            self.pause(0.1 if asks else None if self.program else 1)
            if not self.problem and not self.device.runs():
                self.problem = f"{self.device.name} has died: what was written since the last flush may be lost"
                if self.program:
                    self.program.process.kill()  # who uses the folder gets an error from now on
            if self.ends and mount_of(self.folder) == self.number:
                asked_at = asked_at or time.monotonic()
                # In use for long, it goes from the folder at once, and ends with the last who is in it.
                self.unmount("-z" if time.monotonic() - asked_at > PATIENCE else "")

    def unmount(self, lazily=""):
        if "K" in self.options:
            return unmount_by("umount", *["-l"] * bool(lazily), self.folder)
        return unmount_by("fusermount3", f"-u{lazily[1:]}", self.folder)

    def take_down(self):
        """Takes down the filesystem, the device and the server, waits for each, and looks at how it went."""
        self.unmount_filesystem()
        is_clean = self.is_clean()
        self.unmount_device()
        if not self.number:
            return
        if self.below and not self.stays() and not self.ends:
            self.below.reopen()
        said = self.state.text(self.state.ended)
        if said.startswith(REFUSED) and self.device and self.device.refusals.count:
            said = str(self.device.refusals)
        if not said:
            tail = self.device.said() if self.device else ""
            self.problem = self.problem or (
                f"a program behind it has died: what was written since the last flush may be lost {tail}".strip())
        elif said != "ok":
            self.problem = f"what was written may be lost: {said}" + f"; {self.problem}" * bool(self.problem)
        elif not is_clean:
            self.problem = self.problem or self.why_unclean()
        elif self.stays():
            self.problem = "the mount was ended by something else"

    def why_unclean(self):
        """Why the filesystem isn't clean, as far as that can be seen."""
        status = self.program.process.poll() if self.program else None
        died = f" was ended by {signal.Signals(-status).name}" if status and status < 0 else "'s end wasn't orderly"
        return f"the filesystem's program{died}: what was written last may be lost"

    def stays(self):
        """Whether the mount of a program that has ended is still on the folder, where it stays until -u."""
        return bool(self.program and not self.program.runs() and self.state.text(self.state.up)
                    and mount_of(self.folder) == self.number)

    def is_clean(self):
        """Whether the filesystem says of itself that it was unmounted in order."""
        if self.kind not in EXT or self.reads_only:
            return True
        try:
            return Superblock(self.state.nbd).is_clean()
        except (OSError, struct.error):
            return False

    def unmount_filesystem(self):
        """Waits for the end of all programs over the device, and of the kernel's loop. One that mounts only now, since
        the keeper was killed, is unmounted, and so is what is left of one whose end nobody has seen, or that was killed
        before it was noted that it has mounted."""
        self.number = self.number or number_over(self.state.nbd, self.folder)
        while (is_used(self.state.files) or self.must_go()
               or ("K" in self.options and loops_over(self.state.nbd))):
            self.number = self.number or mount_of(self.folder)
            if self.must_go():
                self.hindered(self.unmount("-z"))
            time.sleep(0.1)

    def must_go(self):
        return self.number and mount_of(self.folder) == self.number and not self.stays()

    def hindered(self, said):
        """Notes what a program said that couldn't unmount, for whom waits meanwhile."""
        with contextlib.suppress(OSError):  # the disk of it may be full
            if said:
                self.state.put(self.state.waits, said)

    def unmount_device(self):
        """Unmounts the device, also one that comes only now, and waits for its server. If another mount namespace
        still has it, it is ended there too."""
        number, since = None, time.monotonic()
        while mount_of(self.state.disk) or is_used(self.state.device):
            if mount_of(self.state.disk):
                number, since = mount_of(self.state.disk), time.monotonic()
                self.hindered(unmount_by("fusermount3", "-uz", self.state.disk))
            elif number and "K" not in self.options and time.monotonic() - since > GRACE:
                abort(number)
            time.sleep(0.1)


def leave_caller(kept, pipe):
    """Leaves the caller's terminal, folder and open files, but for these numbers. What is said goes to the pipe."""
    os.setsid()
    os.chdir("/")
    null = os.open(os.devnull, os.O_RDWR)
    os.dup2(null, 0)
    os.dup2(null, 1)
    os.dup2(pipe, 2)
    close_others(kept)


def keep(words, pipe):
    """The keeper, which reports to the caller until it is mounted, and writes down in the end how it went."""
    claim, state = int(words["claim"]), State(words["state"])
    leave_caller([claim, *descriptors_of(words["key"])], pipe)
    held = os.open(state.path, os.O_RDONLY)  # what cleans /tmp leaves a folder alone that is locked
    fcntl.flock(held, fcntl.LOCK_SH)
    state.put(state.keeper, str(os.getpid()))
    is_file = files_of(words["name"]) == (words["name"],)
    state.put(state.of, json.dumps([words["folder"], os.path.join(words["here"] * is_file, words["name"])]))
    is_told = True

    def say(kind, text):
        nonlocal is_told
        try:
            os.write(2, "".join(f"{kind}\t{line}\n" for line in text.splitlines()).encode(errors="surrogateescape"))
        except OSError:
            is_told = False
        if kind == "up":
            os.dup2(0, 2)

    problem = Keeper(words, say).run()
    was_up = os.path.exists(state.up)
    os.write(claim, f"1\n{problem}\n".encode(errors="surrogateescape") if problem else b"0\n")
    if problem and not was_up:
        say("failed", problem)
    # Whoever asks hears what nobody has heard of yet.
    if not problem or (not was_up and is_told):
        state.remove()


# Who asks the keeper.


class Front:
    """The one who asked for a mount: shows what the keeper says. A signal to it is one to the keeper."""

    def __init__(self, words, keeper):
        self.words, self.keeper = words, keeper
        self.is_interrupted = self.is_up = self.has_failed = False
        for number in SIGNALS:
            signal.signal(number, self.interrupt)
        signal.pthread_sigmask(signal.SIG_UNBLOCK, BLOCKED)

    def interrupt(self, *_):
        self.is_interrupted = True
        with contextlib.suppress(OSError):
            os.kill(self.keeper, signal.SIGTERM)

    def relay(self, pipe):
        """Shows what the keeper says until it has no more to say. A step is shown at a terminal once it lasts."""
        step, rest = "", b""
        while True:
            if not select.select([pipe], [], [], 1 if step else None)[0]:
                note(f"{step} ...")
                step = ""
                continue
            got = os.read(pipe, 65536)
            if not got:
                return
            *lines, rest = (rest + got).split(b"\n")
            for line in lines:
                step = self.show(*line.decode(errors="surrogateescape").partition("\t"))

    def show(self, kind, _, text):
        """Shows a line; gives the step that has begun, if there is a terminal."""
        name, quoted = self.words["called"], shlex.quote(self.words["folder"])
        if kind == "step":
            return text if sys.stderr.isatty() else ""
        if kind == "up":
            self.is_up = True
            note(f"{self.words['name']}: {text}, until {name} -u {quoted}")
        elif kind == "failed" and self.is_interrupted and text.startswith("ended by "):
            note(f"{name}: broken off")
        elif kind == "failed":
            note(text if self.has_failed else f"{name}: {text}")
            self.has_failed = True
        else:
            note(text or kind)
        return ""

    def end(self):
        """Waits for the keeper if it ends; the status, which no signal changes any more."""
        signal.pthread_sigmask(signal.SIG_BLOCK, SIGNALS)
        if self.is_up and not self.is_interrupted:
            return 0
        os.waitpid(self.keeper, 0)
        if not self.has_failed and not self.is_interrupted:
            note(f"{self.words['called']}: its keeper has died: give {self.words['called']} -u"
                 f" {shlex.quote(self.words['folder'])}")
        return 130 if self.is_interrupted else 1


def mount(words):
    """Starts the keeper, and waits until it has mounted the filesystem."""
    signal.pthread_sigmask(signal.SIG_BLOCK, BLOCKED)
    reads, writes = os.pipe()
    keeper = os.fork()
    if keeper == 0:
        keep(words, writes)
        return 0
    os.close(writes)
    os.close(int(words["claim"]))
    front = Front(words, keeper)
    front.relay(reads)
    return front.end()


def ask(state, folder, forced):
    """Asks the keeper of a mount for its end."""
    number = state.text(state.up)
    if not number:
        with contextlib.suppress(OSError, ValueError):
            os.kill(int(state.text(state.keeper)), signal.SIGTERM)
        return
    leave(state, folder)
    if forced and not os.path.ismount(CONNECTIONS):
        note(f"-f needs the kernel's list of mounts: mount -t fusectl fusectl {CONNECTIONS}")
    if forced:
        abort(number)


def leave(state, folder):
    """Unmounts the folder of a mount, unless somebody uses it. The keeper does for a moment, while it syncs."""
    keeper, began, is_told = state.text(state.keeper), time.monotonic(), False
    while (said := unmount_folder(folder)) and mount_of(folder):
        users = [number for number in processes() if uses(number, folder)]
        others = [number for number in users if str(number) != keeper]
        spent = time.monotonic() - began  # somebody may just look at it, and be in no list of users
        if others or (spent > PATIENCE and not users):
            raise Failed(f"'{folder}' stays mounted: {said}" + f"\nit is in use by {named(others)}" * bool(others) +
                         "\nleave it, and give this again")
        if spent > 3 and not is_told:
            is_told = True
            note(f"{folder}: waiting for the disk")
        time.sleep(0.1)


def unmount_folder(folder):
    """Unmounts what is on a folder; what was said if that couldn't be done, else nothing."""
    top = top_of(folder)
    if not top:
        return ""
    return unmount_by("fusermount3", "-u", folder) if top.kind.startswith("fuse") else unmount_by("umount", folder)


def wait_for_result(state, result, folder):
    """Waits until nobody keeps the mount; says what it waits for."""
    number, began, is_told = state.text(state.up), time.monotonic(), False
    while is_held(result):
        if not is_told and time.monotonic() - began > 3:
            is_told = True
            others = [it for it in processes() if number and has_elsewhere(it, number)]
            said = state.text(state.waits)
            note(f"{folder}: waiting for {named(others)}, of another mount namespace, which has the mount too"
                 " (-u -f ends it)" if others else f"{folder}: waiting for the disk" + f": {said}" * bool(said))
        time.sleep(0.05)


def number_over(device, folder):
    """The number of what is mounted on a folder from a device, if nobody has noted it yet; None if nothing is."""
    top = top_of(folder)
    return top.number if top and top.source in (str(device), *loops_over(device), "grub-mount") else None


def recover(state, folder):
    """Takes down what a keeper left that was killed; nothing, or what went wrong."""
    kind, _, options = state.text(state.begun).partition(" ")
    was_up = state.text(state.up)
    keeper = Keeper({"state": state.path, "folder": folder, "options": options}, lambda *_: None)
    keeper.kind, keeper.number = kind, was_up or number_over(state.nbd, folder)
    if mount_of(folder) and mount_of(folder) == keeper.number:
        said = unmount_folder(folder)
        if said and mount_of(folder) and "not connected" not in said:
            raise Failed(f"'{folder}' stays mounted: {said}\nleave it, and give this again")
    state.remove_private()
    keeper.take_down()
    return keeper.problem if was_up else "its keeper had died before it was mounted"


def unmount(words):
    """Asks the keeper for the end of a mount, and waits for its result, which is the status."""
    for number in SIGNALS:
        signal.signal(number, signal.default_int_handler)  # it is broken off, and the keeper isn't
    signal.pthread_sigmask(signal.SIG_UNBLOCK, BLOCKED)
    state, folder = State(words["state"]), words["folder"]
    try:
        result = open(state.result, "r+", errors="surrogateescape")
    except FileNotFoundError:
        state.remove_rest()
        if open_below(folder, 0):
            note(f"{folder}: a signal has ended its mount; now it can be written to again")
            return 0
        raise Failed(f"nothing was mounted on '{folder}' by this script") from None
    with result:
        if is_held(result):
            ask(state, folder, "f" in words["options"])
            wait_for_result(state, result, folder)
        status, _, text = result.read().strip().partition("\n")
        if not status and os.path.exists(state.device):
            text = recover(state, folder)
            status = "1" if text else "0"
        if mount_of(folder) and mount_of(folder) == state.text(state.up):
            unmount_by("fusermount3", "-uz", folder)  # what has died
        open_below(folder, int(state.text(state.below) or "0", 8))
        if os.fstat(result.fileno()).st_nlink:
            state.remove()
    if status not in ("", "0"):
        raise Failed(f"{folder}: {text}")
    note(f"{folder}: unmounted, all is flushed" if status else f"{folder}: nothing was mounted yet")
    return 0


def show_mounts(words):
    """Lists the mounts, and those that went wrong and whose end nobody asked for since: status 1 if there are such."""
    top, status = Path(words["state"]), 0
    for path in sorted(top.iterdir()) if top.is_dir() else ():
        state = State(path)
        with contextlib.suppress(FileNotFoundError), open(state.result, "rb") as result:
            folder, image = json.loads(state.text(state.of) or '["?", "?"]')
            kind, _, options = state.text(state.begun).partition(" ")
            if not is_held(result):
                how, status = f"went wrong: give -u {shlex.quote(folder)}", 1
            elif state.text(state.lost):
                how, status = f"goes wrong: {state.text(state.lost)}", 1
            elif os.path.exists(state.up):
                how = kind + ", read-only" * ("r" in options) + ", by the kernel" * ("K" in options)
            else:
                how = "begins, or ends"
            say(f"{folder}: {image} ({how})")
    return status


def main(called, what, *pairs):
    words = dict(pair.split("=", 1) for pair in pairs)
    words["called"] = called
    os.environ["LC_ALL"] = "C"  # what programs say is looked at: it mustn't be in another language
    os.environ.pop("LANGUAGE", None)
    for stream in sys.stdout, sys.stderr:
        stream.reconfigure(errors="surrogateescape")  # a name need be no UTF-8
    try:
        return {"mount": mount, "unmount": unmount, "list": show_mounts}[what](words)
    except (Failed, OSError) as failed:
        note(f"{called}: {failed}")
        return 1
    except KeyboardInterrupt:
        return 130


if __name__ == "__main__":
    sys.exit(main(*sys.argv[1:]))

"""nbd_server.py: runs geli-nbd(8) for one client, or for those of a socket, and writes down how it ended.

    python3 nbd_server.py ended=FILE [partition=NUMBER] -- GELI-NBD WORD... IMAGE
    python3 nbd_server.py ended=FILE [partition=NUMBER] socket=SOCKET clients=FILE pid=FILE -- GELI-NBD WORD... IMAGE

No byte of a client goes through it. In the first form the client is on the standard streams, which geli-nbd gets. For a
partition nbdkit(1) stands between, with its filter and its plugin nbd, and has a socket to geli-nbd.

In the second form nbdkit stands between for the clients of a socket, so that the key is derived once. It answers once
the provider is attached and the socket is there, and runs on in the background; `pid` has its number. SIGTERM, SIGINT
or SIGHUP to it let nobody new in, and end the server once nobody is connected: `clients` has the numbers of the
processes that are, a line for each, 0 where that isn't known. Those signals to nbdkit and geli-nbd do nothing. Where it
is killed they end too, once nobody is connected.

`ended` gets `ok` in the end, or what went wrong. geli-nbd flushes the provider however its client ends, and its status
tells whether any write or flush was refused. How many of those of a socket were, nbdkit's filter log tells.
"""
import calendar
import contextlib
import fcntl
import mmap
import os
import re
import resource
import signal
import socket
import struct
import subprocess
import sys
import time
from pathlib import Path

sys.path.insert(0, os.path.dirname(os.path.abspath(__file__)))  # which python3 -I leaves out
from lib import Failed, Identity, Refusals, close_others, descriptors_of, files_of, note, told

SIGNALS = {signal.SIGTERM, signal.SIGINT, signal.SIGHUP}
CONNECTED = "03"  # of a row of /proc/net/unix
EXPORT_NAME = 1  # the option of NBD that asks for the data
LOOK = 0.5  # seconds after which it is looked again whether something was refused
ROOM = 4096  # bytes of the file that says how it ended
AHEAD = 1 << 26  # bytes that the log may have that weren't looked at yet
REFUSAL = re.compile(rb"\.\.\.(?:Write|Zero|Flush) id=\d+ return=-1 ")  # of a line of the log
STATUSES = {
    3: "its client couldn't be read",
    4: "its client went away before it was answered",
    5: "there was no memory to begin",
    6: "its client said what the protocol doesn't have",
}


def how_it_ended(status, said, refusals):
    """What the status of geli-nbd, its standard error and the log say: `ok`, or what went wrong."""
    if status == 0:
        return "ok"
    if status < 0:
        return f"geli-nbd was ended by {signal.Signals(-status).name}"
    if said.startswith("error "):
        return f"attach: {told(said, refusals.files)}"
    if status == 1:
        return str(refusals)
    return STATUSES.get(status, said or f"geli-nbd ended with status {status}")


def reserve(file):
    """Makes a file whose words are written in the end, so that there is room for them then."""
    Path(file).unlink(missing_ok=True)
    with open(file, "x", encoding="ascii") as blanks:  # no link of another's
        blanks.write(" " * ROOM)


def write_over(file, text):
    """Writes the words of a file for which there is room."""
    with open(file, "r+", errors="surrogateescape") as words:
        words.write((text + "\n")[:ROOM])
        words.truncate()


def put(file, text):
    """Writes a file as a whole: who sees it sees all of it."""
    new = Path(f"{file}.new")
    new.unlink(missing_ok=True)
    with open(new, "x", errors="surrogateescape") as lines:  # no link of another's
        lines.write(text + "\n")
    new.replace(file)


def in_child():
    """In a program that is started: what ends this one doesn't end it."""
    signal.pthread_sigmask(signal.SIG_BLOCK, SIGNALS)


def limit_files(process, size):
    """Lets a process, 0 for this one, write no file beyond this size."""
    _, most = resource.prlimit(process, resource.RLIMIT_FSIZE)
    size = size if most == resource.RLIM_INFINITY else min(size, most)
    resource.prlimit(process, resource.RLIMIT_FSIZE, (size, most))


class Log:
    """What nbdkit's filter log writes: a line when a request begins, and one when it has ended. It lies in memory, so
    that no client waits for its reader. What was read is freed; if nobody reads it, it ends at its limit."""

    def __init__(self, refusals):
        self.refusals = refusals
        self.file = os.memfd_create("log")
        self.at = 0  # the first byte that wasn't read yet
        self.limit = AHEAD

    def words(self):
        return [f"logfile=/dev/fd/{self.file}", "logappend=true"]

    def in_child(self):
        in_child()
        signal.signal(signal.SIGXFSZ, signal.SIG_IGN)
        limit_files(0, self.limit)

    def read(self, process):
        """Counts what was refused since the last time, and lets the process write on."""
        size, first = os.fstat(self.file).st_size, self.at // mmap.PAGESIZE * mmap.PAGESIZE
        if size == self.at:
            return
        if size >= self.limit:
            self.refusals.is_whole = False
        with mmap.mmap(self.file, size - first, offset=first) as lines:
            for found in REFUSAL.finditer(lines, self.at - first):
                self.refusals.add(self.moment(lines, found.start()))
            end = lines.rfind(b"\n") + 1
            self.at = first + end
            with contextlib.suppress(OSError):  # it grows no more if this can't be, or the process has ended
                lines.madvise(mmap.MADV_REMOVE, 0, end // mmap.PAGESIZE * mmap.PAGESIZE)
                limit_files(process, self.at + AHEAD)
                self.limit = self.at + AHEAD

    @staticmethod
    def moment(lines, at):
        """The time, in UTC, that the line of this byte begins with, in seconds; None if it was cut at the limit."""
        start = lines.rfind(b"\n", 0, at) + 1
        with contextlib.suppress(ValueError):
            return calendar.timegm(time.strptime(lines[start:start + 19].decode(), "%Y-%m-%d %H:%M:%S"))
        return None


class Server:
    """A geli-nbd, and nbdkit in front of it if that is needed."""

    def __init__(self, words, command):
        self.words, self.command = words, command
        self.secrets = descriptors_of(" ".join(command[:-1]))
        self.refusals = Refusals(list(map(os.path.realpath, files_of(command[-1]))))  # the folder is another later
        self.were = list(map(Identity, self.refusals.files))
        self.geli = self.nbdkit = self.log = self.said = None

    def start_geli(self, **streams):
        if "socket" in self.words:
            streams["pass_fds"] = self.secrets
        else:
            # What waits for the end of all programs of a mount, by a lock that they inherit, waits for geli-nbd too.
            streams["close_fds"] = False
        self.geli = subprocess.Popen(self.command, stderr=subprocess.PIPE, preexec_fn=in_child, **streams)

    def start_behind_nbdkit(self, *options, ends_with=None):
        """Starts geli-nbd on a socket, waits until it has attached the provider, and starts nbdkit over it. That logs
        what is refused, and ends once nobody is connected and the pipe `ends_with` has ended."""
        front, back = socket.socketpair()
        with front:
            with back:
                self.start_geli(stdin=back, stdout=back)
            if not front.recv(1, socket.MSG_PEEK):
                return
            words, kept = [f"socket-fd={front.fileno()}"], [front.fileno()]
            if ends_with:
                self.log = Log(self.refusals)
                options += ("--filter=exitwhen", "--filter=log")
                words += [f"exit-when-pipe-closed={ends_with}", "exit-when-poll=1", *self.log.words()]
                kept += [ends_with, self.log.file]
            if "partition" in self.words:
                options += ("--filter=partition",)
                words.append(f"partition={self.words['partition']}")
            # Its clients would be refused after a SIGTERM.
            start = self.log.in_child if self.log else in_child
            # In the background it keeps no terminal or pipe of the caller's open, which others may wait for.
            if ends_with:
                self.said = os.memfd_create("said")
                fcntl.fcntl(self.said, fcntl.F_SETFL, os.O_APPEND)
            self.nbdkit = subprocess.Popen(["nbdkit", *options, "nbd", *words], preexec_fn=start, pass_fds=kept,
                                           stderr=self.said)

    def lets_in(self, path):
        """Whether nbdkit serves at the socket: a client asks for the data, and hears how many bytes they are."""
        while self.nbdkit and self.nbdkit.poll() is None:
            with contextlib.suppress(FileNotFoundError, ConnectionRefusedError):  # it isn't listened at yet
                return self.answers(path)
            time.sleep(0.02)
        return False

    @staticmethod
    def answers(path):
        with socket.socket(socket.AF_UNIX) as client:
            client.connect(path)
            with contextlib.suppress(OSError):  # it may be reset
                client.recv(18, socket.MSG_WAITALL)
                client.sendall(struct.pack(">I8sII", 3, b"IHAVEOPT", EXPORT_NAME, 0))
                return len(client.recv(10, socket.MSG_WAITALL)) == 10
        return False

    def look(self):
        """Looks whether something was refused."""
        if self.log:
            self.log.read(self.nbdkit.pid)
        if self.said is not None:
            os.ftruncate(self.said, 0)  # of clients that it refused

    def wait(self):
        """Waits for the end of both, and writes down how it went; what it wrote down."""
        if self.nbdkit:
            self.nbdkit.wait()
            self.look()
        said = self.geli.stderr.read().decode(errors="replace").strip()
        text = how_it_ended(self.geli.wait(), said, self.refusals)
        if text == "ok":
            text = next(filter(None, (was.became() for was in self.were)), "ok")
        write_over(self.words["ended"], text)
        return text


def serve_streams(server):
    """Serves the client on the standard streams."""
    if "partition" in server.words:
        server.start_behind_nbdkit("-s")
    else:
        server.start_geli()
    # The client is the other end's alone, so that its end is seen.
    null = os.open(os.devnull, os.O_RDWR)
    os.dup2(null, 0)
    os.dup2(null, 1)
    return 0 if server.wait() == "ok" else 1


class Socket:
    """Who is connected at a socket."""

    def __init__(self, path):
        self.path = path

    def rows(self):
        """The rows of the connections that were let in, by /proc/net/unix."""
        with open("/proc/net/unix", encoding="utf-8", errors="surrogateescape") as rows:
            fields = [row.rstrip("\n").split(None, 7) for row in rows]
        return [row for row in fields if len(row) == 8 and row[7] == self.path and row[5] == CONNECTED]

    def processes(self):
        """The numbers of the processes that are connected, as far as ss(8) is there and says them; else 0."""
        by_socket = {}
        with contextlib.suppress(OSError):
            ran = subprocess.run(["ss", "-xpH"], stdout=subprocess.PIPE, stderr=subprocess.DEVNULL, check=False)
            for row in ran.stdout.decode(errors="replace").splitlines():
                fields, _, users = row.partition(" users:")
                number = users.partition("pid=")[2].partition(",")[0]
                if len(fields.split()) >= 4 and number:
                    by_socket[fields.split()[-3], fields.split()[-1]] = number
        ends = {row[6] for row in self.rows()}
        return [by_socket.get((peer, end), "0") for end in ends
                for peer in [other for other, back in by_socket if back == end] or ["0"]]


def serve_socket(server):
    """Serves the clients of a socket in the background; returns once it is there."""
    reads, writes = os.pipe()
    if os.fork():
        os.close(writes)
        with open(reads, encoding="utf-8", errors="replace") as pipe:
            said = pipe.read().strip()
        if said != "up":
            raise Failed(said or "the server has died")
        return 0
    signal.pthread_sigmask(signal.SIG_BLOCK, SIGNALS | {signal.SIGCHLD})
    words, path = server.words, server.words["socket"]
    close_others([writes, *server.secrets])
    ends_with, _ = os.pipe()  # if this process is killed
    server.start_behind_nbdkit("-f", "-U", path, ends_with=ends_with)
    os.close(ends_with)
    if not server.lets_in(path):
        os.write(writes, give_up(server, path).encode(errors="replace"))
        return 1
    put(words["pid"], str(os.getpid()))
    os.write(writes, b"up")
    os.close(writes)
    null = os.open(os.devnull, os.O_RDWR)
    for number in 0, 1, 2:
        os.dup2(null, number)
    os.chdir("/")
    wait_for_end(server, Socket(path))
    server.wait()
    return 0


def give_up(server, path):
    """Ends a server that serves nobody; what it says of that."""
    said = os.pread(server.said, 4096, 0).decode(errors="replace").strip() if server.said is not None else ""
    if server.nbdkit:
        server.nbdkit.kill()
    text = server.wait()
    for name in server.words["ended"], path:
        Path(name).unlink(missing_ok=True)
    return text if text != "ok" else said or "nbdkit couldn't serve it"


def wait_for_end(server, place):
    """Waits for a signal, and then for the end of the clients; or until nbdkit or geli-nbd ended by themselves."""
    ends = False
    while server.nbdkit.poll() is None and server.geli.poll() is None:
        got = signal.sigtimedwait(SIGNALS | {signal.SIGCHLD}, 0.1 if ends else LOOK)
        server.look()
        if got and got.si_signo in SIGNALS and not ends:
            ends = True
            with contextlib.suppress(OSError):
                os.unlink(place.path)
        if ends and not place.rows():
            break
        if ends:
            put(server.words["clients"], "\n".join(place.processes()))
    for name in server.words["clients"], place.path:
        Path(name).unlink(missing_ok=True)
    server.nbdkit.kill()  # nobody is connected; the server flushes the provider


def main(*words):
    at = words.index("--")
    server = Server(dict(word.split("=", 1) for word in words[:at]), list(words[at + 1:]))
    try:
        reserve(server.words["ended"])
        return serve_socket(server) if "socket" in server.words else serve_streams(server)
    except (Failed, OSError) as failed:
        note(f"nbd_server.py: {failed}" if not isinstance(failed, Failed) else str(failed))
        return 1


if __name__ == "__main__":
    sys.exit(main(*sys.argv[1:]))

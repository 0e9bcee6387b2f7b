"""nbd_tries.py: what tools/try_nbd.sh does with geli-nbd in Python. Each function is a case.

The environment names what is tried: IMAGE is the image, whose key is of the file `key`, GELI_NBD and GELI are the
programs. What nbdsh runs has libnbd's module `nbd`; `hostile` needs none. What a client should see is a model here: an
array of bytes, and a reader of the protocol.
"""
import contextlib
import errno
import hashlib
import os
import random
import select
import signal
import socket
import struct
import subprocess
import threading
import time

MAGIC, REPLY = 0x25609513, 0x67446698
READ, WRITE, DISC, FLUSH, TRIM, ZEROES = 0, 1, 2, 3, 4, 6
FUA, NO_HOLE = 1, 2
EXPORT_NAME, ABORT, LIST, INFO, GO = 1, 2, 3, 6, 7
MOST = 32 << 20
WORDS = ["-p", "-k", "key"]


def command(*words):
    """The words that start geli-nbd; its status goes to the file `status`."""
    started = [*os.environ.get("PREFIX", "").split(), os.environ["GELI_NBD"], *words, *WORDS, os.environ["IMAGE"]]
    return ["sh", "-c", '"$@"; echo $? >status', "", *started]


def connected(*words):
    import nbd
    handle = nbd.NBD()
    handle.connect_command(command(*words))
    handle.set_strict_mode(0)  # what the protocol refuses is asked too
    return handle


def ended(handle):
    """Ends the session, and gives the status."""
    handle.shutdown()
    handle.close() if hasattr(handle, "close") else None
    del handle
    for _ in range(200):
        with contextlib.suppress(OSError, ValueError):
            return int(open("status", encoding="ascii").read())
        time.sleep(0.05)
    raise AssertionError("it doesn't end")


def is_refused(number, work, *words):
    import nbd
    try:
        work(*words)
    except nbd.Error as failed:
        return failed.errnum == number
    return False


def put_all(handle, data):
    for at in range(0, len(data), 1 << 20):
        handle.pwrite(data[at:at + (1 << 20)], at)


def sizes():
    return random.choice([1, 2, 7, 511, 512, 513, 4095, 4096, 4097, 65535, 65536, 65537, random.randint(1, 1 << 20)])


def requests():
    """Many requests at odd places."""
    random.seed(7)
    with contextlib.suppress(OSError):
        os.remove("status")
    handle = connected()
    size = handle.get_size()
    model = bytearray(random.randbytes(size))
    put_all(handle, model)
    refused = False
    for _ in range(int(os.environ["REQUESTS"])):
        kind, count = random.random(), min(sizes(), size)
        at = random.choice([random.randrange(size), random.randrange(size) // 4096 * 4096, size - count])
        count = min(count, size - at)
        if kind < 0.4:
            assert handle.pread(count, at) == model[at:at + count], (at, count)
        elif kind < 0.8:
            piece = random.randbytes(count)
            handle.pwrite(piece, at, random.choice([0, 0, FUA]))
            model[at:at + count] = piece
        elif kind < 0.88:
            handle.zero(count, at, random.choice([0, FUA, NO_HOLE, FUA | NO_HOLE]))
            model[at:at + count] = bytes(count)
        elif kind < 0.94:
            handle.flush()
        else:
            refused = True
            ask_in_vain(handle, size)
    assert handle.pread(size, 0) == model if size <= MOST else True
    with open("model.sum", "w", encoding="ascii") as file:
        file.write(hashlib.sha256(model).hexdigest())
    status = ended(handle)
    assert status == int(refused), status


def ask_in_vain(handle, size):
    """Requests that are refused, and change nothing; each first kind is a write, so that the status tells it."""
    assert is_refused(errno.ENOSPC, handle.pwrite, b"x" * 5000, size - 4999)
    assert is_refused(errno.ENOSPC, handle.zero, 100, size)
    assert is_refused(errno.ENOSPC, handle.zero, (1 << 32) - 1, 1)
    assert is_refused(errno.EINVAL, handle.pread, 5000, size - 4999)
    assert is_refused(errno.EINVAL, handle.pread, 1, 1 << 62)
    assert is_refused(errno.EINVAL, handle.pwrite, b"", 0)
    assert is_refused(errno.EINVAL, handle.trim, 4096, 0)


def read_only():
    handle = connected("-r")
    size = handle.get_size()
    digest = hashlib.sha256(b"".join(handle.pread(min(1 << 20, size - at), at) for at in range(0, size, 1 << 20)))
    assert digest.hexdigest() == open("model.sum", encoding="ascii").read()
    assert handle.is_read_only()
    assert is_refused(errno.EPERM, handle.pwrite, b"x" * 4096, 0)
    assert is_refused(errno.EPERM, handle.zero, 4096, 0)
    handle.flush()
    assert ended(handle) == 1


def full():
    """Writes until the disk is full."""
    with contextlib.suppress(OSError):
        os.remove("status")
    handle = connected()
    at = 0
    while not is_refused(errno.ENOSPC, handle.pwrite, bytes([at // 65536 % 251]) * 65536, at):
        at += 65536
        assert at < handle.get_size()
    for before in range(0, at, 65536):
        assert handle.pread(65536, before) == bytes([before // 65536 % 251]) * 65536, before
    handle.pwrite(b"y" * 65536, 0)
    handle.flush()
    assert handle.pread(65536, 0) == b"y" * 65536
    assert ended(handle) == 1


def many_zeros():
    """A request for more zeros than 32 MiB, from the second byte to the last but one, and one that passes the end."""
    with contextlib.suppress(OSError):
        os.remove("status")
    handle = connected()
    size = handle.get_size()
    assert MOST < size < 1 << 32
    for at in (0, MOST, size - 4096):
        handle.pwrite(b"x" * 4096, at)
    assert is_refused(errno.ENOSPC, handle.zero, size - 1, 2)
    assert handle.pread(4096, MOST) == b"x" * 4096
    handle.zero(size - 2, 1, FUA)
    assert handle.pread(4096, 0) == b"x" + bytes(4095)
    assert handle.pread(4096, size - 4096) == bytes(4095) + b"x"
    for at in range(4096, size - 4096, 1 << 20):
        count = min(1 << 20, size - 4096 - at)
        assert handle.pread(count, at) == bytes(count), at
    assert ended(handle) == 1


class Waiting:
    """A client that sends nothing until it has its reply."""

    def __init__(self, stderr=None):
        words = [os.environ["GELI_NBD"], *WORDS, os.environ["IMAGE"]]
        self.server = subprocess.Popen(words, stdin=subprocess.PIPE, stdout=subprocess.PIPE, stderr=stderr, bufsize=0)

    def send(self, *pieces):
        """Sends a message in pieces, each some time after the one before."""
        for at, piece in enumerate(pieces):
            time.sleep(0.1 if at else 0)
            self.server.stdin.write(piece)

    def get(self, count):
        """So many bytes, of which each comes within a minute; nothing follows them at once."""
        got = b""
        while len(got) < count:
            assert select.select([self.server.stdout], [], [], 60)[0], f"{count} bytes are due, {len(got)} came"
            more = os.read(self.server.stdout.fileno(), count - len(got))
            assert more, f"it ended where {count} bytes were due"
            got += more
        assert not select.select([self.server.stdout], [], [], 0.05)[0], "more came than was due"
        return got

    def reply(self, *pieces):
        """The error of the reply to a request."""
        self.send(*pieces)
        magic, error, _ = struct.unpack(">IIQ", self.get(16))
        assert magic == REPLY
        return error


def waiting():
    """Each reply comes before the next message is sent: of the negotiation, of each kind of request, and of a write
    whose bytes come late."""
    client = Waiting()
    client.get(18)
    client.send(b"\0\0\0\3")
    for asks, count in (option(8), 20), (option(LIST), 44), (option(INFO, bytes(6)), 86), (option(GO, bytes(6)), 86):
        client.send(asks)
        client.get(count)
    data = random.randbytes(9000)
    head = asked(WRITE, 0, 777, len(data))
    assert client.reply(head, data[:1], data[1:5000], data[5000:]) == 0
    client.send(asked(READ, 0, 777, len(data)))
    assert client.get(16 + len(data))[16:] == data
    head = asked(WRITE, FUA, 777, 512)
    assert client.reply(head[:20], head[20:] + data[:100], data[100:512]) == 0
    assert client.reply(asked(FLUSH, 0, 0, 0)) == 0
    assert client.reply(asked(ZEROES, 0, 0, 4096)) == 0
    assert client.reply(asked(TRIM, 0, 0, 4096)) == errno.EINVAL
    assert client.reply(asked(77, 0, 0, 4096)) == errno.EINVAL
    assert client.reply(asked(READ, 0, 1 << 60, 1)) == errno.EINVAL
    client.send(asked(DISC, 0, 0, 0))
    assert client.server.wait(60) == 0


def ran_on(said, prefix=()):
    """The status of geli-nbd for a client that says this and goes away, and what it says itself."""
    ran = subprocess.run([*prefix, os.environ["GELI_NBD"], *WORDS, os.environ["IMAGE"]], input=said,
                         stdout=subprocess.DEVNULL, stderr=subprocess.PIPE, check=False, timeout=120)
    return ran.returncode, ran.stderr.decode()


def ends():
    """A session that was refused something ends with 1, however its client goes, and says what it was."""
    begins = b"\0\0\0\3" + option(GO, bytes(6))
    past = 1 << 40
    refused = begins + asked(WRITE, 0, past, 5, b"12345") + asked(ZEROES, 0, past, 4096) + asked(FLUSH, 2, 0, 0)
    words = end_words(1, 1, 1, f"write at {past}, past the end")
    garbage, too_long, cut = bytes(28), asked(WRITE, 0, 0, MOST + 1), asked(WRITE, 0, 0, 512, bytes(100))
    for tail, status in (asked(DISC, 0, 0, 0), 0), (b"", 0), (garbage[:5], 0), (cut, 0), (garbage, 6), (too_long, 6):
        assert ran_on(begins + tail) == (status, ""), tail[:28]
        assert ran_on(refused + tail) == (1, words), tail[:28]
    assert ran_on(begins + asked(FLUSH, 2, 0, 0)) == (1, end_words(0, 0, 1, "flush, invalid request"))


def goes_early():
    """A client that goes away before the reply to a request that is refused: the status is 1 and not 4."""
    for offset, status in (0, 4), (1 << 40, 1):
        client = Waiting(stderr=subprocess.PIPE)
        client.get(18)
        client.send(b"\0\0\0\3" + option(GO, bytes(6)))
        client.get(86)
        client.server.stdout.close()
        client.send(asked(WRITE, 0, offset, 5, b"12345"))
        said = client.server.stderr.read().decode()
        assert said == (end_words(1, 0, 0, f"write at {offset}, past the end") if status == 1 else ""), said
        assert client.server.wait(60) == status


def last_flush_fails():
    """A last flush that fails: the status is 1, which is said, however the client goes."""
    prefix = ["strace", "-f", "-o", "/dev/null", "-e", "inject=fsync,fdatasync:error=EIO"]
    begins = b"\0\0\0\3" + option(GO, bytes(6)) + asked(WRITE, 0, 0, 5, b"12345")
    for tail in asked(DISC, 0, 0, 0), b"", bytes(28):
        assert ran_on(begins + tail, prefix) == (1, end_words(0, 0, 0, None, "failed"))
    said = begins + asked(FLUSH, 0, 0, 0)
    assert ran_on(said, prefix) == (1, end_words(0, 0, 1, "flush, input or output error", "failed"))


def content():
    """What the provider has, as geli reads it."""
    image = os.environ["IMAGE"]

    def script(*lines):
        ran = subprocess.run([os.environ["GELI"], "script", image], input="\n".join(lines).encode() + b"\n",
                             stdout=subprocess.PIPE, check=True)
        return ran.stdout.decode().split("\n")

    attach = f"attach -r -p -k key {image}"
    width, sectors = map(int, script(attach, "list")[1].split(" ")[2:])
    step = 65536 // width
    lines = [f"read {image} {at} {min(step, sectors - at)}" for at in range(0, sectors, step)]
    replies = script(attach, *lines)[1:1 + len(lines)]
    assert all(reply.startswith("ok ") for reply in replies), replies
    return bytearray(bytes.fromhex("".join(reply[3:] for reply in replies)))


def killed():
    """SIGKILL while a client writes: every write that was answered is there, and of the one that wasn't each block of
    512 bytes is old or new."""
    import nbd
    random.seed(8)
    model = content()
    answered = 0
    for moment in range(int(os.environ["MOMENTS"])):
        ours, theirs = socket.socketpair()
        with theirs:
            words = [os.environ["GELI_NBD"], *WORDS, os.environ["IMAGE"]]
            process = subprocess.Popen(words, stdin=theirs, stdout=theirs)
        handle = nbd.NBD()
        handle.connect_socket(ours.detach())
        timer = threading.Timer(0.002 + random.random() * 0.3, process.kill)
        timer.start()
        begin = end = 0
        piece = b""
        try:
            while True:
                count = random.choice([100, 512, 4096, 50000, 300000])
                begin = random.randrange(len(model) - count)
                piece, end = random.randbytes(count), begin + count
                handle.pwrite(piece, begin, random.choice([0, FUA]))
                model[begin:end] = piece
                answered += 1
                if random.random() < 0.2:
                    begin = end = 0
                    handle.flush()
        except nbd.Error:
            pass
        assert process.wait() == -signal.SIGKILL
        timer.cancel()
        now, new = content(), bytearray(model)
        new[begin:end] = piece[:end - begin]
        for at in range(0, len(model), 512):
            block = bytes(now[at:at + 512])
            assert block in (model[at:at + 512], new[at:at + 512]), (moment, at)
        model = now
    print(f"  {answered} writes were answered")


def end_words(writes, zeros, flushes, first, last="made"):
    """What geli-nbd says at its end."""
    first = f"first refused: {first}\n" if first else ""
    return f"refused: writes {writes}, zeros {zeros}, flushes {flushes}\n{first}last flush: {last}\n"


class Client:
    """A reader of a client's bytes by doc/proto.md: what a server does with them."""

    def __init__(self, said, model):
        self.said, self.at, self.model = said, 0, model
        self.is_malformed = False
        self.refused, self.first, self.wrote = {"write": 0, "zeros": 0, "flush": 0}, None, 0
        with contextlib.suppress(EOFError):
            if self.negotiated():
                while self.request():
                    pass

    def take(self, count):
        if self.at + count > len(self.said):
            raise EOFError
        self.at += count
        return self.said[self.at - count:self.at]

    def malformed(self):
        self.is_malformed = True
        return False

    def negotiated(self):
        """Whether requests follow."""
        flags = int.from_bytes(self.take(4), "big")
        if flags & ~3:
            return self.malformed()
        while True:
            magic, option, size = struct.unpack(">8sII", self.take(16))
            if magic != b"IHAVEOPT" or size > 16384 or (not flags & 1 and option != EXPORT_NAME):
                return self.malformed()
            data = self.take(size)
            if option == EXPORT_NAME or (option == GO and has_shape(data)):
                return True
            if option == ABORT:
                return False

    def request(self):
        """Does what a request asks; whether another may follow."""
        magic, flags, kind, _, offset, count = struct.unpack(">IHHQQI", self.take(28))
        if magic != MAGIC or (kind == WRITE and count > MOST):
            return self.malformed()
        if kind == DISC:
            return False
        payload = self.take(count) if kind == WRITE else b""
        most = FUA | NO_HOLE if kind == ZEROES else FUA
        if kind in (WRITE, ZEROES):
            if flags > most or count == 0:
                self.refuse("write" if kind == WRITE else "zeros", f" at {offset}, invalid request")
            elif offset + count > len(self.model):
                self.refuse("write" if kind == WRITE else "zeros", f" at {offset}, past the end")
            else:
                self.model[offset:offset + count] = payload or bytes(count)
                self.wrote += 1
        elif kind == FLUSH and flags > FUA:
            self.refuse("flush", ", invalid request")
        return True

    def refuse(self, what, why):
        self.refused[what] += 1
        self.first = self.first or what + why

    def words(self):
        """What is said at the end of what was refused."""
        return end_words(*self.refused.values(), self.first) if self.first else ""


def has_shape(data):
    """The data of INFO and GO: a name with its length, and a number of infos of two bytes."""
    if len(data) < 6:
        return False
    name = int.from_bytes(data[:4], "big")
    return len(data) >= name + 6 and len(data) == name + 6 + 2 * int.from_bytes(data[4 + name:6 + name], "big")


def option(kind, data=b""):
    return struct.pack(">8sII", b"IHAVEOPT", kind, len(data)) + data


def asked(kind, flags, offset, count, payload=b""):
    return struct.pack(">IHHQQI", MAGIC, flags, kind, random.getrandbits(64), offset, count) + payload


def some_request(size):
    kind = random.choice([READ, WRITE, WRITE, WRITE, FLUSH, TRIM, ZEROES, ZEROES, random.getrandbits(16)])
    count = random.choice([0, 1, 100, 512, 700, 4096, 9000, random.getrandbits(32)])
    places = [0, 512, 777, size - 100, size - count, size, random.randrange(size), random.getrandbits(64)]
    offset = max(random.choice(places), 0)
    flags = random.choice([0, 0, 0, 0, FUA, NO_HOLE, 3, random.getrandbits(16)])
    if kind == FLUSH and random.random() < 0.8:
        flags = offset = count = 0
    payload = random.randbytes(min(count, 20000)) if kind == WRITE else b""
    return asked(kind, flags, offset, count, payload)


def some_session(size):
    name = random.randbytes(random.choice([0, 0, 5, 300]))
    infos = random.choice([b"\0\0", b"\0\1\0\3", b"\0\2\0\0\0\3", random.randbytes(2)])
    shape = struct.pack(">I", len(name)) + name + infos
    parts = [random.choice([b"\0\0\0\1", b"\0\0\0\3", b"\0\0\0\3", b"\0\0\0\3", b"\0\0\0\0", random.randbytes(4)])]
    for _ in range(random.choice([0, 0, 1, 3])):
        parts.append(option(random.choice([LIST, INFO, ABORT, 5, 8, 9, 10, random.getrandbits(32)]),
                            random.choice([b"", shape, random.randbytes(30), bytes(17000)])))
    parts.append(random.choice([option(GO, shape), option(GO, bytes(6)), option(EXPORT_NAME, name)]))
    parts += [some_request(size) for _ in range(random.choice([0, 1, 3, 8]))]
    if random.random() < 0.5:
        parts.append(asked(DISC, 0, 0, 0))
    return b"".join(parts)


def mutated(session):
    """The session with some of its bytes otherwise, cut off, or twice."""
    how, bytes_ = random.random(), bytearray(session)
    if how < 0.4:
        return session
    if how < 0.5:
        return random.randbytes(random.randrange(300))
    for _ in range(random.choice([1, 1, 2, 10])):
        at = random.randrange(len(bytes_) + 1)
        if how < 0.75 and at < len(bytes_):
            bytes_[at] = random.getrandbits(8)
        elif how < 0.85:
            del bytes_[at:]
        elif how < 0.92:
            bytes_[at:at] = random.randbytes(random.randrange(20))
        else:
            bytes_[at:at] = bytes_[max(0, at - 40):at]
    return bytes(bytes_)


def hostile():
    """Sessions of what is no client."""
    random.seed(int(os.environ.get("SEED", "9")))
    image = os.environ["IMAGE"]
    model, statuses, wrote = content(), {}, 0
    for number in range(int(os.environ["SESSIONS"])):
        said = mutated(some_session(len(model)))
        before = open(image, "rb").read()
        client = Client(said, bytearray(model))
        try:
            ran = subprocess.run([os.environ["GELI_NBD"], *WORDS, image], input=said, stdout=subprocess.PIPE,
                                 stderr=subprocess.PIPE, check=False, timeout=120)
            wanted = 1 if client.first else 6 if client.is_malformed else 0
            assert ran.returncode == wanted, f"status {ran.returncode} where {wanted} was to come"
            assert ran.stdout.startswith(b"NBDMAGICIHAVEOPT\0\3")
            assert ran.stderr.decode() == client.words(), f"it said {ran.stderr}"
            if client.wrote:
                assert content() == client.model, "other bytes are in it"
            else:
                assert open(image, "rb").read() == before, "the image was changed"
        except (AssertionError, subprocess.TimeoutExpired) as failed:
            raise AssertionError(f"session {number}: {failed}: {said[:2000].hex()}") from failed
        model = client.model
        wrote += bool(client.wrote)
        statuses[ran.returncode] = statuses.get(ran.returncode, 0) + 1
    print(f"  {wrote} of them wrote; statuses: {dict(sorted(statuses.items()))}")

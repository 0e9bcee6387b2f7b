"""What the tests share: a folder with a key file and a passphrase, a fake geli, and the words of the command."""
from __future__ import annotations

import os
import pathlib
import pty
import select
import sys
import tempfile
from collections.abc import Sequence
from dataclasses import dataclass

import pytest

KIT = pathlib.Path(__file__).resolve().parent.parent
sys.path.insert(0, str(KIT))
from vuthrel.cli import main  # noqa: E402  # pylint: disable=wrong-import-position

FAKE = KIT / "tests" / "fake_geli.py"
COMMAND = str(KIT.parent / "vuthrel")


@dataclass(frozen=True)
class Ran:
    """How a command ended, and what it said."""

    status: int
    out: str
    err: str

    @property
    def said(self) -> str:
        return self.out + self.err


class Place:
    """A folder in which the command runs."""

    def __init__(self, folder: pathlib.Path) -> None:
        self.folder = folder
        self.notes = folder / "notes"
        self.env = {"PATH": os.environ["PATH"], "GELI": str(FAKE), "GELI_NBD": "none", "FAKE_NOTES": str(self.notes)}
        self.write("pass", b"a passphrase\n")
        self.write("key", b"k" * 64)

    def path(self, name: str) -> pathlib.Path:
        return self.folder / name

    def write(self, name: str, data: bytes) -> None:
        self.path(name).write_bytes(data)
        self.path(name).chmod(0o600)

    def read(self, name: str) -> bytes:
        return self.path(name).read_bytes()

    def go_on(self, words: Sequence[str], **env: str) -> None:
        """A child goes on as the command: no other interpreter is started."""
        status = 99
        try:
            os.chdir(self.folder)
            os.environ.clear()
            os.environ.update({**self.env, **env})
            sys.stdout = open(1, "w", encoding="utf-8")
            sys.stderr = open(2, "w", encoding="utf-8", errors="backslashreplace")
            status = main(words)
        except SystemExit as ended:
            status = ended.code if isinstance(ended.code, int) else 1
        finally:
            sys.stdout.flush()
            sys.stderr.flush()
            os._exit(status)  # pylint: disable=protected-access

    def run(self, *words: str, stdin: bytes = b"", fails: bool = False, **env: str) -> Ran:
        """Runs the command without a terminal; it must end as is expected."""
        with tempfile.TemporaryFile() as given, tempfile.TemporaryFile() as out, tempfile.TemporaryFile() as err:
            given.write(stdin)
            given.seek(0)
            child = os.fork()
            if child == 0:
                os.setsid()
                for number, file in enumerate((given, out, err)):
                    os.dup2(file.fileno(), number)
                self.go_on(words, **env)
            status = os.waitstatus_to_exitcode(os.waitpid(child, 0)[1])
            for file in out, err:
                file.seek(0)
            it = Ran(status, out.read().decode(errors="replace"), err.read().decode(errors="replace"))
        assert (it.status != 0) == fails, it
        return it

    def typed(self, answers: list[bytes], *words: str) -> Ran:
        """Runs the command at a terminal, and types an answer at each prompt."""
        process, terminal = pty.fork()
        if process == 0:
            self.go_on(words)
        said, waiting = b"", list(answers)
        while select.select([terminal], [], [], 20)[0]:
            try:
                piece = os.read(terminal, 4096)
            except OSError:
                break
            said += piece
            if waiting and said.rstrip(b" ").endswith(b":"):
                os.write(terminal, waiting.pop(0))
        os.close(terminal)
        return Ran(os.waitstatus_to_exitcode(os.waitpid(process, 0)[1]), said.decode(errors="replace"), "")

    def make(self, image: str = "a.img", *, size: str = "1M", tagged: bool = False) -> None:
        self.run("make", *["-a"] * tagged, "-i", "10", "-J", "pass", size, image, "key", f"{image}.backup")


KEY = ("-k", "key", "-j", "pass")


@pytest.fixture
def place(tmp_path: pathlib.Path) -> Place:
    return Place(tmp_path)


@pytest.fixture
def provider(place: Place) -> Place:  # pylint: disable=redefined-outer-name
    place.make()
    return place

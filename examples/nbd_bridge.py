"""nbd_bridge.py: the data that an NBD server serves, as the file FOLDER/nbd, with the kernel's write-back cache.

    python3 nbd_bridge.py FOLDER COMMAND WORD...

It stands where nbdfuse(1) would, which hands on each block of 4 KiB that a filesystem's program writes as a request of
its own. Here the kernel keeps what is written and hands it on in pieces of up to 1 MiB. A sync of the file writes that,
and flushes the server; so does the end of each program that had the file open, but for the flush.

COMMAND is the server, on its standard streams. The file is there once that has answered, until FOLDER is unmounted. A
request that was refused gets a line on standard error, in the words of libnbd. The kernel tells a refused write to the
next sync of the file, and to its close. It needs pyfuse3 and libnbd's python3 (Debian: python3-pyfuse3, python3-libnbd).
"""
import errno
import os
import stat
import sys
import time
from collections.abc import Callable, Sequence
from typing import Any, TypeVar

import nbd
import pyfuse3
import trio

T = TypeVar("T")
NAME, DISK = b"nbd", pyfuse3.ROOT_INODE + 1  # the file in the folder, and its number
ALWAYS = 1e6  # seconds for which the kernel may keep what it was told of the file: nobody else changes it


class Bridge(pyfuse3.Operations):
    """A folder with one file. Requests are served one after another, as geli-nbd(8) does."""

    def __init__(self, command: Sequence[str]) -> None:
        super().__init__()
        self.server = nbd.NBD()
        self.server.connect_command(list(command))
        self.size: int = self.server.get_size()
        self.reads_only: bool = self.server.is_read_only()
        self.enable_writeback_cache = not self.reads_only
        self.began = time.time_ns()

    @staticmethod
    def asked(request: Callable[..., T], *words: Any) -> T:
        """The answer to a request; a refusal is said, and is an error of the file."""
        try:
            return request(*words)
        except nbd.Error as refused:
            print(refused, file=sys.stderr, flush=True)
            raise pyfuse3.FUSEError(refused.errnum or errno.EIO) from None

    def attributes(self, inode: int) -> pyfuse3.EntryAttributes:
        it = pyfuse3.EntryAttributes()
        it.st_ino, it.st_uid, it.st_gid = inode, os.getuid(), os.getgid()
        it.entry_timeout = it.attr_timeout = ALWAYS
        it.st_atime_ns = it.st_mtime_ns = it.st_ctime_ns = self.began
        if inode == DISK:
            it.st_mode = stat.S_IFREG | (0o400 if self.reads_only else 0o600)
            it.st_size, it.st_blocks, it.st_blksize = self.size, self.size // 512, 4096
        else:
            it.st_mode, it.st_nlink = stat.S_IFDIR | 0o700, 2
        return it

    async def getattr(self, inode, ctx=None):
        return self.attributes(inode)

    async def setattr(self, inode, attr, fields, fh, ctx):
        """Times and modes stay as they are; so does the size, which somebody may give once more."""
        if fields.update_size and attr.st_size != self.size:
            raise pyfuse3.FUSEError(errno.EPERM)
        return self.attributes(inode)

    async def lookup(self, parent_inode, name, ctx=None):
        if parent_inode != pyfuse3.ROOT_INODE or name != NAME:
            raise pyfuse3.FUSEError(errno.ENOENT)
        return self.attributes(DISK)

    async def opendir(self, inode, ctx):
        return inode

    async def readdir(self, fh, start_id, token):
        if start_id == 0:
            pyfuse3.readdir_reply(token, NAME, self.attributes(DISK), 1)

    async def open(self, inode, flags, ctx):
        if self.reads_only and flags & os.O_ACCMODE != os.O_RDONLY:
            raise pyfuse3.FUSEError(errno.EROFS)
        return pyfuse3.FileInfo(fh=inode, keep_cache=True)

    async def read(self, fh, off, size):
        many = min(size, self.size - off)
        return self.asked(self.server.pread, many, off) if many > 0 else b""

    async def write(self, fh, off, buf):
        if off + len(buf) > self.size:
            raise pyfuse3.FUSEError(errno.ENOSPC)
        self.asked(self.server.pwrite, buf, off)
        return len(buf)

    async def fsync(self, fh, datasync):
        if not self.reads_only:
            self.asked(self.server.flush)

    async def flush(self, fh):
        """The kernel has written by now what it kept."""

    async def release(self, fh):
        """Nothing is kept of who has it open."""


def main(folder: str, *command: str) -> int:
    try:
        bridge = Bridge(command)
    except nbd.Error as failed:
        print(failed, file=sys.stderr)
        return 1
    try:
        pyfuse3.init(bridge, folder, {*pyfuse3.default_options, "fsname=geli"})
        try:
            trio.run(pyfuse3.main)
        finally:
            pyfuse3.close()
    except RuntimeError as failed:  # it can't be mounted
        print(failed, file=sys.stderr)
        return 1
    finally:
        try:
            bridge.server.shutdown()
        except nbd.Error as failed:
            print(failed, file=sys.stderr)
    return 0


if __name__ == "__main__":
    sys.exit(main(*sys.argv[1:]))

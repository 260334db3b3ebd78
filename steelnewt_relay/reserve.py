"""Room on a full disk for a refusal or a revocation: a file that is given up for these alone.

The outbox has such a file beside it, and a desk on this machine has one beside its store
(desk-reserve). While one of them is given up nothing else is kept or posted; it is made anew
before anything else.
"""

import os
import socket
import sqlite3
import stat
from contextlib import suppress

NAME, SIZE = "reserve", 4 << 20
# What the disk has to have beside a reserve before that is made, and at least for any message.
SPARE, LEAST = 1 << 20, 1 << 16
# What SQLite says where a disk has no room: for a page, a file, or the memory that programs share.
FULL = (sqlite3.SQLITE_FULL, sqlite3.SQLITE_IOERR, sqlite3.SQLITE_CANTOPEN)
OF_DESK = "/run/desk-reserve"
ANSWERS_IN = 15.0  # seconds


class NoRoom(sqlite3.OperationalError):
    """The disk is full, and what would be kept takes no right away."""

    def __init__(self) -> None:
        super().__init__("the disk is full: only refusals and revocations are kept until it is not")


class Reserve:
    """The reserve of an outbox."""

    def __init__(self, outbox: str) -> None:
        self.folder = os.path.dirname(os.path.abspath(outbox))
        self.path = os.path.join(self.folder, NAME)

    def left(self) -> int:
        """The bytes that this account may still write."""
        disk = os.statvfs(self.folder)
        return disk.f_bavail * disk.f_frsize

    def is_whole(self) -> bool:
        try:
            found = os.lstat(self.path)
        except OSError:
            return False
        return stat.S_ISREG(found.st_mode) and found.st_size == SIZE

    def is_there(self) -> bool:
        """Whether there is a reserve, once it was made where the disk has room for it. (It begins
        only where all of it fits: what waits for this room must not lose it meanwhile.)"""
        if self.is_whole():
            return True
        if self.left() < SIZE + SPARE:
            return False
        # (a disk that has room and makes no such file keeps nobody from asking)
        with suppress(OSError):
            self.make()
        return True

    def make(self) -> None:
        new = f"{self.path}.{os.getpid()}"
        file = os.open(new, os.O_WRONLY | os.O_CREAT | os.O_EXCL | os.O_NOFOLLOW, 0o600)
        try:
            os.posix_fallocate(file, 0, SIZE)
            os.rename(new, self.path)
        except OSError:
            os.unlink(new)
            raise
        finally:
            os.close(file)

    def has_room(self) -> bool:
        """Whether anything may be written that takes no right away."""
        return self.is_there() and self.left() >= LEAST

    def is_full(self, fault: sqlite3.Error) -> bool:
        """Whether SQLite failed since the disk is full."""
        code = getattr(fault, "sqlite_errorcode", sqlite3.SQLITE_CANTOPEN)
        return code & 0xFF in FULL and self.left() < SPARE

    def free(self) -> bool:
        """Gives it up; whether there was one."""
        was_there = self.is_whole()
        with suppress(OSError):
            os.unlink(self.path)
        return was_there


class DeskReserve:
    """The reserve of the desk on this machine, which its own account gives up and makes."""

    def __init__(self, folder: str = OF_DESK) -> None:
        self.folder = folder

    def is_there(self) -> bool:
        """Whether it is not given up, once the desk was asked to make it anew."""
        return not os.path.exists(os.path.join(self.folder, "free")) or self.ask("make") == "whole"

    def free(self) -> bool:
        """Has it given up; whether the desk has room by it."""
        return self.ask("free") == "free"

    def ask(self, word: str) -> str:
        """What `desk-reserve` answers; nothing where it cannot be asked."""
        with suppress(OSError), socket.socket(socket.AF_UNIX) as peer:
            peer.settimeout(ANSWERS_IN)
            peer.connect(os.path.join(self.folder, "socket"))
            peer.sendall(f"{word}\n".encode("ascii"))
            return peer.recv(64).decode("ascii", "replace").strip()
        return ""

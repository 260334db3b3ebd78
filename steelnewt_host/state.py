"""What desk-host keeps between its runs."""

from __future__ import annotations

import contextlib
import errno
import fcntl
import os
import stat
from collections.abc import Iterator
from typing import Optional

from steelnewt_host.faults import Fault

SPARES = 3  # one for the file's trial, one for the record, one for the file
ROOM = 256 * 1024  # the bytes of each


def state_folder(path: str) -> None:
    """The folder of the state: root's, and nobody else writes to it."""
    os.makedirs(path, mode=0o700, exist_ok=True)
    seen = os.lstat(path)
    if not stat.S_ISDIR(seen.st_mode) or seen.st_uid != os.geteuid() or seen.st_mode & 0o022:
        raise Fault(f"{path} has to be a folder of root's that nobody else may write to")


def fill(handle: int, text: bytes) -> None:
    """Makes that all that an open file has, on the disk."""
    with os.fdopen(handle, "wb") as file:
        file.write(text)
        file.truncate()
        file.flush()
        os.fsync(file.fileno())


def sync(folder: str) -> None:
    """Has the names of a folder on the disk."""
    handle = os.open(folder, os.O_RDONLY | os.O_DIRECTORY)
    try:
        os.fsync(handle)
    finally:
        os.close(handle)


def is_full(why: OSError) -> bool:
    return why.errno in (errno.ENOSPC, errno.EDQUOT)


def spares(folder: str) -> list[str]:
    """The files of a folder that hold room for a full disk."""
    names = (os.path.join(folder, f"spare.{at}") for at in range(SPARES))
    return [it for it in names if os.path.exists(it)]


def keep_spares(folder: str) -> bool:
    """Has a folder hold such room: whether it does. (Its bytes are random, since some disks store
    no zeros; and it is written over where it lies, so nobody takes it between.)"""
    new = os.path.join(folder, "spare.new")
    try:
        for at in range(SPARES):
            path = os.path.join(folder, f"spare.{at}")
            if not os.path.exists(path):
                flags = os.O_WRONLY | os.O_CREAT | os.O_TRUNC | os.O_NOFOLLOW
                fill(os.open(new, flags, 0o600), os.urandom(ROOM))
                os.replace(new, path)
    except OSError as why:
        with contextlib.suppress(FileNotFoundError):
            os.unlink(new)
        if not is_full(why):
            raise
        return False
    return True


def write_state(path: str, text: str) -> None:
    """Writes a file of the state in one step: it is on the disk when this ends. On a full disk it
    takes the room of a spare file."""
    new, folder = f"{path}.new", os.path.dirname(path)
    flags = os.O_WRONLY | os.O_NOFOLLOW
    with contextlib.suppress(FileNotFoundError):
        os.unlink(new)
    try:
        fill(os.open(new, flags | os.O_CREAT | os.O_EXCL, 0o600), text.encode("ascii"))
    except OSError as why:
        with contextlib.suppress(FileNotFoundError):
            os.unlink(new)
        if not is_full(why) or not spares(folder):
            raise
        os.rename(spares(folder)[0], new)
        fill(os.open(new, flags), text.encode("ascii"))
    os.replace(new, path)
    sync(folder)


@contextlib.contextmanager
def locked(folder: str, name: str = "lock") -> Iterator[None]:
    """One of a kind at a time."""
    handle = os.open(os.path.join(folder, name), os.O_WRONLY | os.O_CREAT | os.O_NOFOLLOW, 0o600)
    try:
        fcntl.flock(handle, fcntl.LOCK_EX)
        yield
    finally:
        os.close(handle)


def read_some(path: str, most: int) -> Optional[bytes]:
    """A file's bytes; nothing where it cannot be read, or has more than so many."""
    try:
        with open(path, "rb") as file:
            text = file.read(most + 1)
    except OSError:
        return None
    return None if len(text) > most else text

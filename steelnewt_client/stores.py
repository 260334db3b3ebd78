"""A copy of a desk's store (docs/STORE.md), also while the desk has the file.

The desk writes its database at a checkpoint alone; between two of them it only adds to the log
beside it. So a copy of both, between whose beginning and end there was no checkpoint, is what a
crash would have left then: a whole store, with each message that was acknowledged before. The
store itself is never opened here, so the desk is not disturbed.
"""

from __future__ import annotations

import contextlib
import os
import shutil
import time

HEADER = 32  # the log's first bytes: they are others after the log began anew
# A file's time is that of the system's last tick: a change within one may leave it the same.
TICK = 0.1

Mark = tuple[int, int, int, bytes]


def mark(store: str) -> Mark:
    """What is another after a checkpoint, or after the log began anew."""
    found = os.stat(store)
    header = b""
    with contextlib.suppress(FileNotFoundError), open(store + "-wal", "rb") as log:
        header = log.read(HEADER)
    return found.st_ino, found.st_size, found.st_mtime_ns, header


def is_settled(before: Mark) -> bool:
    """Whether the file's time would show the next change."""
    return abs(time.time() - before[2] / 1e9) >= TICK


def copy_once(store: str, copy: str) -> bool:
    """Copies the store and its log; whether there was no checkpoint meanwhile."""
    before = mark(store)
    if not is_settled(before):
        return False
    shutil.copyfile(store, copy)
    with contextlib.suppress(FileNotFoundError):
        os.unlink(copy + "-wal")
    with contextlib.suppress(FileNotFoundError):
        shutil.copyfile(store + "-wal", copy + "-wal")
    return mark(store) == before

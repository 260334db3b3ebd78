"""Files that are put in place in one step."""

from __future__ import annotations

import os


def synced(path: str) -> None:
    """What was written there, or which files are in a folder, outlives a loss of power."""
    opened = os.open(path, os.O_RDONLY)
    try:
        os.fsync(opened)
    finally:
        os.close(opened)


def write(path: str, text: bytes, like: str | None = None) -> None:
    """Puts a file in place in one step, with the owner and mode of another."""
    fresh = f"{path}.new"
    try:
        with open(fresh, "wb") as file:
            file.write(text)
            if like is not None and os.path.exists(like):
                held = os.stat(like)
                os.fchmod(file.fileno(), held.st_mode & 0o7777)
                os.fchown(file.fileno(), held.st_uid, held.st_gid)
            file.flush()
            os.fsync(file.fileno())
    except OSError:
        os.unlink(fresh)
        raise
    os.replace(fresh, path)
    synced(os.path.dirname(path))

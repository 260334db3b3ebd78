"""The messages of a desk's store (docs/STORE.md), also while the desk has the file.

    desk-snapshot STORE        # each message on a line, in byte order

It is read of a copy (steelnewt_client/stores.py): the desk is not disturbed.
"""

from __future__ import annotations

import argparse
import contextlib
import os
import pathlib
import sqlite3
import sys
import tempfile
import time

from steelnewt_client.stores import TICK, copy_once

TRIES = 50


class NoSnapshot(Exception):
    """The file is no desk's store, or it changed during each try."""


def read_copy(copy: str) -> list[str]:
    with contextlib.closing(sqlite3.connect(copy)) as connection:
        [[checked]] = connection.execute("PRAGMA integrity_check")
        if checked != "ok":
            raise sqlite3.DatabaseError(checked)
        rows = connection.execute("SELECT body FROM messages ORDER BY body")
        return [body for (body,) in rows]


def messages(store: str | pathlib.Path) -> list[str]:
    """The messages of the store, in byte order."""
    why = "it changes all the time"
    with tempfile.TemporaryDirectory() as folder:
        copy = os.path.join(folder, "copy.db")
        for _ in range(TRIES):
            try:
                if copy_once(os.fspath(store), copy):
                    return read_copy(copy)
            except (OSError, sqlite3.DatabaseError) as error:
                why = str(error)
            time.sleep(TICK)
    raise NoSnapshot(f"{store}: {why}")


def main() -> int:
    about = "Prints the messages of a desk's store, one a line, in byte order."
    parser = argparse.ArgumentParser("desk-snapshot", description=about)
    parser.add_argument("store", metavar="STORE", help="the desk's database")
    words = parser.parse_args()
    try:
        found = messages(words.store)
    except NoSnapshot as error:
        print(f"desk-snapshot: {error}", file=sys.stderr)
        return 1
    sys.stdout.writelines(body + "\n" for body in found)
    return 0


if __name__ == "__main__":
    sys.exit(main())

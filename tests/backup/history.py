"""What a desk was served with, in its backups: whole, also while it changes, and at its most."""

from __future__ import annotations

import tempfile
import time
from collections.abc import Iterator

from steelnewt_backup.backup import Taking
from steelnewt_backup.backup import taken as entries_of
from steelnewt_backup.pieces import Pieces, read_entry
from steelnewt_backup.seal import Seal
from steelnewt_backup.settings import Settings
from tests.backup.room import HISTORY, ROSTER, Room, Row, made, said


def changes_meanwhile(folder: str) -> Iterator[Row]:
    """At whatever file of the backup a roster is changed, the copy has what was served at each
    moment that it lists; and what was begun is left out."""
    room = made(folder, "changes", 2)
    room.write(f"{HISTORY}/.new/roster.toml", "half")
    room.write(f"{HISTORY}/moments.new", "half")
    room.backup()
    lacking, count = list[str](), len(backed_up(room, -1)[1])
    for number in range(count):
        at = f"202603{number // 24 + 1:02}{number % 24:02}0000Z"
        listed, taken = backed_up(room, number, at)
        rosters = {it: f"{HISTORY}/{it}/roster.toml" for it in listed}
        lacking += [f"{number}: {it}" for it, path in rosters.items() if path not in taken]
    yield "each that is listed is there", count > 15 and not lacking, (count, lacking)
    begun = [it for it in backed_up(room, -1)[1] if ".new" in it]
    yield "nothing that was begun", not begun, begun
    yield "a backup", *said(room.backup("--list"), 0, f"plain +{HISTORY}/moments")
    room.backup()
    before = room.moments_served()
    room.lose()
    room.restore()
    yield "the history", room.moments_served() == before and len(before) > 15, before


def backed_up(room: Room, changed_at: int, moment: str = "") -> tuple[list[str], set[str]]:
    """The moments that a copy of the history lists, and the files that it has, where another roster
    is served from one of its files on."""
    new = tempfile.mkdtemp(dir=room.folder)
    pieces = Pieces(new, Seal(), None)
    taken, listed = set[str](), list[str]()
    for number, entry in enumerate(entries_of(Settings(), Taking(room.root, pieces))):
        taken.add(entry.path)
        if entry.path == f"{HISTORY}/moments":
            data = b"".join(read_entry(new, "", entry, ""))
            listed = [it.split(" ")[0] for it in data.decode().splitlines()]
        if number == changed_at:
            room.write(ROSTER, room.read(ROSTER) + f"# {moment}\n".encode())
            room.serve_since(moment, "a change")
    return listed, taken


def at_its_most(folder: str) -> Iterator[Row]:
    """The history's most: it is taken in bounded time, and the next backup writes none of it."""
    room = made(folder, "long", 2)
    for number in range(4_095):
        day = f"2025{number // 500 + 1:02}{number % 500 // 20 + 1:02}{number % 20:02}0000Z"
        room.write(ROSTER, room.read(ROSTER)[:4_000] + f"# {number}\n".encode())
        room.serve_since(day, "a change")
    begun = time.monotonic()
    yield "it is taken", *said(room.backup(), 0, " files, ")
    took = time.monotonic() - begun
    yield "in time", took < 300, took
    yield "no second time", *said(room.backup(), 0, " 0 bytes new")
    yield "4,096 moments", len(room.moments_served()) == 4_096, ""

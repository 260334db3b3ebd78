"""A store whose history was cut, in a backup: store and archives come back, and what was cut out is
not filled in again of what others still have."""

from __future__ import annotations

import hashlib
import json
import os
import time
from collections.abc import Iterator

from steelnewt_client.messages import Verdict
from steelnewt_relay.outbox import Outbox
from tests.backup.room import BASE, DAY, HISTORY, OUTBOX, PATIENCE, PROGRAM, ROSTER
from tests.backup.room import STORE, Room, Row, made, said, wish
from tests.common import desk

ARCHIVES = "/var/lib/desk/archives"
MOMENT = "20261101000000Z"
ROWS = (
    "CREATE TABLE cuts (moment TEXT PRIMARY KEY NOT NULL, before TEXT NOT NULL,"
    " archived INTEGER NOT NULL, sha256 TEXT NOT NULL) STRICT;"
    " INSERT INTO cuts VALUES ('{}', '{}', {}, '{}');"
)


def ended(room: Room, numbers: range) -> None:
    """Requests of ann's that ended ten days ago, by the outbox and at the desk."""
    outbox, found = Outbox(room.path(OUTBOX)), []
    for no in numbers:
        begins = time.time() - 10 * DAY
        at = desk.stamp(begins - 10)
        kept = outbox.keep_request("ann", wish(no, begins), at)
        number = kept.request.no
        verdict = outbox.keep_verdict(Verdict("bob", "approve", "ann", number, at))
        for it in (kept, verdict):
            outbox.answered(it.id, "acked")
            found.append(it.message.text())
    outbox.close()
    room.deliver(found)


def cut(room: Room) -> tuple[str, int]:
    """Cuts the history as desk-change-roster does: up to when, and how many messages went."""
    before, archive = desk.stamp(time.time() - 3 * DAY), f"{ARCHIVES}/{MOMENT}.messages"
    os.makedirs(room.path(ARCHIVES), 0o700)
    cutter = os.path.join(os.path.dirname(PROGRAM), "desk-cut")
    new, store = room.path(f"{STORE}.cut"), room.path(STORE)
    ran = desk.run([cutter, store, new, before, "--archive", room.path(archive)], "", PATIENCE)
    assert ran.returncode == 0, ran
    out = room.read(archive)
    count = len(out.splitlines())
    sha256 = hashlib.sha256(out).hexdigest()
    desk.run(["sqlite3", new, ROWS.format(MOMENT, before, count, sha256)], "", PATIENCE)
    os.rename(store, f"{store}.before-{MOMENT}")
    for end in ("-wal", "-shm"):
        if os.path.exists(store + end):
            os.unlink(store + end)
    os.rename(new, store)
    os.chmod(room.path(archive), 0o400)
    with open(room.path(f"{HISTORY}/moments"), "a", encoding="ascii") as file:
        digests = " ".join(hashlib.sha256(room.read(it)).hexdigest() for it in (ROSTER, BASE))
        file.write(f"20261101000001Z cut {before} {count} {digests}\n")
    return before, count


def cut_out(folder: str) -> Iterator[Row]:
    """The restore brings store and archive, and nothing of the archive into the store; a host's
    count is of both."""
    room = made(folder, "cut", 2)
    ended(room, range(50, 54))
    whole = room.held()
    before, count = cut(room)
    held, archive = room.held(), f"{ARCHIVES}/{MOMENT}.messages"
    kept = room.read(archive)
    yield "it is cut", (count, len(whole) - len(held)) == (4, 4), (count, len(whole), len(held))
    yield "a backup", *said(room.backup("--list"), 0, f"plain +{archive}")
    listed = room.backup("--list").stdout
    yield "without the store of before", "before-" not in listed, listed
    room.backup()
    room.lose()
    ran = room.restore()
    yield "a restore", *said(ran, 0)
    is_again = [it for it in ("FILLED IN", "CAME AGAIN", "NOT TAKEN") if it in ran.stdout]
    yield "nothing is filled in", not is_again, ran
    yield "what the store held", room.held() == held, room.held() ^ held
    mode = os.stat(room.path(archive)).st_mode & 0o7777
    yield "the archive", room.read(archive) == kept and mode == 0o400, oct(mode)
    yield from heard(room, folder, len(whole), count)
    os.rename(room.path(archive), os.path.join(folder, "elsewhere"))
    lacks = room.restore("--settle")
    yield "an archive that is away", *said(lacks, 2, f"{archive} is not there: bring it back")
    room.write(archive, kept + b"!\n")
    other = room.restore("--settle")
    yield "another archive", *said(other, 2, f"{archive} is not the archive that the store names")


def heard(room: Room, folder: str, whole: int, count: int) -> Iterator[Row]:
    """A host that counted what was cut out misses nothing; one that counted one more does."""
    brought = os.path.join(folder, "brought")
    os.mkdir(brought)
    roster = hashlib.sha256(room.read(ROSTER)).hexdigest()
    desk.write(brought, "db1.sudoers", "")
    for more in (0, 1):
        rows = [[whole + more, roster, "0" * 64, count]]
        desk.write(brought, "db1.json", json.dumps({"installed": rows}))
        ran = room.restore("--settle", "--heard", brought)
        is_lost = f"LOST: db1 has heard of {whole + more} messages, and {whole} came" in ran.stdout
        yield f"a host, {more} more", is_lost == bool(more), ran

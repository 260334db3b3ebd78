"""The journal by itself: what is in it stays, in its order, and whoever changes it is found out."""

import errno
import json
import os
import random
import resource
import shutil
import signal
import sqlite3
import threading
from collections.abc import Iterator
from pathlib import Path

import pytest

from door.tests.doors import chained
from steelnewt_client.signed import Signed
from steelnewt_door.journal import BadJournal, Full, Journal, Room, files_of, rows_of
from steelnewt_door.rows import (
    BadRow, Last, Row, answered, came, draft_of, following, line_of, read_row,
)  # fmt: skip

AT, SITE = "20260105090000Z", "desk.example"
PLACES = int(os.environ.get("PLACES", "12"))


def row(number: int, how: str = "signed") -> Row:
    return came(Signed(f"message {number}", "ssh:AAAA"), AT, ("chat", "uid 0"), how)


@pytest.fixture
def folder(tmp_path: Path) -> str:
    return str(tmp_path)


@pytest.fixture
def journal(folder: str) -> Iterator[Journal]:
    found = Journal(folder, SITE)
    yield found
    found.close()


def filled(folder: str, count: int, room: Room = Room()) -> None:
    found = Journal(folder, SITE, room)
    for number in range(count):
        [no] = found.append([row(number)])
        found.append([answered(no, AT, "ack", "desk")])
    found.close()


def all_rows(folder: str) -> list[Row]:
    return [it for _, path in files_of(folder) for it in rows_of(path)]


def reopened(folder: str, room: Room = Room()) -> list[Row]:
    Journal(folder, SITE, room).close()
    return all_rows(folder)


def messages(rows: list[Row]) -> list[str]:
    return [it["message"] for it in rows if it["row"] == "came"]


def test_rows_follow_one_another(folder: str) -> None:
    filled(folder, 3)
    rows = reopened(folder)
    assert [it["no"] for it in rows] == [*range(1, 8)]
    assert [it["row"] for it in rows] == ["begun", *["came", "answered"] * 3]
    assert all(one["chain"] == other["before"] for one, other in zip(rows, rows[1:]))
    assert messages(rows) == ["message 0", "message 1", "message 2"]


def test_one_door_has_it(journal: Journal) -> None:
    with pytest.raises(BadJournal, match="another door"):
        Journal(journal.folder, SITE)


@pytest.mark.parametrize("damage", ["cut", "changed", "reordered", "taken out", "another chain"])
def test_a_journal_that_was_touched(folder: str, damage: str) -> None:
    """Each is named, and the door does not begin over it."""
    filled(folder, 5)
    [(_, path)] = files_of(folder)
    lines = Path(path).read_bytes().splitlines(keepends=True)
    if damage == "cut":
        lines = lines[:-2]
    elif damage == "changed":
        lines[3] = lines[3].replace(b"message 1", b"message 9")
    elif damage == "reordered":
        lines[3], lines[5] = lines[5], lines[3]
    elif damage == "taken out":
        del lines[3]
    else:
        told = json.loads(lines[-1]) | {"code": "A1 NoRequester"}
        lines[-1] = line_of(told | {"chain": chained(told)})
    Path(path).write_bytes(b"".join(lines))
    said = {"cut": "was cut", "changed": "was changed", "another chain": "another one"}
    with pytest.raises(BadJournal, match=said.get(damage, "does not follow")):
        Journal(folder, SITE)


def test_an_index_that_is_lost_is_made_again(folder: str) -> None:
    filled(folder, 5, Room(file=1_000))
    for name in os.listdir(folder):
        if name.startswith("index"):
            os.unlink(os.path.join(folder, name))
    found = Journal(folder, SITE)
    known = found.index.known(Signed("message 4", "ssh:AAAA"))
    assert known and known.code == "ack" and found.index.last() == found.last
    found.close()


@pytest.mark.parametrize("text", [b"no database", b"", b"SQLite format 3\0" + bytes(4_080)])
def test_an_index_that_cannot_be_read(folder: str, text: bytes) -> None:
    """The index never has something that stands nowhere else: a power cut may spoil it."""
    filled(folder, 5)
    Path(folder, "index.db").write_bytes(text)
    found = Journal(folder, SITE)
    known = found.index.known(Signed("message 4", "ssh:AAAA"))
    assert known and known.code == "ack" and found.index.last() == found.last
    found.close()


def test_files_follow_one_another(folder: str) -> None:
    filled(folder, 20, Room(file=2_000))
    files = files_of(folder)
    assert len(files) > 3
    assert len(messages(reopened(folder))) == 20
    # what is carried away changes nothing for those that follow
    away = Path(folder) / "away"
    away.mkdir()
    for _, path in files[:2]:
        shutil.move(path, away)
    assert len(messages(reopened(folder))) < 20
    whole = [*(it for _, path in files_of(str(away)) for it in rows_of(path)), *all_rows(folder)]
    assert all(one["chain"] == other["before"] for one, other in zip(whole, whole[1:]))
    assert len(messages(whole)) == 20


def test_a_journal_that_is_full(folder: str) -> None:
    """The last tenth is for what takes rights away; then nothing is taken."""
    room = Room(most=40_000, file=4_000)
    found = Journal(folder, SITE, room)
    count = 0
    with pytest.raises(Full):
        while True:
            found.append([row(count)])
            count += 1
    with pytest.raises(Full):
        found.append([row(count)])
    away = 0
    with pytest.raises(Full):
        while True:
            found.append([row(1000 + away)], takes_away=True)
            away += 1
    found.close()
    assert count > 50 and away > 5
    assert len(messages(reopened(folder, room))) == count + away


def test_a_disk_that_is_full(folder: str, monkeypatch: pytest.MonkeyPatch) -> None:
    """A row is there whole or not at all, and the reserve is for what takes rights away."""
    found = Journal(folder, SITE)
    write, is_full = os.write, threading.Event()

    def writing(file: int, text: bytes) -> int:
        if is_full.is_set() and os.path.exists(os.path.join(folder, "reserve")):
            if len(text) > 10:
                return write(file, text[:10])
            raise OSError(errno.ENOSPC, "no room")
        return write(file, text)

    monkeypatch.setattr(os, "write", writing)
    found.append([row(1)])
    is_full.set()
    with pytest.raises(Full):
        found.append([row(2)])
    assert messages(all_rows(folder)) == ["message 1"]
    found.append([row(3)], takes_away=True)
    is_full.clear()
    found.append([row(4)])
    found.close()
    assert messages(reopened(folder)) == ["message 1", "message 3", "message 4"]


def test_a_disk_that_fails(folder: str, monkeypatch: pytest.MonkeyPatch) -> None:
    """What a disk says after a failed sync is not believed: nothing more is taken."""
    found = Journal(folder, SITE)
    found.append([row(1)])

    def failing(file: int) -> None:
        raise OSError(errno.EIO, "input/output error")

    sync = os.fdatasync
    monkeypatch.setattr(os, "fdatasync", failing)
    with pytest.raises(BadJournal, match="fails"):
        found.append([row(2)])
    monkeypatch.setattr(os, "fdatasync", sync)
    with pytest.raises(BadJournal, match="failed"):
        found.append([row(3)], takes_away=True)
    found.close()
    assert messages(reopened(folder)) == ["message 1"]


def test_an_index_that_fails_loses_nothing(folder: str, monkeypatch: pytest.MonkeyPatch) -> None:
    found = Journal(folder, SITE)

    def failing(rows: object) -> None:
        raise sqlite3.OperationalError("database or disk is full")

    add = found.index.add
    monkeypatch.setattr(found.index, "add", failing)
    found.append([row(1)])
    monkeypatch.setattr(found.index, "add", add)
    found.append([row(2)])
    assert found.index.known(Signed("message 1", "ssh:AAAA"))
    monkeypatch.setattr(found.index, "add", failing)
    found.append([row(3)])
    found.close()
    again = Journal(folder, SITE)
    assert again.index.known(Signed("message 3", "ssh:AAAA"))
    again.close()


def test_many_at_a_time(folder: str) -> None:
    found = Journal(folder, SITE, Room(file=5_000))
    numbers: list[int] = []

    def append(first: int) -> None:
        for number in range(first, first + 25):
            numbers.extend(found.append([row(number), row(number + 1000)]))

    threads = [threading.Thread(target=append, args=(it * 25,)) for it in range(8)]
    for it in threads:
        it.start()
    for it in threads:
        it.join()
    found.close()
    assert len(set(numbers)) == 400 == len(messages(reopened(folder)))


def writes_until_killed(folder: str, first: int, said: int) -> None:
    """What the child of a fork does: it says each number once its row is on the disk."""
    found = Journal(folder, SITE, Room(file=20_000))
    for number in range(first, 1_000_000):
        found.append([row(number)])
        os.write(said, b"%d\n" % number)


def test_a_door_that_is_killed(folder: str) -> None:
    """At many places: what was said to be there is there, and it goes on."""
    dice, said = random.Random(7), list[int]()
    for _ in range(PLACES):
        reading, writing = os.pipe()
        if (child := os.fork()) == 0:
            try:
                writes_until_killed(folder, len(said), writing)
            finally:
                os._exit(1)
        os.close(writing)
        with os.fdopen(reading, "rb", buffering=0) as pipe:
            told = b"".join(pipe.read(8) or b"" for _ in range(dice.randrange(1, 8)))
            os.kill(child, signal.SIGKILL)
            os.waitpid(child, 0)
            told += pipe.read()
        index = Journal(folder, SITE, Room(file=20_000))
        said = [int(it.split()[1]) for it in messages(all_rows(folder))]
        assert said == [*range(len(said))] and index.last.no > len(said)
        assert told and int(told.split()[-1]) in said
        index.close()
    assert len(said) >= PLACES


class Disk:
    """What was written, and how much of it was synced, before each of the calls."""

    def __init__(self, monkeypatch: pytest.MonkeyPatch) -> None:
        self.places: list[tuple[str, int, bytes]] = []
        self.synced: dict[int, int] = {}
        write, sync = os.write, os.fdatasync

        def writing(file: int, text: bytes) -> int:
            count = write(file, text)
            self.note(file)
            return count

        def syncing(file: int) -> None:
            self.note(file)
            sync(file)
            self.synced[file] = os.fstat(file).st_size

        monkeypatch.setattr(os, "write", writing)
        monkeypatch.setattr(os, "fdatasync", syncing)

    def note(self, file: int) -> None:
        path = os.readlink(f"/proc/self/fd/{file}")
        if "journal-" in path:
            self.places.append((path, self.synced.get(file, 0), Path(path).read_bytes()))


def test_a_power_cut(folder: str, tmp_path: Path, monkeypatch: pytest.MonkeyPatch) -> None:
    """At many places: all that was synced is there, whatever is left of the rest."""
    disk, dice = Disk(monkeypatch), random.Random(5)
    found = Journal(folder, SITE)
    for number in range(PLACES):
        found.append([row(number)])
    found.close()
    monkeypatch.undo()
    assert len(disk.places) >= 2 * PLACES
    for path, synced, text in dice.sample(disk.places, PLACES):
        room = tmp_path / "cut"
        shutil.rmtree(room, ignore_errors=True)
        room.mkdir()
        left = text[: dice.randrange(synced, len(text) + 1)]
        if dice.random() < 0.3 and len(left) > synced:
            left = left[:synced] + bytes(len(left) - synced)  # (a disk may leave zeros)
        (room / os.path.basename(path)).write_bytes(left)
        before = messages([read_row(it + b"\n") for it in text[:synced].split(b"\n") if it])
        again = Journal(str(room), SITE)
        again.note_torn()
        again.append([row(99)])
        again.close()
        kept = messages(reopened(str(room)))
        assert kept[: len(before)] == before and kept[-1] == "message 99"
        assert len(kept) <= len(before) + 2


def test_what_is_no_row() -> None:
    good = line_of(row(1) | {"no": 1, "before": "0" * 64, "chain": ""})
    told = json.loads(good)
    told["chain"] = chained(told)
    assert read_row(line_of(told)) == told
    for strange in (
        b"", b"\n", b"{}\n", b"[]\n", b"\xff\n", line_of(told | {"row": "other"}), good,
        line_of(told | {"no": "1"}), line_of(told | {"no": True}), line_of(told | {"at": 1}),
        line_of(told | {"more": ""}), b" " + line_of(told), b"[" * 9_999 + b"\n",
    ):  # fmt: skip
        with pytest.raises(BadRow):
            read_row(strange)


ODD = ('"no":0,', '"before":""', ',"chain":""', "\\", "\x00\x1f\x7f", "\u00fc\u2028", "a\tb\n")


@pytest.mark.parametrize("text", ODD)
def test_a_rows_text(text: str) -> None:
    """Any text in a row is written as JSON writes it, and comes back."""
    signed = Signed(text, text, text, text)
    drafts = [came(signed, AT, (text, text), text, text, text), answered(3, AT, text, text)]
    for draft in drafts:
        last, line = following(Last(6, "f" * 64), draft_of(draft)[0])
        found = json.loads(line)
        words = json.dumps(found, sort_keys=True, separators=(",", ":"), ensure_ascii=False)
        assert line == words.encode() + b"\n" and read_row(line) == found
        assert (last.no, last.chain) == (7, chained(found)) == (found["no"], found["chain"])
        assert found == draft | {"no": 7, "before": "f" * 64, "chain": last.chain}


def test_a_limit_of_the_system(folder: str) -> None:
    """`ulimit -f` is a disk that is full: the row is taken back."""
    found = Journal(folder, SITE)
    found.append([row(1)])
    before = resource.getrlimit(resource.RLIMIT_FSIZE)
    resource.setrlimit(resource.RLIMIT_FSIZE, (found.size + 100, before[1]))
    try:
        with pytest.raises(Full):
            found.append([row(2)])
    finally:
        resource.setrlimit(resource.RLIMIT_FSIZE, before)
    found.append([row(3)])
    found.close()
    assert messages(reopened(folder)) == ["message 1", "message 3"]

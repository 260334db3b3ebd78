"""A snapshot of a store that is written meanwhile, and a desk that is filled from it."""

from __future__ import annotations

import shutil
import sqlite3
import threading
import time
from collections.abc import Iterable
from pathlib import Path

import pytest
from conftest import Scripted
from desk_broker import snapshot
from desk_broker.fill import fill
from steelnewt_client import stores
from steelnewt_client.desk import Desk


def store(path: Path, bodies: Iterable[str]) -> sqlite3.Connection:
    """A store in the desk's journal mode, with its connection: its log is not merged."""
    connection = sqlite3.connect(path, isolation_level=None, check_same_thread=False)
    connection.execute("PRAGMA journal_mode = wal")
    connection.execute("CREATE TABLE messages (body TEXT PRIMARY KEY NOT NULL) STRICT")
    add(connection, bodies)
    return connection


def add(connection: sqlite3.Connection, bodies: Iterable[str]) -> None:
    connection.executemany("INSERT OR IGNORE INTO messages VALUES (?)", ((it,) for it in bodies))


def test_it_has_what_is_in_the_log_alone(tmp_path: Path) -> None:
    connection = store(tmp_path / "desk.db", ["b", "a"])
    assert snapshot.messages(tmp_path / "desk.db") == ["a", "b"]
    connection.close()


def test_it_has_what_was_merged(tmp_path: Path) -> None:
    connection = store(tmp_path / "desk.db", ["b", "a"])
    connection.execute("PRAGMA wal_checkpoint(TRUNCATE)")
    add(connection, ["c"])
    assert snapshot.messages(tmp_path / "desk.db") == ["a", "b", "c"]
    connection.close()


def test_it_leaves_the_file_that_another_has(tmp_path: Path) -> None:
    connection = store(tmp_path / "desk.db", ["a"])
    connection.execute("PRAGMA locking_mode = exclusive")
    add(connection, ["b"])
    assert snapshot.messages(tmp_path / "desk.db") == ["a", "b"]
    add(connection, ["c"])
    assert (tmp_path / "desk.db-wal").stat().st_size > 0
    connection.close()


def test_each_has_all_that_was_committed_before_it_began(tmp_path: Path) -> None:
    connection = store(tmp_path / "desk.db", [])
    written, ending = [0], threading.Event()

    def write() -> None:
        while not ending.is_set() and written[0] < 20_000:
            add(connection, [f"{written[0]:06}" * 20])
            written[0] += 1
            if written[0] % 500 == 0:
                connection.execute("PRAGMA wal_checkpoint(TRUNCATE)")
                time.sleep(0.3)

    writer = threading.Thread(target=write)
    writer.start()
    for _ in range(8):
        before = written[0]
        found = snapshot.messages(tmp_path / "desk.db")
        assert len(found) >= before
        assert found == [f"{n:06}" * 20 for n in range(len(found))]
    ending.set()
    writer.join()
    connection.close()


def test_a_checkpoint_meanwhile_spoils_the_copy(
    tmp_path: Path, monkeypatch: pytest.MonkeyPatch
) -> None:
    connection = store(tmp_path / "desk.db", ["a"])
    time.sleep(0.2)
    whole = shutil.copyfile

    def copy(source: str, target: str) -> None:
        whole(source, target)
        if not str(source).endswith("-wal"):
            add(connection, ["b"])
            connection.execute("PRAGMA wal_checkpoint(TRUNCATE)")

    monkeypatch.setattr(shutil, "copyfile", copy)
    assert not stores.copy_once(str(tmp_path / "desk.db"), str(tmp_path / "copy.db"))
    connection.close()


def test_no_store(tmp_path: Path, monkeypatch: pytest.MonkeyPatch) -> None:
    monkeypatch.setattr(snapshot, "TRIES", 2)
    (tmp_path / "other").write_text("no database, but longer than one byte")
    for name in ("other", "none"):
        with pytest.raises(snapshot.NoSnapshot):
            snapshot.messages(tmp_path / name)
    assert not (tmp_path / "none").exists()


def test_fill_tries_again_and_tells_what_is_refused(scripted: Scripted) -> None:
    ack = (200, "ack\n")
    scripted.replies = [ack, (503, "K4 Storage\n"), ack, (403, "A1 UnknownPerson\n")]
    taken, refused = fill(Desk(scripted.address), "web", [b"1", b"2", b"3"])
    assert (taken, refused) == (2, ["A1 UnknownPerson: 3"])
    assert [body for _, body in scripted.seen] == [b"1", b"2", b"2", b"3"]


def test_fill_gives_up_on_a_desk_that_is_away(
    scripted: Scripted, monkeypatch: pytest.MonkeyPatch
) -> None:
    monkeypatch.setattr("desk_broker.fill.PATIENCE", 0.0)
    scripted.replies = [(503, "K4 Storage\n")] * 9
    with pytest.raises(TimeoutError, match="503 K4 Storage"):
        fill(Desk(scripted.address), "web", [b"1"])

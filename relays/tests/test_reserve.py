"""A full disk: what takes a right away is kept, posted and read all the same, and nothing else."""

import contextlib
import os
import socket
import sqlite3
import subprocess
import threading
from collections.abc import Iterator
from pathlib import Path

import pytest

from relays.tests.site import Site
from steelnewt_client.desk import Desk
from steelnewt_client.messages import Verdict, Wish
from steelnewt_client.moments import now, stamp
from steelnewt_relay import posting, reserve
from steelnewt_relay.outbox import Outbox
from steelnewt_relay.posting import post_kept, post_one
from steelnewt_relay.reserve import SIZE, DeskReserve, NoRoom

IS_ROOT = os.geteuid() == 0
WISH = Wish.of("db-care", ["db1"], "root", ["/usr/bin/id"], ("20260105090000Z", "20260105100000Z"))
AT = "20260105080000Z"
ASK = "ask db-care --on db1 --as root --for 1h --yes /usr/bin/id"

pytestmark = pytest.mark.skipif(not IS_ROOT, reason="only root has a small disk")


@pytest.fixture
def small(tmp_path: Path) -> Iterator[Path]:
    """A small disk."""
    place = tmp_path / "small"
    place.mkdir()
    subprocess.run(["mount", "-t", "tmpfs", "-o", "size=12m", "none", str(place)], check=True)
    yield place
    subprocess.run(["umount", "--lazy", str(place)], check=True)


def fill(place: Path) -> Path:
    """Takes all room of a disk."""
    path = place / "filler"
    with open(path, "ab", buffering=0) as filler, contextlib.suppress(OSError):
        while True:
            filler.write(bytes(4096))
    return path


def verdict(kind: str, no: int = 1, by: str = "carol") -> Verdict:
    return Verdict(by, kind, "ann", no, stamp(now()))


def test_the_reserve_is_for_what_takes_rights_away(small: Path) -> None:
    outbox = Outbox(str(small / "outbox.db"))
    outbox.keep_request("ann", WISH, AT)
    assert (small / "reserve").stat().st_size == SIZE
    filler = fill(small)
    with pytest.raises(sqlite3.OperationalError):
        for no in range(2000):
            outbox.keep_verdict(verdict("approve", no))
    assert (small / "reserve").exists()
    kept = outbox.keep_verdict(verdict("revoke"))
    assert kept.is_new and not (small / "reserve").exists()
    # while it is given up there is room, which is for these alone
    with pytest.raises(NoRoom):
        outbox.keep_request("ann", WISH, AT)
    with pytest.raises(NoRoom):
        outbox.keep_verdict(verdict("approve", 9999))
    assert outbox.keep_verdict(verdict("refuse", 2)).is_new
    outbox.answered(kept.id, "acked")
    assert outbox.entry(kept.id).state == "acked"
    # and it is made anew before anything else
    filler.unlink()
    outbox.keep_request("ann", WISH, AT)
    assert (small / "reserve").stat().st_size == SIZE
    outbox.close()


@pytest.mark.parametrize("is_clean", [True, False], ids=["closed", "killed"])
def test_a_full_disk_is_read_without_writing(small: Path, is_clean: bool) -> None:
    """Whoever opens the outbox first on a full disk: SQLite cannot make what it shares there."""
    path = small / "outbox.db"
    outbox = Outbox(str(path))
    for _ in range(20):
        outbox.keep_request("ann", WISH, AT)
    if not is_clean:
        for end in ("", "-wal"):
            (small / f"kept{end}").write_bytes((small / f"outbox.db{end}").read_bytes())
    outbox.close()
    if not is_clean:
        for end in ("", "-wal"):
            (small / f"kept{end}").rename(small / f"outbox.db{end}")
    fill(small)
    again = Outbox(str(path))
    assert len(again.requests()) == 20 and not again.has_room()
    with pytest.raises(sqlite3.OperationalError):
        again.keep_request("ann", WISH, AT)
    assert len(again.requests()) == 20
    assert again.keep_verdict(verdict("revoke")).is_new
    assert len(again.requests()) == 20 and len(again.verdicts("ann", 1)) == 1
    again.close()


def test_a_call_on_a_full_disk(small: Path) -> None:
    """By ssh's words, over a desk on the same disk: people read, and a revocation takes the grant
    away; a request says why it is not kept."""
    site = Site(small)
    site.start_desk()
    try:
        assert "Kept as ann 1." in site.run("ann", ASK).stdout
        assert site.run("carol", "approve ann 1 --yes").returncode == 0
        fill(small)
        mine = site.run("ann", "mine")
        assert mine.returncode == 0 and "ann 1" in mine.stdout, mine
        asked = site.run("ann", ASK.replace("ask ", "ask --again "))
        assert asked.returncode != 0 and "Kept" not in asked.stdout, asked
        assert "Nothing was sent" in asked.stderr
        # (nor is anything kept in the copy alone that a call reads)
        zone = site.run("ann", "set zone Europe/Berlin")
        assert zone.returncode != 0 and "Your zone" not in zone.stdout, zone
        saved = site.run("ann", "save the-usual 1")
        assert saved.returncode != 0 and "is the-usual" not in saved.stdout, saved
        revoked = site.run("carol", "revoke ann 1 --yes")
        assert revoked.returncode == 0, revoked
        assert "The desk has your revocation." in revoked.stdout
        assert site.ask(f"/v1/grants/{stamp(now())}") == ""
        late = site.run("ann", ASK)
        assert "only refusals and revocations are kept" in late.stderr, late
    finally:
        site.close()


def due(outbox: Outbox, desk: Desk) -> list[int]:
    """What is posted to a desk in the next round, in its order."""
    outbox.owed.know([desk.label])
    queues = ", ".join(map(str, posting.queues_at(outbox, desk)))
    order = f"WHERE queue IN ({queues}) ORDER BY queue, tried, message"
    return [id for (id,) in outbox.base.execute(f"SELECT message FROM owed {order}")]


def test_nothing_else_is_posted_meanwhile(small: Path) -> None:
    outbox = Outbox(str(small / "outbox.db"))
    request = outbox.keep_request("ann", WISH, AT)
    revoked = outbox.keep_verdict(verdict("revoke", 7))
    desk = Desk(f"unix:{small}/none.sock", "chat")
    assert due(outbox, desk) == [revoked.id, request.id]
    filler = fill(small)
    assert due(outbox, desk) == [revoked.id]
    filler.unlink()
    assert due(outbox, desk) == [revoked.id, request.id]
    outbox.close()


def test_what_others_write_meanwhile_is_posted(small: Path) -> None:
    """Who opened the outbox on a full disk, to read it, posts what others keep there later on."""
    path = str(small / "outbox.db")
    Outbox(path).close()
    desk = Desk(f"unix:{small}/none.sock", "chat")
    filler = fill(small)
    poster = Outbox(path)
    assert due(poster, desk) == []
    other = Outbox(path)
    revoked = other.keep_verdict(verdict("revoke", 7))
    assert due(poster, desk) == [revoked.id]
    filler.unlink()
    request = other.keep_request("ann", WISH, AT)
    assert due(poster, desk) == [revoked.id, request.id]
    poster.close()
    other.close()


class Keeper:
    """What answers for a desk's reserve."""

    def __init__(self, folder: Path) -> None:
        self.folder, self.is_full, self.said = folder, True, list[str]()
        self.socket = socket.socket(socket.AF_UNIX)
        self.socket.bind(str(folder / "socket"))
        self.socket.listen()
        threading.Thread(target=self.serve, daemon=True).start()

    def serve(self) -> None:
        while True:
            peer, _ = self.socket.accept()
            with peer:
                word = peer.recv(16).decode().strip()
                self.said.append(word)
                is_free = word == "free" or self.is_full
                (self.folder / "free").touch() if is_free else (self.folder / "free").unlink()
                peer.sendall(b"free\n" if is_free else b"whole\n")


def test_the_desks_reserve(tmp_path: Path, monkeypatch: pytest.MonkeyPatch) -> None:
    """A desk whose disk is full gives its reserve up for a revocation, and gets nothing else until
    it has it again."""
    keeper = Keeper(tmp_path)
    monkeypatch.setattr(posting, "DeskReserve", lambda: DeskReserve(str(tmp_path)))
    outbox, desk, said = Outbox(str(tmp_path / "outbox.db")), FullDesk(keeper), keeper.said
    asked = post_one(outbox, desk, outbox.keep_request("ann", WISH, AT))
    assert asked.state == "kept" and "K4 Storage" in asked.answer and said == []
    revoked = post_one(outbox, desk, outbox.keep_verdict(verdict("revoke", 7)))
    assert revoked.state == "acked" and said == ["free"]
    late = post_one(outbox, desk, outbox.keep_request("ann", WISH, AT))
    assert (late.state, late.answer) == ("kept", posting.HELD) and said[1:] == ["make"]
    assert [it.takes_away for it in post_kept(outbox, desk)] == []
    keeper.is_full = False
    assert {it.state for it in post_kept(outbox, desk)} == {"acked"}
    outbox.close()


class FullDesk(Desk):
    """A desk that has room only where its reserve was given up, or its disk is not full."""

    def __init__(self, keeper: Keeper) -> None:
        super().__init__(f"unix:{keeper.folder}/none.sock", "chat")
        self.keeper = keeper

    def post(self, relay: str, body: bytes) -> object:  # type: ignore[override]
        from steelnewt_client.codes import judge

        is_taken = not self.keeper.is_full or (self.keeper.folder / "free").exists()
        return judge(200, "ack\n") if is_taken else judge(503, "K4 Storage\n")


def test_no_reserve_where_nobody_answers(tmp_path: Path) -> None:
    assert DeskReserve(str(tmp_path / "none")).is_there()
    (tmp_path / "free").touch()
    assert not DeskReserve(str(tmp_path)).is_there()
    assert not DeskReserve(str(tmp_path)).free()
    assert reserve.OF_DESK == "/run/desk-reserve"

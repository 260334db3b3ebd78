"""What takes rights away goes first, and no message is tried twice before all were tried once."""

import threading
from collections.abc import Iterator
from pathlib import Path
from typing import Any

import pytest

from relays.tests.recorder import ACK, Recorder
from steelnewt_client.desk import Desk
from steelnewt_client.messages import Verdict, Wish
from steelnewt_relay.outbox import Outbox
from steelnewt_relay.posting import post_kept
from steelnewt_relay.shares import Share

MANY = 10_000
WISH = Wish.of("db-care", ["db1"], "root", ["/usr/bin/id"], ("20260105090000Z", "20260105100000Z"))
AT = "20260105080000Z"


@pytest.fixture
def outbox(tmp_path: Path) -> Iterator[Outbox]:
    found = Outbox(str(tmp_path / "outbox.db"), share=Share(2 * MANY, 2 * MANY))
    found.base.execute("PRAGMA synchronous = off")  # (it is filled sooner)
    yield found
    found.close()


def ask(outbox: Outbox, count: int, by: str = "ann") -> None:
    for _ in range(count):
        outbox.keep_request(by, WISH, AT)


def say(outbox: Outbox, kind: str, no: int = 1) -> None:
    outbox.keep_verdict(Verdict("bob", kind, "carol", no, AT))


def kinds(recorder: Recorder) -> list[str]:
    return [it["kind"] for it in recorder.posted]


def test_a_revocation_behind_ten_thousand_requests(outbox: Outbox, tmp_path: Path) -> None:
    """The desk is back: the first posts are what takes rights away."""
    ask(outbox, MANY)
    for kind in ("revoke", "refuse", "approve"):
        say(outbox, kind)
    desk = Recorder(tmp_path / "desk.sock", most=5)
    post_kept(outbox, Desk(desk.url, "chat"))
    assert kinds(desk) == ["revoke", "refuse", "request", "request", "request"]


def test_a_revocation_amid_ten_thousand_requests(outbox: Outbox, tmp_path: Path) -> None:
    """One that is kept while others are posted is the next."""
    ask(outbox, MANY)
    at_ten, is_kept = threading.Event(), threading.Event()

    def says(message: dict[str, Any]) -> str:
        if len(desk.posted) == 10:
            at_ten.set()
            assert is_kept.wait(60)
        return ACK

    desk = Recorder(tmp_path / "desk.sock", says, most=12)

    def revoke() -> None:
        other = Outbox(outbox.path)
        assert at_ten.wait(60)
        say(other, "revoke")
        is_kept.set()
        other.close()

    other = threading.Thread(target=revoke)
    other.start()
    post_kept(outbox, Desk(desk.url, "chat"))
    other.join()
    assert kinds(desk)[9:] == ["request", "revoke", "request"]


def test_a_broken_connection_holds_up_nothing(outbox: Outbox, tmp_path: Path) -> None:
    """Something closes the connection at one message, each time."""
    ask(outbox, 1, "eve")
    ask(outbox, 20)
    say(outbox, "revoke")
    desk = Recorder(tmp_path / "desk.sock", lambda it: "" if it.get("by") == "eve" else ACK)
    for _ in range(5):
        post_kept(outbox, Desk(desk.url, "chat"))
    assert kinds(desk).count("revoke") == 1
    assert [it.message.by for it in outbox.unposted()] == ["eve"]
    assert len([it for it in desk.posted if it["by"] == "eve"]) == 5
    desk.close()


def test_a_revocation_that_breaks_the_connection(outbox: Outbox, tmp_path: Path) -> None:
    say(outbox, "revoke")
    ask(outbox, 20)
    desk = Recorder(tmp_path / "desk.sock", lambda it: "" if it["kind"] == "revoke" else ACK)
    post_kept(outbox, Desk(desk.url, "chat"))
    assert kinds(desk) == ["revoke", *["request"] * 20]
    assert [it.takes_away for it in outbox.unposted()] == [True]
    desk.close()


def test_none_twice_before_all_once(outbox: Outbox, tmp_path: Path) -> None:
    """Nothing is answered, and after each ten messages the desk is away."""
    ask(outbox, 30)
    desk = Recorder(tmp_path / "desk.sock", lambda _: "", most=10)
    for rounds in range(1, 5):
        post_kept(outbox, Desk(desk.url, "chat"))
        numbers = [it["no"] for it in desk.posted]
        assert len(numbers) == 10 * rounds, numbers
        assert len(set(numbers)) == min(30, 10 * rounds), numbers
        desk.close()
        desk.open()
    desk.close()


def test_whoever_is_away_is_tried_once(outbox: Outbox, tmp_path: Path) -> None:
    """No connection is made: what is left need not be tried in this round."""
    ask(outbox, 30)
    tried = post_kept(outbox, Desk(f"unix:{tmp_path}/none.sock", "chat"))
    assert len(tried) == 1 and "there is no socket" in tried[0].answer

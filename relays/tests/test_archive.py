"""What grows in an outbox has an end: what is long over goes into files, and nothing is lost, given
twice or forgotten by it."""

import json
import stat
import threading
from datetime import timedelta
from pathlib import Path

import pytest

from relays.tests.site import Site
from steelnewt_client.messages import Verdict, Wish
from steelnewt_client.moments import now, stamp
from steelnewt_relay import archive
from steelnewt_relay.archive import Archive, keep_tidy
from steelnewt_relay.config import BadConfig, read_config
from steelnewt_relay.events import Event
from steelnewt_relay.lists import Wanted
from steelnewt_relay.notices import Notices
from steelnewt_relay.outbox import Kept, Outbox
from steelnewt_relay.reasons import Reason

DAYS = 60


def kept(outbox: Outbox, days_ago: int, by: str = "ann", *kinds: str) -> Kept:
    """A request that was over so many days ago, with verdicts on it: all of them acknowledged."""
    at = now() - timedelta(days=days_ago, hours=1)
    window = stamp(at), stamp(at + timedelta(hours=1))
    wish = Wish.of("db-care", ["db1", "db2"], "root", ["/usr/bin/id"], window)
    asked = outbox.keep_request(by, wish, stamp(at), reason=Reason("disk full", "OPS-7"))
    outbox.answered(asked.id, "acked")
    for kind in kinds:
        verdict = Verdict("bob", kind, by, asked.request.no, stamp(at))
        outbox.answered(outbox.keep_verdict(verdict, why=f"to {kind} it").id, "acked")
    return outbox.entry(asked.id)


def opened(folder: Path) -> Outbox:
    outbox = Outbox(str(folder / "outbox.db"))
    outbox.base.execute("PRAGMA synchronous = off")
    outbox.way = "ssh SHA256:x"
    return outbox


def bodies(outbox: Outbox) -> set[str]:
    return {it.message.text() for it in outbox.find("id > 0")}


def lines(folder: Path) -> list[dict[str, object]]:
    paths = sorted(folder.glob("outbox.db-archive-*.jsonl"))
    return [json.loads(line) for path in paths for line in path.read_text().splitlines()]


def test_what_is_long_over_goes_with_all_that_is_known(tmp_path: Path) -> None:
    outbox = opened(tmp_path)
    notices = Notices(outbox)
    old, new = kept(outbox, 70, "ann", "approve", "revoke"), kept(outbox, 50, "ann", "approve")
    saved, waiting = kept(outbox, 80, "carol"), kept(outbox, 80, "dave")
    outbox.own.save("carol", "restart-pg", saved.id, ())
    outbox.keep_verdict(Verdict("bob", "revoke", "dave", waiting.request.no, stamp(now())))
    alone = Verdict("bob", "refuse", "eve", 7, stamp(now() - timedelta(days=90)))
    outbox.answered(outbox.keep_verdict(alone).id, "acked")
    notices.record([Event("asked", old.id, {"at": "20260101000000Z", "to": ["bob"], "by": "ann"})])
    for due in notices.due(False):
        notices.done(due)
    before = bodies(outbox)
    assert Archive(outbox).tidy(DAYS) == 3 and Archive(outbox).tidy(DAYS) == 0
    found = lines(tmp_path)
    assert bodies(outbox) | {str(it["body"]) for it in found} == before
    request, *verdicts = sorted(found, key=lambda it: "request" not in str(it["body"]))
    assert request["body"] == old.message.text() and request["why"] == "disk full"
    assert request["told"] == [
        {"event": "asked", "state": "done", "at": "20260101000000Z", "to": ["bob"]}
    ]
    assert {str(it["why"]) for it in verdicts} == {"to approve it", "to revoke it"}
    assert {it["came_by"]["key"] for it in found} == {"ssh SHA256:x"}  # type: ignore[index]
    # (what is on its way, saved or not long over stays, and nobody's number is given again)
    assert {it.id for it in outbox.requests()} == {new.id, saved.id, waiting.id}
    assert outbox.lists.count(Wanted(host="db1")) == 3
    assert kept(outbox, 0).request.no == 3
    for table in ("notices", "ways", "reasons", "untold", "unsettled"):
        column = "message" if table in ("notices", "untold", "unsettled") else "id"
        left = f"SELECT count(*) FROM {table} WHERE {column} NOT IN (SELECT id FROM messages)"
        assert outbox.base.execute(left).fetchone()[0] == 0, table
    for path in tmp_path.glob("*.jsonl"):
        assert stat.S_IMODE(path.stat().st_mode) == 0o600


def test_no_number_of_a_message_is_given_twice(tmp_path: Path) -> None:
    """Not even where everything is over: notices and links are by these numbers."""
    outbox = opened(tmp_path)
    numbers = {kept(outbox, 70).id for _ in range(5)}
    assert Archive(outbox).tidy(DAYS) == 4
    more = kept(outbox, 0)
    assert more.id not in numbers and more.request.no == 6


def test_a_stop_loses_nothing(tmp_path: Path, monkeypatch: pytest.MonkeyPatch) -> None:
    """At each point between the file and the outbox; a line that was cut off spoils no other."""
    outbox = opened(tmp_path)
    for _ in range(3):
        kept(outbox, 70, "ann", "approve")
    kept(outbox, 0)
    before, drop, calls = bodies(outbox), Archive.drop, 0

    def stopped(self: Archive, message: int) -> None:
        nonlocal calls
        calls += 1
        if calls == 4:
            raise OSError("the power is gone")
        drop(self, message)

    monkeypatch.setattr(Archive, "drop", stopped)
    with pytest.raises(OSError):
        Archive(outbox).tidy(DAYS)
    assert bodies(outbox) == before
    path, *_ = tmp_path.glob("*.jsonl")
    path.write_bytes(path.read_bytes()[:-20])
    assert Archive(outbox).tidy(DAYS) == 6
    whole = [it for it in path.read_text().splitlines() if it.endswith("}")]
    found = {str(json.loads(it)["body"]) for it in whole}
    assert bodies(outbox) | found == before and len(whole) == 5 + 6


def test_a_desk_that_lost_its_store_gets_all_of_it(tmp_path: Path) -> None:
    outbox = opened(tmp_path)
    kept(outbox, 70, "ann", "approve")
    kept(outbox, 0)
    before = {it.message.text(): it.reason for it in outbox.find("id > 0")}
    assert Archive(outbox).tidy(DAYS) == 2
    assert outbox.post_again() + Archive(outbox).bring_back() == 3
    assert {it.message.text(): it.reason for it in outbox.unposted()} == before
    assert Archive(outbox).bring_back() == 0


def test_the_bytes_that_were_kept_come_back(tmp_path: Path) -> None:
    """Also where this version would write the message otherwise, as a later one did."""
    outbox = opened(tmp_path)
    asked = kept(outbox, 70)
    kept(outbox, 0)
    body = f'{asked.message.text()[:-1]},"zone":"UTC"}}'
    outbox.base.execute("UPDATE messages SET body = ? WHERE id = ?", (body, asked.id))
    assert Archive(outbox).tidy(DAYS) == 1 and lines(tmp_path)[0]["body"] == body
    assert Archive(outbox).bring_back() == 1
    assert [it.line for it in outbox.unposted()] == [body.encode()]


def test_an_outbox_ends_to_grow(tmp_path: Path) -> None:
    """A year goes by, of which it keeps two months: after them it is as large as at its end."""
    outbox, sizes = opened(tmp_path), []
    for month in range(12, 0, -1):
        for day in range(20):
            kept(outbox, 30 * month - day, f"ann{day % 4}", "approve", "approve")
        Archive(outbox).tidy(30 * month + 40)
        sizes.append(outbox.base.execute("PRAGMA page_count").fetchone()[0])
    assert sizes[-1] <= 1.2 * sizes[3], sizes
    assert len(outbox.requests()) <= 60 and len(lines(tmp_path)) + len(bodies(outbox)) == 480


def test_the_relay_does_it_by_itself(tmp_path: Path) -> None:
    outbox, ended = opened(tmp_path), threading.Event()
    kept(outbox, 70)
    kept(outbox, 0)
    tidy = threading.Thread(target=keep_tidy, args=(lambda: opened(tmp_path), DAYS, ended))
    tidy.start()
    for _ in range(600):
        if lines(tmp_path) and len(outbox.requests()) == 1:
            break
        ended.wait(0.1)
    ended.set()
    tidy.join(timeout=60)
    assert len(lines(tmp_path)) == 1 and len(outbox.requests()) == 1 and archive.EVERY <= 3600


@pytest.mark.parametrize("days", ["0", "30", '"60"', "true"])
def test_settings_that_are_none(quiet_site: Site, days: str) -> None:
    text = quiet_site.config.read_text()
    quiet_site.config.write_text(f"days = {days}\n{text}")
    with pytest.raises(BadConfig, match="days"):
        read_config(str(quiet_site.config))

"""What people read of a request whose verdicts the desk took out of its store: it is over, and the
relay does not say of it what the desk no longer knows."""

import os
import subprocess
from collections.abc import Iterator
from datetime import timedelta
from pathlib import Path

import pytest

from relays.tests.counting import counted
from relays.tests.site import DESK, Site
from relays.tests.test_asks import brought, page, wish
from steelnewt_client.desk import Desk
from steelnewt_client.messages import Verdict
from steelnewt_client.moments import now, stamp
from steelnewt_relay.config import read_config
from steelnewt_relay.events import Finder
from steelnewt_relay.standing import Knowledge

CUTTER = Path(DESK).with_name(Path(DESK).name.replace("desk", "desk-cut", 1))
HOUR = timedelta(hours=1)
# What the requests below come to, the newest first, before the cut and behind it.
BEFORE = ["waiting", "granted", "over", "over", "over", "refused", "over"]
BEHIND = ["waiting", "granted", *["archived"] * 5]


@pytest.fixture
def old(site: Site) -> Iterator[Site]:
    """Requests of five days ago: one that was granted, one refused, one revoked after a while, one
    that nobody answered, and one that was approved elsewhere; one in force, and one that waits."""
    at = now() - timedelta(days=5)
    brought(site, wish(at), ("bob", "approve", at))
    brought(site, wish(at), ("bob", "refuse", at))
    brought(site, wish(at), ("bob", "approve", at), ("bob", "revoke", at + HOUR / 2))
    brought(site, wish(at))
    elsewhere = brought(site, wish(at))
    verdict = Verdict("bob", "approve", "ann", elsewhere.request.no, stamp(at))
    Desk(site.url, "chat", None, None).post("chat", verdict.text().encode())
    brought(site, wish(now() - HOUR / 2), ("bob", "approve", now() - HOUR / 2))
    brought(site, wish(now()))
    assert states(site) == BEFORE
    yield site


def states(site: Site, line: str = "mine") -> list[str]:
    found = site.data("ann", line)
    assert isinstance(found, list)
    return [it["state"] or it["status"] for it in found]


def cut(site: Site, monkeypatch: pytest.MonkeyPatch, has_history: bool = True) -> None:
    """The desk's history is cut, and the desk says so."""
    count, roster, base = Desk(site.url, "chat", None, None).count()
    site.stop_desk()
    at, fresh = stamp(now() - timedelta(days=2)), site.folder / "new.db"
    subprocess.run([CUTTER, site.store, fresh, at], check=True)
    for path in site.folder.glob("desk.db*"):
        path.unlink()
    fresh.rename(site.store)
    if has_history:
        moments = site.folder / "moments"
        moments.write_text(f"{stamp(now())} cut {at} 5 {roster} {base}\n")
        monkeypatch.setitem(os.environ, "DESK_HISTORY", str(moments))
    site.start_desk()
    assert Desk(site.url, "chat", None, None).count()[0] < count


def test_it_is_archived(old: Site, monkeypatch: pytest.MonkeyPatch) -> None:
    cut(old, monkeypatch)
    for line in ("mine", "mine --all", "history"):
        assert states(old, line) == BEHIND, line
    ran = old.run("ann", "mine")
    assert ran.stdout.count("archived") == 5 and ran.returncode == 0, ran
    shown = old.run("ann", "show ann 2")
    assert "in the desk's archive" in shown.stdout and "bob refused it" in shown.stdout, shown
    assert "waits" not in shown.stdout and "nothing of it" not in shown.stdout, shown
    waiting = old.data("bob", "waiting")
    assert isinstance(waiting, list) and [it["no"] for it in waiting] == [7]
    old.start_page()
    text = page(old, "ann", "/history")
    assert text.count('<span class="state archived">archived</span>') == 5, text
    assert page(old, "bob").count('id="waits-ann-') == 1


def test_it_asks_once(old: Site, monkeypatch: pytest.MonkeyPatch) -> None:
    """Up to when it was cut is one question, however much is shown; and none where nothing that
    is over is without a grant."""
    cut(old, monkeypatch)
    with counted(old) as counter:
        assert states(old) == BEHIND
        asked = [it.split("/")[2] for it in counter.asked()]
        assert asked == ["open", "requests", "history"], asked
        assert old.run("bob", "waiting").returncode == 0
        assert [it.split("/")[2] for it in counter.asked()] == ["open"]


def test_a_desk_that_says_nothing_of_it(old: Site, monkeypatch: pytest.MonkeyPatch) -> None:
    """What this relay brought, and the desk no longer has, is archived all the same."""
    cut(old, monkeypatch, has_history=False)
    assert states(old) == [*BEHIND[:2], "over", "over", *["archived"] * 3]


def test_nobody_is_told_that_it_was_not_granted(old: Site, monkeypatch: pytest.MonkeyPatch) -> None:
    """Whoever tells people was away: a request that was granted is not told as one that was not."""
    cut(old, monkeypatch)
    config = read_config(str(old.config))
    outbox, desk = config.open_outbox(), config.open_desk()
    finder = Finder(Knowledge(outbox, desk, config.read_roster(), now()))
    kept = [outbox.request("ann", number) for number in range(1, 6)]
    assert [finder.of_past(it) for it in kept if it] == [None] * 5

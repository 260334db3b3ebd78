"""What another relay brings, or whoever has its key, is told to the people whom it names, and rings
every bell where it is a break-glass; people read what came so, marked."""

import json
import subprocess
import sys
from collections.abc import Iterator
from datetime import timedelta
from pathlib import Path
from typing import Any

import pytest

from relays.tests.site import ROOT, SECRET, Site
from relays.tests.test_asks import brought, page, wish
from steelnewt_client.codes import Fate
from steelnewt_client.desk import Desk
from steelnewt_client.messages import Request, Verdict, Wish
from steelnewt_client.moments import now, stamp
from steelnewt_relay.archive import Archive
from steelnewt_relay.config import read_config
from steelnewt_relay.events import Finder
from steelnewt_relay.notices import Notices, look
from steelnewt_relay.standing import Knowledge

BREAK_GLASS = (ROOT / "examples" / "break-glass.toml").read_text()
ON_CALL = BREAK_GLASS.replace("[people]\n", '[people]\nann = ["on-call"]\nbob = []\n')
Event = dict[str, Any]


class Told:
    """A site, and what its relay tells people."""

    def __init__(self, site: Site) -> None:
        self.site, self.config = site, read_config(str(site.config))
        self.outbox, self.desk = self.config.open_outbox(), self.config.open_desk()
        self.notices = Notices(self.outbox)

    def post(self, message: Request | Verdict) -> None:
        """Another relay, or who stole this one's key, brings a message."""
        [desk] = self.desk.each
        answer = desk.post("chat", message.text().encode())
        assert answer.fate is Fate.TAKEN, answer

    def finder(self) -> Finder:
        return Finder(Knowledge(self.outbox, self.desk, self.config.read_roster(), now()))

    def events(self) -> list[Event]:
        """The new events."""
        assert look(self.notices, self.finder) == ""
        rows = self.outbox.base.execute("SELECT body FROM notices WHERE state = 'due'").fetchall()
        self.outbox.base.execute("UPDATE notices SET state = 'done' WHERE state = 'due'")
        return [json.loads(body) for (body,) in rows]


@pytest.fixture
def told(site: Site) -> Iterator[Told]:
    found = Told(site)
    assert found.events() == []
    yield found
    found.outbox.close()


def test_every_bell_rings_for_a_break_glass(quiet_site: Site, tmp_path: Path) -> None:
    """A thief of a relay's key uses it: request and approval are in nobody's outbox."""
    site = quiet_site
    (site.folder / "site.roster").write_text(f'relays = ["chat"]\nhosts = ["db1", "db2"]\n{ON_CALL}')
    site.start_desk()
    told, at = Told(site), now()
    assert told.events() == []
    window = stamp(at), stamp(at + timedelta(hours=1))
    asked = Wish.of("break-glass", ["db1"], "root", ["ALL"], window)
    told.post(Request("ann", 1, stamp(at), asked))
    told.post(Verdict("glass", "approve", "ann", 1, stamp(at)))
    events = told.events()
    assert [(it["event"], it["to"]) for it in events] == [
        ("elsewhere", ["ann"]), ("elsewhere", ["ann", "glass"]),
    ]  # fmt: skip
    assert all("by another way in" in it["text"] and it["status"] == "granted" for it in events)
    bells, heard = tmp_path / "bells", tmp_path / "heard"
    bells.write_text("bob bob@site\ncarol carol@site\n")
    for event in events:
        words = [str(ROOT / "examples" / "ring-bells.py"), str(bells), "/usr/bin/tee", str(heard)]
        subprocess.run([sys.executable, *words], input=json.dumps(event), text=True, check=True)
        rung = json.loads(heard.read_text())
        assert {"ann", "bob", "carol"} <= set(rung["to"]), rung
        assert rung["subject"].startswith("BREAK-GLASS: "), rung
    assert told.events() == []


def test_approvals_that_sleep_are_told(told: Told) -> None:
    """An approval of what nobody asked yet is told to its author, and to whom it is about."""
    told.post(Verdict("bob", "approve", "ann", 77, stamp(now())))
    [event] = told.events()
    assert (event["event"], event["to"]) == ("elsewhere", ["ann", "bob"])
    assert "bob approved ann 77, by another way in." in event["text"]
    assert told.events() == []


def test_a_verdict_on_a_request_of_this_relay(told: Told) -> None:
    kept = brought(told.site, wish(now()))
    assert [it["event"] for it in told.events()] == ["asked"]
    told.post(Verdict("carol", "refuse", "ann", kept.request.no, stamp(now())))
    [event] = told.events()
    assert (event["event"], event["to"], event["status"]) == ("elsewhere", ["ann", "carol"], "refused")
    # its own are told as ever, and no more than once
    told.outbox.keep_verdict(Verdict("bob", "refuse", "ann", kept.request.no, stamp(now())))
    assert told.events() == []


def test_what_was_there_before_anything_was_told(site: Site) -> None:
    at = now()
    desk = Desk(site.url, "mail")
    desk.post("mail", Request("ann", 9, stamp(at), wish(at)).text().encode())
    told = Told(site)
    assert told.events() == [] and told.events() == []
    told.post(Verdict("bob", "approve", "ann", 9, stamp(at)))
    assert [it["to"] for it in told.events()] == [["ann", "bob"]]


def test_what_was_told_long_ago_goes_into_the_archive(told: Told) -> None:
    """What the desk tells of still stays: it is told to nobody again."""
    at = now()
    told.post(Request("ann", 9, stamp(at), wish(at)))
    told.post(Verdict("bob", "approve", "ann", 77, stamp(at)))
    assert len(told.events()) == 2

    def a_year_later() -> Finder:
        later = now() + timedelta(days=500)
        return Finder(Knowledge(told.outbox, told.desk, told.config.read_roster(), later))

    for _ in range(2):
        assert look(Notices(told.outbox), a_year_later) == ""
        rows = told.outbox.base.execute("SELECT body FROM notices").fetchall()
        assert [json.loads(body)["no"] for (body,) in rows] == [77]
    [path] = told.site.folder.glob("outbox.db-archive-*.jsonl")
    [line] = map(json.loads, path.read_text().splitlines())
    assert (line["elsewhere"]["who"], line["elsewhere"]["no"], line["state"]) == ("ann", 9, "done")
    assert Archive(told.outbox).bring_back() == 0


def only(site: Site, person: str, line: str) -> Event:
    """The one thing that a list has."""
    found = site.data(person, line)
    assert isinstance(found, list) and len(found) == 1, found
    return dict(found[0])


def test_people_read_what_another_relay_brought(site: Site) -> None:
    """In each list where it belongs, marked so; approved it is there where its reason is known."""
    at, desk = now(), Desk(site.url, "mail")
    request = Request("ann", 9, stamp(at), wish(at))
    assert desk.post("mail", request.text().encode()).fate is Fate.TAKEN
    for person, line in (("bob", "waiting"), ("ann", "mine"), ("dave", "history")):
        found = only(site, person, line)
        assert (found["who"], found["no"], found["elsewhere"]) == ("ann", 9, True), line
    shown = site.run("bob", "show ann 9").stdout
    assert "ann 9  [waiting, by another way in]" in shown and "/usr/bin/id" in shown
    site.start_page()
    assert 'id="waits-ann-9"' in page(site, "bob") and "by another way in" in page(site, "ann")
    ran = site.run("bob", "approve ann 9 --yes")
    assert ran.returncode == 2 and "ann 9 came by another way in" in ran.stderr, ran
    heads = {"X-Desk-Front": SECRET, "X-Desk-Person": "bob"}
    status, text = site.ask_page("/verdict?kind=approve&of=ann&no=9", heads)
    assert status == 400 and "nn 9 came by another way in" in text and site.kept() == []
    assert desk.post("mail", Verdict("bob", "approve", "ann", 9, stamp(at)).text().encode())
    live = only(site, "carol", "live")
    assert live["hosts"] == ["db1"] and live["elsewhere"]
    assert site.run("carol", "revoke ann 9 --yes").returncode == 0
    assert "carol revoked it" in site.run("ann", "show ann 9").stdout

"""What an answer of the page costs: little more where many wait, and nothing is read or made again
that did not change. What is kept for that is shown to nobody else, and no longer than it is so."""

import json
import sys
import time
from datetime import timedelta
from types import FrameType

import pytest

from relays.tests.front import Front
from relays.tests.site import SECRET, Site
from relays.tests.test_crowd import opened
from relays.tests.test_page import ask, get
from steelnewt_client.moments import now, stamp
from steelnewt_client.told import entry_of, read_entry, read_names
from steelnewt_relay.config import read_config
from steelnewt_relay.page import create_app
from steelnewt_relay.standing import Board
from steelnewt_relay.visit import Visit

FEW, MANY = 60, 360
# Calls of functions for each request more that waits: with the board, and by somebody who shares it.
MOST, MOST_SHARED = 50, 10


def calls(site: Site, person: str) -> int:
    """How many calls of functions an answer of the page's makes, once it was made before."""
    app = create_app(read_config(str(site.config)))
    client, heads = app.test_client(), {"X-Desk-Front": SECRET, "X-Desk-Person": person}
    found: list[int] = []

    def count(_: FrameType, event: str, __: object) -> None:
        found[-1] += event in ("call", "c_call")

    for _ in range(3):
        found.append(0)
        sys.setprofile(count)
        try:
            reply = client.get("/", headers=heads)
        finally:
            sys.setprofile(None)
        assert reply.status_code == 200 and reply.text.count('id="waits-') == 50
    return min(found)


def calls_in(folder_site: Site, count: int, person: str) -> int:
    opened(folder_site, count, now() - timedelta(minutes=1))
    folder_site.start_desk()
    try:
        return calls(folder_site, person)
    finally:
        folder_site.stop_desk()


@pytest.mark.parametrize(("is_shared", "most"), [(False, MOST), (True, MOST_SHARED)])
def test_many_that_wait_cost_little(
    tmp_path_factory: pytest.TempPathFactory,
    monkeypatch: pytest.MonkeyPatch,
    is_shared: bool,
    most: int,
) -> None:
    look, kept = Visit.look, {}

    def looked(visit: Visit, day: object) -> Board:
        """The board that another's question made."""
        if visit.config.outbox not in kept:
            kept[visit.config.outbox] = look(visit, day)  # type: ignore[arg-type]
        return kept[visit.config.outbox]

    if is_shared:
        monkeypatch.setattr(Visit, "look", looked)
    sites = [Site(tmp_path_factory.mktemp(f"cost{it}")) for it in range(2)]
    few, many = (calls_in(it, count, "q0") for it, count in zip(sites, (FEW, MANY)))
    each = (many - few) / (MANY - FEW)
    print(f"an answer over {FEW}: {few} calls, over {MANY}: {many}, so {each:.1f} for each more")
    assert each < most


def test_what_is_told_again_is_not_read_again(site: Site) -> None:
    for number in range(1, 6):
        line = "ask db-care --on db1 --as root --for 1h --yes --again /usr/bin/id"
        assert site.run("ann", line).returncode == 0, number
    text = site.ask("/v1/requests")
    read_entry.cache_clear()
    found = read_names(text)
    assert found == dict(entry_of(it) for it in json.loads(text)["names"]) and len(found) == 5
    assert read_entry.cache_info().misses == 5
    again = read_names(text)
    assert all(again[name] is told for name, told in found.items())
    assert site.run("bob", "approve ann 3 --yes").returncode == 0
    later = read_names(site.ask("/v1/requests"))
    assert read_entry.cache_info().misses == 6
    assert later["ann", 3] and later["ann", 3].grant and not found["ann", 3].grant
    assert [it for it in found if later[it] is not found[it]] == [("ann", 3)]
    broken(site.ask("/v1/requests").rstrip())


def broken(text: str) -> None:
    """No part of a document is taken for one, and one with a byte changed is read as its JSON."""
    for end in range(len(text)):
        with pytest.raises(ValueError):
            read_names(text[:end])
    for at in range(len(text)):
        for mark in '"}],:{x0 ':
            given = text[:at] + mark + text[at + 1 :]
            assert outcome(given) == whole(given), given
    for given in (text + "x", text + "{}", text.replace('"windows":[', '"windows":[],"names":[')):
        assert outcome(given) == whole(given), given


def outcome(text: str) -> object:
    try:
        return read_names(text)
    except ValueError:
        return "none"


def whole(text: str) -> object:
    """The same, read in one piece."""
    try:
        return dict(entry_of(it) for it in json.loads(text)["names"])
    except (ValueError, KeyError, TypeError, AttributeError, RecursionError):
        return "none"


def live(page: str) -> str:
    """What stands below 'In force, and granted to come'."""
    return page.partition('<h2 id="live">')[2].partition("</section>")[0]


def test_kept_for_nobody_else_and_no_longer(site: Site) -> None:
    site.start_page()
    front = Front(site, ["ann", "bob", "dave", "eve"])
    # (a slow machine takes longer until what is granted is looked at, before it begins)
    began = time.monotonic()
    assert site.run("ann", "mine").returncode == 0
    begins = now() + timedelta(seconds=12 + 10 * int(time.monotonic() - began))
    try:
        assert "ann 1</a>: It waits for approval. It needs 1 approval" in ask(front, begins=stamp(begins))
        assert site.run("bob", "approve ann 1 --yes").returncode == 0
        early = late = 0
        while now() < begins + timedelta(seconds=2):
            for person in ("dave", "ann", "bob", "eve", "dave"):
                before = now()
                part, asked = live(get(front.url(person)).text), mine(front)
                is_theirs = 'class="revoke"' in part
                # (dave may not; eve holds the duty, and who revokes needs no more)
                assert is_theirs == (person in ("ann", "bob", "eve")), (person, part)
                if now() < begins:
                    assert '<rect class="bar later"' in part and "is granted from" in asked
                    early += 1
                if before >= begins:
                    assert '<rect class="bar"' in part and "It is in force from" in asked
                    late += 1
            time.sleep(0.2)
        assert early and late
        assert site.run("ann", "revoke ann 1 --yes").returncode == 0
        for person in ("dave", "ann", "bob"):
            assert "Nothing is in force." in live(get(front.url(person)).text), person
    finally:
        front.stop()


def mine(front: Front) -> str:
    return get(front.url("ann")).text.partition('<h2 id="mine">')[2].partition("</section>")[0]

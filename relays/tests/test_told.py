"""Who is told, and once: whoever was woken hears when it is over, those on call are told first, and
a notice says what it is about and leads there. The relay's own `notify` runs a program that keeps
each event."""

import json
import time
from collections.abc import Iterator
from datetime import datetime, timedelta

import pytest

from relays.tests.site import Site
from relays.tests.test_asks import brought, wish
from relays.tests.test_night import said
from relays.tests.test_notices import settings, tables, wait_for
from steelnewt_client.moments import now

ASK = "ask db-care --on db1 --as root --for 1h --yes --again --why disk full /usr/bin/id"


def told(site: Site, person: str, line: str) -> None:
    status, text = said(site, person, line)
    assert status == 0, text


def events(site: Site) -> list[dict[str, object]]:
    file = site.folder / "events"
    return [json.loads(line) for line in file.read_text().splitlines()] if file.exists() else []


def heard(site: Site, person: str) -> list[str]:
    """The kinds of events that a person is told, in their order."""
    return [str(it["event"]) for it in events(site) if person in it["to"]]  # type: ignore[operator]


def hears(site: Site, person: str, kinds: list[str], seconds: float = 300.0) -> None:
    """Waits until a person was told of these kinds of events, and of no others."""
    until = time.monotonic() + seconds
    while heard(site, person) != kinds and time.monotonic() < until:
        time.sleep(0.2)
    assert heard(site, person) == kinds


@pytest.fixture(scope="module")
def served(tmp_path_factory: pytest.TempPathFactory) -> Iterator[Site]:
    """A site whose desk serves all of these tests."""
    found = Site(tmp_path_factory.mktemp("told"))
    on_call(found, "carol")
    found.start_desk()
    yield found
    found.close()


@pytest.fixture
def site(served: Site) -> Site:
    served.begin_anew()
    (served.folder / "events").unlink(missing_ok=True)
    return served


@pytest.fixture
def telling(site: Site) -> Site:
    """A site that tells people, by a program which keeps what it is given."""
    begun(site)
    return site


def begun(site: Site, **other: object) -> None:
    words = ["/bin/sh", "-c", f"cat >> {site.folder}/events"]
    settings(site, *words, link="https://desk/", **other)
    site.start("notify", "--every", "0.2")
    wait_for(lambda: "told_from" in tables(site))


# Who says what of ann's request, and what carol hears, who was woken and did nothing.
ENDS = [
    ("bob", "approve ann {} --yes", ["asked", "granted"]),
    ("bob", "refuse ann {} --yes", ["asked", "refused"]),
    ("ann", "revoke ann {} --yes", ["asked", "revoked"]),
]


@pytest.mark.parametrize(("person", "line", "wanted"), ENDS)
def test_who_was_woken_hears_that_it_is_over(
    telling: Site, person: str, line: str, wanted: list[str]
) -> None:
    told(telling, "ann", ASK)
    hears(telling, "carol", ["asked"])
    told(telling, person, line.format(telling.no()))
    wait_for(lambda: len(events(telling)) >= 2)
    hears(telling, "carol", wanted, 20)
    last = events(telling)[-1]
    assert "Nothing is left to do for who was asked." in str(last["text"])
    # nobody hears one thing twice, nor what they have just done
    assert len(heard(telling, "ann")) == (person != "ann")
    assert heard(telling, "bob") == ["asked"] if person == "bob" else wanted


def test_what_lapses_is_told_to_who_was_woken(site: Site) -> None:
    begun(site)
    ends = now() + timedelta(seconds=15)
    kept = brought(site, wish(ends - timedelta(hours=1)))
    hears(site, "carol", ["asked", "void"], 120)
    assert heard(site, "bob") == ["asked", "void"] and heard(site, "ann") == ["void"]
    assert kept.request.no == site.no()


def test_a_notice_says_what_it_is_about_and_leads_there(telling: Site) -> None:
    told(telling, "ann", f"{ASK}".replace("--why disk full", "--why disk full --ticket OPS-7"))
    hears(telling, "bob", ["asked"])
    event = events(telling)[0]
    assert event["subject"] == "ann: root on db1, 1 hour: disk full (OPS-7)"
    name, link = f"ann {telling.no()}", f"https://desk/r/ann/{telling.no()}"
    assert event["link"] == link and event["thread"] == name.replace(" ", "-")
    rows = str(event["text"]).splitlines()
    assert rows[-2:] == [f"To approve it: ssh desk approve {name}", link]
    told(telling, "bob", f"refuse ann {telling.no()} --yes --why not now")
    wait_for(lambda: len(events(telling)) == 2)
    event = events(telling)[1]
    assert str(event["text"]).startswith(f'bob refused {name}: "not now".')
    assert event["verdict_why"] == "not now" and event["thread"] == f"ann-{telling.no()}"


def on_call(site: Site, person: str) -> None:
    """A duty that one approver has today, as desk-roster writes it by a calendar."""
    path, today = site.folder / "site.roster", now().strftime("%Y%m%d")
    text = path.read_text().replace('"audit", "operate-db"]', '"audit", "on-call", "operate-db"]')
    duty = f'{{ duty = "on-call", from = "{today}", until = "{today}" }}'
    path.write_text(text.replace(f'{person} = ["approve-db"', f'{person} = [{duty}, "approve-db"'))


def test_who_is_on_call_is_told_first(site: Site) -> None:
    """The next after a while, once; the asker reads who was told."""
    begun(site, first="on-call", minutes=1)
    told(site, "ann", ASK)
    wait_for(lambda: bool(events(site)))
    assert (heard(site, "carol"), heard(site, "bob")) == (["asked"], [])
    assert "carol was told at " in said(site, "ann", f"show ann {site.no()}")[1]
    hears(site, "bob", ["asked-next"], 150)
    assert heard(site, "carol") == ["asked"]
    assert "bob was told at " in said(site, "ann", f"show ann {site.no()}")[1]
    told(site, "bob", f"approve ann {site.no()} --yes")
    hears(site, "carol", ["asked", "granted"])
    assert heard(site, "ann") == ["granted"]


def test_an_absence_is_of_what_is_told_alone(telling: Site) -> None:
    """Nobody calls who is away; they may approve as before. Where all are away, all are told."""
    tomorrow = f"{datetime.now() + timedelta(days=2):%Y-%m-%d}"
    told(telling, "carol", f"away {tomorrow}")
    told(telling, "ann", ASK)
    wait_for(lambda: bool(events(telling)))
    assert (heard(telling, "bob"), heard(telling, "carol")) == (["asked"], [])
    told(telling, "carol", f"approve ann {telling.no()} --yes")
    told(telling, "bob", f"away {tomorrow}")
    told(telling, "ann", ASK)
    hears(telling, "carol", ["asked"])
    told(telling, "carol", "away none")
    assert "You are not away" in said(telling, "carol", "away")[1]


def test_the_whole_length_is_one_word_away(telling: Site) -> None:
    """An approver who comes late lets the asker ask for all of it; the asker's word is needed."""
    brought(telling, wish(now() - timedelta(minutes=35)))
    told(telling, "bob", f"let ann {telling.no()}")
    hears(telling, "ann", ["full"])
    event = next(it for it in events(telling) if it["event"] == "full")
    said_of_it = f"bob would approve the whole 1h of ann {telling.no()}, from now on."
    assert said_of_it in str(event["text"])
    assert f"To ask for it: ssh desk again {telling.no()}" in str(event["text"])
    assert len(telling.kept()) == 1
    status, text = said(telling, "dave", f"let ann {telling.no()}")
    assert status == 2 and "does not name you among those who may approve it now" in text


def test_an_end_leads_to_the_next(site: Site) -> None:
    begun(site)
    ends = now() + timedelta(minutes=14)
    begins = ends - timedelta(hours=1)
    brought(site, wish(begins), ("bob", "approve", begins + timedelta(minutes=1)))
    wait_for(lambda: "ends-soon" in heard(site, "ann"))
    event = next(it for it in events(site) if it["event"] == "ends-soon")
    assert f"To go on without a gap: ssh desk again {site.no()} --from end" in str(event["text"])

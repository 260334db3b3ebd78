"""A relay for three desks: each message is posted to each, and no desk waits for another."""

import json
import re
import sqlite3
import time
from collections.abc import Iterator
from contextlib import closing
from pathlib import Path
from typing import Any

import pytest

from relays.tests.several import NAMES, Several
from relays.tests.site import wait_for_next_second
from steelnewt_client.desk import Silent
from steelnewt_relay.config import BadConfig, read_config
from steelnewt_relay.outbox import Outbox

ASK = "ask db-care --on db1 --as root --for 1h --yes --again /usr/bin/id"
REFUSED = ASK.replace("--yes", "--yes --anyway")
GONE = "there is no socket at its address"


@pytest.fixture
def several(tmp_path: Path) -> Iterator[Several]:
    found = Several(tmp_path)
    found.hear()
    yield found
    found.close()


def shown(several: Several, line: str = "show ann 1", status: int = 0) -> dict[str, Any]:
    ran = several.run("ann", f"{line} --json")
    assert ran.returncode == status, ran
    found = json.loads(ran.stdout)
    return dict(found[0] if isinstance(found, list) else found)


def lacking(told: object) -> dict[str, str]:
    """Which desks lack a message, and what they said."""
    assert isinstance(told, dict)
    return {it["desk"]: it["answer"] for it in told["lacking"]}


def wait_until_all_have(several: Several, count: int) -> None:
    until = time.monotonic() + 300
    while several.who_lack() or [several.count(it) for it in NAMES] != [count] * len(NAMES):
        assert time.monotonic() < until, several.who_lack()
        time.sleep(0.1)


def test_one_is_down(several: Several) -> None:
    """People ask and approve, hear which desk lacks it, and that desk has it once it is back."""
    several.serve("a", "b")
    ran = several.run("ann", ASK)
    assert ran.returncode == 0, ran
    label = several.label("c")
    # (on a busy machine another desk may answer too late for this)
    assert "It is not yet at" in ran.stdout
    assert f"{label} (the desk cannot be reached ({GONE}))." in ran.stdout
    ran = several.run("bob", "approve ann 1 --yes")
    assert ran.returncode == 0 and "The desk has your approval." in ran.stdout, ran
    told = shown(several)
    assert told["status"] == "granted"
    assert lacking(told)[label] == f"the desk cannot be reached ({GONE})"
    assert lacking(told["verdicts"][0])[label] == "its request is not at the desk yet"
    listed = several.run("ann", "mine -l").stdout
    assert "not yet at" in listed and label in listed
    checked = several.start("check")
    assert checked.wait(60) == 1
    several.start("post", "--every", "0.2")
    several.serve("c")
    wait_until_all_have(several, 2)
    several.wait_until_said("post", f"{label}: bob: approve ann 1: ack")
    assert shown(several)["lacking"] == []
    assert several.start("check").wait(60) == 0
    several.end(*NAMES)
    assert several.held("a") == several.held("b") == several.held("c")


def test_who_lacks_what(several: Several) -> None:
    several.serve("a")
    for _ in range(3):
        assert several.run("ann", ASK).returncode == 0
    owed = Outbox(str(several.folder / "outbox.db")).owed
    assert [(Path(it.desk).stem, it.count) for it in owed.lags()] == [("b", 3), ("c", 3)]
    assert all(abs(it.since - time.time()) < 300 and GONE in it.answer for it in owed.lags())


def test_all_are_down(several: Several) -> None:
    ran = several.run("ann", ASK)
    assert ran.returncode == 3, ran
    for name in NAMES:
        assert f"{several.label(name)}: the desk cannot be reached" in ran.stdout, ran
    assert "It is posted again by itself" in ran.stdout


def test_each_refuses(several: Several) -> None:
    several.serve(*NAMES)
    ran = several.run("bob", REFUSED)
    assert ran.returncode == 2 and "The desk refused it. A3 NotAsker" in ran.stdout, ran
    assert not several.who_lack()


def test_two_refuse_and_one_is_down(several: Several) -> None:
    """The third may take it, so nobody is told that it is refused before each desk said so."""
    several.serve("a", "b")
    ran = several.run("bob", REFUSED)
    assert ran.returncode == 3, ran
    assert f"{several.label('a')}: it refuses this, A3 NotAsker" in ran.stdout
    assert f"{several.label('c')}: the desk cannot be reached" in ran.stdout
    several.serve("c")
    several.start("post", "--every", "0.2")
    several.wait_until_posted()
    assert [state for _, state in several.kept()] == ["refused"]
    assert not several.who_lack()


def test_one_has_an_older_roster(several: Several) -> None:
    """What one desk refuses and another has is posted to it again, once it has the roster."""
    roster = (several.folder / "site.roster").read_text()
    (several.folder / "older.roster").write_text(re.sub("(?m)^ann = .*\n", "", roster))
    several.serve("a", "c")
    several.serve("b", roster="older.roster")
    ran = several.run("ann", ASK)
    assert ran.returncode == 0, ran
    label = several.label("b")
    assert f"{label} (it refuses this, A1 UnknownPerson)" in ran.stdout, ran
    poster = several.start("post", "--every", "0.2")
    several.wait_until_said("post", "it refuses this, A1 UnknownPerson; 1 messages wait here")
    poster.terminate()
    poster.wait(60)
    several.end("b")
    several.store_of("b").unlink()  # (another roster needs a rebuild, which is not its matter)
    several.serve("b")
    several.start("post", "--every", "0.2")
    wait_until_all_have(several, 1)


def test_an_approval_comes_behind_its_request(several: Several) -> None:
    """At each desk: one that lacks the request gets no approval of it."""
    several.serve("a")
    several.run("ann", ASK)
    several.serve("b")
    assert several.run("bob", "approve ann 1 --yes").returncode == 0
    assert several.count("b") == 0
    several.start("post", "--every", "0.2")
    several.serve("c")
    wait_until_all_have(several, 2)


def test_questions_go_to_who_knows_most(several: Several) -> None:
    """The first desk was away and lacks a revocation: people are shown what the second says."""
    several.serve(*NAMES)
    several.run("ann", ASK)
    several.run("bob", "approve ann 1 --yes")
    several.end("a")
    wait_for_next_second()
    assert several.run("bob", "revoke ann 1 --yes").returncode == 0
    several.serve("a")
    told = shown(several)
    assert told["state"] == "over", told
    assert several.label("a") in lacking(told["verdicts"][1])
    several.end("b", "c")
    assert shown(several)["status"] == "granted"
    several.end("a")
    assert shown(several, status=3)["state"] == "unknown"


def test_an_outbox_of_one_desk(several: Several) -> None:
    """What the one desk has is not posted to it again; a desk that comes beside it gets it all."""
    several.settle("a")
    several.serve("a")
    several.run("ann", ASK)
    several.run("bob", "approve ann 1 --yes")
    with closing(sqlite3.connect(several.folder / "outbox.db")) as base:
        for name in ("owed", "desks"):
            base.execute(f"DROP TABLE {name}")
        base.commit()
    several.end("a")
    several.run("ann", ASK)
    assert several.who_lack() == [several.label("a")]
    several.settle(*NAMES)
    several.serve(*NAMES)
    several.start("post", "--every", "0.2")
    wait_until_all_have(several, 3)
    assert [state for _, state in several.kept()] == ["acked"] * 3
    # and one that is taken away is waited for no more
    several.end_jobs()
    several.end("c")
    several.run("ann", ASK)
    assert several.label("c") in several.who_lack()
    several.settle("a", "b")
    several.run("ann", ASK)
    assert several.label("c") not in several.who_lack()


def test_another_address_of_the_one_desk(several: Several) -> None:
    several.settle("a")
    several.serve("a")
    several.run("ann", ASK)
    several.end("a")
    several.store_of("a").unlink()
    several.settle("b")
    several.serve("b")
    several.run("ann", ASK)
    assert several.count("b") == 1


def test_one_lost_its_store(several: Several) -> None:
    several.serve(*NAMES)
    several.run("ann", ASK)
    several.run("bob", "approve ann 1 --yes")
    several.end("b")
    several.store_of("b").unlink()
    several.serve("b")
    assert several.start("post-again", "desk.example").wait(60) == 2
    assert several.start("post-again", several.label("b")).wait(60) == 0
    assert several.who_lack().count(several.label("b")) == 2
    assert shown(several)["status"] == "granted"
    several.start("post", "--every", "0.2")
    wait_until_all_have(several, 2)


# The settings' first lines, those below [tls], and why they are refused.
CA = 'ca = "/etc/desk/ca.pem"'
WRONG = [
    ('desk = "unix:/a.sock"\ndesks = ["unix:/b.sock"]', CA, "one of both"),
    ("", CA, "one of both"),
    ("desks = []", CA, "is a list of addresses"),
    ('desks = "https://a.example"', CA, "is a list of addresses"),
    ('desks = ["https://a.example", "http://b.example"]', CA, "without TLS only at 127.0.0.1"),
    ('desks = ["unix:/a.sock", "https://b.example"]', "", "name the authority"),
    ('desks = ["https://a.example", "https://a.example/"]', CA, "names a.example twice"),
    ('desk = "unix:/a.sock"\npatience = 0', CA, "patience is a number of seconds"),
    ('desk = "unix:/a.sock"\npatience = "2"', CA, "patience is a number of seconds"),
]


@pytest.mark.parametrize(("first", "tls", "why"), WRONG)
def test_settings(several: Several, first: str, tls: str, why: str) -> None:
    lines = several.config.read_text().splitlines()[2:]
    several.config.write_text("\n".join([first, *lines, "[tls]", tls, ""]))
    with pytest.raises(BadConfig, match=why):
        read_config(str(several.config))


def test_names(several: Several) -> None:
    lines = several.config.read_text().splitlines()[1:]
    desks = '"https://desk-a.example", "https://desk-b.example:8443/desks/b", "unix:/c.sock"'
    several.config.write_text("\n".join([f"desks = [{desks}]", *lines, "[tls]", CA, ""]))
    desk = read_config(str(several.config)).open_desk()
    assert [it.label for it in desk.each] == ["desk-a.example", "desk-b.example:8443", "/c.sock"]
    with pytest.raises(Silent, match="desk-a.example: .*; desk-b.example:8443: .*; /c.sock: "):
        desk.count()

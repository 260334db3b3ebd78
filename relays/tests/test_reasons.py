"""Why somebody asks: kept beside the request, shown before a yes, demanded, and never obeyed."""

import json
import sqlite3
import subprocess
from collections.abc import Iterator
from contextlib import closing
from dataclasses import replace
from pathlib import Path

import pytest
from flask.testing import FlaskClient

from relays.tests.site import RELAY, SECRET, Site
from relays.tests.test_fuzz import answer
from relays.tests.test_outbox import AT, WISH
from relays.tests.test_page import ASKED, token
from steelnewt_client.messages import BadWord
from steelnewt_relay.config import BadConfig, read_config
from steelnewt_relay.outbox import Outbox
from steelnewt_relay.page import create_app
from steelnewt_relay.reasons import Reason, demand_of
from steelnewt_relay.words import parse

LINE = "ask db-care --on db1 --as root --for 1h --yes --again"
WORDS = "--ticket OPS-7 --why the disk of db1 is full"
HOSTILE = "<script>alert(1)</script> \x1b[2J\x07 \u202eevil & \"q\""


def client(site: Site) -> FlaskClient:
    return create_app(read_config(str(site.config))).test_client(use_cookies=False)


def headers(person: str) -> dict[str, str]:
    return {"X-Desk-Front": SECRET, "X-Desk-Person": person}


def answered(site: Site, person: str, line: str) -> tuple[int, str]:
    """A call's status and what it prints, within this process; nobody says yes."""
    return answer(read_config(str(site.config)), person, line, "n\n")


def exported(site: Site) -> list[dict[str, object]]:
    words = [RELAY, "--config", str(site.config), "reasons"]
    ran = subprocess.run(words, capture_output=True, text=True, check=True, timeout=60)
    assert ran.stdout.isascii()
    return [json.loads(line) for line in ran.stdout.splitlines()]


def test_by_ssh_it_is_shown_before_a_yes(site: Site) -> None:
    ran = site.run("ann", f"{LINE} {WORDS} /usr/bin/id")
    assert ran.returncode == 0 and "why       | the disk of db1 is full\n" in ran.stdout, ran
    for line in ("waiting -l", "approve ann 1"):
        _, told = answered(site, "bob", line)
        assert "  why       | the disk of db1 is full\n  ticket    | OPS-7\n" in told, told
        assert "?" not in told or told.index("why") < told.index("[y/N]")
    assert answered(site, "bob", "approve ann 1 --yes")[0] == 0
    assert "OPS-7" in answered(site, "dave", "live")[1]
    found = {"why": "the disk of db1 is full", "ticket": "OPS-7"}
    for line in ("mine", "live"):
        assert found.items() <= site.data("ann", line)[0].items()  # type: ignore[index]
    assert found.items() <= exported(site)[0].items()
    # the desk's message is what it was
    body = json.loads(site.kept()[0][0])
    assert sorted(body) == "at by ceiling cmnds from hosts kind no runas until".split()


def test_on_the_page_it_is_shown_before_a_yes(quiet_site: Site) -> None:
    page = client(quiet_site)
    home = page.get("/", headers=headers("ann")).get_data(as_text=True)
    words = ASKED | {"why": "<b>the</b> disk", "ticket": "OPS-8", "token": token(home)}
    shown = page.post("/ask", data=words, headers=headers("ann")).get_data(as_text=True)
    assert "&lt;b&gt;the&lt;/b&gt; disk" in shown and "<b>the</b>" not in shown
    sent = {"token": token(shown), "what": "request"}
    assert page.post("/send", data=sent, headers=headers("ann")).status_code == 303
    assert page.post("/send", data=sent, headers=headers("ann")).status_code == 303
    for path in ("/", "/verdict?kind=approve&of=ann&no=1"):
        told = page.get(path, headers=headers("bob")).get_data(as_text=True)
        assert "&lt;b&gt;the&lt;/b&gt; disk" in told and "OPS-8" in told
    assert [it["why"] for it in exported(quiet_site)] == ["<b>the</b> disk"]


# Words of a call, and the refusal that they get.
ODD = [
    (f"--why {'x' * 501}", "at most 500"),
    ("--why 'a\x1b[2Jb'", "control"),
    ("--why 'a\u202eb'", "control"),
    ("--why 'a\nb'", "one line"),
    ("--why 'a\u2028b'", "one line"),
    ("--ticket 'a b'", "no blank"),
    (f"--ticket {'7' * 65}", "at most 64"),
    ("--ticket é", "letters"),
]


@pytest.mark.parametrize(("words", "piece"), ODD)
def test_what_no_reason_may_have(quiet_site: Site, words: str, piece: str) -> None:
    status, told = answered(quiet_site, "ann", f"{LINE} {words} /usr/bin/id")
    assert status == 2 and piece in told and "\x1b" not in told, told
    assert not quiet_site.kept()


# A line without its command, the reason, and the commands that follow.
JOINED = [
    ("--why 'the disk is full' --ticket 7", "the disk is full", ["/usr/bin/id"]),
    ("--why /var is full --ticket /7", "/var is full", ["/usr/bin/id"]),
    ("--why restart ALL of it --ticket 7", "restart ALL of it", ["/usr/bin/id"]),
    ("--why=--on fire --ticket 7", "--on fire", ["/usr/bin/id"]),
]


@pytest.mark.parametrize(("words", "why", "commands"), JOINED)
def test_a_reason_whose_quotes_ssh_dropped(words: str, why: str, commands: list[str]) -> None:
    said = parse(f"ask db-care --on db1 --as root --for 1h {words} /usr/bin/id")
    assert (said.why, said.commands) == (why, commands)


def test_nobody_asks_for_all_by_a_reason() -> None:
    with pytest.raises(ValueError, match="name a command"):
        parse("ask db-care --on db1 --as root --for 1h --why please restart ALL")


def test_the_same_key_with_another_reason(quiet_site: Site) -> None:
    first, other = (f"{LINE} --once k --why {it} /usr/bin/id" for it in ("this", "that"))
    assert [answered(quiet_site, "ann", it)[0] for it in (first, first, other)] == [3, 3, 2]
    assert [it["why"] for it in exported(quiet_site)] == ["this"]


def test_what_somebody_else_wrote_there(quiet_site: Site) -> None:
    """Whoever wrote the outbox, no terminal and no browser obeys a reason."""
    path = quiet_site.folder / "outbox.db"
    outbox = Outbox(str(path))
    wish = replace(WISH, ends="20991231235959Z")
    outbox.keep_request("ann", wish, AT, reason=Reason(HOSTILE, HOSTILE))
    for person, line, piece in (
        ("bob", "waiting", "ann 1 "), ("bob", "waiting -l", "alert(1)"),
        ("bob", "approve ann 1", "alert(1)"), ("ann", "mine --json", "alert(1)"),
    ):  # fmt: skip
        _, printed = answered(quiet_site, person, line)
        assert piece in printed and not set("\x1b\x07\u202e") & set(printed), printed
    assert "\\x1b" in answered(quiet_site, "bob", "waiting -l")[1]
    page = client(quiet_site)
    for place in ("/", "/r/ann/1", "/verdict?kind=refuse&of=ann&no=1"):
        told = page.get(place, headers=headers("bob")).get_data(as_text=True)
        assert "&lt;script&gt;" in told and "<script" not in told, told
        assert not set("\x1b\u202e") & set(told), told
    assert exported(quiet_site)[0]["why"] == HOSTILE


DEMANDS = [
    ("required = true", ("", "ask db-care"), "say why"),
    ('required = ["db-emergency"]', ("", "ask db-care"), ""),
    ('required = ["db-care"]', ("", "ask db-care"), "say why"),
    ("ticket_required = true", ("--why x", "ask db-care"), "name a ticket"),
    ('ticket = "OPS-[0-9]+"', ("--ticket ops7", "ask db-care"), "no ticket of this site"),
    ('ticket = "OPS-[0-9]+"', ("--ticket OPS-7x", "ask db-care"), "no ticket of this site"),
    ('ticket = "OPS-[0-9]+"', ("", "ask db-care"), ""),
    ("required = true\nticket_required = true", ("--why x --ticket 7", "ask db-care"), ""),
]


@pytest.fixture
def demanding(quiet_site: Site, request: pytest.FixtureRequest) -> Iterator[Site]:
    with open(quiet_site.config, "a", encoding="ascii") as file:
        file.write(f"[why]\n{request.param}\n")
    yield quiet_site


@pytest.mark.parametrize(("demanding", "said", "piece"), DEMANDS, indirect=["demanding"])
def test_what_a_site_demands(demanding: Site, said: tuple[str, str], piece: str) -> None:
    words = {"--why": "", "--ticket": ""} | dict(
        zip(said[0].split()[::2], said[0].split()[1::2], strict=True)
    )
    status, told = answered(demanding, "ann", f"{LINE} {said[0]} /usr/bin/id")
    assert status == (2 if piece else 3) and piece in told, told
    page = client(demanding)
    home = page.get("/", headers=headers("ann")).get_data(as_text=True)
    fields = {"why": words["--why"], "ticket": words["--ticket"], "token": token(home)}
    reply = page.post("/ask", data=ASKED | fields, headers=headers("ann"))
    assert reply.status_code == (400 if piece else 200)
    assert piece in reply.get_data(as_text=True)


@pytest.mark.parametrize("text", ["why = 1", "required = 7", 'ticket = "("', "ticket = 1"])
def test_settings_that_are_none(quiet_site: Site, text: str) -> None:
    with open(quiet_site.config, "a", encoding="ascii") as file:
        file.write(f"[why]\n{text}\n")
    with pytest.raises(BadConfig, match="why"):
        read_config(str(quiet_site.config))


def test_an_outbox_of_an_older_relay(tmp_path: Path) -> None:
    path = str(tmp_path / "outbox.db")
    Outbox(path).keep_request("ann", WISH, AT)
    with closing(sqlite3.connect(path)) as base:
        base.execute("DROP TABLE reasons")
    assert [bool(it.reason) for it in Outbox(path).requests()] == [False]
    assert demand_of({}).reason("db-care", None, None) == Reason()
    with pytest.raises(BadWord):
        Reason.of("a\0b", "")

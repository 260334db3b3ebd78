"""What the relay does for people who sign: it prepares a message, and keeps it with the signature.
What a door makes of that, and mydesk: door/tests."""

import json
import sqlite3
from contextlib import closing
from types import SimpleNamespace
from typing import cast
from urllib.parse import urlencode

import pytest

from relays.tests.site import SECRET, PageConnection, Site
from steelnewt_client.messages import BadWord, Request, Verdict, Wish
from steelnewt_client.moments import now, stamp
from steelnewt_client.signed import Signed, reason_digest
from steelnewt_relay.config import BadConfig, read_config
from steelnewt_relay.deciding import keep
from steelnewt_relay.outbox import Outbox
from steelnewt_relay.visit import Visit

ASK = "prepare ask db-care --on db1 --as root --for 1h --why disk --ticket OPS-7 /usr/bin/id"
SIGNATURE = "ssh:AAAA"


def signing(site: Site, settings: str = 'site = "desk.example"') -> None:
    text = site.config.read_text()
    site.config.write_text(text.replace("[page]", f"[signing]\n{settings}\n[page]", 1))


def prepared(site: Site, person: str, words: str) -> dict[str, str]:
    """The one message that is prepared."""
    ran = site.run(person, words)
    assert ran.returncode == 0, ran
    [item] = json.loads(ran.stdout)["items"]
    assert isinstance(item, dict)
    return item


def test_without_the_setting_nothing_is_prepared(site: Site) -> None:
    for words in (ASK, "send"):
        ran = site.run("ann", words)
        assert ran.returncode == 2 and "takes no signatures" in ran.stderr


def test_a_message_is_kept_with_its_signature(quiet_site: Site) -> None:
    site = quiet_site
    signing(site)
    told = prepared(site, "ann", ASK)
    assert told["request"] is None and json.loads(told["message"])["no"] == 1
    why = reason_digest("disk", "OPS-7")
    line = Signed(told["message"], SIGNATURE, "", why).line()
    ran = site.run("ann", "send", given=f"{line}\n")
    assert ran.returncode == 3 and "Kept as ann 1." in ran.stdout
    site.run("ann", "send", given=f"{Signed(told['message'], 'ssh:BBBB', '', why).line()}\n")
    outbox = Outbox(str(site.folder / "outbox.db"))
    [kept] = outbox.unposted()
    assert kept.line.decode() == line and kept.reason.ticket == "OPS-7"
    # a desk without a door takes no line with a signature
    bare = Outbox(str(site.folder / "outbox.db"), signs=False)
    assert bare.unposted()[0].line.decode() == told["message"]
    told = prepared(site, "bob", "prepare approve ann 1")
    assert (told["request"], told["why"], told["ticket"]) == (kept.request.text(), "disk", "OPS-7")
    assert prepared(site, "ann", "prepare again")["message"].count('"no":2') == 1


def test_several_are_prepared_and_sent_at_once(quiet_site: Site) -> None:
    site = quiet_site
    signing(site)
    ran = site.run("bob", "prepare revoke ann 1 ann 2 carol 7")
    items = json.loads(ran.stdout)["items"]
    assert [json.loads(it["message"])["no"] for it in items] == [1, 2, 7]
    lines = [Signed(it["message"], "list:AAAA:AAAA").line() for it in items]
    ran = site.run("bob", "send", given="".join(f"{it}\n" for it in lines))
    assert ran.returncode == 3 and "Kept: revoke carol 7." in ran.stdout
    assert [it.line.decode() for it in Outbox(str(site.folder / "outbox.db")).unposted()] == lines
    ran = site.run("bob", "send", given="\n".join([lines[0]] * 65))
    assert ran.returncode == 2 and "more than 64" in ran.stderr


def test_a_page_sends_nothing_where_all_is_signed(quiet_site: Site) -> None:
    """A form that was confirmed before, or by whoever has the page's keys."""
    verdict = {"what": "send-verdict", "kind": "approve", "of": "ann", "no": 1, "once": "x"}
    for is_signed in (False, True):
        if is_signed:
            signing(quiet_site)
        config = read_config(str(quiet_site.config))
        visit = cast(Visit, SimpleNamespace(config=config, outbox=config.open_outbox(),
                                            person="bob", now=now()))  # fmt: skip
        if is_signed:
            with pytest.raises(BadWord, match="signed messages alone"):
                keep(visit, verdict)
        else:
            assert [it.verdict.by for it in keep(visit, verdict)] == ["bob"]


def test_what_is_prepared_is_for_an_hour(quiet_site: Site) -> None:
    site = quiet_site
    signing(site)
    told = prepared(site, "ann", ASK)
    with closing(sqlite3.connect(site.folder / "outbox.db")) as base, base:
        old = told["message"].replace('"at":"20', '"at":"19', 1)
        base.execute("UPDATE prepared SET body = ?", (old,))
    site.run("ann", ASK)
    ran = site.run("ann", "send", given=f"{Signed(old, SIGNATURE).line()}\n")
    assert ran.returncode == 2 and "too long ago" in ran.stderr


def test_what_cannot_be_prepared(quiet_site: Site) -> None:
    signing(quiet_site)
    for words, why in (
        ("prepare", "prepare a request or verdicts"),
        ("prepare mine", "prepare a request or verdicts"),
        ("prepare ask", "prepare a request or verdicts"),
        ("prepare prepare ask", "prepare a request or verdicts"),
        (ASK.replace("--for", "--json --for"), "leave --once"),
        (ASK.replace("--for", "--once k --for"), "leave --once"),
        ("prepare approve", "WHO NUMBER"),
        ("prepare approve ann", "WHO NUMBER"),
        ("prepare approve ann 1 ann 1", "there twice"),
        ("prepare approve ann 1 --yes", "leave --once"),
    ):
        ran = quiet_site.run("ann", words)
        assert ran.returncode == 2 and why in ran.stderr, (words, ran)


DOOR = "https://door.example:8444"


def sent(
    site: Site, path: str, fields: list[tuple[str, str]], origin: str = DOOR, person: str = "bob"
) -> tuple[int, str, dict[str, str]]:
    """What the page answers to a form that comes from an origin."""
    headers = {"X-Desk-Person": person, "X-Desk-Front": SECRET, "Origin": origin}
    headers |= {"Sec-Fetch-Site": "cross-site", "Host": "desk.example:8443"}
    headers["Content-Type"] = "application/x-www-form-urlencoded"
    with closing(PageConnection(site.socket)) as peer:
        peer.request("POST", path, urlencode(fields), headers)
        reply = peer.getresponse()
        return reply.status, reply.read().decode("utf-8"), dict(reply.getheaders())


def test_what_comes_back_from_the_doors_page(quiet_site: Site) -> None:
    """The form that a person's browser brings back: it is theirs, signed, and from the door."""
    site = quiet_site
    signing(site, f'site = "desk.example"\nconfirm = "{DOOR}"')
    site.start_page()
    at, assertion = stamp(now()), "webauthn:AA.AA.AA.AA"

    def revoke(by: str = "bob", no: int = 4, signature: str = assertion) -> list[tuple[str, str]]:
        text = Verdict(by, "revoke", "ann", no, at).text()
        fields = {"message": text, "about": "", "digest": reason_digest("over", "")}
        return [*fields.items(), ("why", "over"), ("signature", signature)]

    asked = Request("bob", 1, at, Wish("db-care", ("db1",), "root", ("/usr/bin/id",), at, at))
    approve = Verdict("bob", "approve", "ann", 4, at).text()
    rows = [("about", ""), ("digest", ""), ("signature", assertion)]
    for fields, why in (
        (revoke(signature="ssh:AAAA"), "nothing was signed"),
        (revoke(signature=""), "nothing was signed"),
        (revoke() + revoke()[:1], "nothing was signed"),
        (revoke(by="carol"), "not prepared for you here"),
        ([it for it in revoke() if it[0] != "why"], "another reason"),
        ([("message", asked.text()), *rows], "not prepared for you here"),
        ([("message", approve), *rows], "there is no ann 4 here"),
    ):
        status, page, _ = sent(site, "/signed", fields)
        assert status == 400 and why in page.lower(), (fields, page)
    for path, origin in (("/signed", "https://thief.example"), ("/signed", ""), ("/send", DOOR)):
        status, page, _ = sent(site, path, revoke(), origin)
        assert status == 403 and "came from another site" in page, (path, origin)
    assert not site.kept()
    status, _, headers = sent(site, "/signed", [*revoke(), ("back", "1")])
    assert status == 303 and headers["Location"].endswith("/r/ann/4?sent=1")
    assert f"form-action 'self' {DOOR};" in headers["Content-Security-Policy"]
    [kept] = Outbox(str(site.folder / "outbox.db")).unposted()
    assert kept.line.decode().split("\t")[1:] == [assertion, "", reason_digest("over", "")]
    assert kept.reason.why == "over"


@pytest.mark.parametrize(
    ("settings", "why"),
    [
        ('site = "Desk"', "site is the name"),
        ("", "site is the name"),
        ('site = "a"\nrequired = "yes"', "required is true or false"),
        ('site = "a"\nother = 1', "and nothing else"),
        ('site = "a"\nconfirm = "door.example"', "confirm is the origin"),
        ('site = "a"\nconfirm = "https://door.example/"', "confirm is the origin"),
    ],
)
def test_settings(quiet_site: Site, settings: str, why: str) -> None:
    signing(quiet_site, settings)
    with pytest.raises(BadConfig, match=why):
        read_config(str(quiet_site.config))

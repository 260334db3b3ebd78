"""The page behind Apache with mod_auth_gssapi, by relays/apache-gssapi.example.conf: tickets of a
real KDC, forged headers, other realms, and accounts of this machine."""

from __future__ import annotations

import os
import re
import subprocess
from collections.abc import Iterator
from contextlib import ExitStack
from dataclasses import dataclass

import pytest

from relays.tests.apache import ACCOUNT, FAKETIME, Apache, FrontedSite, Recorder
from relays.tests.kerberos import OTHER, OURS, PASSWORD, Kerberos
from relays.tests.site import SECRET
from relays.tests.test_page import ASKED, token

pytestmark = pytest.mark.skipif(os.geteuid() != 0, reason="Apache works as its account, as root")
FORGED = [
    ["X-Desk-Person: bob"],
    ["X-Desk-Person: bob", "X-Desk-Person: carol"],
    ["X_Desk_Person: bob", "x-desk-person: bob", f"X-Desk-Front: {SECRET}"],
]
NOBODY = ["setpriv", "--reuid", "nobody", "--regid", "nogroup", "--clear-groups"]


@dataclass
class Fronted:
    site: FrontedSite
    apache: Apache
    kerberos: Kerberos

    def get(self, principal: str, path: str = "/", *more: str) -> tuple[int, str]:
        """What a person's browser gets who has a ticket of that name."""
        tickets = self.kerberos.sign_on(principal)
        return self.asked(["--negotiate", "-u", ":", *more], path, tickets)

    def asked(self, words: list[str], path: str, tickets: dict[str, str]) -> tuple[int, str]:
        ran = self.apache.curl([*words, self.apache.url(path)], tickets)
        assert ran.returncode == 0, ran
        text, _, status = ran.stdout.rpartition("\n")
        return int(status), text

    def post(self, principal: str, path: str, data: dict[str, str]) -> tuple[int, str]:
        fields = [word for each in data.items() for word in ("--data-urlencode", "=".join(each))]
        return self.get(principal, path, "-L", *fields)

    def confirm(self, principal: str, page: str, what: str) -> str:
        """Says yes to what a page shows."""
        status, text = self.post(principal, "/send", {"token": token(page), "what": what})
        assert status == 200, text
        return text


@pytest.fixture(scope="module")
def fronted() -> Iterator[Fronted]:
    with ExitStack() as ends:
        site = FrontedSite()
        ends.callback(site.close)
        kerberos = Kerberos(site.folder / "kerberos")
        ends.callback(kerberos.stop)
        for name in ("ann", "bob", "mallory", "ann/admin", "Ann"):
            kerberos.make(f"{name}@{OURS}")
        kerberos.make(f"ann@{OTHER}", OTHER)
        keytab = kerberos.keytab(f"HTTP/desk.example@{OURS}", ACCOUNT)
        site.start_desk()
        site.start_page()
        apache = Apache(site, "apache-gssapi.example.conf", {"/etc/desk/http.keytab": keytab})
        ends.enter_context(apache.running(kerberos.settings))
        yield Fronted(site, apache, kerberos)


def test_a_grants_life(fronted: Fronted) -> None:
    site = fronted.site
    status, home = fronted.get("ann")
    assert status == 200 and "You are <strong>ann</strong>" in home
    status, shown = fronted.post("ann", "/ask", ASKED | {"token": token(home)})
    assert status == 200 and "Ask for this?" in shown
    told = fronted.confirm("ann", shown, "request")
    assert "nobody approved it yet; bob, carol may approve it." in told
    assert "ann " not in site.ask("/v1/hosts/db1/sudoers")
    status, shown = fronted.get("bob", "/verdict?kind=approve&of=ann&no=1")
    assert status == 200 and "Approve ann 1?" in shown
    assert "The desk has your approval." in fronted.confirm("bob", shown, "verdict")
    assert "\nann db1 = (root) NOTBEFORE=" in site.ask("/v1/hosts/db1/sudoers")


@pytest.mark.parametrize("headers", FORGED)
def test_a_forged_header(fronted: Fronted, headers: list[str]) -> None:
    given = [word for header in headers for word in ("-H", header)]
    status, text = fronted.get("ann", "/", *given)
    assert status == 200 and "You are <strong>ann</strong>" in text
    status, text = fronted.asked(given, "/", {})
    assert status == 401 and "You are" not in text
    status, text = fronted.get(f"ann@{OTHER}", "/", *given)
    assert status == 401 and "You are" not in text


@pytest.mark.parametrize("name", ["X-Desk-Person", "X-Desk-Front"])
def test_a_header_that_is_for_the_front_alone(fronted: Fronted, name: str) -> None:
    """(Apache passes on no header that `Connection` names)"""
    given = ["-H", f"Connection: close, {name}", "-H", "X_Desk_Person: bob"]
    status, text = fronted.get("ann", "/", *given, "-H", f"X-Desk-Front: {SECRET}")
    assert status == 403 and "You are" not in text


@pytest.mark.parametrize("principal", [f"ann@{OTHER}", "ann/admin", "Ann"])
def test_no_person_of_the_realm(fronted: Fronted, principal: str) -> None:
    fronted.get(principal)
    has = fronted.kerberos.tickets(principal)
    assert f"HTTP/desk.example@{OURS}" in has, has
    for path in ("/", "/history", "/static/page.css", "/nothing"):
        status, text = fronted.get(principal, path)
        assert status == 401 and f"a Kerberos ticket of a person of {OURS}" in text


def test_a_person_whom_the_roster_does_not_have(fronted: Fronted) -> None:
    for path in ("/", "/history", "/verdict?kind=approve&of=ann&no=1"):
        status, text = fronted.get("mallory", path)
        assert status == 403 and "Nobody here is called mallory" in text
        assert "/usr/bin/id" not in text


def test_without_a_ticket(fronted: Fronted) -> None:
    given: list[list[str]] = [[], ["--negotiate", "-u", ":"], ["-u", f"ann:{PASSWORD}"]]
    for words in given:
        status, text = fronted.asked(["-i", *words], "/", fronted.kerberos.settings)
        assert status == 401 and "asks for a Kerberos ticket" in text and "You are" not in text
        assert re.findall("(?i)www-authenticate: (.*)", text) == ["Negotiate"]


def test_a_ticket_for_another_service(fronted: Fronted) -> None:
    """(its key is in the same keytab)"""
    fronted.kerberos.keytab(f"ftp/desk.example@{OURS}", ACCOUNT)
    status, text = fronted.get("ann", "/", "--service-name", "ftp")
    assert status == 401 and "You are" not in text


def test_a_ticket_that_was_overheard(fronted: Fronted) -> None:
    tickets = fronted.kerberos.sign_on("ann")
    words = ["--negotiate", "-u", ":", "-v", fronted.apache.url()]
    ran = fronted.apache.curl(words, tickets)
    found = re.search("> (Authorization: Negotiate .+)", ran.stderr)
    assert found and ran.stdout.endswith("\n200")
    status, text = fronted.asked(["-H", found[1].strip()], "/", {})
    assert status == 401 and "You are" not in text


def another(fronted: Fronted) -> Apache:
    places = {"/etc/desk/http.keytab": str(fronted.kerberos.folder / "http.keytab")}
    return Apache(fronted.site, "apache-gssapi.example.conf", places)


def test_a_ticket_that_has_ended(fronted: Fronted) -> None:
    """(to a front whose clock is eleven hours later)"""
    shifted, later = {"LD_PRELOAD": FAKETIME, "FAKETIME": "+11h"}, another(fronted)
    with later.running(fronted.kerberos.settings | shifted):
        status, text = Fronted(fronted.site, later, fronted.kerberos).get("ann")
        assert status == 401 and "You are" not in text


@pytest.mark.parametrize("realm", ["EXAMPLE.CO.", "EXAMPLE.CO", "XAMPLE.COM", "example.com"])
def test_a_front_of_another_realm(fronted: Fronted, realm: str) -> None:
    other = another(fronted)
    other.text = other.text.replace(f"Define desk_realm {OURS}", f"Define desk_realm {realm}")
    with other.running(fronted.kerberos.settings):
        status, text = Fronted(fronted.site, other, fronted.kerberos).get("ann")
        assert status == 401 and f"a Kerberos ticket of a person of {realm}" in text


def test_what_the_page_gets(fronted: Fronted) -> None:
    """One name, one secret of the front's, and not the ticket, whatever was sent beside it."""
    recorder, front = Recorder(fronted.site), another(fronted)
    front.before(recorder.path)
    with front.running(fronted.kerberos.settings):
        none: list[list[str]] = [[]]
        for headers in none + FORGED:
            given = [word for header in headers for word in ("-H", header)]
            it = Fronted(fronted.site, front, fronted.kerberos).get("ann", "/", *given)
            assert it == (200, "kept")
            assert recorder.fields("X-Desk-Front") == [SECRET], recorder.heads
            assert recorder.fields("X-Desk-Person") == ["ann; kerberos from 127.0.0.1"], recorder.heads
            assert not recorder.fields("Authorization")
    assert len(recorder.heads) == len(FORGED) + 1


def test_an_account_of_this_machine(fronted: Fronted) -> None:
    head = ["-H", "X-Desk-Person: bob", "-H", f"X-Desk-Front: {SECRET}", "http://page/"]
    words = ["curl", "-sS", "--unix-socket", str(fronted.site.socket), *head]
    ran = subprocess.run([*NOBODY, *words], capture_output=True, text=True, check=False)
    assert ran.returncode == 7 and "You are" not in ran.stdout, ran
    front = ["setpriv", "--reuid", ACCOUNT, "--regid", ACCOUNT, "--clear-groups"]
    ran = subprocess.run([*front, *words], capture_output=True, text=True, check=True)
    assert "You are <strong>bob</strong>" in ran.stdout

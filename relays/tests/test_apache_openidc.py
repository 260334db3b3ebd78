"""The page behind Apache with mod_auth_openidc, by relays/apache-openidc.example.conf: a real
provider, one whose tokens are false, forged headers and cookies, and accounts of this machine."""

from __future__ import annotations

import os
import re
import socket
import ssl
import subprocess
import time
from collections.abc import Callable, Iterator
from contextlib import contextmanager, suppress
from dataclasses import dataclass
from pathlib import Path
from urllib.parse import parse_qs, urlencode, urlsplit

import pytest
import requests

from relays.tests.apache import AUTHORITY, FAKETIME, Apache, FrontedSite, Recorder
from relays.tests.openid import SECRET, FalseProvider, Glewlwyd, browser
from relays.tests.site import SECRET as FRONT_SECRET
from relays.tests.test_page import ASKED, token

pytestmark = pytest.mark.skipif(os.geteuid() != 0, reason="Apache works as its account, as root")
FORGED = [
    {"X-Desk-Person": "bob"},
    {"X_Desk_Person": "bob", "OIDC_CLAIM_preferred_username": "bob", "X-Remote-User": "bob"},
    {"Cookie": "mod_auth_openidc_session=0f0e0d0c-0b0a-0908-0706-050403020100"},
    {"Authorization": "Bearer bob"},
    {"Authorization": "Basic Ym9iOmJvYg=="},
]


@dataclass
class Fronted:
    site: FrontedSite
    pair: str
    authority: str

    def apache(self, metadata: str, issuer: str) -> Apache:
        """An Apache that sends people to a provider; its own name is an address here."""
        places = {
            "https://login.example/.well-known/openid-configuration": metadata,
            "login.example": issuer.removeprefix("https://"),
            "desk.example": "127.0.0.1",
            "# OIDCCABundlePath ": "OIDCCABundlePath ",
        }
        found = Apache(self.site, "apache-openidc.example.conf", places)
        found.text = found.text.replace(":8443/signed-on", f":{found.port}/signed-on")
        return found


@pytest.fixture(scope="module")
def fronted() -> Iterator[Fronted]:
    site = FrontedSite()
    try:
        words = ["sh", AUTHORITY, str(site.ca), "server", "localhost", "127.0.0.1"]
        subprocess.run(words, check=True, capture_output=True)
        (site.folder / "openidc.secret").write_text(
            f"OIDCClientSecret {SECRET}\nOIDCCryptoPassphrase 0f1e2d3c4b5a69788796a5b4c3d2e1f0\n"
        )
        authority = site.folder / "login-ca.pem"
        authority.write_bytes((site.ca / "ca.pem").read_bytes())
        site.start_desk()
        site.start_page()
        yield Fronted(site, str(site.ca / "server-localhost"), str(authority))
    finally:
        site.close()


@dataclass
class Place:
    """A page, its front, and the provider where its people sign on."""

    site: FrontedSite
    provider: Glewlwyd
    apache: Apache
    url: str

    def signed_on(self, person: str) -> tuple[requests.Session, requests.Response]:
        """A person's browser, after a way to the provider and back."""
        browser = self.provider.arrive(person)
        back = self.provider.go_on(browser, self.url)
        return browser, browser.get(back.headers["Location"], timeout=60)


@pytest.fixture(scope="module")
def place(fronted: Fronted) -> Iterator[Place]:
    provider = Glewlwyd(fronted.site.folder / "provider", fronted.pair, fronted.authority)
    try:
        provider.set_up()
        for person in ("ann", "bob", "mallory", "ann@example.com", "Ann.B"):
            provider.person(person)
        metadata = f"{provider.issuer}/api/oidc/.well-known/openid-configuration"
        apache = fronted.apache(metadata, provider.issuer)
        url = f"https://127.0.0.1:{apache.port}/"
        provider.client("desk", f"{url}signed-on")
        provider.client("other", f"{url}signed-on")
        with apache.running({}):
            yield Place(fronted.site, provider, apache, url)
    finally:
        provider.stop()


def test_a_grants_life(place: Place) -> None:
    def sent(browser: requests.Session, path: str, data: dict[str, str]) -> str:
        reply = browser.post(f"{place.url}{path}", data=data, timeout=60)
        assert reply.status_code == 200, reply.text
        return reply.text

    ann, home = place.signed_on("ann")
    assert home.status_code == 200 and "You are <strong>ann</strong>" in home.text
    shown = sent(ann, "ask", ASKED | {"token": token(home.text)})
    told = sent(ann, "send", {"token": token(shown), "what": "request"})
    assert "nobody approved it yet; bob, carol may approve it." in told
    assert "ann " not in place.site.ask("/v1/hosts/db1/sudoers")
    bob, home = place.signed_on("bob")
    assert "You are <strong>bob</strong>" in home.text
    shown = bob.get(f"{place.url}verdict?kind=approve&of=ann&no=1", timeout=60).text
    told = sent(bob, "send", {"token": token(shown), "what": "verdict"})
    assert "The desk has your approval." in told
    assert "\nann db1 = (root) NOTBEFORE=" in place.site.ask("/v1/hosts/db1/sudoers")


def test_who_did_not_sign_on(place: Place) -> None:
    for path in ("", "history", "static/page.css", "nothing"):
        reply = requests.get(
            f"{place.url}{path}", verify=place.provider.authority, allow_redirects=False, timeout=60
        )
        assert reply.status_code == 302
        assert reply.headers["Location"].startswith(f"{place.provider.issuer}/")
        assert "You are" not in reply.text


@pytest.mark.parametrize("headers", FORGED)
def test_a_forged_header(place: Place, headers: dict[str, str]) -> None:
    bare = requests.get(
        place.url,
        verify=place.provider.authority,
        headers=headers,
        allow_redirects=False,
        timeout=60,
    )
    assert bare.status_code == 302 and "You are" not in bare.text
    ann, _ = place.signed_on("ann")
    if "Cookie" not in headers:
        reply = ann.get(place.url, headers=headers, timeout=60)
        assert "You are <strong>ann</strong>" in reply.text


@pytest.mark.parametrize("person", ["ann@example.com", "Ann.B"])
def test_no_name_of_a_person(place: Place, person: str) -> None:
    browser, reply = place.signed_on(person)
    for _ in range(2):
        assert reply.status_code == 401 and "You are" not in reply.text
        assert "asks you to sign on as a person of localhost" in reply.text
        reply = browser.get(f"{place.url}history", timeout=60)


def test_a_person_whom_the_roster_does_not_have(place: Place) -> None:
    browser, reply = place.signed_on("mallory")
    assert reply.status_code == 403 and "Nobody here is called" in reply.text
    reply = browser.get(f"{place.url}verdict?kind=approve&of=ann&no=1", timeout=60)
    assert reply.status_code == 403 and "/usr/bin/id" not in reply.text


def test_a_code_for_another_site(place: Place) -> None:
    """Who has a code that bob gave to another site of the provider's brings it here."""
    bob = place.provider.arrive("bob", client="other")
    thief = place.provider.browser()
    begun = thief.get(place.url, allow_redirects=False, timeout=60).headers["Location"]
    asked = {name: values[0] for name, values in parse_qs(urlsplit(begun).query).items()}
    begun = f"{begun.partition('?')[0]}?{urlencode(asked | {'client_id': 'other'})}"
    back = place.provider.go_on(bob, begun).headers["Location"]
    assert "code=" in back
    reply = thief.get(back, timeout=60)
    assert "Error" in reply.text and "You are" not in reply.text
    log = (place.apache.folder / "apache.log").read_text()
    assert "failed to resolve the code" in log, log
    reply = thief.get(place.url, allow_redirects=False, timeout=60)
    assert reply.status_code == 302


def test_a_session_of_another_browsers(place: Place) -> None:
    """A way back that ann's browser did not begin is refused, and a session ends by itself."""
    ann = place.provider.arrive("ann")
    back = place.provider.go_on(ann, place.url).headers["Location"]
    reply = place.provider.browser().get(back, allow_redirects=False, timeout=60)
    assert "You are" not in reply.text and "mod_auth_openidc_session" not in reply.cookies
    assert "You are <strong>ann</strong>" in ann.get(back, timeout=60).text
    ann.get(f"{place.url}signed-on?logout={place.url}", allow_redirects=False, timeout=60)
    assert ann.get(place.url, allow_redirects=False, timeout=60).status_code == 302


def test_what_the_page_gets(fronted: Fronted) -> None:
    """One name, one secret of the front's; no session, and no claim of the provider's."""
    recorder = Recorder(fronted.site)
    with false_one(fronted, page=recorder.path) as found:
        person, reply = came(found)
        session = "; ".join(f"{it.name}={it.value}" for it in person.cookies)
        none: list[dict[str, str]] = [{}]
        for headers in none + FORGED:
            given = headers | {"Cookie": f"{session}; {headers.get('Cookie', 'a=b')}"}
            reply = requests.get(reply.url, headers=given, verify=fronted.authority, timeout=60)
            assert reply.text == "kept"
            assert recorder.fields("X-Desk-Front") == [FRONT_SECRET], recorder.heads
            assert recorder.fields("X-Desk-Person") == ["ann; openid from 127.0.0.1"], recorder.heads
            told = [line for line in recorder.heads[-1].splitlines() if "oidc" in line.lower()]
            assert not recorder.fields("Cookie") and all("bob" in line for line in told), told
    assert len(recorder.heads) == len(FORGED) + 2


@contextmanager
def false_one(
    fronted: Fronted,
    expected: Callable[[str], str] = str,
    pair: str = "",
    variables: dict[str, str] | None = None,
    page: Path | None = None,
) -> Iterator[tuple[FalseProvider, Apache]]:
    """A provider of false tokens, and a front that expects its issuer, or another."""
    provider = FalseProvider(pair or fronted.pair)
    metadata = f"{provider.issuer}/.well-known/openid-configuration"
    apache = fronted.apache(metadata, expected(provider.issuer))
    if page:
        apache.before(page)
    try:
        with apache.running(variables or {}):
            yield provider, apache
    finally:
        provider.stop()


@pytest.fixture(scope="module")
def false(fronted: Fronted) -> Iterator[tuple[FalseProvider, Apache]]:
    with false_one(fronted) as found:
        yield found


# what a token says that is wrong, and how Apache's log has it
LONG_AGO = int(time.time()) - 7200
FALSE: list[tuple[dict[str, object], str]] = [
    ({"aud": "other"}, "aud"),
    ({"aud": ["other", "third"]}, "aud"),
    ({"aud": ["desk", "other"], "azp": "other"}, "azp"),
    ({"aud": None}, "aud"),
    ({"exp": LONG_AGO}, "exp"),
    ({"iat": int(time.time()) - 300}, "iat"),
    ({"iat": None}, "iat"),
    ({"iss": "https://other.example"}, "issuer"),
    ({"nonce": "of another way here"}, "nonce"),
    ({"nonce": None}, "nonce"),
    ({"preferred_username": None}, "preferred_username"),
]
NO_NAMES = ["ann@localhost", "Ann", "ann bob", "../ann", "ann\nX-Desk-Person: bob", "", "7"]
NO_TEXTS: list[object] = [7, ["ann"], {"name": "ann"}, True]
# issuers that a front may expect, and that are not the provider's
ISSUERS: dict[str, Callable[[str], str]] = {
    "another": lambda _: "https://other.example",
    "a longer one": lambda issuer: f"{issuer}0",
    "a shorter one": lambda issuer: issuer[:-1],
    "a pattern": lambda issuer: re.sub("[0-9]", ".", issuer),
}


def came(false: tuple[FalseProvider, Apache]) -> tuple[requests.Session, requests.Response]:
    """A browser that went to the provider and came back."""
    _, apache = false
    found = browser(str(apache.authority))
    return found, found.get(f"https://127.0.0.1:{apache.port}/", timeout=60)


def is_refused(false: tuple[FalseProvider, Apache], why: str) -> None:
    """Nobody is signed on by the provider's token; the log says why."""
    log = false[1].folder / "apache.log"
    before = len(log.read_text())
    found, reply = came(false)
    assert "You are" not in reply.text and "Error" in reply.text, reply.text
    assert not [it.name for it in found.cookies if it.name == "mod_auth_openidc_session"]
    said = [it for it in log.read_text()[before:].splitlines() if ":error]" in it]
    assert why in " ".join(said), said


@pytest.mark.parametrize(("claims", "why"), FALSE)
def test_a_false_token(
    false: tuple[FalseProvider, Apache], claims: dict[str, object], why: str
) -> None:
    provider, _ = false
    assert "You are <strong>ann</strong>" in came(false)[1].text
    provider.claims = claims
    try:
        is_refused(false, why)
    finally:
        provider.claims = {}


def test_a_token_of_another_key(false: tuple[FalseProvider, Apache]) -> None:
    provider, _ = false
    provider.signer = provider.other_key
    try:
        is_refused(false, "signature")
    finally:
        provider.signer = provider.key
    assert "You are <strong>ann</strong>" in came(false)[1].text


def test_a_provider_with_another_certificate(fronted: Fronted) -> None:
    """Another server in the provider's place, whose certificate the front does not trust."""
    others = str(fronted.site.folder / "others")
    for words in (["init"], ["server", "localhost", "127.0.0.1"]):
        subprocess.run(["sh", AUTHORITY, others, *words], check=True, capture_output=True)
    with false_one(fronted, pair=f"{others}/server") as found:
        _, reply = came(found)
        assert reply.status_code == 500 and "You are" not in reply.text
        log = (found[1].folder / "apache.log").read_text()
        assert "SSL certificate problem" in log, log


@pytest.mark.parametrize("name", NO_NAMES)
def test_a_token_without_a_persons_name(false: tuple[FalseProvider, Apache], name: str) -> None:
    provider, _ = false
    provider.claims = {"preferred_username": name}
    try:
        _, reply = came(false)
    finally:
        provider.claims = {}
    assert reply.status_code == 401 and "You are" not in reply.text
    assert "asks you to sign on as a person of localhost" in reply.text


@pytest.mark.parametrize("name", NO_TEXTS)
def test_a_name_that_is_no_text(false: tuple[FalseProvider, Apache], name: object) -> None:
    provider, _ = false
    provider.claims = {"preferred_username": name}
    try:
        _, reply = came(false)
    finally:
        provider.claims = {}
    assert "You are" not in reply.text and "/usr/bin/id" not in reply.text


@pytest.mark.parametrize("kind", ISSUERS)
def test_another_issuer(fronted: Fronted, kind: str) -> None:
    with false_one(fronted, ISSUERS[kind]) as found:
        _, reply = came(found)
        assert reply.status_code == 401 and "You are" not in reply.text
        assert "asks you to sign on as a person of" in reply.text


# heads, and what comes after them, by which a name could get past the front
SMUGGLED = b"GET / HTTP/1.1\r\nHost: desk\r\nConnection: close\r\nX-Desk-Person: bob\r\n\r\n"
ODD: dict[str, tuple[bytes, bytes]] = {
    "a blank before the colon": (b"X-Desk-Person : bob\r\n", b""),
    "a tab before the colon": (b"X-Desk-Person\t: bob\r\n", b""),
    "a folded value": (b"X-Desk-Person:\r\n bob\r\n", b""),
    "a folded field": (b"A: b\r\n X-Desk-Person: bob\r\n", b""),
    "a line that ends with LF": (b"A: b\nX-Desk-Person: bob\r\n", b""),
    "a line that ends with CR": (b"A: b\rX-Desk-Person: bob\r\n", b""),
    "a NUL": (b"A: \0\r\nX-Desk-Person: bob\0\r\n", b""),
    "underscores": (b"X_Desk_Person: bob\r\nX_Desk-Person: bob\r\n", b""),
    "for the front alone": (b"Connection: X-Desk-Person\r\nX_Desk_Person: bob\r\n", b""),
    "a trailer": (b"Transfer-Encoding: chunked\r\n", b"0\r\nX-Desk-Person: bob\r\n\r\n"),
    "two lengths": (
        b"Content-Length: 5\r\nTransfer-Encoding: chunked\r\n",
        b"0\r\n\r\n" + SMUGGLED,
    ),
    "a second request": (b"Content-Length: 0\r\n", SMUGGLED),
}


def said_to(apache: Apache, given: bytes) -> bytes:
    """What comes back for these bytes, until the front ends the connection or says no more."""
    whole, client = b"", ssl.create_default_context(cafile=str(apache.authority))
    with suppress(OSError), socket.create_connection(("127.0.0.1", apache.port)) as plain:
        with client.wrap_socket(plain, server_hostname="127.0.0.1") as peer:
            peer.settimeout(60)
            peer.sendall(given)
            while piece := peer.recv(65536):
                whole += piece
    return whole


@pytest.mark.parametrize("kind", ODD)
def test_an_odd_request(false: tuple[FalseProvider, Apache], kind: str) -> None:
    person, _ = came(false)
    cookies = "; ".join(f"{it.name}={it.value}" for it in person.cookies).encode()
    head = b"GET / HTTP/1.1\r\nHost: 127.0.0.1:%d\r\nCookie: %s\r\n" % (false[1].port, cookies)
    more, body = ODD[kind]
    last = b"" if kind == "a second request" else b"Connection: close\r\n"
    plain = said_to(false[1], head + b"Connection: close\r\n\r\n")
    assert b"You are <strong>ann</strong>" in plain
    reply = said_to(false[1], head + more + last + b"\r\n" + body)
    assert reply.startswith(b"HTTP/1.1 ") and b"<strong>bob" not in reply
    assert reply.count(b"You are <strong>") <= 1


@pytest.mark.parametrize(("minutes", "rounds"), [(20, 0), (10, 5)])
def test_a_session_ends(fronted: Fronted, minutes: int, rounds: int) -> None:
    """After a quarter of an hour in which nothing is asked, and after an hour of asking."""
    clock = fronted.site.folder / f"clock-{minutes}"
    clock.write_text("+0")
    shifted = {"FAKETIME_TIMESTAMP_FILE": str(clock), "FAKETIME_NO_CACHE": "1"}
    with false_one(fronted, variables=shifted | {"LD_PRELOAD": FAKETIME}) as found:
        person, reply = came(found)
        assert "You are <strong>ann</strong>" in reply.text
        for number in range(1, rounds + 1):
            clock.write_text(f"+{number * minutes}m")
            assert "You are <strong>ann</strong>" in person.get(reply.url, timeout=60).text
        clock.write_text(f"+{(rounds + 1) * minutes + 1}m")
        last = person.get(reply.url, timeout=60, allow_redirects=False)
        assert last.status_code == 302 and last.headers["Location"].startswith(found[0].issuer)


def test_a_restart_ends_sessions(fronted: Fronted) -> None:
    provider = FalseProvider(fronted.pair)
    apache = fronted.apache(f"{provider.issuer}/.well-known/openid-configuration", provider.issuer)
    try:
        with apache.running({}):
            person, reply = came((provider, apache))
            assert "You are <strong>ann</strong>" in person.get(reply.url, timeout=60).text
        with apache.running({}):
            last = person.get(reply.url, timeout=60, allow_redirects=False)
            assert last.status_code == 302 and last.headers["Location"].startswith(provider.issuer)
    finally:
        provider.stop()

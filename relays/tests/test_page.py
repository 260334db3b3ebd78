"""The page behind its front: who is calling, forms that were forged, and what the page tells."""

import re
import socket
from collections.abc import Iterator

import pytest
import requests
from itsdangerous import URLSafeTimedSerializer

from relays.tests.front import Front
from relays.tests.site import SECRET, SIGNING_KEY, Site

ASKED = {
    "ceiling": "db-care",
    "hosts": "db1",
    "runas": "root",
    "commands": "/usr/bin/id",
    "begins": "now",
    "length": "1h",
}


@pytest.fixture(scope="module")
def fronted(tmp_path_factory: pytest.TempPathFactory) -> Iterator[tuple[Site, Front]]:
    site = Site(tmp_path_factory.mktemp("page"))
    try:
        site.start_desk()
        site.start_page()
        front = Front(site, ["ann", "bob", "dave", "eve"])
        yield site, front
        front.stop()
    finally:
        site.close()


def token(page: str) -> str:
    found = re.search(r'name="token" value="([^"]+)"', page)
    assert found, page
    return found[1]


def get(url: str, **given: str) -> requests.Response:
    return requests.get(url, headers=given, timeout=60)


def post(url: str, data: dict[str, str], **given: str) -> requests.Response:
    return requests.post(url, data=data, headers=given, timeout=60)


def confirmation(front: Front, person: str = "ann", **other: str) -> requests.Response:
    home = get(front.url(person)).text
    return post(f"{front.url(person)}/ask", ASKED | other | {"token": token(home)})


def ask(front: Front, **other: str) -> str:
    """Asks as ann, and gives what the page tells then."""
    shown = confirmation(front, **other)
    assert shown.status_code == 200, shown.text
    data = {"token": token(shown.text), "what": "request"}
    return post(f"{front.url('ann')}/send", data).text


def test_who_is_calling_is_the_certificates_name(fronted: tuple[Site, Front]) -> None:
    _, front = fronted

    def called(name: str) -> requests.Response:
        pair = (front.path(f"{name}.pem"), front.path(f"{name}.key"))
        return requests.get(
            f"https://127.0.0.1:{front.tls}/",
            cert=pair,
            verify=front.path("ca/ca.pem"),
            headers={"X-Desk-Person": "bob", "X_Desk_Person": "bob"},
            timeout=60,
        )

    assert "You are <strong>ann</strong>" in called("ann").text
    assert "You are <strong>ann</strong>" in called("plain").text
    assert called("stranger").status_code == 400
    assert called("minted").status_code == 400
    joined = called("joined")
    assert joined.status_code == 403 and "does not say who you are" in joined.text
    bare = requests.get(
        f"https://127.0.0.1:{front.tls}/", verify=front.path("ca/ca.pem"), timeout=60
    )
    assert bare.status_code == 400 and "You are" not in bare.text


HEADERS = [
    {},
    {"X-Desk-Person": "bob"},
    {"X-Desk-Person": "bob", "X-Desk-Front": ""},
    {"X-Desk-Person": "bob", "X-Desk-Front": "0" * 32},
    {"X-Desk-Person": "bob", "X_Desk_Front": SECRET},
    {"X_Desk_Person": "bob", "X-Desk-Front": SECRET},
    {"X-Desk-Person": "ann,bob", "X-Desk-Front": SECRET},
    {"X-Desk-Person": "Bob", "X-Desk-Front": SECRET},
    {"X-Desk-Person": "", "X-Desk-Front": SECRET},
    {"X-Desk-Person": "../bob", "X-Desk-Front": SECRET},
]


@pytest.mark.parametrize("headers", HEADERS)
def test_a_header_from_beside_the_front(
    fronted: tuple[Site, Front], headers: dict[str, str]
) -> None:
    site, _ = fronted
    for path in ("/", "/verdict?kind=approve&of=ann&no=1", "/static/page.css", "/nothing"):
        status, text = site.ask_page(path, headers)
        assert status == 403 and "You are" not in text


@pytest.mark.parametrize("path", ["/", "/history", "/verdict?kind=approve&of=ann&no=1", "/send"])
def test_a_person_whom_the_roster_does_not_have(fronted: tuple[Site, Front], path: str) -> None:
    site, _ = fronted
    given = {"X-Desk-Person": "mallory", "X-Desk-Front": SECRET}
    status, text = site.ask_page(path, given)
    assert status == 403 and "Nobody here is called mallory" in text
    assert "/usr/bin/id" not in text and "db-care" not in text


def test_the_header_twice(fronted: tuple[Site, Front]) -> None:
    site, _ = fronted
    head = f"GET / HTTP/1.1\r\nHost: a\r\nX-Desk-Front: {SECRET}\r\nConnection: close\r\n"
    with socket.socket(socket.AF_UNIX) as peer:
        peer.settimeout(60)
        peer.connect(str(site.socket))
        peer.sendall(f"{head}X-Desk-Person: ann\r\nX-Desk-Person: bob\r\n\r\n".encode())
        assert peer.makefile("rb").readline().startswith(b"HTTP/1.1 403")


def test_the_front_sets_the_header_anew(fronted: tuple[Site, Front]) -> None:
    _, front = fronted
    given = {"X-Desk-Person": "bob", "X_Desk_Person": "bob", "x-desk-person": "bob"}
    assert "You are <strong>ann</strong>" in get(front.url("ann"), **given).text


def test_asking_on_the_page(fronted: tuple[Site, Front]) -> None:
    site, front = fronted
    before = len(site.kept())
    shown = confirmation(front, length="1h30m")
    assert "1 hour 30 minutes" in shown.text and " UTC (" in shown.text
    assert len(site.kept()) == before
    data = {"token": token(shown.text), "what": "request"}
    first = post(f"{front.url('ann')}/send", data)
    assert "nobody approved it yet; bob, carol may approve it." in first.text
    assert len(site.kept()) == before + 1
    again = post(f"{front.url('ann')}/send", data)
    assert again.url == first.url and len(site.kept()) == before + 1


def test_a_grant_to_come_is_in_the_picture(fronted: tuple[Site, Front]) -> None:
    site, front = fronted
    told = ask(front, hosts="db2", begins="+30m")
    found = re.search(r"ann ([0-9]+)</a>: It waits for approval. It needs", told)
    assert found
    assert site.run("bob", f"approve ann {found[1]} --yes").returncode == 0
    page = get(front.url("bob")).text
    assert 'class="bar later"' in page and f"ann {found[1]} on db2</text>" in page
    assert site.run("bob", f"revoke ann {found[1]} --yes").returncode == 0
    assert f"ann {found[1]} on db2</text>" not in get(front.url("bob")).text


def test_past_a_ceiling_on_the_page(fronted: tuple[Site, Front]) -> None:
    _, front = fronted
    told = ask(front, hosts="web1", anyway="1").replace("&#39;", "'")
    assert "A4 HostOutside: a host is not among" in told
    assert "A7 WindowTooLong" in ask(front, length="3h", anyway="1")


def test_what_is_confirmed_is_what_is_sent(fronted: tuple[Site, Front]) -> None:
    site, front = fronted
    shown = confirmation(front, hosts="db2")
    data = {"token": token(shown.text), "what": "request", "hosts": "db1", "by": "bob"}
    post(f"{front.url('ann')}/send", data)
    body = site.kept()[-1][0]
    assert '"hosts":["db2"]' in body and '"by":"ann"' in body


def test_a_yes_that_comes_too_late(fronted: tuple[Site, Front]) -> None:
    site, front = fronted
    before, signer = site.kept(), URLSafeTimedSerializer(SIGNING_KEY, salt="desk-relay page")
    window = {"begins": "20260105090000Z", "ends": "20260105100000Z"}
    wish = {"ceiling": "db-care", "hosts": ["db1"], "runas": "root", "commands": ["/usr/bin/id"]}
    said = {"by": "ann", "what": "send-request", "once": "late", "wish": wish | window}
    data = {"what": "request", "token": str(signer.dumps(said | {"at": "20260105080000Z"}))}
    reply = post(f"{front.url('ann')}/send", data)
    assert reply.status_code == 400 and "is over: ask again" in reply.text
    assert site.kept() == before


def forged(front: Front, name: str) -> dict[str, str]:
    """The fields of a form that somebody made to be sent from ann's browser."""
    page = get(f"{front.url('eve')}/verdict?kind=revoke&of=ann&no=1").text
    mine = token(confirmation(front).text)
    return {
        "no token": {"what": "request"},
        "an empty token": {"what": "request", "token": ""},
        "no token of ours": {"what": "request", "token": "e30.aaaa.bbbb"},
        "a changed token": {"what": "request", "token": "x" + mine},
        "a token of eve's": {"what": "verdict", "token": token(page)},
        "the token of another form": {
            "what": "request",
            "token": token(get(front.url("ann")).text),
        },
        "a token of another kind": {"what": "verdict", "token": mine},
    }[name]


FORGED = [
    "no token",
    "an empty token",
    "no token of ours",
    "a changed token",
    "a token of eve's",
    "the token of another form",
    "a token of another kind",
]


@pytest.mark.parametrize("name", FORGED)
def test_a_forged_form(fronted: tuple[Site, Front], name: str) -> None:
    site, front = fronted
    before = site.kept()
    reply = post(f"{front.url('ann')}/send", forged(front, name))
    assert reply.status_code == 400 and "Nothing was sent" in reply.text
    assert site.kept() == before


def test_a_form_from_another_site(fronted: tuple[Site, Front]) -> None:
    site, front = fronted
    before = site.kept()
    data = {"token": token(confirmation(front).text), "what": "request"}
    reply = post(f"{front.url('ann')}/send", data, **{"Sec-Fetch-Site": "cross-site"})
    assert reply.status_code == 403 and site.kept() == before
    assert get(f"{front.url('ann')}/send").status_code == 405
    reply = post(f"{front.url('ann')}/ask", ASKED)
    assert reply.status_code == 400 and site.kept() == before


ODD = [
    {"hosts": "<script>alert(1)</script>"},
    {"hosts": ""},
    {"runas": "root ALL=(ALL) ALL"},
    {"commands": "id"},
    {"commands": ""},
    {"commands": "/usr/bin/id '\n/usr/local/sbin/w"},
    {"begins": "<b>soon</b>"},
    {"length": "", "ends": ""},
    {"length": "1h", "ends": "23:59"},
    {"ceiling": '"><img src=x>'},
]


@pytest.mark.parametrize("words", ODD)
def test_odd_words_on_the_page(fronted: tuple[Site, Front], words: dict[str, str]) -> None:
    site, front = fronted
    before = site.kept()
    reply = confirmation(front, **words)
    assert reply.status_code == 400 and "That did not work" in reply.text
    assert "Nothing was sent" in reply.text and 'value="root' in reply.text
    for markup in ("<script", "<img", "<b>"):
        assert markup not in reply.text
    assert site.kept() == before


def test_nobody_approves_what_is_not_shown(fronted: tuple[Site, Front]) -> None:
    _, front = fronted
    reply = get(f"{front.url('bob')}/verdict?kind=approve&of=ann&no=4711")
    assert reply.status_code == 400 and "There is no ann 4711 here" in reply.text
    assert "Yes, approve" not in reply.text
    reply = get(f"{front.url('bob')}/verdict?kind=revoke&of=ann&no=4711")
    assert reply.status_code == 200 and "Yes, revoke" in reply.text


def test_each_reply_is_guarded(fronted: tuple[Site, Front]) -> None:
    _, front = fronted
    for path in ("/", "/nothing", "/verdict?kind=x&of=ann&no=1", "/static/page.css"):
        reply = get(front.url("ann") + path)
        policy = reply.headers["Content-Security-Policy"]
        assert policy.startswith("default-src 'none'; ") and "unsafe" not in policy
        assert "script-src" not in policy and "frame-ancestors 'none'" in policy
        assert reply.headers["X-Content-Type-Options"] == "nosniff"
        assert (
            "<script" not in reply.text
            and "style=" not in reply.text
            and " on" + "click" not in reply.text
        )


def test_findings_are_for_auditors(fronted: tuple[Site, Front]) -> None:
    _, front = fronted
    assert "eve approve-db audit" in get(front.url("dave")).text
    assert "Findings, for auditors" not in get(front.url("ann")).text


def test_the_desk_is_down(fronted: tuple[Site, Front]) -> None:
    site, front = fronted
    site.stop_desk()
    told = ask(front, commands="/usr/local/sbin/w")
    assert "It is kept here and not yet at the desk" in told and "The desk does not answer" in told
    site.start_desk()
    site.start("post", "--every", "0.2")
    site.wait_until_posted()
    assert site.kept()[-1][1] == "acked"

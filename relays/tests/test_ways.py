"""By which key each message came: kept beside it, in the log, and shown to auditors alone."""

import json
import logging
import socket
import subprocess
from pathlib import Path

import pytest
import requests

from relays.tests.front import Front
from relays.tests.site import SECRET, Site
from relays.tests.sshd import Sshd
from relays.tests.test_page import token
from steelnewt_relay import ways
from steelnewt_relay.config import read_config
from steelnewt_relay.page import create_app

ASK = "ask db-care --on db1 --as root --for 1h --yes --again /usr/bin/id"


def kept_ways(site: Site) -> list[str]:
    """The way of each message, in the order in which they were kept."""
    outbox = read_config(str(site.config)).open_outbox()
    found = outbox.ways.of(range(1, 100))
    outbox.close()
    assert all(it["came"].endswith("Z") for it in found.values())
    return [found[it]["key"] for it in sorted(found)]


def test_by_which_key_by_ssh(site: Site) -> None:
    """Over a real sshd: after a theft it is known which messages came by the key. Nobody but an
    auditor reads it."""
    sshd = Sshd(site, ["ann", "bob"], "eve")
    try:
        assert sshd.ssh("ann", ASK).returncode == 0
        assert sshd.ssh("bob", "approve ann 1 --yes").returncode == 0
    finally:
        sshd.stop()
    digests = []
    for person in ("ann", "bob"):
        key = next(it for it in site.folder.glob(f"**/{person}.pub"))
        ran = subprocess.run(["ssh-keygen", "-lf", str(key)], capture_output=True, text=True)
        digests.append(ran.stdout.split()[1])
    assert kept_ways(site) == [f"ssh {it} from 127.0.0.1" for it in digests]
    told = site.data("dave", "history")
    assert isinstance(told, list) and told[0]["came_by"]["key"].split()[1] == digests[0]
    assert told[0]["verdicts"][0]["came_by"]["key"].split()[1] == digests[1]
    for person in ("ann", "bob", "carol"):
        assert "SHA256" not in json.dumps(site.data(person, "history")), person
    ran = subprocess.run(site.job("reasons"), capture_output=True, text=True, check=True)
    lines = [json.loads(it) for it in ran.stdout.splitlines()]
    assert [it["came_by"]["key"].split()[1] for it in lines] == digests


def test_by_which_certificate_at_the_page(site: Site) -> None:
    site.start_page()
    front = Front(site, ["ann"])
    pair = front.path("ann.pem"), front.path("ann.key")
    # (what a client says of its own key is dropped)
    given = {"X-Desk-Person": "ann; certificate 00"}

    def ask(method: str, path: str, **data: str) -> str:
        url = f"https://127.0.0.1:{front.tls}"
        reply = requests.request(
            method, url + path, data=data, cert=pair, verify=front.path("ca/ca.pem"), headers=given,
            timeout=60,
        )  # fmt: skip
        assert reply.status_code == 200, reply.text
        return str(reply.text)

    try:
        words = {"ceiling": "db-care", "hosts": "db1", "runas": "root"}
        words |= {"commands": "/usr/bin/id", "begins": "now", "length": "1h"}
        shown = ask("POST", "/ask", **words, token=token(ask("GET", "/")))
        ask("POST", "/send", token=token(shown), what="request")
    finally:
        front.stop()
    words_of = ["openssl", "x509", "-noout", "-serial", "-in", pair[0]]
    ran = subprocess.run(words_of, capture_output=True, text=True, check=True)
    serial = ran.stdout.strip().removeprefix("serial=")
    assert kept_ways(site) == [f"page certificate {serial} from 127.0.0.1"]
    said = (site.folder / "page.log").read_text()
    assert f"page certificate {serial} from 127.0.0.1: ann: request ann 1" in said
    # (the front's own log has it too, what was sent apart from what was only looked at)
    sends, looks = (
        [json.loads(it) for it in (site.folder / f"{name}.log").read_text().splitlines()]
        for name in ("desk-page", "desk-page-looks")
    )
    assert [it["request"].split()[:2] for it in sends] == [["POST", "/ask"], ["POST", "/send"]]
    assert {it["serial"] for it in (*sends, *looks)} == {serial} and looks
    assert all(it["request"].startswith("GET ") for it in looks)


# A front's words behind a name, and the way that is kept; none where the front names nobody.
TOLD = [
    ("ann", "page"), ("ann; certificate 0A1B from 10.0.0.7", "page certificate 0A1B from 10.0.0.7"),
    ("ann; kerberos from ::1", "page kerberos from ::1"), ("ann; " + "x" * 201, "page"),
    ("; certificate 0A1B", None), ("ann certificate 1", None), ("bob,ann; certificate 1", None),
    ("Ann; certificate 1", None), (";ann", None),
]  # fmt: skip


@pytest.mark.parametrize(("header", "way"), TOLD)
def test_what_a_front_says_of_a_key(site: Site, header: str, way: str | None) -> None:
    client = create_app(read_config(str(site.config))).test_client()
    heads = {"X-Desk-Person": header, "X-Desk-Front": SECRET}
    home = client.get("/", headers=heads)
    assert home.status_code == (403 if way is None else 200)
    if way is None:
        return
    words = {"ceiling": "db-care", "hosts": "db1", "runas": "root", "commands": "/usr/bin/id"}
    words |= {"begins": "now", "length": "1h", "token": token(home.text)}
    shown = client.post("/ask", data=words, headers=heads)
    sent = client.post("/send", data={"token": token(shown.text), "what": "request"}, headers=heads)
    assert sent.status_code == 303 and kept_ways(site) == [way]


def test_a_call_says_it_to_the_journal(tmp_path: Path) -> None:
    """What a call logs goes to the journal's socket, and not to whoever calls."""
    place, handlers = str(tmp_path / "log"), list(ways.log.handlers)
    with socket.socket(socket.AF_UNIX, socket.SOCK_DGRAM) as journal:
        journal.bind(place)
        journal.settimeout(60)
        try:
            ways.log_to_journal(f"{place}.none")
            ways.log.info("nobody listens there")
            ways.log_to_journal(place)
            ways.log.setLevel(logging.INFO)
            ways.log.info("%s: %s", "ssh SHA256:x", "ann: request ann 1")
            said = journal.recv(4096)
        finally:
            ways.log.propagate, ways.log.handlers = True, handlers
            logging.raiseExceptions = True
    assert said.rstrip(b"\0").endswith(b"desk-relay: ssh SHA256:x: ann: request ann 1"), said


def test_an_outbox_of_an_older_relay(site: Site) -> None:
    """What came before is known to have come, and not by which key."""
    assert site.run("ann", ASK).returncode == 0
    outbox = read_config(str(site.config)).open_outbox()
    outbox.base.execute("DROP TABLE ways")
    outbox.close()
    assert site.run("ann", ASK).returncode == 0
    assert len(kept_ways(site)) == 1 and len(site.kept()) == 2
    told = site.data("dave", "history")
    assert isinstance(told, list)
    assert [bool(it["came_by"]) for it in told] == [True, False]

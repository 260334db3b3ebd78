"""Words, forms, bytes and replies of any kind: each has an answer, and none is a fault of the
program's. FUZZ is how many there are in all: 2,000, and 20,000 in the long form."""

import contextlib
import io
import os
import random
import re
import socket
import string
import subprocess
import sys
from collections.abc import Callable
from dataclasses import replace
from pathlib import Path

import pytest
from flask.testing import FlaskClient
from werkzeug.datastructures import Headers

from relays.tests.site import RELAY, SECRET, Site
from relays.tests.test_outbox import WISH, answering
from relays.tests.test_page import token
from steelnewt_client.moments import now, stamp
from steelnewt_relay import ssh
from steelnewt_relay.caller import Caller, Keyed
from steelnewt_relay.config import Config, read_config
from steelnewt_relay.page import create_app
from tests.common.calling import call_words

COUNT = int(os.environ.get("FUZZ", "2000")) // 4
SEED = int(os.environ.get("FUZZ_SEED", "53"))
ODD = [
    "", " ", "\t", "\0", "\n", "'", '"', "\\", "é", "٣", "\udcff", "\ufeff", "\u2028", "\x1b[1m",
    "%s", "{0}", "../", "<b>", "&amp;", "--", "-1", "1e9", "9" * 30, "a" * 300, "99999999999999Z",
    "20260105090000Z", "0000-00-00 00:00", "9999-12-31 23:59", "1970-01-01 00:00", "0001-01-01",
]
TIMES = [
    "now", "17:00", "tomorrow 09:00", "+2h", "in 5m", "24:00", "23:59:60", "2h", "999999d", "0h",
    "999999d" * 20, "2026-03-29 02:30", "20991231235959Z", "19691231235959Z", "today 00:00Z",
]
WORDS = [
    "ask", "approve", "refuse", "revoke", "mine", "waiting", "live", "review", "help", "--on",
    "--as", "--for", "--from", "--until", "--once", "--again", "--json", "--yes", "--all", "--at",
    "--zone", "--and", "db-care", "db1", "db1,db2", "root", "ann", "bob", "1", "/usr/bin/id", "ALL",
    "/usr/bin/", "UTC", "Europe/Berlin", "../../etc/passwd", "k1",
]
# Words that made a fault once.
KNOWN = [
    "live --at +" + "999999d" * 20,
    "live --at '0001-01-01 00:00'",
    "live --at '9999-12-31 23:59' --zone America/New_York",
    "ask db-care --on db1 --as root --for 1h --yes --once \udcff /usr/bin/id",
    "ask db-care --on db1 --as root --from '9999-12-31 23:59' --for 1h --yes /usr/bin/id",
]
FIELDS = ["ceiling", "hosts", "runas", "commands", "begins", "length", "ends", "token", "what"]
PATHS = [
    "/", "/ask", "/send", "/verdict", "/let", "/usual", "/r/ann/1", "/r/x/y", "/static/page.css",
    "/static/", "/nothing", "/%00", "//",
]


def text(chance: random.Random) -> str:
    """A text of any kind."""
    kind = chance.randrange(6)
    if kind == 0:
        return chance.choice(ODD)
    if kind == 1:
        return chance.choice(TIMES)
    if kind == 2:
        return "".join(chance.choices(string.printable, k=chance.randint(0, 30)))
    if kind == 3:
        return "".join(chr(chance.randrange(1, 0x500)) for _ in range(chance.randint(1, 8)))
    if kind == 4:
        return chance.choice(ODD) + chance.choice(WORDS) + chance.choice(ODD)
    return chance.choice(WORDS)


def line(chance: random.Random) -> str:
    """The words of a call; half of them begin as somebody's would who knows what to write."""
    begins = [
        "ask db-care --on db1 --as root --for 1h /usr/bin/id", "approve ann 1", "live --at now",
        "ask db-care --on db1 --as root --until 23:59 --yes --once k /usr/bin/id", "mine --all",
        "refuse ann 1 --yes --again", "revoke ann 2 --json", "waiting", "review", "help",
    ]
    if chance.random() < 0.5:
        return " ".join(text(chance) for _ in range(chance.randint(0, 12)))
    words = chance.choice(begins).split()
    for _ in range(chance.randint(1, 3)):
        words[chance.randrange(len(words))] = text(chance)
    return " ".join(words)


@pytest.fixture
def config(quiet_site: Site) -> Config:
    """A relay whose desk is down, and whose outbox has something."""
    found, outbox = read_config(str(quiet_site.config)), quiet_site.folder / "outbox.db"
    with contextlib.closing(found.open_outbox()) as kept:
        for state in ("kept", "acked", "refused"):
            kept.answered(kept.keep_request("ann", WISH, stamp(now())).id, state, "A3 NotAsker")
    assert outbox.exists()
    return found


def caller(config: Config, person: str) -> Caller:
    """Who has a key, or, with a name of any kind, nobody that a line names."""
    words = call_words(RELAY, Path("relay.toml"), Path(config.ssh.keys), person)
    return Keyed(person, words[-1], config.ssh)


def answer(config: Config, person: str, said: str, given: str = "") -> tuple[int, str]:
    """A call's status and all that it prints."""
    printed = io.StringIO()
    before, sys.stdin = sys.stdin, io.StringIO(given)
    try:
        with contextlib.redirect_stdout(printed), contextlib.redirect_stderr(printed):
            return ssh.answer(config, caller(config, person), said), printed.getvalue()
    finally:
        sys.stdin = before


def test_words_of_any_kind(config: Config) -> None:
    chance = random.Random(SEED)
    for said in [*KNOWN, *(line(chance) for _ in range(COUNT))]:
        person = chance.choice(["ann", "bob", "dave", text(chance)])
        status, told = answer(config, person, said, text(chance) + "\n")
        assert status in (0, 1, 2, 3) and "Traceback" not in told, (person, said, told)


def test_bytes_of_any_kind_by_the_program(quiet_site: Site) -> None:
    """The same through the program itself, whose words are bytes of the environment."""
    chance = random.Random(SEED)
    for _ in range(max(5, COUNT // 100)):
        words = line(chance).replace("\0", "").encode("utf-8", "surrogateescape")
        words += bytes(chance.randrange(1, 256) for _ in range(chance.randint(0, 9)))
        ran = subprocess.run(
            quiet_site.words("ann"),
            input=chance.randbytes(20),
            env={b"SSH_ORIGINAL_COMMAND": words, b"LC_ALL": chance.choice([b"C", b"C.UTF-8"])},
            capture_output=True,
            timeout=60,
            check=False,
        )
        assert ran.returncode in (0, 1, 2, 3) and b"Traceback" not in ran.stderr, (words, ran)


def form(chance: random.Random, good: list[str]) -> dict[str, str]:
    """The fields of a form, some of them as the page wants them."""
    wanted = {
        "ceiling": "db-care", "hosts": "db1", "runas": "root", "commands": "/usr/bin/id",
        "begins": "now", "length": "1h", "ends": "", "token": chance.choice(good),
        "what": chance.choice(["request", "verdict"]),
    }
    for _ in range(chance.randint(0, 3)):
        wanted[chance.choice(FIELDS)] = text(chance).encode("utf-8", "replace").decode()
    return {name: it for name, it in wanted.items() if chance.random() < 0.9}


def visit(client: FlaskClient, chance: random.Random, good: list[str]) -> tuple[int, str]:
    """One request of any kind by somebody's browser: its status, and what came."""
    headers = Headers({"X-Desk-Front": SECRET, "X-Desk-Person": chance.choice(["ann", "bob"])})
    if chance.random() < 0.1:
        plain = text(chance).encode("latin-1", "replace").decode("latin-1")
        name = chance.choice(["Content-Type", "Sec-Fetch-Site", "Cookie", "Accept", "Host"])
        headers[name] = "".join(it for it in plain if it.isprintable())
    asked = {chance.choice(["kind", "of", "no", "sent", "all", "x"]): text(chance)
             for _ in range(chance.randint(0, 4))}
    asked = {name: it.encode("utf-8", "replace").decode() for name, it in asked.items()}
    if chance.random() < 0.3:
        asked |= {"kind": chance.choice(["approve", "refuse"]), "of": "ann", "no": "1"}
    method = chance.choice(["GET", "POST", "POST", "HEAD", "PUT"])
    data = form(chance, good) if method == "POST" else None
    reply = client.open(
        chance.choice(PATHS), method=method, headers=headers, query_string=asked, data=data
    )
    return reply.status_code, reply.get_data(as_text=True)


def test_forms_of_any_kind(config: Config) -> None:
    chance = random.Random(SEED)
    # (the page sets no cookies; the client that keeps some cannot read every host that it sends)
    client = create_app(config).test_client(use_cookies=False)
    own = {"X-Desk-Front": SECRET, "X-Desk-Person": "ann"}
    good = [token(client.get("/", headers=own).get_data(as_text=True))]
    for known in (f"/?sent={'9' * 30}", "/?sent=٣", "/?sent=1&sent=x", "/?all"):
        assert client.get(known, headers=own).status_code == 200
    assert client.get("//", headers=own | {"Host": "["}).status_code == 400
    for number in range(COUNT):
        status, told = visit(client, chance, good)
        assert status in (200, 303, 308, 400, 403, 404, 405, 413, 415), (number, status, told)
        if status == 200 and 'name="token"' in told:
            good = [token(told), *good[:5]]


# Names that are words of Flask's own, or of Python's.
NAMES = ["endpoint", "self", "_anchor", "_method", "_scheme", "_external", "values", "filename"]
# Parts of a form, each with the name of a codec that is none, or with bytes that are none of it.
PARTS = [
    b'Content-Disposition: form-data; name="token"\r\nContent-Type: text/plain; charset=nothing',
    b'Content-Disposition: form-data; name="token"\r\nContent-Type: text/plain; charset=hex',
    b"Content-Disposition: form-data; name*=nothing''x",
    b"Content-Disposition: form-data; name=x; filename*=hex''x",
]
KINDS = [
    "multipart/form-data; boundary=", "multipart/form-data; boundary*=nothing''a",
    "multipart/form-data; boundary*=hex''a", "text/x; charset*=utf-8''%ff",
    "application/x-www-form-urlencoded; charset*=nothing''%ff",
]


def test_names_of_any_kind_in_an_address(config: Config) -> None:
    """Also where there are links to more pages, which keep what the page knows."""
    commands = [f"/usr/bin/x{it}" for it in range(60)]
    with contextlib.closing(config.open_outbox()) as kept:
        for each in commands:
            wish, at = replace(WISH, commands=(each,)), stamp(now())
            kept.answered(kept.keep_request("ann", wish, at).id, "acked", "")
    client = create_app(config).test_client(use_cookies=False)
    own = {"X-Desk-Front": SECRET, "X-Desk-Person": "ann"}
    for path in ("/", "/history"):
        for name in NAMES:
            reply = client.get(f"{path}?{name}=POST&all=1&on=db1", headers=own)
            told = reply.get_data(as_text=True)
            assert reply.status_code == 200, (path, name, told)
            links = re.findall('href="([^"]*)">The next', told)
            assert links and all("all=1&amp;on=db1&amp;" in it for it in links), (name, links)
            assert not any(name in it for it in links), (name, links)


def test_forms_of_other_kinds(config: Config) -> None:
    client = create_app(config).test_client(use_cookies=False)
    own = {"X-Desk-Front": SECRET, "X-Desk-Person": "ann"}
    sent = [("multipart/form-data; boundary=B", b"--B\r\n" + it + b"\r\n\r\nx\r\n--B--\r\n")
            for it in PARTS]
    for kind, data in [*sent, *((it, b"token=x") for it in KINDS)]:
        for path in ("/ask", "/send"):
            reply = client.post(path, data=data, headers=own | {"Content-Type": kind})
            assert reply.status_code == 415, (kind, data, reply.get_data(as_text=True))
    for more in ("", ";charset=UTF-8"):
        kind = f"application/x-www-form-urlencoded{more}"
        reply = client.post("/ask", data=b"token=x", headers=own | {"Content-Type": kind})
        assert reply.status_code == 400, kind


def test_a_host_of_other_letters(config: Config, quiet_site: Site) -> None:
    quiet_site.start_page()
    own = {"X-Desk-Front": SECRET, "X-Desk-Person": "ann"}
    for host in ("xn--\xff", "\xff", "a..\xe9", "["):
        status, told = quiet_site.ask_page("/", own | {"Host": host})
        assert (status, "no host" in told) == (400, True), (host, status, told)
    assert "Traceback" not in (quiet_site.folder / "page.log").read_text()


def test_requests_of_any_bytes(config: Config, quiet_site: Site) -> None:
    quiet_site.start_page()
    chance = random.Random(SEED)
    head = f"X-Desk-Front: {SECRET}\r\nX-Desk-Person: ann\r\n".encode()
    starts = [b"GET / HTTP/1.1\r\n", b"POST /ask HTTP/1.1\r\n", b"GET /%ff?\xff HTTP/1.0\r\n", b""]
    for _ in range(COUNT):
        whole = bytearray(chance.choice(starts) + head + chance.randbytes(chance.randint(0, 60)))
        for _ in range(chance.randint(0, 4)):
            whole[chance.randrange(len(whole))] = chance.randrange(256)
        with socket.socket(socket.AF_UNIX) as peer:
            peer.settimeout(60)
            peer.connect(str(quiet_site.socket))
            with contextlib.suppress(ConnectionError):
                peer.sendall(bytes(whole) + b"\r\n\r\n")
                peer.shutdown(socket.SHUT_WR)
                first = peer.makefile("rb").readline(100)
                assert b" 500 " not in first, (bytes(whole), first)
    assert "Traceback" not in (quiet_site.folder / "page.log").read_text()
    assert quiet_site.ask_page("/", {"X-Desk-Front": SECRET, "X-Desk-Person": "ann"})[0] == 200


REPLIES: list[Callable[[random.Random], str]] = [
    lambda chance: "<html>log in</html>",
    lambda chance: "".join(chance.choices(string.printable, k=chance.randint(0, 60))),
    lambda chance: f"REVIEW {stamp(now())}\n" + text(chance).encode("ascii", "replace").decode(),
    lambda chance: f"REVIEW {stamp(now())}\nBARRED\nann {text(chance)!a} bob\nLIVE\n",
    lambda chance: f"ann {text(chance)!a} db-care 20260105090000Z 20260105100000Z\n",
    lambda chance: f"ann 1 db-care {chance.randrange(10**13, 10**15)}Z 20260105100000Z\n",
]


def test_replies_of_any_kind(config: Config) -> None:
    """Something before the desk answers in its place."""
    chance = random.Random(SEED)
    for _ in range(max(20, COUNT // 5)):
        body = chance.choice(REPLIES)(chance)
        with answering(chance.choice([200, 200, 200, 302, 403, 500]), body) as url:
            told = replace(config, desks=(url,))
            for said in ("mine --all", "live", "waiting", "approve ann 1 --yes --again"):
                status, printed = answer(told, chance.choice(["ann", "bob"]), said)
                assert status in (0, 1, 2, 3) and "Traceback" not in printed, (body, printed)
            assert answer(told, "dave", "review")[0] in (0, 3)


ROSTERS = [b"\xff", b"", b"people = 1", b"relays = []", b"[people]\nann = [7]", b"[people]\na = 1"]


@pytest.mark.parametrize("text", ROSTERS)
def test_a_roster_that_is_none(quiet_site: Site, text: bytes) -> None:
    (quiet_site.folder / "site.roster").write_bytes(text)
    config = read_config(str(quiet_site.config))
    status, told = answer(config, "ann", "mine")
    assert status == 2 and "cannot be read" in told
    own = {"X-Desk-Front": SECRET, "X-Desk-Person": "ann"}
    assert create_app(config).test_client().get("/", headers=own).status_code == 503

"""The small relay of examples/relays, beside a real desk, and with replies that are lost."""

import json
import os
import re
import socket
import subprocess
import threading
from collections.abc import Iterator
from concurrent.futures import ThreadPoolExecutor
from pathlib import Path
from typing import Any

import pytest

from relays.tests.site import ROOT, Site

RELAY = ROOT / "examples" / "relays" / "relay.pl"
ASK = "ask db-care db1 root 60 /usr/bin/id -u"
HEAD = b"HTTP/1.1 200 OK\r\nContent-Type: text/plain\r\nContent-Length: 4\r\n\r\n"


def call(site: Site, person: str, line: str, path: str = "desk.sock") -> tuple[int, str]:
    """A call as sshd makes it; the desk's socket, or another in its place."""
    folder = site.folder / "perl"
    folder.mkdir(exist_ok=True)
    words = [str(RELAY), str(folder), str(site.folder / path), "chat", person]
    told = {"PATH": os.environ["PATH"], "SSH_ORIGINAL_COMMAND": line}
    ran = subprocess.run(words, capture_output=True, text=True, env=told, timeout=120)
    return ran.returncode, ran.stdout + ran.stderr


def held(site: Site) -> list[dict[str, Any]]:
    """What the desk holds, in the order of the numbers."""
    rows = [json.loads(line) for line in site.ask("/v1/messages").splitlines()]
    return sorted(rows, key=lambda it: int(it["no"]))


def kept(site: Site) -> list[str]:
    return sorted(it.name for it in (site.folder / "perl").iterdir() if it.name != "lock")


class Between:
    """Stands between the relay and the desk: it passes the message on, and this in place of the
    reply."""

    def __init__(self, site: Site, reply: bytes, is_passed_on: bool = True) -> None:
        self.site, self.reply, self.is_passed_on = site, reply, is_passed_on
        self.listener = socket.socket(socket.AF_UNIX)
        self.listener.bind(str(site.folder / "between.sock"))
        self.listener.listen()
        self.thread = threading.Thread(target=self.serve, daemon=True)
        self.thread.start()

    def serve(self) -> None:
        peer, _ = self.listener.accept()
        with peer, socket.socket(socket.AF_UNIX) as desk:
            request = b""
            while not request.endswith(b"}"):
                request += peer.recv(65_536)
            if self.is_passed_on:
                desk.connect(str(self.site.folder / "desk.sock"))
                desk.sendall(request)
                answer = b""
                while more := desk.recv(65_536):
                    answer += more
                assert answer.endswith(b"\r\n\r\nack\n"), answer
            peer.sendall(self.reply)

    def close(self) -> None:
        self.thread.join(60)
        self.listener.close()
        (self.site.folder / "between.sock").unlink()


def test_it_asks_and_approves(site: Site) -> None:
    status, said = call(site, "ann", ASK)
    assert (status, said) == (0, f"1, ann {ASK}: ack\n")
    said = f"1, ann {ASK}\n2, bob approve ann 1: ack\n"
    assert call(site, "bob", "approve ann 1") == (0, said)
    file = site.ask("/v1/hosts/db1/sudoers")
    granted = r"^ann db1 = \(root\) NOTBEFORE=\d+Z NOTAFTER=\d+Z /usr/bin/id -u$"
    assert re.search(granted, file, re.MULTILINE)
    assert call(site, "ann", "revoke ann 1")[0] == 0
    assert kept(site) == ["1.done", "2.done", "3.done"]
    assert {it["kind"] for it in held(site)} == {"request", "approve", "revoke"}


def test_nobody_approves_what_is_not_shown(site: Site) -> None:
    """Nor what the desk refused: the word would wait there for any other request of that name."""
    call(site, "bob", ASK)
    assert kept(site) == ["1.refused"]
    odd = ["ann 1", "bob 1", "ann 2", "ann 1.refused", "ann ../1"]
    for line in (*(f"approve {it}" for it in odd), "show ann 1", "show bob"):
        status, said = call(site, "carol", line)
        assert status not in (0, 1, 3) and kept(site) == ["1.refused"], (line, said)
    assert "the desk refused it" in call(site, "carol", "approve bob 1")[1]
    call(site, "ann", ASK)
    assert call(site, "bob", "show ann 2") == (0, f"2, ann {ASK}\n")
    said = f"2, ann {ASK}\n3, bob approve ann 2: ack\n"
    assert call(site, "bob", "approve ann 2") == (0, said)


def test_what_the_desk_refuses_is_not_posted_again(site: Site) -> None:
    status, said = call(site, "bob", ASK)
    assert (status, said) == (1, f"1, bob {ASK}: 403 A3 NotAsker\n")
    assert kept(site) == ["1.refused"]
    assert call(site, "bob", "") == (0, "")
    # (a new try is a new message, with another number)
    assert call(site, "bob", ASK)[1].startswith("2, ")


LOST = [
    b"",
    HEAD[:12],
    HEAD,
    HEAD + b"ack",
    b"HTTP/1.1 502 Bad Gateway\r\n\r\n<html>the desk is away</html>\n",
    b"HTTP/1.1 200 OK\r\n\r\n<html>log in</html>\n",
    b"HTTP/1.1 403 Forbidden\r\n\r\n<html>wrong certificate</html>\n",
    b"HTTP/1.1 503 Service Unavailable\r\n\r\nK4 Storage\n",
    b"HTTP/1.1 403 Forbidden\r\n\r\nP1 UnknownRelay\n",
    b"HTTP/1.1 403 Forbidden\r\n\r\nack\n",
]


@pytest.fixture(scope="module")
def crowded(tmp_path_factory: pytest.TempPathFactory) -> Iterator[Site]:
    """A desk for all of them: it starts once."""
    found = Site(tmp_path_factory.mktemp("perl"))
    found.start_desk()
    yield found
    found.close()


@pytest.mark.parametrize("number", range(len(LOST)))
def test_a_reply_that_is_lost(crowded: Site, number: int) -> None:
    """The desk has the message, and the relay does not know: it makes no other one."""
    line = f"ask db-care db1 root 60 /usr/local/sbin/tool{number}"
    between = Between(crowded, LOST[number])
    status, said = call(crowded, "ann", line, "between.sock")
    between.close()
    assert status == 3 and "kept, for no answer came" in said, said
    asked = [it for it in held(crowded) if it["cmnds"] == [line.split()[-1]]]
    assert len(asked) == 1
    assert call(crowded, "ann", line) == (0, f"{asked[0]['no']}, ann {line}: ack\n")
    assert [it for it in held(crowded) if it["cmnds"] == [line.split()[-1]]] == asked


def test_a_desk_that_is_down(quiet_site: Site) -> None:
    site = quiet_site
    assert call(site, "ann", ASK)[0] == 3
    before = (site.folder / "perl" / "1.kept").read_bytes()
    assert call(site, "ann", ASK)[0] == 3
    assert call(site, "bob", "approve ann 1")[0] == 3
    assert kept(site) == ["1.kept", "2.kept"]
    assert (site.folder / "perl" / "1.kept").read_bytes() == before
    site.start_desk()
    # (whoever calls next has both posted, and is told of his own)
    assert call(site, "bob", "") == (0, "2, bob approve ann 1: ack\n")
    assert kept(site) == ["1.done", "2.done"]
    assert "NOTAFTER=" in site.ask("/v1/hosts/db1/sudoers")


def test_words_are_no_json(site: Site) -> None:
    """Nobody writes in another's name, nor a member of his own."""
    for line, end in (
        ('ask db-care db1 root 60 /usr/bin/id","by":"bob', "400 M3 BadField\n"),
        ("ask db-care db1 root 60 /usr/bin/id \\\\,", "400 M3 BadField\n"),
        ('ask db-care","by":"bob db1 root 60 /usr/bin/id', "400 M3 BadField\n"),
    ):
        status, said = call(site, "ann", line)
        assert status == 1 and said.endswith(end), said
    assert call(site, "ann", "ask db-care db1 root 60 /usr/bin/id \\,")[1].endswith(": ack\n")
    before = kept(site)
    for line in (
        'approve ann 1,"by":"carol"', "approve ann 01", "approve ann", "grant ann 1",
        "ask db-care db1 root 1e3 /usr/bin/id", "ask db-care db1 root 60",
        "ask db-care db1 root \u0661 x",
        "revoke ann 1\n", "approve ann 1\n2",
    ):  # fmt: skip
        status, said = call(site, "bob", line)
        assert status not in (0, 1, 3) and "Z" not in said, (line, said)
    assert kept(site) == before
    assert [it["cmnds"] for it in held(site)] == [["/usr/bin/id \\,"]]


def test_many_call_at_once(site: Site) -> None:
    """Each message has a number of its own."""
    lines = [f"ask db-care db1 root 60 /usr/local/sbin/tool{number}" for number in range(8)]
    with ThreadPoolExecutor(8) as pool:
        found = list(pool.map(lambda it: call(site, "ann", it), lines))
    assert [status for status, _ in found] == [0] * 8, found
    assert [it["no"] for it in held(site)] == list(range(1, 9))


def test_it_needs_perl_base_alone() -> None:
    """Each module that it loads is one of that package's."""
    show = 'END { print "$_\\n" for values %INC }'
    words = ["perl", "-e", f"{show} local @ARGV = ('/nowhere', '', '', ''); do '{RELAY}'"]
    ran = subprocess.run(words, capture_output=True, text=True, cwd="/", env={"PATH": "/usr/bin"})
    paths = [Path(it) for it in ran.stdout.split() if it.startswith("/usr/")]
    assert any(it.name == "UNIX.pm" for it in paths), ran
    assert all("perl-base" in it.parts for it in paths), paths

"""People are told: by mail through Debian's msmtp, in chat rooms, each event once, and when the
relay is killed at least once, under one id."""

import contextlib
import json
import os
import random
import ssl
import subprocess
import threading
import time
from collections.abc import Iterator
from datetime import timedelta
from email import message_from_bytes, policy
from email.message import EmailMessage
from http.server import BaseHTTPRequestHandler, HTTPServer
from pathlib import Path

import pytest
from aiosmtpd.controller import Controller

from relays.tests.front import AUTHORITY
from relays.tests.site import ROOT, Site
from relays.tests.test_fuzz import answer
from relays.tests.test_outbox import AT, WISH
from steelnewt_client.moments import now, of_stamp
from steelnewt_relay.config import MOST_SECONDS, read_config
from steelnewt_relay.events import Event, Finder
from steelnewt_relay.notices import Notices, look, run
from steelnewt_relay.outbox import Outbox
from steelnewt_relay.standing import Knowledge
from tests.common.ports import free_port

ASK = "ask db-care --on db1 --as root --for 1h --yes --again --why disk full /usr/bin/id"
MAIL, WEBHOOK = (str(ROOT / "relays" / f"notify-{it}") for it in ("mail", "webhook"))
HOSTILE = 'x @all "$(id)" `id` <!channel> \\n &'


def settings(site: Site, *program: str, **other: object) -> None:
    with open(site.config, "a", encoding="utf-8") as file:
        file.write(f"[notify]\nprogram = {json.dumps(program)}\n")
        file.writelines(f"{name} = {json.dumps(it)}\n" for name, it in other.items())


def say(site: Site, person: str, line: str) -> None:
    status, told = answer(read_config(str(site.config)), person, line)
    assert status in (0, 2, 3) or "it does not count" in told, told


def wait_for(check: object, seconds: float = 300.0) -> None:
    until = time.monotonic() + seconds
    while not check():  # type: ignore[operator]
        assert time.monotonic() < until
        time.sleep(0.2)


class Mails:
    """A real SMTP server, and what came."""

    def __init__(self) -> None:
        self.mails: list[EmailMessage] = []
        self.port = free_port()
        self.controller = Controller(self, hostname="127.0.0.1", port=self.port)
        self.controller.start()

    async def handle_DATA(self, _: object, __: object, envelope: object) -> str:
        content = envelope.content  # type: ignore[attr-defined]
        mail = message_from_bytes(content, policy=policy.default)
        assert isinstance(mail, EmailMessage)
        mail["Rcpt"] = ",".join(sorted(envelope.rcpt_tos))  # type: ignore[attr-defined]
        self.mails.append(mail)
        return "250 OK"


@pytest.fixture
def mails() -> Iterator[Mails]:
    found = Mails()
    yield found
    found.controller.stop()


def test_by_mail(site: Site, mails: Mails) -> None:
    """Through /usr/sbin/sendmail, which is msmtp, to the server."""
    home = site.folder / "home"
    home.mkdir()
    account = home / ".msmtprc"
    account.write_text(f"account default\nhost 127.0.0.1\nport {mails.port}\n")
    account.chmod(0o600)
    (site.folder / "people").write_text("# who\nbob robert@corp.example\n")
    words = ["/usr/bin/env", f"HOME={home}", MAIL, "--domain", "desk.example"]
    say(site, "ann", ASK)  # (before there is anything to tell by)
    settings(site, *words, "--people", str(site.folder / "people"), link="https://desk/")
    site.start("notify", "--every", "0.3")
    wait_for(lambda: "told_from" in tables(site))
    count = 0
    for person, line, more in (
        ("ann", ASK, 1), ("eve", "approve ann 2 --yes --anyway", 1),
        ("bob", "approve ann 2 --yes", 1),
        ("ann", ASK, 1), ("carol", "refuse ann 3 --yes", 1),
        ("ann", ASK.replace("1h", "9h --anyway"), 1), ("ann", "revoke ann 2 --yes", 1),
    ):  # fmt: skip
        say(site, person, line)
        count += more
        wait_for(lambda: len(mails.mails) >= count)  # noqa: B023
    wanted = sorted(
        [
            ("asked", "ann asks.", "carol@desk.example,robert@corp.example"),
            ("uncounted", "eve approved ann 2, but it does not count: a duty that conflicts with"
             " approving was held then.", "ann@desk.example,eve@desk.example"),
            ("granted", "bob approved ann 2: it is granted.",
             "ann@desk.example,carol@desk.example"),
            ("asked", "ann asks.", "carol@desk.example,robert@corp.example"),
            ("refused", "carol refused ann 3.", "ann@desk.example,robert@corp.example"),
            ("revoked", "ann revoked ann 2.", "robert@corp.example"),
        ]
    )  # fmt: skip
    # (the log says so once the program that sends has ended)
    log = site.folder / "notify.log"
    wait_for(lambda: log.read_text().count(": told") > len(wanted))
    time.sleep(1)
    told = [
        (it["X-Desk-Event"], text_of(it).partition("\n")[0], it["Rcpt"]) for it in mails.mails
    ]
    assert sorted(it for it in told if it[0] != "void") == wanted
    void = [it[1] for it in told if it[0] == "void"]
    assert len(void) == 1 and void[0].startswith("The desk refused it. A7 WindowTooLong: ")
    first = text_of(next(it for it in mails.mails if it["X-Desk-Event"] == "asked"))
    assert "why       | disk full" in first and "bob, carol may approve it" in first
    assert "\nTo approve it: ssh desk approve ann 2\nhttps://desk/r/ann/2\n" in first
    named = {it["Subject"] for it in mails.mails if it["References"].startswith("<ann-2@")}
    subject = "[desk] ann: root on db1, 1 hour: disk full"
    assert named == {subject, f"Re: {subject}"}
    assert len({it["Message-ID"] for it in mails.mails}) == len(mails.mails)
    assert log.read_text().count(": told") == len(wanted) + 1


def text_of(mail: EmailMessage) -> str:
    return str(mail.get_content()).replace("\r\n", "\n")


def test_by_an_smtp_server(mails: Mails) -> None:
    """Past sendmail, and with an exit that says so where the server is away."""
    event = {"id": "e" * 32, "event": "asked", "subject": "ann asks", "text": "ann asks."}
    event |= {"thread": "ann-1", "link": ""}
    words = [MAIL, "--from", "desk@site.example", "--domain", "site.example", "--smtp"]

    def ran(port: int) -> subprocess.CompletedProcess[str]:
        given = json.dumps(event | {"to": ["bob", "carol"]})
        server = f"127.0.0.1:{port}"
        return subprocess.run(
            [*words, server], input=given, capture_output=True, text=True, timeout=60, check=False
        )

    done = ran(mails.port)
    assert done.returncode == 0, done
    [mail] = mails.mails
    assert mail["Subject"] == "[desk] ann asks" and mail["From"] == "desk@site.example"
    assert mail["Rcpt"] == "bob@site.example,carol@site.example"
    done = ran(free_port())
    assert done.returncode == 1 and "notify-mail: " in done.stderr, done


def tables(site: Site) -> str:
    outbox = Outbox(str(site.folder / "outbox.db"))
    with contextlib.closing(outbox):
        return str(outbox.base.execute("SELECT group_concat(name) FROM sqlite_master").fetchone())


def test_what_time_brings(site: Site) -> None:
    """A grant that ends soon, and requests whose window ended: each once."""
    config = read_config(str(site.config))
    outbox, desk = config.open_outbox(), config.open_desk()
    notices = Notices(outbox)
    for person, line in (("ann", ASK), ("bob", "approve ann 1 --yes"), ("ann", ASK)):
        say(site, person, line)
    ends = of_stamp(outbox.request("ann", 1).request.wish.ends)  # type: ignore[union-attr]

    def seen() -> list[tuple[str, int]]:
        rows = outbox.base.execute("SELECT kind, body FROM notices WHERE state = 'due'")
        found = [(kind, json.loads(body)["no"]) for kind, body in rows]
        outbox.base.execute("UPDATE notices SET state = 'done' WHERE state = 'due'")
        return sorted(found)

    steps = [
        (now(), [("asked", 1), ("asked", 2), ("granted", 1)]),
        (ends - timedelta(minutes=16), []),
        (ends - timedelta(minutes=14), [("ends-soon", 1)]),
        (ends - timedelta(minutes=1), []),
        (ends + timedelta(hours=1), [("void", 2)]),
        (ends + timedelta(hours=2), []),
    ]
    for at, wanted in steps:
        for again in (wanted, []):
            knowledge = Knowledge(outbox, desk, config.read_roster(), at)
            assert look(notices, lambda: Finder(knowledge)) == ""  # noqa: B023
            assert seen() == again, at
    site.stop_desk()
    assert "cannot be reached" in look(
        notices, lambda: Finder(Knowledge(outbox, desk, config.read_roster(), now()))
    )


def test_nobody_outside_the_roster_is_told(site: Site) -> None:
    """Whoever gives a verdict may name anybody: a mail would go to that name at the site."""
    config = read_config(str(site.config))
    outbox = config.open_outbox()
    notices = Notices(outbox)
    for line in ("revoke all-staff 7 --yes", "refuse ann 7 --yes", "revoke postmaster 1 --yes"):
        say(site, "bob", line)
    knowledge = Knowledge(outbox, config.open_desk(), config.read_roster(), now())
    assert look(notices, lambda: Finder(knowledge)) == ""
    bodies = [json.loads(it[0]) for it in outbox.base.execute("SELECT body FROM notices")]
    assert sorted(it["who"] for it in bodies) == ["all-staff", "ann", "postmaster"]
    assert {it for body in bodies for it in body["to"]} == {"ann", "bob"}


def recorded(site: Site, count: int) -> set[str]:
    """Events that wait to be told, in an outbox of a site: their ids."""
    outbox = Outbox(str(site.folder / "outbox.db"))
    notices = Notices(outbox)
    notices.record([Event("asked", it, {"no": it, "to": []}) for it in range(count)])
    with contextlib.closing(outbox):
        return {it[0] for it in outbox.base.execute("SELECT id FROM notices")}


def due(site: Site) -> int:
    outbox = Outbox(str(site.folder / "outbox.db"))
    with contextlib.closing(outbox):
        return int(outbox.base.execute("SELECT count(*) FROM notices WHERE state = 'due'")
                   .fetchone()[0])  # fmt: skip


def test_killed_between(quiet_site: Site) -> None:
    """Each event is told; again under its id only if the relay was killed meanwhile."""
    site, chance, kills = quiet_site, random.Random(7), 5
    told, program, most = (site.folder / it for it in ("told", "program", "most"))
    # (in each round it tells so many, however long it is before the relay is killed)
    waits = f'while [ "$(wc -l < {told})" -ge "$(cat {most})" ]; do sleep 0.1; done'
    program.write_text(f'#!/bin/sh\nread -r line\necho "$line" >> {told}\nsleep 0.1\n{waits}\n')
    program.chmod(0o755)
    settings(site, str(program))
    ids = recorded(site, 40)
    for number in range(1, kills + 1):
        most.write_text(f"{7 * number}\n")
        before, job = due(site), site.start("notify", "--every", "0.1")
        wait_for(lambda: due(site) < before)  # noqa: B023
        time.sleep(chance.uniform(0, 0.3))
        job.kill()
        job.wait(timeout=60)
    assert 0 < due(site) < 40
    most.write_text("1000\n")
    site.start("notify", "--every", "0.1")
    wait_for(lambda: due(site) == 0)
    found = [json.loads(line)["id"] for line in told.read_text().splitlines()]
    print(f"{kills} kills: {len(found) - len(ids)} of {len(ids)} events were told again")
    assert set(found) == ids and len(found) <= len(ids) + kills


def test_a_stop_waits_for_the_program(quiet_site: Site) -> None:
    """As the unit stops it: the relay alone is told, and waited for longer than a program may take;
    then nobody is told twice."""
    lines = (ROOT / "packaging/units/desk-relay-notify.service").read_text().splitlines()
    assert "KillMode=mixed" in lines
    (waits,) = [int(it.removeprefix("TimeoutStopSec=")) for it in lines if "TimeoutStopSec" in it]
    assert waits > MOST_SECONDS
    site, slow = quiet_site, "echo begun >> begun; sleep 2; cat >> told"
    settings(site, "/bin/sh", "-c", f"cd {site.folder}; {slow}")
    recorded(site, 1)
    job = site.start("notify", "--every", "0.2")
    wait_for((site.folder / "begun").exists)
    job.terminate()
    assert job.wait(timeout=60) == 0
    assert len((site.folder / "told").read_text().splitlines()) == 1
    assert due(site) == 0


def test_a_program_that_fails_or_hangs(quiet_site: Site) -> None:
    site = quiet_site
    fails = ["/bin/sh", "-c", 'grep -q "\\"no\\": 1," && exit 3; exit 0']
    settings(site, *fails)
    recorded(site, 3)
    site.start("notify", "--every", "0.2")
    wait_for(lambda: due(site) == 1)
    wait_for(lambda: "ended with 3; tried again in 10" in (site.folder / "notify.log").read_text())
    second = site.start("notify")
    assert second.wait(timeout=60) == 2
    assert "another process tells already" in (site.folder / "notify.log").read_text()
    began, pid = time.monotonic(), site.folder / "pid"
    hangs = ["/bin/sh", "-c", f"sleep 600 & echo $! > {pid}; sleep 600"]
    for seconds in (1, 10, 60):  # (a busy machine may not have begun it within the second)
        assert f"took longer than {seconds} seconds" in run(hangs, "{}", seconds)
        assert time.monotonic() - began < 60 + 2 * seconds
        if pid.exists() and pid.read_text():
            break
    wait_for(lambda: not is_running(int(pid.read_text())))
    assert run(["/bin/cat", "$(touch /tmp/x)"], "{}", 20).endswith("ended with 1")
    assert "cannot be run" in run(["/nothing"], "{}", 20)
    assert run(["/bin/true"], "x" * 10**6, 20) == ""


def is_running(pid: int) -> bool:
    try:
        return "Z" not in Path(f"/proc/{pid}/stat").read_text().split(")")[1][:3]
    except OSError:
        return False


class Room(HTTPServer):
    """A chat server, which keeps the posts that it gets."""

    def __init__(self) -> None:
        super().__init__(("127.0.0.1", 0), RoomHandler)
        self.came: list[tuple[str, str, str, dict[str, str]]] = []
        self.status = 200
        threading.Thread(target=self.serve_forever, args=(0.05,), daemon=True).start()


class RoomHandler(BaseHTTPRequestHandler):
    def do_POST(self) -> None:
        body = json.loads(self.rfile.read(int(self.headers["Content-Length"])))
        assert isinstance(self.server, Room)
        key = self.headers.get("Authorization", "")
        self.server.came.append((self.command, self.path, key, body))
        self.send_response(self.server.status)
        self.end_headers()

    do_PUT = do_POST

    def log_message(self, format: str, *args: object) -> None:
        pass


ROOMS = {"mattermost": ("POST", "/hooks/secret"), "slack": ("POST", "/hooks/secret"),
         "matrix": ("PUT", "/hooks/secret/" + "e" * 32)}  # fmt: skip


@pytest.mark.parametrize("kind", ROOMS)
def test_in_a_chat_room(tmp_path: Path, kind: str) -> None:
    room, file, log = Room(), tmp_path / "hook", tmp_path / "words"
    file.write_text(f"http://127.0.0.1:{room.server_port}/hooks/secret\ntoken-1\n")
    curl = tmp_path / "curl"
    curl.write_text(f'#!/bin/sh\necho "$@" >> {log}\nexec /usr/bin/curl "$@"\n')
    curl.chmod(0o755)
    link = "https://desk/r/ann/1"
    event = {"id": "e" * 32, "event": "asked", "subject": f"ann: {HOSTILE}", "link": link}
    event |= {"text": f"ann asks.\n  why  {HOSTILE}\n{link}"}

    def ran() -> int:
        environment = {"PATH": f"{tmp_path}:{os.environ['PATH']}"}
        return subprocess.run(
            [WEBHOOK, kind, str(file)], input=json.dumps(event), text=True, env=environment,
            timeout=60, check=False,
        ).returncode  # fmt: skip

    with contextlib.closing(room.socket):
        assert ran() == 0
        room.status = 500
        assert ran() != 0
        room.shutdown()
    method, path, key, body = room.came[0]
    assert (method, path) == ROOMS[kind]
    assert (key == "Bearer token-1") == (kind == "matrix")
    text = body["body" if kind == "matrix" else "text"]
    assert "$(id)" in text and "\\n &" in text and "e" * 32 in text and "ann asks.\n" in text
    assert "@all" not in text and "`id`" not in text
    assert ("<!channel>" in text) == (kind != "slack")
    # (the link can be tapped: it is no part of a block of code)
    assert text.rpartition("```")[2].endswith(f"\n{link}") and text.count(link) == 1
    assert "secret" not in log.read_text() and "token" not in log.read_text()


def test_a_chat_server_of_the_sites_authority(tmp_path: Path) -> None:
    """The server is told if the authority that is named signed its certificate, and not else."""
    for name in ("init", "server 127.0.0.1 127.0.0.1"):
        subprocess.run(["sh", AUTHORITY, str(tmp_path / "ca"), *name.split()], check=True)
    room, file = Room(), tmp_path / "hook"
    context = ssl.SSLContext(ssl.PROTOCOL_TLS_SERVER)
    context.load_cert_chain(tmp_path / "ca" / "server.pem", tmp_path / "ca" / "server.key")
    room.socket = context.wrap_socket(room.socket, server_side=True)
    file.write_text(f"https://127.0.0.1:{room.server_port}/hooks/secret\n")
    event = json.dumps({"id": "e" * 32, "event": "asked", "text": "ann asks.", "link": "",
                        "subject": "ann"})  # fmt: skip
    named = ["--ca", str(tmp_path / "ca" / "ca.pem")]
    cases: list[tuple[list[str], bool]] = [([], False), (named, True)]
    with contextlib.closing(room.socket):
        for words, is_told in cases:
            line = [WEBHOOK, "slack", str(file), *words]
            ran = subprocess.run(line, input=event, text=True, timeout=60, check=False)
            assert (ran.returncode == 0) == is_told and len(room.came) == is_told
        room.shutdown()


BAD = ['program = ["/a"]\nfirst = "On call"', 'program = ["/a"]\nminutes = 0',
       "", 'program = "mail"', 'program = ["mail"]', "program = [7]", 'program = ["/a"]\nx = 1',
       'program = ["/a"]\nseconds = 0', 'program = ["/a"]\nlink = "a\\nb"']  # fmt: skip


@pytest.mark.parametrize("text", BAD)
def test_settings_that_are_none(quiet_site: Site, text: str) -> None:
    with open(quiet_site.config, "a", encoding="ascii") as file:
        file.write(f"[notify]\n{text}\n")
    with pytest.raises(ValueError, match="notify"):
        read_config(str(quiet_site.config))


def test_nobody_is_told_of_what_was_before(quiet_site: Site) -> None:
    outbox = Outbox(str(quiet_site.folder / "outbox.db"))
    kept = outbox.keep_request("ann", WISH, AT)
    outbox.answered(kept.id, "acked")
    notices = Notices(outbox)
    assert notices.untold() == [] and notices.past("20990101000000Z") == []
    other = outbox.keep_request("ann", WISH, AT)
    outbox.answered(other.id, "acked")
    again = Notices(outbox)
    assert [it.id for it in again.untold()] == [it.id for it in again.past("20990101000000Z")]
    assert [it.id for it in again.untold()] == [other.id]
    assert outbox.post_again() == 2 and again.untold() == []

"""A small site for tests: a desk that is served, a relay's settings, and its program."""

import http.client
import json
import os
import signal
import socket
import sqlite3
import subprocess
import time
from contextlib import closing
from pathlib import Path

from steelnewt_client.desk import Desk
from steelnewt_client.moments import now
from steelnewt_relay.outbox import Outbox
from tests.common.calling import call_words

ROOT = Path(__file__).resolve().parents[2]
DESK = os.environ.get("DESK", str(ROOT / "build" / "desk"))
RELAY = str(ROOT / "relays" / "desk-relay")
ROSTER = ROOT / "examples" / "roster.toml"
BASE = ROOT / "examples" / "site.sudo"
SETTINGS = """\
desk = "unix:{folder}/desk.sock"
patience = 20
relay = "chat"
roster = "{folder}/site.roster"
outbox = "{folder}/outbox.db"
zone = "Europe/Berlin"
auditors = "audit"
[ssh]
keys = "{folder}/authorized_keys"
principals = "{folder}/authorized_principals"
revoked = "{folder}/revoked"
[page]
listen = "unix:{folder}/page.sock"
secret = "{folder}/page.secret"
signing_key = "{folder}/page.key"
"""
PATIENCE = 120.0  # seconds: the machine may be busy
SECRET = "0123456789abcdef0123456789abcdef"
SIGNING_KEY = "fedcba9876543210fedcba9876543210"


def wait_for_port(port: int, seconds: float = PATIENCE) -> None:
    """Waits until something listens."""
    until = time.monotonic() + seconds
    while time.monotonic() < until:
        with socket.socket() as peer:
            if peer.connect_ex(("127.0.0.1", port)) == 0:
                return
        time.sleep(0.05)
    raise TimeoutError(f"nothing listens at port {port}")


def wait_for_next_second() -> None:
    """Waits until this second is over. (Moments are whole seconds: the same word twice in one
    second is one message, and what begins and ends within one second was never in force.)"""
    begun = now()
    while now() <= begun:
        time.sleep(0.02)


class PageConnection(http.client.HTTPConnection):
    """A connection to a page's socket, past the front."""

    def __init__(self, path: Path) -> None:
        super().__init__("page", timeout=60)
        self.path = str(path)

    def connect(self) -> None:
        self.sock = socket.socket(socket.AF_UNIX)
        self.sock.settimeout(60)
        self.sock.connect(self.path)


class Site:
    """A desk over a file, and a relay beside it, whose first number is the one behind `block`."""

    block = 0

    def __init__(self, folder: Path) -> None:
        self.folder = folder
        self.desk: subprocess.Popen[str] | None = None
        self.before: list[str] = []  # what starts it
        self.started: list[subprocess.Popen[bytes]] = []
        (folder / "site.roster").write_bytes(ROSTER.read_bytes())
        for name, key in (("page.secret", SECRET), ("page.key", SIGNING_KEY)):
            (folder / name).write_text(key + "\n")
            (folder / name).chmod(0o600)
        (folder / "revoked").write_text("# nobody's key yet\n")
        self.config, self.socket = folder / "relay.toml", folder / "page.sock"
        self.config.write_text(SETTINGS.format(folder=folder))

    @property
    def url(self) -> str:
        return f"unix:{self.folder}/desk.sock"

    @property
    def store(self) -> Path:
        return self.folder / "desk.db"

    def start_desk(self, *more: str) -> None:
        words = [*self.before, DESK, "serve", str(self.folder / "site.roster"), str(BASE)]
        words.append(str(self.store))
        words += [self.url, *more]
        self.desk = subprocess.Popen(words, stdout=subprocess.PIPE, text=True)
        assert self.desk.stdout
        first = self.desk.stdout.readline()
        assert first == f"listening {self.url}\n", first

    def hear(self) -> None:
        """The relay knows that no number is used yet, as after a first request."""
        outbox = Outbox(str(self.folder / "outbox.db"))
        outbox.number_past(0)
        outbox.close()

    def ask(self, route: str) -> str:
        """What the desk answers to a question."""
        return Desk(self.url, "chat", None, None).exchange("GET", route).text

    def stop_desk(self) -> None:
        if self.desk:
            self.desk.send_signal(signal.SIGTERM)
            self.desk.wait(timeout=PATIENCE)
            assert self.desk.stdout
            self.desk.stdout.close()
            self.desk = None

    def start(self, *words: str) -> subprocess.Popen[bytes]:
        """A job of the relay's program, which ends with the site."""
        log = open(self.folder / f"{words[0]}.log", "ab")
        with log:
            job = subprocess.Popen(self.job(*words), stderr=log)
        self.started.append(job)
        return job

    def job(self, *words: str) -> list[str]:
        """What starts a job of the relay's program."""
        return [RELAY, "--config", str(self.config), *words]

    def start_page(self) -> subprocess.Popen[bytes]:
        """The page, once it listens."""
        job, until = self.start("page"), time.monotonic() + PATIENCE
        while time.monotonic() < until:
            with socket.socket(socket.AF_UNIX) as peer:
                if peer.connect_ex(str(self.socket)) == 0:
                    return job
            time.sleep(0.05)
        raise TimeoutError((self.folder / "page.log").read_text())

    def ask_page(self, path: str, headers: dict[str, str]) -> tuple[int, str]:
        """What the page answers to whoever reaches its socket."""
        with closing(PageConnection(self.socket)) as peer:
            peer.request("GET", path, headers=headers)
            reply = peer.getresponse()
            return reply.status, reply.read().decode("utf-8")

    def begin_anew(self) -> None:
        """Begins with an empty outbox and numbers that nobody used, while the desk goes on: to
        start one costs more than what most tests do."""
        self.end_jobs()
        self.block += 100
        for end in ("", "-wal", "-shm", ".notify"):
            (self.folder / f"outbox.db{end}").unlink(missing_ok=True)
        numbers = f"numbers = [{self.block + 1}, {self.block + 99}]\n"
        self.config.write_text(numbers + SETTINGS.format(folder=self.folder))

    def no(self, number: int = 1) -> int:
        """A request's number, where it is the so-manyth of its author's."""
        return self.block + number

    def end_jobs(self) -> None:
        for job in self.started:
            job.terminate()
            job.wait(timeout=PATIENCE)
        self.started = []

    def close(self) -> None:
        self.end_jobs()
        self.stop_desk()

    def words(self, person: str) -> list[str]:
        """What sshd starts for a person, who has a key for it."""
        return call_words(RELAY, self.config, self.folder / "authorized_keys", person)

    def run(
        self, person: str, line: str, given: str = "", **variables: str
    ) -> subprocess.CompletedProcess[str]:
        """A call as sshd would start it."""
        environment = os.environ | variables | {"SSH_ORIGINAL_COMMAND": line}
        return subprocess.run(
            self.words(person),
            input=given,
            capture_output=True,
            text=True,
            env=environment,
            timeout=180,
            check=False,
        )

    def data(self, person: str, line: str) -> object:
        """What a call with --json prints."""
        ran = self.run(person, f"{line} --json")
        assert ran.returncode == 0, ran
        return json.loads(ran.stdout)

    def stored(self) -> list[str]:
        """The messages of the desk's store, while no desk has it."""
        assert self.desk is None
        with closing(sqlite3.connect(self.store)) as base:
            return [row[0] for row in base.execute("SELECT body FROM messages ORDER BY body")]

    def kept(self) -> list[tuple[str, str]]:
        """The outbox's messages and their states."""
        with closing(sqlite3.connect(self.folder / "outbox.db")) as base:
            return list(base.execute("SELECT body, state FROM messages ORDER BY id"))

    def wait_until_said(self, job: str, piece: str) -> None:
        """Waits for a piece of a job's log, which says what was done once it is done."""
        until = time.monotonic() + PATIENCE
        while piece not in (said := (self.folder / f"{job}.log").read_text()):
            assert time.monotonic() < until, said
            time.sleep(0.1)

    def wait_until_posted(self, seconds: float = 180.0) -> None:
        until = time.monotonic() + seconds
        while time.monotonic() < until:
            if all(state != "kept" for _, state in self.kept()):
                return
            time.sleep(0.1)
        raise TimeoutError(f"still kept: {self.kept()}")

"""A machine's state in a folder, for tests of desk-backup and desk-restore: a desk with a store, a
relay with an outbox, a door's journal, an authority; and the two programs over it."""

from __future__ import annotations

import hashlib
import json
import os
import re
import shutil
import subprocess
import sys
import time
from collections.abc import Iterable

from steelnewt_backup.manifest import MOMENT
from steelnewt_client.messages import Verdict, Wish
from steelnewt_client.signed import Signed
from steelnewt_door.rows import Last, answered, came, draft_of, following
from steelnewt_relay.outbox import Outbox
from tests.common import desk

PROGRAM = os.path.abspath(os.environ.get("DESK", desk.PROGRAM[0]))
TOOLS = os.path.join(desk.ROOT, "tools")
STORE = "/var/lib/desk/desk.db"
OUTBOX = "/var/lib/desk-relay/outbox.db"
HISTORY = "/var/lib/desk/history"
JOURNAL = "/var/lib/desk-door/journal-000000000001.jsonl"
ROSTER, BASE = "/etc/desk/roster.toml", "/etc/desk/base.sudo"
SECRETS = ("/etc/desk/front/ca.key", "/etc/desk/page.secret")
DAY = 86_400
PATIENCE = 600

Row = tuple[str, bool, object]


def wish(no: int, begins: float) -> Wish:
    """What ann asks for: an hour of one command on db1."""
    first, last = desk.stamp(begins), desk.stamp(begins + 3_600)
    commands = ("/usr/bin/id",) if no % 2 else ("/usr/bin/systemctl restart postgresql",)
    return Wish("db-care", ("db1",), "root", commands, first, last)


class Room:
    """A machine below a folder."""

    def __init__(self, folder: str) -> None:
        self.folder = folder
        self.root = os.path.join(folder, "root")
        self.backups = os.path.join(folder, "backups")

    def path(self, name: str) -> str:
        return self.root + name

    def write(self, name: str, text: str | bytes, mode: int = 0o644) -> None:
        path = self.path(name)
        os.makedirs(os.path.dirname(path), exist_ok=True)
        with open(path, "wb") as file:
            file.write(text if isinstance(text, bytes) else text.encode())
        os.chmod(path, mode)

    def read(self, name: str) -> bytes:
        with open(self.path(name), "rb") as file:
            return file.read()

    def furnish(self, count: int = 6) -> None:
        """All that a machine of one desk and one relay keeps, with so many requests of ann's."""
        for name in (ROSTER, BASE):
            example = {ROSTER: "roster.toml", BASE: "site.sudo"}[name]
            self.write(name, desk.read("examples", example))
        self.serve_since("20260101000000Z", "a beginning")
        self.write("/etc/desk/serve.conf", "SYNC=once\n")
        settings = desk.read("relays", "relay.example.toml").partition("[page]")[0]
        self.write("/etc/desk/relay.toml", settings)
        for name in SECRETS:
            self.write(name, f"the secret of {name}\n", 0o600)
        self.write("/etc/desk/front/ca.pem", "a certificate\n")
        self.write("/var/lib/desk-relay/.ssh/authorized_keys", "# nobody\n")
        self.write("/etc/systemd/system/desk.service.d/door.conf", "[Service]\n")
        os.makedirs(self.path("/var/lib/desk"), 0o700, exist_ok=True)
        self.ask(range(1, count + 1))

    def serve_since(self, moment: str, why: str) -> None:
        """The history says that roster and base are served since then: the folder first."""
        for name, source in (("roster.toml", ROSTER), ("base.sudo", BASE)):
            self.write(f"{HISTORY}/{moment}/{name}", self.read(source), 0o600)
        self.write(f"{HISTORY}/{moment}/change", f"by=root\nwhy {why}\n", 0o600)
        digests = (hashlib.sha256(self.read(it)).hexdigest() for it in (ROSTER, BASE))
        with open(self.path(f"{HISTORY}/moments"), "a", encoding="ascii") as file:
            file.write(f"{moment} {' '.join(digests)}\n")

    def moments_served(self) -> list[str]:
        """Each moment that the history lists."""
        return [it.split(" ")[0] for it in self.read(f"{HISTORY}/moments").decode().splitlines()]

    def ask(self, numbers: Iterable[int], posts: bool = True, keeps: bool = True) -> list[str]:
        """Requests of ann's that bob approves, by the outbox and at the desk: the messages."""
        found, begins = [], time.time() - 60
        outbox = Outbox(self.path(OUTBOX)) if keeps else None
        for no in numbers:
            at = desk.stamp(begins - 10)
            if outbox:
                kept = outbox.keep_request("ann", wish(no, begins + no), at)
                said = outbox.keep_verdict(Verdict("bob", "approve", "ann", no, at))
                texts = [kept.message.text(), said.message.text()]
                outbox.answered(kept.id, "acked")
                outbox.answered(said.id, "acked")
            else:
                first = begins + no
                window = {"from": desk.stamp(first), "until": desk.stamp(first + 3_600)}
                texts = [desk.request(no, at=at, **window), desk.approval(no, at=at)]
            found += texts
        if outbox:
            outbox.close()
        if posts:
            self.deliver(found)
        return found

    def deliver(self, messages: list[str]) -> list[str]:
        words = [PROGRAM, "deliver", *(self.path(it) for it in (ROSTER, BASE, STORE)), "chat"]
        given = "".join(f"{it}\n" for it in messages)
        return desk.run(words, given, PATIENCE).stdout.splitlines()

    def note(self, messages: list[str]) -> None:
        """What the door's journal says of messages that the desk acknowledged."""
        last, lines = Last(), []
        for text in messages:
            at = desk.stamp(time.time())
            for row in (
                came(Signed(text, "", "", ""), at, ("chat", "peer"), "unsigned"),
                answered(last.no + 1, at, "ack", "desk"),
            ):
                last, line = following(last, draft_of(row)[0])
                lines.append(line)
        self.write(JOURNAL, b"".join(lines), 0o600)

    def held(self) -> set[str]:
        """What its desk holds."""
        files = [self.path(it) for it in (ROSTER, BASE, STORE)]
        ran = desk.run([PROGRAM, "review", *files, "20260101000000Z"], "", PATIENCE)
        assert ran.returncode == 0, ran
        found = desk.run(["sqlite3", self.path(STORE), "SELECT body FROM messages;"], "", PATIENCE)
        return set(found.stdout.splitlines())

    def backup(self, *more: str, before: tuple[str, ...] = ()) -> desk.Run:
        # (two backups of one second would have one name)
        time.sleep(1.1)
        words = [*before, sys.executable, "-I", os.path.join(TOOLS, "desk-backup")]
        return desk.run([*words, self.backups, "--root", self.root, *more], "", PATIENCE)

    def restore(self, *more: str, before: tuple[str, ...] = (), folder: str = "") -> desk.Run:
        words = [*before, sys.executable, "-I", os.path.join(TOOLS, "desk-restore")]
        words += [folder or self.backups, "--root", self.root, "--desk", PROGRAM]
        return desk.run([*words, *more], "", PATIENCE)

    def lose(self) -> None:
        """The machine is gone; its backups are elsewhere."""
        shutil.rmtree(self.root)
        os.mkdir(self.root)

    def moments(self) -> list[str]:
        return sorted(it for it in os.listdir(self.backups) if MOMENT.fullmatch(it))

    def manifest(self) -> dict[str, object]:
        path = os.path.join(self.backups, self.moments()[-1], "manifest.json")
        with open(path, encoding="utf-8") as file:
            return dict(json.load(file))

    def files(self) -> dict[str, tuple[int, bytes]]:
        """Each file below the root, with its mode and its bytes, but for what restore keeps."""
        found = {}
        for folder, _, names in os.walk(self.root):
            for name in names:
                path = os.path.join(folder, name)
                own = path.removeprefix(self.root)
                if not own.startswith("/var/lib/desk-restore/") and os.path.isfile(path):
                    found[own] = os.stat(path).st_mode & 0o7777, self.read(own)
        return found


def tried(words: list[str]) -> subprocess.CompletedProcess[str]:
    return subprocess.run(words, capture_output=True, text=True, check=False, timeout=PATIENCE)


def made(folder: str, name: str, count: int = 6) -> Room:
    room = Room(os.path.join(folder, name))
    room.furnish(count)
    return room


def said(ran: desk.Run, status: int, *says: str) -> tuple[bool, object]:
    text = ran.stdout + ran.stderr
    return ran.returncode == status and all(re.search(it, text) for it in says), ran

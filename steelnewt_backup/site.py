"""The desk of a machine or of a folder that stands for one: its settings, and its program."""

from __future__ import annotations

import json
import os
import re
import shlex
import shutil
import sqlite3
import tempfile
import tomllib
from collections.abc import Iterable, Iterator
from contextlib import closing
from dataclasses import dataclass
from typing import Any, NamedTuple

from steelnewt_backup import machine
from steelnewt_backup.faults import Failed
from steelnewt_backup.manifest import digest
from steelnewt_client.places import place

# what packaging/desk-serve takes where serve.conf says nothing
DEFAULTS = {
    "ROSTER": "/etc/desk/roster.toml",
    "BASE": "/etc/desk/base.sudo",
    "STORE": "/var/lib/desk/desk.db",
    "ADDR": "unix:/run/desk/desk.sock",
    "SYNC": "once",
}
RELAY = "/etc/desk/relay.toml"


class Answer(NamedTuple):
    """What the desk answers to a message."""

    message: str
    said: str


class Cut(NamedTuple):
    """When messages were cut out of a store, how many, and the digest of the archive with them."""

    moment: str
    archived: int
    sha256: str


def settings_in(path: str) -> dict[str, str]:
    """The settings of serve.conf, as systemd reads the file."""
    found = dict(DEFAULTS)
    try:
        with open(path, encoding="utf-8") as file:
            lines = file.read().splitlines()
    except FileNotFoundError:
        return found
    for line in lines:
        name, equals, value = line.strip().partition("=")
        if equals and name in found:
            found[name] = "".join(shlex.split(value)[:1]) or found[name]
    return found


def toml_of(path: str) -> dict[str, Any]:
    try:
        with open(path, "rb") as file:
            return tomllib.load(file)
    except (OSError, ValueError) as fault:
        raise Failed(f"{path} cannot be read: {fault}") from None


@dataclass(frozen=True)
class Site:
    """A machine's files below `root`, and the desk's program."""

    root: str = ""
    program: str = ""

    @property
    def conf(self) -> dict[str, str]:
        return settings_in(f"{self.root}/etc/desk/serve.conf")

    def path(self, name: str) -> str:
        return self.root + self.conf[name]

    def desk(self) -> str:
        found = self.program or shutil.which("desk")
        if not found:
            raise Failed("there is no program desk: install the package steelnewt")
        return found

    def has_store(self) -> bool:
        return os.path.exists(self.path("STORE"))

    def words(self, verb: str, *more: str) -> list[str]:
        names = (self.path(it) for it in ("ROSTER", "BASE", "STORE"))
        return [self.desk(), verb, *names, *more]

    def run(self, verb: str, *more: str, given: str = "") -> tuple[int, str, str]:
        """A command of the desk, as the account whose the store is."""
        found = os.stat(self.path("STORE"))
        owner = str(found.st_uid), str(found.st_gid)
        # (the input comes from a file: its lines may be many)
        with tempfile.TemporaryFile() as source:
            source.write(given.encode())
            source.seek(0)
            words = self.words(verb, *more)
            ran = machine.run_as(*owner, words, stdin=source)
        return ran.returncode, ran.stdout.decode(), ran.stderr.decode("utf-8", "replace")

    def recorded(self) -> bytes:
        """The roster that the store has, byte for byte."""
        found = self.rows("SELECT roster FROM desk WHERE id = 1")
        if len(found) != 1:
            raise Failed(f"{self.path('STORE')} is no desk's store")
        return found[0]

    def rosters(self) -> set[str]:
        """The digests of the roster that the store has, and of those before it, as the history has
        them. (It is the account's own, so no link in it is followed.)"""
        path = os.path.join(os.path.dirname(self.path("STORE")), "history", "moments")
        found = {digest(self.recorded())}
        try:
            with open(os.open(path, os.O_RDONLY | os.O_NOFOLLOW | os.O_NONBLOCK), "rb") as file:
                rows = [line.split(b" ") for line in file.read().splitlines()]
        except OSError:
            return found
        # (where the store was cut, three words of that stand before the digests)
        return found | {row[-2].decode("ascii", "replace") for row in rows if len(row) in (3, 6)}

    def cuts(self) -> list[Cut]:
        """What was cut out of the store, as the store says (desk-change-roster --cut)."""
        if not self.rows("SELECT name FROM sqlite_schema WHERE type = 'table' AND name = 'cuts'"):
            return []
        rows = self.rows("SELECT moment || ' ' || archived || ' ' || sha256 FROM cuts")
        parts = [it.decode("ascii", "replace").split(" ") for it in rows]
        return [Cut(moment, int(count), sha256) for moment, count, sha256 in parts]

    def archived(self) -> Iterator[str]:
        """The messages that were cut out of the store."""
        folder = os.path.join(os.path.dirname(self.path("STORE")), "archives")
        for it in self.cuts():
            path = os.path.join(folder, f"{it.moment}.messages")
            try:
                with open(os.open(path, os.O_RDONLY | os.O_NOFOLLOW | os.O_NONBLOCK), "rb") as file:
                    text = file.read()
            except FileNotFoundError:
                raise Failed(f"{path} is not there: bring it back, and run it again") from None
            if digest(text) != it.sha256:
                raise Failed(f"{path} is not the archive that the store names")
            yield from text.decode().splitlines()

    def messages(self) -> list[str]:
        """What the store holds, in byte order."""
        rows = self.rows("SELECT body FROM messages ORDER BY body")
        return [it.decode() for it in rows]

    def rows(self, question: str) -> list[bytes]:
        """What a copy of the store says: the store itself is not opened."""
        store = self.path("STORE")
        with tempfile.TemporaryDirectory() as folder:
            copy = os.path.join(folder, "desk.db")
            for end in ("", "-wal"):
                if os.path.exists(store + end):
                    shutil.copyfile(store + end, copy + end)
            try:
                with closing(sqlite3.connect(copy)) as base:
                    base.execute("PRAGMA trusted_schema = off")
                    base.text_factory = bytes
                    return [bytes(row[0]) for row in base.execute(question)]
            except sqlite3.Error as fault:
                raise Failed(f"{store} is no desk's store: {fault}") from None

    def deliver(self, relay: str, messages: Iterable[str]) -> list[Answer]:
        """Gives the store messages that it lacks: the desk reads and admits each as any other."""
        told = list(messages)
        if not told:
            return []
        _, said, why = self.run("deliver", relay, given="".join(f"{it}\n" for it in told))
        answers = said.splitlines()
        if len(answers) != len(told):
            raise Failed(f"the desk does not take messages: {' '.join(why.split())}")
        return [Answer(*it) for it in zip(told, answers, strict=True)]

    def host_file(self, host: str) -> list[str]:
        status, said, why = self.run("print", host)
        if status:
            raise Failed(f"the desk prints no file for {host}: {' '.join(why.split())}")
        return said.splitlines()

    def roster(self) -> dict[str, Any]:
        return toml_of(self.path("ROSTER"))

    def relay(self) -> str:
        """In whose name messages are given to the store: this machine's relay, or the roster's
        first one."""
        names = [str(it) for it in self.roster().get("relays", [])]
        if os.path.exists(self.root + RELAY):
            own = str(toml_of(self.root + RELAY).get("relay", ""))
            if own in names:
                return own
        if not names:
            raise Failed("the roster has no relay")
        return names[0]

    def outbox(self) -> str:
        """The path of the relay's outbox; nothing where this machine has none."""
        if not os.path.exists(self.root + RELAY):
            return ""
        found = self.root + str(toml_of(self.root + RELAY).get("outbox", ""))
        return found if os.path.isfile(found) else ""

    def numbers(self) -> tuple[int, int]:
        """Which numbers this machine's relay may give."""
        first, last = toml_of(self.root + RELAY).get("numbers", [1, 999_999_999])
        return int(first), int(last)


def run_relay(site: Site, *job: str) -> str:
    """What the relay's own program prints about its outbox, as the account whose that is."""
    path = site.outbox()
    found = os.stat(path)
    with tempfile.TemporaryDirectory() as folder:
        os.chmod(folder, 0o755)
        conf = os.path.join(folder, "relay.toml")
        with open(site.root + RELAY, encoding="utf-8") as file:
            text = file.read()
        with open(conf, "w", encoding="utf-8") as file:
            # (below another root, the outbox is there)
            file.write(re.sub(r"(?m)^outbox *=.*$", lambda _: f'outbox = "{path}"', text))
        os.chmod(conf, 0o644)
        words = [place("relays/desk-relay", "bin/desk-relay"), "--config", conf, *job]
        ran = machine.run_as(str(found.st_uid), str(found.st_gid), words)
    if ran.returncode:
        said = " ".join(ran.stderr.decode("utf-8", "replace").split())
        raise Failed(f"the outbox {path}: {said}")
    return ran.stdout.decode()


def name_of(message: str) -> tuple[str, int] | None:
    """The name that a message is about: who asked, and the number."""
    try:
        told = json.loads(message)
        return str(told.get("of", told["by"])), int(told["no"])
    except (ValueError, KeyError, TypeError, AttributeError):
        return None

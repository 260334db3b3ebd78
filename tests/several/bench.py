"""What all parts of the test share: the site, the brokers, the desks, and the count of checks."""

from __future__ import annotations

import os
import pathlib
import subprocess
import sys
import threading
import time

from tests.several.desks import Consumer, Desk, Files
from tests.several.nodes import ROOT, Cluster
from tests.several.plan import Plan
from tests.several.programs import Failure, Programs
from tests.several.relays import environment
from tests.several.sites import BASE, GHOST, RELAYS, Site

COMPARE = ROOT / "broker" / "desk-compare"
CHECK_QUEUES = ROOT / "broker" / "desk-check-queues"
COLUMNS = ("name", "messages", "consumers", "online")


class Checks:
    """How many were made, and how many were wrong. Any thread may check."""

    def __init__(self) -> None:
        self.made = self.wrong = 0
        self._lock = threading.Lock()

    def same(self, what: str, got: object, wanted: object) -> None:
        with self._lock:
            self.made += 1
            if got != wanted:
                self.wrong += 1
                print(f"WRONG {what}: {str(got)[:400]} and not {str(wanted)[:400]}", flush=True)


class Bench:
    """One run's site, cluster and desks, in a folder of its own."""

    def __init__(
        self, plan: Plan, seed: int, program: list[str], folder: pathlib.Path, started: Programs
    ) -> None:
        self.plan, self.folder, self.started = plan, folder, started
        self.begun = time.monotonic()
        self.checks = Checks()
        self.site = Site(seed)
        self.files = Files(program, folder, self.site.roster(), BASE)
        self.passwords = folder / "passwords"
        self.passwords.mkdir(mode=0o700)
        self.cluster = Cluster(folder, started)
        self.plain = {"PATH": os.environ["PATH"], "LANG": "C.UTF-8"}
        self.desks: dict[str, Desk] = {}
        self.consumers: dict[str, Consumer] = {}

    def tell(self, text: str) -> None:
        print(f"{time.monotonic() - self.begun:6.1f} s  {text}", flush=True)

    def account(self, user: str) -> dict[str, str]:
        """The environment of a program with this account at the broker."""
        return environment(self.cluster.addresses(), self.passwords / user)

    def run(self, *words: str, given: bytes = b"") -> subprocess.CompletedProcess[bytes]:
        """A program of this repository, with the modules of the broker's package."""
        whole = [sys.executable, *words]
        own = environment("", self.passwords)
        return subprocess.run(whole, env=own, input=given, capture_output=True, check=False)

    def define(self, desks: list[str]) -> None:
        """Gives the brokers the definitions for these desks, as an operator does."""
        words = ["-m", "desk_broker.definitions", "--desks", *desks, "--relays", *RELAYS, GHOST]
        made = self.run(*words, "--passwords", str(self.passwords))
        if made.returncode != 0:
            raise Failure(f"definitions: {made.stderr[-300:]!r}")
        self.cluster.control("import_definitions", given=made.stdout.decode())

    def new_desk(self, name: str) -> Desk:
        desk = Desk(name, self.files, self.folder, self.started, self.plain)
        self.desks[name] = desk
        return desk

    def new_consumer(self, name: str) -> Consumer:
        account = self.account(f"desk-{name}")
        consumer = Consumer(self.desks[name], self.started, account, self.folder)
        self.consumers[name] = consumer
        return consumer

    def listing(self, name: str) -> pathlib.Path:
        """A file with the messages of a desk's store, by the program that an operator uses."""
        made = self.run("-m", "desk_broker.snapshot", str(self.desks[name].store))
        if made.returncode != 0:
            raise Failure(f"snapshot of desk {name}: {made.stderr[-300:]!r}")
        path = self.folder / f"{name}.messages"
        path.write_bytes(made.stdout)
        return path

    def fill(self, name: str, lines: bytes) -> str:
        """Posts these messages to the desk, by the program that an operator uses."""
        words = ["-m", "desk_broker.fill", self.desks[name].address, RELAYS[0]]
        ran = self.run(*words, given=lines)
        said = ran.stdout.decode().strip()
        self.checks.same(f"desk {name} is filled: {said} {ran.stderr[-200:]!r}", ran.returncode, 0)
        return said

    def publish(self, words: list[str], bodies: list[bytes]) -> set[str]:
        """What a relay's program says of these messages."""
        given = b"".join(body + b"\n" for body in bodies)
        account = self.account(f"relay-{RELAYS[0]}")
        ran = subprocess.run(words, env=account, input=given, capture_output=True, check=False)
        return set(ran.stdout.decode().splitlines())

    def compare(self, *words: str) -> tuple[int, str]:
        ran = self.run(str(COMPARE), *words)
        return ran.returncode, (ran.stdout + ran.stderr).decode()

    def check_queues(self) -> list[str]:
        """What the check of the queues says."""
        rows = self.cluster.control("list_queues", *COLUMNS, "--formatter", "json")
        return self.run(str(CHECK_QUEUES), given=rows.encode()).stdout.decode().splitlines()

    def addresses(self) -> list[str]:
        return [desk.address for desk in self.desks.values()]

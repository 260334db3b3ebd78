"""Desks, each with its consumer, and what they are asked over HTTP."""

from __future__ import annotations

import contextlib
import hashlib
import http.client
import pathlib
import re
import signal
import socket
import subprocess
import sys
import threading
import time

from desk_broker import snapshot
from tests.several.programs import Failure, Program, Programs, wait_until
from tests.several.sites import RELAYS

LAG = re.compile(r"the longest lag ([0-9.]+) s")


class SocketConnection(http.client.HTTPConnection):
    """A connection to the socket of a path."""

    def __init__(self, path: str) -> None:
        super().__init__("localhost", timeout=60)
        self._path = path

    def connect(self) -> None:
        self.sock = socket.socket(socket.AF_UNIX)
        self.sock.settimeout(self.timeout)
        self.sock.connect(self._path)


class Files:
    """The program and the two files that all desks have in common."""

    def __init__(self, program: list[str], folder: pathlib.Path, roster: str, base: str) -> None:
        self.program = program
        self.roster, self.base = folder / "roster.toml", folder / "base.sudo"
        self.roster.write_text(roster)
        self.base.write_text(base)


class Desk:
    """A desk over a store of its own, at one socket, however often it is started."""

    def __init__(
        self, name: str, files: Files, folder: pathlib.Path, started: Programs,
        environment: dict[str, str],
    ) -> None:
        self.name, self._files = name, files
        self.socket = folder / f"desk-{name}.sock"
        self.folder = folder / name
        self.folder.mkdir(exist_ok=True)
        self.store = self.folder / "desk.db"
        words = [
            *files.program, "serve", str(files.roster), str(files.base), str(self.store),
            self.address,
        ]
        log = folder / f"desk-{name}.out"
        self.program = started.add(Program(f"desk {name}", words, environment, log))
        self.lock = threading.Lock()  # whoever ends it and starts it again has this

    @property
    def address(self) -> str:
        return f"unix:{self.socket}"

    def connected(self, seconds: float) -> socket.socket:
        """A connection to it."""
        peer = socket.socket(socket.AF_UNIX)
        peer.settimeout(seconds)
        try:
            peer.connect(str(self.socket))
        except OSError:
            peer.close()
            raise
        return peer

    def is_listening(self) -> bool:
        with contextlib.suppress(OSError), self.connected(1):
            return True
        return False

    def start(self) -> None:
        """Starts it, and again where it ends at once, as a unit with Restart=always does."""
        self.program.start()
        until = time.monotonic() + 180
        while not self.is_listening():
            if not self.program.is_running():
                time.sleep(0.3)
                self.program.start()
            if time.monotonic() > until:
                raise Failure(f"desk {self.name} does not listen: {self.program.text()[-300:]}")
            time.sleep(0.05)

    def restart(self, how: signal.Signals, pause: float = 0.5) -> None:
        with self.lock:
            self.program.end(how)
            time.sleep(pause)
            self.start()

    def lose_store(self) -> None:
        """The desk is killed, and what it kept is gone; it starts with nothing."""
        with self.lock:
            self.program.end(signal.SIGKILL)
            for path in self.folder.iterdir():
                path.unlink()
            self.start()

    def held(self) -> set[bytes]:
        """The messages of its store."""
        return {body.encode() for body in snapshot.messages(self.store)}

    def get(self, target: str) -> bytes:
        client = SocketConnection(str(self.socket))
        client.request("GET", target)
        reply = client.getresponse()
        body = reply.read()
        client.close()
        if reply.status != 200:
            raise Failure(f"desk {self.name}: {target}: {reply.status} {body[:80]!r}")
        return body

    def count(self) -> int:
        """How many messages it says that it holds."""
        return int(self.get("/v1/count").split()[0])

    def in_flight(self) -> int:
        """How many connections to its socket are there (unix(7): those that were made have the path
        at which the listener was made; a desk makes it with a ~, and renames it)."""
        lines = pathlib.Path("/proc/net/unix").read_text(encoding="utf-8").splitlines()
        return sum(line.endswith((f" {self.socket}", f" {self.socket}~")) for line in lines) - 1

    def digests(self, hosts: list[str], moments: list[str]) -> dict[str, str]:
        """The digest of every host's file, of what is parked, and of the reports."""
        targets = [f"/v1/hosts/{host}/sudoers" for host in hosts]
        targets += [f"/v1/reviews/{moment}" for moment in moments] + ["/v1/parked"]
        return {target: hashlib.sha256(self.get(target)).hexdigest() for target in targets}


class Consumer:
    """The consumer of a desk."""

    def __init__(
        self, desk: Desk, started: Programs, environment: dict[str, str], folder: pathlib.Path
    ) -> None:
        own = {"DESK_NAME": desk.name, "DESK_URL": desk.address, "TELL_EVERY": "5"}
        words = [sys.executable, "-m", "desk_broker.consume"]
        log = folder / f"consume-{desk.name}.out"
        name = f"consumer {desk.name}"
        self.program = started.add(Program(name, words, environment | own, log))
        self.lock = threading.Lock()

    def start(self) -> None:
        self.program.start()

    def restart(self, how: signal.Signals, pause: float = 0.5) -> None:
        with self.lock:
            self.program.end(how)
            time.sleep(pause)
            self.start()

    def longest_lag(self) -> float:
        return max(map(float, LAG.findall(self.program.text())), default=0.0)


def deliver(
    files: Files, store: pathlib.Path, bodies: list[bytes], environment: dict[str, str]
) -> list[str]:
    """What one `deliver` of all bodies answers to each."""
    words = [*files.program, "deliver", str(files.roster), str(files.base), str(store), RELAYS[0]]
    given = b"".join(body + b"\n" for body in bodies)
    ran = subprocess.run(words, env=environment, input=given, capture_output=True, check=False)
    answers = ran.stdout.decode().splitlines()
    if len(answers) != len(bodies):
        raise Failure(f"deliver: {len(answers)} answers, {ran.stderr[:300]!r}")
    return answers


def wait_for_stores(desks: list[Desk], wanted: set[bytes], seconds: float) -> float:
    """Waits until each desk holds these messages at least; how long it took."""
    left = list(desks)

    def is_done() -> bool:
        while left and wanted <= left[0].held():
            left.pop(0)
        return not left

    try:
        return wait_until("each desk holds what was confirmed", is_done, seconds, 0.05)
    except Failure as error:
        lacking = ", ".join(f"{desk.name} {len(wanted - desk.held())}" for desk in left)
        raise Failure(f"{error}; lacking: {lacking}") from error

"""Relays that publish at a pace, each by a `desk_broker.publish` of its own."""

from __future__ import annotations

import os
import pathlib
import subprocess
import sys
import threading
import time
from collections import deque

from tests.several.programs import Failure
from tests.several.sites import Post

PATIENCE = "60"
ROOT = pathlib.Path(__file__).resolve().parents[2]


class Relay(threading.Thread):
    """Publishes its messages, one a line, and again what was not confirmed."""

    def __init__(
        self, name: str, posts: list[Post], pace: float, environment: dict[str, str],
        log: pathlib.Path,
    ) -> None:
        super().__init__(name=f"relay {name}", daemon=True)
        self.relay, self._posts, self._pace = name, posts, pace
        self._environment, self._log = environment, log
        self.confirmed: list[Post] = []
        self.not_confirmed = 0
        self.first_at = float("inf")  # when the first was confirmed
        self.fault: str | None = None
        self._waiting: deque[Post] = deque()
        self._again: deque[Post] = deque()

    def run(self) -> None:
        words = [sys.executable, "-m", "desk_broker.publish", self.relay, "--patience", PATIENCE]
        with open(self._log, "ab") as log, subprocess.Popen(
            words, env=self._environment, stdin=subprocess.PIPE, stdout=subprocess.PIPE, stderr=log
        ) as process:
            reader = threading.Thread(target=self._read, args=(process,), daemon=True)
            reader.start()
            try:
                self._feed(process)
                reader.join(300)
            except OSError as error:
                self.fault = f"relay {self.relay}: {error}"
            finally:
                process.kill()
        if self._waiting or self._again:
            self.fault = f"relay {self.relay}: {len(self._waiting)} were not answered"

    def _feed(self, process: subprocess.Popen[bytes]) -> None:
        assert process.stdin is not None
        begun = time.monotonic()
        for number, post in enumerate(self._posts):
            self._give(process, post)
            if self._pace:
                time.sleep(max(0.0, begun + number / self._pace - time.monotonic()))
        until = time.monotonic() + 300
        while (self._waiting or self._again) and time.monotonic() < until:
            while self._again:
                self._give(process, self._again.popleft())
            time.sleep(0.05)
        process.stdin.close()

    def _give(self, process: subprocess.Popen[bytes], post: Post) -> None:
        assert process.stdin is not None
        self._waiting.append(post)
        process.stdin.write(post.body + b"\n")
        process.stdin.flush()

    def _read(self, process: subprocess.Popen[bytes]) -> None:
        assert process.stdout is not None
        for line in process.stdout:
            post = self._waiting.popleft()
            self.first_at = min(self.first_at, time.monotonic())
            if line == b"confirmed\n":
                self.confirmed.append(post)
            else:
                self.not_confirmed += 1
                self._again.append(post)


class Traffic:
    """All relays of a list of messages; together they publish so many a second."""

    def __init__(
        self, posts: list[Post], pace: float, environments: dict[str, dict[str, str]],
        folder: pathlib.Path,
    ) -> None:
        self.relays = []
        for name, environment in environments.items():
            own = [post for post in posts if post.relay == name]
            share = pace * len(own) / max(1, len(posts))
            log = folder / f"relay-{name}.out"
            self.relays.append(Relay(name, own, share, environment, log))

    def start(self) -> None:
        for relay in self.relays:
            relay.start()

    def is_going(self) -> bool:
        return any(relay.is_alive() for relay in self.relays)

    def join(self, seconds: float) -> None:
        until = time.monotonic() + seconds
        for relay in self.relays:
            relay.join(max(0.1, until - time.monotonic()))
            if relay.is_alive():
                raise Failure(f"{relay.name} does not end")
            if relay.fault:
                raise Failure(relay.fault)

    def confirmed(self) -> list[Post]:
        return [post for relay in self.relays for post in relay.confirmed]


def environment(broker: str, password: pathlib.Path) -> dict[str, str]:
    """What a program of the package `desk_broker` is told."""
    return {
        "PATH": os.environ["PATH"],
        "LANG": "C.UTF-8",
        "PYTHONPATH": f"{ROOT}:{ROOT / 'broker'}",
        "PYTHONDONTWRITEBYTECODE": "1",
        "PYTHONUNBUFFERED": "1",
        "BROKERS": broker,
        "BROKER_PASSWORD_FILE": str(password),
    }

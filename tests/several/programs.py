"""Programs that the test starts, kills by their process ids, and starts again."""

from __future__ import annotations

import contextlib
import os
import pathlib
import signal
import socket
import subprocess
import time
from collections.abc import Callable, Iterator


class Failure(Exception):
    """The test cannot go on."""


def is_listening(port: int) -> bool:
    with contextlib.suppress(OSError), socket.create_connection(("127.0.0.1", port), 1):
        return True
    return False


def wait_until(what: str, is_so: Callable[[], bool], seconds: float, step: float = 0.1) -> float:
    """Waits for it; how long it took."""
    begun = time.monotonic()
    while not is_so():
        if time.monotonic() - begun > seconds:
            raise Failure(f"after {seconds:g} s still not so: {what}")
        time.sleep(step)
    return time.monotonic() - begun


class Program:
    """One program, which has a process most of the time. Its output goes to a file. It runs in the
    folder, where one is given."""

    def __init__(
        self,
        name: str,
        words: list[str],
        environment: dict[str, str],
        log: pathlib.Path,
        folder: pathlib.Path | None = None,
    ) -> None:
        self.name, self.log, self._folder = name, log, folder
        self._words, self._environment = words, environment
        self._process: subprocess.Popen[bytes] | None = None
        self.kills = 0

    def start(self) -> None:
        with open(self.log, "ab") as log:
            self._process = subprocess.Popen(
                self._words,
                cwd=self._folder,
                env=self._environment,
                stdin=subprocess.DEVNULL,
                stdout=log,
                stderr=subprocess.STDOUT,
                start_new_session=True,
            )

    def is_running(self) -> bool:
        return self._process is not None and self._process.poll() is None

    def hears(self, what: signal.Signals) -> bool:
        """Whether it handles a signal by itself by now."""
        status = pathlib.Path(f"/proc/{self._process.pid}/status").read_text(encoding="utf-8")
        caught = next(it.split()[1] for it in status.splitlines() if it.startswith("SigCgt:"))
        return bool(int(caught, 16) >> (what - 1) & 1)

    def end(self, how: signal.Signals, patience: float = 120.0) -> int:
        """Sends its process the signal, and gives the status that it ended with."""
        if self._process is None:
            return 0
        if self.is_running():
            os.kill(self._process.pid, how)
            self.kills += how is signal.SIGKILL
        try:
            return self._process.wait(patience)
        except subprocess.TimeoutExpired as error:
            raise Failure(f"{self.name} does not end by {how.name}") from error

    def send(self, what: signal.Signals) -> None:
        if self._process is not None and self.is_running():
            os.kill(self._process.pid, what)

    def processor(self) -> float:
        """The seconds of processor time that its process took; the machine's load is not in it."""
        if self._process is None:
            return 0.0
        text = pathlib.Path(f"/proc/{self._process.pid}/stat").read_text(encoding="utf-8")
        user, system = text.rpartition(")")[2].split()[11:13]
        return (int(user) + int(system)) / os.sysconf("SC_CLK_TCK")

    def text(self) -> str:
        with contextlib.suppress(FileNotFoundError):
            return self.log.read_text(encoding="utf-8", errors="replace")
        return ""


class Programs:
    """All programs of a test; at its end none of their processes is left."""

    def __init__(self) -> None:
        self._all: list[Program] = []

    def add(self, program: Program) -> Program:
        self._all.append(program)
        return program

    def end_all(self) -> None:
        for program in reversed(self._all):
            with contextlib.suppress(Failure, ProcessLookupError):
                program.end(signal.SIGKILL)


@contextlib.contextmanager
def programs() -> Iterator[Programs]:
    started = Programs()
    try:
        yield started
    finally:
        started.end_all()

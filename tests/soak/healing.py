#!/usr/bin/env python3
"""A served desk whose storage fails and comes back: nobody restarts it, and it goes on.

The package's `desk-serve` runs the desk. While peers post and ask, a call on the store's file fails
(a write, a read, a sync), once or for a while; another program locks the file while the desk is
opened again; the file is gone; the desk is to take another roster meanwhile, or is killed then and
started again. Each time the desk answers posts and questions again at most 5 s after the fault's
end, without what a busy machine adds, and what it acknowledged is there. A store that is gone is
never begun anew.

`python3 -m tests.soak.healing WORDS..` runs another program than build/desk; `--only PART..` before
them tries some of the parts, and `--whole` more places.
"""

from __future__ import annotations

import contextlib
import hashlib
import os
import signal
import sqlite3
import subprocess
import sys
import tempfile
import threading
import time
from collections.abc import Callable, Iterator

from tests.common import desk, store_files
from tests.common.stalls import Machine
from tests.common.tally import PATIENCE, Count, program, try_parts
from tests.soak.failing import CALL, CALLS, Plan

SERVE = os.path.join(desk.ROOT, "packaging", "desk-serve")
LISTED = desk.asked(b"GET", b"/v1/messages")
ACK = b"\r\n\r\nack\n"
MOST = 5.0 * max(1.0, PATIENCE / 60)  # seconds after a fault's end
LASTS = 1.5  # seconds of a fault
ORDERED = 6  # another roster is taken in fewer calls on the store's files
KILLS = 40  # of a desk, each a millisecond later after an order to take a roster
ORDER = "has the desk take the roster "  # what desk-serve says as it orders


class Service:
    """`desk-serve` over a store and a desk whose calls on files fail as planned."""

    def __init__(self, words: list[str], folder: str, roster: str) -> None:
        self.plan = Plan(folder)
        self.store = os.path.join(folder, "desk.db")
        self.address = f"unix:{folder}/desk.sock"
        shim = self.plan.environment
        held = "".join(f"export {name}='{shim[name]}'\n" for name in ("LD_PRELOAD", "FAIL_IO"))
        text = f"#!/bin/sh\n{held}exec {' '.join(words)} \"$@\"\n"
        name = desk.write(folder, "failing-desk", text)
        os.chmod(name, 0o755)
        held_by = {"DESK": name, "ROSTER": roster, "BASE": desk.BASE}
        self.environment = {**os.environ, **held_by, "STORE": self.store, "ADDR": self.address}
        self.log = open(os.path.join(folder, "log"), "w+", encoding="utf-8")
        self.process = self.started()

    def started(self) -> subprocess.Popen[bytes]:
        out, err = self.log, subprocess.STDOUT
        return subprocess.Popen([SERVE], env=self.environment, stdout=out, stderr=err)

    def ask(self, given: bytes) -> bytes:
        """The reply; nothing where nobody answers."""
        with contextlib.suppress(OSError), desk.connected(self.address, PATIENCE) as peer:
            peer.sendall(given)
            return desk.received(peer)
        return b""

    def post(self, body: str) -> bool:
        return self.ask(desk.posted(b"chat", body.encode())).endswith(ACK)

    def said(self) -> str:
        self.log.flush()
        with open(self.log.name, encoding="utf-8") as file:
            return file.read()

    def last(self) -> str:
        """The end of what it said."""
        return self.said()[-400:]

    def end(self) -> int:
        self.process.send_signal(signal.SIGTERM)
        return self.process.wait(PATIENCE)

    def close(self) -> None:
        if self.process.poll() is None:
            self.end()
        self.log.close()


@contextlib.contextmanager
def serving(words: list[str], roster: str = desk.ROSTER) -> Iterator[Service]:
    with tempfile.TemporaryDirectory(dir=desk.MEMORY) as folder:
        service = Service(words, folder, roster)
        try:
            yield service
        finally:
            service.close()


def comes(
    holds: Callable[[], bool], seconds: float, machine: Machine | None = None
) -> float | None:
    """How long it took until this held; None where it did not in time. Given a machine, what that
    took is left out."""
    begun = time.monotonic()
    mark = machine.mark() if machine else None
    while (
        gone := machine.since(mark) if machine and mark else time.monotonic() - begun
    ) <= seconds:
        if holds():
            return gone
        time.sleep(0.02)
    return None


class Load:
    """Peers that post and ask all the time; `acked` are the posts that were acknowledged."""

    def __init__(self, service: Service) -> None:
        self.service, self.acked = service, list[str]()
        self._ended = threading.Event()
        self._threads = [threading.Thread(target=self._post), threading.Thread(target=self._ask)]

    def __enter__(self) -> Load:
        for each in self._threads:
            each.start()
        return self

    def __exit__(self, *_: object) -> None:
        self._ended.set()
        for each in self._threads:
            each.join()

    def _post(self) -> None:
        number = 100
        while not self._ended.is_set():
            body = desk.request(number)
            if self.service.post(body):
                self.acked.append(body)
                number += 1
            else:
                time.sleep(0.05)

    def _ask(self) -> None:
        while not self._ended.is_set():
            self.service.ask(desk.asked(b"GET", b"/v1/parked"))
            time.sleep(0.02)


def heals(count: Count, title: str, service: Service, acked: list[str], number: int) -> None:
    """The desk answers again in time, without a person, and has all that it acknowledged."""
    body = desk.approval(number)
    with Machine(service.process.pid, *below(service.process.pid)) as machine:
        took = comes(lambda: service.post(body), MOST, machine)
    count.holds(f"{title}: posts are taken again in {MOST:.0f} s", took is not None, service.last())
    listed = service.ask(LISTED)
    found = {*listed.partition(b"\r\n\r\n")[2].decode().splitlines()}
    is_whole = listed.startswith(b"HTTP/1.1 200 OK\r\n") and {*acked, body} <= found
    count.holds(f"{title}: what was acknowledged", is_whole, listed[:80])


def below(process: int) -> list[int]:
    """The processes that this one has started, those that they have, and so on."""
    with contextlib.suppress(OSError):
        with open(f"/proc/{process}/task/{process}/children", encoding="ascii") as file:
            children = [int(word) for word in file.read().split()]
        return [it for child in children for it in (child, *below(child))]
    return []


def desks(process: int) -> list[int]:
    """The desks that serve below this process."""
    found = []
    for each in below(process):
        with contextlib.suppress(OSError), open(f"/proc/{each}/cmdline", "rb") as file:
            if b"serve" in file.read().split(b"\0"):
                found.append(each)
    return found


def begin(count: Count, service: Service) -> str:
    """The message that it holds, once it serves."""
    body = desk.request(7)
    took = comes(lambda: service.post(body), PATIENCE)
    count.holds("it serves", took is not None, service.last())
    return body


def fail_calls(count: Count, words: list[str], step: int) -> None:
    """A call on the file fails under load, once, or all calls do for a while."""
    restarts = 0
    with serving(words) as service:
        acked = [begin(count, service)]
        for number, place in enumerate(range(1, 25, step), 1):
            for what in (CALL, CALLS):
                with Load(service) as load:
                    time.sleep(0.1)
                    service.plan.set(what, place)
                    comes(lambda: service.plan.failures() > 0, PATIENCE)
                    time.sleep(LASTS if what == CALLS else 0)
                    service.plan.clear()
                    title = f"call {place} fails, {'once' if what == CALL else 'and all after it'}"
                    heals(count, title, service, [*acked, *load.acked], 8 + 2 * number + what)
                acked += load.acked
        restarts = service.said().count("it is opened again in ")
        count.same("the service ends", service.end(), 0)
        held = store_files.read(service.store)[1]
        count.holds("the file has what was acknowledged", {*acked} <= {*held}, len(held))
    count.holds("it was opened again", restarts > 0, restarts)
    print(f"{len(acked)} messages were acknowledged; it was opened again {restarts} times")


def shut(count: Count, service: Service) -> None:
    """All calls on files fail from one on that shuts the store; it cannot be opened again."""
    for place in range(1, 25):
        service.plan.set(CALLS, place)
        service.post(desk.approval(100 + place))
        with Machine(service.process.pid, *below(service.process.pid)) as machine:
            is_shut = comes(lambda: "it is opened again in " in service.said(), LASTS, machine)
        if is_shut is not None:
            return
        service.plan.clear()
    count.holds("the desk ends", False, service.last())


def lock(count: Count, words: list[str], _: int) -> None:
    """Another program locks the file while the desk is to be opened again."""
    with serving(words) as service:
        acked = [begin(count, service)]
        shut(count, service)
        other = sqlite3.connect(service.store, isolation_level=None)
        other.execute("BEGIN EXCLUSIVE")
        service.plan.clear()
        refused = comes(lambda: "F1 FileFailed: " in service.said(), PATIENCE)
        count.holds("it cannot be opened", refused is not None, service.last())
        other.execute("ROLLBACK")
        other.close()
        heals(count, "the lock is gone", service, acked, 8)


def gone(count: Count, words: list[str], _: int) -> None:
    """The file is gone while the desk is to be opened again: no other is begun in its place."""
    with serving(words) as service:
        begin(count, service)
        shut(count, service)
        for end in ("", "-wal", "-shm"):
            with contextlib.suppress(FileNotFoundError):
                os.unlink(service.store + end)
        service.plan.clear()
        count.same("it ends, for a person to look", service.process.wait(PATIENCE), 2)
        count.same("a new store", os.path.exists(service.store), False)
        count.holds("it says so", f"{service.store} is gone" in service.said(), service.last())


def order(count: Count, service: Service, text: str, place: int) -> None:
    """The roster's file has this text now. The desk is to take it while calls on the store's file
    fail, from this one on, for a while."""
    begun, told = len(service.said()), f", roster {hashlib.sha256(text.encode()).hexdigest()}"

    def is_taken() -> bool:
        return told in service.said()[begun:]

    service.plan.set(CALLS, place)
    service.process.send_signal(signal.SIGHUP)
    comes(lambda: is_taken() or "the roster stays: " in service.said()[begun:], PATIENCE)
    time.sleep(LASTS)
    service.plan.clear()
    if comes(is_taken, MOST) is None:  # (the storage was back before the desk ended)
        service.process.send_signal(signal.SIGHUP)
    is_there = comes(is_taken, PATIENCE) is not None
    count.holds(f"call {place} fails: the roster is taken at last", is_there, service.last())


def ordered(count: Count, words: list[str], step: int) -> None:
    """The storage fails while the desk takes another roster: the desk has it once the storage is
    back, and nobody has to rebuild the store."""
    shown = desk.read("examples", "roster.toml")
    with tempfile.TemporaryDirectory(dir=desk.MEMORY) as room:
        roster = desk.write(room, "roster.toml", shown)
        with serving(words, roster) as service:
            acked = [begin(count, service)]
            for number, place in enumerate(range(1, 25 if step == 1 else ORDERED)):
                text = f"{shown}# {number}\n"
                desk.write(room, "roster.toml", text)
                order(count, service, text, place)
                heals(count, f"call {place} fails at a roster", service, acked, 300 + number)
            carried_out = service.said().count("gives the store the roster ")
            count.holds("an order was carried out later", carried_out > 0, service.last())
            count.same("the service ends", service.end(), 0)


def killed(count: Count, words: list[str], step: int) -> None:
    """The desk is killed while it takes another roster, and its service is started again, as
    systemd does that: the desk has the roster, and nobody has to rebuild the store."""
    shown = desk.read("examples", "roster.toml")
    with tempfile.TemporaryDirectory(dir=desk.MEMORY) as room:
        roster = desk.write(room, "roster.toml", shown)
        with serving(words, roster) as service:
            acked = [begin(count, service)]
            for number in range(0, KILLS, step):
                text, begun = f"{shown}# {number}\n", len(service.said())
                desk.write(room, "roster.toml", text)
                service.process.send_signal(signal.SIGHUP)
                comes(lambda at=begun: ORDER in service.said()[at:], PATIENCE)
                time.sleep(number / 1000)
                for serving_desk in desks(service.process.pid):
                    with contextlib.suppress(ProcessLookupError):
                        os.kill(serving_desk, signal.SIGKILL)
                title = f"killed {number} ms after an order"
                count.same(title, service.process.wait(PATIENCE), 128 + signal.SIGKILL)
                service.process = service.started()
                heals(count, title, service, acked, 600 + number)
                told = f", roster {hashlib.sha256(text.encode()).hexdigest()}"
                count.holds(f"{title}: it serves the roster", told in service.said(), told)


PARTS = (fail_calls, lock, gone, ordered, killed)


def main() -> int:
    words = sys.argv[1:]
    is_whole = "--whole" in words[:1]
    parts, words = try_parts(PARTS, words[is_whole:])
    count = Count()
    for part in parts:
        begun = time.monotonic()
        part(count, program(words) or desk.PROGRAM, 1 if is_whole else 5)
        print(f"{part.__name__}: {time.monotonic() - begun:.0f} seconds", flush=True)
    print(f"{count.tried} things were tried of a storage that heals: {count.wrong} went otherwise")
    return 1 if count.wrong else 0


if __name__ == "__main__":
    sys.exit(main())

#!/usr/bin/env python3
"""A served desk takes one roster after the other while it is asked and posted to.

The package's `desk-serve` runs the desk. Peers post and ask over connections of their own, some of
which stay open from before a change to behind it. Each answer is the one of the roster that was
served before or after, the one that its count names; none is between, and none is of an earlier
one. No connection breaks, what was acknowledged is there at the end, and the history has each
roster in its order. All of it is one process, which listens once.

`python3 -m tests.soak.rosters WORDS..` runs another program than build/desk; CHANGES of the
environment says how many rosters there are (30).
"""

from __future__ import annotations

import hashlib
import http.client
import os
import signal
import socket
import sys
import tempfile
import threading
import time

from tests.common import desk
from tests.common.tally import PATIENCE, Count, program
from tests.peers.peers_site import Served, site_of
from tests.soak.healing import comes

CHANGES = int(os.environ.get("CHANGES", "30"))
ASKERS = 2
EXCHANGES = 40  # over one connection, of those that stay open
STATE = "/v1/hosts/db1/at/20260105093000Z"
SHOWN = desk.read("examples", "roster.toml")


def text_of(number: int) -> str:
    """Under each other one of the rosters the grant has lapsed."""
    longest = 7_200 if number % 2 == 0 else 60
    return SHOWN.replace("longest = 7200", f"longest = {longest}") + f"# {number}\n"


def digest_of(text: str) -> str:
    return hashlib.sha256(text.encode()).hexdigest()


class Local(http.client.HTTPConnection):
    """A connection to a socket."""

    def __init__(self, path: str) -> None:
        super().__init__("desk", timeout=PATIENCE)
        self.path = path

    def connect(self) -> None:
        self.sock = socket.socket(socket.AF_UNIX)
        self.sock.settimeout(PATIENCE)
        self.sock.connect(self.path)


class Load:
    """What is asked and posted meanwhile, and what is wrong with the answers."""

    def __init__(self, served: Served) -> None:
        self.path = served.address.removeprefix("unix:")
        self.numbers = {digest_of(SHOWN): -1}
        # the roster that was ordered last, and the last that is known to be served
        self.ordered = self.taken = -1
        self.wrong: list[str] = []
        self.broken: list[str] = []
        self.acked: list[str] = []
        self.asked, self.slowest = 0, 0.0
        self.ended = threading.Event()
        self.threads = [threading.Thread(target=self.ask) for _ in range(ASKERS)]
        self.threads.append(threading.Thread(target=self.post))

    def ask(self) -> None:
        while not self.ended.is_set():
            peer = Local(self.path)
            try:
                for _ in range(EXCHANGES):
                    self.exchange(peer)
                    if self.ended.is_set():
                        break
            except (OSError, http.client.HTTPException) as fault:
                self.broken.append(repr(fault))
            peer.close()

    def exchange(self, peer: Local) -> None:
        first, begun = self.taken, time.monotonic()
        peer.request("GET", STATE)
        whole = peer.getresponse().read().decode()
        last, self.slowest = self.ordered, max(self.slowest, time.monotonic() - begun)
        count, _, file = whole.partition("\n")
        number = self.numbers.get(count.split(" ")[1])
        self.asked += 1
        if number is None or not first <= number <= last:
            self.wrong.append(f"an answer by {number}, and not by {first} to {last}")
        elif ("ann" in file) != (number % 2 == 0 or number < 0):
            self.wrong.append(f"the file of another roster than {number}, which is named: {file}")

    def post(self) -> None:
        number = 100
        while not self.ended.is_set():
            body = desk.request(number, by="carol")
            try:
                peer = Local(self.path)
                peer.request("POST", "/v1/relays/chat/messages", body.encode())
                said = peer.getresponse().read()
                peer.close()
            except (OSError, http.client.HTTPException) as fault:
                self.broken.append(repr(fault))
                continue
            if said == b"ack\n":
                self.acked.append(body)
                number += 1
            elif not said.startswith(b"A7 "):  # (the shorter window does not admit it)
                self.wrong.append(repr(said))

    def __enter__(self) -> Load:
        for each in self.threads:
            each.start()
        return self

    def __exit__(self, *_: object) -> None:
        self.ended.set()
        for each in self.threads:
            each.join()


def change(load: Load, served: Served, number: int) -> bool:
    """Another roster; whether the desk says that it serves it."""
    text, begun = text_of(number), len(served.said())
    desk.write(os.path.dirname(served.roster), "roster.toml", text)
    load.numbers[digest_of(text)] = number
    load.ordered = number
    assert served.process is not None
    served.process.send_signal(signal.SIGHUP)
    told = f", roster {digest_of(text)}"
    took = comes(lambda: told in served.said()[begun:], PATIENCE)
    load.taken = number
    return took is not None


def main() -> int:
    words, count = program(sys.argv[1:]) or desk.PROGRAM, Count()
    with tempfile.TemporaryDirectory(dir=desk.MEMORY) as folder, site_of(words, folder) as served:
        served.start()
        count.holds("it serves", comes(served.file, PATIENCE) is not None, served.said())
        for body in (desk.request(), desk.approval()):
            served.post(body)
        begun = time.monotonic()
        with Load(served) as load:
            for number in range(CHANGES):
                is_taken = change(load, served, number)
                count.holds(f"roster {number} is taken", is_taken, served.said()[-600:])
        took = time.monotonic() - begun
        held = {*listed(load).splitlines()}
        count.same("wrong answers", load.wrong[:3], [])
        count.same("connections that broke", load.broken[:3], [])
        count.same("acknowledged and lost", {*load.acked} - held, set[str]())
        count.same("it was opened once", served.said().count("listening at"), 1)
        history = desk.read(os.path.dirname(served.store), "history", "moments").splitlines()
        wanted = [digest_of(it) for it in (SHOWN, *map(text_of, range(CHANGES)))]
        count.same("the history", [it.split(" ")[1] for it in history] == wanted, True)
    print(
        f"{CHANGES} rosters in {took:.0f} s: {load.asked} questions (the longest {load.slowest:.2f}"
        f" s), {len(load.acked)} acknowledged; {count.tried} things were tried:"
        f" {count.wrong} went otherwise"
    )
    return 1 if count.wrong else 0


def listed(load: Load) -> str:
    peer = Local(load.path)
    peer.request("GET", "/v1/messages")
    return peer.getresponse().read().decode()


if __name__ == "__main__":
    sys.exit(main())

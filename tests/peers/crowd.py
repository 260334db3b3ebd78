#!/usr/bin/env python3
"""`desk serve` beside crowds: no honest peer is dropped, and none waits past two seconds.

Forty peers ask for a large file, and a message that is posted behind them does not wait for their
sum. Then 3,000 peers of five kinds, each of which comes back when it is dropped: they send nothing,
drip a byte each half second, send half a request, read a large file a little at a time, or go on
sending once they are answered; beside them, honest peers ask and post, some at once and some three
seconds after they connected. For twelve seconds, or a minute with `--whole`. Further words name
another program than build/desk. What a busy machine adds to a time is left out: for how long this
process stood still, and the desk waited for a processor; and where the desk had to wait for one, it
may be as much slower as that made it, up to three times.
"""

import asyncio
import contextlib
import math
import os
import resource
import socket
import struct
import subprocess
import sys
import tempfile
import threading
import time
from collections.abc import Awaitable, Callable

from tests.common import desk
from tests.common.stalls import Machine

MOST_WAIT = 2.0
# how much slower than by itself a desk may be at the most: past that, a wait says nothing of it
MOST_SLOW = 3.0
SHORT, WHOLE = 12, 60
# how many peers of each kind there are
SILENT, DRIPPING, STALLED, SLOW, LATE = 900, 900, 600, 40, 560
DESCRIPTORS = 8_192
# A file of 3.3 MB, which is more than the kernel keeps of a reply.
GRANTS, COMMANDS = 230, 14
FILE = desk.asked(b"GET", b"/v1/hosts/db1/sudoers")
PARKED = desk.asked(b"GET", b"/v1/parked")
LATER = 3.0

Streams = tuple[asyncio.StreamReader, asyncio.StreamWriter]
Behaviour = Callable[[asyncio.StreamReader, asyncio.StreamWriter], Awaitable[None]]


def long_request(number: int) -> bytes:
    """A request of commands of 940 bytes."""
    words = " ".join(["y" * 60] * 15)
    commands = [f"/usr/local/sbin/{number:03}-{at:02} {words}" for at in range(COMMANDS)]
    return desk.request(number, cmnds=commands).encode()


# ---- the crowd, in a process of its own


async def until_dropped(reader: asyncio.StreamReader) -> None:
    while await reader.read(65536):
        pass


async def silent(reader: asyncio.StreamReader, _writer: asyncio.StreamWriter) -> None:
    await until_dropped(reader)


async def dripping(reader: asyncio.StreamReader, writer: asyncio.StreamWriter) -> None:
    for byte in PARKED:
        if reader.at_eof():
            return
        writer.write(bytes([byte]))
        await writer.drain()
        await asyncio.sleep(0.5)


async def stalled(reader: asyncio.StreamReader, writer: asyncio.StreamWriter) -> None:
    writer.write(desk.posted(b"chat", desk.approval(1).encode())[:-20])
    await until_dropped(reader)


async def slow(reader: asyncio.StreamReader, writer: asyncio.StreamWriter) -> None:
    writer.write(FILE)
    while await reader.read(256):
        await asyncio.sleep(1)


async def late(reader: asyncio.StreamReader, writer: asyncio.StreamWriter) -> None:
    writer.write(PARKED)
    while not reader.at_eof():
        writer.write(b"x")
        await writer.drain()
        await asyncio.sleep(0.5)


async def opened(port: int) -> Streams:
    """A connection that has little room for a reply, and leaves without a word."""
    peer = socket.socket()
    peer.setsockopt(socket.SOL_SOCKET, socket.SO_RCVBUF, 4096)
    peer.setsockopt(socket.SOL_SOCKET, socket.SO_LINGER, struct.pack("ii", 1, 0))
    peer.setblocking(False)
    await asyncio.get_running_loop().sock_connect(peer, ("127.0.0.1", port))
    return await asyncio.open_connection(sock=peer, limit=4096)


async def come_back(port: int, behave: Behaviour) -> None:
    """Connects again and again."""
    while True:
        with contextlib.suppress(OSError):
            reader, writer = await opened(port)
            try:
                await behave(reader, writer)
            finally:
                writer.close()
        await asyncio.sleep(0.2)


async def crowd(port: int) -> None:
    kinds = (
        (silent, SILENT),
        (dripping, DRIPPING),
        (stalled, STALLED),
        (slow, SLOW),
        (late, LATE),
    )
    await asyncio.gather(*(come_back(port, kind) for kind, many in kinds for _ in range(many)))


# ---- the honest peers


class Honest:
    """How often honest peers were answered, the longest that one waited, and what went wrong."""

    def __init__(self, port: int, machine: Machine) -> None:
        self.port, self.machine = port, machine
        self.asked, self.longest = 0, 0.0
        self.late: list[tuple[float, str]] = []
        self.lock = threading.Lock()
        self.stop = threading.Event()

    def ask(self, given: bytes, before: float) -> None:
        """One exchange, sent so long after it connected."""
        begun, whole = self.machine.mark(), b""
        try:
            with socket.create_connection(("127.0.0.1", self.port), timeout=300) as peer:
                time.sleep(before)
                begun = self.machine.mark()
                peer.sendall(given)
                while piece := peer.recv(65536):
                    whole += piece
        except OSError as error:
            whole = repr(error).encode()
        took = self.machine.since(begun)
        with self.lock:
            self.asked += 1
            self.longest = max(self.longest, took)
            is_answered = whole.startswith(b"HTTP/1.1 200 OK\r\n")
            if not is_answered or took > MOST_WAIT:
                said = f"{took:.1f} s, {before:.0f} s after it came: {whole[:60]!r}"
                self.late.append((took if is_answered else math.inf, said))

    def wrong(self, slow: float) -> list[str]:
        """Who was dropped, or waited too long for a desk that the machine made so much slower."""
        return [said for took, said in self.late if took > MOST_WAIT * slow]

    def asks(self, before: float) -> None:
        while not self.stop.is_set():
            self.ask(PARKED, before)
            time.sleep(0.05)

    def posts(self, before: float, first: int) -> None:
        number = first
        while not self.stop.is_set():
            self.ask(desk.posted(b"chat", desk.approval(number).encode()), before)
            number += 1
            time.sleep(0.05)

    def run(self, seconds: float) -> None:
        given = [
            threading.Thread(target=self.asks, args=(0.0,)),
            threading.Thread(target=self.posts, args=(0.0, 100_000)),
            *(threading.Thread(target=self.asks, args=(LATER,)) for _ in range(3)),
            *(threading.Thread(target=self.posts, args=(LATER, at)) for at in (200_000, 300_000)),
        ]
        for thread in given:
            thread.start()
        self.stop.wait(seconds)
        until = time.monotonic() + 10 * seconds
        while self.asked <= seconds and time.monotonic() < until:
            self.stop.wait(0.5)
        self.stop.set()
        for thread in given:
            thread.join()


# ---- what is tried


def beside_questions(port: int, machine: Machine) -> bool:
    """A message that is posted behind forty questions for a large file is answered long before the
    last of them."""
    times: list[float] = []
    asked = threading.Barrier(41)

    def ask() -> None:
        with socket.create_connection(("127.0.0.1", port), timeout=600) as peer:
            peer.sendall(FILE)
            asked.wait()
            desk.received(peer)
        times.append(time.monotonic() - posted)

    given = [threading.Thread(target=ask) for _ in range(40)]
    for thread in given:
        thread.start()
    posted = time.monotonic()
    asked.wait()
    posted, begun = time.monotonic(), machine.mark()
    reply = desk.exchange(port, desk.posted(b"chat", desk.approval(9_999).encode()))
    took = machine.since(begun)
    for thread in given:
        thread.join()
    is_right = reply.endswith(b"ack\n") and took < max(times) / 5
    print(
        f"a message behind forty questions took {took:.2f} s, the last of these"
        f" {max(times):.2f} s{'' if is_right else ': FAILED'}",
        flush=True,
    )
    return is_right


def beside_crowd(port: int, seconds: int, machine: Machine) -> bool:
    """Honest peers beside the crowd."""
    peers = subprocess.Popen([*desk.again(), "--crowd", str(port)])
    try:
        time.sleep(2)
        honest, began = Honest(port, machine), machine.times()
        honest.run(seconds)
        slow = min(MOST_SLOW, machine.slowness(began))
        is_there = peers.poll() is None
    finally:
        peers.kill()
        peers.wait()
    many = SILENT + DRIPPING + STALLED + SLOW + LATE
    wrong = honest.wrong(slow)
    for said in wrong[:10]:
        print(f"an honest peer beside the crowd: {said}")
    print(
        f"{honest.asked} honest peers beside {many} others: {len(wrong)} were dropped or"
        f" waited past {MOST_WAIT * slow:.1f} s; the longest waited {honest.longest:.2f} s; the"
        f" desk counts as {slow:.1f} times as slow as on a machine of its own",
        flush=True,
    )
    return is_there and not wrong and honest.asked > seconds


def more_descriptors() -> None:
    _, most = resource.getrlimit(resource.RLIMIT_NOFILE)
    resource.setrlimit(resource.RLIMIT_NOFILE, (min(most, DESCRIPTORS), most))


def main() -> None:
    more_descriptors()
    words = sys.argv[1:]
    if words[:1] == ["--crowd"]:
        asyncio.run(crowd(int(words[1])))
        return
    is_whole = words[:1] == ["--whole"]
    program = words[is_whole:] or desk.PROGRAM
    with tempfile.TemporaryDirectory(dir=desk.MEMORY) as folder:
        store = os.path.join(folder, "desk.db")
        lines = b"".join(
            long_request(number) + b"\n" + desk.approval(number).encode() + b"\n"
            for number in range(GRANTS)
        )
        made = [*program, "deliver", desk.ROSTER, desk.BASE, store, "chat"]
        subprocess.run(made, input=lines, stdout=subprocess.DEVNULL, check=True)
        with desk.Server(store, program=program) as server, Machine(server.process.pid) as machine:
            is_right = beside_questions(server.port, machine)
            seconds = WHOLE if is_whole else SHORT
            is_right = beside_crowd(server.port, seconds, machine) and is_right
    sys.exit(0 if is_right else 1)


main()

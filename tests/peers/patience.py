#!/usr/bin/env python3
"""Peers of `desk serve` that would hold it: an honest one beside each of them is answered all the
same.

One sends a byte every nine seconds, a thousand connect and send nothing, some of them while the
desk stands still, one reads a large file a little at a time, and one goes on sending once it is
answered. Each is let go in its time. Then a standard error that nobody reads, descriptors that were
closed before the start, a file that may not grow, and a disk that is full (as root).
`python3 -m tests.peers.patience WORDS..` runs another program than build/desk; `--only PART..`
before them tries some of the parts.
"""

import contextlib
import hashlib
import os
import re
import resource
import signal
import socket
import struct
import subprocess
import sys
import tempfile
import threading
import time
from typing import Any, Self

from tests.common import desk
from tests.common.stalls import Machine, Mark

IDLE = 1_000
# the seconds in which an honest peer is answered, beside any other and beside the idle ones
SOON, AT_ONCE = 15, 2
# the seconds in which a request has to come, and a reply to go out; and what a test's own clock may
# be off
TO_ASK, TO_ANSWER, OFF = 10, 30, 3
# Requests with their approvals, each of fourteen long commands: a host's file of 3.3 MB, which is
# more than the kernel keeps of a reply.
GRANTS, COMMANDS = 230, 14
# how many idle peers wait for a desk that stood still, in turn: the system keeps 128
CROWDS = (10, 120, 5)
RUDE = 6_000
SERVE = os.path.join("packaging", "desk-serve")
LISTENS = re.compile(r"listening at 127\.0\.0\.1:([0-9]+)")


PARKED = desk.asked(b"GET", b"/v1/parked")


def approval(number: int) -> bytes:
    return desk.approval(number).encode()


def long_request(number: int) -> bytes:
    """A request of commands of 940 bytes."""
    words = " ".join(["y" * 60] * 15)
    commands = [f"/usr/local/sbin/{number:03}-{at:02} {words}" for at in range(COMMANDS)]
    return desk.request(number, cmnds=commands).encode()


class Count:
    """How many things were tried, and how many went wrong."""

    def __init__(self) -> None:
        self.tried = self.wrong = 0

    def holds(self, what: str, is_right: bool, found: object = "") -> None:
        self.tried += 1
        if not is_right:
            self.wrong += 1
            print(f"{what}: {str(found)[:300]}", flush=True)


class Server(desk.Server):
    """A desk that is served, and is asked by an honest peer. What a busy machine adds to a time is
    left out: for how long this process stood still, and the desk waited for a processor."""

    def __init__(self, store: str = "-", **more: Any) -> None:
        super().__init__(store, **more)
        self.machine = Machine(self.process.pid)

    def __enter__(self) -> Self:
        self.machine.__enter__()
        return super().__enter__()

    def __exit__(self, *given: object) -> None:
        self.machine.__exit__()
        super().__exit__(*given)

    def reply(self, given: bytes) -> tuple[bytes, float]:
        """The whole reply to a peer that sends and reads at once, and after how many seconds it
        came."""
        begun, whole = self.machine.mark(), b""
        with contextlib.suppress(OSError), self.connect() as peer:
            peer.sendall(given)
            while piece := peer.recv(65536):
                whole += piece
        return whole, self.machine.since(begun)

    def is_honest(self, count: Count, what: str, most: float) -> None:
        """An honest peer is answered in so many seconds."""
        whole, took = self.reply(PARKED)
        count.holds(
            f"an honest peer beside {what}",
            whole.startswith(b"HTTP/1.1 200 OK\r\n") and took < most,
            f"{took:.1f} s, {whole[:80]!r}",
        )


def closed_after(
    server: Server, peer: socket.socket, begun: Mark, most: float
) -> tuple[float, float] | None:
    """After how many seconds the peer is let go, without those that the machine took and with them;
    None where it is not."""
    peer.settimeout(2 * most)
    with contextlib.suppress(ConnectionError):
        try:
            while peer.recv(65536):
                pass
        except TimeoutError:
            return None
    return server.machine.since(begun), time.monotonic() - begun.at


def drip(count: Count, words: list[str]) -> None:
    """A byte every nine seconds: it is let go ten seconds after it connected."""
    with Server(program=words) as server, server.connect() as slow:
        begun, stop = server.machine.mark(), threading.Event()

        def send() -> None:
            for byte in PARKED:
                with contextlib.suppress(OSError):
                    slow.send(bytes([byte]))
                if stop.wait(9):
                    return

        sender = threading.Thread(target=send)
        sender.start()
        time.sleep(0.5)
        server.is_honest(count, "one byte every nine seconds", SOON)
        took = closed_after(server, slow, begun, TO_ASK + OFF + 10)
        count.holds(
            "one byte every nine seconds is let go",
            took is not None and TO_ASK - OFF < took[1] and took[0] < TO_ASK + OFF,
            took,
        )
        stop.set()
        sender.join()


def idle(count: Count, words: list[str]) -> None:
    """A thousand that send nothing: they are let go after ten seconds, and cost nobody a second."""
    with Server(program=words) as server, contextlib.ExitStack() as kept:
        peers = [kept.enter_context(server.connect()) for _ in range(IDLE)]
        begun = server.machine.mark()
        for _ in range(3):
            server.is_honest(count, f"{IDLE} idle ones", AT_ONCE)
        took = closed_after(server, peers[-1], begun, TO_ASK + OFF + 2)
        is_right = took is not None and took[0] < TO_ASK + OFF
        count.holds("the last idle one is let go", is_right, took)
        server.is_honest(count, "idle ones that were let go", AT_ONCE)


def idle_with_few_descriptors(count: Count, words: list[str]) -> None:
    """The same where the desk may open few descriptors: messages are kept meanwhile."""
    with tempfile.TemporaryDirectory(dir=desk.MEMORY) as folder:
        before = ["prlimit", "--nofile=40:40"]
        with Server(
            os.path.join(folder, "desk.db"), program=words, before=before
        ) as server, contextlib.ExitStack() as kept:
            for _ in range(200):
                kept.enter_context(server.connect())
            for number in range(20):
                whole, took = server.reply(desk.posted(b"chat", approval(number)))
                count.holds(
                    "a message beside idle ones and few descriptors",
                    whole.endswith(b"\r\n\r\nack\n") and took < AT_ONCE,
                    f"{took:.1f} s, {whole[-80:]!r}",
                )


def idle_while_it_stood_still(count: Count, words: list[str]) -> None:
    """The same of a desk that stood still meanwhile, and finds all of them at once: an honest peer
    that connected last, and whose message comes a moment later, is not dropped for an idle one."""
    with tempfile.TemporaryDirectory(dir=desk.MEMORY) as folder:
        before = ["prlimit", "--nofile=40:40"]
        with Server(os.path.join(folder, "desk.db"), program=words, before=before) as server:
            for number, peers in enumerate(range(*CROWDS)):
                with contextlib.ExitStack() as kept:
                    server.process.send_signal(signal.SIGSTOP)
                    try:
                        for _ in range(peers):
                            kept.enter_context(server.connect())
                        honest = kept.enter_context(server.connect())
                    finally:
                        server.process.send_signal(signal.SIGCONT)
                    time.sleep(0.05)
                    whole = b""
                    with contextlib.suppress(ConnectionError):
                        honest.sendall(desk.posted(b"chat", approval(number)))
                        whole = desk.received(honest)
                count.holds(
                    f"a message behind {peers} idle ones that came while the desk stood still",
                    whole.endswith(b"\r\n\r\nack\n"),
                    whole[-80:],
                )
                server.is_honest(count, "idle ones that have left", AT_ONCE)


def slow_reader(count: Count, words: list[str]) -> None:
    """A large file that is read a little at a time: it is let go after thirty seconds, and one that
    reads gets it whole."""
    with tempfile.TemporaryDirectory() as folder:
        store = os.path.join(folder, "desk.db")
        lines = b"".join(
            long_request(number) + b"\n" + approval(number) + b"\n" for number in range(GRANTS)
        )
        done = subprocess.run(
            [*words, "deliver", desk.ROSTER, desk.BASE, store, "chat"],
            input=lines,
            stdout=subprocess.PIPE,
            check=True,
        )
        count.holds(
            "the grants are there", done.stdout == b"ack\n" * (2 * GRANTS), done.stdout[-80:]
        )
        with Server(store, program=words) as server:
            whole, took = server.reply(desk.asked(b"GET", b"/v1/hosts/db1/sudoers"))
            count.holds(
                "a large file",
                len(whole) > 3_000_000 and whole.startswith(b"HTTP/1.1 200 OK\r\n"),
                f"{took:.1f} s, {len(whole)} bytes",
            )
            with contextlib.ExitStack() as kept:
                peers = [kept.enter_context(server.connect(room=4096)) for _ in range(4)]
                begun = server.machine.mark()
                for peer in peers:
                    peer.sendall(desk.asked(b"GET", b"/v1/hosts/db1/sudoers"))
                time.sleep(1)
                server.is_honest(count, "slow readers of a large file", SOON)
                again, took = server.reply(desk.asked(b"GET", b"/v1/hosts/db1/sudoers"))
                count.holds(
                    "the file beside slow readers",
                    again == whole and took < SOON,
                    f"{took:.1f} s, {len(again)} bytes",
                )
                came = read_slowly(server, peers[0], begun)
                count.holds(
                    "a slow reader is let go",
                    came < len(whole),
                    f"it got {came} of {len(whole)} bytes",
                )


def read_slowly(server: Server, peer: socket.socket, begun: Mark) -> int:
    """Reads a little each second until past the time in which a reply has to go out, and then what
    is still there; answers how much came."""
    came = 0
    with contextlib.suppress(ConnectionError):
        while server.machine.since(begun) < TO_ANSWER + OFF:
            came += len(peer.recv(256))
            time.sleep(1)
        while piece := peer.recv(65536):
            came += len(piece)
    return came


def late_sender(count: Count, words: list[str]) -> None:
    """One that goes on sending, a byte at a time, once it is answered."""
    with Server(program=words) as server, server.connect() as late:
        stop = threading.Event()
        late.sendall(PARKED)

        def send() -> None:
            while not stop.wait(0.5):
                with contextlib.suppress(OSError):
                    late.send(b"x")

        sender = threading.Thread(target=send)
        sender.start()
        time.sleep(1)
        server.is_honest(count, "one that sends after its reply", AT_ONCE)
        stop.set()
        sender.join()


def behind_its_request(count: Count, words: list[str]) -> None:
    """Peers that send more once they are answered, at once or later, and read only then: each gets
    its reply whole, and no reset in its place."""
    with Server(program=words) as server:
        wanted, _ = server.reply(PARKED)
        for late in (0.0, 0.005, 0.1, 0.5):
            whole, error = b"", None
            try:
                with server.connect() as peer:
                    peer.sendall(PARKED)
                    time.sleep(late)
                    peer.sendall(b"x" * 2_000)
                    time.sleep(0.1)
                    whole = desk.received(peer)
            except ConnectionError as found:
                error = found
            count.holds(
                f"a reply before bytes that come {late} s behind its request",
                whole == wanted and error is None,
                f"{error} {whole[:80]!r}",
            )


def leave_rudely(server: Server) -> None:
    """Sends a part of a request, and drops the connection: `H1` each time."""
    with contextlib.suppress(ConnectionError), server.connect(seconds=20) as peer:
        peer.setsockopt(socket.SOL_SOCKET, socket.SO_LINGER, struct.pack("ii", 1, 0))
        peer.sendall(b"GET /")


def unread_error(count: Count, words: list[str]) -> None:
    """Nobody reads the standard error: the lines that find no room are dropped, and said to be."""
    with Server(program=words, stderr=subprocess.PIPE) as server:
        for number in range(RUDE):
            try:
                leave_rudely(server)
            except TimeoutError:
                count.holds("a desk whose standard error is full", False, f"stops at {number}")
                return
        server.is_honest(count, "a standard error that nobody reads", AT_ONCE)
        os.set_blocking(server.error.fileno(), False)
        said = server.error.read() or b""
        count.holds("what nobody read is full", len(said) > 60_000, len(said))
        leave_rudely(server)
        server.reply(PARKED)
        more, until = server.error.read() or b"", time.monotonic() + 60
        while b" lines were dropped" not in more and time.monotonic() < until:
            time.sleep(0.05)
            more += server.error.read() or b""
        count.holds(
            "the lines that were dropped are told", b" lines were dropped" in more, more[:300]
        )


def closed_descriptors(count: Count, words: list[str]) -> None:
    """The desk begins without a standard input and error: no peer's socket takes their place."""
    with Server(program=words, before=["sh", "-c", 'exec "$@" <&- 2>&-', "sh"]) as server:
        found = {
            number: os.readlink(f"/proc/{server.process.pid}/fd/{number}") for number in (0, 2)
        }
        count.holds("closed descriptors", set(found.values()) == {"/dev/null"}, found)
        with server.connect() as rude, server.connect() as second:
            rude.setsockopt(socket.SOL_SOCKET, socket.SO_LINGER, struct.pack("ii", 1, 0))
            rude.sendall(b"GET /")
            second.sendall(b"G")
            time.sleep(0.2)
            rude.close()
            time.sleep(0.2)
            second.sendall(PARKED[1:])
            whole = b""
            while piece := second.recv(65536):
                whole += piece
        count.holds("a peer beside one that fails", whole.startswith(b"HTTP/1.1 200 OK\r\n"), whole)


def limited_file(count: Count, words: list[str]) -> None:
    """The store may not grow past a size: the message is refused with K4, and the desk serves on.
    The signal that the kernel sends has to be ignored, as `desk-serve` of the package does."""
    with tempfile.TemporaryDirectory() as folder:
        store = os.path.join(folder, "desk.db")
        # 1 MiB: a new store's log has some 260 KB at once, and the messages are 2.9 MB
        before = [
            "prlimit",
            f"--fsize={2**20}:{2**20}",
            "sh",
            "-c",
            "trap '' XFSZ; exec \"$@\"",
            "sh",
        ]
        with Server(store, program=words, before=before, stderr=subprocess.PIPE) as server:
            bodies = [
                server.reply(desk.posted(b"chat", long_request(number)))[0] for number in range(200)
            ]
            ends = [body.endswith(b"\r\n\r\nack\n") for body in bodies]
            count.holds(
                "messages until the file is full",
                ends[0] and not ends[-1] and bodies[-1].endswith(b"\r\n\r\nK4 Storage\n"),
                bodies[-1][-80:],
            )
            whole, _ = server.reply(PARKED)
            count.holds(
                "a question afterwards",
                whole.startswith((b"HTTP/1.1 200 OK\r\n", b"HTTP/1.1 503 ")),
                whole[:80],
            )
            count.holds("the desk is there", server.process.poll() is None)
            server.process.send_signal(signal.SIGTERM)
            said = server.error.read()
            count.holds("K4 is said", b"answered K4 Storage\n" in said, said[-300:])
        kept = sum(ends)
        with Server(store, program=words) as server:
            whole, _ = server.reply(desk.posted(b"chat", long_request(0)))
            count.holds(
                f"the desk with {kept} messages goes on where the file may grow",
                whole.endswith(b"\r\n\r\nack\n"),
                whole[-80:],
            )


def limited_service(count: Count, words: list[str]) -> None:
    """The package's `desk-serve` ignores that signal: a write past the limit is K4, its log says
    what to do, and the desk serves on."""
    with tempfile.TemporaryDirectory(dir=desk.MEMORY) as folder:
        program = desk.write(folder, "desk", '#!/bin/sh\nexec %s "$@"\n' % " ".join(words))
        os.chmod(program, 0o755)
        held = {"DESK": program, "ROSTER": desk.ROSTER, "BASE": desk.BASE, "ADDR": "127.0.0.1:0"}
        with subprocess.Popen(
            ["prlimit", f"--fsize={2**20}:{2**20}", os.path.join(desk.ROOT, SERVE)],
            env={**os.environ, **held, "STORE": os.path.join(folder, "desk.db")},
            stdout=subprocess.PIPE,
            stderr=subprocess.STDOUT,
            text=True,
        ) as service:
            assert service.stdout is not None
            found = next((it for line in service.stdout if (it := LISTENS.search(line))), None)
            replies = until_refused(int(found[1]) if found else 0)
            is_right = len(replies) > 2 and replies[-2].endswith(b"K4 Storage\n")
            is_right = is_right and replies[-1].startswith(b"HTTP/1.1 200 OK\r\n")
            count.holds("a service past its file's limit", is_right, replies[-2:])
            service.terminate()
            said = service.stdout.read()
        is_right = "answered K4 Storage: " in said and "the desk goes on by itself" in said
        count.holds("its log", is_right and service.returncode == 0, said)


def until_refused(port: int) -> list[bytes]:
    """The replies to messages until one is no acknowledgement, and to a question behind it."""
    replies = []
    with contextlib.suppress(OSError):
        for number in range(200):
            replies.append(desk.exchange(port, desk.posted(b"chat", long_request(number))))
            if not replies[-1].endswith(b"ack\n"):
                break
        replies.append(desk.exchange(port, PARKED))
    return replies


def says_what_it_serves(count: Count, words: list[str]) -> None:
    """The first lines of the standard error: how many messages, and of which roster; and a warning
    in capital letters where the address is not loopback (in a network of its own, as root)."""
    with open(desk.ROSTER, "rb") as file:
        serving = f"serving 2 messages, roster {hashlib.sha256(file.read()).hexdigest()}\n"
    with tempfile.TemporaryDirectory() as folder:
        store = os.path.join(folder, "desk.db")
        given = f"{desk.request()}\n{desk.approval()}\n"
        desk.run([*words, "deliver", desk.ROSTER, desk.BASE, store, "chat"], given)
        here = said_at(words, store, [], "127.0.0.1:0")
        is_warned = re.fullmatch(desk.EVERY_ACCOUNT + "\n", here[0]) is not None
        count.holds("what it says on loopback", is_warned and here[1:] == [serving], here)
        if os.geteuid() == 0:
            said = said_at(words, store, ["unshare", "--net"], "0.0.0.0:0")
            count.holds("what it serves", said[-1:] == [serving], said)
            first = said[0] if said else ""
            is_named = re.match(r"WARNING: 0\.0\.0\.0:\d+ IS NOT LOOPBACK\. ", first) is not None
            count.holds("a warning in capital letters", is_named and first.isupper(), said)


def said_at(words: list[str], store: str, before: list[str], address: str) -> list[str]:
    """What a desk at the address says before anybody asks it."""
    asked = [*before, *words, "serve", desk.ROSTER, desk.BASE, store, address]
    with subprocess.Popen(asked, stdout=subprocess.PIPE, stderr=subprocess.PIPE) as process:
        assert process.stdout is not None and process.stderr is not None
        hangs = threading.Timer(120, process.kill)
        hangs.start()
        process.stdout.readline()
        said = []
        while line := process.stderr.readline():
            said.append(line)
            if line.startswith(b"serving "):
                break
        time.sleep(0.5)
        process.terminate()
        said += process.stderr.readlines()
        hangs.cancel()
        return [it.decode() for it in said]


def full_disk(count: Count, words: list[str]) -> None:
    """A new store on a full disk is refused at once."""
    if os.geteuid() != 0:
        return
    with tempfile.TemporaryDirectory() as folder:
        script = (
            'mount -t tmpfs -o size=64k none "$1" && head -c 70000 /dev/zero > "$1/filler"'
            ' 2>/dev/null; shift; exec "$@"'
        )
        given = ["unshare", "--mount", "--propagation", "private", "sh", "-c", script, "sh", folder]
        given += [
            *words,
            "serve",
            desk.ROSTER,
            desk.BASE,
            os.path.join(folder, "desk.db"),
            "127.0.0.1:0",
            "--requests",
            "1",
        ]
        done = subprocess.run(given, capture_output=True, timeout=120, check=False)
        count.holds(
            "a new store on a full disk",
            (done.returncode, done.stdout, done.stderr) == (2, b"", b"K4 Storage\n"),
            done,
        )


PARTS = (
    drip,
    idle,
    idle_with_few_descriptors,
    idle_while_it_stood_still,
    slow_reader,
    late_sender,
    behind_its_request,
    unread_error,
    closed_descriptors,
    limited_file,
    limited_service,
    says_what_it_serves,
    full_disk,
)


def main() -> None:
    words, parts = sys.argv[1:], list(PARTS)
    if words[:1] == ["--only"]:
        names = [part.__name__ for part in PARTS]
        chosen = [word for word in words[1:] if word in names]
        words, parts = words[1 + len(chosen) :], [part for part in PARTS if part.__name__ in chosen]
    words = words or desk.PROGRAM
    _, most = resource.getrlimit(resource.RLIMIT_NOFILE)
    resource.setrlimit(resource.RLIMIT_NOFILE, (min(most, 4_096), most))
    count = Count()
    for part in parts:
        try:
            part(count, words)
        except (OSError, subprocess.SubprocessError) as error:
            count.holds(part.__name__, False, repr(error))
    print(
        f"{count.tried} things were tried with peers that would hold the desk: {count.wrong} went"
        " otherwise"
    )
    sys.exit(1 if count.wrong else 0)


main()

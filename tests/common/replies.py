"""A server on loopback that is no desk: it gives each target the bytes that a test says."""

import contextlib
import datetime
import hashlib
import re
import socket
import ssl
import threading
from collections.abc import Callable, Sequence
from typing import Self

FILE = re.compile(r"/v1/hosts/[a-z0-9-]+/at/[0-9]+Z")


def reply(body: bytes, status: str = "200 OK", more: str = "") -> bytes:
    """A reply as a desk sends it, with further lines in its head."""
    head = f"HTTP/1.1 {status}\r\nContent-Type: text/plain\r\n{more}"
    return f"{head}Content-Length: {len(body)}\r\nConnection: close\r\n\r\n".encode() + body


NO_ROUTE = reply(b"T3 NoRoute\n", "404 Not Found")


def digest(text: bytes) -> str:
    return hashlib.sha256(text).hexdigest()


def counted(text: bytes, messages: int = 1, roster: str = "a", base: bytes = b"") -> bytes:
    """A host's file behind the line that says what it is made of: a roster whose digest is that
    letter alone, and a base which the file then begins with."""
    return f"{messages} {roster * 64} {digest(base)}\n".encode() + base + text


def history(
    rosters: str = "a", bases: Sequence[bytes] = (b"",), cuts: Sequence[int] = (0,)
) -> bytes:
    """The states of a site, a day for each: those rosters and bases, and how many messages were
    taken out of the store before, the last of which stay until the end."""
    lines = []
    for at in range(max(len(rosters), len(bases), len(cuts))):
        roster = rosters[min(at, len(rosters) - 1)] * 64
        base = digest(bases[min(at, len(bases) - 1)])
        archived = cuts[min(at, len(cuts) - 1)]
        cut = f"cut 20251201000000Z {archived} " if archived else ""
        day = datetime.date(2026, 1, 1) + datetime.timedelta(at)
        lines.append(f"{day:%Y%m%d}000000Z {cut}{roster} {base}\n")
    return "".join(lines).encode()


def of_a_host(file: bytes, past: bytes | None = None) -> Callable[[str], bytes]:
    """What a desk answers whose reply with any host's file is `file`; without a past it is one that
    has no history."""

    def answer(target: str) -> bytes:
        if target == "/v1/history" and past is not None:
            return past
        return file if FILE.fullmatch(target) else NO_ROUTE

    return answer


def desk_of(
    text: bytes,
    messages: int = 1,
    rosters: str = "a",
    bases: Sequence[bytes] = (b"",),
    cuts: Sequence[int] = (0,),
) -> Callable[[str], bytes]:
    """What a desk answers of one state: the joined file, the history, and the questions of before,
    the count and the file alone."""
    whole = counted(text, messages, rosters[-1], bases[-1])
    line, _, file = whole.partition(b"\n")

    def answer(target: str) -> bytes:
        if target == "/v1/count":
            return reply(line + b"\n")
        if re.fullmatch("/v1/hosts/[a-z0-9-]+/sudoers(/[0-9]+Z)?", target):
            return reply(file)
        return of_a_host(reply(whole), reply(history(rosters, bases, cuts)))(target)

    return answer


class Replies:
    """The server, as long as the block lasts."""

    def __init__(
        self, answer: Callable[[str], bytes], tls: ssl.SSLContext | None = None
    ) -> None:
        self.answer, self.tls = answer, tls
        self.asked: list[str] = []
        self.listener = socket.create_server(("127.0.0.1", 0))
        self.address = "127.0.0.1:%d" % self.listener.getsockname()[1]
        self.url = f"http://{self.address}"
        threading.Thread(target=self.serve, daemon=True).start()

    def serve(self) -> None:
        while True:
            try:
                peer = self.listener.accept()[0]
            except OSError:
                return
            with contextlib.suppress(ConnectionError):  # (of whoever reads no more)
                self.give(peer)

    def give(self, peer: socket.socket) -> None:
        """One answer."""
        with self.tls.wrap_socket(peer, server_side=True) if self.tls else peer as stream:
            words = stream.recv(65536).split(b" ")
            if len(words) > 1:
                self.asked.append(words[1].decode())
                stream.sendall(self.answer(self.asked[-1]))

    def __enter__(self) -> Self:
        return self

    def __exit__(self, *_: object) -> None:
        self.listener.shutdown(socket.SHUT_RDWR)
        self.listener.close()

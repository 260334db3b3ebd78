"""Whoever connects to the page and says nothing, or little, keeps nobody else out."""

import contextlib
import socket
import ssl
import time
from collections.abc import Iterator
from pathlib import Path

from relays.tests.front import Front
from relays.tests.site import Site

IDLE = 300
QUICK = 20.0  # seconds, on a machine that has much else to do
DROPPED = 60.0
PIECES = [b"", b"GET / HTTP/1.1\r\nHost: a\r\n", b"POST /ask HTTP/1.1\r\nContent-Length: 9\r\n\r\na"]


@contextlib.contextmanager
def idle(path: Path, count: int) -> Iterator[list[socket.socket]]:
    """So many connections, each of which has sent a piece of a request and no more."""
    with contextlib.ExitStack() as stack:
        found = [stack.enter_context(socket.socket(socket.AF_UNIX)) for _ in range(count)]
        for number, peer in enumerate(found):
            peer.settimeout(DROPPED)
            peer.connect(str(path))
            peer.sendall(PIECES[number % len(PIECES)])
        yield found


def test_idle_connections_keep_nobody_out(quiet_site: Site) -> None:
    quiet_site.start_page()
    with idle(quiet_site.socket, IDLE) as peers:
        begun = time.monotonic()
        assert quiet_site.ask_page("/", {})[0] == 403
        assert time.monotonic() - begun < QUICK
        # and they are dropped by and by
        assert peers[0].recv(1) == b""
        assert time.monotonic() - begun < DROPPED
        assert quiet_site.ask_page("/", {})[0] == 403


SOON = 40.0  # seconds: less than the 60 that nginx gives where nothing is said


def test_idle_connections_at_the_front(quiet_site: Site) -> None:
    """The page's front shares nginx's places with the desk's: nobody holds one in silence, be it
    before the greeting of TLS, behind it, or within a request."""
    front = Front(quiet_site, ["ann"])
    try:
        begun = time.monotonic()
        with contextlib.ExitStack() as stack:
            peers: list[socket.socket] = []
            for piece in (None, b"", b"GET / HTTP/1.1\r\nHost: a\r\n"):
                peer = socket.create_connection(("127.0.0.1", front.tls), SOON)
                if piece is not None:
                    context = ssl.create_default_context(cafile=front.path("ca/ca.pem"))
                    context.load_cert_chain(front.path("ann.pem"), front.path("ann.key"))
                    peer = context.wrap_socket(peer, server_hostname="127.0.0.1")
                    peer.sendall(piece)
                peers.append(stack.enter_context(peer))
            for peer in peers:
                peer.settimeout(max(1.0, SOON - (time.monotonic() - begun)))
                while peer.recv(4096):
                    pass
        assert time.monotonic() - begun < SOON
    finally:
        front.stop()

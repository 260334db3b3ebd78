"""What stands in a desk's place to measure the rest: it acknowledges every message at once, keeps
none, and counts them as a desk does.

    stub.py serve ROSTER BASE STORE unix:PATH
"""

from __future__ import annotations

import contextlib
import os
import re
import socket
import sys

LENGTH = re.compile(rb"Content-Length: ([0-9]+)", re.IGNORECASE)


def received(peer: socket.socket) -> bytes:
    """The bytes of a whole request."""
    whole = b""
    while piece := peer.recv(65_536):
        whole += piece
        head, is_whole, body = whole.partition(b"\r\n\r\n")
        length = LENGTH.search(head)
        if is_whole and len(body) >= (int(length[1]) if length else 0):
            break
    return whole


def reply(text: str) -> bytes:
    head = "HTTP/1.1 200 OK\r\nContent-Type: text/plain; charset=utf-8\r\n"
    return f"{head}Content-Length: {len(text)}\r\nConnection: close\r\n\r\n{text}".encode()


def serve(path: str) -> None:
    with contextlib.suppress(FileNotFoundError):
        os.unlink(path)
    listener = socket.socket(socket.AF_UNIX)
    listener.bind(path)
    listener.listen(128)
    seen: set[bytes] = set()
    while True:
        peer, _ = listener.accept()
        with peer, contextlib.suppress(OSError):
            asked = received(peer)
            if asked.startswith(b"POST "):
                seen.add(asked.partition(b"\r\n\r\n")[2])
                peer.sendall(reply("ack\n"))
            elif asked:
                peer.sendall(reply(f"{len(seen)} {'a' * 64} {'b' * 64}\n"))


if __name__ == "__main__":
    serve(sys.argv[5].removeprefix("unix:"))

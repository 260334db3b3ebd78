"""A desk that answers as it was told."""

from __future__ import annotations

import http.server
import pathlib
import socket
import socketserver
import threading
from collections.abc import Iterator
from typing import Any

import pytest


class Scripted(http.server.ThreadingHTTPServer):
    """Gives each POST the next reply: a status and a body, None to hang up, or seconds to wait."""

    def __init__(self, place: Any = ("127.0.0.1", 0)) -> None:
        super().__init__(place, Handler)
        self.replies: list[tuple[int, str] | float | None] = []
        self.seen: list[tuple[str, bytes]] = []
        self.fields: list[dict[str, str]] = []
        self.release = threading.Event()

    @property
    def address(self) -> str:
        return f"http://127.0.0.1:{self.server_address[1]}"


class ScriptedSocket(Scripted):
    """The same at the socket of a path."""

    address_family = socket.AF_UNIX

    def server_bind(self) -> None:
        socketserver.TCPServer.server_bind(self)

    @property
    def address(self) -> str:
        return f"unix:{self.server_address}"


class Handler(http.server.BaseHTTPRequestHandler):
    server: Scripted

    def do_POST(self) -> None:
        body = self.rfile.read(int(self.headers["Content-Length"]))
        self.server.seen.append((self.path, body))
        self.server.fields.append(dict(self.headers))
        reply = self.server.replies.pop(0)
        if reply is None:
            self.close_connection = True
            return
        if isinstance(reply, float):
            self.server.release.wait(reply)
            return
        status, text = reply
        self.send_response(status)
        self.send_header("Content-Length", str(len(text)))
        self.end_headers()
        self.wfile.write(text.encode())

    def log_message(self, *_: object) -> None:
        pass


@pytest.fixture(params=["a port", "a socket"])
def scripted(
    request: pytest.FixtureRequest, tmp_path: pathlib.Path
) -> Iterator[Scripted]:
    is_socket = request.param == "a socket"
    server = ScriptedSocket(str(tmp_path / "desk.sock")) if is_socket else Scripted()
    thread = threading.Thread(target=server.serve_forever, args=(0.02,), daemon=True)
    thread.start()
    yield server
    server.release.set()
    server.shutdown()
    server.server_close()

"""What stands in a desk's place: it says what a test wants to each message, and records them."""

import json
import re
import socket
import threading
from collections.abc import Callable
from pathlib import Path
from typing import Any

LENGTH = re.compile(rb"content-length: *([0-9]+)", re.IGNORECASE)
ACK = "200 OK\r\nContent-Length: 4\r\nConnection: close\r\n\r\nack\n"


def acknowledge(_: dict[str, Any]) -> str:
    return ACK


class Recorder:
    """A listener at a socket. `says` gives what is answered to a message, or nothing where its
    connection is closed. After `most` messages it is away, with its socket."""

    def __init__(
        self,
        path: Path,
        says: Callable[[dict[str, Any]], str] = acknowledge,
        most: int = 1_000_000,
    ) -> None:
        self.path, self.says, self.most = path, says, most
        self.posted: list[dict[str, Any]] = []
        self.open()

    @property
    def url(self) -> str:
        return f"unix:{self.path}"

    def open(self) -> None:
        """Listens, for as many messages as it was told."""
        self.left = self.most
        self.listener = socket.socket(socket.AF_UNIX)
        self.listener.bind(str(self.path))
        self.listener.listen(64)
        threading.Thread(target=self.serve, args=(self.listener,), daemon=True).start()

    def serve(self, listener: socket.socket) -> None:
        while self.left:
            try:
                peer, _ = listener.accept()
            except OSError:
                return
            with peer:
                self.answer(peer)
        self.close()

    def answer(self, peer: socket.socket) -> None:
        whole, is_all = b"", False
        while not is_all and (piece := peer.recv(65_536)):
            whole += piece
            head, is_all_head, body = whole.partition(b"\r\n\r\n")
            length = LENGTH.search(head)
            is_all = bool(is_all_head) and len(body) >= (int(length[1]) if length else 0)
        if whole.startswith(b"POST "):
            message = json.loads(whole.partition(b"\r\n\r\n")[2])
            self.posted.append(message)
            self.left -= 1
            if not self.left:
                # (whoever has this answer finds nobody any more)
                self.path.unlink()
            if said := self.says(message):
                peer.sendall(f"HTTP/1.1 {said}".encode())

    def close(self) -> None:
        self.left = 0
        self.path.unlink(missing_ok=True)
        self.listener.close()

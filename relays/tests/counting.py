"""A proxy before a site's desk: it counts what the relay asks, and may answer as an older desk."""

import contextlib
import socket
import threading
from collections.abc import Iterator

from relays.tests.site import Site

NO_ROUTE = b"HTTP/1.1 404 Not Found\r\nContent-Length: 11\r\nConnection: close\r\n\r\nT3 NoRoute\n"


class Counter:
    """The first lines of the requests that came, in their order."""

    def __init__(self, site: Site) -> None:
        self.desk = site.url.removeprefix("unix:")
        self.path = str(site.folder / "counted.sock")
        self.lines: list[str] = []
        self.is_old = False
        self.listener = socket.socket(socket.AF_UNIX)
        self.listener.bind(self.path)
        self.listener.listen(512)
        threading.Thread(target=self.accept, daemon=True).start()

    def accept(self) -> None:
        with contextlib.suppress(OSError):
            while True:
                peer, _ = self.listener.accept()
                threading.Thread(target=self.carry, args=(peer,), daemon=True).start()

    def carry(self, peer: socket.socket) -> None:
        """One exchange: the desk reads one request of a connection."""
        with contextlib.suppress(OSError), peer, socket.socket(socket.AF_UNIX) as desk:
            given = peer.recv(65536)
            line = given.partition(b"\r\n")[0].decode("ascii").removesuffix(" HTTP/1.1")
            self.lines.append(line)
            if self.is_old and ("/v1/requests" in line or "/v1/open" in line):
                peer.sendall(NO_ROUTE)
                return
            desk.connect(self.desk)
            back = threading.Thread(target=pour, args=(desk, peer), daemon=True)
            back.start()
            desk.sendall(given)
            pour(peer, desk)
            back.join(timeout=60)

    def asked(self) -> list[str]:
        """The paths that were asked for since this was called last."""
        lines, self.lines = self.lines, []
        return [it.removeprefix("GET ") for it in lines if it.startswith("GET ")]


def pour(source: socket.socket, target: socket.socket) -> None:
    with contextlib.suppress(OSError):
        while piece := source.recv(65536):
            target.sendall(piece)
        target.shutdown(socket.SHUT_WR)


@contextlib.contextmanager
def counted(site: Site) -> Iterator[Counter]:
    """A site whose relay asks through a counter."""
    counter = Counter(site)
    settings = site.config.read_text()
    site.config.write_text(settings.replace(site.url, f"unix:{counter.path}"))
    try:
        yield counter
    finally:
        counter.listener.close()

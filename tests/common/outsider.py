"""An account of the desk's machine that is nobody's: it posts in other people's names, reads, and
takes the desk's place while the desk is down, wherever the kernel lets it."""

from __future__ import annotations

import subprocess
from typing import Self

NOBODY = ["setpriv", "--reuid", "65534", "--regid", "65534", "--clear-groups"]
PORT = "127.0.0.1:8080"  # where a desk with an address of TCP is looked for
EVERYTHING = "ALL ALL = (ALL) NOPASSWD: ALL\n"

# Listens where it can of the places that it is told, says which these are, and answers everybody
# with the text that it is told.
USURPER = """
import contextlib, os, select, socket, sys
body, *places = sys.argv[1:]
reply = f"HTTP/1.1 200 OK\\r\\nContent-Length: {len(body)}\\r\\nConnection: close\\r\\n\\r\\n{body}"
taken = []
for place in places:
    path = place.removeprefix("unix:")
    try:
        if path == place:
            host, _, port = place.rpartition(":")
            taken.append(socket.create_server((host, int(port))))
        else:
            with contextlib.suppress(OSError):
                os.makedirs(os.path.dirname(path))
            with contextlib.suppress(FileNotFoundError):
                os.unlink(path)
            server = socket.socket(socket.AF_UNIX)
            server.bind(path)
            os.chmod(path, 0o777)
            server.listen()
            taken.append(server)
        print(f"took {place};", end=" ")
    except OSError as fault:
        print(f"{place}: {fault.strerror};", end=" ")
print(flush=True)
while True:
    for server in select.select(taken, [], [])[0]:
        peer, _ = server.accept()
        with contextlib.suppress(OSError):
            peer.recv(65536)
            peer.sendall(reply.encode())
        peer.close()
"""


def curl(address: str, route: str, *more: str) -> list[str]:
    """The words that ask a desk at its address, as `unix:/PATH` or `HOST:PORT`."""
    path = address.removeprefix("unix:")
    url = [f"http://{address}{route}"]
    if path != address:
        url = ["--unix-socket", path, f"http://desk{route}"]
    return ["curl", "-sS", "-m", "60", *more, *url]


class Usurper:
    """A program of nobody's in the desk's place, for as long as the block lasts. What it took
    stands in `said`."""

    def __init__(self, *places: str, before: tuple[str, ...] = ()) -> None:
        words = [*before, *NOBODY, "python3", "-c", USURPER, EVERYTHING, *places]
        self.process = subprocess.Popen(words, stdout=subprocess.PIPE, text=True)
        assert self.process.stdout is not None
        self.said = self.process.stdout.readline()

    def __enter__(self) -> Self:
        return self

    def __exit__(self, *_: object) -> None:
        with self.process:
            self.process.kill()

    def has_taken(self, place: str) -> bool:
        return f"took {place};" in self.said

#!/usr/bin/env python3
"""`desk serve` at the socket of a path, asked by curl: who may open it, and what becomes of what
stands there at the start.

Only the owner and the group open it (as root: `nobody` is refused, and posts with the group's
help); a socket that nobody answers is replaced, one that is answered and a file of another kind
stay as they are and end the start with F1. `python3 -m tests.peers.peers_socket WORDS..` runs
another program than build/desk.
"""

import contextlib
import os
import socket
import stat
import subprocess
import sys
import tempfile
from collections.abc import Iterator

from tests.common import desk

PARKED = "http://desk/v1/parked"
MESSAGES = "http://desk/v1/relays/chat/messages"
NOT_CONNECTED = 7  # curl's status


class Count:
    """How many things were tried, and how many went wrong."""

    def __init__(self) -> None:
        self.tried = self.wrong = 0

    def holds(self, what: str, is_so: bool, seen: object) -> None:
        self.tried += 1
        if not is_so:
            self.wrong += 1
            print(f"{what}: {seen!r}")


@contextlib.contextmanager
def served(path: str) -> Iterator[str]:
    """A desk at the path; what it said first, and nothing if it ended."""
    words = [*desk.named(), "serve", desk.ROSTER, desk.BASE, "-", f"unix:{path}"]
    process = subprocess.Popen(words, stdout=subprocess.PIPE, stderr=subprocess.PIPE, text=True)
    try:
        assert process.stdout is not None
        yield process.stdout.readline()
    finally:
        process.terminate()
        process.communicate(timeout=20)


def asked(path: str, url: str, *more: str, before: tuple[str, ...] = ()) -> tuple[int, str]:
    """Curl's status, and the body that it was answered."""
    words = [*before, desk.tool("curl"), "-s", "--unix-socket", path, *more, url]
    done = subprocess.run(words, capture_output=True, text=True, timeout=60, check=False)
    return done.returncode, done.stdout


def who_may_open_it(count: Count, folder: str) -> None:
    path = os.path.join(folder, "desk.sock")
    with served(path) as said:
        count.holds("it says where", said == f"listening unix:{path}\n", said)
        mode = os.stat(path).st_mode
        count.holds("its permissions", stat.S_ISSOCK(mode) and mode & 0o777 == 0o660, oct(mode))
        count.holds("its owner posts", posts(path, ()) == (0, "ack\n"), posts(path, ()))
        if os.geteuid() == 0:
            nobody = (desk.tool("setpriv"), "--reuid=nobody", "--regid=nogroup", "--clear-groups")
            group = (desk.tool("setpriv"), "--reuid=nobody", "--regid=0", "--clear-groups")
            refused, taken = posts(path, nobody), posts(path, group)
            count.holds("another account does not open it", refused == (NOT_CONNECTED, ""), refused)
            count.holds("its group posts", taken == (0, "ack\n"), taken)


def posts(path: str, before: tuple[str, ...]) -> tuple[int, str]:
    """What an account is answered to a request that it posts as a relay's."""
    return asked(path, MESSAGES, "--data-binary", desk.request(), before=before)


def what_stands_there(count: Count, folder: str) -> None:
    path = os.path.join(folder, "again.sock")
    for _ in range(2):  # the second time the first one's socket stands there, and nobody answers
        with served(path):
            answer = asked(path, PARKED)
            count.holds("it answers", answer == (0, ""), answer)
    with served(path):
        refused_at(count, "a socket that is answered", path)
        answer = asked(path, PARKED)
        count.holds("the first desk goes on", answer == (0, ""), answer)
    file = desk.write(folder, "file", "kept\n")
    refused_at(count, "a file", file)
    count.holds("the file is kept", desk.read(file) == "kept\n", desk.read(file))
    link = os.path.join(folder, "link")
    os.symlink(path, link)
    refused_at(count, "a link", link)
    refused_at(count, "a folder that is not there", os.path.join(folder, "none", "desk.sock"))
    refused_at(count, "a path that no socket has", os.path.join(folder, "x" * 120), "F2 BadWord")


def an_interrupted_start(count: Count, folder: str) -> None:
    """The socket under the name that it has until its permissions are set is replaced too."""
    path = os.path.join(folder, "late.sock")
    with socket.socket(socket.AF_UNIX) as left:
        left.bind(f"{path}~")
    with served(path):
        answer = asked(path, PARKED)
        count.holds("it answers after an interrupted start", answer == (0, ""), answer)
        count.holds("nothing is left", not os.path.exists(f"{path}~"), os.listdir(folder))


def refused_at(count: Count, what: str, path: str, code: str = "F1 FileFailed") -> None:
    words = [*desk.named(), "serve", desk.ROSTER, desk.BASE, "-", f"unix:{path}"]
    done = subprocess.run(words, capture_output=True, text=True, timeout=60, check=False)
    ended = (done.returncode, done.stdout, desk.without_names(done.stderr).splitlines()[-1:])
    count.holds(f"{what} ends the start", ended == (2, "", [code]), ended)


def main() -> None:
    count = Count()
    with tempfile.TemporaryDirectory() as folder:
        os.chmod(folder, 0o755)
        who_may_open_it(count, folder)
        what_stands_there(count, folder)
        an_interrupted_start(count, folder)
    print(f"a socket of a path: {count.tried} things, {count.wrong} otherwise")
    sys.exit(1 if count.wrong else 0)


if __name__ == "__main__":
    main()

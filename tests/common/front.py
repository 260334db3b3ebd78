"""What the tests of the front stand on: certificates, a desk, what was said between the two, and
nginx or haproxy before it."""

import contextlib
import json
import os
import re
import socket
import ssl
import subprocess
import sys
import threading
import time
from collections.abc import Callable, Iterator

from tests.common import desk

AUTHORITY = os.path.join(desk.EXAMPLES, "front-ca.sh")
NGINX = os.path.join(desk.EXAMPLES, "nginx", "desk.conf")
HAPROXY = os.path.join(desk.EXAMPLES, "haproxy", "desk.cfg")
# where the package's desk listens, and the examples look for it
SOCKET = "/run/desk/desk.sock"


def certify(
    folder: str,
    *words: str,
    dates: tuple[str, str] | None = None,
    before: tuple[str, ...] = (),
) -> None:
    """Runs the example's authority; `before` are words that start it."""
    env = dict(os.environ, FROM=dates[0], UNTIL=dates[1]) if dates else os.environ
    made = [*before, "sh", AUTHORITY, folder, *words]
    ran = subprocess.run(made, capture_output=True, text=True, check=False, env=env)
    if ran.returncode:
        sys.exit(f"front-ca.sh {' '.join(words)}: {ran.stderr}")


class Recorder:
    """Stands between front and desk, at a socket of its own, and keeps the bytes that each
    connection brought to the desk."""

    def __init__(self, desk_address: str, path: str) -> None:
        self.desk, self.address = desk_address, f"unix:{path}"
        self.requests: list[bytes] = []
        self.lock = threading.Lock()
        self.listener = socket.socket(socket.AF_UNIX)
        self.listener.bind(path)
        self.listener.listen(512)
        threading.Thread(target=self.accept, daemon=True).start()

    def accept(self) -> None:
        with contextlib.suppress(OSError):
            while True:
                peer, _ = self.listener.accept()
                threading.Thread(target=self.carry, args=(peer,), daemon=True).start()

    def carry(self, peer: socket.socket) -> None:
        """One connection: what comes goes to the desk, and the reply back."""
        given = bytearray()
        with contextlib.suppress(OSError), peer, desk.connected(self.desk, 60) as server:
            back = threading.Thread(target=pour, args=(server, peer), daemon=True)
            back.start()
            with contextlib.suppress(OSError):
                while piece := peer.recv(65536):
                    given += piece
                    server.sendall(piece)
            back.join(timeout=60)
        with self.lock:
            self.requests.append(bytes(given))


def pour(source: socket.socket, target: socket.socket) -> None:
    with contextlib.suppress(OSError):
        while piece := source.recv(65536):
            target.sendall(piece)
        target.shutdown(socket.SHUT_RDWR)


def placed(text: str, folder: str, port: int, address: str, others: tuple[str, ...] = ()) -> str:
    """A configuration of examples/ with its files, its port and the desk's address put in place,
    those for questions and for what a door answers if they are others, and less patience with a
    body that stops. The accounts of a package's machine are not here."""
    text = text.replace("/etc/desk/front", os.path.join(folder, "ca")).replace(
        "/var/log/nginx", folder
    )
    text = re.sub(r"(listen|bind) \S*443 ", rf"\1 127.0.0.1:{port} ", text)
    text = re.sub(r"(client_body_timeout +)10s", r"\g<1>2s", text)
    text = re.sub(r"(?m)^    (user|group) .*\n", "", text)

    questions, answers = others or (address, address)
    places = {"messages": address, "answers": answers, None: questions}

    def at(found: re.Match[str]) -> str:
        return places[found[2]].replace("unix:", f"unix{found[1]}", 1)

    text, count = re.subn(rf"unix([:@]){SOCKET}(?=(?:.*# (messages|answers))?)", at, text)
    assert count == 3, text
    return text


def nginx_words(folder: str, port: int, address: str, *others: str) -> list[str]:
    """Writes the whole configuration of an nginx that has the example's."""
    temp = "".join(
        f"{name}_temp_path {folder}/{name};"
        for name in ("client_body", "proxy", "fastcgi", "uwsgi", "scgi")
    )
    with open(NGINX, encoding="utf-8") as file:
        example = placed(file.read(), folder, port, address, others)
    head = f"user root; worker_processes 2; daemon off; pid {folder}/pid;"
    head += f" error_log {folder}/error.log;"
    with open(os.path.join(folder, "nginx.conf"), "w", encoding="utf-8") as file:
        file.write(
            f"{head}\nevents {{ worker_connections 1024; }}\nhttp {{ {temp}\n{example}\n}}\n"
        )
    return [
        desk.tool("nginx"),
        "-c",
        os.path.join(folder, "nginx.conf"),
        "-e",
        os.path.join(folder, "error.log"),
    ]


def haproxy_words(folder: str, port: int, address: str, *others: str) -> list[str]:
    with open(HAPROXY, encoding="utf-8") as file:
        example = placed(file.read(), folder, port, address, others)
    path = os.path.join(folder, "haproxy.cfg")
    with open(path, "w", encoding="utf-8") as file:
        file.write(example)
    for name in ("server",):
        with open(os.path.join(folder, "ca", f"{name}.both.pem"), "wb") as both:
            for part in ("pem", "key"):
                with open(os.path.join(folder, "ca", f"{name}.{part}"), "rb") as file:
                    both.write(file.read())
    return [desk.tool("haproxy"), "-db", "-f", path]


@contextlib.contextmanager
def front(words: list[str], port: int, said: str = os.devnull) -> Iterator[None]:
    """A front that answers at the port; what it writes on its output is in a file."""
    with open(said, "wb") as output, subprocess.Popen(
        words, stdout=output, stderr=subprocess.PIPE, text=True
    ) as server:
        try:
            until = time.monotonic() + 60
            while True:
                with contextlib.suppress(OSError), socket.create_connection(
                    ("127.0.0.1", port), timeout=1
                ):
                    break
                if server.poll() is not None and server.stderr is not None:
                    sys.exit(f"the front does not start: {server.stderr.read()}")
                if time.monotonic() > until:
                    sys.exit("the front does not listen")
                time.sleep(0.05)
            yield
        finally:
            server.terminate()
            server.wait(timeout=60)


def context(folder: str, name: str | None) -> ssl.SSLContext:
    """A client with the certificate of that name, or none."""
    made = ssl.create_default_context(cafile=os.path.join(folder, "ca", "ca.pem"))
    if name is not None:
        path = os.path.join(folder, name if "/" in name else f"ca/{name}")
        made.load_cert_chain(f"{path}.pem", f"{path}.key")
    return made


def exchange(
    client: ssl.SSLContext,
    port: int,
    given: bytes,
    pause: Callable[[], float] | None = None,
    patience: float = 20,
    before: Callable[[], object] = lambda: None,
) -> bytes:
    """The bytes that come back for these bytes, which are sent at once or, with pauses, one after
    the other; `before` is called when the connection is made."""
    whole = b""
    with contextlib.suppress(ConnectionError, ssl.SSLError, TimeoutError):
        with socket.create_connection(("127.0.0.1", port), timeout=patience) as plain:
            with client.wrap_socket(plain, server_hostname="127.0.0.1") as peer:
                before()
                for piece in [given[at : at + 1] for at in range(len(given))] if pause else [given]:
                    peer.sendall(piece)
                    time.sleep(pause() if pause else 0)
                while piece := peer.recv(65536):
                    whole += piece
                    # (a front that keeps the connection says no more once each request is answered)
                    if answers(whole) >= given.count(b" HTTP/1.1"):
                        peer.settimeout(1)
    return whole


def answers(whole: bytes) -> int:
    """How many replies begin in these bytes; `100 Continue` is none yet."""
    return len(re.findall(rb"(?m)^HTTP/1\.[01] [2-5]", whole))


def log_lines(folder: str, name: str = "") -> list[dict[str, str]]:
    """The lines of the front's log (nginx has what is fetched apart), or of the one of this name,
    in the order of their moments."""
    names = [name] if name else ["desk.log", "desk-fetches.log"]
    lines: list[dict[str, str]] = []
    for each in [os.path.join(folder, it) for it in names]:
        if name or os.path.exists(each):
            with open(each, encoding="utf-8", errors="surrogateescape") as log:
                lines += [json.loads(line, strict=False) for line in log]
    return sorted(lines, key=lambda it: it["time"])

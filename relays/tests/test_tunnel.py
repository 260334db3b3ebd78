"""The ssh tunnel of docs/HTTP.md: what its key may do, through a real sshd, and nothing else."""

import os
import re
import shutil
import socket
import subprocess
import tempfile
import threading
import time
from collections.abc import Iterator
from contextlib import contextmanager, suppress
from pathlib import Path

import pytest

from relays.tests.site import ROOT, Site, wait_for_port
from relays.tests.sshd import CONFIG, SSHD, keygen
from tests.common.ports import free_port, free_ports

PAGE = (ROOT / "docs" / "HTTP.md").read_text(encoding="utf-8")
SOCKET = "/run/desk/desk.sock"
ACCOUNT = "desk-tunnel"
PATIENCE = 60  # the machine may be busy

pytestmark = pytest.mark.skipif(os.geteuid() != 0, reason="sshd lets in another account, as root")


def documented() -> str:
    """The options of the document's line."""
    found = re.search(rf"^(\S*{re.escape(SOCKET)}\S*) ssh-ed25519 ", PAGE, re.MULTILINE)
    assert found, "docs/HTTP.md has no line for authorized_keys"
    return found[1]


def settings() -> str:
    """The document's lines for sshd itself."""
    found = re.search(rf"^Match User {ACCOUNT}\n(?:    \S.*\n)+", PAGE, re.MULTILINE)
    assert found, "docs/HTTP.md has no settings for sshd"
    return found[0]


def answering(server: socket.socket) -> None:
    """Another service of the machine: it answers everybody."""

    def serve() -> None:
        with suppress(OSError):
            while True:
                peer, _ = server.accept()
                peer.recv(65536)
                peer.sendall(b"HTTP/1.1 200 OK\r\nContent-Length: 5\r\n\r\nother")
                peer.close()

    server.listen()
    threading.Thread(target=serve, daemon=True).start()


class Far:
    """The desk's machine: a desk, other services, and a sshd that knows the account of tunnels,
    which has a shell here."""

    def __init__(self, folder: Path, sshd: str) -> None:
        self.folder, self.site, self.port = folder, Site(folder), free_port()
        self.site.start_desk()
        # (the account is not in the socket's group here)
        os.chmod(folder / "desk.sock", 0o666)
        self.other = socket.create_server(("127.0.0.1", 0))
        self.beside = socket.socket(socket.AF_UNIX)
        self.beside.bind(str(folder / "other.sock"))
        os.chmod(folder / "other.sock", 0o666)
        for server in (self.other, self.beside):
            answering(server)
        for name in ("host", "people-ca", "key"):
            keygen("-t", "ed25519", "-N", "", "-C", name, "-f", str(folder / name))
        (folder / "authorized_principals").write_text("")
        config = CONFIG.format(port=self.port, folder=folder)
        (folder / "sshd_config").write_text(config + sshd)
        for name, line in (
            ("passwd", f"{ACCOUNT}:x:64999:64999::/nonexistent:/bin/sh\n"),
            ("shadow", f"{ACCOUNT}:*:20000:0:99999:7:::\n"),
        ):
            (folder / name).write_bytes(Path("/etc", name).read_bytes() + line.encode())
        Path("/run/sshd").mkdir(exist_ok=True)
        mounts = [f"mount --bind {folder}/{name} /etc/{name}" for name in ("passwd", "shadow")]
        script = " && ".join([*mounts, f"exec {SSHD} -D -e -f {folder}/sshd_config"])
        words = ["unshare", "--mount", "--propagation", "private", "sh", "-c", script]
        with open(folder / "sshd.log", "wb") as log:
            self.daemon = subprocess.Popen(words, stderr=log)
        wait_for_port(self.port)

    def close(self) -> None:
        self.daemon.terminate()
        self.daemon.wait(timeout=PATIENCE)
        self.other.close()
        self.beside.close()
        self.site.close()

    def allow(self, options: str) -> None:
        """The key's line, with the socket where it is here."""
        options = options.replace(SOCKET, str(self.folder / "desk.sock"))
        key = (self.folder / "key.pub").read_text()
        (self.folder / "authorized_keys").write_text(f"{options} {key}")

    def words(self, *more: str) -> list[str]:
        options = ["IdentitiesOnly=yes", "BatchMode=yes", "UserKnownHostsFile=/dev/null"]
        options += ["StrictHostKeyChecking=no", "ExitOnForwardFailure=yes"]
        given = [part for it in options for part in ("-o", it)]
        key = ["-i", str(self.folder / "key"), "-p", str(self.port)]
        return ["ssh", "-F", "/dev/null", "-q", *key, *given, *more, f"{ACCOUNT}@127.0.0.1"]

    def has_shell(self) -> bool:
        ran = subprocess.run(
            [*self.words(), "id"], capture_output=True, text=True, timeout=PATIENCE, check=False
        )
        return "uid=" in ran.stdout

    def status(self, forward: str, where: str, *curl: str) -> str:
        """What curl gets through a forwarding, once that listens; `none` where it never does."""
        with self.forwarding(forward, where) as ssh:
            until = time.monotonic() + PATIENCE
            while time.monotonic() < until and ssh.poll() is None:
                words = ["curl", "-s", "-m", "20", "-o", "/dev/null", "-w", "%{http_code}", *curl]
                ran = subprocess.run(words, capture_output=True, text=True, check=False)
                if ran.returncode != 7:  # (7: nobody listens there yet)
                    return ran.stdout
                time.sleep(0.1)
        return "none"

    @contextmanager
    def forwarding(self, forward: str, where: str) -> Iterator[subprocess.Popen[bytes]]:
        with subprocess.Popen(self.words("-N", forward, where)) as ssh:
            try:
                yield ssh
            finally:
                ssh.terminate()

    def asked(self) -> dict[str, tuple[str, ...]]:
        """What somebody with the key could try: the forwarding, and what curl asks through it."""
        near, back, far = self.folder / "near.sock", self.folder / "back.sock", self.folder
        here, there, behind = free_ports(3)
        other = f"127.0.0.1:{self.other.getsockname()[1]}"
        by_port, by_socket = f"http://127.0.0.1:{here}", ["--unix-socket", str(near)]
        near.unlink(missing_ok=True)
        proxy = f"socks5://127.0.0.1:{behind}"
        return {
            "the desk": ("-L", f"{near}:{far}/desk.sock", *by_socket, "http://desk/v1/parked"),
            "another socket": ("-L", f"{near}:{far}/other.sock", *by_socket, "http://desk/"),
            "another port": ("-L", f"127.0.0.1:{here}:{other}", by_port),
            "a port back": ("-R", f"127.0.0.1:{there}:{other}", f"http://127.0.0.1:{there}"),
            "a socket back": ("-R", f"{back}:{other}", "--unix-socket", str(back), "http://desk/"),
            "a proxy back": ("-R", str(behind), "-x", proxy, f"http://{other}"),
        }

    def tried(self) -> dict[str, str]:
        """The answer to each try, and to a shell."""
        found = {what: self.status(*self.asked()[what]) for what in self.asked()}
        return found | {"a shell": "200" if self.has_shell() else "none"}


@contextmanager
def a_machine(sshd: str) -> Iterator[Far]:
    folder = Path(tempfile.mkdtemp())
    folder.chmod(0o777)
    found = Far(folder, sshd)
    try:
        yield found
    finally:
        found.close()
        shutil.rmtree(folder)


def test_it_opens_the_desk_and_nothing_else() -> None:
    with a_machine(settings()) as far:
        far.allow(documented())
        found = far.tried()
        assert found.pop("the desk") == "200", found
        assert "200" not in found.values(), found
        far.allow(documented().replace("command=", 'permitlisten="none",command='))
        assert far.status(*far.asked()["the desk"]) != "200"


def test_what_each_line_is_for() -> None:
    with a_machine("") as far:
        far.allow(re.sub(r',command="[^"]*"', "", documented()))
        found = far.tried()
        got = {what for what, status in found.items() if status == "200"}
        assert got == {"the desk", "a shell", "a port back", "a socket back", "a proxy back"}, found
        far.allow(re.sub(r',permitopen="[^"]*"', "", documented()))
        assert far.status(*far.asked()["another socket"]) == "200"

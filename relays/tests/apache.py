"""A front for tests: Apache with one of the example configurations of relays/, as its account.

The page stands behind it at a socket that only Apache's group opens, as on a machine with the
package. What the examples name (files, ports, the socket) is put in place; all else is as shipped.
"""

from __future__ import annotations

import os
import re
import shutil
import socket
import subprocess
import tempfile
import threading
from collections.abc import Iterator
from contextlib import contextmanager, suppress
from pathlib import Path

from relays.tests.site import RELAY, ROOT, SECRET, Site, wait_for_port
from tests.common.ports import free_port

APACHE, MODULES = "/usr/sbin/apache2", Path("/etc/apache2/mods-available")
AUTHORITY = str(ROOT / "examples" / "front-ca.sh")
ACCOUNT = "www-data"
# before a program that is to see another time
FAKETIME = "/usr/lib/x86_64-linux-gnu/faketime/libfaketimeMT.so.1"
# what Debian's Apache has from the beginning on, and what `a2enmod ssl` brings along
BASE = ["mpm_event", "authn_core", "authz_core", "authz_user", "reqtimeout", "socache_shmcb"]
CONFIG = """\
ServerName 127.0.0.1
ServerRoot {folder}
DefaultRuntimeDir {folder}
PidFile {folder}/apache.pid
ErrorLog {folder}/apache.log
LogLevel info
User {account}
Group {account}
ServerLimit 1
{modules}
"""


class FrontedSite(Site):
    """A site whose page's socket only Apache's group opens."""

    def __init__(self) -> None:
        folder = Path(tempfile.mkdtemp())
        folder.chmod(0o755)
        super().__init__(folder)
        place = folder / "run"
        place.mkdir(mode=0o750)
        shutil.chown(place, group=ACCOUNT)
        settings = self.config.read_text().replace(str(self.socket), str(place / "page.sock"))
        self.config.write_text(settings)
        self.socket, self.ca = place / "page.sock", folder / "ca"
        for words in (["init"], ["server", "desk.example", "127.0.0.1"]):
            subprocess.run(["sh", AUTHORITY, str(self.ca), *words], check=True, capture_output=True)
        (folder / "page.apache").write_text(f"RequestHeader set X-Desk-Front {SECRET}\n")

    def job(self, *words: str) -> list[str]:
        """The page runs in Apache's group, as its unit says; all else as it is."""
        before = ["setpriv", "--regid", ACCOUNT, "--clear-groups"] if words == ("page",) else []
        return [*before, RELAY, "--config", str(self.config), *words]

    def close(self) -> None:
        super().close()
        shutil.rmtree(self.folder)


class Recorder:
    """Stands in the page's place, and keeps the head of each request that the front lets through."""

    def __init__(self, site: FrontedSite) -> None:
        self.path, self.heads = site.socket.with_name(f"recorder-{id(self)}"), list[str]()
        self.listener = socket.socket(socket.AF_UNIX)
        self.listener.bind(str(self.path))
        shutil.chown(self.path, group=ACCOUNT)
        self.path.chmod(0o660)
        self.listener.listen()
        threading.Thread(target=self.serve, daemon=True).start()

    def serve(self) -> None:
        with suppress(OSError):
            while True:
                peer, _ = self.listener.accept()
                with peer, peer.makefile("rb") as file:
                    lines = [*iter(lambda: file.readline().decode().strip(), "")]
                    self.heads.append("\n".join(lines))
                    peer.sendall(b"HTTP/1.1 200 OK\r\nContent-Length: 4\r\n\r\nkept")

    def fields(self, name: str) -> list[str]:
        """The values of a field in the last head."""
        rows = [row.partition(":") for row in self.heads[-1].splitlines()[1:]]
        return [value.strip() for key, _, value in rows if key.lower() == name.lower()]


class Apache:
    """An Apache that is not started yet, with an example's text and the modules that it names."""

    def __init__(self, site: FrontedSite, example: str, more: dict[str, str]) -> None:
        self.port, self.page = free_port(), site.socket
        self.folder, self.authority = site.folder / f"apache-{self.port}", site.ca / "ca.pem"
        self.folder.mkdir()
        self.text = (ROOT / "relays" / example).read_text(encoding="utf-8")
        places = {
            "Listen 8443": f"Listen 127.0.0.1:{self.port}",
            "*:8443": f"127.0.0.1:{self.port}",
            "/etc/desk/front/": f"{site.ca}/",
            "/run/desk-relay/page.sock": str(site.socket),
            **more,
            "/etc/desk": str(site.folder),
        }
        for shipped, here in places.items():
            assert shipped in self.text, shipped
            self.text = self.text.replace(shipped, here)

    def before(self, page: Path) -> None:
        """Another program in the page's place, at a socket of its own."""
        self.text = self.text.replace(str(self.page), str(page))

    def modules(self) -> str:
        """The lines of Debian's Apache for the modules of the example's `a2enmod`."""
        named = re.search(r"a2enmod (.*)", self.text)
        assert named
        names = [*BASE, *named[1].replace("proxy_http", "proxy proxy_http").split()]
        return "".join((MODULES / f"{name}.load").read_text() for name in names)

    @contextmanager
    def running(self, variables: dict[str, str]) -> Iterator[None]:
        """Apache, until the block ends, with more variables."""
        head = CONFIG.format(folder=self.folder, account=ACCOUNT, modules=self.modules())
        config = self.folder / "apache.conf"
        config.write_text(head + self.text)
        words = [APACHE, "-D", "FOREGROUND", "-f", str(config)]
        # (an Apache that does not start would be waited for)
        subprocess.run([APACHE, "-t", "-f", str(config)], check=True, env=os.environ | variables)
        with subprocess.Popen(words, env=os.environ | variables) as server:
            try:
                wait_for_port(self.port)
                yield
            finally:
                server.terminate()

    def curl(self, words: list[str], variables: dict[str, str]) -> subprocess.CompletedProcess[str]:
        """What curl prints: the reply's text, and its status in a last line."""
        name = ["--resolve", f"desk.example:{self.port}:127.0.0.1", "--cacert", str(self.authority)]
        return subprocess.run(
            ["curl", "-sS", "-m", "60", "-w", "\n%{http_code}", *name, *words],
            capture_output=True,
            text=True,
            env=os.environ | variables,
            check=False,
        )

    def url(self, path: str = "/") -> str:
        return f"https://desk.example:{self.port}{path}"

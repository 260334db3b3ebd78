"""A front for tests: nginx with relays/front.example.conf, which knows people by certificates.

Browsers are told apart by the port that they come to: each port stands for one person. Both set
the header of the person anew, whatever the client sent.
"""

import subprocess
from pathlib import Path

from relays.tests.site import ROOT, SECRET, Site, wait_for_port
from tests.common.ports import free_port

NGINX = "/usr/sbin/nginx"
AUTHORITY = str(ROOT / "examples" / "front-ca.sh")
EXAMPLE = ROOT / "relays" / "front.example.conf"
CONFIG = """\
daemon off;
user root;
pid {folder}/nginx.pid;
error_log {folder}/nginx.log;
worker_processes 1;
events {{}}
http {{
    access_log off;
    client_body_temp_path {folder}/body;
    proxy_temp_path {folder}/proxy;
    fastcgi_temp_path {folder}/fastcgi;
    uwsgi_temp_path {folder}/uwsgi;
    scgi_temp_path {folder}/scgi;
{shipped}
{servers}
}}
"""
SERVER = """\
    server {{
        listen 127.0.0.1:{port};
        location / {{
            proxy_pass http://unix:{page};
            proxy_set_header Host $http_host;
            proxy_set_header X-Desk-Person {person};
            proxy_set_header X-Desk-Front {secret};
        }}
    }}
"""


def openssl(*words: str) -> None:
    subprocess.run(["openssl", *words], check=True, capture_output=True)


class Front:
    """nginx before a site's page."""

    def __init__(
        self, site: Site, people: list[str], certified: list[str] | None = None
    ) -> None:
        self.folder, self.tls = site.folder, free_port()
        self.ports = {person: free_port() for person in people}
        self.certificates(people if certified is None else certified)
        values = {"folder": self.folder, "page": site.socket, "secret": SECRET}
        (self.folder / "page.front").write_text(f"proxy_set_header X-Desk-Front {SECRET};\n")
        shipped = EXAMPLE.read_text().replace("8443", f"127.0.0.1:{self.tls}")
        shipped = shipped.replace("/run/desk-relay/page.sock", str(site.socket))
        shipped = shipped.replace("/etc/desk/front/", f"{self.folder}/ca/")
        shipped = shipped.replace("/etc/desk", str(self.folder))
        shipped = shipped.replace("/var/log/nginx", str(self.folder))
        servers = "".join(
            SERVER.format(port=port, person=person, **values) for person, port in self.ports.items()
        )
        config = self.folder / "nginx.conf"
        config.write_text(CONFIG.format(shipped=shipped, servers=servers, **values))
        self.process = subprocess.Popen(
            [NGINX, "-e", f"{self.folder}/nginx.log", "-c", str(config)]
        )
        wait_for_port(self.tls)

    def certificates(self, people: list[str]) -> None:
        """Certificates of the people, by examples/' authority, and some that nobody may have."""
        self.ca("init")
        self.ca("server", "127.0.0.1", "127.0.0.1")
        for person in people:
            self.ca("person", person)
            for end in ("pem", "key"):
                made = self.folder / "ca" / f"person-{person}.{end}"
                (self.folder / f"{person}.{end}").write_bytes(made.read_bytes())
        self.authority("others")
        self.certificate("stranger", "others", "/CN=bob")
        self.certificate("joined", "ca/ca", "/O=site/CN=bob")
        # (as a site's own authority makes them)
        self.certificate("plain", "ca/ca", f"/CN={people[0]}")
        # (a certificate for bob that ann makes with hers, and brings hers along)
        self.certificate("minted", people[0], "/CN=bob")
        with open(self.path("minted.pem"), "a", encoding="ascii") as file:
            file.write((self.folder / f"{people[0]}.pem").read_text())

    def path(self, name: str) -> str:
        return str(Path(self.folder) / name)

    def ca(self, *words: str) -> None:
        """The authority of examples/, as RELAYS.md has it."""
        made = ["sh", AUTHORITY, self.path("ca"), *words]
        subprocess.run(made, check=True, capture_output=True)

    def authority(self, name: str) -> None:
        new = ["req", "-x509", "-newkey", "ec", "-pkeyopt", "ec_paramgen_curve:P-256", "-nodes"]
        pair = ["-keyout", self.path(f"{name}.key"), "-out", self.path(f"{name}.pem")]
        openssl(*new, *pair, "-days", "2", "-subj", f"/CN={name}")

    def certificate(self, name: str, by: str, subject: str, extension: str = "") -> None:
        new = ["req", "-x509", "-newkey", "ec", "-pkeyopt", "ec_paramgen_curve:P-256", "-nodes"]
        pair = ["-keyout", self.path(f"{name}.key"), "-out", self.path(f"{name}.pem")]
        signer = [
            "-extensions",
            "usr_cert",
            "-CA",
            self.path(f"{by}.pem"),
            "-CAkey",
            self.path(f"{by}.key"),
        ]
        more = ["-addext", extension] if extension else []
        openssl(*new, *pair, *signer, "-days", "2", "-subj", subject, *more)

    def url(self, person: str) -> str:
        return f"http://127.0.0.1:{self.ports[person]}"

    def stop(self) -> None:
        self.process.terminate()
        self.process.wait(timeout=60)

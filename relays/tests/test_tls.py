"""A relay whose desk stands behind the front of examples/: it posts with its own certificate, and
reads with an auditor's."""

import os
import subprocess
from collections.abc import Iterator
from contextlib import contextmanager
from pathlib import Path

import pytest

from relays.tests.site import ROOT, Site, wait_for_port
from steelnewt_relay.config import BadConfig, read_config
from tests.common.ports import free_port

FRONT = ROOT / "examples" / "nginx" / "desk.conf"
AUTHORITY = str(ROOT / "examples" / "front-ca.sh")
READER = 'reader_certificate = "{ca}/auditor-web.pem"\nreader_key = "{ca}/auditor-web.key"\n'
ASK = "ask db-care --yes --on db1 --as root --for 1h /usr/bin/id"
TLS = '[tls]\ncertificate = "{ca}/relay-chat.pem"\nkey = "{ca}/relay-chat.key"\nca = "{ca}/ca.pem"\n'


@contextmanager
def fronted(site: Site, more: str) -> Iterator[None]:
    """The site's desk behind nginx, and the relay's settings for that, with more of them."""
    folder, port = site.folder, free_port()
    ca = folder / "desk-ca"
    for words in (
        ["init"],
        ["server", "127.0.0.1", "127.0.0.1"],
        ["relay", "chat"],
        ["auditor", "web"],
    ):
        subprocess.run(["sh", AUTHORITY, str(ca), *words], check=True)
    text = FRONT.read_text(encoding="utf-8").replace("/etc/desk/front", str(ca))
    text = text.replace("/var/log/nginx", str(folder)).replace("listen 443", f"listen {port}")
    text = text.replace("unix:/run/desk/desk.sock", site.url)
    conf = folder / "desk-nginx.conf"
    conf.write_text(
        f"{'user root;' if os.geteuid() == 0 else ''} daemon off; pid {folder}/pid; error_log {folder}/error.log;\nevents {{}}\n"
        f"http {{ client_body_temp_path {folder}/b; proxy_temp_path {folder}/p;\n{text}}}\n"
    )
    settings = site.config.read_text().replace(site.url, f"https://127.0.0.1:{port}")
    site.config.write_text(settings + (TLS + more).format(ca=ca))
    with subprocess.Popen(["nginx", "-c", str(conf), "-e", f"{folder}/error.log"]) as nginx:
        try:
            wait_for_port(port)
            yield
        finally:
            nginx.terminate()


def asked(site: Site) -> str:
    """A person asks, and looks at what became of it."""
    ran = site.run("ann", ASK)
    assert ran.returncode == 0, ran
    return site.run("ann", "mine -l").stdout


def test_it_reads_as_an_auditor(site: Site) -> None:
    with fronted(site, READER):
        assert "waiting" in asked(site)


def test_without_it_the_front_says_nothing(site: Site) -> None:
    with fronted(site, ""):
        # (a new outbox gives no number that the desk may have: nobody tells it which)
        ran = site.run("ann", ASK)
        assert ran.returncode == 2 and "numbers" in ran.stderr, ran
        subprocess.run(site.job("number-past", "0"), check=True)
        assert "not known" in asked(site)


@pytest.mark.parametrize("text", ["", "unix:desk.sock", "127.0.0.1:8080", "ftp://desk.example"])
def test_no_address_of_a_desk(quiet_site: Site, text: str) -> None:
    settings = quiet_site.config.read_text().replace(quiet_site.url, text)
    quiet_site.config.write_text(settings)
    with pytest.raises(BadConfig, match="neither unix:/PATH nor https://HOST"):
        read_config(str(quiet_site.config))


def test_a_certificate_without_its_key(site: Site, tmp_path: Path) -> None:
    site.config.write_text(site.config.read_text() + TLS + 'reader_certificate = "a.pem"\n')
    with pytest.raises(BadConfig, match="reader_key"):
        read_config(str(site.config)).open_desk()

"""Where the page listens, and its two keys."""

import re
import socket
import stat
import subprocess
import tomllib
from pathlib import Path

import pytest
from itsdangerous import BadSignature, URLSafeTimedSerializer

from relays.tests.site import RELAY, ROOT, SECRET, SIGNING_KEY, Site
from steelnewt_relay.config import BadConfig, read_config
from steelnewt_relay.page import check_place
from tests.common.ports import free_port


def changed(site: Site, old: str, new: str) -> str:
    """What the page says that is started with other settings, and does not start."""
    text = site.config.read_text()
    assert old in text
    site.config.write_text(text.replace(old, new))
    words = [RELAY, "--config", str(site.config), "page"]
    ran = subprocess.run(words, capture_output=True, text=True, timeout=60, check=False)
    assert ran.returncode == 2 and not ran.stdout and "Traceback" not in ran.stderr, ran
    assert not site.socket.exists()
    return ran.stderr


def test_its_socket_is_its_groups(quiet_site: Site) -> None:
    quiet_site.start_page()
    found = quiet_site.socket.stat().st_mode
    assert stat.S_ISSOCK(found) and stat.S_IMODE(found) == 0o660
    with pytest.raises(BadConfig, match="a page answers"):
        check_place(str(quiet_site.socket))


def test_a_socket_that_nobody_has_is_made_anew(quiet_site: Site) -> None:
    first = quiet_site.start_page()
    first.kill()
    first.wait(timeout=60)
    assert quiet_site.socket.exists()
    quiet_site.start_page()
    assert quiet_site.ask_page("/", {})[0] == 403


@pytest.mark.parametrize("mode", [0o777, 0o1777, 0o775])
def test_a_folder_where_others_may_write(quiet_site: Site, mode: int) -> None:
    folder = quiet_site.folder / "open"
    folder.mkdir()
    folder.chmod(mode)
    said = changed(quiet_site, "page.sock", "open/page.sock")
    assert "others may write" in said and not list(folder.iterdir())


@pytest.mark.parametrize("place", ["page.sock", "unix:page.sock", "8090", ":8090", "a:b", ""])
def test_no_place(quiet_site: Site, place: str) -> None:
    said = changed(quiet_site, f"unix:{quiet_site.socket}", place)
    assert "is no place: write unix:/run/desk-relay/page.sock" in said


@pytest.mark.parametrize("more", ["[page]\nlisten = 1", "page = 1", "page = [1]", "tls = 7"])
def test_settings_of_another_type(quiet_site: Site, more: str) -> None:
    text = quiet_site.config.read_text().partition("[page]")[0]
    quiet_site.config.write_text(f"{text}{more}\n")
    changed(quiet_site, "", "")


def test_a_port_that_somebody_has(quiet_site: Site) -> None:
    with socket.create_server(("127.0.0.1", 0)) as other:
        place = f"127.0.0.1:{other.getsockname()[1]}"
        assert "in use" in changed(quiet_site, f"unix:{quiet_site.socket}", place)


def test_an_address_is_warned_of(quiet_site: Site) -> None:
    text = quiet_site.config.read_text()
    place = f"127.0.0.1:{free_port()}"
    quiet_site.config.write_text(text.replace(f"unix:{quiet_site.socket}", place))
    quiet_site.start("page")
    quiet_site.wait_until_said("page", "the page is at")
    quiet_site.wait_until_said("page", "EVERY ACCOUNT OF THIS MACHINE REACHES THE PAGE")


def test_settings_with_one_key(quiet_site: Site) -> None:
    key = f'signing_key = "{quiet_site.folder}/page.key"\n'
    said = changed(quiet_site, key, "")
    assert "needs secret and signing_key, two files" in said
    assert "openssl rand -hex 32 > /etc/desk/page.key" in said


def test_one_key_in_two_files(quiet_site: Site) -> None:
    (quiet_site.folder / "page.key").write_text(SECRET)
    assert "hold the same key" in changed(quiet_site, "", "")


@pytest.mark.parametrize("name", ["page.secret", "page.key"])
def test_a_key_that_others_may_read(quiet_site: Site, name: str) -> None:
    (quiet_site.folder / name).chmod(0o644)
    assert f"chmod 600 {quiet_site.folder}/{name}" in changed(quiet_site, "", "")


@pytest.mark.parametrize("text", ["short", "", "é" * 40])
def test_a_key_that_is_none(quiet_site: Site, text: str) -> None:
    (quiet_site.folder / "page.key").write_text(text)
    changed(quiet_site, "", "")


def test_the_fronts_secret_signs_nothing(quiet_site: Site) -> None:
    quiet_site.start_desk()
    quiet_site.start_page()
    status, page = quiet_site.ask_page("/", {"X-Desk-Front": SECRET, "X-Desk-Person": "ann"})
    found = re.search(r'name="token" value="([^"]+)"', page)
    assert status == 200 and found
    with pytest.raises(BadSignature):
        URLSafeTimedSerializer(SECRET, salt="desk-relay page").loads(found[1])
    assert URLSafeTimedSerializer(SIGNING_KEY, salt="desk-relay page").loads(found[1])


def test_the_examples_name_one_socket(tmp_path: Path) -> None:
    relays = ROOT / "relays"
    page = tomllib.loads((relays / "relay.example.toml").read_text())["page"]
    unit = (ROOT / "packaging" / "units" / "desk-relay-page.service").read_text()
    front = (relays / "front.example.conf").read_text()
    assert page["listen"] == "unix:/run/desk-relay/page.sock"
    assert f"proxy_pass http://{page['listen']};" in front
    for kind in ("gssapi", "openidc"):
        apache = (relays / f"apache-{kind}.example.conf").read_text()
        assert f'ProxyPass "/" "{page["listen"]}|http://desk/"' in apache
    assert "RuntimeDirectory=desk-relay\n" in unit and "Group=desk-front\n" in unit
    assert read_config(str(relays / "relay.example.toml")).page_place() == page["listen"][5:]

"""desk-relay-person: who calls by ssh with which key, through a real sshd."""

import base64
import os
import re
import struct
import subprocess
from collections.abc import Iterator
from pathlib import Path

import pytest

from relays.tests.site import RELAY, Site
from relays.tests.sshd import PERSON, Sshd, keygen

OPTIONS = 'command="/bin/sh" '


@pytest.fixture
def sshd(quiet_site: Site) -> Iterator[Sshd]:
    """ann may call; mallory has a key, and nobody gave him anything."""
    for name in ("carol", "mallory"):
        keygen("-t", "ed25519", "-N", "", "-C", name, "-f", str(quiet_site.folder / name))
    found = Sshd(quiet_site, ["ann"], "eve")
    yield found
    found.stop()


def public(sshd: Sshd, name: str) -> str:
    return (sshd.folder / f"{name}.pub").read_text()


def given(sshd: Sshd, text: str | bytes) -> str:
    """A file that somebody hands in."""
    path = sshd.folder / "given.pub"
    path.write_bytes(text if isinstance(text, bytes) else text.encode())
    return str(path)


def kept(sshd: Sshd) -> bytes:
    return (sshd.folder / "authorized_keys").read_bytes()


def has_shell(sshd: Sshd, name: str) -> bool:
    return "uid=" in sshd.ssh(name, "id").stdout


def test_each_calls_as_themselves(sshd: Sshd) -> None:
    said = sshd.person("add", "--config", str(sshd.config), "carol", f"{sshd.folder}/carol.pub")
    assert said.startswith("carol may call with SHA256:")
    assert "waiting" in sshd.ssh("carol", "help").stdout
    assert not has_shell(sshd, "carol") and not has_shell(sshd, "mallory")
    listed = sshd.person("list").splitlines()
    assert [it.split(" ")[0] for it in listed] == ["ann", "carol"]
    assert said.removeprefix("carol may call with ").strip() in listed[1]
    assert oct((sshd.folder / "authorized_keys").stat().st_mode) == "0o100644"


def test_a_name_that_the_roster_lacks_is_told(sshd: Sshd) -> None:
    said = sshd.person("add", "--config", str(sshd.config), "zed", f"{sshd.folder}/carol.pub")
    assert "zed may call with SHA256:" in said and "has nobody whose name is zed" in said


def test_two_lines_give_nobody_a_shell(sshd: Sshd) -> None:
    """What `echo "options $(cat carol.pub)"` did: the second line has no options."""
    before = kept(sshd)
    two = given(sshd, public(sshd, "carol") + public(sshd, "mallory"))
    assert "has 2 lines" in sshd.person("add", "carol", two, status=2)
    assert kept(sshd) == before
    assert not has_shell(sshd, "mallory") and not has_shell(sshd, "carol")
    with open(sshd.folder / "authorized_keys", "a", encoding="ascii") as file:
        command = f"{RELAY} --config {sshd.config} --person carol"
        file.write(f'restrict,pty,command="{command}" {Path(two).read_text()}')
    assert has_shell(sshd, "mallory")
    assert "line 3 is no person's key" in sshd.person("list", status=1)
    path = f"{sshd.folder}/mallory.pub"
    assert "line 3 is no person's key" in sshd.person("add", "bob", path, status=2)


def test_what_no_file_may_have(sshd: Sshd) -> None:
    before, key = kept(sshd), public(sshd, "carol")
    bare = key.split(" ")
    odd: list[str | bytes] = [
        OPTIONS + key,
        f"cert-authority {key}",
        f" {key}",
        f"# carol\n{key}",
        f"{bare[0]} {bare[1]} carol\r{public(sshd, 'mallory')}",
        f"{bare[0]} {bare[1]}\x00 {bare[2]}",
        f"{bare[0]} {bare[1]} \x1b[2J\n",
        f"{bare[0]} {bare[1][:-8]}\n",
        f"ssh-rsa {bare[1]} carol\n",
        f"{bare[1]}\n",
        "",
        "\n\n",
        b"\xff\xfe" + key.encode("utf-16-le"),
        key + " " * 9000,
        (sshd.folder / "carol").read_bytes(),
        (sshd.folder / "eve-cert.pub").read_bytes(),
    ]
    for text in odd:
        sshd.person("add", "carol", given(sshd, text), status=2)
    sshd.person("add", "carol", f"{sshd.folder}/none.pub", status=2)
    sshd.person("add", "carol", str(sshd.folder), status=2)
    assert kept(sshd) == before


@pytest.mark.parametrize("name", ["Ann", "-ann", "a b", 'a"', "", "../a", "ann\n", "a" * 33, "\u0430nn"])
def test_no_name_of_a_person(sshd: Sshd, name: str) -> None:
    before, path = kept(sshd), f"{sshd.folder}/carol.pub"
    assert "is no person's name" in sshd.person("add", "--", name, path, status=2)
    assert "is no person's name" in sshd.person("remove", "--", name, status=2)
    assert kept(sshd) == before


def test_one_key_is_one_persons(sshd: Sshd) -> None:
    before, path = kept(sshd), f"{sshd.folder}/ann.pub"
    assert "that key is ann's: SHA256:" in sshd.person("add", "bob", path, status=2)
    assert "ann has that key" in sshd.person("add", "ann", path)
    assert kept(sshd) == before
    windows = given(sshd, public(sshd, "ann").replace("\n", "\r\n"))
    assert "that key is ann's" in sshd.person("add", "bob", windows, status=2)


def with_zeros(line: str) -> str:
    """An RSA key whose exponent has zeros before it (mpint of RFC 4251, written too long)."""
    kind, blob = line.split(" ")[:2]
    given, parts = base64.b64decode(blob), list[bytes]()
    while given:
        [size] = struct.unpack(">I", given[:4])
        parts, given = [*parts, given[4 : 4 + size]], given[4 + size :]
    parts[1] = b"\0\0\0" + parts[1]
    written = b"".join(struct.pack(">I", len(it)) + it for it in parts)
    return f"{kind} {base64.b64encode(written).decode()} other\n"


def test_one_key_however_it_is_written(sshd: Sshd) -> None:
    """sshd would take carol for whoever has the first line: it compares what it read."""
    keygen("-t", "rsa", "-b", "2048", "-N", "", "-f", str(sshd.folder / "rsa"))
    settings = ["--config", str(sshd.config)]
    sshd.person("add", *settings, "bob", given(sshd, with_zeros(public(sshd, "rsa"))))
    assert "You are bob." in sshd.ssh("rsa", "help").stdout
    said = sshd.person("add", *settings, "carol", f"{sshd.folder}/rsa.pub", status=2)
    assert "that key is bob's: SHA256:" in said
    assert "bob has that key" in sshd.person("add", *settings, "bob", f"{sshd.folder}/rsa.pub")


def test_lines_of_an_older_version(sshd: Sshd) -> None:
    """Such lines name no key: nobody calls by them, until they are written anew."""
    keys = sshd.folder / "authorized_keys"
    today = keys.read_text()
    keys.write_text(re.sub(" --key [^\"]*", "", today))
    ran = sshd.ssh("ann", "help")
    assert ran.returncode == 2 and "desk-relay-person renew" in ran.stderr, ran
    assert "1 lines were written anew" in sshd.person("renew")
    assert keys.read_text() == today
    assert "You are ann." in sshd.ssh("ann", "help").stdout
    assert "0 lines were written anew" in sshd.person("renew")


def test_a_line_with_the_digest_of_another_key(sshd: Sshd) -> None:
    keys = sshd.folder / "authorized_keys"
    bare = public(sshd, "mallory").split(" ")[1]
    keys.write_text(keys.read_text().replace(public(sshd, "ann").split(" ")[1], bare))
    said = sshd.person("remove", "ann", status=2)
    assert "line 1 names the digest of another key" in said
    assert "mallory" not in sshd.person("list")


def test_removed(sshd: Sshd) -> None:
    path = ["--config", str(sshd.config)]
    for name in ("carol", "mallory"):
        sshd.person("add", *path, "carol", f"{sshd.folder}/{name}.pub")
    assert sshd.ssh("mallory", "help").returncode == 0
    said = sshd.person("remove", "carol")
    assert said.count("SHA256:") == 2 and "What was granted stays" in said
    assert sshd.ssh("carol", "help").returncode == 255
    assert sshd.ssh("mallory", "help").returncode == 255
    assert sshd.ssh("ann", "help").returncode == 0
    assert "carol has no key here" in sshd.person("remove", "carol", status=2)


def test_a_folder_that_others_write(sshd: Sshd, tmp_path: Path) -> None:
    """A link, or a folder that is not the caller's alone: nothing is written through it."""
    open_to_all, link = sshd.folder / "open", sshd.folder / "link"
    open_to_all.mkdir(mode=0o777)
    open_to_all.chmod(0o777)
    link.symlink_to(sshd.folder)
    for folder in (open_to_all, link, sshd.folder / "none"):
        words = ["--keys", f"{folder}/authorized_keys", "add", "bob", f"{sshd.folder}/mallory.pub"]
        assert "folder" in sshd.person(*words, status=2)
    assert not list(open_to_all.iterdir())


def test_many_at_once(sshd: Sshd) -> None:
    """Two who add at one time lose nobody's line."""
    names = [f"p{number}" for number in range(8)]
    started = []
    for name in names:
        keygen("-t", "ed25519", "-N", "", "-C", name, "-f", str(sshd.folder / name))
        words = ["--keys", f"{sshd.folder}/authorized_keys", "add", name, f"{sshd.folder}/{name}.pub"]
        started.append(subprocess.Popen([PERSON, *words], stdout=subprocess.DEVNULL))
    assert [it.wait(timeout=120) for it in started] == [0] * 8
    listed = [it.split(" ")[0] for it in sshd.person("list").splitlines()]
    assert sorted(listed) == sorted(["ann", *names])
    assert not [it for it in os.listdir(sshd.folder) if it.startswith(".authorized_keys")]

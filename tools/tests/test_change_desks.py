"""desk-change-roster --desks: three desks, each behind a real sshd of its own."""

from __future__ import annotations

import os
import subprocess
from collections.abc import Iterator
from pathlib import Path

import pytest

from running import PATIENCE, Running, until
from test_change_roster import WITH_KIM, digest
from tests.common.ports import free_port

NAMES = ("a", "b", "c")
SSHD = """\
ListenAddress 127.0.0.1:{port}
HostKey {folder}/host
PidFile {folder}/sshd.pid
StrictModes no
UsePAM no
PasswordAuthentication no
PermitRootLogin prohibit-password
AuthorizedKeysFile {folder}/me.pub
ForceCommand {folder}/call
"""
# what the machine of a desk has: its programs, its files and its service
CALL = """\
#!/bin/bash
export PATH={room}/bin:$PATH ROOM={room} REAL={real} SERVE={serve} PYTHONDONTWRITEBYTECODE=1
exec bash -c "$SSH_ORIGINAL_COMMAND --conf {room}/etc/serve.conf --desk {room}/bin/desk"
"""
CLIENT = """\
Host {name}
    HostName 127.0.0.1
    Port {port}
    IdentityFile {folder}/me
    IdentitiesOnly yes
    UserKnownHostsFile /dev/null
    StrictHostKeyChecking no
    LogLevel ERROR
"""


class Machine:
    """A desk, and its sshd."""

    def __init__(self, folder: Path, name: str, desk: str) -> None:
        self.folder, self.name, self.port = folder / name, name, free_port()
        self.folder.mkdir()
        self.running = Running(self.folder, desk)
        for key in ("host", "me"):
            words = ["ssh-keygen", "-q", "-t", "ed25519", "-N", "", "-f", str(self.folder / key)]
            subprocess.run(words, check=True)
        held = self.running.environment
        call = CALL.format(room=self.folder, real=held["REAL"], serve=held["SERVE"])
        (self.folder / "call").write_text(call)
        (self.folder / "call").chmod(0o755)
        config = SSHD.format(port=self.port, folder=self.folder)
        (self.folder / "sshd_config").write_text(config)
        self.start()

    def start(self) -> None:
        Path("/run/sshd").mkdir(exist_ok=True)
        words = ["/usr/sbin/sshd", "-f", str(self.folder / "sshd_config")]
        subprocess.run(words, check=True)
        until((self.folder / "sshd.pid").exists, "sshd does not start")

    def kill_words(self) -> str:
        return f'kill "$(cat {self.folder}/sshd.pid)"\n'

    def stop(self) -> None:
        subprocess.run(["bash", "-c", self.kill_words()], check=False, capture_output=True)
        self.running.close()


class Site:
    def __init__(self, folder: Path, desk: str) -> None:
        self.folder = folder
        self.machines = [Machine(folder, name, desk) for name in NAMES]
        config = "".join(
            CLIENT.format(name=it.name, port=it.port, folder=it.folder) for it in self.machines
        )
        (folder / "ssh_config").write_text(config)

    def change(self, new: Path, *more: str) -> subprocess.CompletedProcess[str]:
        words = [*self.machines[0].running.words(new)[:2], "--desks", *NAMES]
        words += ["--ssh", f"ssh -F {self.folder}/ssh_config -o BatchMode=yes", *more]
        return subprocess.run(words, capture_output=True, text=True, timeout=PATIENCE, check=False)

    def serves(self) -> list[str | None]:
        return [it.running.serves() for it in self.machines]


@pytest.fixture
def site(tmp_path: Path, desk: str) -> Iterator[Site]:
    if os.geteuid() != 0:
        pytest.skip("the machines are reached as root")
    found = Site(tmp_path, desk)
    yield found
    for it in found.machines:
        it.stop()


def test_each_desk_is_changed(site: Site) -> None:
    """All are shown, and all have it; the history of each says why."""
    new = site.machines[0].running.new(WITH_KIM)
    old = site.serves()
    ran = site.change(new, "--show")
    assert ran.returncode == 0 and site.serves() == old, ran
    assert all(f"{it}: kim joins: operate-db\n" in ran.stdout for it in NAMES), ran
    ran = site.change(new, "--yes", "--why", "kim joins", "--approved-by", "bob")
    assert ran.returncode == 0 and "Each desk has the new roster.\n" in ran.stdout, ran
    assert site.serves() == [digest(new)] * 3
    for it in site.machines:
        assert it.running.reasons()[1:] == ["why kim joins", "approved-by bob"]
    ran = site.change(new, "--yes")
    assert ran.returncode == 0 and ran.stdout.endswith("Each desk has this roster.\n"), ran


def test_a_desk_of_three_goes_down(site: Site) -> None:
    """In the middle: it says who has which. While it is away none begins, and then the same command
    ends it."""
    a, b, c = site.machines
    new, old = a.running.new(WITH_KIM), c.running.serves()
    (a.folder / "hook").write_text(b.kill_words())
    ran = site.change(new, "--yes")
    assert ran.returncode == 3 and "a has the new roster.\n" in ran.stdout, ran
    assert "which one it has is not known); the old one is still at c: " in ran.stderr, ran
    assert site.serves() == [digest(new), old, old]
    ran = site.change(new, "--yes")
    assert ran.returncode == 2 and "no desk was begun with" in ran.stderr, ran
    assert site.serves() == [digest(new), old, old]
    (b.folder / "sshd.pid").unlink(missing_ok=True)
    b.start()
    ran = site.change(new, "--yes")
    assert ran.returncode == 0 and "a: The desk has this roster.\n" in ran.stdout, ran
    assert site.serves() == [digest(new)] * 3

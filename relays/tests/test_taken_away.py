"""A key that was taken away ends what is open too: connections, and questions that wait for their
yes. By Debian's sshd and ssh, with master connections (ControlMaster of ssh_config(5))."""

import json
import os
import subprocess
import time
from collections.abc import Callable, Iterator
from contextlib import contextmanager, suppress
from pathlib import Path

import pytest

from relays.tests.site import PATIENCE, Site
from relays.tests.sshd import Sshd, keygen

# (bob and eve may not ask for that: nobody here is refused for what they ask)
ASK = "ask db-care --on db1 --as root --for 1h --again --anyway"


@pytest.fixture
def sshd(quiet_site: Site) -> Iterator[Sshd]:
    """ann and bob have keys, and eve a certificate."""
    found = Sshd(quiet_site, ["ann", "bob"], "eve")
    yield found
    found.stop()


@contextmanager
def master(sshd: Sshd, key: str) -> Iterator[tuple[str, str]]:
    """ssh's options by which its sessions go over a connection that is open."""
    path = sshd.folder / f"{key}.master"
    words = sshd.client(key, "-M", "-S", str(path), "-N")
    with subprocess.Popen(words, stdin=subprocess.DEVNULL) as opened:
        until = time.monotonic() + PATIENCE
        while not path.exists() and opened.poll() is None and time.monotonic() < until:
            time.sleep(0.05)
        try:
            yield "-S", str(path)
        finally:
            # (ssh may miss a gentler signal, as one of its sessions ends)
            opened.kill()
            path.unlink(missing_ok=True)


@contextmanager
def question(sshd: Sshd, key: str) -> Iterator["subprocess.Popen[str]"]:
    """A call whose question waits for its yes."""
    words = [*sshd.client(key), f"{ASK} /usr/bin/id"]
    pipe = subprocess.PIPE
    with subprocess.Popen(words, stdin=pipe, stdout=pipe, stderr=pipe, text=True) as call:
        assert call.stdout
        shown = ""
        while "[y/N]" not in shown and (some := os.read(call.stdout.fileno(), 4096)):
            shown += some.decode("utf-8")
        assert "[y/N]" in shown, shown
        yield call
        call.kill()


def answered(call: "subprocess.Popen[str]") -> str:
    """What is said once the question has its yes."""
    assert call.stdin
    with suppress(BrokenPipeError):
        call.stdin.write("y\n")
        call.stdin.flush()
    said, wrong = call.communicate(timeout=PATIENCE)
    return said + wrong


def askers(site: Site) -> list[str]:
    """Whose messages the outbox has."""
    return [json.loads(body)["by"] for body, _ in site.kept()]


def test_over_a_connection_that_is_open(sshd: Sshd) -> None:
    """Each session over a master connection begins without another look of sshd's."""
    with master(sshd, "ann") as over:
        assert "You are ann." in sshd.ssh("ann", "help", options=over).stdout
        sshd.person("remove", "ann")
        assert sshd.ssh("ann", "help").returncode == 255
        ran = sshd.ssh("ann", f"{ASK} --yes /usr/bin/id", options=over)
        assert "Kept as ann" not in ran.stdout, ran
        assert ran.returncode == 2 and "was taken away" in ran.stderr, ran
        assert not sshd.ssh("ann", "history", options=over).stdout


def test_a_question_that_is_open(sshd: Sshd, quiet_site: Site) -> None:
    """An open question ends with the key that began it, and another person's goes on."""
    with question(sshd, "ann") as hers, question(sshd, "bob") as his:
        said = sshd.person("remove", "ann")
        assert "Kept as ann" not in answered(hers)
        assert "Kept as bob 1." in answered(his)
        assert askers(quiet_site) == ["bob"]
        assert "1 of ann's calls were open" in said


def test_a_line_that_is_struck_out(sshd: Sshd) -> None:
    """The call looks by itself, behind the yes too: nobody ended it."""
    keys = sshd.folder / "authorized_keys"
    with question(sshd, "ann") as hers:
        kept = [it for it in keys.read_text().splitlines(True) if "--person ann" not in it]
        keys.write_text("".join(kept))
        said = answered(hers)
        assert "Kept as ann" not in said
        assert "Nothing was sent: the key that you came with was taken away." in said
    with question(sshd, "bob") as his:
        keys.unlink()
        assert "was taken away" in answered(his)


def test_only_that_key(sshd: Sshd) -> None:
    """A person's other key goes on, by which a call is told apart from one with the lost key."""
    keygen("-t", "ed25519", "-N", "", "-f", str(sshd.folder / "new"))
    keys = sshd.folder / "authorized_keys"
    old = keys.read_text()
    with question(sshd, "ann") as lost:
        sshd.person("remove", "ann")
        sshd.person("add", "--config", str(sshd.config), "ann", str(sshd.folder / "new.pub"))
        assert "Kept" not in answered(lost)
    with question(sshd, "new") as hers:
        keys.write_text(keys.read_text() + old.splitlines(True)[0])
        assert "Kept as ann 1." in answered(hers)


# What ends a certificate's rights, with the files that sshd goes by.
def without_a_line(folder: Path) -> None:
    (folder / "authorized_principals").write_text("# nobody\n")


def in_a_list(folder: Path) -> None:
    (folder / "revoked").write_bytes((folder / "eve.pub").read_bytes())


def in_a_made_list(folder: Path) -> None:
    keygen("-k", "-f", str(folder / "revoked"), str(folder / "eve-cert.pub"))


def with_its_authority(folder: Path) -> None:
    (folder / "revoked").write_bytes((folder / "people-ca.pub").read_bytes())


def by_no_list(folder: Path) -> None:
    (folder / "revoked").write_bytes(b"no list\n")


WAYS = [without_a_line, in_a_list, in_a_made_list, with_its_authority, by_no_list]


@pytest.mark.parametrize("end", WAYS)
def test_a_certificate(sshd: Sshd, end: Callable[[Path], None]) -> None:
    with master(sshd, "eve") as over, question(sshd, "eve") as hers:
        assert "You are eve." in sshd.ssh("eve", "help", options=over).stdout
        end(sshd.folder)
        assert "Kept as eve" not in answered(hers)
        ran = sshd.ssh("eve", f"{ASK} --yes /usr/bin/id", options=over)
        assert ran.returncode == 2 and "Kept as eve" not in ran.stdout, ran


def test_a_key_in_the_list_of_revoked_keys(sshd: Sshd) -> None:
    with master(sshd, "ann") as over:
        assert "You are ann." in sshd.ssh("ann", "help", options=over).stdout
        keygen("-k", "-f", str(sshd.folder / "revoked"), str(sshd.folder / "ann.pub"))
        ran = sshd.ssh("ann", f"{ASK} --yes /usr/bin/id", options=over)
        assert "Kept as ann" not in ran.stdout, ran
        assert ran.returncode == 2 and "is revoked" in ran.stderr, ran
        assert "You are bob." in sshd.ssh("bob", "help").stdout


def outlived(sshd: Sshd, seconds: int) -> bool:
    """A connection outlives the certificate that it was made with, which holds for some seconds;
    False where it was over before eve came with it."""
    signed = ["-s", str(sshd.folder / "people-ca"), "-I", "id", "-n", "eve", "-V", f"-5m:+{seconds}s"]
    begun = time.monotonic()
    keygen(*signed, str(sshd.folder / "eve.pub"))
    with master(sshd, "eve") as over:
        said = sshd.ssh("eve", "help", options=over).stdout
        if time.monotonic() - begun > seconds - 1:
            return False
        assert "You are eve." in said
        until = begun + seconds + PATIENCE
        while sshd.ssh("eve", "help").returncode != 255 and time.monotonic() < until:
            time.sleep(1)
        ran = sshd.ssh("eve", f"{ASK} --yes /usr/bin/id", options=over)
    assert "Kept as eve" not in ran.stdout, ran
    assert "is over" in ran.stderr, ran
    return True


def test_a_certificate_that_ends(sshd: Sshd) -> None:
    # (a slow machine needs one that holds for longer)
    assert any(outlived(sshd, seconds) for seconds in (8, 30, 120))

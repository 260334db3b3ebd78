"""mydesk through a real sshd: what is typed arrives whole, and what a person's key may do; also
with a FIDO2 key in software (Debian's openssh-tests), by itself and in an agent."""

import json
import os
import shlex
import subprocess
from collections.abc import Iterator
from contextlib import contextmanager

import pytest

from door.tests.doors import MYDESK, SITE, Doored, keygen, wait_until
from door.tests.people import behind_door
from relays.tests.sshd import USER, Sshd

ASK = ("ask", "db-care", "--on", "db1", "--as", "root", "--for", "1h")
# What stands for a FIDO2 token: its keys are as those of one that is plugged in, and it is always
# touched, where its key asks for that.
TOKEN = os.environ.get("SK_DUMMY", "/usr/lib/openssh/regress/misc/sk-dummy/sk-dummy.so")


class Far:
    """A site with a door and a real sshd, which knows the keys with which people also sign."""

    def __init__(self, doored: Doored) -> None:
        self.doored = doored
        for name in ("ann", "bob"):
            for end in ("", ".pub"):
                os.unlink(doored.folder / f"{name}{end}")
        behind_door(doored)
        self.sshd = Sshd(doored.site, ["ann", "bob"], "eve")
        for name in ("ann", "bob"):
            doored.add(name)

    def sign(self, name: str, *words: str, status: int = 0, **more: str) -> str:
        client = self.sshd.client(name)
        options = [it for it in client[1:-2]]
        given = ["--desk", f"{USER}@127.0.0.1", "--site", SITE, "--person", name]
        given += ["--key", str(self.doored.folder / name), "--ssh", shlex.join(options)]
        ran = subprocess.run(
            [str(MYDESK), *given, *words], input="y\n", capture_output=True, text=True,
            env=os.environ | {"HOME": str(self.doored.folder)} | more, timeout=180, check=False,
        )  # fmt: skip
        assert ran.returncode == status, ran
        return ran.stdout + ran.stderr


@pytest.fixture
def far(fresh: Doored) -> Iterator[Far]:
    found = Far(fresh)
    try:
        yield found
    finally:
        found.sshd.stop()


def test_a_grants_life(far: Far) -> None:
    commands = ("/usr/local/sbin/w", "a:b", "--and", "/usr/bin/id")
    said = far.sign("ann", *ASK, "--why", "it's $(id)", *commands)
    assert "Kept as ann 1." in said
    assert "why       | it's $(id)" in far.sign("bob", "approve", "ann", "1")
    assert far.doored.in_force()
    assert "it ends before what was asked for" in far.sign("ann", "revoke", "ann", "1")
    assert not far.doored.in_force()


def test_a_stolen_connection_signs_nothing(far: Far) -> None:
    """Whoever has ann's way in and not her key prepares, and cannot send."""
    ran = far.sshd.ssh("ann", "prepare", *ASK, "/usr/bin/id")
    told = json.loads(ran.stdout)["items"][0]
    for line in (told["message"], far.doored.sign("thief", told["message"]).line()):
        ran = far.sshd.ssh("ann", "send", given=f"{line}\n")
        assert ran.returncode == 2, ran
    ran = far.sshd.ssh("ann", "ask --yes", *ASK[1:], "/usr/bin/id")
    assert ran.returncode == 2 and "write mydesk" in ran.stderr
    assert far.doored.held() == []


def test_who_is_somebody_else(far: Far) -> None:
    """ann's way in with bob's name, and bob's key in ann's name."""
    said = far.sign("ann", "--person", "bob", *ASK, "/usr/bin/id", status=2)
    assert "you are not that person" in said
    key = str(far.doored.folder / "bob")
    said = far.sign("ann", "--key", key, *ASK, "/usr/bin/id", status=2)
    assert "A20 BadSignature" in said
    assert far.doored.held() == []


@contextmanager
def agent(far: Far, key: str) -> Iterator[str]:
    """ssh's agent, which has a key that is on a token: its socket."""
    place = str(far.doored.folder / "agent.sock")
    words = ["ssh-agent", "-D", "-a", place, "-P", TOKEN]
    with subprocess.Popen(words, stdout=subprocess.DEVNULL) as running:
        try:
            wait_until(lambda: os.path.exists(place))
            words = ["ssh-add", "-q", "-S", TOKEN, str(far.doored.folder / key)]
            subprocess.run(words, env=os.environ | {"SSH_AUTH_SOCK": place}, check=True)
            yield place
        finally:
            running.terminate()


def on_a_token(far: Far, name: str, kind: str, *options: str) -> str:
    """A key that is on a token, with which ann signs from now on: its path."""
    path = str(far.doored.folder / name)
    keygen("-t", kind, "-w", TOKEN, "-N", "", "-C", name, "-f", path, *options)
    far.doored.add("ann", f"{path}.pub")
    return path


@pytest.mark.skipif(not os.path.exists(TOKEN), reason="the package openssh-tests is not there")
@pytest.mark.parametrize("kind", ["ed25519-sk", "ecdsa-sk"])
def test_a_security_key(far: Far, kind: str) -> None:
    """A security key signs by ssh-keygen alone, and by an agent. The door has ssh-keygen judge the
    first signature, and judges the others itself."""
    path = on_a_token(far, "token", kind)
    for number in (1, 2):
        wanted = f"/usr/local/sbin/a{number}"
        said = far.sign("ann", "--key", path, *ASK, wanted, SSH_SK_PROVIDER=TOKEN)
        assert f"Kept as ann {number}." in said
    with agent(far, "token") as place:
        far.sign("ann", "--key", f"{path}.pub", "revoke", "ann", "1", SSH_AUTH_SOCK=place)
        os.rename(path, f"{path}.away")  # (the agent alone has it)
        far.sign("ann", "--key", f"{path}.pub", "revoke", "ann", "2", SSH_AUTH_SOCK=place)
    mark = keygen("-lf", f"{path}.pub").decode().split()[1]
    assert [it["key"] for it in far.doored.came()] == [mark] * 4
    assert far.doored.codes() == ["ack"] * 4


@pytest.mark.skipif(not os.path.exists(TOKEN), reason="the package openssh-tests is not there")
def test_a_security_key_that_nobody_touches(far: Far) -> None:
    """The owner of a security key may have it ask for no touch, and an option of sshd lets such a
    key in: a door does not."""
    path = on_a_token(far, "quick", "ed25519-sk", "-O", "no-touch-required")
    said = far.sign("ann", "--key", path, *ASK, "/usr/bin/id", status=2, SSH_SK_PROVIDER=TOKEN)
    assert "A20 BadSignature" in said and "nobody touched it" in far.doored.said()
    assert far.doored.held() == []

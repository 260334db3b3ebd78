"""desk-demo: a grant's life by ssh, without a port, and without anything that stays behind."""

import os
import re
import signal
import subprocess
import sys
import time
from contextlib import suppress
from pathlib import Path

import pytest

from relays.tests.site import DESK, ROOT

DEMO = str(ROOT / "relays" / "desk-demo")
PATIENCE = 120
LISTENS = "0A"  # a TCP socket's state in /proc/PID/net/tcp


def started(folder: Path, *before: str, path: str = os.environ["PATH"]) -> subprocess.Popen[str]:
    """The demo, with a folder of its own for what it makes on the way."""
    return subprocess.Popen(
        [*before, DEMO, "--desk", DESK],
        env={**os.environ, "TMPDIR": str(folder), "PATH": path},
        stdout=subprocess.PIPE,
        stderr=subprocess.STDOUT,
        text=True,
    )


def listening(process: int) -> list[str]:
    """The TCP sockets that listen in a process's own network, by their addresses."""
    place = f"/proc/{process}"
    if os.readlink(f"{place}/ns/net") == os.readlink("/proc/self/ns/net"):
        return []  # it is not there yet
    rows = []
    for name in ("tcp", "tcp6"):
        rows += Path(f"{place}/net/{name}").read_text("ascii").splitlines()[1:]
    return [row.split()[1] for row in rows if row.split()[3] == LISTENS]


def test_the_story(tmp_path: Path) -> None:
    demo = started(tmp_path)
    said, _ = demo.communicate(timeout=PATIENCE)
    assert demo.returncode == 0, said
    decided = re.findall(r"^\$ desk decide .*\n(\w+)$", said, re.MULTILINE)
    assert decided == ["deny", "allow", "deny"], said
    grant = r"^ann db1 = \(root\) NOTBEFORE=\d{14}Z NOTAFTER=\d{14}Z /usr/bin/id$"
    assert re.search(grant, said, re.MULTILINE), said
    audited = said.partition("auditor$")[2]
    assert re.search(r"^ann 1  granted \d{14}Z to \d{14}Z$", audited, re.MULTILINE), said
    assert not list(tmp_path.iterdir())


@pytest.mark.skipif(os.geteuid() != 0, reason="a network of its own needs root")
def test_no_port_is_opened(tmp_path: Path) -> None:
    """In a network of its own, where not even loopback is up, and nothing ever listens."""
    demo = started(tmp_path, "unshare", "--net")
    while demo.poll() is None:
        with suppress(OSError):  # (it may end meanwhile)
            assert not listening(demo.pid)
        time.sleep(0.05)
    assert demo.stdout
    assert demo.returncode == 0, demo.stdout.read()


@pytest.mark.parametrize("number", [signal.SIGTERM, signal.SIGINT])
def test_stopped_halfway(tmp_path: Path, number: signal.Signals) -> None:
    demo = started(tmp_path)
    assert demo.stdout
    assert demo.stdout.readline().startswith("ann$ ssh desk ask")
    assert list(tmp_path.iterdir())
    demo.send_signal(number)
    said, _ = demo.communicate(timeout=PATIENCE)
    assert demo.returncode == 128 + number, said
    assert not list(tmp_path.iterdir())


def test_no_answer(tmp_path: Path) -> None:
    ssh = tmp_path / "bin" / "ssh"
    ssh.parent.mkdir()
    ssh.write_text("#!/bin/sh\nexit 255\n")
    ssh.chmod(0o755)
    demo = started(tmp_path, path=f"{ssh.parent}:{os.environ['PATH']}")
    said, _ = demo.communicate(timeout=PATIENCE)
    assert demo.returncode == 2
    assert said.count("ssh desk") == 1
    assert "no answer came by ssh, which ended with 255: " in said
    assert list(tmp_path.iterdir()) == [ssh.parent]


def test_a_program_that_is_not_there() -> None:
    ran = subprocess.run(
        [sys.executable, DEMO, "--desk", "no-such-desk"], capture_output=True, text=True, check=False
    )
    said = "desk-demo: it needs the program no-such-desk: install the package steelnewt\n"
    assert (ran.returncode, ran.stdout, ran.stderr) == (2, "", said)

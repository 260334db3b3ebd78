"""docs/RELAYS.md, typed line by line on a machine of its own."""

import os
import re
import subprocess
from pathlib import Path

import pytest

from relays.tests.site import DESK, ROOT
from steelnewt_relay.words import USAGE

SPACES = ["unshare", "--mount", "--net", "--pid", "--fork", "--kill-child", "--mount-proc"]


@pytest.mark.skipif(os.geteuid() != 0, reason="it makes a machine of its own, as root")
def test_a_new_reader_follows_it(tmp_path: Path) -> None:
    words = [*SPACES, "bash", str(ROOT / "relays" / "tests" / "follow.sh"), str(tmp_path), DESK]
    ran = subprocess.run(
        words,
        stdout=subprocess.PIPE,
        stderr=subprocess.STDOUT,
        stdin=subprocess.DEVNULL,
        text=True,
        timeout=300,
        check=False,
    )
    said = ran.stdout
    assert ran.returncode == 0, said
    counts = re.search(r"lines: ([0-9]+) ([0-9]+)", said)
    assert counts and int(counts[1]) <= 10 and int(counts[2]) <= 20, said
    assert "Kept as ann 1." in said and "It is in force from" in said
    assert "carol.pub is refused" in said and "mallory is refused" in said, said
    assert "uid=" not in said, said
    assert "You are <strong>bob</strong>" in said and "through its front alone" in said
    assert "a ticket of ann\nasks for a Kerberos ticket of a person of EXAMPLE.COM\n" in said, said
    assert "/etc/desk/openidc.secret root 600\nwithout its provider: 500\n" in said, said
    # nobody else gets past the front, or into the page's place
    assert said.count("thief at unix:/run/desk-relay/page.sock as 65534: not reached") == 3, said
    assert said.count("thief takes nothing: PermissionError") == 3, said
    assert "thief took" not in said and "thief has" not in said, said
    secrets = ("page.secret", "page.key", "page.front", "page.apache", "ca.key", "person-ann.key")
    for secret in (*secrets, "outbox.db"):
        assert re.search(rf"^-rw------- .* {re.escape(secret)}$", said, re.MULTILINE), said
    # (the outbox's log is there only while somebody has the outbox open)
    logs = [it for it in said.splitlines() if it.endswith(" outbox.db-wal")]
    assert all(it.startswith("-rw------- ") for it in logs), logs


def test_the_document_has_each_word() -> None:
    text = (ROOT / "docs" / "RELAYS.md").read_text(encoding="utf-8")
    for word in re.findall(r"--[a-z]+|^  ([a-z]+)", USAGE, re.MULTILINE):
        assert word in text

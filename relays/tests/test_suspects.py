"""What a suspect wrote runs nothing: an outbox with a program in it, and each command that a page
or a script gives for a file that another account can write."""

import json
import os
import re
import sqlite3
import subprocess
from collections.abc import Iterator
from contextlib import closing
from pathlib import Path

import pytest

from relays.tests.site import RELAY, ROOT, Site
from relays.tests.test_outbox import WISH
from steelnewt_client.messages import Request
from steelnewt_relay.config import read_config

FORGED = '{"at":"20260105091500Z","by":"bob","kind":"approve","no":7,"of":"ann"}'
ROW = """INSERT INTO messages (body, by, kind, of, no)
 VALUES (CAST(? AS TEXT), '', '', '', ?)"""
# The commands that a page has: those of its blocks, and those between backquotes.
SPANS = re.compile(r"^```sh\n(.*?)^```$|`([^`\n]*(?:\n[^`\n]+)?)`", re.MULTILINE | re.DOTALL)
SQLITE = re.compile(
    r"(?:(?:runuser -u|as) ([\w-]+) (?:-- )?)?\bsqlite3 +((?:-[\w-]+ +(?:'' +)?)*)"
    r"(?:\"?file:)?\"?([\w/-]*[./$][\w./$-]*|[A-Z]+\b)"
)
CHOWN = re.compile(r"\bchown +[^&|;\n]*")
# A file that whoever reads the page made in their own clone.
OWN = ("build/",)
OWNERS = {"desk.db": "desk", "outbox.db": "desk-relay"}


@pytest.fixture
def thief(quiet_site: Site) -> Iterator[Site]:
    """A relay's folder after somebody else had its account, and put a file of theirs there."""
    (quiet_site.folder / "outbox.db").unlink()
    with closing(sqlite3.connect(quiet_site.folder / "outbox.db")) as base:
        base.execute("CREATE TABLE m (id INTEGER PRIMARY KEY, body TEXT)")
        base.execute("INSERT INTO m (body) VALUES (?)", (FORGED,))
        base.commit()
        yield quiet_site


def write(site: Site, statement: str) -> None:
    with closing(sqlite3.connect(site.folder / "outbox.db")) as base:
        base.execute(statement)
        base.commit()


def sent(site: Site, *words: str) -> subprocess.CompletedProcess[str]:
    return subprocess.run(site.job("sent", *words), capture_output=True, text=True, check=False)


def runbook_line(site: Site) -> str:
    """The command with which RUNBOOKS lists what a lost relay sent, over this site's file."""
    text = (ROOT / "docs" / "RUNBOOKS.md").read_text(encoding="utf-8")
    [line] = re.findall(r"^.*> /root/sent$", text, re.MULTILINE)
    for folder in ("/var/lib/desk-relay/", "/root/"):
        line = line.replace(folder, f"{site.folder}/")
    relay = f"{RELAY} --config {site.config}"
    return re.sub(r"^(ssh \S+ )?runuser -u desk-relay -- desk-relay", relay, line)


def test_the_runbook_runs_no_program_of_the_file(thief: Site) -> None:
    """As it stands there, with a view that has sqlite3's edit() in it."""
    left = thief.folder / "left"
    write(thief, f"CREATE VIEW messages AS SELECT id, edit(body, 'id > {left} #') AS body FROM m")
    subprocess.run(["bash", "-c", runbook_line(thief)], capture_output=True, check=False)
    assert not left.exists(), left.read_text()
    assert (thief.folder / "sent").read_text() == ""
    ran = sent(thief)
    assert ran.returncode == 2 and "view messages" in ran.stderr, ran
    safe = ["sqlite3", "-safe", "-readonly", str(thief.folder / "outbox.db")]
    subprocess.run([*safe, "SELECT * FROM messages"], capture_output=True, check=False)
    assert not left.exists()


PROGRAMS = [
    "CREATE TRIGGER more AFTER INSERT ON m BEGIN DELETE FROM m; END",
    "CREATE VIRTUAL TABLE other USING fts5(body)",
    "ALTER TABLE m ADD COLUMN other TEXT AS (upper(body))",
]


@pytest.mark.parametrize("statement", PROGRAMS)
def test_no_program_of_another_kind(thief: Site, statement: str) -> None:
    write(thief, statement)
    write(thief, "ALTER TABLE m RENAME TO messages")
    ran = sent(thief)
    assert ran.returncode == 2 and "no relay makes this in an outbox" in ran.stderr, ran
    assert not ran.stdout


def test_what_was_sent(quiet_site: Site) -> None:
    """A line each, and nothing that is no message as it is posted."""
    with closing(read_config(str(quiet_site.config)).open_outbox()) as outbox:
        outbox.keep_request("ann", WISH, "20260105090000Z")
        body = f"{Request('ann', 1, '20260105090000Z', WISH).text()}\n"
        odd = [f"{FORGED}\n{FORGED}", " " + FORGED, "[" * 9000, "\x1b[2J", "7", "", "\udcff"]
        for number, text in enumerate(odd):
            row = (text.encode("utf-8", "surrogateescape"), number)
            outbox.base.execute(ROW, row)
        ran = sent(quiet_site)
        assert (ran.returncode, ran.stdout) == (0, body), ran


def test_what_was_sent_behind_a_number(quiet_site: Site) -> None:
    """Each with its own number, and with what the desk said to it."""
    with closing(read_config(str(quiet_site.config)).open_outbox()) as outbox:
        kept = [outbox.keep_request("ann", WISH, "20260105090000Z") for _ in range(3)]
        outbox.answered(kept[1].id, "acked")
    lines = [f"{it.id} {state} {it.request.text()}\n"
             for it, state in zip(kept, ("kept", "acked", "kept"), strict=True)]  # fmt: skip
    for after in range(4):
        ran = sent(quiet_site, "--after", str(after))
        assert (ran.returncode, ran.stdout) == (0, "".join(lines[after:])), ran


def commands(path: Path) -> Iterator[str]:
    """The commands that a page gives, or the lines of a script."""
    text = path.read_text(encoding="utf-8", errors="replace")
    if path.suffix != ".md":
        yield from (it for it in text.splitlines() if not it.lstrip().startswith("#"))
        return
    for found in SPANS.finditer(text):
        yield from (found[1] or " ".join(found[2].split())).splitlines()


def faults(command: str) -> Iterator[str]:
    """What a command does with a file that another account can write."""
    for found in SQLITE.finditer(command):
        account, options, file = found[1], found[2].split(), found[3]
        owner = OWNERS.get(os.path.basename(file))
        is_own = file.startswith(OWN) or (account is not None and account == owner)
        if not is_own and "-safe" not in options:
            yield f"sqlite3 without -safe: {command}"
    for found in CHOWN.finditer(command):
        words = found[0].split()
        if re.search(r"[*?\[]", found[0]) or "-h" not in words:
            yield f"chown of a glob, or one that follows a link: {command}"


def pages() -> Iterator[Path]:
    for folder in ("docs", "packaging", "examples", "relays"):
        paths = sorted((ROOT / folder).rglob("*"))
        yield from (it for it in paths if it.is_file() and "tests" not in it.parts)
    yield ROOT / "README.md"


def test_no_page_gives_such_a_command() -> None:
    found = [f"{path.relative_to(ROOT)}: {it}" for path in pages() for command in commands(path)
             for it in faults(command)]  # fmt: skip
    assert not found, "\n".join(found)


SUCH = [
    "sqlite3 /var/lib/desk-relay/outbox.db 'SELECT body FROM messages' | sort > /root/sent",
    'sqlite3 desk.db ".backup /root/desk.backup"',
    "sqlite3 -readonly desk.db 'SELECT 1'",
    'sqlite3 -batch "file:$store?mode=ro" "$1" 2>&1',
    "runuser -u desk -- sqlite3 /var/lib/desk-relay/outbox.db .dump",
    "chown desk:desk desk.db* && systemctl start desk",
    "chown desk-relay /etc/desk/webhook",
    "umask 077 && chown -h desk /var/lib/desk/*",
]


@pytest.mark.parametrize("command", SUCH)
def test_such_a_command_is_found(command: str) -> None:
    assert list(faults(command)), command


def test_a_command_that_may_stand() -> None:
    for command in (
        "sqlite3 build/desk.d/desk.db 'SELECT 1'",
        "runuser -u desk -- sqlite3 desk.db '.backup copy'",
        "sqlite3 -safe -newline '' old.db 'SELECT roster FROM desk'",
        "apt install sqlite3",
        "chown -h root:www-data /etc/desk/http.keytab",
    ):
        assert not list(faults(command)), command


PUT_BY = [("chat", "ann"), ("chat", "bob"), ("mail", "ann")]


def test_a_desks_password_speaks_as_no_relay(tmp_path: Path) -> None:
    """SEVERAL's lines for what waits in `desk.refused`, by jq and grep. A desk's account may put by
    whatever it likes there, in any relay's name."""
    text = (ROOT / "docs" / "SEVERAL.md").read_text(encoding="utf-8")
    [block] = [it for it in re.findall(r"^```sh\n(.*?)^```$", text, re.MULTILINE | re.DOTALL)
               if "desk-refused --take" in it and "desk-publish" in it]  # fmt: skip
    lines = [json.dumps({"relay": relay, "code": "P1 UnknownRelay", "body": f'{{"by":"{by}"}}'})
             for relay, by in PUT_BY]  # fmt: skip
    (tmp_path / "lines").write_text("\n".join(lines) + "\n")
    (tmp_path / "outbox").write_text('{"by":"ann"}\n')
    for name, script in (
        ("desk-refused", "cat lines"), ("desk-publish", "cat > published"), ("ssh", "cat outbox"),
    ):  # fmt: skip
        (tmp_path / name).write_text(f"#!/bin/sh\n{script}\n")
        (tmp_path / name).chmod(0o755)
    path = f"{tmp_path}:{os.environ['PATH']}"
    subprocess.run(["bash", "-ec", block], cwd=tmp_path, env={"PATH": path}, check=True)
    assert (tmp_path / "published").read_text() == '{"by":"ann"}\n'

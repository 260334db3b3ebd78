"""What a call by ssh, and whoever is on the way to a desk, may not do: wait for ever, take the
machine's memory, have words read from anybody's file, answer in the desk's place."""

import os
import struct
import subprocess
from contextlib import ExitStack
from pathlib import Path

import pytest

from relays.tests.site import PATIENCE, ROOT, Site
from relays.tests.sshd import Sshd
from steelnewt_relay.config import BadConfig, read_config
from steelnewt_relay.program import MOST_CALLS, MOST_OF_ONE

ASK = "ask db-care --on db1 --as root --for 1h --again /usr/bin/id"


def waiting(site: Site, person: str) -> "subprocess.Popen[str]":
    """A call whose question waits, or the call that was refused."""
    environment = os.environ | {"SSH_ORIGINAL_COMMAND": ASK}
    pipe = subprocess.PIPE
    call = subprocess.Popen(
        site.words(person), stdin=pipe, stdout=pipe, stderr=pipe, text=True, env=environment
    )
    assert call.stdout
    shown = ""
    while "[y/N]" not in shown and (some := os.read(call.stdout.fileno(), 4096)):
        shown += some.decode("utf-8")
    return call


def test_questions_have_a_number(quiet_site: Site) -> None:
    with ExitStack() as held:
        calls = [held.enter_context(waiting(quiet_site, "ann")) for _ in range(MOST_OF_ONE)]
        for call in calls:
            held.callback(call.kill)
        ran = quiet_site.run("ann", "help")
        assert ran.returncode == 2 and f"ann has {MOST_OF_ONE} calls open" in ran.stderr, ran
        # (one person takes no room of another's)
        assert quiet_site.run("bob", "help").returncode == 0
    assert quiet_site.run("ann", "help").returncode == 0
    assert MOST_CALLS >= 4 * MOST_OF_ONE


def unanswered(site: Site, seconds: int) -> "subprocess.CompletedProcess[str]":
    """A call as sshd starts it, which nobody answers; its patience is so many seconds."""
    short = f"import sys; from steelnewt_relay import program; program.MOST_SECONDS = {seconds}"
    short += "; sys.exit(program.main(sys.argv[1:]))"
    environment = os.environ | {"SSH_ORIGINAL_COMMAND": ASK, "PYTHONPATH": str(ROOT)}
    there, other = os.pipe()
    try:
        return subprocess.run(
            ["/usr/bin/python3", "-c", short, *site.words("ann")[1:]], stdin=there, env=environment,
            capture_output=True, text=True, timeout=seconds + PATIENCE, check=False,
        )  # fmt: skip
    finally:
        os.close(there)
        os.close(other)


def test_a_question_has_an_end(quiet_site: Site) -> None:
    for seconds in (2, 20, 200):  # (a slow machine may not have come to the question by then)
        ran = unanswered(quiet_site, seconds)
        assert ran.returncode == 1 and "This took too long, and nothing more was sent" in ran.stderr, ran
        if "[y/N]" in ran.stdout:
            break
    assert "[y/N]" in ran.stdout, ran
    assert "Traceback" not in ran.stderr and not quiet_site.kept()


def catalogue(given: str, shown: str) -> bytes:
    """A file of messages for gettext with one of them (its manual, 'The Format of GNU MO Files')."""
    texts = [it.encode() for it in ("", given, "Content-Type: text/plain; charset=UTF-8\n", shown)]
    at, table = 28 + 4 * 8, b""
    for text in texts:
        table += struct.pack("<II", len(text), at)
        at += len(text) + 1
    head = struct.pack("<7I", 0x950412DE, 0, 2, 28, 44, 0, at)
    return head + table + b"".join(it + b"\0" for it in texts)


@pytest.mark.parametrize("variable", ["LC_ALL", "LC_MESSAGES", "LANG"])
def test_no_words_of_anybodys_file(
    quiet_site: Site, monkeypatch: pytest.MonkeyPatch, variable: str
) -> None:
    """Debian's sshd lets a client set its locale, and gettext takes a path for one."""
    sshd = Sshd(quiet_site, ["ann"], "eve")
    try:
        folder = quiet_site.folder / "words" / "LC_MESSAGES"
        folder.mkdir(parents=True)
        text = catalogue("the following arguments are required: %s", "words of anybody's %s")
        (folder / "messages.mo").write_bytes(text)
        monkeypatch.setenv(variable, f"../../..{folder.parent}")
        ran = sshd.ssh("ann", "show", options=("-o", f"SendEnv={variable}"))
        assert "words of anybody's" not in ran.stdout + ran.stderr, ran
        assert "the following arguments are required" in ran.stderr, ran
    finally:
        sshd.stop()


# An address of a desk, the lines below [tls], and a piece of why it is refused.
PLACES = [
    ("http://desk.example:8080", "", "without TLS only at 127.0.0.1"),
    ("http://10.0.0.7:8080", "", "without TLS only at 127.0.0.1"),
    ("http://127.0.0.1.example:8080", "", "without TLS only at 127.0.0.1"),
    ("https://desk.example", "", "name the authority"),
    ("https://desk.example", 'ca = "/etc/desk/ca.pem"', ""),
    ("http://127.0.0.1:8080", "", ""),
    ("http://[::1]:8080", "", ""),
    ("https://localhost:8443", "", ""),
    ("unix:/run/desk/desk.sock", "", ""),
]


@pytest.mark.parametrize(("address", "tls", "why"), PLACES)
def test_who_could_answer_in_the_desks_place(
    quiet_site: Site, address: str, tls: str, why: str
) -> None:
    text = quiet_site.config.read_text().replace(quiet_site.url, address)
    Path(quiet_site.config).write_text(f"{text}[tls]\n{tls}\n")
    if not why:
        assert read_config(str(quiet_site.config)).desks == (address,)
        return
    with pytest.raises(BadConfig, match=why):
        read_config(str(quiet_site.config))

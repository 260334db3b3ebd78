"""An alarm waits for nobody: not for a program that hangs, not for what others do, and not for a
line that somebody wrote wrong."""

import json
import os
import signal
import subprocess
from datetime import timedelta
from pathlib import Path

import pytest

from relays.tests.site import ROOT, Site
from relays.tests.test_asks import brought
from relays.tests.test_notices import MAIL, Mails, mails, settings, wait_for
from steelnewt_client.messages import Wish
from steelnewt_client.moments import now, stamp
from steelnewt_relay.config import BadConfig, read_config
from steelnewt_relay.events import Event, Finder, Manner
from steelnewt_relay.notices import Notices, look
from steelnewt_relay.standing import Knowledge

__all__ = ["mails"]  # (pytest takes it by its name)
BELLS = str(ROOT / "examples" / "ring-bells.py")
MANY = 60


def event(kind: str, message: int, by: str, ceiling: str = "db-care") -> Event:
    data: dict[str, object] = {"event": kind, "by": by, "ceiling": ceiling, "to": ["bob"]}
    data |= {"thread": "t", "subject": f"{by} {message}", "text": "x"}
    return Event(kind, message, data | {"urgent": ceiling == "break-glass"})


def recorded(site: Site, *events: Event) -> None:
    outbox = read_config(str(site.config)).open_outbox()
    Notices(outbox).record(list(events))
    outbox.close()


def hanging(site: Site) -> tuple[Path, Path]:
    """A program that notes each event, and goes on with one that is no alarm once it may."""
    told, goes_on, program = (site.folder / it for it in ("told", "goes_on", "program"))
    program.write_text(
        f"#!/bin/sh\nread -r line\necho \"$line\" >> {told}\n"
        f'case $line in *break-glass*) exit 0 ;; esac\n'
        f"while [ ! -e {goes_on} ]; do sleep 0.1; done\n"
    )
    program.chmod(0o755)
    settings(site, str(program), urgent=["break-glass"], seconds=500)
    return told, goes_on


def told_by(told: Path) -> list[str]:
    lines = told.read_text().splitlines() if told.exists() else []
    return [json.loads(line)["by"] for line in lines]


def test_a_bell_waits_for_no_mail(quiet_site: Site) -> None:
    """Sixty mails are due before it, and the first of them hangs."""
    told, goes_on = hanging(quiet_site)
    recorded(quiet_site, *(event("asked", it, "carol") for it in range(MANY)))
    recorded(quiet_site, event("granted", MANY, "glass", "break-glass"))
    quiet_site.start("notify", "--every", "0.2")
    try:
        wait_for(lambda: "glass" in told_by(told), 90)
        assert len(told_by(told)) <= 2
        # (and so does one that comes later)
        recorded(quiet_site, event("asked", MANY + 1, "glass", "break-glass"))
        wait_for(lambda: told_by(told).count("glass") == 2, 90)
    finally:
        goes_on.touch()
    wait_for(lambda: len(told_by(told)) == MANY + 2)


def test_many_of_one_hold_up_nobody_else(quiet_site: Site) -> None:
    """Each person's first is told before anybody's second."""
    recorded(quiet_site, *(event("asked", it, "carol") for it in range(MANY)))
    recorded(quiet_site, *(event("asked", MANY + it, "ann") for it in range(2)))
    outbox = read_config(str(quiet_site.config)).open_outbox()
    due = [json.loads(it.body)["subject"] for it in Notices(outbox).due(False)]
    assert due[:5] == ["carol 0", "ann 60", "carol 1", "ann 61", "carol 2"], due
    outbox.close()


def test_what_is_urgent(site: Site) -> None:
    """What is asked and done under chosen ceilings, and by chosen people."""
    config, at = read_config(str(site.config)), now()
    outbox = config.open_outbox()
    notices = Notices(outbox)
    for by, ceiling in (("ann", "db-care"), ("ann", "db-emergency"), ("carol", "db-care")):
        window = stamp(at), stamp(at + timedelta(minutes=10))
        wish = Wish.of(ceiling, ["db1"], "root", ["/usr/bin/id"], window)
        brought(site, wish, by=by)
    knowledge = Knowledge(outbox, config.open_desk(), config.read_roster(), now())
    manner = Manner(urgent=("db-emergency", "carol"))
    assert look(notices, lambda: Finder(knowledge, manner)) == ""
    found = [json.loads(it.body) for it in notices.due(True)]
    assert sorted((it["by"], it["ceiling"]) for it in found) == [
        ("ann", "db-emergency"), ("carol", "db-care"),
    ]  # fmt: skip
    assert all(it["urgent"] for it in found)
    assert [json.loads(it.body)["urgent"] for it in notices.due(False)] == [False]
    outbox.close()


def test_two_processes_end_together(quiet_site: Site) -> None:
    """Whichever is killed, the other ends, and what is started again tells on."""
    told, goes_on = hanging(quiet_site)
    goes_on.touch()
    job = quiet_site.start("notify", "--every", "0.1")
    recorded(quiet_site, event("asked", 0, "ann"))
    wait_for(lambda: len(told_by(told)) == 1)
    os.kill(child_of(job.pid), signal.SIGKILL)
    assert job.wait(timeout=90) != 0
    assert "has ended" in (quiet_site.folder / "notify.log").read_text()
    job = quiet_site.start("notify", "--every", "0.1")
    wait_for(lambda: bool(children(job.pid)))
    other = child_of(job.pid)
    job.kill()
    job.wait(timeout=60)
    wait_for(lambda: not Path(f"/proc/{other}").exists())
    job = quiet_site.start("notify", "--every", "0.1")
    recorded(quiet_site, event("asked", 1, "ann"))
    wait_for(lambda: len(told_by(told)) == 2)
    other = child_of(job.pid)
    job.terminate()
    assert job.wait(timeout=90) == 0 and not Path(f"/proc/{other}").exists()


def children(process: int) -> list[int]:
    try:
        text = Path(f"/proc/{process}/task/{process}/children").read_text()
    except OSError:
        return []
    return [int(it) for it in text.split()]


def child_of(process: int) -> int:
    found = children(process)
    assert len(found) == 1, found
    return found[0]


@pytest.mark.parametrize("text", ["urgent = 1", 'urgent = "break-glass"', "urgent = [1]"])
def test_settings_that_are_none(quiet_site: Site, text: str) -> None:
    with open(quiet_site.config, "a", encoding="ascii") as file:
        file.write(f'[notify]\nprogram = ["/bin/true"]\n{text}\n')
    with pytest.raises(BadConfig, match="urgent"):
        read_config(str(quiet_site.config))


# Lines that are no name with an address, each of which costs itself alone.
WRONG = [b"carol Carol <c@x>", b"carol", b"carol not-an-address", b"\xff\xfe c@x", b"carol a@b,c@d"]


@pytest.mark.parametrize("wrong", WRONG)
def test_a_wrong_line_costs_that_line(tmp_path: Path, mails: Mails, wrong: bytes) -> None:
    """Among people's addresses, and in the file of the bells before them."""
    people, bells = tmp_path / "people", tmp_path / "bells"
    people.write_bytes(b"# who\nbob b@corp.example\n" + wrong + b"\nann a@corp.example\n")
    bells.write_bytes(b"# who\nbob b@corp.example\n" + wrong + b"\n\nann a@corp.example\n")
    program = [MAIL, "--people", str(people), "--smtp", f"127.0.0.1:{mails.port}"]
    for words in (program, ["/usr/bin/python3", "-I", BELLS, str(bells), *program]):
        given = json.dumps(event("granted", 1, "glass", "break-glass").data | {"id": "e"})
        ran = subprocess.run(words, input=given, capture_output=True, text=True, check=False)
        assert ran.returncode == 0, ran
        assert f"{people}, line 3, " in ran.stderr, ran
    assert [it["Rcpt"] for it in mails.mails] == ["b@corp.example", "a@corp.example,b@corp.example"]
    assert mails.mails[1]["X-Priority"] == "1" and "BREAK-GLASS" in mails.mails[1]["Subject"]


def test_bells_that_cannot_be_read_are_tried_again(tmp_path: Path, mails: Mails) -> None:
    """Whoever is told anyway is told; the status has the relay try again."""
    mail = [MAIL, "--domain", "x", "--smtp", f"127.0.0.1:{mails.port}"]
    words = ["/usr/bin/python3", "-I", BELLS, str(tmp_path / "none"), *mail]
    given = json.dumps(event("granted", 1, "glass", "break-glass").data | {"id": "e"})
    ran = subprocess.run(words, input=given, capture_output=True, text=True, check=False)
    assert ran.returncode == 1 and "No such file" in ran.stderr, ran
    assert [it["Rcpt"] for it in mails.mails] == ["bob@x"]


def test_an_address_that_sendmail_refuses_costs_itself(tmp_path: Path) -> None:
    """By a sendmail that refuses a mail whole for one of its addresses."""
    sendmail, sent = tmp_path / "sendmail", tmp_path / "sent"
    sendmail.write_text(
        f'#!/bin/sh\ncase "$*" in *carol@*) exit 67 ;; esac\necho "$*" >> {sent}\n'
    )
    sendmail.chmod(0o755)
    program = tmp_path / "notify-mail"
    program.write_text(Path(MAIL).read_text().replace("/usr/sbin/sendmail", str(sendmail)))
    for to, status in ((["ann", "carol", "bob"], 0), (["carol"], 1)):
        given = json.dumps(event("asked", 1, "ann").data | {"id": "e", "to": to})
        words = ["/usr/bin/python3", "-I", str(program), "--domain", "x"]
        ran = subprocess.run(words, input=given, capture_output=True, text=True, check=False)
        assert ran.returncode == status and "takes no mail to carol@x" in ran.stderr, ran
    assert [it.split(" -- ")[1] for it in sent.read_text().splitlines()] == ["ann@x", "bob@x"]


def test_an_outbox_of_an_older_relay(quiet_site: Site) -> None:
    """What was due there is told, and what is new has its turn."""
    outbox = read_config(str(quiet_site.config)).open_outbox()
    Notices(outbox).record([event("asked", 1, "carol")])
    for statement in (
        "DROP INDEX due_of_each", "ALTER TABLE notices DROP COLUMN urgent",
        "ALTER TABLE notices DROP COLUMN who", "DROP TABLE looked", "DROP TABLE untold",
        "DROP TABLE unsettled",
    ):  # fmt: skip
        outbox.base.execute(statement)
    notices = Notices(outbox)
    notices.record([event("asked", 2, "ann"), event("granted", 3, "glass", "break-glass")])
    assert [json.loads(it.body)["by"] for it in notices.due(False)] == ["carol", "ann"]
    assert [json.loads(it.body)["by"] for it in notices.due(True)] == ["glass"]
    outbox.close()

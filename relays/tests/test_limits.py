"""What a message may have is looked at before it is kept, and it is as of the moment of the yes."""

import json
import os
import subprocess
import time
from datetime import UTC
from pathlib import Path

import pytest

from relays.tests.front import Front
from relays.tests.site import DESK, ROSTER, Site
from relays.tests.test_outbox import AT, WISH, answering
from relays.tests.test_page import confirmation, post, token
from steelnewt_client.desk import Desk, Silent
from steelnewt_client.messages import BadWord, Request, Wish, canonical, command_of
from steelnewt_client.moments import now, of_stamp, stamp
from steelnewt_relay.meant import wish_of
from steelnewt_relay.outbox import Outbox
from steelnewt_relay.posting import post_one
from steelnewt_relay.roster import Roster
from steelnewt_relay.words import parse

ASK = "ask db-care --on db1 --as root --for 1h --yes"
WINDOW = ("20260105090000Z", "20260105100000Z")
LONG = "/usr/bin/" + "a" * 246
HOSTS = [f"h{number}" for number in range(17)]
COMMANDS = [f"/usr/bin/c{number}" for number in range(17)]
ARGUMENTS = ["a"] * 17
# The last that a desk takes, and the first that it does not.
FORMS = [
    (["/usr/bin/id", *ARGUMENTS[:16]], True),
    (["/usr/bin/id", *ARGUMENTS], False),
    (["/usr/bin/id", "a" * 64], True),
    (["/usr/bin/id", "a" * 65], False),
    ([LONG], True),
    ([LONG + "a"], False),
    ([LONG[:-1] + "/"], True),
    ([LONG + "/"], False),
    (["/usr/bin/id", *["a" * 64] * 15, "a" * 36], True),
    (["/usr/bin/id", *["a" * 64] * 15, "a" * 38], False),
    (["/usr/bin/id", *["," * 64] * 7, "," * 49], True),
    (["/usr/bin/id", *["," * 64] * 8], False),
    (["/usr/bin/sudoedit"], False),
    (["/usr/bin/sudoedit/"], True),
    (["/usr/../bin/id"], False),
    (["/usr/./bin/"], False),
    (["/usr/bin/.."], False),
    (["/usr/bin/..."], True),
]


def answers(site: Site, cmnds: list[str], hosts: list[str]) -> str:
    """What the desk says of a message with these lists: M3 where their form is not one."""
    wish = Wish("db-care", tuple(sorted(hosts)), "root", tuple(sorted(cmnds)), *WINDOW)
    text = Request("ann", 1, AT, wish).text()
    words = [DESK, "deliver", str(site.folder / "site.roster"), "/dev/null", "-"]
    ran = subprocess.run([*words, "chat"], input=text + "\n", capture_output=True, text=True)
    return ran.stdout.strip()


def raw(words: list[str]) -> str:
    """The text of a command, whatever its limits."""
    escaped = [it.replace(",", "\\,") for it in words[1:]]
    return " ".join([words[0], *escaped])


@pytest.mark.parametrize(("words", "is_taken"), FORMS)
def test_a_command_is_measured_as_at_the_desk(
    quiet_site: Site, words: list[str], is_taken: bool
) -> None:
    said = answers(quiet_site, [raw(words)], ["db1"])
    assert (said != "M3 BadField") is is_taken, said
    if is_taken:
        assert command_of(words) == raw(words)
    else:
        with pytest.raises(BadWord):
            command_of(words)


def test_lists_are_measured_as_at_the_desk(quiet_site: Site) -> None:
    assert answers(quiet_site, COMMANDS, ["db1"]) == "M3 BadField"
    assert answers(quiet_site, ["/usr/bin/id"], HOSTS) == "M3 BadField"
    assert answers(quiet_site, COMMANDS[:16], HOSTS[:16]) == "A4 HostOutside"
    for hosts, commands in ((HOSTS, COMMANDS[:1]), (HOSTS[:1], COMMANDS)):
        with pytest.raises(BadWord, match="more than a request may have: 16"):
            Wish.of("c", hosts, "root", commands, WINDOW)
    Wish.of("c", HOSTS[:16], "root", COMMANDS[:16], WINDOW)


@pytest.mark.parametrize("word", ["sudoedit", "sha224", "sha512"])
def test_what_sudo_keeps_for_itself(quiet_site: Site, word: str) -> None:
    assert answers(quiet_site, ["/usr/bin/id"], [word]) == "M3 BadField"
    with pytest.raises(BadWord, match="sudo keeps"):
        Wish.of("c", [word], "root", ["/usr/bin/id"], WINDOW)
    with pytest.raises(BadWord, match="sudo keeps"):
        Wish.of("c", ["db1"], word, ["/usr/bin/id"], WINDOW)


def test_a_message_is_measured_before_it_is_kept(site: Site) -> None:
    """Many commands of many commas: each is lawful, and all of them are too long."""
    words = " ".join(["," * 64] * 7)
    commands = " --and ".join(f"/usr/bin/c{number:02} {words}" for number in range(16))
    ran = site.run("ann", f"{ASK} --anyway {commands}")
    assert ran.returncode == 2 and "the desk takes 16,384" in ran.stderr, ran
    assert site.kept() == []
    # (and no number was used up)
    ran = site.run("ann", f"{ASK} --json /usr/bin/id")
    assert json.loads(ran.stdout)["no"] == 1


def test_too_many_are_refused_before_they_are_shown(site: Site) -> None:
    commands = " --and ".join(COMMANDS)
    for line in (f"{ASK} {commands}", f"{ASK} /usr/bin/id {' a' * 17}"):
        ran = site.run("ann", line)
        assert ran.returncode == 2 and "Nothing was sent" in ran.stderr and not ran.stdout, ran


# The same key again, and whether it is the same request.
AGAIN = [
    ("ask db-care --on db1,db2 --as root --for 1h --yes --once k /usr/bin/id", True),
    ("ask db-care --yes --on db2 --on db1 --as root --for 1h --once k /usr/bin/id", True),
    ("ask db-care --on db1 --as root --for 1h --yes --once k /usr/bin/id", False),
    ("ask db-emergency --on db1,db2 --as root --for 1h --yes --once k /usr/bin/id", False),
    ("ask db-care --on db1,db2 --as postgres --for 1h --yes --once k /usr/bin/id", False),
    ("ask db-care --on db1,db2 --as root --for 2h --yes --once k /usr/bin/id", False),
    ("ask db-care --on db1,db2 --as root --for 1h --from +1h --yes --once k /usr/bin/id", False),
    ("ask db-care --on db1,db2 --as root --for 1h --yes --once k /usr/bin/id -u", False),
]


def test_the_same_key_with_other_words(site: Site) -> None:
    first = site.run("ann", AGAIN[0][0])
    assert first.returncode == 0, first
    for line, is_same in AGAIN:
        ran = site.run("ann", line)
        assert (ran.returncode == 0) is is_same, (line, ran)
        assert is_same or "this key named another request, ann 1" in ran.stderr, ran
    assert len(site.kept()) == 1
    other = AGAIN[2][0].replace("--yes", "--yes --anyway")
    assert site.run("bob", other).returncode == 2 and len(site.kept()) == 2
    for key in ("''", "'a b'", "é", "a" * 101):
        assert site.run("ann", f"{ASK} --once {key} /usr/bin/id").returncode == 2


def test_a_key_that_an_older_relay_kept(tmp_path: Path) -> None:
    outbox = Outbox(str(tmp_path / "outbox.db"))
    outbox.keep_request("ann", WISH, AT, "k", "words")
    outbox.base.execute("DELETE FROM said")
    assert not outbox.keep_request("ann", WISH, AT, "k", "words").is_new
    other = Wish.of("db-care", ["db2"], "root", ["/usr/bin/id"], WINDOW)
    with pytest.raises(BadWord, match="another request"):
        outbox.keep_request("ann", other, AT, "k", "words")


def test_a_yes_by_ssh_is_of_its_own_moment(site: Site) -> None:
    environment = os.environ | {"SSH_ORIGINAL_COMMAND": f"{ASK[:-6]} /usr/bin/id"}
    pipe = subprocess.PIPE
    with subprocess.Popen(
        site.words("ann"), stdin=pipe, stdout=pipe, text=True, env=environment
    ) as call:
        assert call.stdin and call.stdout
        shown = ""
        while "[y/N]" not in shown:
            shown += call.stdout.read(1)
        time.sleep(2.1)
        begun = now()
        call.stdin.write("y\n")
        call.stdin.close()
        told = call.stdout.read()
        assert call.wait(timeout=60) == 0, told
    body = json.loads(site.kept()[-1][0])
    assert body["at"] >= stamp(begun) and body["from"] == body["at"]
    length = of_stamp(body["until"]) - of_stamp(body["from"])
    assert 3_500 < length.total_seconds() <= 3_598
    # (it is still the same as what was asked for just now)
    again = site.run("ann", f"{ASK} /usr/bin/id")
    assert again.returncode == 1 and "You asked for the same just now" in again.stdout, again


def test_a_yes_on_the_page_is_of_its_own_moment(site: Site) -> None:
    site.start_page()
    front = Front(site, ["ann"])
    try:
        shown = confirmation(front)
        time.sleep(2.1)
        begun = now()
        reply = post(f"{front.url('ann')}/send", {"token": token(shown.text), "what": "request"})
        assert "nobody approved it yet" in reply.text
    finally:
        front.stop()
    body = json.loads(site.kept()[-1][0])
    assert body["at"] >= stamp(begun) and body["from"] == body["at"]


def test_a_window_to_come_is_as_it_was_shown() -> None:
    at = now()
    said = parse("ask db-care --on db1 --as root --from +1h --for 1h /usr/bin/id")
    wish = wish_of(said, Roster.read(str(ROSTER)), "ann", UTC, at)
    assert wish.as_of(at) == wish


FRONTS = [
    (403, "does not let this certificate"),
    (413, "no message of that length"),
    (429, "no more messages through now"),
    (502, "the desk behind it is away"),
    (418, "no word of the desk's"),
]


@pytest.mark.parametrize(("status", "means"), FRONTS)
def test_a_fronts_answer_is_the_fronts(tmp_path: Path, status: int, means: str) -> None:
    outbox = Outbox(str(tmp_path / "outbox.db"))
    for body in ("<html>no</html>", "", f"{status} No\n"):
        kept = outbox.keep_request("ann", WISH, AT)
        with answering(status, body) as url:
            tried = post_one(outbox, Desk(url, "chat", None, None), kept)
            assert tried.state == "kept" and means in tried.answer
            assert tried.answer.startswith(f"a front before the desk answers {status}, not the")


def test_a_desks_answer_is_the_desks(tmp_path: Path) -> None:
    outbox = Outbox(str(tmp_path / "outbox.db"))
    kept = outbox.keep_request("ann", WISH, AT)
    with answering(503, "K4 Storage\n") as url:
        tried = post_one(outbox, Desk(url, "chat", None, None), kept)
    assert tried.answer == "the desk answers 503, K4 Storage"


def test_a_certificate_that_is_not_there(tmp_path: Path) -> None:
    desk = Desk("https://127.0.0.1:1", "chat", (str(tmp_path / "a"), str(tmp_path / "b")), None)
    with pytest.raises(Silent):
        desk.get("/v1/parked")


def test_canonical_is_measured_in_bytes() -> None:
    assert len(canonical({"a": "é"}).encode()) == 10

"""What may I ask: the words that tell it, what is checked before a yes, and `ask` without words."""

import json
import os
import pty
import random
import re
import subprocess
from collections.abc import Iterable
from datetime import datetime, timedelta
from pathlib import Path

from relays.tests.site import BASE, DESK, ROSTER, SECRET, Site, wait_for_next_second
from relays.tests.test_fuzz import answer
from relays.tests.test_page import token
from steelnewt_client.messages import Request, Verdict, Wish
from steelnewt_client.moments import now, of_stamp, stamp
from steelnewt_relay.admission import lacking, objections
from steelnewt_relay.config import read_config
from steelnewt_relay.page import create_app
from steelnewt_relay.roster import Roster

ASK = "ask db-care --on db1 --as root --for 90m --yes --again --why disk full --ticket T-1"
COMMANDS = [
    "/usr/bin/id", "/usr/bin/id -u", '/usr/bin/id ""', "/usr/bin/", "ALL", "/usr/local/sbin/",
    "/usr/local/sbin/w", "/usr/local/sbin/w -a", "/usr/local/sbin/w/x", "/usr/local/sbin",
    "/usr/bin/systemctl restart postgresql", "/usr/bin/systemctl", "/usr/bin/systemctl restart",
]  # fmt: skip


def said(site: Site, person: str, line: str, given: str = "n\n") -> tuple[int, str]:
    return answer(read_config(str(site.config)), person, line, given)


def data(site: Site, person: str, line: str) -> list[dict[str, object]]:
    """What a script reads; the words before it are for people."""
    printed = said(site, person, f"{line} --json")[1]
    found = re.search(r"^\[", printed, re.MULTILINE)
    assert found, printed
    return list(json.loads(printed[found.start() :]))


def test_what_is_said_before_a_yes_is_what_the_desk_says() -> None:
    """The program itself judges each of 400 requests."""
    chance, roster, at = random.Random(6), Roster.read(str(ROSTER)), now()
    requests, found = [], []
    for no in range(400):
        wish = Wish.of(
            chance.choice(["db-care", "db-care", "db-emergency", "other"]),
            chance.sample(["db1", "db1", "db2", "web1"], chance.choice([1, 1, 2])),
            chance.choice(["root", "root", "postgres", "www"]),
            chance.sample(COMMANDS, chance.choice([1, 1, 2])),
            (stamp(at), stamp(at + timedelta(seconds=chance.choice([60, 900, 901, 7200, 7201])))),
        )
        by = chance.choice(["ann", "ann", "carol", "bob", "mallory"])
        requests.append(Request(by, no, stamp(at), wish).text())
        found.append(objections(roster, by, wish, at))
    ran = subprocess.run(
        [DESK, "deliver", str(ROSTER), str(BASE), "-", "chat"],
        input="".join(f"{it}\n" for it in requests), capture_output=True, text=True, timeout=300,
        check=False,
    )  # fmt: skip
    told = ran.stdout.splitlines()
    assert len(told) == 400 and 20 < told.count("ack") < 380, ran
    for text, said_here, said_there in zip(requests, found, told, strict=True):
        assert (not said_here) == (said_there == "ack"), (text, said_here, said_there)


def test_who_lacks_approvers_is_who_the_desk_grants_nothing(tmp_path: Path) -> None:
    """Everybody approves each request, under twenty ceilings: the program itself grants or not."""
    path, at = tmp_path / "roster", now()
    path.write_text(roster_of(random.Random(8)))
    roster = Roster.read(str(path))
    asked = [
        (by, Wish.of(label, ["db1"], "root", [f"/usr/bin/{label}"], window(at, 60)))
        for label in roster.ceilings for by in ("ann", "carol")
    ]  # fmt: skip
    messages = [Request(by, no, stamp(at), wish).text() for no, (by, wish) in enumerate(asked)]
    messages += [
        Verdict(it, "approve", by, no, stamp(at)).text()
        for no, (by, _) in enumerate(asked) for it in roster.people if it != by
    ]  # fmt: skip
    files = [str(path), str(BASE), str(tmp_path / "desk.db")]
    assert "M" not in program("deliver", *files, "chat", given=messages)
    printed = program("print", *files, "db1")
    granted = [bool(re.search(rf"\n{by} db1 = .* {wish.commands[0]}\n", printed))
               for by, wish in asked]  # fmt: skip
    assert granted == [not lacking(roster, by, wish, at) for by, wish in asked], printed
    assert 5 < granted.count(True) < 35, granted


def roster_of(chance: random.Random) -> str:
    """A roster with twenty ceilings, whose approvers are some of five people."""
    duties = [f"approve-{it}" for it in range(5)]
    people = {
        it: ["operate", *chance.sample([*duties, "audit"], 3)]
        for it in ("ann", "bob", "carol", "dave", "eve")
    }
    conflicts = [[it, "audit"] for it in duties[:2]]
    text = 'relays = ["chat"]\nhosts = ["db1"]\n'
    text += f'duties = {json.dumps([*duties, "audit", "operate"])}\n'
    text += f"conflicts = {json.dumps(conflicts)}\n\n[people]\n"
    text += "".join(f"{name} = {json.dumps(sorted(it))}\n" for name, it in people.items())
    for number in range(20):
        text += f"""
[ceilings.c{number:02}]
ask = "operate"
approve = "{chance.choice(duties)}"
needs = {chance.choice([1, 1, 2, 2, 3])}
hosts = ["db1"]
runas = ["root"]
commands = ["/usr/bin/c{number:02}"]
longest = 3600
"""
    return text


def window(at: datetime, seconds: int) -> tuple[str, str]:
    return stamp(at), stamp(at + timedelta(seconds=seconds))


def program(*words: str, given: Iterable[str] = ()) -> str:
    lines = "".join(f"{it}\n" for it in given)
    ran = subprocess.run(
        [DESK, *words], input=lines, capture_output=True, text=True, timeout=300, check=False
    )
    assert ran.returncode in (0, 2), ran
    return ran.stdout


def test_the_words(quiet_site: Site) -> None:
    site = quiet_site
    told = said(site, "ann", "ceilings")[1]
    assert "at most   2 hours" in told and "may approve bob, carol" in told
    assert "running   ALL" in told and "needs     approvals of 2 people" in told
    found = {str(it["ceiling"]): it for it in data(site, "carol", "ceilings")}
    assert sorted(found) == ["db-care", "db-emergency"]
    assert found["db-care"]["approvers"] == ["bob"] and found["db-care"]["longest"] == 7200
    assert "nothing that you may ask" in said(site, "bob", "ceilings")[1]
    assert data(site, "bob", "ceilings") == []
    assert said(site, "ann", f"{ASK} /usr/local/sbin/w a:b,c=d")[0] == 3
    assert said(site, "carol", ASK.replace("db1", "db2") + " /usr/bin/id")[0] == 3
    assert [it["who"] for it in data(site, "dave", "history")] == ["carol", "ann"]
    assert [it["who"] for it in data(site, "dave", "history --on db2")] == ["carol"]
    assert [it["who"] for it in data(site, "dave", "history --who ann --all")] == ["ann"]
    assert [it["why"] for it in data(site, "dave", "show ann 1")] == ["disk full"]
    assert said(site, "dave", "show ann 9")[0] == 2


def test_again(quiet_site: Site) -> None:
    site = quiet_site
    assert "no such request" in said(site, "ann", "again --yes")[1]
    said(site, "ann", f"{ASK} /usr/local/sbin/w a:b,c=d")
    said(site, "ann", ASK.replace("db1", "db2") + " /usr/bin/id")
    status, told = said(site, "ann", "again 1")
    assert status == 1 and "db1" in told and "1 hour 30 minutes" in told and "T-1" in told, told
    said(site, "ann", "again 1 --yes")
    said(site, "ann", "again --for 30m --why another --yes")
    found = data(site, "ann", "mine")[::-1]
    same = ("ceiling", "hosts", "runas", "commands", "ticket")
    for new, old in ((2, 0), (3, 2)):
        assert [found[new][it] for it in same] == [found[old][it] for it in same]
    assert [it["why"] for it in found] == ["disk full"] * 3 + ["another"]
    assert said(site, "bob", "again 1 --yes")[0] == 2


def test_it_is_checked_before_a_yes(quiet_site: Site) -> None:
    line = "ask db-care --on web1 --as www --for 3h /usr/sbin/reboot"
    status, told = said(quiet_site, "ann", line)
    assert status == 2 and "Send it?" not in told
    status, told = said(quiet_site, "ann", line.replace("--for", "--anyway --for"))
    assert status == 1 and told.index("The desk will refuse this: web1 is") < told.index("Send it?")
    for piece in ("www is outside", "/usr/sbin/reboot is outside", "at most 2 hours"):
        assert piece in told


def test_without_words_where_nobody_answers(quiet_site: Site) -> None:
    status, told = said(quiet_site, "ann", "ask", "y\n")
    assert status == 2 and "ssh -t" in told


def lead(site: Site, person: str, answers: list[str]) -> str:
    """`ask` at a terminal: what is shown, with what is typed."""
    here, there = pty.openpty()
    environment = os.environ | {"SSH_ORIGINAL_COMMAND": "ask"}
    call = subprocess.Popen(
        site.words(person), stdin=there, stdout=subprocess.PIPE, stderr=subprocess.STDOUT,
        env=environment,
    )  # fmt: skip
    os.close(there)
    os.write(here, "".join(f"{it}\n" for it in answers).encode())
    assert call.stdout
    told = call.stdout.read().decode("utf-8")
    call.wait(timeout=120)
    os.close(here)
    return told


def test_it_leads_through(quiet_site: Site) -> None:
    site = quiet_site
    with open(site.config, "a", encoding="ascii") as file:
        file.write('[why]\nrequired = true\nticket = "T-[0-9]+"\n')
    told = lead(
        site, "ann",
        ["other", "db-care", "web1", "db1 db2", "www", "root", "/usr/sbin/reboot", "/usr/bin/id",
         "/usr/local/sbin/w -a", "", "", "3h", "30m", "", "disk full", "x", "T-7", "y"],
    )  # fmt: skip
    for piece in (
        "one of db-care", "some of db1, db2", "one of postgres, root", "does not allow",
        "at most 2 hours", "a reason is needed", "no ticket of this site", "Kept as ann 1",
    ):  # fmt: skip
        assert piece in told, (piece, told)
    found = data(site, "ann", "mine")[0]
    assert found["hosts"] == ["db1", "db2"]
    assert found["commands"] == ["/usr/bin/id", "/usr/local/sbin/w -a"]
    assert (found["why"], found["ticket"]) == ("disk full", "T-7")
    told = lead(site, "ann", ["y", "y"])
    assert "Your last request, ann 1" in told and "Kept as ann 2" in told, told
    assert "you may ask for now" in lead(site, "bob", [])


def test_the_page_offers_the_same(quiet_site: Site) -> None:
    site = quiet_site
    said(site, "ann", f"{ASK} /usr/local/sbin/w a:b,c=d")
    page = create_app(read_config(str(site.config))).test_client(use_cookies=False)

    def get(path: str, person: str = "ann") -> str:
        own = {"X-Desk-Front": SECRET, "X-Desk-Person": person}
        return page.get(path, headers=own).get_data(as_text=True)

    home = get("/")
    assert "<dt>may approve</dt>" in home and "<dd>bob, carol</dd>" in home and "Ask again" in home
    again = get("/again?no=1")
    for piece in ('value="db1"', "/usr/local/sbin/w a:b,c=d<", 'value="1h30m"', 'value="T-1"'):
        assert piece in again, again
    assert "no such request" in get("/again?no=1", "bob")
    assert "ann 1" in get("/history", "dave") and "ann 1" in get("/history?on=db1&who=ann", "dave")
    assert "ann 1" not in get("/history?on=db2", "dave") and "is no host" in get("/history?on=%3Cb")
    fields = {"ceiling": "db-care", "hosts": "web1", "runas": "root", "commands": "/usr/bin/id",
              "length": "1h", "token": token(home)}  # fmt: skip
    own = {"X-Desk-Front": SECRET, "X-Desk-Person": "ann"}
    shown = page.post("/ask", data=fields, headers=own).get_data(as_text=True)
    assert "On which hosts</a>: web1 is outside db-care" in shown and "Yes, ask" not in shown


def test_the_same_at_another_time_and_for_another_ticket(site: Site) -> None:
    """`again` takes a window and a ticket in place of those that the request had."""
    first = json.loads(site.run("ann", f"{ASK} --json /usr/bin/id --and /usr/bin/id x").stdout)
    told = site.data("ann", "again 1 --from +1h --until +90m --ticket OPS-2 --yes")
    assert isinstance(told, dict) and first["ticket"] == "T-1"
    assert told["no"] == 2 and told["ticket"] == "OPS-2"
    assert all(told[name] == first[name] for name in ("hosts", "runas", "commands", "why"))
    begins, ends = of_stamp(told["from"]), of_stamp(told["until"])
    assert ends - begins == timedelta(minutes=30)
    assert timedelta(minutes=59) < begins - of_stamp(first["from"]) < timedelta(minutes=65)


def test_a_revocation_once_more(site: Site) -> None:
    assert site.run("ann", f"{ASK} /usr/bin/id").returncode == 0
    assert site.run("ann", "revoke ann 1 --yes").returncode == 0
    ran = site.run("ann", "revoke ann 1 --yes")
    assert ran.returncode == 1 and "You revoked ann 1 already" in ran.stdout, ran
    wait_for_next_second()  # (a verdict of the same second is the same message)
    assert site.run("ann", "revoke ann 1 --yes --again").returncode == 0
    assert len(site.kept()) == 3

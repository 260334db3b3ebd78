"""What somebody needs at three in the morning, by ssh: a reason that stays a reason, a refusal that
says why, lists of one line, several at once, and words that lead on."""

import json
import os
import pty
import re
import select
import subprocess
import time
from collections.abc import Iterator
from datetime import timedelta

import pytest

from relays.tests.site import PATIENCE, Site
from relays.tests.test_asks import brought, wish
from relays.tests.test_fuzz import answer
from relays.tests.test_reasons import exported
from steelnewt_client.messages import Wish
from steelnewt_client.moments import now, stamp
from steelnewt_relay.config import read_config
from steelnewt_relay.words import parse

ASK = "ask db-care --on db1 --as root --for 1h --yes --again"
NIGHT = "ask db-emergency --on db1 --as root --for 15m"


@pytest.fixture(scope="module")
def served(tmp_path_factory: pytest.TempPathFactory) -> Iterator[Site]:
    """A site whose desk serves all of these tests."""
    found = Site(tmp_path_factory.mktemp("night"))
    found.start_desk()
    yield found
    found.close()


@pytest.fixture
def site(served: Site) -> Site:
    served.begin_anew()
    return served


def said(site: Site, person: str, line: str, given: str = "") -> tuple[int, str]:
    return answer(read_config(str(site.config)), person, line, given)


def asks(site: Site, person: str = "ann", more: str = "", command: str = "/usr/bin/id") -> None:
    status, told = said(site, person, f"{ASK} {more} {command}")
    assert status in (0, 3), told


def data(site: Site, person: str, line: str) -> list[dict[str, object]]:
    """What a script reads, without the words before it."""
    told = said(site, person, f"{line} --json")[1]
    found = json.loads(told[re.search("^\\[", told, re.MULTILINE).start() :])  # type: ignore
    # (what is asked by other tests of the same desk is another relay's here)
    return [it for it in found if not it["elsewhere"]]


def lines(told: str) -> list[str]:
    return told.rstrip("\n").splitlines()


# What is typed, and a piece of what is said. ssh took one layer of quotes away.
DOUBTS = [
    (f"{NIGHT} --why disk of /var full ALL", "part of the reason?"),
    (f"{NIGHT} --why disk of /var full", "part of the reason?"),
    ("ask db-care --on db1 --for 1h --why look at /var/log /usr/bin/id", "part of the reason?"),
    ("ask db-care --on db1 --as root --for 1h /usr/bin/id --why down", "--why an option of yours"),
    ("ask db-care --on db1 --as root --for 1h /usr/bin/id --on db2", "--on an option of yours"),
    (f"{NIGHT} --why can't connect ALL", "ssh takes one layer of quotes away"),
    (f"{NIGHT} --why it's full ALL", "ssh takes one layer of quotes away"),
]


@pytest.mark.parametrize(("line", "piece"), DOUBTS)
def test_a_path_in_a_reason_is_never_a_command(quiet_site: Site, line: str, piece: str) -> None:
    status, told = said(quiet_site, "ann", f"{line}", "y\n")
    assert status == 2 and piece in told and "Kept as" not in told, told
    assert said(quiet_site, "ann", "mine")[1].startswith("You asked for nothing.")


# What is surely meant: the words, the reason, the commands.
SURE = [
    (f"{NIGHT} --anyway --why disk of /var full -- ALL", "disk of /var full", ["ALL"]),
    (f"{NIGHT} --anyway --why 'disk of /var/lib, can''t write' ALL", "disk of /var/lib, cant write",
     ["ALL"]),
    ("ask db-care --on db1 --for 2 h --why disk is full /usr/bin/id", "disk is full",
     ["/usr/bin/id"]),
    ("ask db-care --on db1 --for 1h -- /usr/bin/id --why down", None, ["/usr/bin/id --why down"]),
]  # fmt: skip


@pytest.mark.parametrize(("line", "why", "commands"), SURE)
def test_what_is_surely_meant_is_sent(
    quiet_site: Site, line: str, why: str | None, commands: list[str]
) -> None:
    line = line.replace("--for", "--yes --anyway --for", 1)
    assert said(quiet_site, "ann", line)[0] == 3
    [found] = data(quiet_site, "ann", "mine")
    assert (found["why"], found["commands"]) == (why, commands)


class Terminal:
    """A call at a terminal, and all that is shown."""

    def __init__(self, site: Site, person: str, line: str, typed: str = "") -> None:
        self.here, there = pty.openpty()
        environment = os.environ | {"SSH_ORIGINAL_COMMAND": line, "TERM": "dumb"}
        self.shown, self.call = "", subprocess.Popen(
            site.words(person), stdin=there, stdout=there, stderr=there, env=environment,
            start_new_session=True,
        )  # fmt: skip
        os.close(there)
        os.write(self.here, typed.encode())

    def until(self, piece: str, seconds: float = PATIENCE) -> str:
        """All that is shown, once a piece of text has come or the call has ended."""
        end = time.monotonic() + seconds
        while piece not in self.shown and time.monotonic() < end:
            if select.select([self.here], [], [], 1)[0]:
                try:
                    some = os.read(self.here, 4096).decode("utf-8", "replace")
                except OSError:
                    break
                self.shown += some.replace("\r\n", "\n")
        return self.shown

    def close(self) -> int:
        """The status of a call that has said all."""
        status = self.call.wait(timeout=PATIENCE)
        os.close(self.here)
        return status


def at_terminal(site: Site, person: str, line: str, typed: str, until: str) -> str:
    terminal = Terminal(site, person, line, typed)
    told = terminal.until(until)
    terminal.close()
    return told


def test_at_a_terminal_it_is_asked(quiet_site: Site) -> None:
    line = f"{NIGHT} --anyway --no-wait --why disk of /var full ALL"
    told = at_terminal(quiet_site, "ann", line, "2\ny\n", "Kept as ann 1.")
    assert "Which do you mean?" in told and "Kept as ann 1." in told, told
    [(body, _)] = quiet_site.kept()
    assert json.loads(body)["cmnds"] == ["ALL"]
    assert "disk of /var full" in said(quiet_site, "ann", "show ann 1")[1]


def test_a_verdict_has_a_reason(site: Site) -> None:
    """The asker reads the reason, and it is kept with the verdict."""
    asks(site)
    assert said(site, "bob", f"refuse ann {site.no()} --yes --why not now, see OPS-9")[0] == 0
    told = said(site, "ann", f"show ann {site.no()}")[1]
    assert "bob refused it" in told and "why       | not now, see OPS-9" in told, told
    [found] = data(site, "ann", "mine")
    why = "not now, see OPS-9"
    assert found["verdicts"][0]["why"] == why  # type: ignore[index]
    assert [it["why"] for it in exported(site) if it.get("kind") == "refuse"] == [why]
    status, told = said(site, "bob", f"refuse ann {site.no()} --yes --again --why {'x' * 501}")
    assert status == 2 and "at most 500" in told


def test_a_window_is_told_as_it_was_asked(site: Site) -> None:
    """The seconds of reading are not lost, and what is left of a window is said."""
    at = now()
    brought(site, wish(at, timedelta(minutes=59, seconds=58)))
    brought(site, wish(at - timedelta(minutes=35)))
    _, told = said(site, "bob", f"approve ann {site.no()}", "n\n")
    assert "how long  1 hour\n" in told and "for 1 hour" in told, told
    _, told = said(site, "bob", f"approve ann {site.no(2)}", "n\n")
    left = re.search(r"(\d+) of the 60 minutes are left", told)
    assert left and 18 <= int(left[1]) <= 25, told


def test_a_grant_is_extended_from_its_end(quiet_site: Site) -> None:
    asks(quiet_site)
    first = json.loads(quiet_site.kept()[0][0])
    for words in ("again 1 --from end --yes", "extend 1 --yes"):
        assert said(quiet_site, "ann", words)[0] == 3
    for body, _ in quiet_site.kept()[1:]:
        assert json.loads(body)["from"] == first["until"]


def test_what_too_few_may_approve_is_not_sent(quiet_site: Site) -> None:
    """carol may not approve her own, and bob alone is not two."""
    status, told = said(quiet_site, "carol", f"{NIGHT} --yes ALL")
    assert status == 2 and "This cannot be granted: it needs approvals of 2" in told, told
    assert "only bob may approve it for carol" in told, told
    assert said(quiet_site, "carol", f"{NIGHT} --yes --anyway ALL")[0] == 3
    assert said(quiet_site, "ann", f"{NIGHT} --yes ALL")[0] == 3


# What the desk would surely refuse, and the words that say what would do.
HOPELESS = [
    ("--on db9 --as root --for 1h /usr/bin/id", "db9 is outside db-care: it may be db1, db2"),
    ("--on db1 --as www --for 1h /usr/bin/id", "www is outside db-care: it may be postgres, root"),
    ("--on db1 --as root --for 3h /usr/bin/id", "db-care gives at most 2 hours"),
    ("--on db1 --as root --for 1h /usr/sbin/reboot", "/usr/sbin/reboot is outside db-care"),
]


@pytest.mark.parametrize(("words", "piece"), HOPELESS)
def test_what_is_surely_refused_is_not_sent(quiet_site: Site, words: str, piece: str) -> None:
    status, told = said(quiet_site, "ann", f"ask db-care --yes {words}")
    assert status == 2 and piece in told and "Kept as" not in told, told
    assert said(quiet_site, "ann", f"ask db-care --yes --anyway {words}")[0] == 3
    assert len(quiet_site.kept()) == 1


@pytest.mark.parametrize("person", ["ann", "dave"])
def test_a_verdict_that_will_not_count(site: Site, person: str) -> None:
    """The verdict is not sent; with `--anyway` the same is read behind it, and the status is 1."""
    asks(site)
    status, told = said(site, person, f"approve ann {site.no()} --yes")
    assert status == 2 and "will not count" in told and len(site.kept()) == 1, told
    status, told = said(site, person, f"approve ann {site.no()} --yes --anyway")
    assert status == 1 and "it does not count" in told, told


def test_what_is_said_before_is_what_comes(site: Site) -> None:
    """An approval behind enough others would change nothing; once it is sent, the desk's word
    counts."""
    asks(site)
    assert said(site, "bob", f"approve ann {site.no()} --yes")[0] == 0
    status, told = said(site, "carol", f"approve ann {site.no()} --yes")
    assert status == 2 and "Your approval would change nothing: enough people" in told, told
    status, told = said(site, "carol", f"approve ann {site.no()} --yes --anyway")
    assert status == 0 and "The desk has your approval." in told and "not count" not in told, told
    assert "The desk grants it. It is in force from" in told, told


def test_lists_have_one_line_for_each(quiet_site: Site) -> None:
    """As many lines as requests, the newest last; what ends first is on top of what waits."""
    # (a desk of its own: what is asked by other tests is another relay's here)
    site, at = quiet_site, now()
    site.start_desk()
    for number in range(30):
        brought(site, wish(at - timedelta(seconds=30 - number)))
    brought(site, wish(at - timedelta(minutes=50)), ("bob", "refuse", at))
    hosts = Wish.of("db-care", ["db1", "db2"], "root", ["/usr/bin/id"],
                    (stamp(at), stamp(at + timedelta(minutes=11))))  # fmt: skip
    brought(site, hosts, by="carol")
    told = lines(said(site, "ann", "mine")[1])
    first, last = f"ann {site.no()} ", f"ann {site.no(31)} "
    assert len(told) == 31 and told[0].startswith(first) and told[-1].startswith(last)
    assert "refused" in told[-1] and all(len(it) <= 80 for it in told), told
    told = lines(said(site, "bob", "waiting")[1])
    assert told[0].startswith(f"carol {site.no()} "), told
    assert "root@2 hosts" in told[0] and "min left" in told[0], told
    assert len([it for it in told if re.match("(ann|carol) [0-9]", it)]) == 31
    assert not any(it.startswith(last) for it in told)
    assert len(lines(said(site, "ann", "mine -l")[1])) > 200


def test_data_are_alone_at_a_terminal(site: Site) -> None:
    """`ssh -t desk mine --json | jq`: a terminal mixes both streams, so there is one."""
    asks(site)
    for line in ("mine --json", f"show ann {site.no()} --json", f"{ASK} --json /usr/bin/id",
                 f"approve ann {site.no()} --yes --json"):  # fmt: skip
        person = "bob" if line.startswith("approve") else "ann"
        ran = site.run(person, line)
        assert ran.returncode == 0 and not ran.stderr, ran
        json.loads(ran.stdout)


def test_several_with_one_yes(site: Site) -> None:
    """Each is shown whole, and one yes is for all."""
    for more in ("--why first", "--why second", "--why third"):
        asks(site, "ann", more)
    asks(site, "carol", "--why fourth")
    line = f"approve ann {site.no()}-{site.no(2)} carol {site.no()}"
    status, told = said(site, "bob", line, "y\n")
    assert status == 0 and told.count("[y/N]") == 1 and "bob: approve these 3?" in told, told
    before = told.partition("[y/N]")[0]
    assert all(f"why       | {it}" in before for it in ("first", "second", "fourth"))
    assert "third" not in told and told.count("It is in force") == 3
    status, told = said(site, "bob", "approve", "y\n")
    assert status == 0 and f"bob: approve ann {site.no(3)}?" in told, told
    assert "which one?" in said(site, "bob", "approve")[1]


def test_each_person_has_a_zone(quiet_site: Site) -> None:
    asks(quiet_site)
    assert "CE" in said(quiet_site, "ann", "show ann 1")[1]
    assert said(quiet_site, "ann", "set zone America/New_York")[0] == 0
    assert re.search(r" E[SD]T\)", said(quiet_site, "ann", "show ann 1")[1])
    assert re.search(r"until (\w+ )?\d\d:\d\d E[SD]T", said(quiet_site, "ann", "mine")[1])
    assert "no time zone" in said(quiet_site, "ann", "set zone Mars")[1]
    assert said(quiet_site, "ann", "set zone none")[0] == 0


# A slip, and the words that lead on from it.
SLIPS = [
    ("bob", "approve ann 99", "no ann 99 here: ann's open requests are 1, 2"),
    ("ann", "aks db-care", "did you mean ask?"),
    ("ann", "cancel 1", "did you mean withdraw?"),
    ("ann", "ask --help", "ask CEILING"),
    ("ann", "--help", "ask CEILING"),
    ("ann", "ask db-care --on DB1.example.com --for 5m /usr/bin/id", "ann as root on db1:"),
    ("ann", "ask db-care --on db* --for 1h /usr/bin/id", "ann as root on db1, db2:"),
    ("ann", "ask db-care --on all --for 1h /usr/bin/id", "ann as root on db1, db2:"),
    ("ann", "ask db-care --on db --for 1h /usr/bin/id", "may be db1, db2: write db* for all"),
    ("ann", "ask db-care --on bd3 --for 1h /usr/bin/id", "bd3 is outside db-care"),
    ("ann", "ask db-care --on db1, db2 --for 1h /usr/bin/id", "ann as root on db1, db2:"),
    ("ann", "ask db-care --on db1 db2 --for 1h /usr/bin/id", "ann as root on db1, db2:"),
    ("ann", "ask db-care --on db1 --for 2 h /usr/bin/id", "how long  2 hours"),
    ("ann", "ask /usr/bin/id --on db1 --for 1h", "under     db-care"),
    ("ann", "ask --on db1 --for 1h /usr/bin/id", "under     db-care"),
    ("ann", "ask --on db1 --for 10m ALL", "under     db-emergency"),
    ("ann", "ask --on web1 --for 10m /usr/bin/id", "web1 is outside"),
    ("ann", "ask db-care --on db1 --for 1h /usr/local/sbin/w --path=/var", "w --path=/var"),
]  # fmt: skip


@pytest.mark.parametrize(("person", "line", "piece"), SLIPS)
def test_a_slip_leads_on(quiet_site: Site, person: str, line: str, piece: str) -> None:
    asks(quiet_site)
    asks(quiet_site)
    told = said(quiet_site, person, line, "n\n")[1]
    assert piece in told, told
    for word in ("relay", "roster", "outbox", "acknowledged", "invalid choice", "'lead'"):
        assert word not in told, told


def test_a_slip_of_a_time_needs_no_help(quiet_site: Site) -> None:
    _, told = said(quiet_site, "ann", "ask db-care --on db1 --as root --until 25:00 /usr/bin/id")
    assert "no time of a day" in told and "help" not in told, told


def test_a_ticket_is_spelled_as_the_sites(quiet_site: Site) -> None:
    with open(quiet_site.config, "a", encoding="ascii") as file:
        file.write('[why]\nticket = "OPS-[0-9]+"\n')
    asks(quiet_site, "ann", "--ticket ops-7")
    assert "OPS-7" in said(quiet_site, "ann", "show ann 1")[1]


def test_who_asks_withdraws(site: Site) -> None:
    asks(site)
    assert said(site, "ann", f"withdraw {site.no()} --yes --why found it")[0] == 0
    [found] = data(site, "ann", "mine")
    assert found["status"] == "waiting"
    assert found["verdicts"][0]["why"] == "found it"  # type: ignore[index]


def test_a_name_of_ones_own(quiet_site: Site) -> None:
    """`save`, and then asking is at most 25 keys; `again` stays at 17."""
    asks(quiet_site, "ann", "--why disk")
    assert said(quiet_site, "ann", "save pg-again 1")[0] == 0
    status, told = said(quiet_site, "ann", "ask pg-again --on db2", "y\n")
    assert status == 3 and "on        db2" in told and "| disk" in told, told
    assert len("ssh desk ask pg-again\ny\n") <= 25 and len("ssh desk again\ny\n") == 17
    for line in ("ask pg-again", "again"):
        assert said(quiet_site, "ann", line, "y\n")[0] == 3
    status, told = said(quiet_site, "bob", "ask pg-again", "y\n")
    assert status == 2 and "saved" in told
    assert "db-care is a ceiling's" in said(quiet_site, "ann", "save db-care 1")[1]
    assert said(quiet_site, "ann", "save pg-again none")[0] == 0
    assert "'save NAME NUMBER' makes one" in said(quiet_site, "ann", "ask pg-again")[1]


def test_names_of_ones_own_are_bounded(quiet_site: Site) -> None:
    asks(quiet_site)
    for number in range(50):
        assert said(quiet_site, "ann", f"save name-{number}")[0] == 0
    status, told = said(quiet_site, "ann", "save one-more")
    assert status == 2 and "you have 50 names: 'save NAME none' ends one" in told, told
    assert said(quiet_site, "ann", "save name-7 1")[0] == 0


# Each option of the words that have many.
WHOLE = [
    "ask pg-again --on db2 --from +1h --until +2h --why x --ticket T-1 --anyway --no-wait",
    "ask pg-again --for 1h", "again 1 --from +1h --for 1h --anyway --no-wait",
    "ask db-care --on db1 --for 1h --anyway --no-wait /usr/bin/id",
    "withdraw 1 2 --why x --again --anyway", "approve ann 1 --why x --again --anyway",
    "refuse ann 1 --why x --again --anyway", "revoke ann 1 --why x --again --anyway",
    "mine -l --long --all", "waiting -l --long", "history -l --long --all --who ann --on db1",
]  # fmt: skip


@pytest.mark.parametrize("line", WHOLE)
def test_each_option_is_known(line: str) -> None:
    found = vars(parse(line))
    flags = [it for it in line.split() if it in ("--again", "--anyway", "--no-wait", "--long")]
    assert all(found[it[2:].replace("-", "_")] for it in flags), found


def test_alone_at_a_terminal(quiet_site: Site) -> None:
    """What waits, what is in force, and the words that fit."""
    site = quiet_site
    site.start_desk()
    asks(site)
    told = at_terminal(site, "bob", "", "", "help\n")
    assert "bob: 1 waits for you" in told and f"ssh desk approve ann {site.no()}" in told, told
    assert said(site, "bob", f"approve ann {site.no()} --yes")[0] == 0
    told = at_terminal(site, "ann", "", "", "help\n")
    assert f"ann {site.no()} in force on db1 for" in told, told
    assert f"ssh desk extend {site.no()}" in told, told


def test_ask_stays_until_it_is_decided(site: Site) -> None:
    """The last line is the one to type on the host."""
    line = "ask db-care --on db1 --as postgres --for 1h /usr/bin/id"
    terminal = Terminal(site, "ann", line, "y\n")
    assert f"Kept as ann {site.no()}." in terminal.until("Ctrl-C"), terminal.shown
    assert said(site, "bob", f"approve ann {site.no()} --yes")[0] == 0
    told = terminal.until("sudo -u postgres /usr/bin/id")
    assert "it goes on without you" in told and "bob approved it" in told, told
    assert terminal.close() == 0 and told.rstrip().endswith("sudo -u postgres /usr/bin/id")
    status, told = said(site, "ann", f"wait {site.no()}")
    assert status == 0 and told.rstrip().endswith("sudo -u postgres /usr/bin/id"), told


def test_completions_ask(quiet_site: Site) -> None:
    asks(quiet_site)
    for line, wanted in (
        ("ask d", ["db-care", "db-emergency"]), ("ask db-care --on d", ["db1", "db2"]),
        ("approve a", ["ann"]), ("approve ann ''", ["1"]), ("with", ["withdraw"]),
        ("ask db-care --as p", ["postgres"]), ("refuse ann 1 --w", ["--why"]),
    ):  # fmt: skip
        person = "bob" if line.startswith(("approve", "refuse")) else "ann"
        assert lines(said(quiet_site, person, f"complete {line}")[1]) == wanted, line

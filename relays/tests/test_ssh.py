"""The relay by ssh, through a real sshd: a grant's life, and attempts to speak for others."""

import json
import os
import re
import select
import subprocess
import time
from collections.abc import Iterator

import pytest

from relays.tests.site import PATIENCE, ROOT, Site, wait_for_next_second
from relays.tests.sshd import USER, Sshd
from steelnewt_client.moments import now, stamp
from steelnewt_relay.telling import FETCHED

ASK = "ask db-care --on db1 --as root --for 2h /usr/bin/id".split()


@pytest.fixture(scope="module")
def both(tmp_path_factory: pytest.TempPathFactory) -> Iterator[tuple[Site, Sshd]]:
    site = Site(tmp_path_factory.mktemp("ssh"))
    try:
        site.start_desk()
        sshd = Sshd(site, ["ann", "bob", "carol", "dave"], "eve")
        yield site, sshd
        sshd.stop()
    finally:
        site.close()


def asked(sshd: Sshd) -> int:
    """Asks as ann, and gives the request's number."""
    ran = sshd.ssh("ann", "ask --yes --json --again", *ASK[1:])
    assert ran.returncode == 0, ran
    return int(json.loads(ran.stdout)["no"])


def messages(site: Site) -> int:
    return len(site.kept()) if (site.folder / "outbox.db").exists() else 0


def sudoers(site: Site, host: str) -> str:
    return site.ask(f"/v1/hosts/{host}/sudoers")


def test_a_grants_whole_life(both: tuple[Site, Sshd]) -> None:
    site, sshd = both
    ran = sshd.ssh("ann", *ASK, given="y\n")
    assert ran.returncode == 0, ran
    assert "UTC (" in ran.stdout and "2 hours" in ran.stdout and "Send it? [y/N]" in ran.stdout
    found = re.search(r"Kept as ann ([0-9]+)\.", ran.stdout)
    assert found and "nobody approved it yet; bob, carol may approve it." in ran.stdout
    no = found[1]
    assert f"ann {no}" in sshd.ssh("bob", "waiting").stdout
    assert "Nothing" in sshd.ssh("dave", "waiting").stdout
    assert "Nothing" in sshd.ssh("ann", "waiting").stdout
    ran = sshd.ssh("bob", "approve", "ann", no, given="y\n")
    assert ran.returncode == 0 and "It is in force from" in ran.stdout, ran
    assert "Each host has it with its next fetch, within 5 minutes." in ran.stdout
    assert f"ann {no}" in sshd.ssh("dave", "live").stdout
    assert "ann db1 = (root) NOTBEFORE=" in sudoers(site, "db1")
    assert "/usr/bin/id" not in sudoers(site, "db2")
    assert "in force" in sshd.ssh("ann", "mine").stdout
    wait_for_next_second()  # (revoked in that of its approval, it was in force at no moment)
    ran = sshd.ssh("ann", "revoke", "ann", no, "--yes")
    assert ran.returncode == 0 and "It was in force from" in ran.stdout, ran
    assert "revoked, so it ends before" in ran.stdout
    assert "Each host takes it away with its next fetch, within 5 minutes: until" in ran.stdout
    assert f"ann {no}" not in sshd.ssh("dave", "live").stdout
    assert "[over]" in sshd.ssh("ann", "mine -l").stdout
    # (what was revoked is not the same as what is asked for a minute later)
    ran = sshd.ssh("ann", *ASK, given="y\n")
    assert ran.returncode == 0 and "Kept as ann " in ran.stdout, ran


def test_hosts_fetch_as_soon_as_people_are_told() -> None:
    text = (ROOT / "packaging" / "units" / "desk-fetch@.timer").read_text()
    parts = re.findall(r"^(?:OnUnitInactiveSec|RandomizedDelaySec|AccuracySec)=(\d+)", text, re.M)
    assert len(parts) == 3 and sum(map(int, parts)) <= 300 and FETCHED == "within 5 minutes"


def test_a_refusal_is_told(both: tuple[Site, Sshd]) -> None:
    _, sshd = both
    no = asked(sshd)
    assert sshd.ssh("carol", f"refuse ann {no} --yes").returncode == 0
    found = [it for it in json.loads(sshd.ssh("ann", "mine --json").stdout) if it["no"] == no]
    assert found[0]["status"] == "refused" and found[0]["verdicts"][0]["by"] == "carol"
    assert "carol refused it" in sshd.ssh("ann", "mine -l").stdout


def test_an_approval_that_does_not_count_is_named(both: tuple[Site, Sshd]) -> None:
    _, sshd = both
    no = asked(sshd)
    ran = sshd.ssh("eve", f"approve ann {no} --yes --anyway")
    assert ran.returncode == 1 and "nobody approved it yet" in ran.stdout, ran
    assert sshd.ssh("ann", f"approve ann {no} --yes --anyway").returncode == 1
    told = sshd.ssh("ann", "mine -l").stdout
    assert "a duty that conflicts with approving was held then" in told
    assert "nobody approves what they asked for themselves" in told


def test_two_approvals(both: tuple[Site, Sshd]) -> None:
    _, sshd = both
    line = "ask db-emergency --on db1 --as root --for 15m --yes --json ALL"
    ran = sshd.ssh("ann", line)
    no = json.loads(ran.stdout)["no"]
    assert "approvals of 2 people" in sshd.ssh("bob", f"show ann {no}").stdout
    ran = sshd.ssh("bob", f"approve ann {no} --yes")
    assert "approved so far by bob; carol may approve it" in ran.stdout, ran
    assert f"ann {no}" not in sshd.ssh("bob", "waiting").stdout
    assert f"ann {no}" in sshd.ssh("carol", "waiting").stdout
    assert "It is in force" in sshd.ssh("carol", f"approve ann {no} --yes").stdout
    assert sshd.ssh("carol", f"revoke ann {no} --yes").returncode == 0


def test_a_grant_to_come(both: tuple[Site, Sshd]) -> None:
    _, sshd = both
    line = "ask db-care --on db2 --as root --from +30m --for 1h --yes --json /usr/local/sbin/w"
    no = json.loads(sshd.ssh("ann", line).stdout)["no"]
    assert "It is granted from" in sshd.ssh("bob", f"approve ann {no} --yes").stdout
    assert f"ann {no}" not in sshd.ssh("bob", "live").stdout
    assert f"ann {no}" in sshd.ssh("bob", "live --at +45m").stdout
    found = [it for it in json.loads(sshd.ssh("ann", "mine --json").stdout) if it["no"] == no]
    assert found[0]["status"] == "granted" and found[0]["window"]["until"] == found[0]["until"]
    assert found[0]["window"]["from"] > stamp(now())
    assert "revoked it" in sshd.ssh("ann", f"revoke ann {no} --yes").stdout


# What somebody with ann's key tries, to be bob: the words, ssh's options and its environment.
OTHERS = [
    ["--person", "bob", "approve", "ann", "1"],
    ["approve", "ann", "1", "--person", "bob"],
    ["approve", "--by", "bob", "ann", "1"],
    ["--config", "/tmp/other.toml", "mine"],
    ["desk-relay", "--person", "bob", "mine"],
    ["/bin/sh", "-c", "id"],
    ["approve ann 1; id"],
    ["approve ann $(id -u)"],
    ["approve ann `id -u`"],
    ["approve ann 1\nmine"],
    ["mine", "|", "sh"],
    ["internal-sftp"],
    ["post"],
]


@pytest.mark.parametrize("words", OTHERS)
def test_words_speak_for_nobody_else(both: tuple[Site, Sshd], words: list[str]) -> None:
    site, sshd = both
    before = messages(site)
    ran = sshd.ssh("ann", *words, given="y\n")
    assert ran.returncode == 2 and "Nothing was sent" in ran.stderr, ran
    assert "uid=" not in ran.stdout + ran.stderr
    assert messages(site) == before


def test_other_ways_in_speak_for_nobody_else(
    both: tuple[Site, Sshd], monkeypatch: pytest.MonkeyPatch
) -> None:
    site, sshd = both
    assert "You are ann." in sshd.ssh("ann").stdout
    assert "You are eve." in sshd.ssh("eve").stdout
    # (where a site lets a client set the variable, it is ann's words still, and no more)
    monkeypatch.setenv("PYTHONPATH", "/tmp")
    options = ("-o", "SendEnv=SSH_ORIGINAL_COMMAND PYTHONPATH")
    monkeypatch.setenv("SSH_ORIGINAL_COMMAND", "--person bob approve ann 99 --yes")
    assert sshd.ssh("ann", options=options).returncode == 2
    monkeypatch.setenv("SSH_ORIGINAL_COMMAND", "refuse bob 99 --yes")
    assert sshd.ssh("ann", options=options).returncode == 0
    assert '"by":"ann"' in site.kept()[-1][0]
    before = messages(site)
    stranger = sshd.ssh("stranger", "mine")
    assert stranger.returncode == 255 and not stranger.stdout
    assert sshd.ssh("ann", "sftp", options=("-s",)).returncode == 2
    assert not sshd.ssh("ann", options=("-W", "127.0.0.1:1")).stdout
    assert messages(site) == before


# Odd words, and a piece of the answer. Nothing of them becomes a message.
ODD = [
    ("ask db-care --on db1 --as root --for 2h", "whole path"),
    ("ask db-care --on db1 --as root --for 2h id", "whole path"),
    ("ask db-care --on db1 --as root /usr/bin/id", "--for"),
    ("ask db-care --on db1 --as root --for 2h --until 17:00 /usr/bin/id", "not allowed with"),
    ('ask db-care --on \'db1","by":"bob\' --as root --for 2h /usr/bin/id', "is no host"),
    ("ask db-care --on ../db1 --as root --for 2h /usr/bin/id", "is no host"),
    ("ask db-care --on '' --as root --for 2h /usr/bin/id", "is no host"),
    (
        "ask db-care --on db1 --as 'root ALL=(ALL) NOPASSWD: ALL' --for 2h /usr/bin/id",
        "is no target",
    ),
    ("ask 'db-care\\nx' --on db1 --as root --for 2h /usr/bin/id", "is no ceiling"),
    ("ask db-care --on db1 --as root --for 2h /usr/bin/id '; rm -rf /'", "is no argument"),
    ("ask db-care --on db1 --as root --for 2h /usr/bin/id '\x1b]0;x\x07'", "is no argument"),
    ("ask db-care --on db1 --as root --for 2h '/usr/bin/i d'", "is no command"),
    ("ask db-care --on db1 --as root --for 2h /usr/bin/id 'é'", "is no argument"),
    ("ask db-care --on db1 --as root --for 2h '/usr/bin/*'", "is no command"),
    ("ask db-care --on db1 --as root --for 0h /usr/bin/id", "no length"),
    ("ask db-care --on db1 --as root --for 999999d /usr/bin/id", "1970 to 2099"),
    ("ask db-care --on db1 --as root --from 20200101000000Z --for 2h /usr/bin/id", "has passed"),
    ("ask db-care --on db1 --as root --until 20200101000000Z /usr/bin/id", "before it begins"),
    ("ask db-care --on db1 --as root --zone Mars/Base --for 2h /usr/bin/id", "no time zone"),
    ("ask db-care --on db1 --as root --zone ../../etc/passwd --for 2h /usr/bin/id", "no time zone"),
    ("approve ann 4711", "there is no ann 4711 here"),
    ("approve ann -1", "is no request's number"),
    ("approve ann 1e3", "is no request's number"),
    ("approve ann 01", "is no request's number"),
    ("approve 'ann 7' 1", "is no person"),
    ("approve ann", "which request of ann"),
    ("ask 'unclosed", "quotes"),
    ("app ann 1", "is no word here"),
    ("approve ann 1 --y", "unrecognized"),
]


@pytest.mark.parametrize(("line", "piece"), ODD)
def test_odd_words_become_no_message(both: tuple[Site, Sshd], line: str, piece: str) -> None:
    site, _ = both
    before = messages(site)
    ran = site.run("ann", f"{line} --yes" if line.startswith("approve") else line, given="y\n")
    assert ran.returncode == 2 and piece in ran.stderr, ran
    assert "\x1b" not in ran.stdout + ran.stderr
    assert messages(site) == before


# What lies past a ceiling, by the desk's own word.
PAST = [
    ("ann", "other", "db1", "root", "2h", "/usr/bin/id", "A2 UnknownCeiling"),
    ("bob", "db-care", "db1", "root", "2h", "/usr/bin/id", "A3 NotAsker"),
    ("ann", "db-care", "web1", "root", "2h", "/usr/bin/id", "A4 HostOutside"),
    ("ann", "db-care", "db1", "www", "2h", "/usr/bin/id", "A5 RunasOutside"),
    ("ann", "db-care", "db1", "root", "2h", "ALL", "A6 CommandOutside"),
    ("ann", "db-care", "db1", "root", "2h", "/usr/sbin/reboot", "A6 CommandOutside"),
    ("ann", "db-care", "db1", "root", "3h", "/usr/bin/id", "A7 WindowTooLong"),
]


@pytest.mark.parametrize("row", PAST)
def test_past_a_ceiling(both: tuple[Site, Sshd], row: tuple[str, ...]) -> None:
    _, sshd = both
    person, ceiling, host, target, length, command, refusal = row
    line = f"ask {ceiling} --on {host} --as {target} --for {length} --yes --anyway {command}"
    ran = sshd.ssh(person, line)
    assert ran.returncode == 2 and f"The desk refused it. {refusal}: " in ran.stdout, ran
    assert "What to do: " in ran.stdout


def test_nothing_is_sent_without_a_yes(both: tuple[Site, Sshd]) -> None:
    site, sshd = both
    before = messages(site)
    for given in ("", "n\n", "\n", "yess\n"):
        ran = sshd.ssh("ann", *ASK, "--and", "/usr/local/sbin/w", given=given)
        assert ran.returncode == 1 and "Nothing was sent." in ran.stdout, ran
    assert messages(site) == before


def test_the_same_is_asked_once(both: tuple[Site, Sshd]) -> None:
    site, sshd = both
    line = "ask db-care --on db2 --as postgres --for 1h --yes --json"
    first = json.loads(sshd.ssh("carol", f"{line} --once k1 /usr/local/sbin/psql").stdout)
    again = json.loads(sshd.ssh("carol", f"{line} --once k1 /usr/local/sbin/psql").stdout)
    other = json.loads(sshd.ssh("carol", f"{line} --once k2 /usr/local/sbin/psql").stdout)
    assert (again["no"], other["no"]) == (first["no"], first["no"] + 1)
    ran = sshd.ssh("carol", f"{line} /usr/local/sbin/psql")
    assert ran.returncode == 1 and f"as carol {other['no']}" in ran.stderr
    assert sshd.ssh("bob", f"approve carol {first['no']} --yes").returncode == 0
    ran = sshd.ssh("bob", f"approve carol {first['no']} --yes")
    assert ran.returncode == 1 and "already" in ran.stdout


def at_terminal(sshd: Sshd, key: str) -> str:
    """Asks at a terminal, gives the key when it is asked for, and returns what was shown."""
    line = "ask db-care --on db1 --as root --for 1h --again /usr/local/sbin/w"
    words = [*sshd.client("ann", "-tt"), line]
    shown = b""
    with subprocess.Popen(words, stdin=subprocess.PIPE, stdout=subprocess.PIPE) as call:
        assert call.stdin and call.stdout
        while b"[y/N]" not in shown and (some := os.read(call.stdout.fileno(), 4096)):
            shown += some
        for _ in range(6):
            call.stdin.write(key.encode("ascii"))
            call.stdin.flush()
            # (an interrupt just before the read behind the prompt is heard with the next one)
            while select.select([call.stdout], [], [], 10)[0]:
                if not (some := os.read(call.stdout.fileno(), 4096)):
                    assert call.wait(timeout=60) == 1, shown
                    return shown.decode("utf-8")
                shown += some
        call.kill()
    raise AssertionError(f"it does not end: {shown!r}")


def test_at_a_terminal(both: tuple[Site, Sshd]) -> None:
    site, sshd = both
    before = messages(site)
    shown = at_terminal(sshd, "n\n")
    assert "\x1b[1mann asks\x1b[0m" in shown and "Nothing was sent." in shown
    shown = at_terminal(sshd, "\x03")
    assert "Nothing more was sent" in shown and "Traceback" not in shown
    assert messages(site) == before


def test_times_without_quotes(both: tuple[Site, Sshd]) -> None:
    _, sshd = both
    words = ["ask", "db-care", "--on", "db1", "--as", "root", "--from", "tomorrow 09:00"]
    ran = sshd.ssh("ann", *words, "--until", "tomorrow 10:30", "/usr/local/sbin/w", given="n\n")
    assert (
        ran.returncode == 1 and "09:00:00 CE" in ran.stdout and "1 hour 30 minutes" in ran.stdout
    ), ran


def test_who_audits_reads_the_findings(both: tuple[Site, Sshd]) -> None:
    _, sshd = both
    assert "CONFLICTS, people who hold duties that conflict: 1" in sshd.ssh("dave", "review").stdout
    ran = sshd.ssh("ann", "review")
    assert ran.returncode == 2 and "for auditors" in ran.stderr


def test_the_envelopes_key_beside_an_agent(both: tuple[Site, Sshd]) -> None:
    """RUNBOOKS' line for the key of break-glass, where an agent has one's own: that is offered
    first, and one's own approval would not count."""
    site, sshd = both
    page = (ROOT / "docs" / "RUNBOOKS.md").read_text(encoding="utf-8")
    [options] = re.findall(r"^ssh (.*)-i /root/glass desk approve", page, re.MULTILINE)
    known = ["-o", "UserKnownHostsFile=/dev/null", "-o", "StrictHostKeyChecking=no", "-q"]
    words = ["ssh", "-F", "/dev/null", "-p", str(sshd.port), *known, *options.split()]
    words += ["-i", str(site.folder / "bob"), f"{USER}@127.0.0.1", "help"]
    place = str(site.folder / "agent.sock")
    agent = subprocess.Popen(["ssh-agent", "-D", "-a", place], stdout=subprocess.DEVNULL)
    try:
        environment = os.environ | {"SSH_AUTH_SOCK": place}
        until = time.monotonic() + PATIENCE
        while not os.path.exists(place) and time.monotonic() < until:
            time.sleep(0.05)
        add = ["ssh-add", "-q", str(site.folder / "ann")]
        subprocess.run(add, env=environment, check=True, stdin=subprocess.DEVNULL)
        ran = subprocess.run(words, env=environment, capture_output=True, text=True, check=False)
        assert ran.stdout.startswith("You are bob.\n"), ran
    finally:
        agent.terminate()
        agent.wait()


READS = ["history --all", "live", "mine", "waiting", "ceilings", "review", "help", "show ann 1"]


@pytest.mark.parametrize("line", READS)
def test_nobody_outside_the_roster_reads(both: tuple[Site, Sshd], line: str) -> None:
    """As on the page: a key that somebody has still is no reason."""
    site, sshd = both
    asked(sshd)
    ran = site.run("mallory", line)
    assert not ran.stdout, ran
    assert ran.returncode == 2 and "nobody here has the name mallory" in ran.stderr, ran


def test_nobody_outside_the_roster_asks(both: tuple[Site, Sshd]) -> None:
    site, _ = both
    before = messages(site)
    ran = site.run("mallory", "ask db-care --on db1 --as root --for 2h --yes /usr/bin/id")
    assert ran.returncode == 2 and "nobody here has the name mallory" in ran.stderr, ran
    assert messages(site) == before
    for name in ("", "Ann", "ann,bob", "ann\nbob", "../ann"):
        ran = site.run(name, "mine")
        assert ran.returncode == 2 and not ran.stdout, ran

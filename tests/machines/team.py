"""docs/TEAM.md to the letter, on three machines that boot: the desk's, a host, and the people's.
Behind a door it runs the runbook 'Signers cannot be read', too.
`python3 -m tests.machines.team [FOLDER]` takes the packages of a folder (build/deb).

Each block is run where the page says, by Debian's own apt, systemd, ssh, scp, nginx and sudo.
People type what the page has them type; what they are asked is answered with yes.
"""

from __future__ import annotations

import os
import re
import sys
import tempfile
import time

from tests.common import desk
from tests.machines import sites
from tests.machines.lives import DEBS, Life, in_a_room
from tests.machines.machine import Machine, Site, lacks

TEXT = sites.page("TEAM.md")
PEOPLE = ("ann", "ben", "carol")
SSH = f"Host desk\n    HostName desk.example\n    User desk-relay\n{sites.QUICK}"
OK = r"^DESK HOST OK - .*: 0 to mend [|]"
SUDO = "sudo -l -U ann /usr/bin/id"
ASK = "ask prod --on prod1 --as root --for 1h --why ticket OPS-7 --yes"


class Team:
    """The machines, and the blocks of the page that are left."""

    def __init__(self, site: Site, source: str) -> None:
        self.desk, self.host, self.lap = (
            site.machine(it) for it in ("desk.example", "prod1", "lap")
        )
        self.life = Life(self.desk)
        self.blocks = sites.blocks(TEXT)
        self.commands = 0
        for it in (self.desk, self.host, self.lap):
            it.boot()
        sites.names(site)
        for it in (self.desk, self.host, self.lap):
            sites.bring(it, source, "/root")
            it.run("rm -f /usr/bin/mydesk")
        sites.sshd(self.desk)
        sites.sshd(self.host)
        sites.trust(self.host, sites.key_of(self.desk))
        self.desk.write("/root/.ssh/config", f"Host *\n{sites.QUICK}")
        for person in PEOPLE:
            self.desk.write(f"/root/{person}.pub", sites.key_of(self.lap, person))
            self.lap.write(f"/home/{person}/.ssh/config", SSH)
        self.lap.run("dpkg --force-unsafe-io -i /root/mydesk_*.deb")

    def holds(self, what: str, is_right: bool, found: object = "") -> None:
        self.life.holds(what, is_right, found)

    def next(self, kind: str, machine: Machine | None = None, says_yes: bool = False) -> desk.Run:
        """The next block, which is of that kind: run, or written where the page says."""
        its_kind, block = self.blocks.pop(0)
        self.holds(f"the next block is {kind}", its_kind == kind, block)
        if kind == "toml":
            self.desk.write("/etc/desk/roster.toml", block)
            return self.desk.run("true")
        self.commands += len(re.findall(r"^\S", block, re.MULTILINE))
        # (a person sees where a line fails, and does not go on)
        block = f"yes | {{\n{block}}}" if says_yes else block
        return (machine or self.desk).run(f"umask 022; set -e\n{block}")

    def people(self, *words: str) -> list[desk.Run]:
        """The next block, each line of which a person types on their machine."""
        _, block = self.blocks.pop(0)
        ran = []
        for at, line in enumerate(block.splitlines()):
            person, _, typed = line.partition("$ ")
            self.commands += 1
            word = words[at] if words else "WORD"
            ran.append(self.lap.run(typed.replace("WORD", word), person))
        return ran

    def types(self, person: str, typed: str) -> desk.Run:
        return self.lap.run(typed, person)


def desks(team: Team) -> None:
    """From the packages to a desk, its door and its front."""
    done = team.next("sh")
    team.holds("it is installed", done.returncode == 0, done)
    team.next("toml")
    done = team.next("sh")
    team.holds("the roster", done.returncode == 0, done)
    done = team.next("sh")
    team.holds("the desk and its door", done.returncode == 0, done)
    for unit in ("desk.service", "desk-door.service"):
        team.life.is_state("TEAM", unit, "active, enabled")
    done = team.next("sh")
    team.holds("the front", done.returncode == 0, done)
    log = "/var/log/nginx/desk.log"
    found = team.desk.out(f"stat -c '%U:%G %a' {log}; runuser -u nobody -- cat {log} 2>&1")
    team.holds("who reads who posted what", "Permission denied" in found, found)


def hosts(team: Team) -> None:
    """A host, after which nothing of it is to mend."""
    done = team.next("sh", team.host)
    team.holds("the host's packages", done.returncode == 0, done)
    done = team.next("sh")
    team.holds("the host's files", done.returncode == 0, done)
    done = team.next("sh", team.host)
    told = done.stdout.splitlines()[-1:] or [done.stderr]
    team.holds("nothing is to mend", re.search(OK, told[0]) is not None, done)
    team.holds("sudo reads the file", "sudoers.d/desk: parsed OK" in done.stdout, done)


def people(team: Team) -> None:
    """People sign, ask and approve; each is told what hosts know."""
    done = team.next("sh")
    words = re.findall(r"^[0-9a-f]{16}$", done.stdout, re.MULTILINE)
    team.holds("a word for each", len(words) == len(PEOPLE), done)
    _, settings = team.blocks.pop(0)
    for person in PEOPLE:
        team.lap.run("mkdir -p .config", person)
        text = settings.replace("person = ann", f"person = {person}")
        team.lap.write(f"/home/{person}/.config/mydesk", text)
    signs = team.people(*words)
    team.holds("they sign it", all(it.returncode == 0 for it in signs), signs)
    for person in PEOPLE:
        team.desk.write(f"/root/{person}.line", team.lap.read(f"/home/{person}/{person}.line"))
    done = team.next("sh", says_yes=True)
    team.holds("whose key is whose", done.stdout.count(" hold\n") == 3, done)
    _, ask, waiting, approved = team.people()
    team.holds("ann asks", "Kept as ann 1." in ask.stdout, ask)
    team.holds("why", "ticket OPS-7" in waiting.stdout, waiting)
    told = "Each host has it with its next fetch, within 5 minutes." in approved.stdout
    team.holds("ben approves", told, approved)
    done = team.next("sh")
    if "start it again" in done.stdout:
        time.sleep(3)  # (by a clock of whole seconds that sudo began before the file)
        done = team.desk.run(f"ssh prod1 {SUDO}")
    team.holds("sudo on the host", done.stdout.endswith("/usr/bin/id\n"), done)


def audited(team: Team) -> None:
    done = team.next("sh")
    team.holds("the audit", "ann 1  granted" in done.stdout, done)
    done = team.next("sh", says_yes=True)
    team.holds("the change", "serves the new roster" in done.stdout, done)
    team.holds("no block is left", not team.blocks, team.blocks)
    found = team.host.run("systemctl start desk-fetch@prod1; desk-host check")
    team.holds("the host is as it has to be", re.search(OK, found.stdout) is not None, found)


def signers_cannot_be_read(team: Team) -> None:
    """The runbook of that name: nothing signed is taken, root's socket takes a revocation, and the
    version before holds where the newest is moved away."""
    on = team.desk
    newest = on.out("ls -d /etc/desk/signers/*Z | tail -n 1")
    on.run(f"cp -a {newest} /root/kept && rm {newest}/allowed_signers")
    done = team.types("ann", f"mydesk {ASK} /usr/bin/id")
    team.holds("nothing signed is taken", "K25 NoSigners" in done.stdout + done.stderr, done)
    check = "runuser -u desk-door -g desk-front -G desk-door -- desk-door check"
    done = on.run(check)
    told = f"{newest}/allowed_signers cannot be read" in done.stdout + done.stderr
    team.holds("the check says why", done.returncode != 0 and told, done)
    revoke = f'{{"at":"{desk.stamp(time.time())}","by":"ben","kind":"revoke","no":9,"of":"ann"}}'
    said = on.out(f"curl -sS --unix-socket /run/desk-door/root/desk.sock --data-binary '{revoke}'"
                  " http://desk/v1/relays/chat/messages")
    team.holds("root takes a right away", said == "ack", said)
    on.run(f"mv {newest} /root/away")
    done = on.run(check)
    team.holds("the one before it holds", done.returncode == 0, done)
    on.run(f"mv /root/kept {newest}")
    waits = "SELECT count(*) FROM messages WHERE state = 'kept'"
    box = f"runuser -u desk-relay -- sqlite3 /var/lib/desk-relay/outbox.db \"{waits}\""
    team.holds("what waited is posted", on.wait(f"{box} | grep -qx 0", 60))


def revoked(team: Team) -> None:
    """A right that is taken away stands on the host until its next fetch, and who takes it away is
    told so."""
    done = team.types("ann", "mydesk revoke ann 1 --yes")
    told = "Each host takes it away with its next fetch, within 5 minutes" in done.stdout
    team.holds("ann revokes", done.returncode == 0 and told, done)
    team.holds("until then it stands", team.host.holds(SUDO))
    team.host.run("systemctl start desk-fetch@prod1")
    team.holds("and then no more", not team.host.holds(SUDO))


def watched(team: Team) -> None:
    """The host tells what has to be mended, by one line and a status."""
    host = team.host
    host.run("hostname other7")
    found = host.run("desk-host check")
    told = "this machine's name is other7, and its file is prod1's" in found.stdout
    team.holds("another name", found.returncode == 2 and told, found)
    host.run("hostname prod1")
    ends = "date -u -d '3 days' +%Y%m%d%H%M%SZ"
    made = team.desk.run(
        f"UNTIL=$({ends}) FROM=$(date -u -d yesterday +%Y%m%d%H%M%SZ)"
        " sh /usr/share/doc/steelnewt/examples/front-ca.sh /etc/desk/front host prod1 &&"
        " scp /etc/desk/front/host-prod1.pem prod1:/etc/desk/host.pem &&"
        " scp -p /etc/desk/front/host-prod1.key prod1:/etc/desk/host.key"
    )
    found = host.run("desk-host check --textfile /tmp/host.prom; cat /tmp/host.prom")
    is_told = "/etc/desk/host.pem ends on" in found.stdout
    team.holds("a certificate that ends", is_told, (made, found))
    team.holds("its figure", "desk_host_certificate_seconds 2" in found.stdout, found)
    host.run("userdel carol; systemctl stop desk-fetch@prod1.timer")
    found = host.run("desk-host check")
    team.holds("a timer that is off", "desk-fetch@prod1.timer does not run" in found.stderr, found)


PARTS = (desks, hosts, people, audited, signers_cannot_be_read, revoked, watched)


def inside(source: str) -> None:
    began = time.monotonic()
    with tempfile.TemporaryDirectory() as folder:
        site = Site(folder)
        try:
            team = Team(site, source)
            for part in PARTS:
                start = time.monotonic()
                part(team)
                print(f"{part.__name__}: {time.monotonic() - start:.1f} s", flush=True)
        finally:
            site.close()
    took = time.monotonic() - began
    print(f"TEAM.md has {team.commands} lines of commands; three boots, {took:.0f} s in all")
    print(f"TEAM.md on machines: {team.life.checks} checks, {team.life.wrong} wrong")
    sys.exit(1 if team.life.wrong else 0)


def main() -> None:
    if missing := lacks():
        sys.exit(f"no machine can be booted here: it needs {missing}")
    sys.exit(in_a_room(os.path.abspath(sys.argv[1] if len(sys.argv) > 1 else DEBS)))


if __name__ == "__main__":
    if sys.argv[1:2] == ["--inside"]:
        inside(sys.argv[2])
    main()

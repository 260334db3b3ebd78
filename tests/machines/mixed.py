"""Machines of two versions: a desk with a relay, and a host, each by the packages of the last
release or by these. `python3 -m tests.machines.mixed LAST [FOLDER]` (build/deb).

The way back is by the old packages, over the store and the outbox that the new ones left.
"""

from __future__ import annotations

import os
import re
import sys
import tempfile

from tests.common import desk
from tests.machines import sites
from tests.machines.lives import ASK, DEBS, EXAMPLES, Life, in_a_room
from tests.machines.machine import Machine, Site, lacks

OLD, NEW = "/root/old", "/root/new"
CA = f"sh {EXAMPLES}/front-ca.sh /etc/desk/front"
SSH = f"Host desk\n    HostName localhost\n    User desk-relay\nHost *\n{sites.QUICK}"
DPKG = "dpkg --force-unsafe-io --force-confold -i"
DESK, HOST = ("steelnewt",), ("steelnewt-host",)
RELAY = ("steelnewt-relay", "python3-steelnewt-client")
ASKS = "ask db-care --on db1 --as root --for 1h --yes --again /usr/bin/id"
# (by a clock of whole seconds: the old host starts nothing of a sudo that began with the file)
FETCH = "systemctl start desk-fetch@db1 && sleep 2"
SUDO = "sudo -n -l -U ann /usr/bin/id"
KEYS = "/var/lib/desk-relay/.ssh/authorized_keys"


class Pair:
    """A desk's machine and a host."""

    def __init__(self, site: Site, old: str, new: str) -> None:
        self.desk, self.host = site.machine("desk.example"), site.machine("db1")
        self.life = Life(self.desk)
        for it in (self.desk, self.host):
            it.boot()
            sites.bring(it, old, OLD)
            sites.bring(it, new, NEW)
        sites.names(site)
        self.takes(self.desk, OLD, *DESK, *RELAY)
        self.takes(self.host, OLD, *HOST)
        self.furnish()

    def takes(self, machine: Machine, folder: str, *packages: str) -> None:
        """These packages of that version, whatever they are instead of."""
        files = " ".join(f"{folder}/{it}_*.deb" for it in packages)
        ran = machine.run(f"{DPKG} {files}")
        self.life.holds(f"{folder} {packages}", ran.returncode == 0, ran)

    def furnish(self) -> None:
        on = self.desk
        on.run(f"cd {EXAMPLES} && cp roster.toml /etc/desk/ && cp site.sudo /etc/desk/base.sudo")
        on.run("sed -i '/^.page/,$d' /etc/desk/relay.toml")
        on.run(f"cp {EXAMPLES}/nginx/desk.conf /etc/nginx/conf.d/")
        made = f"{CA} init && {CA} server desk.example && {CA} host db1"
        self.life.does("the front", f"{made} && systemctl enable --now nginx")
        self.life.does("a desk of the old", "systemctl enable --now desk desk-relay-post")
        sites.sshd(on)
        sites.sshd(self.host)
        sites.trust(self.host, sites.key_of(on))
        on.write("/root/.ssh/config", SSH)
        for person in ("ann", "bob"):
            on.run(f"ssh-keygen -q -t ed25519 -N '' -f /root/{person};"
                   f" desk-relay-person add {person} /root/{person}.pub")
        self.host.run("useradd ann; useradd dba")
        self.life.does("the host's files", "cd /etc/desk/front && scp ca.pem db1:/etc/desk/ca.pem"
                       " && scp host-db1.pem db1:/etc/desk/host.pem &&"
                       " scp -p host-db1.key db1:/etc/desk/host.key")

    def says(self, person: str, words: str) -> desk.Run:
        return self.desk.run(f"ssh -i /root/{person} desk {words}")

    def works(self, what: str) -> None:
        """A grant's life by the relay, and the host's file."""
        holds = self.life.holds
        self.desk.wait(f"systemctl start desk desk-relay-post; {ASK}/v1/count", 60)
        asked = self.says("ann", ASKS)
        found = re.search(r"Kept as ann (\d+)\.", asked.stdout)
        number = found[1] if found else "0"
        holds(f"{what}: ann asks", found is not None, asked)
        done = self.says("bob", f"approve ann {number} --yes")
        holds(f"{what}: bob approves", "It is in force from" in done.stdout, done)
        self.host.run(FETCH)
        done = self.host.run(SUDO)
        holds(f"{what}: the host has it", done.returncode == 0, done)
        done = self.says("bob", f"revoke ann {number} --yes")
        # (a relay of either version says this)
        is_said = "it was revoked, so it ends before" in done.stdout
        holds(f"{what}: it is revoked", done.returncode == 0 and is_said, done)
        fetched, done = self.host.run(FETCH), self.host.run(SUDO)
        # (what sudo says of a command that it would refuse; else it says why it says nothing)
        is_over = (fetched.returncode, done.returncode, done.stdout + done.stderr) == (0, 1, "")
        holds(f"{what}: the host has it no more", is_over, (fetched, done))
        done = self.says("ann", "mine --all")
        holds(f"{what}: ann sees it", f"ann {number}  " in done.stdout, done)


def pairs(it: Pair) -> None:
    """Each pair, and then the way back."""
    it.works("the old alone")
    it.takes(it.host, NEW, *HOST)
    it.works("a new host, an old desk")
    it.takes(it.desk, NEW, *DESK)
    it.works("a new desk, an old relay")
    it.takes(it.host, OLD, *HOST)
    it.works("an old host, a new desk")
    it.takes(it.desk, OLD, *DESK)
    it.takes(it.desk, NEW, *RELAY)
    it.works("a new relay, an old desk")
    it.takes(it.desk, NEW, *DESK)
    it.works("the new alone, and an old host")
    held = it.desk.out(f"{ASK}/v1/messages")
    it.takes(it.desk, OLD, *DESK, *RELAY)
    it.desk.wait(f"systemctl start desk desk-relay-post; {ASK}/v1/count", 60)
    back = it.desk.out(f"{ASK}/v1/messages")
    it.life.holds("the way back: nothing is lost", back == held != "", back)
    # (lines of people's keys name a key, which the old relay does not know)
    it.desk.run(f"sed -i 's, --key SHA256:[^\" ]*,,' {KEYS}")
    it.works("the way back")


def inside(old: str, new: str) -> None:
    with tempfile.TemporaryDirectory() as folder:
        site = Site(folder)
        try:
            pair = Pair(site, old, new)
            pairs(pair)
        finally:
            site.close()
    life = pair.life
    print(f"machines of two versions: {life.checks} checks, {life.wrong} wrong")
    sys.exit(1 if life.wrong else 0)


def main() -> None:
    if missing := lacks():
        sys.exit(f"no machine can be booted here: it needs {missing}")
    if len(sys.argv) < 2:
        sys.exit("name the folder of the last release's packages")
    folders = [os.path.abspath(it) for it in (sys.argv[1], *(sys.argv[2:] or [DEBS]))]
    sys.exit(in_a_room(*folders))


if __name__ == "__main__":
    if sys.argv[1:2] == ["--inside"]:
        inside(*sys.argv[2:4])
    main()

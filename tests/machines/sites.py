"""What sites of several machines have in common: their packages, people with keys, real ssh between
them, and pages whose commands are run where they say."""

from __future__ import annotations

import glob
import os
import re
import shutil

from tests.common import desk
from tests.machines.lives import Life
from tests.machines.machine import Machine, Site

DEBS = "/root/new"
QUICK = "    StrictHostKeyChecking accept-new\n    ConnectionAttempts 20\n"
# a person's mailbox: nobody sends mail from here (and the unit that tells people has its own /tmp)
MAILS = "/var/lib/desk-relay/mails"
SENDMAIL = f"#!/bin/sh\ncat >> {MAILS}\n"
# whoever edits a file has written the new text before
EDITOR = '#!/bin/sh\ncp /root/edited "$1"\n'


def bring(machine: Machine, source: str, target: str = DEBS) -> None:
    """Packages, where their administrator has them."""
    os.makedirs(machine.path(target), exist_ok=True)
    for deb in glob.glob(os.path.join(source, "*.deb")):
        shutil.copy(deb, machine.path(target))


def sshd(machine: Machine) -> None:
    ran = machine.run("ssh-keygen -A && systemctl enable --now ssh")
    assert ran.returncode == 0, ran


def key_of(machine: Machine, account: str = "root") -> str:
    """A key of an account's own: the public one."""
    home = "/root" if account == "root" else f"/home/{account}"
    ran = machine.run(
        f"id {account} > /dev/null 2>&1 || useradd -m -s /bin/bash {account};"
        f" install -d -m 0700 -o {account} {home}/.ssh && cd {home}/.ssh &&"
        " { [ -e id_ed25519 ] || ssh-keygen -q -t ed25519 -N '' -f id_ed25519; } &&"
        f" chown -R {account} . && cat id_ed25519.pub"
    )
    assert ran.returncode == 0, ran
    return ran.stdout


def trust(machine: Machine, key: str) -> None:
    """Root's door, for a key."""
    machine.run("install -d -m 0700 /root/.ssh")
    with open(machine.path("/root/.ssh/authorized_keys"), "a", encoding="utf-8") as file:
        file.write(key)


def blocks(text: str) -> list[tuple[str, str]]:
    """The blocks of a page, each with its kind."""
    return re.findall(r"^```(\w*)\n(.*?)^```$", text, re.MULTILINE | re.DOTALL)


def names(site: Site) -> None:
    """Each machine knows the others' names."""
    for it in site.machines:
        if it.first:
            it.write("/etc/hosts", site.hosts())


def summed(lives: list[Life]) -> tuple[int, int]:
    return sum(it.checks for it in lives), sum(it.wrong for it in lives)


def page(name: str) -> str:
    return desk.read("docs", name)

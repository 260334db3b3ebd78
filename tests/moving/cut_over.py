"""docs/IMPORT.md's 'Cut over', by the page's own commands: one host, and the way back; then the
loops over three hosts by ssh, each with a root and an sshd of its own; and the hosts of an
inventory."""

from __future__ import annotations

import contextlib
import os
import re
import subprocess
import time
from collections.abc import Iterator

from tests.common import desk
from tests.hosts.root import FILE
from tests.moving.compared import FOLDER
from tests.moving.files import MORE, SITES, File
from tests.moving.root import HOME, PROGRAM, SUDOERS, Mover
from tests.packages.package_test import furnish

PAGE = desk.read("docs", "IMPORT.md").split("\n## Cut over\n")[1].split("\n## ")[0]
# the page's commands, in its order: two blocks for one host, and two for all of a list
BLOCKS = ("import", "install", "copy", "all")
# where a command in a sentence begins
BEGINS = {"back": "rm -f /etc/sudoers.d/desk", "ansible": "ansible "}
HOSTS = ("db1", "db2", "web1")
PATIENCE = 120
ROSTER = desk.roster(
    {"ann": ["operate-db"], "bob": ["approve-db"]},
    [desk.ceiling("db-care")],
    hosts=HOSTS,
    relays=("chat",),
)


def commands() -> dict[str, str]:
    """The page's commands, by what they are for."""
    blocks = re.findall(r"^```sh\n(.*?)^```$", PAGE, re.MULTILINE | re.DOTALL)
    spans = re.findall(r"`([^`\n]+)`", PAGE)
    found = dict(zip(BLOCKS, blocks, strict=True))
    for name, begin in BEGINS.items():
        [found[name]] = [it for it in spans if it.startswith(begin)]
    return found


def settled(host: Mover) -> File:
    """A host with Debian's own file, some packages', of which one has an alias, and a site's."""
    held = {f"{FOLDER}/{name}": text for name, text in host.packages.items()}
    names = [it for it in held if it.endswith(("-plinth", "-xymon", "-nova-common"))]
    more = {f"{FOLDER}/site": SITES[0].text, **SITES[0].more}
    return File("a site's", host.own, {**{it: held[it] for it in names}, **more})


def grants(host: Mover) -> dict[str, str]:
    """What sudo says that each account may."""
    users = [line.partition(":")[0] for line in host.read("/etc/passwd").splitlines()]
    found = {}
    for user in users:
        said = host.run("sudo", "-n", "-l", "-U", user).stdout
        found[user] = said
    return found


def one_host(host: Mover) -> None:
    """The steps of the page, in its order."""
    host.furnish(settled(host))
    page = commands()
    before = grants(host)
    kept = {path: host.read(path) for path in (SUDOERS, *settled(host).more)}
    status, said = host.sh(page["import"])
    host.check("each rule has its verdict", "\nrules: " in said, said)
    is_same(host, "it is as before, by base and rest", status, said)
    with desk.Server(program=[PROGRAM], **texts(host)) as server:
        host.conf(f"http://{server.address}")
        status, said = host.sh(page["install"])
    is_same(host, "it is as before, installed", status, said)
    left = sorted([*os.listdir(host.path(FOLDER)), *filter(host.has, [MORE])])
    host.check("the rest takes the included files' place", left == ["desk"], str(left))
    status, said = host.sh("visudo -c")
    host.check("sudo reads both", status == 0, said)
    way_back(host, page["back"], kept, before)


def is_same(host: Mover, what: str, status: int, said: str) -> None:
    is_right = status == 0 and said.endswith(": 0 more, 0 less\n")
    host.check(what, is_right, f"{status}: {said}")


def texts(host: Mover) -> dict[str, str]:
    """The paths of a roster, and of the base that the page's commands made."""
    roster = desk.write(host.folder, "roster.toml", ROSTER)
    return {"roster": roster, "base": host.path(f"{HOME}/base.sudo")}


def way_back(host: Mover, script: str, kept: dict[str, str], before: dict[str, str]) -> None:
    status, said = host.sh(script)
    now = {path: host.read(path) for path in kept if host.has(path)}
    is_right = status == 0 and now == kept and not host.has(FILE)
    host.check("the way back brings the old files", is_right, f"{status}: {said}")
    host.check("and the old rights", grants(host) == before)


class Fleet:
    """Three hosts in the same network, each with an sshd in a root of its own; the first is where
    the administrator works."""

    def __init__(self, host: Mover) -> None:
        self.host = host
        self.roots = {HOSTS[0]: host}

    def make(self) -> None:
        """The others, and their accounts and files: not the same on each."""
        lines = [f"127.0.0.{at} {name}\n" for at, name in enumerate(HOSTS, 11)]
        names = "127.0.0.1 localhost\n" + "".join(lines)
        self.host.furnish(settled(self.host))
        for name in HOSTS[1:]:
            folder = os.path.join(self.host.folder, name)
            os.mkdir(folder)
            other = Mover(f"{self.host.name}, {name}", furnish(folder, ""), folder)
            other.prepare()
            site = SITES[1] if name == "db2" else SITES[2]
            other.furnish(File(name, other.own, {f"{FOLDER}/site": site.text}))
            self.roots[name] = other
        for name, it in self.roots.items():
            it.write("/etc/hosts", names)
            it.write("/etc/hostname", f"{name}\n")
        self.let_in()

    def let_in(self) -> None:
        """The administrator's key is root's on each."""
        words = ("ssh-keygen", "-q", "-t", "ed25519", "-N", "", "-f", "/root/.ssh/id")
        os.makedirs(self.host.path("/root/.ssh"), mode=0o700, exist_ok=True)
        self.host.drop("/root/.ssh/id")
        self.host.does("a key", *words)
        key = self.host.read("/root/.ssh/id.pub")
        for it in self.roots.values():
            os.makedirs(it.path("/root/.ssh"), mode=0o700, exist_ok=True)
            os.makedirs(it.path("/run/sshd"), exist_ok=True)
            it.write("/root/.ssh/authorized_keys", key)
            it.run("ssh-keygen", "-A")
        config = "IdentityFile /root/.ssh/id\nStrictHostKeyChecking accept-new\n"
        self.host.write("/root/.ssh/config", config)

    @contextlib.contextmanager
    def reached(self) -> Iterator[None]:
        """While each has its sshd, under its own name."""
        with contextlib.ExitStack() as stack:
            for at, (name, it) in enumerate(self.roots.items(), 11):
                words = ["chroot", it.root, "/usr/sbin/sshd", "-D", "-e"]
                words += ["-o", f"ListenAddress=127.0.0.{at}", "-o", "UsePAM=no"]
                script = f"hostname {name} && exec {' '.join(words)}"
                started = subprocess.Popen(
                    ["unshare", "--uts", "sh", "-c", script], stderr=subprocess.DEVNULL
                )
                stack.callback(started.wait)
                stack.callback(started.terminate)
            for name in self.roots:
                self.wait(name)
            yield

    def wait(self, name: str) -> None:
        end = time.monotonic() + PATIENCE
        while self.host.sh(f"ssh -n {name} true")[0] and time.monotonic() < end:
            time.sleep(0.2)


def three_hosts(host: Mover) -> None:
    """The loops of the page."""
    if not host.has("/usr/sbin/sshd"):
        return  # (the other roots have no more than sudo)
    # (of hosts that no desk had before)
    host.sh(f"rm -rf {HOME} /root/before-desk /var/lib/desk-host/*.json && mkdir {HOME}")
    fleet, page = Fleet(host), commands()
    fleet.make()
    host.write(f"{HOME}/hosts", "".join(f"{name}\n" for name in HOSTS))
    before = {name: grants(it) for name, it in fleet.roots.items()}
    with fleet.reached():
        status, said = host.sh(page["copy"])
        host.check("the loop that copies", status == 0 and "the base has" in said, said)
        rests = sorted(os.listdir(host.path(f"{HOME}/rests")))
        host.check("each has its rest", rests == sorted(HOSTS), str(rests))
        with desk.Server(program=[PROGRAM], **texts(host)) as server:
            for it in fleet.roots.values():
                it.conf(f"http://{server.address}")
            status, said = host.sh(page["all"])
    is_right = status == 0 and said.count(": 0 more, 0 less\n") == 2 * len(HOSTS)
    host.check("the loop that cuts over", is_right, said)
    for name, it in fleet.roots.items():
        host.check(f"{name} has its file", it.held() is not None)
        is_back(it, page["back"], before[name])


def is_back(host: Mover, script: str, before: dict[str, str]) -> None:
    status, said = host.sh(script)
    host.check("the way back", status == 0 and grants(host) == before, said)


INVENTORY = """\
[databases]
db1
db2 ansible_host=10.0.0.2
[web]
web[1:2]
[all:vars]
ansible_user=ops
"""


def inventory(host: Mover) -> None:
    """The hosts of an Ansible inventory, as the page has them written."""
    if not host.has("/usr/bin/ansible"):
        return
    os.makedirs(host.path("/etc/ansible"), exist_ok=True)
    host.write("/etc/ansible/hosts", INVENTORY)
    # (ansible refuses a locale that is not UTF-8)
    status, said = host.sh(f"export LC_ALL=C.UTF-8; {commands()['ansible']}; cat hosts")
    is_right = sorted(said.splitlines()) == ["db1", "db2", "web1", "web2"]
    host.check("the hosts of an inventory", status == 0 and is_right, said)


PARTS = (one_host, three_hosts, inventory)

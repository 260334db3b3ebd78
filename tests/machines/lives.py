"""The lives of a machine with all packages of the desk: installed, enabled, restarted, booted
again, upgraded, and rid of them. `python3 -m tests.machines.lives [FOLDER]` takes the packages of a
folder (build/deb). With LAST=FOLDER it upgrades a machine from the packages of the last release.

Nothing here is a stand-in: apt, dpkg and systemd are Debian's, on a machine that boots. (Nobody
asks for mail, and the desk's messages are those of examples/.)
"""

from __future__ import annotations

import glob
import os
import re
import shutil
import subprocess
import sys
import tempfile
import time
from collections.abc import Callable

from tests.common import desk
from tests.machines.machine import Machine, Site, lacks

DEBS = os.path.join(desk.BUILD, "deb")
EXAMPLES = "/usr/share/doc/steelnewt/examples"
FIRST, SECOND = "/root/first", "/root/second"
SERVED = ("desk.service", "desk-relay-post.service")
FETCH = "desk-fetch@db1.timer"
TIMERS = (FETCH, "desk-sessions.timer", "desk-starts.path", "desk-check.timer", "desk-watch.timer")
ASK = "curl -sS -m 60 --unix-socket /run/desk/desk.sock http://desk"
STARTS = 10
# what nobody wants to see on a machine
FAILED = "systemctl --failed --no-legend --plain"


class Life:
    """A machine, and the checks made on it."""

    def __init__(self, machine: Machine) -> None:
        self.machine = machine
        self.checks = self.wrong = 0

    def holds(self, what: str, is_right: bool, found: object = "") -> None:
        self.checks += 1
        if not is_right:
            self.wrong += 1
            print(f"{what}: otherwise. {str(found)[-600:]}", flush=True)

    def does(self, what: str, script: str, says: str = "") -> str:
        ran = self.machine.run(script)
        said = ran.stdout + ran.stderr
        self.holds(what, ran.returncode == 0 and re.search(says, said) is not None, said)
        return said

    def is_state(self, what: str, unit: str, state: str) -> None:
        found = self.machine.state(unit)
        self.holds(f"{what}: {unit} is {state}", found == state.replace(", ", "\n"), found)

    def nothing_failed(self, what: str) -> None:
        failed = self.machine.out(FAILED)
        self.holds(f"{what}: nothing failed", "desk" not in failed, failed)

    def pid(self, unit: str) -> str:
        return self.machine.out(f"systemctl show --property=MainPID --value {unit}")


def later(source: str, target: str) -> None:
    """The same packages with a later version, which they name of each other as well."""
    os.makedirs(target)
    for deb in sorted(glob.glob(os.path.join(source, "*.deb"))):
        with tempfile.TemporaryDirectory() as folder:
            subprocess.run(["dpkg-deb", "-R", deb, f"{folder}/it"], check=True)
            control = f"{folder}/it/DEBIAN/control"
            with open(control, encoding="utf-8") as file:
                text = file.read()
            version = re.search(r"^Version: (.*)$", text, re.MULTILINE)
            assert version is not None
            with open(control, "w", encoding="utf-8") as file:
                file.write(text.replace(version[1], f"9.{version[1]}"))
            name = os.path.basename(deb).replace(version[1], f"9.{version[1]}")
            words = ["dpkg-deb", "--root-owner-group", "-Z", "none", "-b", f"{folder}/it"]
            subprocess.run([*words, os.path.join(target, name)], check=True, stdout=-3)


def brought(machine: Machine, source: str) -> None:
    """The packages, and a later version of each, where their administrator has them."""
    os.mkdir(machine.path(FIRST))
    for deb in glob.glob(os.path.join(source, "*.deb")):
        shutil.copy(deb, machine.path(FIRST))
    later(source, machine.path(SECOND))


def installed(life: Life) -> None:
    """An installation starts nothing, enables nothing, and opens no port."""
    before = life.machine.out("ss -Hltn | sort")
    life.does("apt installs", f"cd {FIRST} && apt install ./*.deb", "Setting up steelnewt ")
    for unit in (*SERVED, "desk-relay-page.service", "desk-relay-notify.service"):
        life.is_state("installed", unit, "inactive, disabled")
    life.nothing_failed("installed")
    after = life.machine.out("ss -Hltn | sort")
    life.holds("no port is opened", after == before, after)
    wanted = life.machine.out("apt-cache show steelnewt | grep ^Recommends")
    wanted += life.machine.out(f"dpkg-deb -f {FIRST}/steelnewt_*.deb Recommends")
    life.holds("and none by what it recommends", "nginx" not in wanted, wanted)
    found = life.machine.out("stat -c '%U:%G %a' /etc/sudoers.d/desk-defaults; visudo -c")
    is_there = found.startswith("root:root 440\n") and "desk-defaults: parsed OK" in found
    life.holds("sudo's settings", is_there, found)
    found = life.machine.out("stat -c '%U:%G %a' /var/log/nginx/desk.log")
    life.holds("the front's log", found == "www-data:adm 640", found)


def enabled(life: Life) -> None:
    machine = life.machine
    machine.run(
        f"cd {EXAMPLES} && cp roster.toml /etc/desk/ && cp site.sudo /etc/desk/base.sudo;"
        # (people are told nothing here, and the page has its own front)
        " sed -i '/^.notify/,$d' /etc/desk/relay.toml"
    )
    life.does("enabled", f"systemctl enable --now {' '.join(SERVED)}")
    for unit in SERVED:
        life.is_state("enabled", unit, "active, enabled")
    for line in machine.read(f"{EXAMPLES}/approved.messages").splitlines():
        said = machine.out(f"{ASK}/v1/relays/chat/messages --data-binary '{line}'")
        life.holds("it takes a message", said == "ack", said)
    life.does("a host's certificate", "cd /etc/desk && openssl req -x509 -newkey ed25519 -nodes"
              " -subj /CN=db1 -days 300 -keyout host.key -out host.pem && cp host.pem ca.pem")
    life.does("a certificate that ends is told", "openssl req -x509 -key /etc/desk/host.key -days 3"
              " -subj /CN=db1 -out /etc/desk/host.pem; desk-host check > /tmp/said 2>&1;"
              " cat /tmp/said", "/etc/desk/host.pem ends on ")
    life.does("a host's timer", f"systemctl enable --now {FETCH}")
    for unit in TIMERS:
        found = machine.out(f"systemctl is-active {unit}")
        life.holds(f"{unit} runs", found == "active", found)
    unproved(life)
    watched(life)


def unproved(life: Life) -> None:
    """A program that is not proved says so wherever somebody looks."""
    machine = life.machine
    if "NOT PROVED" not in machine.out("desk --version"):
        return
    life.does("the journal says so", "journalctl -u desk", "THIS PROGRAM IS NOT PROVED")
    life.does("dpkg says so", "dpkg-query -W -f '${Version} ${Description}' steelnewt",
              "(?s)~unproved .*NOT PROVED")
    life.does("check_desk says so", "/usr/lib/nagios/plugins/check_desk --program /usr/bin/desk;"
              " [ $? = 1 ]", "/usr/bin/desk is NOT PROVED")


def watched(life: Life) -> None:
    """The desk is looked after by a timer, and a desk that is down fails it."""
    machine = life.machine
    life.does("its timer", "systemctl is-active desk-watch.timer")
    life.does("a look", "systemctl start desk-watch && journalctl -u desk-watch", "desk_up=1")
    machine.run("systemctl stop desk; systemctl start desk-watch")
    found = machine.state("desk-watch.service")
    life.holds("a desk that is down fails it", found.startswith("failed"), found)
    machine.run("systemctl start desk; systemctl reset-failed")


def restarted(life: Life) -> None:
    """A person may start it as often as an incident wants."""
    for unit in SERVED:
        words = f"for _ in $(seq {STARTS}); do systemctl restart {unit} || exit 1; done"
        life.does(f"{STARTS} starts of {unit}", words)
        life.is_state(f"{STARTS} starts", unit, "active, enabled")


def booted(life: Life) -> None:
    life.machine.reboot()
    for unit in SERVED:
        life.machine.wait(f"systemctl is-active {unit}", 60)
        life.is_state("booted again", unit, "active, enabled")
    for unit in TIMERS:
        found = life.machine.out(f"systemctl is-active {unit}")
        life.holds(f"booted again: {unit} runs", found == "active", found)
    kept(life, "booted again")


def kept(life: Life, what: str) -> None:
    """What was acknowledged is there."""
    life.machine.wait(f"{ASK}/v1/count", 60)
    held = life.machine.out(f"{ASK}/v1/messages | wc -l")
    life.holds(f"{what}: the messages", held == "2", held)


def upgraded(life: Life, units: tuple[str, ...]) -> None:
    """What runs goes on with the new version, these units by another process, and what does not
    stays so."""
    before = {it: life.pid(it) for it in units}
    said = life.does("apt upgrades", f"cd {SECOND} && apt install --only-upgrade ./*.deb")
    for unit in SERVED:
        life.is_state("upgraded", unit, "active, enabled")
    for unit in units:
        life.holds(f"upgraded: {unit} is another", life.pid(unit) not in ("0", before[unit]), said)
    for unit in TIMERS:
        found = life.machine.out(f"systemctl is-active {unit}")
        life.holds(f"upgraded: {unit} runs", found == "active", found)
    life.is_state("upgraded", "desk-relay-page.service", "inactive, disabled")
    kept(life, "upgraded")
    shown = "dpkg-query -W -f '${db:Status-Status} ${Version}\\n' 'steelnewt*' python3-steelnewt*"
    versions = {*life.machine.out(f"{shown} | grep ^installed").splitlines()}
    life.holds("upgraded: one version of all", len(versions) == 1, versions)


def alone(life: Life) -> None:
    """One package alone is upgraded: what stays behind is named, and nothing is taken away."""
    before = life.pid("desk.service")
    said = life.does("the desk alone", f"cd {SECOND} && apt install --no-remove ./steelnewt_*.deb")
    life.holds("what is behind is named", "steelnewt-relay is still " in said, said)
    life.holds("the desk alone: it is another", life.pid("desk.service") not in ("0", before), said)
    for unit in SERVED:
        life.is_state("the desk alone", unit, "active, enabled")
    ran = life.machine.run(f"cd {SECOND} && apt install --no-remove ./python3-steelnewt-c*.deb")
    life.holds("a client for older relays", ran.returncode != 0, ran)


def removed(life: Life) -> None:
    """Nothing of a package goes on that is removed."""
    machine = life.machine
    machine.run(f"systemctl start {' '.join(SERVED)}")
    said = life.does("apt removes", "apt remove steelnewt-relay steelnewt steelnewt-host")
    for name, what in (("desk serve", "the desk"), ("desk-relay post", "the relay's posts")):
        left = machine.out(f"pgrep -af '{name}' | grep -v pgrep")
        life.holds(f"removed: {what}", left == "", left)
    for unit in (*SERVED, *TIMERS):
        found = machine.out(f"systemctl is-active {unit}")
        life.holds(f"removed: {unit} is inactive", found == "inactive", found)
    links = machine.out("find /etc/systemd/system -xtype l -name 'desk-fetch*'")
    life.holds("removed: a link of a host's timer", links == "", links)
    life.holds("removed: the timer is named", f"{FETCH} is off" in said, said)
    life.nothing_failed("removed")


def purged(life: Life) -> None:
    machine = life.machine
    names = "dpkg-query -W -f '${Package}\\n' 'steelnewt*' python3-steelnewt-client mydesk"
    said = life.does("apt purges", f"apt purge $({names} 2> /dev/null)")
    life.holds("purged: the host's key is named", "/etc/desk/host.key stays" in said, said)
    life.holds("purged: what people sent is named", "stay in /var/lib/desk," in said, said)
    links = machine.out("find /etc/systemd -xtype l -name '*desk*'; systemctl list-units 'desk*'"
                        " --all --no-legend --plain")
    life.holds("purged: systemd knows none", links == "", links)
    life.does("purged: sudo works", "visudo -c && sudo -n true")
    life.nothing_failed("purged")
    machine.reboot()
    life.nothing_failed("purged, and booted")


def again(life: Life) -> None:
    """Installed once more over what a purge leaves: the messages are those that were there."""
    life.does("apt installs again", f"cd {FIRST} && apt install ./*.deb")
    life.is_state("installed again", "desk.service", "inactive, disabled")
    settings = f"cd {EXAMPLES} && cp roster.toml /etc/desk/ && cp site.sudo /etc/desk/base.sudo"
    life.does("enabled again", f"{settings} && systemctl enable --now desk")
    kept(life, "installed again")


PARTS: tuple[Callable[[Life], None], ...] = (
    installed,
    enabled,
    restarted,
    booted,
    alone,
    lambda life: upgraded(life, SERVED[1:]),  # (the desk is of that version already)
    removed,
    purged,
    again,
)


def from_release(site: Site, source: str, last: str) -> Life:
    """A machine of the last release's packages, which is upgraded to these."""
    life = Life(site.machine("db1").boot())
    os.mkdir(life.machine.path("/root/last"))
    for deb in glob.glob(os.path.join(last, "*.deb")):
        shutil.copy(deb, life.machine.path("/root/last"))
    # (a version that is later than the last release's, whatever it is called)
    brought(life.machine, source)
    life.does("the last release", "cd /root/last && apt install ./*.deb")
    machine = life.machine
    machine.run(f"cd {EXAMPLES} && cp roster.toml /etc/desk/ && cp site.sudo /etc/desk/base.sudo;"
                " sed -i '/^.notify/,$d' /etc/desk/relay.toml")
    life.does("it is enabled", f"systemctl enable --now {' '.join(SERVED)} {FETCH}")
    for line in machine.read(f"{EXAMPLES}/approved.messages").splitlines():
        machine.run(f"{ASK}/v1/relays/chat/messages --data-binary '{line}'")
    upgraded(life, SERVED)
    return life


def inside(source: str, last: str) -> None:
    with tempfile.TemporaryDirectory() as folder:
        site = Site(folder)
        try:
            if last:
                life = from_release(site, source, last)
            else:
                life = Life(site.machine("db1").boot())
                brought(life.machine, source)
                for part in PARTS:
                    began = time.monotonic()
                    part(life)
                    name = getattr(part, "__name__", "upgraded").replace("<lambda>", "upgraded")
                    print(f"{name}: {time.monotonic() - began:.1f} s", flush=True)
        finally:
            site.close()
    boots = life.machine.boots
    print(f"the lives of a machine, {boots} boots: {life.checks} checks, {life.wrong} wrong")
    sys.exit(1 if life.wrong else 0)


def in_a_room(*more: str) -> int:
    """Runs this again with the word --inside, where all machines end with it."""
    words = ["unshare", "--mount", "--net", "--pid", "--ipc", "--fork", "--kill-child"]
    words += ["--mount-proc", "--propagation", "private", *desk.again()]
    return subprocess.run([*words, "--inside", *more], check=False).returncode


def main() -> None:
    if missing := lacks():
        sys.exit(f"no machine can be booted here: it needs {missing}")
    source = os.path.abspath(sys.argv[1] if len(sys.argv) > 1 else DEBS)
    last = os.environ.get("LAST", "")
    sys.exit(in_a_room(source, os.path.abspath(last) if last else ""))


if __name__ == "__main__":
    if sys.argv[1:2] == ["--inside"]:
        inside(*sys.argv[2:4])
    main()

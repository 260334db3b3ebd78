"""A machine that is booted by systemd, in namespaces of its own, over a root that stays as it is.

What it writes is kept until the test ends, so that it can be shut down and booted again. Several of
them are connected by a bridge. Commands are run in it as its administrator or as one of its people.
"""

from __future__ import annotations

import contextlib
import os
import shlex
import shutil
import signal
import subprocess
import sys
import time

from tests.common import desk

HERE = os.path.dirname(os.path.abspath(__file__))
PATIENCE = 300  # the seconds after which something hangs: the machine may be busy
PATH = "/usr/local/sbin:/usr/local/bin:/usr/sbin:/usr/bin:/sbin:/bin"
BRIDGE = "site"
SOON = 20  # the seconds in which what was killed ends
CALLED = "called"  # the control group of what is run in a machine from outside
SPACES = ["--mount", "--pid", "--net", "--uts", "--ipc", "--cgroup"]
UNATTENDED = """APT::Get::Assume-Yes "true";
APT::Install-Recommends "false";
APT::Sandbox::User "root";
DPkg::Options:: "--force-unsafe-io";
DPkg::Options:: "--force-confold";
"""
# What this machine lacks for it; nothing where it can boot one.
NEEDED = ("/lib/systemd/systemd", "dbus-daemon", "nsenter", "unshare", "ip", "dpkg-deb")


def lacks() -> str:
    """Why no machine can be booted here; nothing where one can."""
    if os.geteuid() != 0:
        return "root's rights"
    return ", ".join(it for it in NEEDED if shutil.which(it, path=PATH) is None)


class Site:
    """The room in which machines are made, and what connects them."""

    def __init__(self, folder: str, lower: str = "/") -> None:
        self.folder, self.lower = folder, lower
        self.groups = os.path.join(folder, "groups")
        self.machines: list[Machine] = []
        # (the first process of a room hears only what it handles, and all end with it)
        signal.signal(signal.SIGTERM, lambda *_: sys.exit("ended from outside"))
        ip("link", "set", "lo", "up")
        ip("link", "add", BRIDGE, "type", "bridge")
        ip("link", "set", BRIDGE, "up")
        mount("-t", "tmpfs", "-o", "size=4g", "tmpfs", folder)
        os.mkdir(self.groups)
        mount("-t", "cgroup2", "none", self.groups)

    def machine(self, name: str) -> Machine:
        made = Machine(self, name, len(self.machines) + 1)
        self.machines.append(made)
        return made

    def hosts(self) -> str:
        """The names of all machines, as /etc/hosts has them."""
        rows = [f"{it.address} {it.name}" for it in self.machines]
        return "\n".join(["127.0.0.1 localhost", *rows, ""])

    def close(self) -> None:
        for it in self.machines:
            it.kill()
        subprocess.run(["umount", "--lazy", self.groups, self.folder], check=False)


def ip(*words: str) -> None:
    subprocess.run(["ip", *words], check=True)


def mount(*words: str) -> None:
    subprocess.run(["mount", *words], check=True)


class Machine:
    """One machine of a site, booted or not."""

    def __init__(self, site: Site, name: str, number: int) -> None:
        self.site, self.name, self.number = site, name, number
        self.address = f"10.9.0.{number}"
        self.folder = os.path.join(site.folder, name)
        # (control groups are one tree for all: the room's name is this test's own)
        room = os.path.basename(site.folder)
        self.group = os.path.join(site.groups, f"steelnewt-{room}-{number}")
        self.process: subprocess.Popen[bytes] | None = None
        self.first = 0
        self.boots = 0

    def boot(self) -> Machine:
        """Boots it, and waits until systemd has started all."""
        os.makedirs(self.folder, exist_ok=True)
        self.remove_group()
        os.mkdir(self.group)
        script = 'echo $$ > "$0/cgroup.procs"; exec unshare "$@"'
        words = ["bash", "-c", script, self.group, *SPACES, "--fork", "--kill-child"]
        words += ["--propagation", "private", "bash", os.path.join(HERE, "boot.sh")]
        with open(os.path.join(self.folder, "console"), "ab") as log:
            self.process = subprocess.Popen(
                [*words, self.site.lower, self.folder, self.name],
                stdin=subprocess.DEVNULL, stdout=log, stderr=log,
            )  # fmt: skip
        self.first = self.child()
        os.makedirs(os.path.join(self.group, CALLED), exist_ok=True)
        self.connect()
        self.wait("systemctl is-system-running | grep -Eq 'running|degraded'")
        self.boots += 1
        if self.boots == 1:
            self.write("/etc/apt/apt.conf.d/99unattended", UNATTENDED)
        self.write("/etc/hosts", self.site.hosts())
        return self

    def child(self) -> int:
        """The machine's first process, as this machine sees it."""
        assert self.process
        path = f"/proc/{self.process.pid}/task/{self.process.pid}/children"
        until = time.monotonic() + PATIENCE
        while time.monotonic() < until and self.process.poll() is None:
            with contextlib.suppress(OSError), open(path, encoding="ascii") as file:
                if found := file.read().split():
                    return int(found[0])
            time.sleep(0.02)
        raise OSError(f"{self.name} does not begin: {self.console()}")

    def connect(self) -> None:
        ip("link", "add", f"to{self.number}", "type", "veth", "peer", "eth0", "netns",
           str(self.first))  # fmt: skip
        ip("link", "set", f"to{self.number}", "master", BRIDGE, "up")
        inside = ["nsenter", "--target", str(self.first), "--net", "ip"]
        for words in (
            ["addr", "add", f"{self.address}/24", "dev", "eth0"],
            ["link", "set", "eth0", "up"],
            ["link", "set", "lo", "up"],
        ):
            subprocess.run([*inside, *words], check=True)

    def run(self, script: str, account: str = "", given: str = "", **more: str) -> desk.Run:
        """Runs a script in it, as root or as one of its accounts."""
        home = f"/home/{account}" if account else "/root"
        held = {"PATH": PATH, "LC_ALL": "C", "TZ": "UTC", "HOME": home, **more}
        words = ["env", "-i", *(f"{name}={value}" for name, value in held.items())]
        if account:
            words += ["setpriv", "--reuid", account, "--regid", account, "--init-groups"]
        # (into a control group of the machine first: sudo's plugin makes one below it)
        enter = ["bash", "-c", 'echo $$ > "$0" && exec "$@"', f"{self.group}/{CALLED}/cgroup.procs"]
        enter += ["nsenter", "--target", str(self.first)]
        enter += ["--mount", "--pid", "--net", "--uts", "--ipc", "--cgroup", "--"]
        inside = [*words, "bash", "-c", f"cd {shlex.quote(home)} || exit; {script}"]
        return desk.run([*enter, *inside], given, PATIENCE)

    def holds(self, script: str) -> bool:
        return self.run(script).returncode == 0

    def out(self, script: str) -> str:
        """What a script prints, without the last line end."""
        return self.run(script).stdout.rstrip("\n")

    def wait(self, script: str, seconds: float = PATIENCE) -> bool:
        """Waits until a script ends with 0; whether it did."""
        until = time.monotonic() + seconds
        while time.monotonic() < until:
            if self.holds(script):
                return True
            if self.process is None or self.process.poll() is not None:
                raise OSError(f"{self.name} ended: {self.console()}")
            time.sleep(0.3)
        return False

    def state(self, unit: str) -> str:
        """What systemd says of a unit: whether it is active, and whether it starts by itself."""
        return self.out(f"systemctl is-active {unit}; systemctl is-enabled {unit} 2>&1")

    def path(self, name: str) -> str:
        return f"/proc/{self.first}/root{name}"

    def write(self, name: str, text: str, mode: int = 0o644) -> None:
        with open(self.path(name), "w", encoding="utf-8") as file:
            file.write(text)
        os.chmod(self.path(name), mode)

    def read(self, name: str) -> str:
        with open(self.path(name), encoding="utf-8") as file:
            return file.read()

    def console(self) -> str:
        with open(os.path.join(self.folder, "console"), encoding="utf-8", errors="replace") as file:
            return file.read()[-800:]

    def off(self) -> None:
        """Shuts it down, as its administrator does."""
        assert self.process
        self.run("systemctl --no-block poweroff")
        self.process.wait(PATIENCE)
        self.process = None

    def reboot(self) -> None:
        self.off()
        self.boot()

    def kill(self) -> None:
        if self.process:
            self.process.kill()
            self.process.wait()
            self.process = None
        until = time.monotonic() + SOON
        while not self.remove_group() and time.monotonic() < until:
            time.sleep(0.1)

    def remove_group(self) -> bool:
        """Takes the control groups of the last boot away; whether they are gone, for what is killed
        in them ends a little later."""
        for place, _, _ in os.walk(self.group, topdown=False):
            with contextlib.suppress(OSError):
                os.rmdir(place)
        return not os.path.exists(self.group)

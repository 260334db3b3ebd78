"""A host in a root of its own: its users, its desk-host, and what its sudo allows."""

from __future__ import annotations

import contextlib
import os
import re
import shutil
import subprocess
import time
from collections.abc import Callable, Iterator

from tests.common import desk
from tests.common.sudo_peer import host_program
from tests.packages.package_test import Trial

TREE = os.environ.get("TREE") or desk.ROOT  # whose desk-host is tried
HAS_PLUGIN = os.path.exists(os.path.join(TREE, "packaging", "host", "desk_host.c"))
PLUGIN = os.path.join(desk.ROOT, "build", "desk_host.so")
PLUGIN_THERE = "/usr/libexec/steelnewt/desk_host.so"
GROUPS = "/sys/fs/cgroup"
STARTS = "/run/desk-host/starts"  # what sudo wrote down
FILE = "/etc/sudoers.d/desk"
STATE = "/var/lib/desk-host"
CHANGED = "/run/desk-host/changed"  # when the rights last changed
SUDOERS = """\
Defaults env_reset
Defaults mail_badpass
Defaults secure_path="/usr/local/sbin:/usr/local/bin:/usr/sbin:/usr/bin:/sbin:/bin"
Defaults !lecture
root ALL=(ALL:ALL) ALL
@includedir /etc/sudoers.d
"""
USERS = ("ann", "bob", "carl", "dba")


def own_program(path: str) -> str:
    """Puts the tree's desk-host there: its path. (To 0.19.0 it was one file, without a plugin.)"""
    if HAS_PLUGIN:
        return host_program(path, TREE)
    shutil.copy(os.path.join(TREE, "packaging", "desk-host"), path)
    os.chmod(path, 0o755)
    return path


def within(holds: Callable[[], bool], seconds: float = 180) -> bool:
    """Whether something becomes so within some seconds."""
    until = time.monotonic() + seconds
    while not (is_so := holds()) and time.monotonic() < until:
        time.sleep(0.1)
    return is_so


class Host(Trial):
    """The root of a host, db1."""

    def __init__(self, name: str, root: str, folder: str) -> None:
        """`folder` is for what is beside the root."""
        super().__init__(root)
        self.name = name
        self.folder = folder
        self.has_groups = False
        self.group = f"{GROUPS}/steelnewt-{os.path.basename(folder)}"

    def check(self, what: str, is_right: bool, said: str = "") -> None:
        super().check(f"{self.name}, {what}", is_right, said)

    @property
    def version(self) -> tuple[int, ...]:
        """The version of its sudo."""
        said = self.run("sudo", "-V").stdout
        found = re.search(r"Sudo version (\d+)\.(\d+)\.(\d+)", said)
        return tuple(int(it) for it in found.groups()) if found else (0,)

    @property
    def is_fit(self) -> bool:
        return self.version >= (1, 9, 9)

    def prepare(self) -> None:
        """Gives the host its name, its users, whose passwords are their names, and its program."""
        self.write("/etc/hosts", "127.0.0.1 localhost\n127.0.1.1 db1\n")
        self.write("/etc/hostname", "db1\n")
        kinds = ("passwd", "group", "shadow", "hosts")
        self.write("/etc/nsswitch.conf", "".join(f"{kind}: files\n" for kind in kinds))
        for folder in ("/etc/sudoers.d", "/etc/desk", STATE):
            shutil.rmtree(self.path(folder), ignore_errors=True)
            os.makedirs(self.path(folder))
        self.put_sudoers(SUDOERS)
        for user in USERS:
            self.run("useradd", "--create-home", "--shell", "/bin/bash", user)
        self.run("chpasswd", given="".join(f"{user}:{user}\n" for user in USERS))
        own_program(self.path("/usr/sbin/desk-host"))
        if self.is_fit:
            self.plug()

    def plug(self) -> None:
        """Has its sudo load the plugin, with control groups where a root may have any."""
        if HAS_PLUGIN:
            os.makedirs(self.path(os.path.dirname(PLUGIN_THERE)), exist_ok=True)
            self.copy(PLUGIN, PLUGIN_THERE)
        try:
            os.makedirs(self.path(GROUPS), exist_ok=True)
            subprocess.run(["mount", "-t", "cgroup2", "none", self.path(GROUPS)], check=True)
            os.mkdir(self.path(self.group))
            self.enter(self.group)
            self.has_groups = True
        except (OSError, subprocess.CalledProcessError) as why:
            print(f"{self.name}: LEFT OUT: what needs control groups: {why}", flush=True)
        if HAS_PLUGIN:
            self.switch("on")

    def switch(self, how: str) -> None:
        """Has its sudo load the plugin, or not load it."""
        self.does(f"desk-host plugin {how}", "desk-host", "plugin", how, says="^$")

    @contextlib.contextmanager
    def unplugged(self) -> Iterator[None]:
        """As long as the block lasts, its sudo does not load the plugin."""
        if not HAS_PLUGIN:
            yield
            return
        self.switch("off")
        try:
            yield
        finally:
            self.switch("on")

    def enter(self, group: str) -> None:
        """Goes into a control group, and so does all that is started from now on."""
        with open(self.path(f"{group}/cgroup.procs"), "w", encoding="ascii") as file:
            file.write("0")

    def unplug(self) -> None:
        """Leaves its control group."""
        if self.has_groups:
            self.enter(GROUPS)
            with contextlib.suppress(OSError):
                os.rmdir(self.path(self.group))

    def copy(self, source: str, target: str) -> None:
        shutil.copy(source, self.path(target))
        os.chmod(self.path(target), 0o755)

    def conf(self, *desks: str, **settings: str) -> None:
        """Writes /etc/desk/fetch.conf."""
        lines = [f"DESKS={' '.join(desks)}", f"FILE={FILE}"]
        lines += [f"{name}={value}" for name, value in settings.items()]
        self.write("/etc/desk/fetch.conf", "\n".join(lines) + "\n")

    def fetch(self) -> tuple[int, str]:
        ran = self.run("desk-host", "fetch", "db1")
        return ran.returncode, ran.stdout

    def put(self, name: str, text: str | bytes) -> None:
        """Puts a file among those of sudo."""
        path = self.path(f"/etc/sudoers.d/{name}")
        if os.path.lexists(path):
            os.unlink(path)
        with open(path, "wb") as file:
            file.write(text.encode() if isinstance(text, str) else text)
        os.chmod(path, 0o440)

    def put_sudoers(self, text: str) -> None:
        """Puts that in the place of /etc/sudoers."""
        self.write("/etc/sudoers.new", text)
        os.chmod(self.path("/etc/sudoers.new"), 0o440)
        os.rename(self.path("/etc/sudoers.new"), self.path("/etc/sudoers"))

    def drop(self, *names: str) -> None:
        """Takes away files of sudo's, or what desk-host keeps."""
        for name in names:
            path = self.path(name if name.startswith("/") else f"/etc/sudoers.d/{name}")
            if os.path.isdir(path) and not os.path.islink(path):
                shutil.rmtree(path)
            elif os.path.lexists(path):
                os.unlink(path)

    def held(self) -> bytes | None:
        """The host's file; nothing where there is none."""
        if not os.path.lexists(self.path(FILE)):
            return None
        with open(self.path(FILE), "rb") as file:
            return file.read()

    def may(self, user: str, *command: str, env: tuple[str, ...] = ()) -> bool:
        """Whether its sudo lets a user run a command as root, now."""
        ran = self.run("env", *env, "sudo", "-n", "-l", "-U", user, "-u", "root", "--", *command)
        return ran.returncode == 0

    @contextlib.contextmanager
    def running(self, *words: str) -> Iterator[subprocess.Popen[str]]:
        """Words that run beside the block, which ends when they have ended."""
        env = ["env", "-i", "PATH=/usr/sbin:/usr/bin:/sbin:/bin", "LC_ALL=C"]
        whole = ["chroot", self.root, *env, *words]
        with subprocess.Popen(
            whole, stdout=subprocess.PIPE, stderr=subprocess.STDOUT, text=True
        ) as started:
            yield started

    def as_user(self, user: str, *words: str) -> subprocess.CompletedProcess[str]:
        """Runs words as one of its users."""
        return self.run("setpriv", "--reuid", user, "--regid", user, "--init-groups", *words)

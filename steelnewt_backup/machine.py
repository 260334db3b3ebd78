"""The machine beside its files: its name, its packages, its units, and who is in its groups."""

from __future__ import annotations

import contextlib
import fcntl
import grp
import os
import pwd
import shutil
import socket
import struct
import subprocess
import time
from collections.abc import Sequence
from typing import IO, Any

from steelnewt_backup.faults import Failed

PACKAGES = ("steelnewt*", "python3-steelnewt-client", "mydesk")
GROUPS = ("desk-front", "desk-door", "desk")
# Units that bring messages, take them or write state: none runs while a machine is restored.
UNITS = (
    "desk.service", "desk-door.service", "desk-relay-post.service", "desk-relay-notify.service",
    "desk-relay-page.service",
)  # fmt: skip
TIMERS = (
    "desk-backup.timer", "desk-drill.timer", "desk-follow.service", "desk-watch.timer",
    "desk-check.timer", "desk-sessions.timer", "desk-starts.path",
)  # fmt: skip
# (sshd reads the keys that came back as it starts)
FRONTS = ("nginx.service", "haproxy.service", "apache2.service", "ssh.service", "cron.service")
LOCKS = ("/var/lib/dpkg/lock-frontend", "/var/lib/dpkg/lock")
PATIENCE = 600.0  # seconds for which an upgrade is waited for


def said(*words: str) -> str:
    """What a program prints; nothing where it is missing, or fails."""
    if shutil.which(words[0]) is None:
        return ""
    ran = subprocess.run(words, capture_output=True, text=True, check=False)
    return ran.stdout


def host_name() -> str:
    return socket.gethostname()


def machine_id(root: str = "") -> str:
    try:
        with open(f"{root}/etc/machine-id", encoding="ascii") as file:
            return file.read().strip()
    except OSError:
        return ""


def packages() -> dict[str, str]:
    """The desk's packages that are installed, with their versions."""
    form = "${db:Status-Status} ${Package} ${Version}\n"
    lines = said("dpkg-query", "-W", "-f", form, *PACKAGES).splitlines()
    rows = [line.split() for line in lines]
    return {row[1]: row[2] for row in rows if len(row) == 3 and row[0] == "installed"}


def units() -> dict[str, list[str]]:
    """The units that this machine has, each with whether it is enabled and whether it runs."""
    found = {}
    instances = [
        line.split()[0]
        for line in said(
            "systemctl", "list-units", "--all", "--plain", "--no-legend",
            "desk-fetch@*.timer", "desk-consume@*.service",
        ).splitlines()
    ]  # fmt: skip
    for name in (*UNITS, *TIMERS, *FRONTS, *instances):
        enabled = said("systemctl", "is-enabled", name).strip()
        if enabled and enabled != "not-found":
            found[name] = [enabled, said("systemctl", "is-active", name).strip()]
    return found


def running() -> list[str]:
    """Which of the units run that nobody restores under."""
    return [name for name in UNITS if said("systemctl", "is-active", name).strip() == "active"]


def members() -> dict[str, list[str]]:
    """Who is in the groups that open sockets."""
    found = {}
    for name in GROUPS:
        with contextlib.suppress(KeyError):
            found[name] = sorted(grp.getgrnam(name).gr_mem)
    return found


def join(groups: dict[str, list[str]]) -> None:
    """Lets those into the groups again who were in them and have an account here."""
    now = members()
    for group, names in groups.items():
        for name in sorted({*names} - {*now.get(group, names)}):
            with contextlib.suppress(KeyError):
                pwd.getpwnam(name)
                subprocess.run(["gpasswd", "--add", name, group], capture_output=True, check=True)


def is_upgrading() -> bool:
    """Whether dpkg has its lock. (Asking for it would take it for a moment: the kernel is asked who
    has it.)"""
    for path in LOCKS:
        with contextlib.suppress(OSError):
            with open(path, "rb") as file:
                wanted = struct.pack("hhqqi", fcntl.F_WRLCK, os.SEEK_SET, 0, 0, 0)
                found = fcntl.fcntl(file, fcntl.F_GETLK, wanted)
                if struct.unpack("hhqqi", found)[0] != fcntl.F_UNLCK:
                    return True
    return False


def wait_for_upgrade(patience: float = PATIENCE) -> None:
    until = time.monotonic() + patience
    while is_upgrading():
        if time.monotonic() > until:
            raise Failed("packages are being installed: it waited, and nothing was taken")
        time.sleep(0.5)


def is_older(one: str, other: str) -> bool:
    """Whether a version is older than another, as Debian compares them."""
    ran = subprocess.run(["dpkg", "--compare-versions", one, "lt", other], check=False)
    return ran.returncode == 0


def owner_name(uid: int) -> str:
    try:
        return pwd.getpwuid(uid).pw_name
    except KeyError:
        return str(uid)


def group_name(gid: int) -> str:
    try:
        return grp.getgrgid(gid).gr_name
    except KeyError:
        return str(gid)


def owner_id(name: str) -> int:
    return int(name) if name.isdecimal() else pwd.getpwnam(name).pw_uid


def group_id(name: str) -> int:
    return int(name) if name.isdecimal() else grp.getgrnam(name).gr_gid


def has_owner(owner: str, group: str) -> bool:
    try:
        return owner_id(owner) >= 0 and group_id(group) >= 0
    except KeyError:
        return False


def systemctl(*words: str) -> None:
    """Tells systemd; where there is none, nothing."""
    if not os.path.isdir("/run/systemd/system"):
        return
    ran = subprocess.run(["systemctl", *words], capture_output=True, text=True, check=False)
    if ran.returncode:
        raise Failed(f"systemctl {' '.join(words)}: {' '.join(ran.stderr.split())}")


def run_as(
    account: str, group: str, words: Sequence[str], stdin: IO[bytes] | int = subprocess.DEVNULL
) -> subprocess.CompletedProcess[bytes]:
    """Runs words as an account; as the caller, where that is not root."""
    more: dict[str, Any] = {}
    if os.geteuid() == 0:
        more = {"user": owner_id(account), "group": group_id(group), "extra_groups": []}
    return subprocess.run(words, stdin=stdin, capture_output=True, check=False, **more)

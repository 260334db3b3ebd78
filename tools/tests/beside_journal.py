#!/usr/bin/env python3
"""A real journald, into which the real sudo logs, and into which somebody else writes as if they
were sudo; and a real rsyslogd. What is not surely sudo's, and what the log says that it lost, is
UNREAD.

It is done in namespaces of its own, as beside_sudo_logs.py. beside_journal.py
"""

from __future__ import annotations

import contextlib
import os
import signal
import socket
import subprocess
import sys
import tempfile
import time
from collections.abc import Callable, Iterator

import beside_sudo_logs as beside
from tests.common import desk

JOURNALD = "/lib/systemd/systemd-journald"
SETTINGS = """\
[Journal]
Storage=volatile
RateLimitIntervalSec=2s
RateLimitBurst=1
ReadKMsg=no
Audit=no
"""
RSYSLOG = """\
module(load="imuxsock" SysSock.RateLimit.Interval="1" SysSock.RateLimit.Burst="3")
$WorkDirectory /mnt
*.* /mnt/log/all
"""
# where the kernel keeps which unit a process is of, for systemd
UNITS = ("/sys/fs/cgroup/systemd", "/sys/fs/cgroup/unified", "/sys/fs/cgroup")
FORGED = "eve : PWD=/ ; USER=root ; COMMAND=/usr/bin/id forged"


def write_and_go(text: str) -> None:
    """Writes to syslog as a process that is gone before anybody looks at it."""
    if os.fork() == 0:
        with socket.socket(socket.AF_UNIX, socket.SOCK_DGRAM) as out:
            out.connect("/dev/log")
            out.send(f"<86>sudo: {text}".encode())
        os._exit(0)
    os.wait()


def sudo(*words: str) -> None:
    ids = ["--reuid", "eve", "--regid", "2001", "--clear-groups"]
    ran = subprocess.run(["setpriv", *ids, "sudo", "-n", *words], capture_output=True, check=False)
    if ran.returncode:
        sys.exit(f"sudo: {ran}")


@contextlib.contextmanager
def unit(name: str) -> Iterator[None]:
    """What is started here is of a unit of this name, as systemd would have it."""
    groups = [f"{it}/system.slice/{name}" for it in UNITS if os.path.exists(f"{it}/cgroup.procs")]
    for group in groups:
        os.makedirs(group)
        with open(f"{group}/cgroup.procs", "w", encoding="ascii") as file:
            file.write(str(os.getpid()))
    try:
        yield
    finally:
        for group in groups:
            top = group.partition("/system.slice")[0]
            with open(f"{top}/cgroup.procs", "w", encoding="ascii") as file:
                file.write(str(os.getpid()))
            os.rmdir(group)
            with contextlib.suppress(OSError):
                os.rmdir(os.path.dirname(group))


@contextlib.contextmanager
def journal() -> Iterator["subprocess.Popen[bytes]"]:
    """A journald at the sockets of this machine."""
    os.makedirs("/run/systemd/journald.conf.d")
    os.makedirs("/run/log/journal")
    desk.write("/run/systemd/journald.conf.d", "test.conf", SETTINGS)
    os.symlink("/run/systemd/journal/dev-log", "/dev/log")
    job = subprocess.Popen([JOURNALD], stderr=subprocess.DEVNULL)
    try:
        until(lambda: os.path.exists("/run/systemd/journal/dev-log"), "journald does not listen")
        yield job
    finally:
        job.terminate()
        job.wait()
        os.unlink("/dev/log")


def until(holds: Callable[[], bool], why: str) -> None:
    for _ in range(1200):
        if holds():
            return
        time.sleep(0.05)
    sys.exit(why)


def exported(*names: str) -> str:
    """The journal of these programs, as docs/USED.md says it."""
    words = ["journalctl", "-D", "/run/log/journal", "--no-pager", "-o", "json"]
    return desk.run([*words, *(word for it in names for word in ("-t", it))]).stdout


def logged(name: str, text: str) -> str:
    return exported(name) if text in exported(name) else ""


@contextlib.contextmanager
def noise() -> Iterator[None]:
    """A user writes to syslog without an end, as fast as it takes the lines."""
    words = ["sh", "-c", "yes x | logger -t noise"]
    with subprocess.Popen(words, start_new_session=True) as job:
        try:
            yield
        finally:
            os.killpg(job.pid, signal.SIGKILL)


def suppressed() -> bool:
    """Whether journald has said that it left lines out, which it does with the next line that it
    takes of the session."""
    subprocess.run(["logger", "-t", "noise", "later"], check=True)
    return bool(logged("systemd-journald", "Suppressed"))


def by_the_journal(folder: str) -> Iterator[str]:
    """Three runs: of sudo's, of somebody's who is gone, and of one whose session is held back."""
    with journal() as job:
        sudo("/srv/bin/a", "real")
        until(lambda: bool(logged("sudo", "real")), "the journal has no run")
        job.send_signal(signal.SIGSTOP)
        write_and_go(FORGED)
        job.send_signal(signal.SIGCONT)
        until(lambda: bool(logged("sudo", "forged")), "the journal has no forged line")
        with unit("test.scope"):
            # (a user may write as much as journald takes of a session, and while sudo logs)
            with noise():
                until(lambda: bool(exported("noise")), "the journal has nothing of the session")
                sudo("/srv/bin/a", "unseen")
            until(suppressed, "nothing was suppressed")
        text = exported("sudo", "systemd-journald")
    desk.write("/mnt/log", "journal", text)
    found = beside.used(folder, "", "/mnt/log/journal")
    ran = [it["command"] for it in found["runs"]]
    whys = sorted(it["why"] for it in found["logs"]["unread_lines"])
    if ran != ["/srv/bin/a real"] or "unseen" in text:
        yield f"journal: {ran}"
    forged, *lost = whys or [""]
    are_lost = [it.startswith("lines of db1 are lost: systemd-journald: Suppressed ") for it in lost]
    if forged != "an unknown program wrote it on db1, and not sudo" or not lost or not all(are_lost):
        yield f"journal: {whys}"


def has_lost(out: socket.socket) -> bool:
    """Whether rsyslogd has said that it lost lines, which it does with the next one that it takes;
    nine more of them, where it has not."""
    for number in range(9):
        out.send(f"<86>noise: {number}".encode())
    with contextlib.suppress(FileNotFoundError), open("/mnt/log/all", "rb") as log:
        return b"messages lost" in log.read()
    return False


def by_rsyslog(folder: str) -> Iterator[str]:
    """A user whose lines come too fast, with a run of sudo's among them."""
    desk.write("/mnt", "rsyslog.conf", RSYSLOG)
    words = ["/usr/sbin/rsyslogd", "-n", "-f", "/mnt/rsyslog.conf", "-i", "/mnt/rsyslog.pid"]
    job = subprocess.Popen(words, stderr=subprocess.DEVNULL)
    until(lambda: os.path.exists("/dev/log"), "rsyslogd does not listen")
    with socket.socket(socket.AF_UNIX, socket.SOCK_DGRAM) as out:
        out.connect("/dev/log")
        until(lambda: has_lost(out), "rsyslogd lost nothing")
    job.terminate()
    job.wait()
    found = beside.used(folder, "", "/mnt/log/all")
    whys = [it["why"] for it in found["logs"]["unread_lines"]]
    if not whys or not all(it.startswith("lines of db1 are lost: rsyslogd: ") for it in whys):
        yield f"rsyslog: {whys}"


def inside() -> int:
    with tempfile.TemporaryDirectory() as folder:
        os.chmod(folder, 0o755)
        roster = desk.write(folder, "roster.toml", beside.roster())
        base = desk.write(folder, "base.sudo", beside.BASE)
        audit = desk.run([beside.AUDIT, roster, base, "-", "--json"], "")
        desk.write(folder, "audit.json", audit.stdout)
        beside.furnish(folder)
        socket.sethostname("db1")
        os.mkdir("/mnt/log")
        desk.write(folder, "sudoers", "Defaults !authenticate\neve ALL = (root) ALL\n")
        faults = [*by_the_journal(folder), *by_rsyslog(folder)]
        os.chdir("/")
        subprocess.run(["umount", "-l", "/dev"], check=True)
    print("".join(f"{it}\n" for it in faults), end="")
    print(f"desk-used beside journald and rsyslogd: {len(faults)} wrong")
    return 1 if faults else 0


if __name__ == "__main__":
    if sys.argv[1:] == ["--inside"]:
        sys.exit(inside())
    sys.exit(beside.in_namespaces(os.path.abspath(__file__)))

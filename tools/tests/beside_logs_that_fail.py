#!/usr/bin/env python3
"""The real sudo, where its log cannot be written: each setting of the table in docs/USED.md does
what its last column says. And a line of which a full disk kept the end out is nobody's use.

It is done in a mount namespace of its own, as beside_sudo_logs.py. beside_logs_that_fail.py
"""

from __future__ import annotations

import contextlib
import os
import re
import socket
import subprocess
import sys
import tempfile
import time
from collections.abc import Iterator

import beside_sudo_logs as beside
from tests.common import desk

PORT = 30344
# what is written by a command that ran
RAN = "/mnt/ran"
DISK, LOG = "/mnt/disk", "/mnt/disk/sudo.log"
# a row of the page: its setting, and what sudo does where that is not written
ROW = re.compile(r"^\| (?:`Defaults ([^`]+)`|(nothing)) \| .* \| (.*) \|$", re.MULTILINE)
PAGE = 4096
CUT = "Jan  5 09:20:00 2026 : ann : HOST=db1 ; PWD=/m"


def rows() -> list[tuple[str, bool]]:
    """The page's settings, and whether sudo refuses what it cannot write there."""
    text = desk.read("docs", "USED.md").partition("\n## What to log\n")[2].partition("\n## ")[0]
    found = [(row[1] or "", row[3]) for row in ROW.finditer(text)]
    refusing = [said.startswith("**refuses**") for _, said in found]
    running = [said == "runs, unlogged" for _, said in found]
    if len(found) != 5 or refusing != [not it for it in running] or sum(refusing) != 2:
        sys.exit(f"the page has another table: {found}")
    return list(zip((setting for setting, _ in found), refusing, strict=True))


def allow(folder: str, setting: str) -> None:
    said = setting.replace("HOST", f"127.0.0.1:{PORT}").replace("/var/log", DISK)
    with open(os.path.join(folder, "sudoers"), "w", encoding="ascii") as file:
        file.write(f"Defaults {said or 'syslog'}, !authenticate, log_server_timeout=5\n")
        file.write("ann ALL = (root) ALL\nbob ALL = (root) ALL\n")
    subprocess.run(["visudo", "-cqf", os.path.join(folder, "sudoers")], check=True)


def runs(user: str) -> bool:
    """Whether sudo runs a command of a user's now."""
    with contextlib.suppress(FileNotFoundError):
        os.unlink(RAN)
    ids = ["--reuid", user, "--regid", "2001", "--clear-groups"]
    words = ["setpriv", *ids, "sudo", "-n", "-u", "root", "/srv/bin/a"]
    subprocess.run(words, capture_output=True, cwd="/mnt", check=False)
    return os.path.exists(RAN)


@contextlib.contextmanager
def disk(first: str = "") -> Iterator[None]:
    """A disk for the log, which has a first part already."""
    subprocess.run(["mount", "-t", "tmpfs", "-o", "size=64k", "none", DISK], check=True)
    desk.write(DISK, "sudo.log", first)
    try:
        yield
    finally:
        subprocess.run(["umount", DISK], check=True)


def fill() -> None:
    """Takes all room of the disk, but for the rest of the log's last block."""
    with open(f"{DISK}/fill", "wb", 0) as file, contextlib.suppress(OSError):
        while True:
            file.write(bytes(PAGE))


def served() -> "subprocess.Popen[bytes]":
    lines = ["[server]", f"listen_address = 127.0.0.1:{PORT}", "pid_file = /mnt/server.pid"]
    lines += ["[eventlog]", "log_type = logfile", "log_format = json", "[logfile]"]
    lines += [f"path = {DISK}/server", "[iolog]", "iolog_dir = /mnt/iolog"]
    desk.write("/mnt", "server.conf", "\n".join(lines) + "\n")
    found = subprocess.Popen([desk.tool("sudo_logsrvd"), "-n", "-f", "/mnt/server.conf"])
    for _ in range(1200):
        with socket.socket() as probe:
            if probe.connect_ex(("127.0.0.1", PORT)) == 0:
                return found
        time.sleep(0.1)
    sys.exit("sudo_logsrvd does not listen")


def each_setting(folder: str) -> Iterator[str]:
    """Each setting where it can be written, and where not: no server, no syslog, a full disk."""
    for setting, refuses in rows():
        allow(folder, setting)
        with disk():
            log = beside.Syslog("/dev/log", "/mnt/syslog", "db1")
            server = served() if "log_servers" in setting else None
            if not runs("ann"):
                yield f"{setting}: sudo refuses where it can be written"
            if server is not None:
                server.terminate()
                server.wait()
            log.end()
        with disk():
            os.unlink(LOG)
            fill()
            if runs("ann") == refuses:
                yield f"{setting}: not as the page says where it cannot be written"
            for name in os.listdir(DISK):
                if name != "fill" and os.path.getsize(f"{DISK}/{name}"):
                    yield f"{setting}: {name} was written on the full disk"


def server_on_a_full_disk(folder: str) -> Iterator[str]:
    """The page says that sudo runs then, and that nobody is told."""
    allow(folder, "log_servers=HOST, !ignore_logfile_errors")
    with disk():
        server = served()
        fill()
        if not runs("ann") or os.path.getsize(f"{DISK}/server"):
            yield "a server on a full disk: not as the page says"
        server.terminate()
        server.wait()


def torn(folder: str) -> Iterator[str]:
    """ann fills the disk so that her line ends in its middle, and then makes room; bob's comes
    behind it. Neither of them is told as the other's."""
    allow(folder, "logfile=/var/log/sudo.log, log_year, log_host, !syslog")
    line = "Jan  5 09:20:00 2026 : dba : HOST=db1 ; PWD=/ ; USER=op ; COMMAND=/srv/bin/b\n"
    room = len(CUT)
    before = line * ((PAGE - room) // len(line))
    with disk(before + "\n" * (PAGE - room - len(before))):
        fill()
        if not runs("ann"):
            yield "torn: sudo refuses"
        os.unlink(f"{DISK}/fill")
        if os.path.getsize(LOG) != PAGE or not runs("bob"):
            yield f"torn: {os.path.getsize(LOG)} bytes"
        found = beside.used(folder, "", f"db1={LOG}")
    users = {it["by"] for it in found["runs"]}
    if users != {"dba"} or found["logs"]["unread"] != 1 or found["logs"]["refused"]:
        yield f"torn: {found['runs']}, {found['logs']}"


def inside() -> int:
    with tempfile.TemporaryDirectory() as folder:
        os.chmod(folder, 0o755)
        paths = desk.write(folder, "roster.toml", beside.roster())
        base = desk.write(folder, "base.sudo", beside.BASE)
        audit = desk.run([beside.AUDIT, paths, base, "-", "--json"], "")
        desk.write(folder, "audit.json", audit.stdout)
        beside.furnish(folder)
        socket.sethostname("db1")
        os.mkdir(DISK)
        os.chmod(desk.write("/srv/bin", "a", f"#!/bin/sh\n: > {RAN}\n"), 0o755)
        faults = [*each_setting(folder), *server_on_a_full_disk(folder), *torn(folder)]
        os.chdir("/")
        subprocess.run(["umount", "-l", "/dev"], check=True)
    print("".join(f"{it}\n" for it in faults), end="")
    print(f"desk-used beside logs that fail: {len(faults)} wrong")
    return 1 if faults else 0


if __name__ == "__main__":
    if sys.argv[1:] == ["--inside"]:
        sys.exit(inside())
    sys.exit(beside.in_namespaces(os.path.abspath(__file__)))

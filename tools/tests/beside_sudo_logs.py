#!/usr/bin/env python3
"""Two hosts on which the real sudo runs commands by the desk's own files, and logs them in each of
its ways; desk-used has to tell of each way what was really run, and by what right.

It is done in a mount namespace of its own (tests/common/sudo_peer.py). beside_sudo_logs.py
"""

from __future__ import annotations

import json
import os
import shutil
import socket
import subprocess
import sys
import tempfile
import threading
import time
from collections.abc import Iterator
from typing import Any

ROOT = os.path.dirname(os.path.dirname(os.path.dirname(os.path.abspath(__file__))))
sys.path[:0] = [os.path.join(ROOT, "tools"), ROOT]
sys.dont_write_bytecode = True

from tests.common import desk  # noqa: E402
from tests.common import sudo_peer  # noqa: E402

DESK = os.environ.get("DESK", os.path.join(ROOT, "build", "desk"))
AUDIT = os.path.join(os.path.dirname(DESK), os.path.basename(DESK).replace("desk", "desk-audit", 1))
USED = os.path.join(ROOT, "tools", "desk-used")
USERS = ("ann", "bob", "eve", "dba", "op")
COMMANDS = ("bin/a", "bin/b", "bin/c", "dir/x")
HOUR = 3600
BASE = "dba ALL = (op) ALL\ndba ALL = (op) /srv/bin/b\n"
ODD = "/mnt/folder ; USER=op ; COMMAND=/srv/bin/a"
# each way to log: sudo's settings, where /mnt/log is the host's folder of logs
WAYS = {
    "json-file": "log_format=json, logfile=/mnt/log/HOST, !syslog, log_exit_status",
    "json-syslog": "log_format=json, syslog=authpriv",
    "file": "logfile=/mnt/log/HOST, !syslog, log_year, log_exit_status",
    "long-file": "logfile=/mnt/log/HOST, !syslog, loglinelen=0, log_host, log_year",
    "syslog": "syslog=authpriv",
    "server": "!syslog, !logfile, log_servers=127.0.0.1:30343",
}
LONG = "x" * 700
# host, user, target, command, and what it was by: a grant, the base, neither; or it was refused
Told = dict[str, Any]
# host, user, target, the command's words, and by what it ran
Rows = tuple[tuple[str, str, str, list[str], str], ...]
RAN: Rows = (
    ("db1", "ann", "root", ["/srv/bin/a", "-l"], "grant"),
    ("db1", "ann", "root", ["/srv/bin/a", "\x1b[2J\x07", "a\nb"], "grant"),
    ("db1", "ann", "root", ["/srv/bin/a", "it's", "a\\b", "a  b", ""], "grant"),
    ("db1", "ann", "root", ["/srv/bin/a", ";", "EXIT=0"], "grant"),
    ("db1", "ann", "root", ["/srv/bin/a", LONG, "y y", LONG], "grant"),
    ("db1", "ann", "root", ["/srv/dir/x"], "grant"),
    ("db1", "ann", "root", ["/srv/bin/c"], "refused"),
    ("db1", "bob", "root", ["/srv/bin/c"], "neither"),
    ("db1", "dba", "op", ["/srv/bin/a"], "base"),
    ("db2", "dba", "op", ["/srv/bin/b", "x"], "base"),
    ("db2", "eve", "root", ["/srv/bin/c", "-f"], "neither"),
    ("db2", "ann", "op", ["/srv/bin/b"], "refused"),
)
# classic lines of these can be read in two ways
UNCLEAR: Rows = (
    ("db1", "ann", "root", ["/srv/bin/a", ";", "COMMAND=/srv/bin/b"], "grant"),
    ("db1", "ann", "root", ["/srv/bin/a", "odd"], "grant"),
)


def messages(now: float) -> tuple[list[str], list[str]]:
    """Grants of now, and a revocation that no host has heard of."""
    first, last = desk.stamp(now - HOUR), desk.stamp(now + HOUR // 2)

    def asked(by: str, no: int, hosts: list[str], runas: str, *commands: str) -> list[str]:
        window = {"from": first, "until": last}
        cmnds = sorted(commands)
        told = desk.request(
            by=by, no=no, hosts=hosts, runas=runas, cmnds=cmnds, at=first, ceiling="care", **window
        )
        return [told, desk.approval(by="carol", of=by, no=no, at=first)]

    granted = [
        *asked("ann", 1, ["db1"], "root", "/srv/bin/a", "/srv/bin/b", "/srv/dir/"),
        *asked("ann", 2, ["db1", "db2"], "op", "/srv/bin/a"),
        *asked("bob", 1, ["db1"], "root", "/srv/bin/c"),
    ]
    at = desk.stamp(now - 600)
    return granted, [desk.approval(kind="revoke", by="carol", of="bob", no=1, at=at)]


def roster() -> str:
    people = {"ann": ["ask"], "bob": ["ask"], "carol": ["give"]}
    ceiling = desk.ceiling(
        "care",
        ask="ask",
        approve="give",
        hosts=["db1", "db2"],
        runas=["op", "root"],
        commands=["/srv/bin/a", "/srv/bin/b", "/srv/bin/c", "/srv/dir/"],
    )
    duties, hosts = ("ask", "give"), ("db1", "db2")
    return desk.roster(people, [ceiling], duties=duties, hosts=hosts, relays=("chat",))


class Syslog:
    """What the machine's syslog would write: each line with its moment and host in front."""

    def __init__(self, path: str, out: str, host: str) -> None:
        self.socket = socket.socket(socket.AF_UNIX, socket.SOCK_DGRAM)
        self.socket.bind(path)
        os.chmod(path, 0o666)
        self.path, self.out, self.host = path, out, host
        self.thread = threading.Thread(target=self.serve)
        self.thread.start()

    def serve(self) -> None:
        with open(self.out, "ab") as file:
            while (line := self.socket.recv(1 << 16)) != b"over":
                at = time.strftime("%Y-%m-%dT%H:%M:%S+00:00", time.gmtime()).encode()
                # (<85>Jan  5 09:30:00 sudo: ..)
                file.write(at + b" " + self.host.encode() + line[line.index(b">") + 16 :] + b"\n")

    def end(self) -> None:
        with socket.socket(socket.AF_UNIX, socket.SOCK_DGRAM) as other:
            other.sendto(b"over", self.path)
        self.thread.join()
        self.socket.close()
        os.unlink(self.path)


def furnish(folder: str) -> None:
    """Users, commands, folders and devices; sudo asks nobody for a password."""
    sudo_peer.furnish(folder, USERS, COMMANDS)
    pam = "".join(f"{it} required pam_permit.so\n" for it in ("auth", "account", "session"))
    hosts = "127.0.0.1 localhost\n127.0.1.1 db1\n127.0.1.2 db2\n"
    for name, text in (("pam", pam), ("hosts", hosts)):
        desk.write(folder, name, text)
    sudo_peer.bind(os.path.join(folder, "pam"), "/etc/pam.d/sudo")
    sudo_peer.bind(os.path.join(folder, "hosts"), "/etc/hosts")
    devices = os.path.join(folder, "dev")
    os.mkdir(devices)
    subprocess.run(["mount", "-t", "tmpfs", "none", devices], check=True)
    for name, minor in (("null", "3"), ("zero", "5"), ("urandom", "9")):
        path = os.path.join(devices, name)
        subprocess.run(["mknod", "-m", "666", path, "c", "1", minor], check=True)
    subprocess.run(["mount", "--move", devices, "/dev"], check=True)
    for place in ("/mnt", "/run"):
        subprocess.run(["mount", "-t", "tmpfs", "none", place], check=True)
    os.makedirs(ODD)
    subprocess.run(["ip", "link", "set", "lo", "up"], check=True)


def run_all(folder: str, printed: dict[str, str], way: str, rows: Rows) -> None:
    for host, settings in ((it, WAYS[way].replace("HOST", it)) for it in ("db1", "db2")):
        socket.sethostname(host)
        changed = "eve ALL = (root) ALL\n" if host == "db2" else ""
        text = f"Defaults {settings}, !authenticate\n{printed[host]}{changed}"
        path = os.path.join(folder, "sudoers")
        with open(path, "w", encoding="ascii") as file:
            file.write(text)
        log = Syslog("/dev/log", f"/mnt/log/{host}", host) if "syslog" in way else None
        for of_host, user, target, command, ground in rows:
            if of_host == host:
                run_one(user, target, command, ground)
        if log is not None:
            log.end()


def run_one(user: str, target: str, command: list[str], ground: str) -> None:
    ids = ["--reuid", user, "--regid", "2001", "--clear-groups"]
    words = ["setpriv", *ids, "sudo", "-n", "-u", target, *command]
    place = ODD if command[1:] == ["odd"] else "/"
    ran = subprocess.run(words, capture_output=True, cwd=place, check=False)
    if (ran.returncode != 0) != (ground == "refused"):
        sys.exit(f"sudo itself does otherwise with {words}: {ran}")


def served(way: str) -> "subprocess.Popen[bytes] | None":
    if way != "server":
        return None
    lines = ["[server]", "listen_address = 127.0.0.1:30343", "pid_file = /mnt/pid", "[eventlog]"]
    lines += ["log_type = logfile", "log_format = json", "log_exit = true", "[logfile]"]
    lines += ["path = /mnt/log/server", "[iolog]", "iolog_dir = /mnt/iolog"]
    desk.write("/mnt", "server.conf", "\n".join(lines) + "\n")
    found = subprocess.Popen([desk.tool("sudo_logsrvd"), "-n", "-f", "/mnt/server.conf"])
    for _ in range(1200):
        with socket.socket() as probe:
            if probe.connect_ex(("127.0.0.1", 30343)) == 0:
                return found
        time.sleep(0.1)
    sys.exit("sudo_logsrvd does not listen")


def told(folder: str, rows: Rows, printed: dict[str, str], way: str) -> Told:
    """What desk-used tells of the rows, logged in one way."""
    shutil.rmtree("/mnt/log", ignore_errors=True)
    os.mkdir("/mnt/log")
    server = served(way)
    run_all(folder, printed, way, rows)
    if server is not None:
        server.terminate()
        server.wait()
    logs = sorted(os.listdir("/mnt/log"))
    named = [it if it == "server" else f"{it}=/mnt/log/{it}" for it in logs]
    words = [it if "=" in it else f"/mnt/log/{it}" for it in named]
    return used(folder, "127.0.0.1 db1 db2\n", *words)


def used(folder: str, hosts: str, *logs: str) -> Told:
    """What desk-used tells of logs, where hosts have these addresses."""
    given = [os.path.join(folder, "audit.json"), os.path.join(folder, "base.sudo")]
    peers = desk.write(folder, "peers", hosts)
    ran = desk.run([USED, "--json", "--desk", DESK, "--peers", peers, *given, *logs])
    if ran.returncode not in (0, 1):
        sys.exit(f"{logs}: {ran}")
    found: Told = json.loads(ran.stdout)
    return found


def of_another_host(folder: str) -> Iterator[str]:
    """What the log server was told of db2 from an address that db2 has not."""
    found = used(folder, "127.0.0.1 db1\n127.0.0.2 db2\n", "/mnt/log/server")
    hosts = {it["host"] for it in found["runs"]}
    of_db2 = sum(it[0] == "db2" for it in RAN)
    if hosts != {"db1"} or found["logs"]["unread"] != of_db2:
        yield f"server, from another address: {hosts}, {found['logs']}"


def wrong(way: str, found: Told) -> Iterator[str]:
    """What is told otherwise than it was."""
    runs = {(it["host"], it["by"], it["runas"], it["command"]): it for it in found["runs"]}
    grounds: dict[tuple[str, ...], str] = {}
    for (host, user, target, command), it in runs.items():
        grounds[host, user, target, command.split(" ")[0], it["ground"]] = command
    wanted = [it for it in RAN if it[4] != "refused"]
    for host, user, target, command, ground in wanted:
        if (host, user, target, command[0], ground) not in grounds:
            yield f"{way}: no {command[:1]} by {ground} on {host}"
    if sum(it["runs"] for it in found["runs"]) != len(wanted) or found["logs"]["unread"]:
        yield f"{way}: {len(wanted)} ran: {json.dumps(found, indent=1)[:4000]}"
    used = {(it["by"], it["no"], it["host"]): it for it in found["grants"]}
    if used["ann", 1, "db1"]["runs"] != 6 or used["ann", 1, "db1"]["never"] != ["/srv/bin/b"]:
        yield f"{way}: {used['ann', 1, 'db1']}"
    if [used["ann", 2, host]["status"] for host in ("db1", "db2")] != ["unused", "unused"]:
        yield f"{way}: {used['ann', 2, 'db1']}"
    late = [(it["by"], it["command"]) for it in found["after_revocation"]]
    if late != [("bob", "/srv/bin/c")] or used["bob", 1, "db1"]["runs"]:
        yield f"{way}: after the revocation: {late}"
    refused = [(it["host"], it["by"], it["count"]) for it in found["logs"]["refused"]]
    if refused != [("db1", "ann", 1), ("db2", "ann", 1)]:
        yield f"{way}: refused: {refused}"
    if not all(key[3].isprintable() for key in runs):
        yield f"{way}: a control byte is told"


def unclear(way: str, found: Told) -> Iterator[str]:
    """JSON is clear; a classic line with a user's words that look like sudo's is unread."""
    count, ran = found["logs"]["unread"], sum(it["runs"] for it in found["runs"])
    # (a file has how each ended, too)
    wanted = (0, 2) if "json" in way else (4, 0) if way == "file" else (2, 0)
    if (count, ran) != wanted:
        yield f"{way}, unclear lines: {found}"


def alike(told_by: dict[str, Told]) -> Iterator[str]:
    """Each way tells the same, but for the moments, and what a long line of syslog loses."""
    kept = {
        way: sorted((it["host"], it["by"], it["command"], it["ground"]) for it in found["runs"])
        for way, found in told_by.items()
    }
    for way in ("server", "json-syslog"):
        if kept[way] != kept["json-file"]:
            yield f"{way} tells otherwise than json-file: {kept[way]} {kept['json-file']}"
    if kept["syslog"] != kept["long-file"]:
        yield f"syslog tells otherwise than a file: {kept['syslog']} {kept['long-file']}"


def inside() -> int:
    with tempfile.TemporaryDirectory() as folder:
        os.chmod(folder, 0o755)
        granted, revoked = messages(time.time())
        paths = desk.write(folder, "roster.toml", roster()), desk.write(folder, "base.sudo", BASE)
        printed = {}
        for host in ("db1", "db2"):
            words = [DESK, "print", *paths, "-", host]
            printed[host] = desk.run(words, "\n".join(granted) + "\n").stdout
        audit = desk.run([AUDIT, *paths, "-", "--json"], "\n".join(granted + revoked) + "\n")
        desk.write(folder, "audit.json", audit.stdout)
        furnish(folder)
        faults, by_way = list[str](), {}
        for way in WAYS:
            by_way[way] = told(folder, RAN, printed, way)
            faults += wrong(way, by_way[way])
        # (the last one's log is the server's)
        faults += of_another_host(folder)
        for way in ("json-file", "file", "syslog"):
            faults += unclear(way, told(folder, UNCLEAR, printed, way))
        faults += alike(by_way)
        os.chdir("/")
        subprocess.run(["umount", "-l", "/dev"], check=True)
    print("".join(f"{it}\n" for it in faults), end="")
    runs = len(WAYS) * len(RAN) + 3 * len(UNCLEAR)
    print(f"desk-used beside sudo: {runs} runs in {len(WAYS)} ways, {len(faults)} wrong")
    return 1 if faults else 0


def in_namespaces(script: str, *more: str) -> int:
    """The status of a script inside, with mounts, a host's name and a network of its own."""
    spaces = ["--mount", "--uts", "--net", "--propagation", "private", *more]
    words = [desk.tool("unshare"), *spaces, sys.executable, script, "--inside"]
    return subprocess.run(words, check=False).returncode


if __name__ == "__main__":
    sys.exit(inside() if sys.argv[1:] == ["--inside"] else in_namespaces(os.path.abspath(__file__)))

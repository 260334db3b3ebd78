"""Tries the last backup beside the machine that serves: restored into a folder, served there in
namespaces of its own, and asked what the live desk is asked."""

from __future__ import annotations

import json
import os
import shutil
import socket
import subprocess
import tempfile
import time
from collections.abc import Iterator
from dataclasses import dataclass

from steelnewt_backup import lost
from steelnewt_backup.faults import Failed
from steelnewt_backup.put import Backup, faults, put_all
from steelnewt_backup.restore import agree_roster, write
from steelnewt_backup.site import Site
from steelnewt_client.desk import BadAddress, Desk, Silent
from steelnewt_client.moments import of_stamp, stamp_of

ROOM = "/var/lib/desk-backup"
RESULT = "drill.json"  # beside the backups: what check_desk --backup reads
PATIENCE = 900.0
SHOWN = 20  # lines that differ which are printed
APART = ("unshare", "--mount", "--net", "--pid", "--ipc", "--uts", "--fork", "--kill-child")


@dataclass(frozen=True)
class Drilled:
    """What a drill found: what is wrong, and what is other than at the live desk."""

    at: str
    messages: int
    since: int
    wrong: list[str]
    other: list[str]

    def data(self) -> str:
        told = vars(self) | {"tried": stamp_of(int(time.time()))}
        return json.dumps(told, indent=1, sort_keys=True) + "\n"


def serving(site: Site, address: str) -> subprocess.Popen[bytes]:
    """The restored desk, where nothing of the network or of other mounts reaches it."""
    path = address.removeprefix("unix:")
    found = os.stat(site.path("STORE"))
    own = [f"--reuid={found.st_uid}", f"--regid={found.st_gid}", "--clear-groups"]
    # (who becomes another account no longer ends with the parent, unless that is said again)
    own.append("--pdeathsig=KILL")
    words = [*APART, "--", "setpriv", *own, *site.words("serve", address)]
    started = subprocess.Popen(words, stdin=subprocess.DEVNULL, stdout=subprocess.PIPE,
                               stderr=subprocess.PIPE)  # fmt: skip
    until = time.monotonic() + PATIENCE
    while time.monotonic() < until and started.poll() is None:
        with socket.socket(socket.AF_UNIX) as peer:
            if peer.connect_ex(path) == 0:
                return started
        time.sleep(0.05)
    started.kill()
    _, why = started.communicate()
    said = " ".join(why.decode("utf-8", "replace").split())
    raise Failed(f"the restored desk does not serve: {said or 'no answer'}")


def asked(desk: Desk, path: str) -> list[str]:
    try:
        return desk.get(path).splitlines()
    except Silent as fault:
        return [f"no answer: {fault}"]


def beside(drilled: Desk, live: Desk, hosts: list[str], now: str) -> Iterator[str]:
    """Where the two desks answer otherwise."""
    for path in (*(f"/v1/hosts/{it}/sudoers" for it in hosts), f"/v1/grants/{now}", "/v1/parked"):
        mine, theirs = set(asked(drilled, path)), set(asked(live, path))
        yield from (f"{path}: only the backup's: {it}" for it in sorted(mine - theirs))
        yield from (f"{path}: only the live desk's: {it}" for it in sorted(theirs - mine))


def compared(site: Site, live: str, backup: Backup, wrong: list[str]) -> Drilled:
    """Serves the restored desk, and compares it with the live one."""
    address = f"unix:{os.path.dirname(site.path('STORE'))}/d.sock"
    started = serving(site, address)
    try:
        drilled = Desk(address, patience=PATIENCE)
        held = set(asked(drilled, "/v1/messages"))
        other: list[str] = []
        since = 0
        try:
            there = Desk(live, patience=PATIENCE)
            theirs = set(there.get("/v1/messages").splitlines())
            since = len(theirs - held)
            wrong += unexplained(held - theirs, backup.manifest.at)
            now = stamp_of(int(time.time()))
            other = list(beside(drilled, there, site.roster()["hosts"], now))
        except (Silent, BadAddress) as fault:
            other = [f"the live desk was not asked: {fault}"]
        if since == 0 and other and not other[0].startswith("the live desk"):
            wrong.append("the same messages, and other answers: roster or base changed since")
        return Drilled(backup.manifest.at, len(held), since, wrong, other)
    finally:
        # (unshare passes no other signal on; its end is that of what it started)
        started.kill()
        started.wait()
        for pipe in (started.stdout, started.stderr):
            assert pipe
            pipe.close()


def unexplained(extra: set[str], at: str) -> list[str]:
    """The live desk holds whatever a backup of it has, and has lost nothing since."""
    said = f"the live desk lacks what the backup of {at} has"
    return [f"{said}: {it}" for it in sorted(extra)[:SHOWN]]


def outbox_fault(site: Site) -> Iterator[str]:
    """Whether the relay reads its outbox, where there is one."""
    try:
        list(lost.of_outbox(site))
    except Failed as fault:
        yield str(fault)


def drill(backup: Backup, live: str, program: str = "", room: str = ROOM) -> Drilled:
    """Restores a backup into a folder that goes again, and tries it. What is sealed is looked at
    only where its key is here."""
    without_sealed = bool(backup.manifest.sealed) and not backup.identity
    found = list(faults(backup, without_sealed))
    if found:
        return Drilled(backup.manifest.at, 0, 0, found, [])
    os.makedirs(room, 0o711, exist_ok=True)
    # (the desk's account goes through it, and lists nothing)
    os.chmod(room, 0o711)
    # (short: a socket below it has 107 bytes for its whole path)
    root = tempfile.mkdtemp(prefix="drill-", dir=room)
    os.chmod(root, 0o711)
    try:
        put_all(backup, root, without_sealed)
        site = Site(root, program)
        if not site.has_store():
            raise Failed("the backup has no store that can be read here: is it sealed?")
        told = lost.Told()
        agree_roster(site, told)
        return compared(site, live, backup, list(outbox_fault(site)))
    except Failed as fault:
        return Drilled(backup.manifest.at, 0, 0, [str(fault)], [])
    finally:
        shutil.rmtree(root, ignore_errors=True)


def kept(folder: str, found: Drilled) -> None:
    write(os.path.join(folder, RESULT), found.data())


def is_late(found: Drilled, now: str, hours: int = 26) -> bool:
    """Whether the backup is older than a day and a bit."""
    age = of_stamp(now) - of_stamp(found.at)
    return age.total_seconds() > hours * 3600

"""Makes a machine again of a backup: all that stands against it is said first, and then nothing is
begun; what was begun is ended by the next run. No unit of the desk's starts before that."""

from __future__ import annotations

import contextlib
import fcntl
import json
import os
import time
from collections.abc import Iterator
from dataclasses import dataclass
from typing import Any

from steelnewt_backup import lost, machine
from steelnewt_backup.faults import Failed, Refused
from steelnewt_backup.lost import Told
from steelnewt_backup.manifest import Manifest, backups_in, read_manifest
from steelnewt_backup.put import Backup, faults, is_same, lacking_room, put_all, set_aside
from steelnewt_backup.pieces import sync_folder, write_all
from steelnewt_backup.site import Site, run_relay
from steelnewt_client.moments import stamp_of

STATE = "/var/lib/desk-restore"
UNFINISHED, LAST = f"{STATE}/unfinished", f"{STATE}/last.json"
GUARD = "/etc/systemd/system/{}.d/zz-restoring.conf"
GUARDED = f"[Unit]\nConditionPathExists=!{UNFINISHED}\n"
UNKNOWN = "unknown"  # a machine without an id
ELSEWHERE = "restored"  # the file beside the backups that says where they were restored
# Which files make a machine one that has a desk.
OURS = ("/var/lib/desk/", "/var/lib/desk-door/", "/var/lib/desk-relay/", "/etc/desk/front/")
# So many numbers are left out behind the greatest that anybody knows: they may have been given
# after the backup, and are never given again.
LEAP, ROUND = 10_000, 1_000
# The door notes what was filled in past it.
BEGIN = (
    "setpriv", "--reuid=desk-door", "--regid=desk-front", "--groups=desk-door",
    "desk-door", "begin",
)  # fmt: skip


@dataclass(frozen=True)
class Wanted:
    """What the command line asks for."""

    root: str = ""
    of: str = ""
    again: bool = False
    seconds: tuple[str, ...] = ()
    heard: str = ""
    revoke_as: str = ""
    program: str = ""
    patience: float = 0.0


def read_backup(folder: str, at: str, identity: str) -> Backup:
    """A backup of a folder: the newest, where no moment is named."""
    moments = backups_in(folder)
    if not moments:
        raise Failed(f"{folder} has no whole backup")
    at = at or moments[-1]
    found, sha = read_manifest(folder, at)
    return Backup(os.path.join(folder, at), found, sha, identity)


# ---- what stands against it


def reasons(backup: Backup, wanted: Wanted) -> Iterator[str]:
    """All that stands against a restore on this machine."""
    yield from machine_faults(backup.manifest, wanted)
    yield from faults(backup)
    owners = {(it.owner, it.group) for it in backup.manifest.entries}
    for owner, group in sorted(owners):
        if not machine.has_owner(owner, group):
            yield f"there is no account {owner} or no group {group}: install the packages first"
    yield from state_faults(backup, wanted)
    yield from lacking_room(backup, wanted.root)


def machine_faults(found: Manifest, wanted: Wanted) -> Iterator[str]:
    host = machine.host_name()
    if wanted.of != found.host and host != found.host:
        yield f"it is the backup of {found.host}, and this machine is {host}: --of {found.host}"
    have = machine.packages()
    for name, version in sorted(found.packages.items()):
        if name not in have:
            yield f"the package {name} is missing: install {version}"
        elif machine.is_older(have[name], version):
            yield f"the package {name} is {have[name]}, and the backup's was {version}: upgrade it"
    for name in machine.running():
        yield f"{name} runs: a machine that serves is not restored (systemctl stop {name})"


def state_faults(backup: Backup, wanted: Wanted) -> Iterator[str]:
    begun = unfinished(wanted.root)
    if begun == backup.digest:
        return
    if begun:
        yield f"the restore of another backup was begun here (sha256 {begun}): end that one first"
    for entry in backup.files():
        path = wanted.root + entry.path
        if entry.path.startswith(OURS) and os.path.exists(path) and not is_same(path, entry):
            yield f"{entry.path} is there, and is another: move it away"
    for name in ("desk/desk.db", "desk-relay/outbox.db"):
        path = f"{wanted.root}/var/lib/{name}"
        if os.path.exists(path) and not backup.manifest.entry(f"/var/lib/{name}"):
            yield f"/var/lib/{name} is there, and the backup has none: move it away"


def unfinished(root: str) -> str:
    """The digest of the backup whose restore was begun, and not ended."""
    try:
        with open(root + UNFINISHED, encoding="ascii") as file:
            return file.read().strip() or "?"
    except FileNotFoundError:
        return ""


def elsewhere(folder: str, backup: Backup, wanted: Wanted) -> Iterator[str]:
    """Whether another machine was made of these backups: two that go on as one give every number
    twice."""
    own = machine.machine_id(wanted.root) or UNKNOWN
    with contextlib.suppress(FileNotFoundError):
        with open(os.path.join(folder, ELSEWHERE), encoding="utf-8") as file:
            for line in file:
                at, where, host = line.split()
                # (what was taken since comes from that machine, which is the one that was lost)
                if where != own and at > backup.manifest.at and not wanted.again:
                    yield f"{host} was made of these backups at {at}: --again, if it is gone"


# ---- step by step


@contextlib.contextmanager
def held(root: str) -> Iterator[None]:
    """One restore at a time."""
    os.makedirs(root + STATE, 0o700, exist_ok=True)
    lock = os.open(root + STATE, os.O_RDONLY | os.O_DIRECTORY)
    try:
        fcntl.flock(lock, fcntl.LOCK_EX | fcntl.LOCK_NB)
    except OSError:
        os.close(lock)
        raise Failed("another restore runs on this machine") from None
    try:
        yield
    finally:
        os.close(lock)


def write(path: str, text: str) -> None:
    """Puts a text in place, in one step."""
    os.makedirs(os.path.dirname(path), 0o755, exist_ok=True)
    new = f"{path}.new"
    file = os.open(new, os.O_WRONLY | os.O_CREAT | os.O_TRUNC, 0o644)
    try:
        write_all(file, text.encode())
        os.fsync(file)
    finally:
        os.close(file)
    os.rename(new, path)
    sync_folder(os.path.dirname(path))


def guard(root: str, backup: Backup) -> None:
    """From here on no unit starts, whoever starts it, until the restore has ended."""
    write(root + UNFINISHED, f"{backup.digest}\n")
    for name in machine.UNITS:
        write(root + GUARD.format(name), GUARDED)
    if not root:
        machine.systemctl("daemon-reload")


def unguard(root: str) -> None:
    for name in machine.UNITS:
        path = root + GUARD.format(name)
        with contextlib.suppress(OSError):
            os.unlink(path)
            os.rmdir(os.path.dirname(path))
    os.unlink(root + UNFINISHED)
    sync_folder(root + STATE)
    if not root:
        machine.systemctl("daemon-reload")


def note(folder: str, wanted: Wanted) -> None:
    """Notes beside the backups where they were restored, where somebody may write there."""
    own = machine.machine_id(wanted.root) or UNKNOWN
    line = f"{stamp_of(int(time.time()))} {own} {machine.host_name()}\n"
    with contextlib.suppress(OSError):
        with open(os.path.join(folder, ELSEWHERE), "a", encoding="utf-8") as file:
            file.write(line)
            file.flush()
            os.fsync(file.fileno())


def agree_roster(site: Site, told: Told) -> None:
    """The roster in its place is the one that the store has: the backup may have been taken while
    it was changed."""
    recorded, path = site.recorded(), site.path("ROSTER")
    try:
        with open(path, "rb") as file:
            text = file.read()
    except FileNotFoundError:
        text = b""
    if text != recorded:
        aside = f"{path}.other"
        if text:
            write(aside, text.decode())
        write(path, recorded.decode())
        told.notes.append(f"{path} is the store's roster now; what stood there is {aside}")


def number_past(site: Site, known: dict[str, int]) -> int:
    """The relay gives no number up to this one: each may have been given."""
    first, last = site.numbers()
    own = [it for it in known.values() if first <= it <= last]
    floor = -(-(max(own, default=first - 1) + LEAP) // ROUND) * ROUND
    if floor >= last:
        raise Failed(f"{site.root}/etc/desk/relay.toml: numbers end at {last}: give it more")
    run_relay(site, "number-past", str(floor))
    return floor


def recover(site: Site, wanted: Wanted, told: Told, folder: str) -> dict[str, int]:
    """Fills in what others have, and compares with what hosts have: each asker's greatest
    number."""
    found = lost.sources(site, wanted.seconds, folder)
    known = lost.greatest(site.messages())
    if site.has_store():
        agree_roster(site, told)
        lost.fill(site, found, told)
        if wanted.heard:
            now = stamp_of(int(time.time()))
            heard = lost.all_heard(wanted.heard, site.rosters())
            count = len(site.messages()) + sum(it.archived for it in site.cuts())
            if wanted.revoke_as:
                lost.revoke(site, heard, count, wanted.revoke_as, now, told)
            lost.compare(site, heard, count, now, told)
        known = lost.greatest(site.messages())
    for source in found:
        for who, no in lost.greatest(source.messages).items():
            known[who] = max(known.get(who, 0), no)
    return known


def restore(backup: Backup, wanted: Wanted) -> tuple[Told, dict[str, int], int]:
    """Puts all back, and says what is lost: each asker's greatest number, and the number past which
    the relay goes on."""
    folder = os.path.dirname(backup.folder)
    with held(wanted.root):
        against = [*elsewhere(folder, backup, wanted), *reasons(backup, wanted)]
        if against:
            raise Refused(against)
        told, site = Told(), Site(wanted.root, wanted.program)
        if unfinished(wanted.root) != backup.digest:
            aside = f"{wanted.root}{STATE}/before-{backup.manifest.at}"
            for path in set_aside(backup, wanted.root, aside):
                told.notes.append(f"{path} was another: it is below {aside} now")
            note(folder, wanted)
        guard(wanted.root, backup)
        put_all(backup, wanted.root)
        known = {}
        if site.has_store() or site.outbox():
            known = recover(site, wanted, told, folder)
        floor = number_past(site, known) if site.outbox() else 0
        if not wanted.root:
            machine.join(backup.manifest.groups)
        last = {"at": backup.manifest.at, "folder": folder, "units": backup.manifest.units}
        write(wanted.root + LAST, json.dumps(last) + "\n")
        unguard(wanted.root)
    return told, known, floor


def settle(wanted: Wanted) -> tuple[Told, dict[str, int], int]:
    """Fills in and compares once more, before the restored machine is started: with messages that
    were found since, or with who revokes what hosts no longer have."""
    with held(wanted.root):
        folder = last_of(wanted.root)["folder"]
        against = [f"{name} runs: it was started already" for name in machine.running()]
        if against:
            raise Refused(against)
        told, site = Told(), Site(wanted.root, wanted.program)
        known = recover(site, wanted, told, folder)
        floor = number_past(site, known) if site.outbox() else 0
    return told, known, floor


def last_of(root: str) -> dict[str, Any]:
    """Which backup was restored here, and what ran as it was taken."""
    if unfinished(root):
        raise Failed("the restore did not end: run it again")
    try:
        with open(root + LAST, encoding="utf-8") as file:
            return dict(json.load(file))
    except (OSError, ValueError, TypeError):
        raise Failed("nothing was restored here") from None


def start(root: str) -> list[str]:
    """Enables and starts the units that ran as the backup was taken: their names."""
    found: list[str] = []
    units, places = last_of(root)["units"], {it: at for at, it in enumerate(machine.UNITS)}
    # (the desk first, and what only uses it behind it)
    for name in sorted(units, key=lambda it: (it not in machine.UNITS, places.get(it, 0), it)):
        enabled, active = units[name]
        if enabled == "enabled":
            machine.systemctl("enable", name)
        if active in ("active", "activating"):
            if name == "desk-door.service":
                found += machine.said(*BEGIN).splitlines()
            machine.systemctl("restart", name)
            found.append(name)
    return found

"""Takes all state of a machine while it serves: the whole of it, or nothing.

A backup is a folder of its moment. It is written under another name and given its own in one step,
at the end; what a kill left under the other name is removed by the next run.
"""

from __future__ import annotations

import contextlib
import fcntl
import hashlib
import os
import shutil
import stat
import time
from collections.abc import Iterator
from dataclasses import dataclass, replace
from typing import NamedTuple

from steelnewt_backup import machine
from steelnewt_backup.faults import Failed
from steelnewt_backup.listed import Item, items_of, site_part, the_list
from steelnewt_backup.manifest import NAME, Entry, Manifest, Piece, backups_in, digest
from steelnewt_backup.manifest import read_manifest
from steelnewt_backup.pieces import Pieces, pieces_of, sync_folder, write_new
from steelnewt_backup.settings import Settings
from steelnewt_client.stores import TICK, is_settled, mark
from steelnewt_client.moments import stamp_of

BEGUN = ".new-"  # how the folder of an unfinished backup is called
GONE = ".old-"  # and that of one that is being removed
TRIES = 50
OWNER = "machine"  # the file that names whose backups are in the folder
USED = "/var/lib/desk-backup/folders"


class Result(NamedTuple):
    """What a run made."""

    at: str
    digest: str
    files: int
    written: int
    removed: list[str]


@contextlib.contextmanager
def held(folder: str) -> Iterator[None]:
    """The folder of the backups, for one program at a time; root's alone."""
    os.makedirs(folder, 0o700, exist_ok=True)
    lock = os.open(folder, os.O_RDONLY | os.O_DIRECTORY)
    try:
        found = os.fstat(lock)
        if found.st_uid != os.geteuid() or found.st_mode & 0o077:
            own = machine.owner_name(os.geteuid())
            raise Failed(f"{folder} has to be {own}'s alone: chmod 700")
        try:
            fcntl.flock(lock, fcntl.LOCK_EX | fcntl.LOCK_NB)
        except OSError:
            raise Failed(f"another program works on {folder}") from None
        yield
    finally:
        os.close(lock)


def check_owner(folder: str, host: str, used: str) -> None:
    """Lets no two machines put their backups into one folder. `used` is the file that names the
    folders of this machine: one of them that is empty now is a disk that is not mounted."""
    path = os.path.join(folder, OWNER)
    known = folders_in(used)
    try:
        with open(path, encoding="utf-8") as file:
            owner = file.read().strip()
    except FileNotFoundError:
        if folder in known:
            why = f"{folder} had backups and is empty: is its disk mounted? ({used})"
            raise Failed(why) from None
        write_new(path + ".new", f"{host}\n".encode())
        os.rename(path + ".new", path)
        owner = host
    if owner != host:
        raise Failed(f"{folder} has the backups of {owner}, and this machine is {host}")
    if folder not in known:
        os.makedirs(os.path.dirname(used), 0o755, exist_ok=True)
        with open(used, "a", encoding="utf-8") as file:
            file.write(f"{folder}\n")


def folders_in(used: str) -> list[str]:
    try:
        with open(used, encoding="utf-8") as file:
            return file.read().splitlines()
    except FileNotFoundError:
        return []


def clean(folder: str) -> None:
    """Removes what a run left that was killed."""
    for name in os.listdir(folder):
        if name.startswith((BEGUN, GONE)):
            shutil.rmtree(os.path.join(folder, name))
    with contextlib.suppress(FileNotFoundError):
        os.unlink(os.path.join(folder, OWNER + ".new"))


@dataclass
class Taking:
    """One backup as it is made."""

    root: str
    pieces: Pieces

    def entry(self, item: Item, found: os.stat_result, kind: str, target: str = "") -> Entry:
        owner, group = machine.owner_name(found.st_uid), machine.group_name(found.st_gid)
        mode = stat.S_IMODE(found.st_mode)
        return Entry(item.path, kind, mode, owner, group, item.is_secret, target)

    def take(self, item: Item) -> list[Entry]:
        """The entries of an item: a store has one more, its log."""
        path = self.root + item.path
        found = os.lstat(path)
        if stat.S_ISDIR(found.st_mode):
            return [self.entry(item, found, "folder")]
        if stat.S_ISLNK(found.st_mode):
            return [self.entry(item, found, "link", os.readlink(path))]
        return self.store(item) if item.is_store else [self.file(item, item.path)]

    def file(self, item: Item, name: str) -> Entry:
        """A file's bytes, as far as they reach now: what grows meanwhile grows behind them."""
        flags = os.O_RDONLY | os.O_NOFOLLOW | os.O_NONBLOCK
        file = os.open(self.root + name, flags)
        try:
            found = os.fstat(file)
            if not stat.S_ISREG(found.st_mode):
                raise Failed(f"{name} became something else than a file")
            kept: list[Piece] = []
            whole = hashlib.sha256()
            for data in pieces_of(file):
                whole.update(data)
                kept.append(self.pieces.put(data, item.is_secret))
        finally:
            os.close(file)
        made, size = self.entry(item, found, "file"), sum(it.size for it in kept)
        sha = whole.hexdigest()
        return replace(made, path=name, size=size, sha256=sha, pieces=tuple(kept))

    def store(self, item: Item) -> list[Entry]:
        """A store and its log, with no checkpoint between the two."""
        path = self.root + item.path
        for _ in range(TRIES):
            before = mark(path)
            if is_settled(before):
                made = [self.file(item, item.path)]
                with contextlib.suppress(FileNotFoundError):
                    made.append(self.file(item, f"{item.path}-wal"))
                if mark(path) == before:
                    return made
            time.sleep(TICK)
        raise Failed(f"{item.path} is merged with its log all the time: try again")


def taken(settings: Settings, making: Taking) -> Iterator[Entry]:
    parts = [*the_list()[0], *([site_part(list(settings.also))] if settings.also else [])]
    known = set[str]()
    for part in parts:
        for item in items_of(part, making.root):
            if item.path in known:
                continue
            # (what goes while it is looked at is not there)
            with contextlib.suppress(FileNotFoundError):
                made = making.take(item)
                known.update(it.path for it in made)
                yield from made


def make(settings: Settings, root: str, new: str, at: str) -> tuple[Manifest, int]:
    """Fills the folder of a new backup."""
    moments = backups_in(settings.folder)
    before, last = None, ""
    if moments:
        with contextlib.suppress(Failed):
            old, last = read_manifest(settings.folder, moments[-1])
            before = os.path.join(settings.folder, moments[-1]), old
    seal, versions = settings.sealing(), machine.packages()
    pieces = Pieces(new, seal, before)
    entries = tuple(taken(settings, Taking(root, pieces)))
    pieces.drop(piece for entry in entries for piece in entry.pieces)
    if machine.packages() != versions or machine.is_upgrading():
        raise Failed("packages were installed meanwhile: nothing was taken, so try again")
    found = Manifest(
        at, machine.host_name(), machine.machine_id(root), seal.kind, seal.recipients, last,
        settings.also, versions, machine.units(), machine.members(), entries,
    )  # fmt: skip
    return found, pieces.written


def expired(moments: list[str], keep: int) -> list[str]:
    """Which backups go: of the last two days all stay, of each earlier day its last one, for `keep`
    days that have any."""
    days = sorted({it[:8] for it in moments}, reverse=True)
    whole, kept = set(days[:2]), set(days[:keep])
    last = {it[:8]: it for it in moments}
    stays = {it for it in moments if it[:8] in whole or it[:8] in kept and last[it[:8]] == it}
    return [it for it in moments if it not in stays]


def remove(folder: str, at: str) -> None:
    gone = os.path.join(folder, GONE + at)
    os.rename(os.path.join(folder, at), gone)
    shutil.rmtree(gone)


def backup(settings: Settings, root: str = "") -> Result:
    """Takes a backup, and removes those that are too old."""
    settings.sealing().check()
    with held(settings.folder):
        check_owner(settings.folder, machine.host_name(), root + USED)
        clean(settings.folder)
        machine.wait_for_upgrade()
        at = stamp_of(int(time.time()))
        if backups_in(settings.folder)[-1:] >= [at]:
            raise Failed(f"{settings.folder} has a backup of {at} or later: look at the clock")
        new = os.path.join(settings.folder, BEGUN + at)
        os.mkdir(new, 0o700)
        try:
            found, written = make(settings, root, new, at)
            if not any(it.kind == "file" for it in found.entries):
                raise Failed("there is nothing to take: this machine has no state of a desk's")
            text = found.text().encode()
            write_new(os.path.join(new, NAME), text)
            sync_folder(new)
        except BaseException:
            shutil.rmtree(new, ignore_errors=True)
            raise
        os.rename(new, os.path.join(settings.folder, at))
        sync_folder(settings.folder)
        old = expired(backups_in(settings.folder), settings.keep)
        for moment in old:
            remove(settings.folder, moment)
        files = sum(it.kind == "file" for it in found.entries)
        return Result(at, digest(text), files, written, old)

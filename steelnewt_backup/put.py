"""Puts the files of a backup where they stood: each whole, under another name first."""

from __future__ import annotations

import hashlib
import os
import shutil
from collections.abc import Iterator
from dataclasses import dataclass

from steelnewt_backup import machine
from steelnewt_backup.faults import Failed
from steelnewt_backup.listed import is_named
from steelnewt_backup.manifest import Entry, Manifest
from steelnewt_backup.pieces import read_entry, sync_folder, write_all

BEGUN = ".desk-restore."  # before the name of a file that is not whole yet


@dataclass(frozen=True)
class Backup:
    """A backup that is read: its folder, what it has, and the key of what is sealed."""

    folder: str
    manifest: Manifest
    digest: str
    identity: str = ""

    def bytes_of(self, entry: Entry) -> Iterator[bytes]:
        return read_entry(self.folder, self.manifest.sealed, entry, self.identity)

    def files(self) -> list[Entry]:
        return [it for it in self.manifest.entries if it.kind == "file"]


def faults(backup: Backup, without_sealed: bool = False) -> Iterator[str]:
    """What of a backup is not as it was taken, by the names of the files. (`without_sealed` leaves
    out what is sealed, where nobody has the key.)"""
    known = {it.path for it in backup.manifest.entries}
    links = {it.path for it in backup.manifest.entries if it.kind == "link"}
    if len(known) != len(backup.manifest.entries):
        yield "a name stands in it twice"
    for entry in backup.manifest.entries:
        if not is_named(entry.path) and not is_also(backup.manifest, entry.path):
            yield f"{entry.path}: the list has no such file"
        if any(entry.path.startswith(f"{it}/") for it in links):
            yield f"{entry.path}: a link is in its way"
    for entry in backup.files():
        if without_sealed and any(it.is_sealed for it in entry.pieces):
            continue
        whole = hashlib.sha256()
        try:
            for data in backup.bytes_of(entry):
                whole.update(data)
        except Failed as fault:
            yield f"{entry.path}: {fault}"
            continue
        if whole.hexdigest() != entry.sha256:
            yield f"{entry.path}: its pieces are not those of the file"


def is_also(manifest: Manifest, path: str) -> bool:
    return any(path == it or path.startswith(f"{it}/") for it in manifest.also)


def put_all(backup: Backup, root: str, without_sealed: bool = False) -> None:
    """Puts everything in place, the desk's store last and behind its log."""
    entries = backup.manifest.entries
    for entry in entries:
        if entry.kind == "folder":
            put_folder(entry, root + entry.path)
        elif entry.kind == "link":
            put_link(entry, root + entry.path)
    for entry in reversed(backup.files()):
        if not (without_sealed and any(it.is_sealed for it in entry.pieces)):
            put_file(backup, entry, root + entry.path)


def put_folder(entry: Entry, path: str) -> None:
    make_parents(path)
    if not os.path.isdir(path):
        os.mkdir(path, 0o700)
    give(entry, path)
    sync_folder(os.path.dirname(path))


def put_link(entry: Entry, path: str) -> None:
    make_parents(path)
    new = os.path.join(os.path.dirname(path), BEGUN + os.path.basename(path))
    if os.path.lexists(new):
        os.unlink(new)
    os.symlink(entry.target, new)
    owner, group = machine.owner_id(entry.owner), machine.group_id(entry.group)
    os.chown(new, owner, group, follow_symlinks=False)
    os.rename(new, path)


def put_file(backup: Backup, entry: Entry, path: str) -> None:
    make_parents(path)
    folder, name = os.path.split(path)
    new = os.path.join(folder, BEGUN + name)
    if os.path.lexists(new):
        os.unlink(new)
    file = os.open(new, os.O_WRONLY | os.O_CREAT | os.O_EXCL | os.O_NOFOLLOW, 0o600)
    try:
        for data in backup.bytes_of(entry):
            write_all(file, data)
        os.fchown(file, machine.owner_id(entry.owner), machine.group_id(entry.group))
        os.fchmod(file, entry.mode)
        os.fsync(file)
    except BaseException:
        os.unlink(new)
        raise
    finally:
        os.close(file)
    os.rename(new, path)
    sync_folder(folder)


def give(entry: Entry, path: str) -> None:
    os.chown(path, machine.owner_id(entry.owner), machine.group_id(entry.group))
    os.chmod(path, entry.mode)


def make_parents(path: str) -> None:
    os.makedirs(os.path.dirname(path), 0o755, exist_ok=True)


def set_aside(backup: Backup, root: str, aside: str) -> list[str]:
    """Copies what stands in the way and is something else: the paths."""
    found = []
    for entry in backup.files():
        path = root + entry.path
        if os.path.isfile(path) and not is_same(path, entry):
            copy = aside + entry.path
            os.makedirs(os.path.dirname(copy), 0o700, exist_ok=True)
            if not os.path.exists(copy):
                shutil.copy2(path, copy)
            found.append(entry.path)
    return found


def is_same(path: str, entry: Entry) -> bool:
    with open(path, "rb") as file:
        return hashlib.file_digest(file, "sha256").hexdigest() == entry.sha256


def lacking_room(backup: Backup, root: str) -> Iterator[str]:
    """Disks that have no room for what is put there."""
    needed: dict[int, tuple[str, int]] = {}
    for entry in backup.files():
        top = os.path.dirname(root + entry.path)
        while not os.path.isdir(top):
            top = os.path.dirname(top)
        device = os.stat(top).st_dev
        needed[device] = top, needed.get(device, (top, 0))[1] + entry.size
    for top, size in needed.values():
        disk = os.statvfs(top)
        if disk.f_bavail * disk.f_frsize < size + (size >> 3):
            yield f"the disk of {top} has no room for {size} bytes: make room"

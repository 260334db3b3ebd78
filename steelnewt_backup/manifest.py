"""What a backup has: one file of JSON, which is written last. Without it there is no backup."""

from __future__ import annotations

import hashlib
import json
import os
import re
from dataclasses import asdict, dataclass, field
from typing import Any

from steelnewt_backup.faults import Failed

NAME = "manifest.json"
PIECES = "pieces"
FORMAT = 1
MOMENT = re.compile(r"[0-9]{14}Z")
KINDS = ("file", "folder", "link")


@dataclass(frozen=True)
class Piece:
    """A part of a file, of a mebibyte at most: the digest and the count of its bytes, and the
    digest of the bytes that the backup keeps for it, which may be sealed."""

    sha256: str
    size: int
    kept: str
    is_sealed: bool

    @property
    def name(self) -> str:
        return f"{self.sha256}.sealed" if self.is_sealed else self.sha256


@dataclass(frozen=True)
class Entry:
    """A file, folder or link, as it stood on the machine."""

    path: str
    kind: str
    mode: int
    owner: str
    group: str
    is_secret: bool = False
    target: str = ""
    size: int = 0
    sha256: str = ""
    pieces: tuple[Piece, ...] = ()


@dataclass(frozen=True)
class Manifest:
    """A backup: of which machine and moment, by which packages, and what there is."""

    at: str
    host: str
    machine: str
    sealed: str = ""
    recipients: tuple[str, ...] = ()
    before: str = ""
    also: tuple[str, ...] = ()
    packages: dict[str, str] = field(default_factory=dict)
    units: dict[str, list[str]] = field(default_factory=dict)
    groups: dict[str, list[str]] = field(default_factory=dict)
    entries: tuple[Entry, ...] = ()

    def text(self) -> str:
        told = {"format": FORMAT} | asdict(self)
        return json.dumps(told, indent=1, sort_keys=True) + "\n"

    def entry(self, path: str) -> Entry | None:
        return next((it for it in self.entries if it.path == path), None)

    def pieces(self) -> dict[str, Piece]:
        return {piece.name: piece for entry in self.entries for piece in entry.pieces}


def digest(data: bytes) -> str:
    return hashlib.sha256(data).hexdigest()


def entry_of(told: dict[str, Any]) -> Entry:
    pieces = tuple(Piece(**it) for it in told.pop("pieces"))
    found = Entry(**told, pieces=pieces)
    is_path = found.path.startswith("/") and os.path.normpath(found.path) == found.path
    if not is_path or found.kind not in KINDS or not 0 <= found.mode <= 0o7777:
        raise ValueError(f"{found.path!r} is no entry")
    if found.size != sum(it.size for it in pieces):
        raise ValueError(f"{found.path}: its pieces are not as long as the file")
    if any(not re.fullmatch("[0-9a-f]{64}", it.sha256) for it in pieces):
        raise ValueError(f"{found.path}: a piece has no digest")
    return found


def manifest_of(data: bytes) -> Manifest:
    """The manifest in a text; refused where it is none, or a newer version wrote it."""
    try:
        told = json.loads(data)
        newer = told.pop("format")
        if newer != FORMAT:
            raise Failed(f"a newer version made this backup (format {newer}): install that one")
        entries = tuple(entry_of(it) for it in told.pop("entries"))
        lists = {name: tuple(told[name]) for name in ("also", "recipients")}
        return Manifest(**told | lists, entries=entries)
    except (ValueError, KeyError, TypeError, AttributeError, RecursionError) as fault:
        raise Failed(f"its {NAME} was cut or altered: {fault!r}") from None


def backups_in(folder: str) -> list[str]:
    """The moments of the whole backups in a folder, the oldest first."""
    try:
        names = sorted(it for it in os.listdir(folder) if MOMENT.fullmatch(it))
    except OSError as fault:
        raise Failed(f"{folder} cannot be read: {fault.strerror}") from None
    return [it for it in names if os.path.exists(os.path.join(folder, it, NAME))]


def read_manifest(folder: str, at: str) -> tuple[Manifest, str]:
    """A backup's manifest, and the digest of its text."""
    try:
        with open(os.path.join(folder, at, NAME), "rb") as file:
            data = file.read()
    except OSError as fault:
        raise Failed(f"{folder} has no backup {at}: {fault.strerror}") from None
    found = manifest_of(data)
    if found.at != at:
        raise Failed(f"the backup {at} says that it is {found.at}: its {NAME} is another's")
    return found, digest(data)

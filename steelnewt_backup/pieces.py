"""The bytes of a backup: pieces of files, each kept once. What was there the last time is linked,
and not written again; so each backup is whole by itself, and any other may be removed."""

from __future__ import annotations

import contextlib
import os
from collections.abc import Iterable, Iterator

from steelnewt_backup.faults import Failed
from steelnewt_backup.manifest import PIECES, Entry, Manifest, Piece, digest
from steelnewt_backup.seal import Seal, opened

SIZE = 1 << 20


def pieces_of(file: int) -> Iterator[bytes]:
    """The bytes of an open file, piece by piece."""
    while data := read_whole(file):
        yield data


def read_whole(file: int) -> bytes:
    found = b""
    while len(found) < SIZE and (part := os.read(file, SIZE - len(found))):
        found += part
    return found


class Pieces:
    """The pieces of a new backup, in its folder; `before` is the last one."""

    def __init__(self, folder: str, seal: Seal, before: tuple[str, Manifest] | None) -> None:
        self.folder, self.seal = os.path.join(folder, PIECES), seal
        os.mkdir(self.folder, 0o700)
        self.old_folder, self.old = "", dict[str, Piece]()
        if before is not None:
            last = before[1]
            self.old_folder, self.old = os.path.join(before[0], PIECES), last.pieces()
            if last.recipients != seal.recipients:
                # (what was sealed to others is sealed anew)
                self.old = {name: it for name, it in self.old.items() if not it.is_sealed}
        self.made: dict[str, Piece] = {}
        self.written = 0

    def put(self, data: bytes, is_secret: bool) -> Piece:
        is_sealed = self.seal.covers(is_secret)
        name = Piece(digest(data), len(data), "", is_sealed).name
        if name not in self.made:
            self.made[name] = self.linked(name) or self.write(name, data, is_sealed)
        return self.made[name]

    def linked(self, name: str) -> Piece | None:
        """The piece of the last backup, if nothing changed it there."""
        old = self.old.get(name)
        if old is None:
            return None
        path = os.path.join(self.old_folder, name)
        with contextlib.suppress(OSError):
            with open(path, "rb") as file:
                if digest(file.read()) != old.kept:
                    return None
            os.link(path, os.path.join(self.folder, name))
            return old
        return None

    def write(self, name: str, data: bytes, is_sealed: bool) -> Piece:
        kept = self.seal.sealed(data) if is_sealed else data
        write_new(os.path.join(self.folder, name), kept)
        self.written += len(kept)
        return Piece(digest(data), len(data), digest(kept), is_sealed)

    def drop(self, used: Iterable[Piece]) -> None:
        """Removes what no entry has: a store that was read again left it."""
        names = {it.name for it in used}
        for name in self.made.keys() - names:
            os.unlink(os.path.join(self.folder, name))
        sync_folder(self.folder)


def write_new(path: str, data: bytes) -> None:
    """Writes a file that is not there yet, down to the disk."""
    file = os.open(path, os.O_WRONLY | os.O_CREAT | os.O_EXCL, 0o600)
    try:
        write_all(file, data)
        os.fsync(file)
    finally:
        os.close(file)


def write_all(file: int, data: bytes) -> None:
    left = memoryview(data)
    while left:
        left = left[os.write(file, left) :]


def sync_folder(folder: str) -> None:
    held = os.open(folder, os.O_RDONLY | os.O_DIRECTORY)
    try:
        os.fsync(held)
    finally:
        os.close(held)


def kept_bytes(folder: str, piece: Piece) -> bytes:
    """What a backup keeps of a piece; refused where that was cut or altered, or is away."""
    try:
        with open(os.path.join(folder, PIECES, piece.name), "rb") as file:
            found = file.read()
    except FileNotFoundError:
        raise Failed("a piece is not there: the backup was cut") from None
    except OSError as fault:
        raise Failed(f"a piece cannot be read: {fault.strerror}") from None
    if digest(found) != piece.kept:
        raise Failed("a piece was cut or altered")
    return found


def read_entry(folder: str, kind: str, entry: Entry, identity: str) -> Iterator[bytes]:
    """The bytes of a file, piece by piece, each as it was taken."""
    for piece in entry.pieces:
        data = kept_bytes(folder, piece)
        if piece.is_sealed:
            data = opened(kind, data, identity)
        if digest(data) != piece.sha256:
            raise Failed("what was sealed is not what was taken")
        yield data

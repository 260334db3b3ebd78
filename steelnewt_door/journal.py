"""The journal: all that came, and what was answered, on the disk before anything else happens.

It is a folder of files, `journal-NUMBER.jsonl` by their first row's number; each row has the digest
of the one before it (rows.py). A file that is long enough is followed by the next one, which begins
with the chain of it, and may be carried away then.
"""

import contextlib
import errno
import fcntl
import hashlib
import os
import queue
import re
import sqlite3
import threading
import time
from collections.abc import Iterator
from dataclasses import dataclass, field

from steelnewt_client.moments import stamp_of
from steelnewt_client.signed import Signed
from steelnewt_door.index import Before, Index
from steelnewt_door.rows import (
    BadRow, Draft, Last, Noted, Row, draft_of, following, noted_of, read_row,
)  # fmt: skip

NAME = re.compile(r"journal-([0-9]{12})\.jsonl")
RESERVE, RESERVED = "reserve", 1 << 20  # bytes that are kept for what takes rights away
MOST_BATCH = 256
MOST_UNINDEXED = 256  # rows that the index gets with one transaction


class BadJournal(Exception):
    """The journal cannot be used: it was cut, changed or reordered, or its disk fails."""


class Full(Exception):
    """There is no room for a row."""


@dataclass(frozen=True)
class Room:
    """How many bytes all files may have, and one of them before the next one begins."""

    most: int = 4 << 30
    file: int = 16 << 20


@dataclass
class Batch:
    """Rows that somebody waits for."""

    drafts: list[Draft]
    takes_away: bool
    is_done: bool = False
    numbers: list[int] = field(default_factory=list)
    fault: Exception | None = None


def files_of(folder: str) -> list[tuple[int, str]]:
    """The journal's files in a folder, by the number of their first row."""
    found = [(int(it[1]), it[0]) for name in os.listdir(folder) if (it := NAME.fullmatch(name))]
    return [(no, os.path.join(folder, name)) for no, name in sorted(found)]


def rows_of(path: str) -> Iterator[Row]:
    """The rows of a file that is whole."""
    with open(path, "rb") as file:
        for number, line in enumerate(file, 1):
            try:
                yield read_row(line)
            except BadRow as fault:
                raise BadJournal(f"{path}: line {number} {fault}") from None


def rows_in(folder: str) -> Iterator[Row]:
    """All rows of a folder, in their order."""
    for _, path in files_of(folder):
        yield from rows_of(path)


def rows_behind(folder: str, no: int) -> Iterator[Row]:
    """The rows behind one, up to where a door may be writing now."""
    files = files_of(folder)
    firsts = [first for first, _ in files]
    for (_, path), following_first in zip(files, [*firsts[1:], no + 2]):
        if following_first > no + 1:
            with contextlib.suppress(BadJournal):
                yield from (it for it in rows_of(path) if it["no"] > no)


def is_row(line: bytes) -> bool:
    try:
        return line.endswith(b"\n") and bool(read_row(line))
    except BadRow:
        return False


class Journal:
    """One door's journal. Several threads may append at a time."""

    def __init__(self, folder: str, site: str, room: Room = Room()) -> None:
        self.folder, self.site, self.room = folder, site, room
        self.guard = os.open(folder, os.O_RDONLY | os.O_DIRECTORY)
        try:
            fcntl.flock(self.guard, fcntl.LOCK_EX | fcntl.LOCK_NB)
        except OSError:
            raise BadJournal(f"another door has the journal in {folder}") from None
        self.kept = Index(os.path.join(folder, "index.db"))
        self.last, self.file, self.size = Last(), -1, 0
        self.broken, self.torn = "", b""
        self.unindexed, self.indexing = list[tuple[Last, Noted]](), threading.Lock()
        self.total = self.counted()
        try:
            self.open_last()
        except BaseException:
            self.let_go()
            raise
        self.reserve()
        self.waiting: queue.SimpleQueue[Batch] = queue.SimpleQueue()
        self.writing = threading.Lock()

    def close(self) -> None:
        with self.writing:
            self.let_go()

    def let_go(self) -> None:
        self.catch_up([])
        if self.file >= 0:
            os.close(self.file)
        self.kept.close()
        os.close(self.guard)

    @property
    def index(self) -> Index:
        """The index, which has all rows as far as there is room for it."""
        self.catch_up([])
        return self.kept

    def catch_up(self, rows: list[tuple[Last, Noted]], most: int = 0) -> None:
        """Puts rows into the index, and the ones before that it has not got yet, where there are
        more of them than so many. (It may get them at the next start.)"""
        with self.indexing, contextlib.suppress(sqlite3.Error):
            self.unindexed += rows
            if len(self.unindexed) > most:
                self.kept.add(self.unindexed)
                self.unindexed = []

    def before(self, signed: Signed) -> Before:
        """What came before of a line's message."""
        return self.index.before(signed)

    def counted(self) -> int:
        """How many bytes all files have now."""
        self.total = sum(os.path.getsize(path) for _, path in files_of(self.folder))
        return self.total

    # where it begins

    def open_last(self) -> None:
        """Looks through the rows that the index does not have, and through the last file."""
        indexed, files = self.kept.last(), files_of(self.folder)
        if not files:
            if indexed.no:
                raise BadJournal(f"{self.folder} has no journal, and had {indexed.no} rows")
            self.next_file()
            return
        begins = max([0, *(at for at, (no, _) in enumerate(files) if no <= indexed.no)])
        self.open_file(files[-1][1])
        self.heal(files[-1][1])
        for at in range(min(begins, len(files) - 1), len(files)):
            self.follow(files[at], at == 0 or at == begins, indexed)
        if self.last.no < indexed.no:
            raise BadJournal(
                f"the journal in {self.folder} was cut: it ends at row {self.last.no}, and had"
                f" {indexed.no}"
            )

    def follow(self, entry: tuple[int, str], is_first: bool, indexed: Last) -> None:
        """One file: each row behind the one before it, and into the index what is not there."""
        begins, path = entry
        found = list[tuple[Last, Noted]]()
        for row in rows_of(path):
            if is_first and not found and self.last.no == 0:
                self.last = Last(row["no"] - 1, row["before"])
                if row["no"] != begins:
                    raise BadJournal(f"{path} begins with row {row['no']}")
            if (row["no"], row["before"]) != (self.last.no + 1, self.last.chain):
                raise BadJournal(f"{path}: row {row['no']} does not follow row {self.last.no}")
            self.last = Last(row["no"], row["chain"])
            if row["no"] == indexed.no and row["chain"] != indexed.chain:
                raise BadJournal(f"{path}: row {row['no']} is another one than it was")
            found.append((self.last, noted_of(row)))
        self.kept.add(it for it in found if it[0].no > indexed.no)

    def heal(self, path: str) -> None:
        """Takes away the part of a row that a power cut left: nobody was answered by it. What it
        was is noted in the next row."""
        with open(path, "rb") as file:
            lines = file.readlines()
        good = 0
        while good < len(lines) and is_row(lines[good]):
            good += 1
        if any(is_row(it) for it in lines[good:]):
            raise BadJournal(f"{path}: line {good + 1} was changed")
        self.torn = b"".join(lines[good:])
        if self.torn:
            self.size -= len(self.torn)
            self.total -= len(self.torn)
            os.ftruncate(self.file, self.size)
            os.fsync(self.file)

    def open_file(self, path: str) -> None:
        self.file = os.open(path, os.O_RDWR | os.O_APPEND | os.O_CREAT | os.O_NOFOLLOW, 0o640)
        self.size = os.fstat(self.file).st_size

    def next_file(self) -> None:
        """Begins a file, whose first row has the chain of the one before."""
        path = os.path.join(self.folder, f"journal-{self.last.no + 1:012d}.jsonl")
        row = {"row": "begun", "at": stamp_of(time.time()), "site": self.site}
        before, size = self.file, self.size
        self.open_file(path)
        try:
            self.put([draft_of(row)])
            os.fsync(self.guard)
        except OSError:
            os.close(self.file)
            self.file, self.size = before, size
            os.unlink(path)
            raise
        if before >= 0:
            os.close(before)

    def reserve(self) -> None:
        """Keeps room on the disk for what takes rights away."""
        path = os.path.join(self.folder, RESERVE)
        self.is_reserved = False
        with contextlib.suppress(OSError):
            file = os.open(path, os.O_WRONLY | os.O_CREAT | os.O_NOFOLLOW, 0o600)
            try:
                os.posix_fallocate(file, 0, RESERVED)
                self.is_reserved = True
            finally:
                os.close(file)

    # how it goes on

    def rows(self) -> Iterator[Row]:
        """All rows that are here, in their order."""
        return rows_in(self.folder)

    def append(self, rows: list[Row], takes_away: bool = False) -> list[int]:
        """Writes rows, and is back with their numbers when they are on the disk. Who comes first
        writes what all wait for, with one sync, and the others find it done."""
        batch = Batch([draft_of(it) for it in rows], takes_away)
        self.waiting.put(batch)
        with self.writing:
            while not batch.is_done:
                self.write_waiting()
        if batch.fault:
            raise batch.fault
        return batch.numbers

    def write_waiting(self) -> None:
        """Writes what waits, the oldest first."""
        found = list[Batch]()
        with contextlib.suppress(queue.Empty):
            while len(found) < MOST_BATCH:
                found.append(self.waiting.get_nowait())
        self.write_batches(found)

    def write_batches(self, batches: list[Batch]) -> None:
        try:
            self.write(batches)
        except Exception as fault:  # (whoever waits is answered, whatever happens)
            self.refuse(batches, BadJournal(f"the journal in {self.folder} fails: {fault!r}"))
        for it in batches:
            it.is_done = True

    def refuse(self, batches: list[Batch], fault: Exception) -> None:
        for it in batches:
            it.fault = fault

    def write(self, batches: list[Batch]) -> None:
        """Writes batches, or says of each why not; what takes rights away gets the reserve."""
        if not batches:
            return
        try:
            self.try_writing(batches)
            if not self.is_reserved:
                self.reserve()
        except Full as fault:
            first = [it for it in batches if it.takes_away]
            self.refuse(batches, fault)
            if first:
                with contextlib.suppress(FileNotFoundError):
                    os.unlink(os.path.join(self.folder, RESERVE))
                self.is_reserved = False
                with contextlib.suppress(Full):
                    self.try_writing(first)
                    for it in first:
                        it.fault = None

    def try_writing(self, batches: list[Batch]) -> None:
        if self.broken:
            raise BadJournal(self.broken)
        drafts, no = list[Draft](), self.last.no
        for batch in batches:
            drafts += batch.drafts
            batch.numbers = [*range(no + 1, no + 1 + len(batch.drafts))]
            no += len(batch.drafts)
        is_giving = not all(it.takes_away for it in batches)
        most = self.room.most * (9 if is_giving else 10) // 10
        # (files may have been carried away since)
        if self.total >= most and self.counted() >= most:
            raise Full(f"the journal has {self.total} bytes: carry files of it away")
        try:
            self.put(drafts)
        except OSError as fault:
            if fault.errno in (errno.ENOSPC, errno.EDQUOT, errno.EFBIG):
                raise Full(f"the disk of {self.folder} is full") from None
            raise
        if self.size >= self.room.file:
            with contextlib.suppress(OSError):  # (then this one goes on)
                self.next_file()

    def put(self, drafts: list[Draft]) -> None:
        """Writes rows and waits until the disk has them; undone where it has no room."""
        last, lines, rows = self.last, list[bytes](), list[tuple[Last, Noted]]()
        for draft, noted in drafts:
            last, line = following(last, draft)
            lines.append(line)
            rows.append((last, noted))
        text = b"".join(lines)
        try:
            written = 0
            while written < len(text):
                written += os.write(self.file, text[written:])
            os.fdatasync(self.file)
        except OSError as fault:
            self.undo(fault)
            raise
        self.size, self.total = self.size + len(text), self.total + len(text)
        self.last = last
        self.catch_up(rows, MOST_UNINDEXED)

    def undo(self, fault: OSError) -> None:
        """Takes back what may be written in part. (What a disk says after a failed sync is not to
        be believed: then nothing more is written until the door is started again.)"""
        try:
            os.ftruncate(self.file, self.size)
            os.fdatasync(self.file)
            if fault.errno == errno.EIO:
                raise OSError(errno.EIO, "the disk failed")
        except OSError:
            self.broken = f"the disk of {self.folder} failed: {fault.strerror}"

    def note_torn(self) -> None:
        """Notes what a power cut left, once the journal is written to again."""
        if self.torn:
            told = hashlib.sha256(self.torn).hexdigest()
            row = {"row": "healed", "at": stamp_of(time.time()), "digest": told}
            self.append([row | {"bytes": len(self.torn)}])
            self.torn = b""

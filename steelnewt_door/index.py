"""What the door looks up in its journal. It is made of the journal, and can be made again: a
database of SQLite, which is never the only place where something stands."""

import contextlib
import logging
import os
import sqlite3
import threading
from collections.abc import Iterable, Iterator
from dataclasses import dataclass

from steelnewt_client.signed import Signed, digest
from steelnewt_door.rows import FIRST, Last, Noted, line_digest
from steelnewt_door.touches import Touch

SCHEMA = """
CREATE TABLE IF NOT EXISTS lines (
    line TEXT NOT NULL UNIQUE,
    no INTEGER PRIMARY KEY,
    at TEXT NOT NULL,
    how TEXT NOT NULL,
    message TEXT NOT NULL,
    about TEXT NOT NULL,
    why TEXT NOT NULL,
    key TEXT NOT NULL,
    code TEXT NOT NULL
) STRICT;
CREATE INDEX IF NOT EXISTS by_message ON lines (message);
CREATE INDEX IF NOT EXISTS unanswered ON lines (no) WHERE code = '';
CREATE TABLE IF NOT EXISTS touches (
    key TEXT NOT NULL,
    counter INTEGER NOT NULL,
    at TEXT NOT NULL,
    mark TEXT NOT NULL,
    PRIMARY KEY (key, counter, mark)
) STRICT, WITHOUT ROWID;
CREATE TABLE IF NOT EXISTS last (one INTEGER PRIMARY KEY, no INTEGER, chain TEXT) STRICT;
"""
# (a line that was refused and is judged anew has a new row)
CAME = "INSERT OR REPLACE INTO lines (no, line, at, how, message, about, why, key, code)"
# (with one touch a list is signed)
TOUCHED = "INSERT OR IGNORE INTO touches (key, counter, at, mark) VALUES (?, ?, ?, ?)"
VALUES, KEY = 8, 6  # of a line that came, and which of them is the key
BEFORE = """
SELECT line, key, no, at, how, code FROM lines WHERE line = ?1
UNION
SELECT line, key, no, at, how, code FROM lines
WHERE message = ?2 AND about = ?3 AND why = ?4 AND how = 'signed'
ORDER BY no
"""
log = logging.getLogger("desk-door")


@dataclass(frozen=True)
class Known:
    """A line that came before: its row's number, when, as what, and what was answered last."""

    no: int
    at: str
    how: str
    code: str


@dataclass(frozen=True)
class Before:
    """A line that came before, and the first one with the same of each key that signed it, however
    the signature was written: one signature can be written in many ways (zeros before a number, a
    curve's other number, base64)."""

    known: Known | None
    by_key: dict[str, Known]


def opened(path: str) -> sqlite3.Connection:
    """The database at a path, with its tables."""
    base = sqlite3.connect(path, timeout=20, check_same_thread=False, isolation_level=None)
    try:
        # (a power cut may take the last rows of it: they are taken from the journal again)
        base.execute("PRAGMA journal_mode = wal")
        base.execute("PRAGMA synchronous = normal")
        for statement in SCHEMA.split(";"):
            base.execute(statement)
        base.execute("SELECT max(no) FROM lines").fetchone()
    except BaseException:
        base.close()
        raise
    return base


class Index:
    """Several threads may have it at a time."""

    def __init__(self, path: str) -> None:
        self.lock = threading.Lock()
        try:
            self.base = opened(path)
        except sqlite3.OperationalError:
            raise  # (no room, no right: a person has to look)
        except sqlite3.DatabaseError as fault:
            log.warning("%s cannot be read, and is made again of the journal: %s", path, fault)
            for end in ("", "-wal", "-shm"):
                with contextlib.suppress(FileNotFoundError):
                    os.unlink(path + end)
            self.base = opened(path)

    def close(self) -> None:
        with self.lock:
            self.base.close()

    def last(self) -> Last:
        """The last row of the journal that is in here."""
        with self.lock:
            found = self.base.execute("SELECT no, chain FROM last").fetchone()
        return Last(*(found or (0, FIRST)))

    def add(self, rows: Iterable[tuple[Last, Noted]]) -> None:
        """Notes rows that are on the disk."""
        with self.lock:
            self.base.execute("BEGIN IMMEDIATE")
            try:
                last = None
                for last, noted in rows:
                    self.note(last.no, noted)
                if last:
                    values = (last.no, last.chain)
                    self.base.execute("INSERT OR REPLACE INTO last VALUES (1, ?, ?)", values)
            except BaseException:
                self.base.execute("ROLLBACK")
                raise
            self.base.execute("COMMIT")

    def note(self, no: int, noted: Noted) -> None:
        if len(noted) == 2:
            self.base.execute("UPDATE lines SET code = ?2 WHERE no = ?1", noted)
        elif noted:
            values = (no, *noted[:VALUES])
            self.base.execute(f"{CAME} VALUES (?, ?, ?, ?, ?, ?, ?, ?, ?)", values)
            if touch := noted[VALUES:]:
                self.base.execute(TOUCHED, (noted[KEY], *touch))

    def beginnings(self) -> Iterator[str]:
        """How the digests of all messages begin."""
        with self.lock:
            for (begins,) in self.base.execute("SELECT substr(message, 1, 6) FROM lines"):
                yield begins

    def known(self, signed: Signed) -> Known | None:
        """What was noted of a line."""
        return self.before(signed).known

    def before(self, signed: Signed) -> Before:
        """What was noted of a line, and of what was signed of its message."""
        values = (line_digest(signed), signed.digest, signed.about, signed.why)
        with self.lock:
            rows = self.base.execute(BEFORE, values).fetchall()
        known, by_key = None, dict[str, Known]()
        for line, key, *parts in rows:
            found = Known(*parts)
            if line == values[0]:
                known = found
            if found.how == "signed":
                by_key.setdefault(key, found)
        return Before(known, by_key)

    def is_about(self, message: str, about: str) -> bool:
        """Whether a verdict came with a good signature that is about this request."""
        where = "SELECT 1 FROM lines WHERE message = ? AND about = ? AND how = 'signed'"
        with self.lock:
            return self.base.execute(where, (digest(message), about)).fetchone() is not None

    def is_here(self, message: str) -> bool:
        """Whether a message came through the door, or was at the desk before it."""
        where = "SELECT 1 FROM lines WHERE message = ? AND how != 'refused'"
        with self.lock:
            return self.base.execute(where, (digest(message),)).fetchone() is not None

    def is_taken(self, message: str) -> bool:
        """Whether the desk acknowledged a message."""
        where = "SELECT 1 FROM lines WHERE message = ? AND how != 'refused' AND code = 'ack'"
        with self.lock:
            return self.base.execute(where, (digest(message),)).fetchone() is not None

    def whys(self, request: str) -> set[str]:
        """The digests of the reasons with which a request, of this digest, was signed."""
        where = "SELECT why FROM lines WHERE message = ? AND how = 'signed'"
        with self.lock:
            return {it[0] for it in self.base.execute(where, (request,))}

    def touches_from(self, key: str, counter: int) -> list[Touch]:
        """The touches of a passkey with this counter or a higher one."""
        where = "SELECT counter, at, mark FROM touches WHERE key = ? AND counter >= ?"
        with self.lock:
            return [Touch(*it) for it in self.base.execute(where, (key, counter))]

    def unanswered(self) -> list[int]:
        """The rows with messages of which nobody knows what became of them."""
        with self.lock:
            found = self.base.execute("SELECT no FROM lines WHERE code = '' ORDER BY no")
            return [it[0] for it in found]

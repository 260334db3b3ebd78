"""What was cut out of a desk's store: the store says it itself, in a table of its own beside the
desk's, and each archive has the messages of one cut, one a line."""

from __future__ import annotations

import hashlib
import heapq
import os
import sqlite3
from collections.abc import Iterable, Iterator
from contextlib import closing, contextmanager
from typing import NamedTuple
from urllib.parse import quote

from desk_tools.history import read
from desk_tools.served import Failed

TABLE = """\
CREATE TABLE cuts (moment TEXT PRIMARY KEY NOT NULL, before TEXT NOT NULL,
    archived INTEGER NOT NULL, sha256 TEXT NOT NULL) STRICT;
"""
HAS_TABLE = "SELECT count(*) FROM sqlite_schema WHERE type = 'table' AND name = 'cuts'"


class Cut(NamedTuple):
    """When a store was cut, up to which moment, how many messages were taken out of it, and the
    digest of the archive that has them."""

    moment: str
    before: str
    archived: int
    sha256: str

    @property
    def file(self) -> str:
        return f"{self.moment}.messages"

    def values(self) -> str:
        return f"('{self.moment}', '{self.before}', {self.archived}, '{self.sha256}')"


@contextmanager
def opened(store: str) -> Iterator[sqlite3.Connection]:
    """A store that nobody writes to, and whose log is merged."""
    try:
        place = f"file:{quote(store)}?mode=ro&immutable=1"
        with closing(sqlite3.connect(place, uri=True)) as base:
            base.text_factory = bytes
            yield base
    except sqlite3.Error as fault:
        raise Failed(f"{store} is no desk's: {fault}") from None


def cuts_of(base: sqlite3.Connection) -> list[Cut]:
    """The cuts of a store, in their order."""
    if not base.execute(HAS_TABLE).fetchone()[0]:
        return []
    rows = base.execute("SELECT moment, before, archived, sha256 FROM cuts ORDER BY moment")
    return [Cut(at.decode(), to.decode(), int(out), name.decode()) for at, to, out, name in rows]


def texts_of(base: sqlite3.Connection) -> Iterator[bytes]:
    """The messages of a store, in byte order."""
    for row in base.execute("SELECT body FROM messages ORDER BY body"):
        yield row[0]


def statements(cuts: Iterable[Cut]) -> str:
    """What SQLite is told, so that a store says them."""
    rows = ", ".join(it.values() for it in cuts)
    return f"BEGIN; {TABLE} INSERT INTO cuts VALUES {rows}; COMMIT;"


def words(cuts: list[Cut]) -> str:
    """The same in a line of the history; nothing where nothing was cut."""
    if not cuts:
        return ""
    return f"cut {max(it.before for it in cuts)} {sum(it.archived for it in cuts)}"


def archived(path: str) -> list[bytes]:
    """The messages of an archive, in byte order."""
    return sorted(read(path).splitlines())


def of_all(folder: str, cuts: list[Cut]) -> list[bytes]:
    """The messages of the archives of these cuts, each of which is the one that the store names."""
    found: list[bytes] = []
    for it in cuts:
        path = os.path.join(folder, it.file)
        try:
            text = read(path)
        except FileNotFoundError:
            raise Failed(f"{path} is not there: bring it back from where it was carried") from None
        if hashlib.sha256(text).hexdigest() != it.sha256:
            raise Failed(f"{path} is not the archive that the store names")
        found += text.splitlines()
    return found


def digest_of(texts: Iterable[bytes]) -> str:
    """A digest of messages, whatever their order: desks that were cut alike have the same."""
    found = hashlib.sha256()
    for it in sorted(texts):
        found.update(it + b"\n")
    return found.hexdigest()


def are_parts(whole: Iterable[bytes], one: Iterable[bytes], other: Iterable[bytes]) -> bool:
    """Whether each message of the whole is in one of the two parts, and in one alone. All are in
    byte order."""
    left, parts = iter(whole), heapq.merge(one, other)
    return all(it == next(left, None) for it in parts) and next(left, None) is None

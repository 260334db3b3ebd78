"""What lists read of an outbox: a page of rows at a time, each by an index, however many it has."""

from __future__ import annotations

import json
import sqlite3
from dataclasses import dataclass
from typing import TYPE_CHECKING

from steelnewt_client.messages import Request

if TYPE_CHECKING:
    from steelnewt_relay.outbox import Kept, Outbox

# Requests on a page of one list by ssh. (What is older than the desk is asked about at once costs a
# question each, and a front takes some 200 at a time.)
MOST_LISTED = 100
# Messages that are read at a time, where all are.
MOST_READ = 1_000
SCHEMA = """
CREATE INDEX IF NOT EXISTS requests_kept ON messages (id) WHERE kind = 'request';
CREATE INDEX IF NOT EXISTS by_asker ON messages (by, body ->> '$.until') WHERE kind = 'request';
CREATE INDEX IF NOT EXISTS by_author ON messages (by, body ->> '$.at')
 WHERE kind IN ('request', 'approve');
CREATE INDEX IF NOT EXISTS open_ends ON messages (body ->> '$.until', by)
 WHERE kind = 'request' AND state <> 'refused';
CREATE TABLE IF NOT EXISTS on_hosts (
    host TEXT NOT NULL, message INTEGER NOT NULL, PRIMARY KEY (host, message)
) STRICT, WITHOUT ROWID;
"""
# The requests of an outbox that an older relay made, by their hosts.
HOSTS_OF_ALL = """INSERT OR IGNORE INTO on_hosts
 SELECT value, messages.id FROM messages, json_each(body, '$.hosts') WHERE kind = 'request'"""
HOSTS_OF_ONE = """INSERT OR IGNORE INTO on_hosts
 SELECT value, messages.id FROM messages, json_each(body, '$.hosts') WHERE messages.id = ?"""
# Each person's first ones, so many at most: one person's requests never fill everybody's list.
OPEN = """SELECT id FROM (SELECT id, row_number() OVER (PARTITION BY by ORDER BY id) AS place
 FROM messages INDEXED BY open_ends
 WHERE kind = 'request' AND state <> 'refused' AND body ->> '$.until' >= ?) WHERE place <= ?"""
ON_HOST = "EXISTS (SELECT 1 FROM on_hosts WHERE host = ? AND message = messages.id)"


@dataclass(frozen=True)
class Wanted:
    """Which requests a list has: of whom, on which host, and those alone that end at a moment or
    later. Where a word is empty, those of all."""

    who: str = ""
    host: str = ""
    since: str = ""

    def has(self, request: Request) -> bool:
        """Whether a request is one of them, whatever its end."""
        return self.who in ("", request.by) and (not self.host or self.host in request.wish.hosts)

    def rows(self) -> tuple[str, list[str]]:
        """These requests, behind FROM, and the values of its places."""
        if self.host and not self.who and not self.since:
            return "on_hosts CROSS JOIN messages ON id = message WHERE host = ?", [self.host]
        index = "by_end" if self.since else "requests_kept"
        named = [
            ("by = ?", self.who), ("body ->> '$.until' >= ?", self.since), (ON_HOST, self.host),
        ]  # fmt: skip
        wheres = ["kind = 'request' AND id > 0", *(where for where, value in named if value)]
        index = "by_asker" if self.who else index
        text = f"messages INDEXED BY {index} WHERE {' AND '.join(wheres)}"
        return text, [value for _, value in named if value]


class Lists:
    """The lists of an outbox."""

    def __init__(self, outbox: Outbox) -> None:
        self.outbox = outbox

    @property
    def base(self) -> sqlite3.Connection:
        return self.outbox.base

    def note_hosts(self, message: int) -> None:
        """Notes on which hosts a request is that was kept just now."""
        self.base.execute(HOSTS_OF_ONE, (message,))

    def note_all_hosts(self) -> None:
        """The same of each request of an outbox that an older relay made."""
        self.base.execute(HOSTS_OF_ALL)

    def count(self, wanted: Wanted) -> int:
        text, values = wanted.rows()
        found: int = self.base.execute(f"SELECT count(*) FROM {text}", values).fetchone()[0]
        return found

    def page(self, wanted: Wanted, number: int = 1, size: int = MOST_LISTED) -> list[Kept]:
        """A page of requests: the newest are on the first one. (They are in the order in which they
        were kept.)"""
        text, values = wanted.rows()
        rows = f"SELECT id FROM {text} ORDER BY id DESC LIMIT ? OFFSET ?"
        return self.with_ids(rows, *values, size, (number - 1) * size)

    def open(self, at: str, most: int) -> list[Kept]:
        """Requests that the desk did not refuse and that end at a moment or later: of each person
        so many at most."""
        return self.with_ids(OPEN, at, most)

    def open_of(self, person: str, at: str) -> list[Kept]:
        """The same of one person."""
        found = self.page(Wanted(person, since=at))
        return [it for it in found if it.state != "refused"]

    def with_ids(self, rows: str, *values: object) -> list[Kept]:
        """The messages whose numbers a question finds."""
        ids = [id for (id,) in self.base.execute(rows, values)]
        return self.outbox.find("id IN (SELECT value FROM json_each(?))", json.dumps(ids))

"""Which messages nobody was told of, and which requests are not settled yet. They are listed beside
all others, so what looks every few seconds goes through these alone, however long a relay has
kept."""

import sqlite3
import time

SCHEMA = """
CREATE TABLE IF NOT EXISTS looked (
    one INTEGER PRIMARY KEY CHECK (one = 1), message INTEGER NOT NULL, at REAL NOT NULL
) STRICT;
CREATE TABLE IF NOT EXISTS untold (message INTEGER PRIMARY KEY) STRICT;
CREATE TABLE IF NOT EXISTS unsettled (message INTEGER PRIMARY KEY, until TEXT NOT NULL) STRICT;
CREATE INDEX IF NOT EXISTS first_over ON unsettled (until);
"""
BEGIN = "INSERT OR IGNORE INTO looked SELECT 1, message, 0 FROM told_from"
# What was kept behind the last look, up to a message.
NEW = """INSERT OR IGNORE INTO untold SELECT id FROM messages
 WHERE id > (SELECT message FROM looked) AND id <= ?
 AND NOT EXISTS (SELECT 1 FROM notices WHERE notices.message = messages.id)"""
OPEN = """INSERT OR IGNORE INTO unsettled SELECT id, body ->> '$.until' FROM messages
 WHERE id > (SELECT message FROM looked) AND id <= ? AND kind = 'request'
 AND NOT EXISTS (SELECT 1 FROM notices
 WHERE notices.message = messages.id AND notices.kind IN ('void', 'granted'))"""
# Messages that the desk answered and of which nothing is told; and requests whose window is over
# and that were neither granted nor settled otherwise.
UNTOLD = "id IN (SELECT message FROM untold) AND state <> 'kept'"
PAST = "id IN (SELECT message FROM unsettled WHERE until < ?) AND state = 'acked'"
# What settles a request.
SETTLES = ("void", "granted")
# Seconds between two notes of when somebody looked, where nothing is new.
NOTED_EVERY = 60


def is_new(base: sqlite3.Connection, now: float) -> bool:
    """Whether anything is to be noted of this look."""
    last, at = base.execute("SELECT message, at FROM looked").fetchone()
    found = base.execute("SELECT ifnull(max(id), 0) FROM messages").fetchone()
    return bool(found[0] > last or not 0 <= now - at < NOTED_EVERY)


def note_new(base: sqlite3.Connection) -> None:
    """Lists what was kept since the last look."""
    last = base.execute("SELECT ifnull(max(id), 0) FROM messages").fetchone()[0]
    for statement in (NEW, OPEN):
        base.execute(statement, (last,))
    base.execute("UPDATE looked SET message = max(message, ?), at = ?", (last, time.time()))


def note_told(base: sqlite3.Connection, message: int, kind: str) -> None:
    """Takes away from the lists what is told or settled by this event."""
    base.execute("DELETE FROM untold WHERE message = ?", (message,))
    if kind in SETTLES:
        base.execute("DELETE FROM unsettled WHERE message = ?", (message,))

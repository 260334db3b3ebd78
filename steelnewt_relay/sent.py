"""What an outbox says that was sent, read as what a suspect may have written: from one table, by
questions that run nothing of the file's own (SQLite, 'Defense Against The Dark Arts')."""

import sqlite3
import urllib.parse
from collections.abc import Iterator
from contextlib import closing
from typing import Any

from steelnewt_client.messages import MOST_BYTES, read

# A view, a trigger, a virtual table and a computed column are programs of whoever wrote the file.
PROGRAMS = """SELECT type || ' ' || name FROM sqlite_schema
 WHERE type IN ('view', 'trigger') OR sql LIKE 'CREATE VIRTUAL%' ORDER BY name"""
COMPUTED = "SELECT 'column ' || name FROM pragma_table_xinfo('messages') WHERE hidden <> 0"
BEHIND = f"FROM messages WHERE rowid > ? AND length(body) <= {MOST_BYTES} ORDER BY rowid"
BODIES = f"SELECT CAST(body AS BLOB) {BEHIND}"
NUMBERED = f"SELECT CAST(body AS BLOB), rowid, state {BEHIND}"
STATES = ("kept", "acked", "refused")


class BadOutbox(ValueError):
    """The file is no outbox that this relay made."""


def bodies(path: str) -> Iterator[str]:
    """The messages that an outbox has, each its canonical text on a line of its own."""
    return (text for text, _ in rows(path, BODIES, 0))


def numbered(path: str, after: int) -> Iterator[str]:
    """The messages behind the one of this number: before each its own number, and what the desk
    said to it (kept, acked or refused)."""
    for text, (number, state) in rows(path, NUMBERED, after):
        if state in STATES:
            yield f"{number} {state} {text}"


def rows(path: str, question: str, after: int) -> Iterator[tuple[str, list[Any]]]:
    """Each message behind the one of this number, with the other columns of the question."""
    with closing(opened(path)) as base:
        for look in (PROGRAMS, COMPUTED):
            if found := [name for (name,) in base.execute(look)]:
                raise BadOutbox(f"{path}: no relay makes this in an outbox: {', '.join(found)}")
        base.set_authorizer(allowed)
        for body, *more in base.execute(question, (after,)):
            text = body.decode("utf-8", "replace")
            if is_message(text):
                yield text, more


def opened(path: str) -> sqlite3.Connection:
    base = sqlite3.connect(f"file:{urllib.parse.quote(path)}?mode=ro", uri=True, timeout=20)
    for setting in ("query_only = on", "cell_size_check = on"):
        base.execute(f"PRAGMA {setting}")
    return base


def allowed(action: int, _: str | None, name: str | None, __: str | None, via: str | None) -> int:
    """What SQLite may do for the one question: read, and measure. (trusted_schema = off would bar
    less, and the relay's own index over JSON as well.)"""
    is_measure = action == sqlite3.SQLITE_FUNCTION and name == "length"
    is_read = action in (sqlite3.SQLITE_SELECT, sqlite3.SQLITE_READ)
    return sqlite3.SQLITE_OK if via is None and (is_read or is_measure) else sqlite3.SQLITE_DENY


def is_message(text: str) -> bool:
    """Whether a row is a message as it is posted: nothing else would be the same line."""
    try:
        return read(text).text() == text
    except (ValueError, TypeError, KeyError, AttributeError, RecursionError):
        return False

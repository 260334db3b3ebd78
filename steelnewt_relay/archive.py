"""What grows has an end: messages about requests that are long over go from the outbox into files,
one a year, with all that is known of them. Their numbers stay used.

A message is in its file, synced, before it leaves the outbox. So a stop in between leaves it in both,
and the next time it is written there once more.
"""

import json
import logging
import os
import sqlite3
import threading
from collections.abc import Callable, Iterator
from datetime import timedelta
from pathlib import Path
from typing import Any

from steelnewt_client.moments import now, stamp
from steelnewt_relay.outbox import Kept, Outbox

EVERY = 3600.0  # seconds between two looks
SOME = 200  # requests that go at a time: others write in between
log = logging.getLogger("desk-relay")
# Requests that are long over, of which nothing is on its way to the desk or to people, and which
# nobody saved under a name. (The last message stays: its number would be given again.)
OVER = """SELECT id FROM messages INDEXED BY by_end
 WHERE kind = 'request' AND body ->> '$.until' < ? AND id < (SELECT max(id) FROM messages)
 AND NOT EXISTS (SELECT 1 FROM messages AS each
 WHERE each.of = messages.of AND each.no = messages.no AND each.state = 'kept')
 AND id NOT IN (SELECT message FROM templates) ORDER BY body ->> '$.until' LIMIT ?"""
# All messages about these; and verdicts on requests that were never here, before all that are.
ABOUT = """id IN (SELECT each.id FROM json_each(?) JOIN messages AS asked ON asked.id = value
 JOIN messages AS each ON each.of = asked.of AND each.no = asked.no
 WHERE each.id < (SELECT max(id) FROM messages))"""
ALONE = """id IN (SELECT id FROM messages
 WHERE id < (SELECT min(id) FROM messages INDEXED BY requests_kept WHERE kind = 'request' AND id > 0)
 AND kind <> 'request' AND state <> 'kept' AND body ->> '$.at' < ? AND NOT EXISTS
 (SELECT 1 FROM messages AS asked INDEXED BY one_name WHERE asked.kind = 'request'
 AND asked.of = messages.of AND asked.no = messages.no) LIMIT ?)"""
NOTICES = "SELECT message, kind, state, body ->> '$.at', body ->> '$.to' FROM notices"
# What a message has beside it: the tables, and the column that has its number.
BESIDE = {
    "reasons": "id", "said": "id", "signatures": "id", "ways": "id", "notices": "message",
    "untold": "message", "unsettled": "message",
}  # fmt: skip
HOSTS = """DELETE FROM on_hosts WHERE message = ? AND host IN
 (SELECT value FROM messages, json_each(body, '$.hosts') WHERE messages.id = ?)"""


class Archive:
    """The files beside an outbox that its old messages go to."""

    def __init__(self, outbox: Outbox) -> None:
        self.outbox = outbox
        self.tables = outbox.names_made()

    def path(self, year: str) -> str:
        return f"{self.outbox.path}-archive-{year}.jsonl"

    def tidy(self, days: int) -> int:
        """Takes away what was over so many days ago; how many messages."""
        before, count = stamp(now() - timedelta(days=days)), 0
        while gone := self.take(self.over(before)) + self.take(self.alone(before)):
            count += gone
        return count

    def over(self, before: str) -> list[Kept]:
        ids = [id for (id,) in self.outbox.base.execute(OVER, (before, SOME))]
        return self.outbox.find(ABOUT, json.dumps(ids))

    def alone(self, before: str) -> list[Kept]:
        return self.outbox.find(ALONE, before, SOME)

    def take(self, messages: list[Kept]) -> int:
        """Writes these into their files, and takes them out of the outbox."""
        if messages:
            self.write(messages)
            with self.outbox.writing():
                for it in messages:
                    self.drop(it.id)
        return len(messages)

    def write(self, messages: list[Kept]) -> None:
        ids = [it.id for it in messages]
        ways, told = self.outbox.ways.of(ids), self.told(ids)
        more = [{"came_by": ways.get(it), "told": told.get(it)} for it in ids]
        both = zip(messages, more, strict=True)
        self.append([(it.message.at, line_of(it) | beside) for it, beside in both])

    def append(self, found: list[tuple[str, dict[str, Any]]]) -> None:
        """Writes lines, each into the file of its moment's year."""
        years: dict[str, list[str]] = {}
        for at, line in found:
            years.setdefault(at[:4], []).append(f"{json.dumps(line)}\n")
        for year, lines in years.items():
            # (a line that a stop has cut off is none, and ends here)
            file = os.open(self.path(year), os.O_RDWR | os.O_CREAT | os.O_APPEND, 0o600)
            try:
                size = os.fstat(file).st_size
                is_cut = size > 0 and os.pread(file, 1, size - 1) != b"\n"
                os.write(file, ("\n" * is_cut + "".join(lines)).encode("utf-8"))
                os.fsync(file)
            finally:
                os.close(file)

    def told(self, ids: list[int]) -> dict[int, list[dict[str, Any]]]:
        """Who was told what of each."""
        found: dict[int, list[dict[str, Any]]] = {}
        if "notices" in self.tables:
            some = f"{NOTICES} WHERE message IN (SELECT value FROM json_each(?))"
            for message, kind, state, at, to in self.outbox.base.execute(some, (json.dumps(ids),)):
                row = {"event": kind, "state": state, "at": at, "to": json.loads(to or "[]")}
                found.setdefault(message, []).append(row)
        return found

    def drop(self, message: int) -> None:
        base = self.outbox.base
        base.execute(HOSTS, (message, message))
        for table, column in BESIDE.items():
            if table in self.tables:
                base.execute(f"DELETE FROM {table} WHERE {column} = ?", (message,))
        base.execute("DELETE FROM messages WHERE id = ?", (message,))

    def bring_back(self) -> int:
        """Keeps again what the files have and the desk had acknowledged, to be posted: for a desk
        that lost its store. How many messages."""
        count = 0
        for line in self.lines():
            if line["state"] == "acked":
                with self.outbox.writing():
                    count += self.keep(line)
        return count

    def lines(self) -> Iterator[dict[str, Any]]:
        folder, name = os.path.split(self.outbox.path)
        for path in sorted(Path(folder).glob(f"{name}-archive-*.jsonl")):
            for line in path.read_text("utf-8").splitlines():
                try:
                    yield json.loads(line)
                except ValueError:
                    log.warning("%s: a line that a stop has cut off is left out", path)

    def keep(self, line: dict[str, Any]) -> bool:
        """Keeps a message again, with its reason and signature, if it is not there."""
        base, told = self.outbox.base, json.loads(line["body"])
        of = told["by"] if told["kind"] == "request" else told["of"]
        row = (line["body"], told["by"], told["kind"], of, told["no"])
        written = base.execute(
            "INSERT INTO messages (body, by, kind, of, no) VALUES (?, ?, ?, ?, ?)"
            " ON CONFLICT DO NOTHING",
            row,
        )
        if written.rowcount != 1:
            return False
        id = written.lastrowid
        if line["why"] or line["ticket"]:
            reason = (id, line["why"] or "", line["ticket"] or "")
            base.execute("INSERT INTO reasons VALUES (?, ?, ?)", reason)
        if any(line["signature"]):
            base.execute("INSERT INTO signatures VALUES (?, ?, ?, ?)", (id, *line["signature"]))
        assert id is not None
        if told["kind"] == "request":
            self.outbox.lists.note_hosts(id)
        return True


def line_of(kept: Kept) -> dict[str, Any]:
    """A message, what the desk answered, why it was sent, and its author's signature."""
    found = {"body": kept.body, "state": kept.state, "answer": kept.answer or None}
    return found | kept.reason.data() | {"signature": kept.signature}


def keep_tidy(opened: Callable[[], Outbox], days: int, ended: threading.Event) -> None:
    """Takes away what is long over, each hour until `ended`."""
    outbox = opened()
    while not ended.is_set():
        try:
            if outbox.has_room() and (count := Archive(outbox).tidy(days)):
                log.info("%d messages that were over %d days ago are in the archive", count, days)
        except (OSError, sqlite3.Error) as fault:
            log.warning("what is long over stays in the outbox: %s", fault)
        ended.wait(EVERY)
    outbox.close()

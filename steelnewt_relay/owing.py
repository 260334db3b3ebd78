"""What each desk lacks of an outbox: a row for each message that it has not acknowledged.

Order means nothing to a desk. So each desk has two queues, and of each what was tried the longest
ago comes first: what takes a right away, before all else, and the rest. What a desk refuses while
another has it stands beside them: their rosters differ, and it is posted again later.
"""

from __future__ import annotations

import sqlite3
import time
from collections.abc import Iterable, Sequence
from dataclasses import dataclass
from typing import TYPE_CHECKING

if TYPE_CHECKING:
    from steelnewt_relay.outbox import Kept, Outbox

FIRST, REST, REFUSED = 0, 1, 2
# A desk's name, and the last message up to which `owed` has what it lacks. `tried` is the round in
# which a message was posted last.
SCHEMA = """
CREATE TABLE IF NOT EXISTS desks (name TEXT PRIMARY KEY, seen INTEGER NOT NULL) STRICT;
CREATE TABLE IF NOT EXISTS owed (
    message INTEGER NOT NULL,
    desk TEXT NOT NULL,
    queue INTEGER NOT NULL CHECK (queue IN (0, 1, 2)),
    tried INTEGER NOT NULL DEFAULT 0,
    since INTEGER NOT NULL,
    answer TEXT NOT NULL DEFAULT '',
    PRIMARY KEY (message, desk)
) STRICT, WITHOUT ROWID;
CREATE INDEX IF NOT EXISTS owed_in_order ON owed (desk, queue, tried, message);
"""
QUEUE = f"CASE WHEN kind IN ('refuse', 'revoke') THEN {FIRST} ELSE {REST} END"
OWE = f"""INSERT OR IGNORE INTO owed (message, desk, queue, since)
 SELECT id, name, {QUEUE}, ? FROM desks CROSS JOIN messages"""
# What no desk took and each has refused.
SETTLED = f"""state = 'kept' AND id IN (SELECT message FROM owed)
 AND NOT EXISTS (SELECT 1 FROM owed WHERE message = messages.id AND queue < {REFUSED})"""
# What a desk said of a message that it lacks.
SAID = f"CASE queue WHEN {REFUSED} THEN 'it refuses this, ' || owed.answer ELSE owed.answer END"
# Which desks lack a message that another has, and what they said, as a list of JSON.
LACKS = f"""CASE state WHEN 'acked' THEN (SELECT json_group_array(json_array(desk, {SAID}))
 FROM owed WHERE message = messages.id) END"""
# When the window of a message's request ends, where that is known here.
ENDS = """coalesce(body ->> '$.until', (SELECT asked.body ->> '$.until' FROM messages AS asked
 WHERE asked.kind = 'request' AND asked.of = messages.of AND asked.no = messages.no), '9')"""
MOST_COUNTED = 1_000


@dataclass(frozen=True)
class Lag:
    """What a desk lacks: how many messages, since when, in seconds since 1970, how many of them it
    refuses while another has them, and what it said to the one that was tried last."""

    desk: str
    count: int
    since: int
    refused: int
    answer: str


class Owed:
    """The rows of an outbox."""

    def __init__(self, outbox: Outbox) -> None:
        self.outbox = outbox

    @property
    def base(self) -> sqlite3.Connection:
        return self.outbox.base

    def know(self, names: Sequence[str]) -> None:
        """From here on each message is for these desks. A desk that is new beside others lacks all
        that is kept here; in the place of the only one stands another address of the same. The
        first one of all has what was acknowledged before."""
        known = self.known()
        if known.keys() == set(names) and set(known.values()) <= {self.last()}:
            return
        self.outbox.spending(lambda: self.begin(names), True)

    def begin(self, names: Sequence[str]) -> None:
        with self.outbox.writing(True):
            known = self.known()
            if len(known) == len(names) == 1:
                self.base.execute("UPDATE desks SET name = ?", names)
                self.base.execute("UPDATE owed SET desk = ?", names)
                known = self.known()
            for name in known.keys() - set(names):
                self.base.execute("DELETE FROM owed WHERE desk = ?", (name,))
                self.base.execute("DELETE FROM desks WHERE name = ?", (name,))
            new = [it for it in names if it not in known]
            self.base.executemany("INSERT INTO desks VALUES (?, 0)", [(it,) for it in new])
            if known or len(names) > 1:
                self.owe_all(new)
            self.take_up()
            self.settle()

    def known(self) -> dict[str, int]:
        return dict(self.base.execute("SELECT name, seen FROM desks"))

    def last(self) -> int:
        row = self.base.execute("SELECT ifnull(max(id), 0) FROM messages").fetchone()
        return int(row[0])

    def take_up(self) -> None:
        """Each desk lacks what was kept since."""
        self.base.execute(f"{OWE} WHERE id > seen AND state = 'kept'", (int(time.time()),))
        self.base.execute("UPDATE desks SET seen = ?", (self.last(),))

    def owe_all(self, names: Iterable[str]) -> None:
        """These desks may lack anything."""
        for name in names:
            condition = "WHERE name = ? AND state <> 'refused'"
            self.base.execute(f"{OWE} {condition}", (int(time.time()), name))

    def settle(self) -> None:
        """What each desk has refused is refused."""
        for message, answer in self.base.execute(
            f"SELECT id, (SELECT answer FROM owed WHERE message = id) FROM messages WHERE {SETTLED}"
        ).fetchall():
            self.end(message, answer)

    def end(self, message: int, answer: str) -> None:
        """No desk is to have it."""
        self.base.execute(
            "UPDATE messages SET state = 'refused', answer = ? WHERE id = ? AND state = 'kept'",
            (answer, message),
        )
        self.base.execute("DELETE FROM owed WHERE message = ?", (message,))

    def round(self, desk: str) -> int:
        """The number of a desk's next round: each message that it lacks is tried once in it."""
        last = "SELECT max(tried) FROM owed WHERE desk = ? AND queue = ?"
        rows = [self.base.execute(last, (desk, it)).fetchone() for it in (FIRST, REST)]
        return 1 + max(tried or 0 for (tried,) in rows)

    def next(self, desk: str, number: int, queues: Sequence[int]) -> Kept | None:
        """What is posted to a desk next in this round."""
        for queue in queues:
            row = self.base.execute(
                "SELECT message FROM owed WHERE desk = ? AND queue = ? AND tried < ?"
                " ORDER BY tried, message LIMIT 1",
                (desk, queue, number),
            ).fetchone()
            if row:
                return self.outbox.entry(row[0])
        return None

    def is_lacking(self, desk: str, message: int) -> bool:
        about = "SELECT 1 FROM owed WHERE message = ? AND desk = ?"
        return self.base.execute(about, (message, desk)).fetchone() is not None

    def taken(self, desk: str, kept: Kept) -> None:
        """A desk has a message. An answer that was final stays."""

        def write() -> None:
            with self.outbox.writing(kept.takes_away):
                mine = (kept.id, desk)
                self.base.execute("DELETE FROM owed WHERE message = ? AND desk = ?", mine)
                self.base.execute(
                    "UPDATE messages SET state = 'acked', answer = ''"
                    " WHERE id = ? AND state = 'kept'",
                    (kept.id,),
                )

        self.outbox.spending(write, kept.takes_away)

    def said(self, desk: str, kept: Kept, answer: str, what: str) -> None:
        """A desk has not got a message, and this is why. What was `tried` goes behind all others;
        what it `refused` is not tried again before another desk has it; else (`missed`) the message
        has its place still."""

        def write() -> None:
            with self.outbox.writing(kept.takes_away):
                tried = "tried" if what == "missed" else str(self.round(desk))
                queue = str(REFUSED) if what == "refused" else "queue"
                self.base.execute(
                    f"UPDATE owed SET queue = {queue}, tried = {tried}, answer = ?"
                    " WHERE message = ? AND desk = ?",
                    (answer, kept.id, desk),
                )
                self.settle_one(kept.id, answer)

        self.outbox.spending(write, kept.takes_away)

    def settle_one(self, message: int, answer: str) -> None:
        """Notes beside a message what the desks say that have not got it."""
        settled = f"SELECT 1 FROM messages WHERE id = ? AND {SETTLED}"
        if self.base.execute(settled, (message,)).fetchone():
            self.end(message, answer)
            return
        self.base.execute(
            "UPDATE messages SET answer = ? WHERE id = ? AND state = 'kept'",
            (self.told(message), message),
        )

    def told(self, message: int) -> str:
        """What the desks say that have not got a message, each by its name where there are
        several."""
        rows = self.base.execute(
            f"SELECT desk, {SAID} FROM owed WHERE message = ? AND answer <> '' ORDER BY desk",
            (message,),
        ).fetchall()
        is_one = len(self.known()) == 1
        return "; ".join(said if is_one else f"{desk}: {said}" for desk, said in rows)

    def try_refused(self, desk: str, now: str) -> None:
        """Has posted again what a desk refused and another has: it may have another roster by now.
        Once the window is over, its refusal stands."""
        row = self.base.execute(
            "SELECT 1 FROM owed WHERE desk = ? AND queue = ?", (desk, REFUSED)
        ).fetchone()
        if row is None:
            return
        mine = f"desk = ? AND queue = {REFUSED} AND message IN"
        taken = f"""(SELECT message FROM owed JOIN messages ON id = message
         WHERE desk = ? AND queue = {REFUSED} AND state = 'acked'"""
        with self.outbox.writing():
            about = (desk, desk, now)
            self.base.execute(f"DELETE FROM owed WHERE {mine} {taken} AND {ENDS} < ?)", about)
            queue = f"(SELECT {QUEUE} FROM messages WHERE id = message)"
            self.base.execute(f"UPDATE owed SET queue = {queue} WHERE {mine} {taken})", about[:2])

    def again(self, names: Sequence[str]) -> int:
        """Some desks lost their stores: they lack all that was acknowledged."""
        with self.outbox.writing():
            found = self.base.execute("SELECT count(*) FROM messages WHERE state = 'acked'")
            self.owe_all(names or self.known())
            if not names:
                self.base.execute("UPDATE messages SET state = 'kept' WHERE state = 'acked'")
            return int(found.fetchone()[0])

    def said_by(self, desk: str, message: int) -> str | None:
        """What a desk said of a message that it lacks."""
        row = self.base.execute(
            f"SELECT {SAID} FROM owed WHERE message = ? AND desk = ?", (message, desk)
        ).fetchone()
        return str(row[0]) if row else None

    def count(self, desk: str) -> int:
        row = self.base.execute("SELECT count(*) FROM owed WHERE desk = ?", (desk,)).fetchone()
        return int(row[0])

    def lacking(self) -> dict[str, int]:
        """How many messages each desk lacks: all above a thousand are the same."""
        counted = f"SELECT count(*) FROM (SELECT 1 FROM owed WHERE desk = ? LIMIT {MOST_COUNTED})"
        return {
            name: int(self.base.execute(counted, (name,)).fetchone()[0]) for name in self.known()
        }

    def lags(self) -> list[Lag]:
        """What each desk lacks that lacks anything."""
        rows = self.base.execute(
            f"""SELECT desk, count(*), min(since), sum(queue = {REFUSED}), (SELECT answer FROM owed
            AS last WHERE last.desk = owed.desk AND answer <> '' ORDER BY tried DESC LIMIT 1)
            FROM owed GROUP BY desk ORDER BY desk"""
        )
        return [
            Lag(desk, count, since, refused, said or "")
            for desk, count, since, refused, said in rows
        ]

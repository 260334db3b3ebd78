"""Each person's share of a relay: what is kept for them, and how many of their questions are
answered at a time. What takes a right away is never counted."""

import sqlite3
import threading
from collections import Counter
from collections.abc import Iterator, Mapping
from contextlib import contextmanager
from dataclasses import dataclass, fields
from datetime import timedelta

from steelnewt_client.messages import BadWord
from steelnewt_client.moments import of_stamp, stamp

DAY = timedelta(days=1)
# What somebody asked for and whose window is not over; what they asked and approved since a moment;
# and what they have prepared to sign.
OPEN = """SELECT count(*) FROM (SELECT 1 FROM messages INDEXED BY by_asker
 WHERE kind = 'request' AND by = ? AND body ->> '$.until' >= ? AND state <> 'refused' LIMIT ?)"""
SENT = """SELECT count(*) FROM (SELECT 1 FROM messages INDEXED BY by_author
 WHERE kind IN ('request', 'approve') AND by = ? AND body ->> '$.at' > ? LIMIT ?)"""
PREPARED = "SELECT count(*) FROM prepared WHERE by = ? AND body ->> '$.kind' IN ({})"


@dataclass(frozen=True)
class Share:
    """So many requests of one person may be open at a time, so many may they ask and approve a day,
    and so many days ahead may a window begin."""

    open: int = 200
    day: int = 1_000
    ahead: int = 90

    def check_request(self, base: sqlite3.Connection, by: str, at: str, begins: str) -> None:
        """Raises where somebody may not ask for any more."""
        self.check_ahead(at, begins)
        there = count(base, OPEN, by, at, self.open) + prepared(base, by, "'request'")
        if there >= self.open:
            raise BadWord(
                f"{self.open} requests of yours are not over, and nobody has more at a time: ask"
                " again when one of their windows has ended"
            )
        self.check_sent(base, by, at)

    def check_ahead(self, at: str, begins: str) -> None:
        """Raises where a window begins too far ahead."""
        if of_stamp(begins) > of_stamp(at) + self.ahead * DAY:
            raise BadWord(f"a window begins at most {self.ahead} days ahead")

    def check_sent(self, base: sqlite3.Connection, by: str, at: str) -> None:
        """Raises where somebody asked and approved too often within a day."""
        since = stamp(of_stamp(at) - DAY)
        sent = count(base, SENT, by, since, self.day) + prepared(base, by, "'request', 'approve'")
        if sent >= self.day:
            raise BadWord(
                f"you asked and approved {self.day} times within a day, and nobody does more;"
                " refusing and revoking go on"
            )


def count(base: sqlite3.Connection, question: str, *values: object) -> int:
    found: int = base.execute(question, values).fetchone()[0]
    return found


def prepared(base: sqlite3.Connection, by: str, kinds: str) -> int:
    return count(base, PREPARED.format(kinds), by)


def share_of(table: Mapping[str, object]) -> Share:
    """The settings below [share]."""
    names = [it.name for it in fields(Share)]
    if unknown := table.keys() - set(names):
        raise ValueError(f"[share] has no setting {', '.join(sorted(unknown))}")
    given: dict[str, int] = {}
    for name, value in table.items():
        if not isinstance(value, int) or isinstance(value, bool) or not 1 <= value <= 1_000_000:
            raise ValueError(f"[share] {name} is a number from 1 to 1000000")
        given[name] = value
    return Share(**given)


class Crowded(Exception):
    """Enough of one person's questions are being answered."""

    code = 429  # (RFC 6585, 'Too Many Requests')

    def __init__(self) -> None:
        super().__init__("enough of what you asked is being answered: ask again in a moment")


class Places:
    """Where questions are answered, of which nobody has more than a part."""

    def __init__(self, most: int) -> None:
        self.most, self.lock, self.taken = most, threading.Lock(), Counter[str]()

    @contextmanager
    def place(self, person: str) -> Iterator[None]:
        """A place while a question of this person's is answered."""
        with self.lock:
            if self.taken[person] >= self.most:
                raise Crowded
            self.taken[person] += 1
        try:
            yield
        finally:
            with self.lock:
                self.taken[person] -= 1
                self.taken += Counter()  # (whoever has none is forgotten)

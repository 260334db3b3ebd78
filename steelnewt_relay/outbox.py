"""The outbox: each message is on the disk before the person has an answer.

A database of SQLite. Several programs may have it at a time: an ssh call each, the page, and what
posts. A message is written once, by one transaction that also gives a request its number. On a full
disk it is read without writing, and refusals and revocations have a reserve (reserve.py).
"""

import json
import os
import re
import sqlite3
from collections.abc import Callable, Iterable, Iterator, Mapping, Sequence
from contextlib import closing, contextmanager, suppress
from dataclasses import dataclass, field, replace
from datetime import timedelta
from functools import lru_cache
from typing import TypeVar

from steelnewt_client.messages import BadWord, Request, Verdict, Wish, measured, read
from steelnewt_client.moments import of_stamp, stamp
from steelnewt_client.signed import Signed, reason_digest
from steelnewt_relay import lists, owing, ways
from steelnewt_relay.own import Own
from steelnewt_relay.reasons import NONE, Reason, Reasons
from steelnewt_relay.reserve import NoRoom, Reserve
from steelnewt_relay.shares import Share

SCHEMA = """
CREATE TABLE IF NOT EXISTS messages (
    id INTEGER PRIMARY KEY,
    body TEXT NOT NULL UNIQUE,
    by TEXT NOT NULL,
    kind TEXT NOT NULL,
    of TEXT NOT NULL,
    no INTEGER NOT NULL,
    once TEXT,
    state TEXT NOT NULL DEFAULT 'kept' CHECK (state IN ('kept', 'acked', 'refused')),
    answer TEXT NOT NULL DEFAULT ''
) STRICT;
CREATE UNIQUE INDEX IF NOT EXISTS once_each ON messages (by, once) WHERE once IS NOT NULL;
CREATE UNIQUE INDEX IF NOT EXISTS one_name ON messages (of, no) WHERE kind = 'request';
CREATE INDEX IF NOT EXISTS by_name ON messages (of, no);
CREATE INDEX IF NOT EXISTS by_end ON messages (body ->> '$.until') WHERE kind = 'request';
CREATE INDEX IF NOT EXISTS by_state ON messages (state) WHERE state = 'kept';
CREATE TABLE IF NOT EXISTS numbers (person TEXT PRIMARY KEY, last INTEGER NOT NULL) STRICT;
CREATE TABLE IF NOT EXISTS heard (one INTEGER PRIMARY KEY, file INTEGER NOT NULL) STRICT;
CREATE TABLE IF NOT EXISTS reasons (
    id INTEGER PRIMARY KEY, why TEXT NOT NULL, ticket TEXT NOT NULL
) STRICT;
CREATE TABLE IF NOT EXISTS said (id INTEGER PRIMARY KEY, words TEXT NOT NULL) STRICT;
CREATE TABLE IF NOT EXISTS prepared (
    body TEXT PRIMARY KEY, by TEXT NOT NULL, why TEXT NOT NULL, ticket TEXT NOT NULL
) STRICT;
CREATE TABLE IF NOT EXISTS signatures (
    id INTEGER PRIMARY KEY, signature TEXT NOT NULL, about TEXT NOT NULL, why TEXT NOT NULL
) STRICT;
CREATE TABLE IF NOT EXISTS people (
    person TEXT PRIMARY KEY, zone TEXT NOT NULL DEFAULT '',
    away_from TEXT NOT NULL DEFAULT '', away_until TEXT NOT NULL DEFAULT ''
) STRICT;
CREATE TABLE IF NOT EXISTS templates (
    person TEXT NOT NULL, name TEXT NOT NULL, message INTEGER NOT NULL,
    PRIMARY KEY (person, name)
) STRICT;
"""
SCHEMA += lists.SCHEMA + ways.SCHEMA + owing.SCHEMA
MADE = set(re.findall(r"IF NOT EXISTS (\w+)", SCHEMA))
COLUMNS = (
    "id, body, state, answer, reasons.why, ticket, signature, about, signatures.why, "
    + owing.LACKS
)
JOINED = "messages LEFT JOIN reasons USING (id) LEFT JOIN signatures USING (id)"
# Verdicts on the requests whose names a list of JSON has.
ON_NAMES = """kind <> 'request'
 AND (of, no) IN (SELECT value ->> 0, value ->> 1 FROM json_each(?))"""
# The requests of such names.
NAMED = ON_NAMES.replace("<>", "=")
# What takes a right away, or keeps one from being given.
TAKES_AWAY = ("refuse", "revoke")
# How long somebody may take to sign what was prepared.
PREPARED_FOR = timedelta(hours=1)
# (no person's name is empty)
EVERYBODY = ""
Made = TypeVar("Made")
# Why an approval is not posted.
UNASKED = "the desk refused the request that it approves"


class OutOfNumbers(ValueError):
    """A person has used every number that this relay may give."""


@dataclass(frozen=True)
class Kept:
    """A message that is on the disk, and what the desk answered so far.

    `state` is 'kept' until a desk has it, which is 'acked', or each has refused it. `answer` is the
    desk's refusal; while the message is kept, it is why the post failed. `lacks` has the desks that
    lack what another has, each with what it said.
    """

    id: int
    message: Request | Verdict
    state: str
    answer: str
    is_new: bool = True
    reason: Reason = NONE
    signature: tuple[str, str, str] = ("", "", "")
    # (the bytes that were kept: made anew they could be others, which is another message)
    body: str = field(default="", compare=False)
    lacks: tuple[tuple[str, str], ...] = ()

    @property
    def request(self) -> Request:
        assert isinstance(self.message, Request)
        return self.message

    @property
    def verdict(self) -> Verdict:
        assert isinstance(self.message, Verdict)
        return self.message

    @property
    def takes_away(self) -> bool:
        return isinstance(self.message, Verdict) and self.message.kind in TAKES_AWAY

    @property
    def line(self) -> bytes:
        """What is posted: the message, and its author's signature where there is one."""
        return Signed(self.body, *self.signature).line().encode("utf-8")


@lru_cache(maxsize=16_384)
def kept_of(
    id: int,
    body: str,
    state: str,
    answer: str,
    reason: tuple[str, str],
    signature: tuple[str, str, str],
    lacks: str | None,
) -> Kept:
    """A row of the outbox: one that is as it was is not read again."""
    listed = tuple((desk, said) for desk, said in json.loads(lacks or "[]"))
    return Kept(id, read(body), state, answer, True, Reason(*reason), signature, body, listed)


def is_taking_away(text: str) -> bool:
    """Whether a text, whoever wrote it, is a message that takes a right away."""
    with suppress(ValueError, TypeError, KeyError, AttributeError, RecursionError):
        message = read(text)
        return isinstance(message, Verdict) and message.kind in TAKES_AWAY
    return False


class Outbox:
    def __init__(
        self,
        path: str,
        numbers: tuple[int, int] = (1, 999_999_999),
        signs: bool = True,
        share: Share = Share(),
    ) -> None:
        """(`signs` is false where no door takes signatures: a desk itself takes messages alone)"""
        self.numbers, self.signs, self.share = numbers, signs, share
        self.path, self.reserve, self.is_reading = path, Reserve(path), False
        # (by which key whoever calls came)
        self.way = ""
        self.own, self.lists, self.owed = Own(self), lists.Lists(self), owing.Owed(self)
        self.base = sqlite3.connect(":memory:")  # (until it is open)
        try:
            self.open()
        except sqlite3.OperationalError as fault:
            if not self.reserve.is_full(fault) or not os.path.exists(path):
                raise
            self.open_to_read()

    def open(self) -> None:
        self.make_file()
        self.base = sqlite3.connect(self.path, timeout=20, isolation_level=None)
        self.base.execute("PRAGMA journal_mode = wal")
        self.base.execute("PRAGMA synchronous = full")
        self.is_reading = False
        # (whoever only looks at what is kept waits for nobody who writes)
        if not self.is_made():
            with self.writing():
                self.make_tables()

    def make_file(self) -> None:
        """Makes the file where there is none. One that is there is opened by SQLite alone: whoever
        closes it themselves drops the locks of all who have it open in this process, and then what
        they write goes into a log that others have taken away ('How To Corrupt An SQLite Database
        File', 2.2)."""
        if os.path.exists(self.path):
            if not os.access(self.path, os.R_OK | os.W_OK):
                raise sqlite3.OperationalError(f"{self.path} cannot be read and written")
            return
        try:
            # (SQLite gives its log the rights of the file)
            os.close(os.open(self.path, os.O_CREAT | os.O_RDWR, 0o600))
        except OSError as fault:
            raise sqlite3.OperationalError(str(fault)) from None

    def open_to_read(self) -> None:
        """On a full disk SQLite cannot make the file that those share who have the outbox open.
        Then nobody has: it is copied into memory without that file, under a lock that no other
        has beside it, and is read there."""
        self.base.close()
        self.base = sqlite3.connect(":memory:", isolation_level=None)
        self.is_reading = True
        with closing(sqlite3.connect(self.path, timeout=20, isolation_level=None)) as alone:
            alone.execute("PRAGMA locking_mode = exclusive")
            alone.backup(self.base)
        # (an older relay's outbox has not all of it)
        self.make_tables()

    def make_tables(self) -> None:
        before = self.names_made()
        for statement in SCHEMA.split(";"):
            self.base.execute(statement)
        if "messages" in before and "on_hosts" not in before:
            self.lists.note_all_hosts()

    @property
    def reasons(self) -> Reasons:
        return Reasons(self.base)

    @property
    def ways(self) -> ways.Ways:
        return ways.Ways(self.base)

    def template(self, person: str, name: str) -> Kept | None:
        """The request that a person saved under a name of their own."""
        found = self.find(
            "id = (SELECT message FROM templates WHERE person = ? AND name = ?)", person, name
        )
        return found[0] if found else None

    def is_made(self) -> bool:
        """Whether the file has all that the schema names."""
        return MADE <= self.names_made()

    def names_made(self) -> set[str]:
        rows = self.base.execute("SELECT name FROM sqlite_master")
        return {name for (name,) in rows}

    def close(self) -> None:
        self.base.close()

    @contextmanager
    def writing(self, takes_away: bool = False) -> Iterator[None]:
        """All that is written inside is on the disk at the end, or none of it. While the reserve is
        given up, only what takes a right away is written."""
        if not takes_away and not self.reserve.is_there():
            raise NoRoom
        self.open_again()
        self.base.execute("BEGIN IMMEDIATE")
        try:
            yield
            self.base.execute("COMMIT")
        except BaseException:
            if self.base.in_transaction:
                self.base.execute("ROLLBACK")
            raise

    def open_again(self) -> None:
        """Opens an outbox for writing that was opened to be read."""
        if self.is_reading:
            self.base.close()
            try:
                self.open()
            except sqlite3.OperationalError:
                self.open_to_read()
                raise

    def spending(self, write: Callable[[], Made], takes_away: bool) -> Made:
        """Writes; what takes a right away once more where the disk is full, in the reserve's
        room."""
        try:
            return write()
        except sqlite3.OperationalError as fault:
            if not takes_away or not self.reserve.is_full(fault) or not self.reserve.free():
                raise
        return write()

    def has_room(self) -> bool:
        """Whether anything is kept and posted here. (One that was opened to be read is opened anew:
        it sees nothing of what others wrote since.)"""
        with suppress(sqlite3.OperationalError):
            self.open_again()
        return not self.is_reading and self.reserve.has_room()

    def keep_request(
        self,
        by: str,
        wish: Wish,
        at: str,
        once: str | None = None,
        words: str = "",
        reason: Reason = NONE,
    ) -> Kept:
        """Gives a wish the person's next number and keeps it. The same `once` again is the same
        request, if it comes with the same words."""
        with self.writing():
            if old := self.same(by, once):
                self.check_words(old, wish, words)
                return old
            self.share.check_request(self.base, by, at, wish.begins)
            request = Request(by, self.next_number(by), at, wish)
            kept = self.insert(request, "request", by, request.no, once)
            if once:
                self.base.execute("INSERT INTO said VALUES (?, ?)", (kept.id, words))
            self.reasons.keep(kept.id, reason)
            return replace(kept, reason=reason)

    def check_words(self, old: Kept, wish: Wish, words: str) -> None:
        """Refuses other words under the name of a request that was asked before."""
        row = self.base.execute("SELECT words FROM said WHERE id = ?", (old.id,)).fetchone()
        # (an older relay kept no words)
        is_same = row[0] == words if row else old.request.wish.is_like(wish)
        if not is_same:
            raise BadWord(
                f"this key named another request, {old.request.by} {old.request.no}: each request"
                " has a key of its own"
            )

    def keep_verdict(
        self, verdict: Verdict, once: str | None = None, why: str | None = None
    ) -> Kept:
        """Keeps a verdict and why it is given. The same `once` again is the same verdict. Nobody
        approves what the desk refused: their word would wait there for any other request of that
        name."""
        takes_away = verdict.kind in TAKES_AWAY

        def write() -> Kept:
            with self.writing(takes_away):
                if old := self.same(verdict.by, once):
                    return old
                self.check_verdict(verdict)
                kept = self.insert(verdict, verdict.kind, verdict.of, verdict.no, once)
                self.reasons.keep_verdict(kept.id, why)
                return replace(self.entry(kept.id), is_new=kept.is_new)

        return self.spending(write, takes_away)

    def prepare_request(self, by: str, wish: Wish, at: str, reason: Reason = NONE) -> Request:
        """Gives a wish the person's next number, for its author to sign. It is sent once it comes
        back signed; a number that was prepared is used."""
        with self.writing():
            self.share.check_request(self.base, by, at, wish.begins)
            request = Request(by, self.next_number(by), at, wish)
            self.prepare(request, reason)
            return request

    def prepare_verdict(self, verdict: Verdict, reason: Reason = NONE) -> None:
        """Notes a verdict for its author to sign, with its reason; an approval's is that of its
        request, which the approver was shown."""
        takes_away = verdict.kind in TAKES_AWAY

        def write() -> None:
            with self.writing(takes_away):
                self.check_verdict(verdict)
                self.prepare(verdict, reason)

        self.spending(write, takes_away)

    def prepare(self, message: Request | Verdict, reason: Reason) -> None:
        old = stamp(of_stamp(message.at) - PREPARED_FOR)
        self.base.execute("DELETE FROM prepared WHERE body ->> '$.at' < ?", (old,))
        row = (measured(message.text()), message.by, reason.why, reason.ticket)
        self.base.execute("INSERT OR REPLACE INTO prepared VALUES (?, ?, ?, ?)", row)

    def keep_signed(self, by: str, signed: Signed) -> Kept:
        """Keeps a message that was prepared for this person, with the signature. The same message
        again is the same, with the signature that came first."""
        takes_away = is_taking_away(signed.message)
        return self.spending(lambda: self.try_signed(by, signed, takes_away), takes_away)

    def try_signed(self, by: str, signed: Signed, takes_away: bool) -> Kept:
        with self.writing(takes_away):
            row = self.base.execute(
                "SELECT why, ticket FROM prepared WHERE body = ? AND by = ?", (signed.message, by)
            ).fetchone()
            if row is None:
                raise BadWord("this was not prepared for you here, or too long ago: begin again")
            if signed.why != reason_digest(*row):
                raise BadWord("this was signed with another reason or ticket: begin again")
            message = read(signed.message)
            of = message.by if isinstance(message, Request) else message.of
            kind = "request" if isinstance(message, Request) else message.kind
            kept = self.insert(message, kind, of, message.no, None)
            what = (kept.id, signed.signature, signed.about, signed.why)
            self.base.execute("INSERT OR IGNORE INTO signatures VALUES (?, ?, ?, ?)", what)
            if kind != "approve":  # (an approval is signed over the reason of its request)
                self.reasons.keep(kept.id, Reason(*row))
            return replace(self.entry(kept.id), is_new=kept.is_new)

    def check_verdict(self, verdict: Verdict) -> None:
        """Raises where an approval is of nothing, or one too many. All else is always taken."""
        if verdict.kind != "approve":
            return
        request = self.request(verdict.of, verdict.no)
        if request is not None and request.state == "refused":
            raise BadWord(f"{UNASKED}: there is nothing to approve")
        self.share.check_sent(self.base, verdict.by, verdict.at)

    def insert(
        self, message: Request | Verdict, kind: str, of: str, no: int, once: str | None
    ) -> Kept:
        written = self.base.execute(
            "INSERT INTO messages (body, by, kind, of, no, once) VALUES (?, ?, ?, ?, ?, ?)"
            " ON CONFLICT (body) DO NOTHING",
            (measured(message.text()), message.by, kind, of, no, once),
        )
        self.owed.take_up()
        found = self.find("body = ?", message.text())[0]
        if written.rowcount == 1:
            self.ways.keep(found.id, self.way, f"{message.by}: {kind} {of} {no}")
            if kind == "request":
                self.lists.note_hosts(found.id)
        return replace(found, is_new=written.rowcount == 1)

    def same(self, by: str, once: str | None) -> Kept | None:
        """What was kept for this person and this `once`."""
        found = self.find("by = ? AND once = ?", by, once) if once else []
        return replace(found[0], is_new=False) if found else None

    def next_number(self, person: str) -> int:
        number, last = self.coming(person), self.numbers[1]
        if number > last:
            raise OutOfNumbers(
                f"{person} has used the numbers up to {last}: ask the desk's operator"
            )
        self.base.execute(
            "INSERT INTO numbers VALUES (?, ?)"
            " ON CONFLICT (person) DO UPDATE SET last = excluded.last",
            (person, number),
        )
        return number

    def has_heard(self) -> bool:
        """Whether it knows which numbers are used: it was told (numbers.py), and since then this
        file is not a backup of another. (An older version gave numbers, and noted no file.)"""
        if found := self.base.execute("SELECT file FROM heard").fetchone():
            return bool(found[0] == self.file())
        return self.base.execute("SELECT 1 FROM numbers").fetchone() is not None

    def file(self) -> int:
        """Which file this is: what is brought back is another one of the same name."""
        return os.stat(self.path).st_ino

    def coming(self, person: str) -> int:
        """The number that a person is given next."""
        rows = "SELECT last FROM numbers WHERE person IN (?, ?)"
        used = [row[0] for row in self.base.execute(rows, (person, EVERYBODY))]
        number: int = max([self.numbers[0], *(it + 1 for it in used)])
        return number

    def number_past(self, number: int) -> None:
        """From here on nobody is given a number up to this one: another outbox may have given
        it, or this one before it was lost."""
        self.heard({EVERYBODY: number})

    def heard(self, used: Mapping[str, int]) -> None:
        """From here on no person is given a number up to the one beside the name."""
        with self.writing():
            self.base.executemany(
                "INSERT INTO numbers VALUES (?, ?)"
                " ON CONFLICT (person) DO UPDATE SET last = max(last, excluded.last)",
                [(EVERYBODY, 0), *used.items()],
            )
            self.base.execute("INSERT OR REPLACE INTO heard VALUES (1, ?)", (self.file(),))

    def find(self, where: str, *values: object) -> list[Kept]:
        """Messages in the order in which they were kept. (For the + SQLite sorts what an index of
        `where` finds, in place of looking through all of them in their order.)"""
        rows = self.base.execute(
            f"SELECT {COLUMNS} FROM {JOINED} WHERE {where} ORDER BY +id", values
        )
        return [
            kept_of(*row[:4], (row[4] or "", row[5] or ""), self.signature_of(*row[6:9]), row[9])
            for row in rows
        ]

    def signature_of(self, *parts: str | None) -> tuple[str, str, str]:
        signature, about, why = (it or "" if self.signs else "" for it in parts)
        return signature, about, why

    def unposted(self) -> list[Kept]:
        return self.find("state = 'kept'")

    def entry(self, id: int) -> Kept:
        return self.find("id = ?", id)[0]

    def with_reasons(self) -> Iterator[Kept]:
        """All requests, and the verdicts of which a reason or the key is known; some at a
        time."""
        last = self.base.execute("SELECT ifnull(max(id), 0) FROM messages").fetchone()[0]
        for first in range(0, last, lists.MOST_READ):
            span = "id > ? AND id <= ? AND (kind = 'request' OR reasons.why IS NOT NULL"
            span += " OR EXISTS (SELECT 1 FROM ways WHERE ways.id = messages.id))"
            yield from self.find(span, first, first + lists.MOST_READ)

    def requests(self) -> list[Kept]:
        return self.find("kind = 'request'")

    def requests_of(self, person: str) -> list[Kept]:
        return self.find("kind = 'request' AND by = ?", person)

    def request(self, of: str, no: int) -> Kept | None:
        found = self.find("kind = 'request' AND of = ? AND no = ?", of, no)
        return found[0] if found else None

    def verdicts(self, of: str, no: int) -> list[Kept]:
        return self.find("kind <> 'request' AND of = ? AND no = ?", of, no)

    def verdicts_on(self, names: Iterable[tuple[str, int]]) -> dict[tuple[str, int], list[Kept]]:
        """The verdicts on requests, by their names: those of many cost no more than one query."""
        found: dict[tuple[str, int], list[Kept]] = {name: [] for name in names}
        listed = json.dumps(list(found))
        for kept in self.find(ON_NAMES, listed):
            found[kept.verdict.of, kept.verdict.no].append(kept)
        return found

    def requests_on(self, names: Iterable[tuple[str, int]]) -> dict[tuple[str, int], Kept]:
        """The requests of these names, by one query."""
        found = self.find(NAMED, json.dumps(list(names)))
        return {(it.request.by, it.request.no): it for it in found}

    def names_here(self, names: Iterable[tuple[str, int]]) -> list[tuple[str, int]]:
        """Which of these names have a request here."""
        where = f"SELECT of, no FROM messages WHERE {NAMED}"
        return self.base.execute(where, (json.dumps(list(names)),)).fetchall()

    def answered(self, id: int, state: str, answer: str = "") -> None:
        """Notes what became of a message, at whichever desk. An answer that was final stays."""
        takes_away = self.entry(id).takes_away

        def write() -> None:
            with self.writing(takes_away):
                self.base.execute(
                    "UPDATE messages SET state = ?, answer = ? WHERE id = ? AND state = 'kept'",
                    (state, answer, id),
                )
                if state != "kept":
                    self.base.execute("DELETE FROM owed WHERE message = ?", (id,))

        self.spending(write, takes_away)

    def post_again(self, desks: Sequence[str] = ()) -> int:
        """Has all posted again that was acknowledged, to desks that lost their stores; without a
        name to all of them."""
        return self.owed.again(desks)

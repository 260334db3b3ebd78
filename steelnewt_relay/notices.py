"""Tells people what happened: runs a site's program once for each event, with the event as JSON.

What is urgent has a process of its own, which also looks at what happened: however much else there
is to tell, and however long the program takes for it, an alarm waits for nothing. Else everybody's
doings have their turn, so one person's many hold up nobody's few.

An event is recorded in the outbox's database before the program runs, and marked when it ended
well. So none is lost; one whose program was running when the relay was killed is run again, under
the same id, by which a receiver drops the repeat.
"""

import fcntl
import json
import logging
import os
import re
import secrets
import signal
import sqlite3
import subprocess
import threading
import time
from collections.abc import Callable, Iterator
from contextlib import suppress
from dataclasses import dataclass

from steelnewt_client.desk import Silent
from steelnewt_client.moments import stamp
from steelnewt_relay import elsewhere, untold
from steelnewt_relay.elsewhere import RECENT, Elsewhere
from steelnewt_relay.events import Event, Finder
from steelnewt_relay.outbox import Kept, Outbox
from steelnewt_relay.roster import BadRoster

log = logging.getLogger("desk-relay")
# Seconds: how long a program that failed for an event is not run for it, and when no more.
FIRST_WAIT, LONGEST_WAIT, GIVEN_UP_AFTER = 10, 600, 86400
MOST_AT_ONCE = 20  # events between two looks at what happened
SCHEMA = """
CREATE TABLE IF NOT EXISTS notices (
    id TEXT PRIMARY KEY,
    message INTEGER NOT NULL,
    kind TEXT NOT NULL,
    body TEXT NOT NULL,
    state TEXT NOT NULL CHECK (state IN ('due', 'done', 'given up', 'needless')),
    tries INTEGER NOT NULL DEFAULT 0,
    began REAL NOT NULL,
    next REAL NOT NULL DEFAULT 0,
    urgent INTEGER NOT NULL DEFAULT 0,
    who TEXT NOT NULL DEFAULT '',
    UNIQUE (message, kind)
) STRICT;
CREATE INDEX IF NOT EXISTS open_calls ON notices (body ->> '$.until') WHERE kind = 'asked';
CREATE TABLE IF NOT EXISTS told_from (
    one INTEGER PRIMARY KEY CHECK (one = 1), message INTEGER NOT NULL
) STRICT;
"""
# (behind the columns that an older relay's table lacks)
INDEX = """CREATE INDEX IF NOT EXISTS due_of_each ON notices (urgent, who, next)
 WHERE state = 'due'"""
ADDED = {
    "urgent": "ALTER TABLE notices ADD COLUMN urgent INTEGER NOT NULL DEFAULT 0",
    "who": "ALTER TABLE notices ADD COLUMN who TEXT NOT NULL DEFAULT ''",
}
MADE = set(re.findall(r"IF NOT EXISTS (\w+)", f"{SCHEMA}{untold.SCHEMA}{elsewhere.SCHEMA}{INDEX}"))
# What is due: each person's first, and then each person's next.
DUE = """SELECT id, kind, body, tries, began FROM notices JOIN (SELECT rowid AS row,
 row_number() OVER (PARTITION BY who ORDER BY rowid) AS turn FROM notices INDEXED BY due_of_each
 WHERE state = 'due' AND urgent = ? AND next <= ? ORDER BY turn, row LIMIT ?)
 ON notices.rowid = row ORDER BY turn, row"""


class Busy(OSError):
    """Another process tells already."""


@dataclass(frozen=True)
class Due:
    id: str
    kind: str
    body: str
    tries: int
    began: float


class Notices:
    """The events of an outbox, each once."""

    def __init__(self, outbox: Outbox) -> None:
        self.outbox = outbox
        self.elsewhere = Elsewhere(self)
        # (whoever only looks waits for nobody who writes)
        if not MADE <= outbox.names_made():
            self.make()

    def make(self) -> None:
        with self.outbox.writing():
            for statement in f"{SCHEMA};{untold.SCHEMA};{elsewhere.SCHEMA}".split(";"):
                self.base.execute(statement)
            there = {name for _, name, *_ in self.base.execute("PRAGMA table_info (notices)")}
            for statement in [it for name, it in ADDED.items() if name not in there]:
                self.base.execute(statement)
            self.base.execute(INDEX)
            self.base.execute("DROP INDEX IF EXISTS due_notices")  # (an older relay's)
            # (nobody is told of what was kept before there was anything to tell by)
            self.base.execute(
                "INSERT OR IGNORE INTO told_from SELECT 1, coalesce(max(id), 0) FROM messages"
            )
            self.base.execute(untold.BEGIN)

    @property
    def base(self) -> sqlite3.Connection:
        return self.outbox.base

    def untold(self) -> list[Kept]:
        """Messages that the desk answered, that came since this relay tells, and of which nothing
        is told."""
        if untold.is_new(self.base, time.time()):
            with self.outbox.writing():
                untold.note_new(self.base)
        return self.outbox.find(untold.UNTOLD)

    def past(self, now: str) -> list[Kept]:
        return self.outbox.find(untold.PAST, now)

    def is_new(self, kept: Kept) -> bool:
        """Whether a request came since this relay tells."""
        row = self.base.execute("SELECT message FROM told_from").fetchone()
        return kept.id > int(row[0])

    def has(self, kept: Kept, kind: str) -> bool:
        found = self.base.execute(
            "SELECT 1 FROM notices WHERE message = ? AND kind = ?", (kept.id, kind)
        )
        return found.fetchone() is not None

    def is_noted(self, kept: Kept) -> bool:
        """Whether anything is recorded of a message."""
        found = self.base.execute("SELECT 1 FROM notices WHERE message = ?", (kept.id,))
        return found.fetchone() is not None

    def record(self, events: list[Event]) -> None:
        """Keeps events that are new; all of them, or none. One without data is told to nobody."""
        with self.outbox.writing():
            for event in events:
                id, state = secrets.token_hex(16), "due" if event.data else "needless"
                is_urgent, who = bool(event.data.get("urgent")), event.data.get("by", "")
                self.base.execute(
                    "INSERT INTO notices (id, message, kind, body, state, began, urgent, who)"
                    " VALUES (?, ?, ?, ?, ?, ?, ?, ?) ON CONFLICT DO NOTHING",
                    (id, event.message, event.kind, json.dumps({"id": id} | event.data), state,
                     time.time(), is_urgent, who),
                )  # fmt: skip
                untold.note_told(self.base, event.message, event.kind)

    def due(self, is_urgent: bool) -> list[Due]:
        """What is to be told now: of each person's doings the first, and then of each the next."""
        rows = self.base.execute(DUE, (is_urgent, time.time(), MOST_AT_ONCE))
        return [Due(*row) for row in rows]

    def done(self, due: Due) -> None:
        self.mark(due, "done", 0)

    def failed(self, due: Due) -> str:
        """Puts an event off whose program failed, or gives it up; says which."""
        wait = min(LONGEST_WAIT, FIRST_WAIT * 2**due.tries)
        is_over = time.time() - due.began > GIVEN_UP_AFTER
        self.mark(due, "given up" if is_over else "due", wait)
        return "given up" if is_over else f"tried again in {wait} seconds"

    def mark(self, due: Due, state: str, wait: float) -> None:
        with self.outbox.writing():
            self.base.execute(
                "UPDATE notices SET state = ?, tries = tries + 1, next = ? WHERE id = ?",
                (state, time.time() + wait, due.id),
            )


def find(notices: Notices, finder: Finder) -> Iterator[Event]:
    """What happened and is not recorded yet. `Silent` where the desk does not answer."""
    new, knowledge = notices.untold(), finder.knowledge
    late = finder.late()
    about = [finder.request_of(it) for it in new] + notices.past(stamp(knowledge.now)) + late
    with suppress(Silent):
        knowledge.ask_since(knowledge.now - RECENT)
        knowledge.ask([it for it in about if it])
    for kept in new:
        yield from finder.of_message(kept)
    for kept in late:
        yield finder.of_late(kept)
    for grant in knowledge.live():
        request = knowledge.asked_here(grant)
        is_untold = request and notices.is_new(request) and not notices.has(request, "granted")
        if request and is_untold and not is_under_way(notices, request, new):
            yield finder.of_grant(request)
        if request and finder.is_ending(grant) and not notices.has(request, "ends-soon"):
            yield finder.of_end(grant, request)
    yield from notices.elsewhere.find(finder)


def is_under_way(notices: Notices, request: Kept, new: list[Kept]) -> bool:
    """Whether a verdict on a request was sent that nothing was told of, and is not looked at now:
    what it brought is told with it, as its author's doing."""
    verdicts = notices.outbox.verdicts(request.request.by, request.request.no)
    now_looked_at = {it.id for it in new}
    return any(it.id not in now_looked_at and not notices.is_noted(it) for it in verdicts)


def settle(notices: Notices, finder: Finder) -> None:
    """Records what became of requests whose window is over."""
    for kept in notices.past(stamp(finder.knowledge.now)):
        notices.record([finder.of_past(kept) or Event("void", kept.id, {})])


def look(notices: Notices, make: Callable[[], Finder]) -> str:
    """Records what happened; why not all of it, where that is not known now."""
    found: list[Event] = []
    try:
        finder = make()
        for event in find(notices, finder):
            found.append(event)
        settle(notices, finder)
    except (Silent, BadRoster) as why:
        return str(why)
    finally:
        notices.record(found)
    return ""


def run(program: list[str], body: str, seconds: float) -> str:
    """Runs a program with an event on its standard input, and no shell; why it failed, if it did.
    Whatever it started ends with it."""
    # (a file, and no pipe: the program has the whole event, also where the relay is killed now)
    given = os.memfd_create("event")
    os.write(given, f"{body}\n".encode("ascii"))
    os.lseek(given, 0, os.SEEK_SET)
    environment = {"PATH": "/usr/sbin:/usr/bin:/sbin:/bin", "LANG": "C.UTF-8"}
    try:
        job = subprocess.Popen(
            program,
            stdin=given,
            stdout=subprocess.DEVNULL,
            env=environment,
            cwd="/",
            start_new_session=True,
        )
    except OSError as fault:
        return f"{program[0]} cannot be run: {fault.strerror}"
    finally:
        os.close(given)
    try:
        job.wait(seconds)
        return f"{program[0]} ended with {job.returncode}" if job.returncode else ""
    except subprocess.TimeoutExpired:
        return f"{program[0]} took longer than {seconds:g} seconds"
    finally:
        with suppress(ProcessLookupError):
            os.killpg(job.pid, signal.SIGKILL)
        job.wait()


Program = tuple[list[str], float]


def tell(notices: Notices, program: Program, is_urgent: bool, ended: threading.Event) -> None:
    """Runs the program for each event that is due and urgent, or is not."""
    for due in notices.due(is_urgent):
        if ended.is_set():
            return
        if why := run(program[0], due.body, program[1]):
            log.warning("event %s, %s: %s; %s", due.id, due.kind, why, notices.failed(due))
        else:
            notices.done(due)
            log.info("event %s, %s: told", due.id, due.kind)


def locked(path: str) -> int:
    """A lock that no other process has: two of them would tell everything twice."""
    file = os.open(path, os.O_CREAT | os.O_RDWR | os.O_CLOEXEC, 0o600)
    try:
        fcntl.flock(file, fcntl.LOCK_EX | fcntl.LOCK_NB)
    except BlockingIOError:
        os.close(file)
        raise Busy(f"{path}: another process tells already") from None
    return file


def keep_telling(
    notices: Notices, program: Program, every: float, ended: threading.Event
) -> None:
    """Tells what is not urgent, again and again, until `ended`."""
    while not ended.is_set():
        # (what was told could not be noted on a full disk, and would be told again)
        if notices.outbox.has_room():
            tell(notices, program, False, ended)
        ended.wait(every)


def keep_looking(
    notices: Notices,
    finder: Callable[[], Finder],
    program: Program,
    every: float,
    ended: threading.Event,
) -> None:
    """Looks at what happened and tells what is urgent, again and again, until `ended`."""
    trouble = ""
    while not ended.is_set():
        has_room = notices.outbox.has_room()
        why = look(notices, finder) if has_room else "the disk is full, so nobody is told"
        if why and why != trouble:
            log.warning("what happened is not known: %s", why)
        trouble = why
        if has_room:
            tell(notices, program, True, ended)
        ended.wait(every)

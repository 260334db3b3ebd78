"""What the desk holds in somebody's name that no outbox here has: it is told to that person,
whichever relay brought it, or whoever has a relay's key. Once it is long over, that goes into the
archive."""

from __future__ import annotations

import json
import logging
import sqlite3
from collections.abc import Iterable, Iterator
from datetime import UTC, datetime, timedelta
from typing import TYPE_CHECKING

from steelnewt_client.messages import Request, Verdict
from steelnewt_client.moments import stamp
from steelnewt_client.told import Name, Told
from steelnewt_relay.archive import Archive
from steelnewt_relay.events import Event, Finder
from steelnewt_relay.standing import brought_elsewhere

if TYPE_CHECKING:
    from steelnewt_relay.notices import Notices

# What ended longer ago is not looked at: a revocation ends a window when it comes.
RECENT = timedelta(minutes=15)
# (nobody is told of what other relays had brought before this one told anything)
SCHEMA = "CREATE TABLE IF NOT EXISTS told_elsewhere (one INTEGER PRIMARY KEY) STRICT"
KIND = "elsewhere"
HERE = "SELECT body FROM messages WHERE body IN (SELECT value FROM json_each(?))"
Message = Request | Verdict
# What was told so long ago, of a message that the desk does not tell any more where it is asked for
# what is new. (It would be told again else: a verdict may wait for its request for good.)
OLD = f"""SELECT id, state, body, began FROM notices WHERE message < 0 AND kind = '{KIND}'
 AND state <> 'due' AND began < ? AND message NOT IN (SELECT value FROM json_each(?)) LIMIT 1000"""
EVERY = timedelta(hours=1)
log = logging.getLogger("desk-relay")


class Elsewhere:
    """The messages of other relays, each told once."""

    def __init__(self, notices: Notices) -> None:
        self.notices, self.base = notices, notices.base
        # (what the desk told when all of a name was told: it is not looked at again)
        self.seen: dict[Name, Told] = {}
        self.tidied = datetime.min.replace(tzinfo=UTC)

    def find(self, finder: Finder) -> Iterator[Event]:
        """An event for each message that is new. `Silent` where the desk does not answer."""
        knowledge = finder.knowledge
        knowledge.ask_since(knowledge.now - RECENT)
        parked = knowledge.asked(knowledge.desk.parked)
        told = {name: it for name, it in knowledge.names.items() if it}
        new = [it for name, it in told.items() if self.seen.get(name) is not it]
        found = [it for it in self.unknown([*held(new), *parked]) if not self.is_told(it)]
        if self.is_first():
            self.notices.record([Event(KIND, brought_elsewhere(it).id, {}) for it in found])
            self.begin()
        else:
            yield from (finder.of_elsewhere(brought_elsewhere(it)) for it in found)
        left = {name_of(it) for it in found}
        self.seen = {name: it for name, it in told.items() if name not in left}
        if knowledge.now - self.tidied > EVERY:
            self.tidied = knowledge.now
            before = knowledge.now - timedelta(days=finder.manner.days)
            try:
                self.tidy(before, [*held(told.values()), *parked])
            except (OSError, sqlite3.Error) as fault:
                log.warning("what was told long ago stays where it is: %s", fault)

    def tidy(self, before: datetime, current: list[Message]) -> None:
        """Takes away what was told before a moment, but of what the desk tells still."""
        those = json.dumps([brought_elsewhere(it).id for it in current])
        while rows := self.base.execute(OLD, (before.timestamp(), those)).fetchall():
            Archive(self.notices.outbox).append([
                (stamp(datetime.fromtimestamp(began, UTC)), {KIND: json.loads(body), "state": state})
                for _, state, body, began in rows if state != "needless"
            ])  # fmt: skip
            with self.notices.outbox.writing():
                ids = [(id,) for id, *_ in rows]
                self.base.executemany("DELETE FROM notices WHERE id = ?", ids)

    def unknown(self, messages: list[Message]) -> list[Message]:
        """The messages whose bytes the outbox lacks."""
        texts = {it.text(): it for it in messages}
        for (body,) in self.base.execute(HERE, (json.dumps(list(texts)),)):
            del texts[body]
        return list(texts.values())

    def is_told(self, message: Message) -> bool:
        return self.notices.has(brought_elsewhere(message), KIND)

    def is_first(self) -> bool:
        return self.base.execute("SELECT 1 FROM told_elsewhere").fetchone() is None

    def begin(self) -> None:
        with self.notices.outbox.writing():
            self.base.execute("INSERT INTO told_elsewhere VALUES (1)")


def held(told: Iterable[Told]) -> list[Message]:
    """The messages that the desk holds of some names."""
    found: list[Message] = []
    for it in told:
        found += [*it.requests, *it.weights]
    return found


def name_of(message: Message) -> Name:
    return (message.by if isinstance(message, Request) else message.of), message.no

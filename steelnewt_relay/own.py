"""What each person set for themselves: their zone, days of absence, and names of requests that they
ask again and again. None of it gives or takes a right."""

from __future__ import annotations

import sqlite3
from collections.abc import Container
from datetime import datetime, tzinfo
from typing import TYPE_CHECKING

from steelnewt_client.messages import BadWord
from steelnewt_client.names import is_label
from steelnewt_relay.moments import zone_of

if TYPE_CHECKING:
    from steelnewt_relay.outbox import Outbox

# So many names a person may have.
MOST_NAMES = 50


class Own:
    """The people's own settings, in the database of an outbox."""

    def __init__(self, outbox: Outbox) -> None:
        self.outbox = outbox

    @property
    def base(self) -> sqlite3.Connection:
        return self.outbox.base

    def write(self, statement: str, *words: object) -> None:
        with self.outbox.writing():
            self.base.execute(statement, words)

    def zone(self, person: str, other: tzinfo) -> tzinfo:
        """The zone in which a person reads times; `other` where they chose none."""
        found = self.base.execute("SELECT zone FROM people WHERE person = ?", (person,)).fetchone()
        return zone_of(found[0]) if found and found[0] else other

    def set_zone(self, person: str, zone: str) -> None:
        if zone:
            zone_of(zone)
        self.write(
            "INSERT INTO people (person, zone) VALUES (?, ?)"
            " ON CONFLICT (person) DO UPDATE SET zone = excluded.zone",
            person,
            zone,
        )

    def set_away(self, person: str, first: str, last: str) -> None:
        """The first and the last day of an absence, as yyyymmdd; both empty: there is none."""
        self.write(
            "INSERT INTO people (person, away_from, away_until) VALUES (?, ?, ?) ON CONFLICT"
            " (person) DO UPDATE SET away_from = excluded.away_from,"
            " away_until = excluded.away_until",
            person,
            first,
            last,
        )

    def away(self, person: str) -> tuple[str, str]:
        found = self.base.execute(
            "SELECT away_from, away_until FROM people WHERE person = ?", (person,)
        ).fetchone()
        return (str(found[0]), str(found[1])) if found else ("", "")

    def is_away(self, person: str, at: datetime, other: tzinfo) -> bool:
        """Whether a person is absent on the day that this moment has where they are."""
        first, last = self.away(person)
        day = at.astimezone(self.zone(person, other)).strftime("%Y%m%d")
        return bool(first) and first <= day <= last

    def save(self, person: str, name: str, message: int, ceilings: Container[str]) -> None:
        """Keeps a request under a name of this person's. (`ask` takes a ceiling's name or theirs,
        so nobody has a name of both kinds.)"""
        if not is_label(name):
            raise BadWord(f"{name!r} is no name that can be kept: write it as restart-pg")
        if name in ceilings:
            raise BadWord(f"take another name: {name} is a ceiling's")
        if len({*self.names(person), name}) > MOST_NAMES:
            raise BadWord(f"you have {MOST_NAMES} names: 'save NAME none' ends one")
        self.write("INSERT OR REPLACE INTO templates VALUES (?, ?, ?)", person, name, message)

    def forget(self, person: str, name: str) -> None:
        if name not in self.names(person):
            raise BadWord(f"you have no name {name!r}")
        self.write("DELETE FROM templates WHERE person = ? AND name = ?", person, name)

    def names(self, person: str) -> list[str]:
        rows = self.base.execute(
            "SELECT name FROM templates WHERE person = ? ORDER BY name", (person,)
        )
        return [name for (name,) in rows]

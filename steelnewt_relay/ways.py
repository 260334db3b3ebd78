"""By which key each message came, and from where: what the desk cannot see, beside each message.

After a key is lost, that tells what its thief sent from what its owner did.
"""

from __future__ import annotations

import json
import logging
import logging.handlers
import os
import re
import sqlite3
from collections.abc import Collection, Mapping
from contextlib import suppress
from typing import TYPE_CHECKING, Any

from steelnewt_client.moments import now, stamp

if TYPE_CHECKING:
    from steelnewt_relay.outbox import Kept
    from steelnewt_relay.standing import Standing

SCHEMA = """
CREATE TABLE IF NOT EXISTS ways (
    id INTEGER PRIMARY KEY, way TEXT NOT NULL, at TEXT NOT NULL
) STRICT;
"""
JOURNAL = "/dev/log"
# What a front says of a key behind the person's name, in the header that it sets anew.
TOLD = re.compile(r"[ -~]{1,200}")
ADDRESS = re.compile(r"[0-9A-Fa-f:.%a-z]{1,64}")
log = logging.getLogger("desk-relay")


class Ways:
    """The ways of an outbox's messages. `way` is the one of whoever has it open now; empty where
    nobody calls."""

    def __init__(self, base: sqlite3.Connection) -> None:
        self.base = base

    def keep(self, message: int, way: str, kept: str) -> None:
        """Keeps by which way a message came the first time, and has the log say so."""
        if way:
            row = (message, way, stamp(now()))
            self.base.execute("INSERT OR IGNORE INTO ways VALUES (?, ?, ?)", row)
            log.info("%s: %s", way, kept)

    def of(self, messages: Collection[int]) -> dict[int, dict[str, str]]:
        """The way of each of these that has one, and when it came."""
        rows = self.base.execute(
            "SELECT id, way, at FROM ways WHERE id IN (SELECT value FROM json_each(?))",
            (json.dumps(list(messages)),),
        )
        return {id: {"key": way, "came": at} for id, way, at in rows}


def by_ssh(key: str) -> str:
    """The way of a call by ssh: its key, and from where sshd says that it came."""
    address, *_ = os.environ.get("SSH_CONNECTION", "").split(" ")
    return f"ssh {key}" + (f" from {address}" if ADDRESS.fullmatch(address) else "")


def by_page(told: str) -> str:
    """The way of somebody at the page, as the front tells it."""
    return f"page {told}" if TOLD.fullmatch(told) else "page"


def with_ways(
    told: dict[str, object], standing: Standing, ways: Mapping[int, Mapping[str, str]]
) -> dict[str, object]:
    """A request's data for auditors: by which key it came, and each verdict on it."""
    verdicts: Any = told["verdicts"]
    said = [
        {**it, "came_by": ways.get(of.kept.id)}
        for it, of in zip(verdicts, standing.said, strict=True)
    ]
    return {**told, "came_by": ways.get(standing.kept.id), "verdicts": said}


def messages_of(standings: Collection[Standing]) -> list[int]:
    """The requests and the verdicts on them, by their numbers in the outbox."""
    kept: list[Kept] = [it.kept for it in standings]
    return [it.id for it in (*kept, *(said.kept for one in standings for said in one.said))]


def log_to_journal(place: str = JOURNAL) -> None:
    """Has what is logged go to the journal, and nowhere else: a call's error output is its
    caller's. Where no journal listens, the call goes on without it."""
    log.propagate, logging.raiseExceptions = False, False
    with suppress(OSError):
        handler = logging.handlers.SysLogHandler(place, logging.handlers.SysLogHandler.LOG_AUTH)
        handler.setFormatter(logging.Formatter("desk-relay: %(message)s"))
        log.addHandler(handler)

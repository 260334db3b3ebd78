"""Who was told to act on a request, when, and who heard that nothing is left to do."""

import json
import sqlite3
from collections.abc import Iterable
from datetime import datetime, timedelta
from typing import Any

from steelnewt_client.moments import of_stamp, stamp
from steelnewt_relay.outbox import Outbox
from steelnewt_relay.standing import Standing

CALLS = ("asked", "asked-next")
ENDS = ("granted", "refused", "revoked", "void")
# Requests whose first people were told before a moment, and the next ones not yet.
LATE = """SELECT message FROM notices WHERE kind = 'asked' AND body ->> '$.until' >= ?
 AND body ->> '$.at' <= ? AND NOT EXISTS (SELECT 1 FROM notices AS other
 WHERE other.message = notices.message AND other.kind IN ('asked-next', 'granted', 'void'))"""


class Woken:
    """What the notices of an outbox say of who was told. There may be none yet."""

    def __init__(self, outbox: Outbox) -> None:
        self.outbox = outbox

    @property
    def base(self) -> sqlite3.Connection:
        return self.outbox.base

    def calls(self, message: int) -> list[tuple[str, datetime]]:
        """Who was told to act on a request, and when; the first ones first."""
        found = self.notices([message], CALLS)
        return [(person, of_stamp(str(it["at"]))) for it in found for person in it["to"]]

    def left(self, standing: Standing) -> set[str]:
        """Who was told to act and has not heard that nothing is left to do."""
        about = [standing.kept.id, *(it.kept.id for it in standing.said)]
        heard = {name for it in self.notices(about, ENDS) for name in it["to"]}
        return {name for name, _ in self.calls(standing.kept.id)} - heard

    def late(self, now: datetime, patience: timedelta) -> list[int]:
        """The requests for which the next people have to be told now, by their messages."""
        rows = self.base.execute(LATE, (stamp(now), stamp(now - patience)))
        return [message for (message,) in rows]

    def notices(self, messages: Iterable[int], kinds: tuple[str, ...]) -> list[dict[str, Any]]:
        places = ", ".join("?" * len(kinds))
        try:
            rows = self.base.execute(
                "SELECT body FROM notices WHERE state <> 'needless' AND message IN"
                f" (SELECT value FROM json_each(?)) AND kind IN ({places}) ORDER BY rowid",
                (json.dumps(list(messages)), *kinds),
            ).fetchall()
        except sqlite3.OperationalError:  # (nothing was ever told here: there is no such table)
            return []
        return [json.loads(body) for (body,) in rows]

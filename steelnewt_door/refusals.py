"""The door's own refusals (docs/CODES.md, 'The door'), and how many of them a relay has noted."""

import threading
from dataclasses import dataclass, field

from steelnewt_door.rows import Row

# The status of each.
STATUSES = {
    "P20 NotSigned": 403,
    "A20 BadSignature": 403,
    "A21 NotOfNow": 403,
    "A22 OtherRequest": 403,
    "A23 NoRequest": 403,
    "A24 NameTaken": 403,
    "A25 OtherReason": 403,
    "A26 CopiedKey": 403,
    "A27 NotBySsh": 403,
    "K20 DeskAway": 503,
    "K21 NotYet": 503,
    "K22 NoRequestYet": 503,
    "K23 DoorFails": 503,
    "K24 JournalFull": 503,
    "K25 NoSigners": 503,
    "K26 NotAgreed": 503,
    "K27 DoorLags": 503,
    "M1 TooLong": 413,
    "M2 NotCanonical": 400,
    "M3 BadField": 400,
}
# How many refused messages of a relay have rows of their own in a day, and after how many seconds
# the others are counted in one. (Whoever is at the front's socket names any relay: so many in all.)
MOST_A_DAY, MOST_OF_ALL, EVERY = 2_000, 20_000, 60.0


class Refused(Exception):
    """The door refuses a message; the text is the code with its name."""

    def __init__(self, code: str, why: str = "") -> None:
        super().__init__(code)
        self.code, self.why = code, why


@dataclass
class Share:
    """How much of the journal a relay fills with what is refused: so none fills it for all."""

    most: int = MOST_A_DAY
    most_of_all: int = MOST_OF_ALL
    day: str = ""
    noted: dict[str, int] = field(default_factory=dict)
    others: dict[str, int] = field(default_factory=dict)
    written: float = 0.0
    lock: threading.Lock = field(default_factory=threading.Lock)

    def has_room(self, relay: str, at: str) -> bool:
        """Whether this refusal gets a row of its own."""
        with self.lock:
            if self.day != at[:8]:
                self.day, self.noted = at[:8], {}
            count = self.noted.get(relay, 0)
            if count < self.most and sum(self.noted.values()) < self.most_of_all:
                self.noted[relay] = count + 1
                return True
            # (of names that nobody has heard of there may be any number)
            name = relay if relay in self.noted else "others"
            self.others[name] = self.others.get(name, 0) + 1
            return False

    def more(self, at: str, clock: float) -> list[Row]:
        """The rows with how many others there were, once in a while."""
        with self.lock:
            if not self.others or clock - self.written < EVERY:
                return []
            self.written, found = clock, self.others
            self.others = {}
        return [
            {"row": "more", "at": at, "relay": relay, "count": count}
            for relay, count in sorted(found.items())
        ]

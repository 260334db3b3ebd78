"""The other doors of a site, as far as this one knows them: copies of what they kept, which
`desk-door bring` makes (bringing.py, filling.py).

A door that has them refuses nothing by its own clock or its own signers before it has looked at
what came to the others: a message may have come there in time, and a key may be enrolled there that
is not here yet.
"""

import os
from dataclasses import dataclass

from steelnewt_client.moments import FORM as MOMENT
from steelnewt_client.moments import seconds

FOLDER, LOOKED = "doors", "looked"
MOST_WAIT = 600  # seconds that a message waits for a look at doors that cannot be reached


@dataclass(frozen=True)
class Others:
    """The other doors by their names, and the folder with the copies."""

    folder: str = ""
    names: tuple[str, ...] = ()

    def place(self, name: str) -> str:
        """Where the copy of a door's journal and signers is."""
        return os.path.join(self.folder, name)

    def lag(self, newest: str, first: str, now: str) -> str:
        """Why this door may judge a message otherwise than others do, which came first at a moment;
        empty where it does not. `newest` is the version of the signers here."""
        for name in self.names:
            if (there := self.newest(name)) > newest:
                return f"door {name} has the signers of {there}, and here are those of {newest}"
        if seconds(now) - seconds(first) > MOST_WAIT:
            return ""
        for name in self.names:
            if self.looked(name) < seconds(first) + 1:  # (a moment is a whole second)
                return f"what came to door {name} is not here yet"
        return ""

    def newest(self, name: str) -> str:
        """The newest version of another door's signers; empty where none is known."""
        try:
            found = os.listdir(os.path.join(self.place(name), "signers"))
        except OSError:
            return ""
        return max(filter(MOMENT.fullmatch, found), default="")

    def looked(self, name: str) -> float:
        """When the last look at another door began that came to its end, in seconds."""
        try:
            return os.stat(os.path.join(self.place(name), LOOKED)).st_mtime
        except OSError:
            return 0.0

    def note_look(self, name: str, began: float) -> None:
        path = os.path.join(self.place(name), LOOKED)
        with open(path, "ab"):
            os.utime(path, (began, began))

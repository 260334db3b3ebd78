"""The rosters and the bases of a desk's history, each by its moment, and each just the one that the
line of its moment names."""

import os
from collections.abc import Iterator
from itertools import pairwise

from desk_tools import history
from desk_tools.decisions import Desk
from desk_tools.history import Line
from desk_tools.rights import Base
from desk_tools.served import Failed, digest
from steelnewt_client.moments import seconds, stamp_of


class Kept:
    """A folder of a history, or a copy of it."""

    def __init__(self, folder: str, desk: Desk, room: str) -> None:
        """Bases are put into `room`, where the desk looks at them."""
        self.folder, self.desk, self.room = folder, desk, room
        found = history.lines(folder)
        # (what was carried away is written down once more, as it was)
        again = {it for one, it in pairwise(found) if it.served == one.served}
        self.lines = [it for it in found if it not in again]
        self.known: dict[str, bytes] = {}

    def until(self, first: str, last: str) -> list[Line]:
        """The lines up to a moment, if one of them is of another moment or of one before it."""
        found = [it for it in self.lines if it.moment <= last]
        if not found or found[0].moment > first:
            raise Failed(f"{self.folder}: its moments name nothing of {first} or before")
        return found

    def text(self, kind: str, line: Line) -> bytes:
        """The roster, or the base, of a line: of its own folder, or one that is the same."""
        wanted = getattr(line, kind)
        if wanted not in self.known:
            own = os.path.join(self.folder, line.moment, history.FILES[kind])
            path = own if os.path.exists(own) else history.path_of(self.folder, kind, wanted)
            if path is None:
                raise Failed(f"{own} is not there: bring it back from where it was carried")
            text = history.read(path)
            if self.digest(kind, text, wanted) != wanted:
                raise Failed(f"{path} is not the {kind} that {self.folder}/moments names")
            self.known[wanted] = text
        return self.known[wanted]

    def digest(self, kind: str, text: bytes, name: str) -> str:
        """A text's digest, as the desk names it: that of a base is of its canonical form."""
        if kind == "roster":
            return digest(text)
        path = os.path.join(self.room, f"{name}.sudo")
        with open(path, "wb") as file:
            file.write(text)
        return digest(self.desk.canonical(path).encode())

    def bases(self, last: str) -> list[Base]:
        """The base of a moment, behind all that came before it, as far back as they are there."""
        found = list(self.backwards(self.until(last, last), last))
        return list(reversed(found))

    def backwards(self, lines: list[Line], last: str) -> Iterator[Base]:
        firsts = [lines[0], *(it for one, it in pairwise(lines) if it.base != one.base)]
        end = last
        for place, line in enumerate(reversed(firsts)):
            try:
                self.text("base", line)
            except Failed:
                if place == 0:
                    raise
                return  # (whether a right is older is not known then)
            yield Base(line.moment, end, os.path.join(self.room, f"{line.base}.sudo"))
            end = stamp_of(seconds(line.moment) - 1)

"""Which messages a time is about: all of each request that it touches, from what was said first of
the request to the last moment that was asked for or at which a verdict was given.

What a request comes to depends on its own messages alone, so a part of all messages tells of these
requests what all would.
"""

from collections.abc import Iterable
from typing import Any

from steelnewt_client.moments import seconds, stamp_of

Message = dict[str, Any]
Name = tuple[str, int]
FIRST, LAST = "19700101000000Z", "20991231235959Z"


def wider(first: str, last: str, margin: int) -> tuple[str, str]:
    """A time, and so many seconds before and after it, as far as there are moments."""
    begin = max(seconds(first) - margin, seconds(FIRST))
    return stamp_of(begin), stamp_of(min(seconds(last) + margin, seconds(LAST)))


class Touched:
    """The lines of messages by their requests, and the time of each request."""

    def __init__(self) -> None:
        self.lines: dict[Name, list[int]] = {}
        self.times: dict[Name, tuple[str, str]] = {}
        # lines that are no messages, which belong to each time
        self.faulty: list[int] = []

    def add(self, line: int, it: Message) -> None:
        """A line, which is an empty message where it is none."""
        if not it:
            self.faulty.append(line)
            return
        name = it.get("of", it["by"]), it["no"]
        first, last = self.times.get(name, (it["at"], it["at"]))
        self.times[name] = min(first, it["at"]), max(last, it["at"], it.get("until", ""))
        self.lines.setdefault(name, []).append(line)

    def names(self, first: str, last: str) -> set[Name]:
        """The requests that a time touches."""
        return {it for it, (begin, end) in self.times.items() if begin <= last and first <= end}

    def among(self, names: Iterable[Name]) -> list[int]:
        """The lines of some requests, in order."""
        return sorted([*self.faulty, *(line for it in names for line in self.lines[it])])

    def only(self, names: set[Name]) -> None:
        """Forgets all other requests."""
        self.times = {it: time for it, time in self.times.items() if it in names}

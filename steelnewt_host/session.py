"""A session: what a user runs by sudo, and why it cannot be judged."""

from __future__ import annotations

from collections.abc import Sequence
from typing import NamedTuple, Optional

from steelnewt_host.processes import Process


class Session(NamedTuple):
    """What a user runs by sudo. Its record of sudo's, and the words in which sudo is asked, are
    read when they are needed, since a user may make them long."""

    name: tuple[int, int]  # the number and the start of its sudo
    user: str
    said: str  # the command, as people are told
    process: Optional[Process]  # its sudo, where that has not ended
    record: str = ""  # where sudo wrote it down; empty where sudo did not
    group: str = ""  # the folder of its control group; empty where it has none
    unclear: str = ""
    is_lost: bool = False  # whether sudo had to write it down, and nothing is there

    def __str__(self) -> str:
        return f"{self.user}'s {self.said} (process {self.name[0]})"


def told_words(words: Sequence[str], target: str) -> str:
    return f"`{' '.join(words)[:200]}` as {target or 'root'}"

"""What a desk was served with, and since when: the folder that packaging/desk-history writes.

It belongs to the desk's account, which alone writes there, so root follows no link in it.
"""

from __future__ import annotations

import os
import re
from typing import NamedTuple

from desk_tools import served
from desk_tools.served import Failed, Settings
from steelnewt_client.places import place

CUT = r"cut [0-9]{14}Z [0-9]{1,18}"
LINE = re.compile(rf"([0-9]{{14}}Z) (?:({CUT}) )?([0-9a-f]{{64}}) ([0-9a-f]{{64}})")
FILES = {"roster": "roster.toml", "base": "base.sudo"}
CHANGE = "change"


class Line(NamedTuple):
    """A moment, and the digests of the roster and of the base since then; and where the store was
    cut before, up to which moment, and how many messages were taken out of it so far."""

    moment: str
    roster: str
    base: str
    cut: str = ""

    @property
    def served(self) -> tuple[str, str]:
        return self.roster, self.base


def read(path: str) -> bytes:
    with open(os.open(path, os.O_RDONLY | os.O_NOFOLLOW | os.O_NONBLOCK), "rb") as file:
        return file.read()


def lines(folder: str) -> list[Line]:
    """Each moment of a history, in their order."""
    try:
        text = read(os.path.join(folder, "moments")).decode("ascii", "replace")
    except FileNotFoundError:
        return []
    found = [LINE.fullmatch(it) for it in text.splitlines()]
    if None in found:
        raise Failed(f"{folder}/moments: a line is no moment with two digests")
    return [Line(it[1], it[3], it[4], it[2] or "") for it in found if it]


def path_of(folder: str, kind: str, wanted: str) -> str | None:
    """The newest roster or base with this digest that has its folder still."""
    for line in reversed(lines(folder)):
        path = os.path.join(folder, line.moment, FILES[kind])
        if getattr(line, kind) == wanted and os.path.exists(path):
            return path
    return None


def said(folder: str, moment: str) -> list[tuple[str, str]]:
    """What was said of the change of a moment, where it is kept: a word, as `why`, and a text."""
    try:
        told = read(os.path.join(folder, moment, CHANGE)).decode("utf-8", "replace")
    except FileNotFoundError:
        return []
    parts = [line.partition(" ") for line in told.splitlines()]
    return [(word, text) for word, _, text in parts]


class History:
    """The history of the desk with these settings."""

    def __init__(self, settings: Settings, desk: str) -> None:
        self.store, self.desk = settings.store, desk
        self.folder = os.path.join(os.path.dirname(settings.store), "history")
        self.program = place("packaging/desk-history", "libexec/steelnewt/desk-history")

    def last(self) -> Line | None:
        found = lines(self.folder)
        return found[-1] if found else None

    def path_of(self, kind: str, wanted: str) -> str | None:
        return path_of(self.folder, kind, wanted)

    def reason(self, moment: str) -> str:
        """Why it was changed then."""
        return "".join(text for word, text in said(self.folder, moment) if word == "why")

    def write(self, roster: str, base: str, words: list[str], cut: str | None = None) -> Line:
        """Has it written, as the desk's account, that these are served from now on, over a store
        that was cut so; without that as the last line says."""
        run = [self.program, self.folder, roster, base, *words]
        more = {} if cut is None else {"CUT": cut}
        told = served.run(run, owner=self.store, DESK=self.desk, **more)
        for warning in told.splitlines()[:-1]:
            print(warning)
        found = self.last()
        if found is None:
            raise Failed(f"{self.folder} has no moment")
        return found

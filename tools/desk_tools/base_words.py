"""What another base opens up and what it closes, by `desk beyond` both ways, and its lines."""

from __future__ import annotations

import difflib
import os
import subprocess

from desk_tools import change
from desk_tools.change import Desk

NONE, SOME = 0, 1
MARKS = {"+ ": "new in the base", "- ": "gone from the base"}


def beyond(program: str, wide: str, narrow: str, none: str, some: str) -> str:
    """In words, a case that the one base allows and the other refuses; that there is none; or that
    nobody knows, for there are too many."""
    words = [program, "beyond", wide, narrow]
    ran = subprocess.run(words, capture_output=True, text=True, check=False)
    if ran.returncode == NONE:
        return none
    if ran.returncode == SOME:
        return f"{some}: {case(ran.stdout.strip())}"
    said = "; ".join(filter(None, ran.stderr.split("\n")))
    return f"It is not known whether this is so ({said}): {none}"


def case(text: str) -> str:
    """Who may run what, where, as whom and when."""
    words = text.split(" ", 4)
    if len(words) != 5:
        return text
    who, host, target, at, command = words
    return f"{who} on {host} as {target} at {at}, {command}"


def cases(program: str, old: str, new: str) -> list[str]:
    """What another base changes, and for whom: a case of more and a case of less."""
    allows = "The new base allows nothing more.", "The new base allows more, for one"
    keeps = "It allows all that the old one does.", "It allows no longer, for one"
    return [beyond(program, new, old, *allows), beyond(program, old, new, *keeps)]


def lines(old: str, new: str) -> list[str]:
    """The lines of two canonical texts that stand in one of them alone."""
    told = difflib.ndiff(old.splitlines(), new.splitlines())
    return [f"{MARKS[it[:2]]}: {it[2:]}" for it in told if it[:2] in MARKS]


def text(desk: Desk, new: bytes) -> str:
    """The same of the base that a desk is served with."""
    with change.scratch() as room:
        path = os.path.join(room, "base.sudo")
        with open(path, "wb") as file:
            file.write(new)
        desk.digest("base", path)  # (a base that is none ends it)
        old = change.served_file(desk, "base", desk.counted().base)
        return "\n".join(cases(desk.desk, old, path))

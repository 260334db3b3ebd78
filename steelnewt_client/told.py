"""What the desk tells of a request's name, in the desk's own words (docs/AUDITING.md)."""

import json
from collections.abc import Mapping
from dataclasses import dataclass
from datetime import datetime
from functools import lru_cache
from typing import Any

from steelnewt_client.messages import Request, Verdict, request_of, verdict_of
from steelnewt_client.moments import of_stamp

# What the desk's document of names begins with, and what stands between two names and behind the
# last one.
FIRST, BETWEEN, BEHIND = '{"names":[{"by":', '},{"by":', '],"windows":['
# What stands before the moment for which it is told who may approve. (No message has it: a quote
# inside of one is escaped.)
MAY_AT = '"may_approve":{"at":"'
# Who asked, and the request's number.
Name = tuple[str, int]


@dataclass(frozen=True)
class Grant:
    """A grant, as the desk tells it."""

    who: str
    no: int
    ceiling: str
    begins: datetime
    ends: datetime


@dataclass(frozen=True)
class Told:
    """A name. `weights` has each verdict that the desk holds, and why it does not count: empty
    where it does. `may_approve` is told where it was asked for a moment."""

    status: str
    grant: Grant | None
    weights: Mapping[Verdict, str]
    requests: tuple[Request, ...] = ()
    denial: str = ""
    lacks: int = 0
    may_approve: tuple[str, ...] | None = None


def read_names(text: str, at: str = "") -> dict[Name, Told]:
    """The names of the desk's document, which tells who may approve at a moment (`at`).
    `ValueError` where it is none."""
    # (without the moment a name that did not change has the same text each time)
    text = text.replace(f'{MAY_AT}{at}"', f'{MAY_AT}"') if at else text
    try:
        return dict(entries(text))
    except (KeyError, TypeError, AttributeError, RecursionError) as fault:
        raise ValueError(f"no document of names: {fault!r}") from None


def entries(text: str) -> list[tuple[Name, Told]]:
    """Each name of the document, and what the desk tells about the name. The text is split between
    names, so that unchanged names come from the cache. If every piece and the rest are JSON, the
    whole document is, with the same meaning."""
    names, is_cut, windows = text.rpartition(BEHIND)
    if is_cut and names.startswith(FIRST) and names.endswith("}"):
        pieces = names[len(FIRST) : -1].split(BETWEEN)
        try:
            if json.loads(f'{{"windows":[{windows}').keys() == {"windows"}:
                return [read_entry(f'{{"by":{it}}}') for it in pieces]
        except ValueError:
            pass  # (what is wrong, the whole text tells)
    return [entry_of(it) for it in json.loads(text)["names"]]


@lru_cache(maxsize=8_192)
def read_entry(text: str) -> tuple[Name, Told]:
    """A name, from its piece of a document."""
    return entry_of(json.loads(text))


def entry_of(entry: dict[str, Any]) -> tuple[Name, Told]:
    return (entry["by"], entry["no"]), told_of(entry)


def told_of(entry: dict[str, Any]) -> Told:
    verdicts, status, requests = entry["verdicts"], entry["status"], entry["requests"]
    lists = isinstance(verdicts, list) and isinstance(requests, list)
    if not lists or not isinstance(status, str):
        raise TypeError("an entry has a status, requests and verdicts")
    asked = tuple(request_of(it) for it in requests)
    weights = {
        verdict_of(it["verdict"]): "" if it["counts"] else str(it["why"]) for it in verdicts
    }
    may = entry.get("may_approve", {"at": "another"})
    return Told(
        status,
        grant_of(entry, asked),
        weights,
        asked,
        str(entry.get("denial", "")),
        int(entry.get("lacks", 0)),
        None if may["at"] else tuple(may["people"]),
    )


def grant_of(entry: dict[str, Any], requests: tuple[Request, ...]) -> Grant | None:
    """The grant of a name, where it has a window."""
    window = entry.get("window")
    if window is None:
        return None
    who, no = entry["by"], entry["no"]
    if not isinstance(window, dict) or len(requests) != 1:
        raise TypeError("a grant has a window and a request")
    if not isinstance(who, str) or not isinstance(no, int):
        raise TypeError("a name is a person's and has a number")
    first, last = of_stamp(window["from"]), of_stamp(window["until"])
    return Grant(who, no, requests[0].wish.ceiling, first, last)

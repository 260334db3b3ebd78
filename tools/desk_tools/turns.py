"""Whether the events of a calendar surely say who is on call when.

What expands them, Debian 12's recurring_ical_events, gives an end to an event that has none, and
knows nothing of a rule that icalendar could not read or of some ways to take a day away. So each
event is looked at before.
"""

from __future__ import annotations

import re
from collections.abc import Iterator
from datetime import date, datetime
from typing import Any

TIME = r"[0-9]{8}(?:T[0-9]{6}Z?)?"
# what icalendar reads otherwise, or reads a part of, without a word
FORMS = {
    "DTSTART": TIME,
    "DTEND": TIME,
    "RECURRENCE-ID": TIME,
    "EXDATE": f"{TIME}(?:,{TIME})*",
    "RDATE": f"{TIME}(?:,{TIME})*",
    "RRULE": r"[A-Z]+=[^;=]+(?:;[A-Z]+=[^;=]+)*;?",
}
# (each minute would take minutes to expand, and each 0 weeks would never end)
PARTS = {
    "FREQ": "HOURLY|DAILY|WEEKLY|MONTHLY|YEARLY",
    "UNTIL": TIME,
    "COUNT": "[1-9][0-9]*",
    "INTERVAL": "[1-9][0-9]*",
}
ONCE = ("DTSTART", "DTEND", "DURATION", "RECURRENCE-ID", "STATUS", "UID")
REPEATS = ("RRULE", "RDATE", "EXDATE")


def unread(lines: list[Any]) -> str | None:
    """Why a line of a calendar would not be read as it stands; None where all are."""
    for line in (it for it in lines if it):
        name, value = str(line.parts()[0]).upper(), str(line.parts()[2])
        if not re.fullmatch(FORMS.get(name, ".*"), value, re.IGNORECASE | re.DOTALL):
            return f"{name}:{value} has not its form"
        if name == "RRULE" and not is_rule(value.upper()):
            return f"{name}:{value} is a rule that is not read"
    return None


def is_rule(value: str) -> bool:
    parts = [it.split("=") for it in value.removesuffix(";").split(";")]
    keys = [it[0] for it in parts]
    are_read = all(re.fullmatch(PARTS.get(key, ".*"), it) for key, it in parts)
    return are_read and "FREQ" in keys and len(keys) == len(set(keys))


def unsure(events: list[Any]) -> str | None:
    """Why it is not sure when an event is; None where all are."""
    for event in events:
        why = next(faults(event), None)
        if why is not None:
            return f"the event {title(event)} {why}"
    firsts = {str(it["UID"]): it for it in events if "UID" in it and "RECURRENCE-ID" not in it}
    for event in events:
        first = firsts.get(str(event.get("UID")))
        if "RECURRENCE-ID" in event and first is not None and not is_matched(event, first):
            return f"the event {title(event)} has a RECURRENCE-ID in another zone than its series"
    return twice(events)


def title(event: Any) -> str:
    return repr(str(event.get("SUMMARY", "")))


def faults(event: Any) -> Iterator[str]:
    """What makes an event unsure, the first one first: what follows it may need it."""
    for name, said in event.errors:
        yield f"has {name or 'a line'} that is not read: {said}"
    for name in ONCE:
        if isinstance(event.get(name), list):
            yield f"has more than one {name}"
    if "DTSTART" not in event:
        yield "has no start"
    if "DTEND" not in event and "DURATION" not in event:
        yield "has no end"
    if "DTEND" in event and "DURATION" in event:
        yield "has two ends"
    yield from of_times(event)
    if "EXRULE" in event:
        yield "has an EXRULE, which is not read"
    if "RECURRENCE-ID" in event:
        yield from of_one_turn(event)


def of_times(event: Any) -> Iterator[str]:
    start = event["DTSTART"].dt
    end = event["DTEND"].dt if "DTEND" in event else start + event["DURATION"].dt
    if kind(start) == FLOATING or kind(end) == FLOATING:
        yield "has a time that has no zone"
    if kind(end) != kind(start):
        yield f"begins with {kind(start)}, and ends with {kind(end)}"
    if end <= start:
        yield "has an end that is not after its start"
    for name in ("EXDATE", "RDATE"):
        odd = [it for it in dates(event, name) if kind(it) != kind(start)]
        if odd:
            yield f"begins with {kind(start)}, and its {name} is {kind(odd[0])}"


def of_one_turn(event: Any) -> Iterator[str]:
    """What makes an event unsure that stands in place of one turn of a series."""
    if "RANGE" in event["RECURRENCE-ID"].params:
        yield "has a RECURRENCE-ID with a RANGE, which is not read"
    if kind(event["RECURRENCE-ID"].dt) == FLOATING:
        yield "has a RECURRENCE-ID that has no zone"
    for name in REPEATS:
        if name in event:
            yield f"has a RECURRENCE-ID, and also {name}"


FLOATING = "a time without a zone"


def kind(it: date) -> str:
    if not isinstance(it, datetime):
        return "a day"
    return FLOATING if it.tzinfo is None else "a time"


def dates(event: Any, name: str) -> list[date]:
    found = event.get(name, [])
    each = found if isinstance(found, list) else [found]
    return [it.dt for several in each for it in several.dts]


def is_matched(event: Any, first: Any) -> bool:
    """Whether a turn is found in its series: that is looked for by its day, as each writes it."""
    turn, start = event["RECURRENCE-ID"].dt, first["DTSTART"].dt
    if not isinstance(turn, datetime):
        return True
    return isinstance(start, datetime) and turn.astimezone(start.tzinfo).date() == turn.date()


def twice(events: list[Any]) -> str | None:
    """Two events of one name and a number each: only one of them would be taken."""
    seen = set()
    for event in (it for it in events if "UID" in it and "SEQUENCE" in it):
        turn = event["RECURRENCE-ID"].to_ical() if "RECURRENCE-ID" in event else b""
        name = str(event["UID"]), turn
        if name in seen:
            return f"two events have the UID {name[0]}"
        seen.add(name)
    return None

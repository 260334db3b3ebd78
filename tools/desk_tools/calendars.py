"""Who is on call on which days, by the events of an iCalendar file (RFC 5545).

What is not surely so changes nothing: such a calendar is refused. What surely gives nobody a duty,
as a turn that was declined, is passed over, and said.
"""

from __future__ import annotations

from collections.abc import Callable, Iterator
from datetime import date, datetime, timedelta, timezone
from typing import Any, NamedTuple

from desk_tools import turns
from desk_tools.directory import Unsure
from desk_tools.roster_text import Days, merged

# what the two libraries raise at a calendar that is none, or that they do not know
UNREAD = (
    OSError,
    ValueError,
    LookupError,
    TypeError,
    AttributeError,
    ArithmeticError,
    AssertionError,
    RecursionError,
)
# what another METHOD sends is a message about events, as one that takes them back (RFC 5546)
PUBLISHED = ("", "PUBLISH")
# What an event and its attendee may say, each with its default, and whether that is a turn. What is
# not here may be one or not.
STATUS = {"": True, "CONFIRMED": True, "TENTATIVE": False, "CANCELLED": False}
ATTENDANCE = {
    "PARTSTAT": {
        "": True,
        "NEEDS-ACTION": True,
        "ACCEPTED": True,
        "DECLINED": False,
        "TENTATIVE": False,
        "DELEGATED": False,
    },
    "ROLE": {"": True, "CHAIR": True, "REQ-PARTICIPANT": True, "NON-PARTICIPANT": False},
    "CUTYPE": {"": True, "INDIVIDUAL": True},
}


class Named(NamedTuple):
    """What names the person of an event: its summary, or its attendee's address. A name of the
    domain is the part before the @; another address counts whole, and needs another name."""

    by: str = "summary"
    domain: str = ""

    def of(self, event: Any) -> str:
        if self.by == "summary":
            return str(event.get("SUMMARY", "")).strip()
        text = str(attendee_of(event))
        scheme, _, address = text.partition(":")
        name, at, domain = address.rpartition("@")
        if scheme.lower() != "mailto" or not at:
            return text
        return name if domain.lower() == self.domain.lower() else address


def as_days(it: date) -> str:
    return it.strftime("%Y%m%d")


def on_call(
    path: str, named: Named, today: str, weeks: int, remark: Callable[[str], None]
) -> dict[str, list[Days]]:
    """Who is on call on which days from today on, by the names that the calendar has."""
    first = datetime.strptime(today, "%Y%m%d").replace(tzinfo=timezone.utc)
    found: dict[str, list[Days]] = {}
    try:
        for event in events_of(path, first, first + timedelta(weeks=weeks)):
            why = why_no_turn(event, named.by)
            if why is None:
                found.setdefault(named.of(event), []).append(days_of(event))
            else:
                remark(f"{path}: the event {turns.title(event)} gives no duty: {why}")
    except UNREAD as fault:
        said = str(fault) or f"it is no calendar that is read ({type(fault).__name__})"
        raise Unsure(f"{path}: {said}") from None
    except Unsure as fault:
        raise Unsure(f"{path}: {fault}") from None
    return {name: merged(spans) for name, spans in found.items()}


def events_of(path: str, first: datetime, until: datetime) -> Iterator[Any]:
    """The events of a published calendar between two moments, each turn of a series by itself."""
    try:
        import icalendar  # type: ignore[import]
        import recurring_ical_events  # type: ignore[import]
    except ImportError:
        said = "python3-icalendar and python3-recurring-ical-events"
        raise Unsure(f"it needs Debian's packages {said}") from None
    with open(path, "rb") as file:
        data = file.read()
    calendar = icalendar.Calendar.from_ical(data)
    method = str(calendar.get("METHOD", ""))
    if method.upper() not in PUBLISHED:
        raise Unsure(f"its METHOD is {method}: it is a message about events, and no calendar")
    why = turns.unsure(calendar.walk("VEVENT"))
    why = why or turns.unread(icalendar.parser.Contentlines.from_ical(data))
    if why is not None:
        raise Unsure(why)
    yield from recurring_ical_events.of(calendar).between(first, until)


def attendee_of(event: Any) -> Any:
    found = event.get("ATTENDEE")
    if found is None or isinstance(found, list):
        raise Unsure(f"the event {turns.title(event)} has not one attendee")
    return found


def why_no_turn(event: Any, by: str) -> str | None:
    """What an event says by which nobody is on call; None where somebody is."""
    for name, value, known in said_of(event, by):
        is_turn = known.get(value.upper())
        if is_turn is None:
            raise Unsure(f"the event {turns.title(event)} has the {name} {value}")
        if not is_turn:
            return f"its {name} is {value}"
    return None


def said_of(event: Any, by: str) -> Iterator[tuple[str, str, dict[str, bool]]]:
    yield "STATUS", str(event.get("STATUS", "")), STATUS
    if by == "attendee":
        attendee = attendee_of(event)
        for name, known in ATTENDANCE.items():
            yield name, str(attendee.params.get(name, "")), known


def days_of(event: Any) -> Days:
    """The days of an event in UTC: each on which it is at least a moment."""
    ends = [event["DTSTART"].dt, event["DTEND"].dt]
    days = []
    for it, less in zip(ends, (timedelta(0), timedelta(seconds=1)), strict=True):
        if not isinstance(it, datetime):
            it = datetime(it.year, it.month, it.day, tzinfo=timezone.utc)
        if it.tzinfo is None:
            raise Unsure(f"a time of {turns.title(event)} has no zone")
        days.append(as_days((it - less).astimezone(timezone.utc).date()))
    return Days(*days)

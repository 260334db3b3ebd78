"""Times as people say them."""

import re
from datetime import UTC, datetime, timedelta, tzinfo
from zoneinfo import ZoneInfo

from steelnewt_client.moments import BadMoment, of_stamp

# A time that cannot be read, or that does not mean one moment: people are told of both alike.
BadTime = BadMoment
UNITS = {"d": 86400, "h": 3600, "m": 60, "s": 1}
LONGEST = 130 * 366 * 86400  # seconds
TIME_HELP = (
    "a time is 'now', '17:00', 'tomorrow 09:00', '2026-01-05 09:00', '+2h', or UTC as "
    "'20260105090000Z'"
)


def zone_of(name: str) -> tzinfo:
    """A time zone by its name, such as Europe/Berlin."""
    try:
        return ZoneInfo(name)
    except (OSError, ValueError, KeyError):
        raise BadTime(f"{name!r} is no time zone: write one such as Europe/Berlin or UTC") from None


def length_of(text: str) -> timedelta:
    """How long, such as 2h, 90m, 1h30m or 1d."""
    if not re.fullmatch(r"([0-9]{1,6}[dhms])+", text):
        raise BadTime(f"{text!r} is no length of time: write it as 2h, 90m, 1h30m or 1d")
    parts = re.findall(r"([0-9]+)([dhms])", text)
    found = sum(int(count) * UNITS[unit] for count, unit in parts)
    if not found:
        raise BadTime("a window of no length gives nothing: write it as 2h, 90m, 1h30m or 1d")
    if found > LONGEST:
        raise BadTime(f"{text!r} is too long: the desk knows the years 1970 to 2099")
    return timedelta(seconds=found)


def as_asked(length: timedelta) -> timedelta:
    """A length as it was asked for: over five minutes it is rounded up to whole minutes, for its
    odd seconds went by while the asker read the confirmation."""
    left = int(length.total_seconds())
    return timedelta(seconds=left + (-left % 60 if left > 300 else 0))


def in_units(length: timedelta) -> str:
    """A length of time as a person writes it, such as 1h30m, rounded as it was asked for."""
    left, words = int(as_asked(length).total_seconds()), ""
    for unit, size in UNITS.items():
        count, left = divmod(left, size)
        words += f"{count}{unit}" if count else ""
    return words


def moment_of(text: str, zone: tzinfo, today: datetime) -> datetime:
    """The moment that a person means by a text, in UTC; `today` is the moment of asking."""
    text = " ".join(text.split())
    if text == "now":
        return today
    if text.startswith(("+", "in ")):
        return today + length_of(text.removeprefix("+").removeprefix("in "))
    if re.fullmatch(r"[0-9]{14}Z", text):
        return of_stamp(text)
    found = re.fullmatch(r"(?:(\S+)[ T@])?([0-9]{1,2}:[0-9]{2}(?::[0-9]{2})?)(Z?)", text)
    if not found:
        raise BadTime(f"{text!r} is no time: {TIME_HELP}")
    if found[3]:
        zone = UTC
    day = day_of(found[1], today.astimezone(zone))
    clock = clock_of(found[2])
    meant = one_moment(day.replace(hour=clock[0], minute=clock[1], second=clock[2]), zone)
    if found[1] is None and meant < today:
        raise BadTime(f"{found[2]} has passed today: write 'tomorrow {found[2]}' if you mean that")
    return meant


def day_of(word: str | None, today: datetime) -> datetime:
    """A day's first moment, without a zone."""
    start = datetime(today.year, today.month, today.day)
    if word in (None, "today"):
        return start
    if word == "tomorrow":
        return start + timedelta(days=1)
    try:
        found = datetime.strptime(str(word), "%Y-%m-%d")
        if not 1970 <= found.year <= 2099:
            raise BadTime("the desk knows the years 1970 to 2099")
        return found
    except BadTime:
        raise
    except ValueError:
        raise BadTime(f"{word!r} is no day: write today, tomorrow, or one as 2026-01-05") from None


def clock_of(text: str) -> tuple[int, int, int]:
    hour, minute, second = ([int(part) for part in text.split(":")] + [0])[:3]
    if hour > 23 or minute > 59 or second > 59:
        raise BadTime(f"{text!r} is no time of a day")
    return hour, minute, second


def one_moment(local: datetime, zone: tzinfo) -> datetime:
    """The moment of a local time, which has to be there exactly once: clocks are put forward and
    back."""
    first, second = (local.replace(tzinfo=zone, fold=fold) for fold in (0, 1))
    if first.utcoffset() != second.utcoffset():
        is_there = first.astimezone(UTC).astimezone(zone).replace(tzinfo=None) == local
        why = "is there twice" if is_there else "is not there"
        raise BadTime(f"{local:%Y-%m-%d %H:%M} {why}, as clocks change then: write it in UTC")
    return first.astimezone(UTC)


def shown(at: datetime, zone: tzinfo) -> str:
    """A moment in UTC and in local time."""
    utc, local = at.astimezone(UTC), at.astimezone(zone)
    text = f"{utc:%a %Y-%m-%d %H:%M:%S} UTC"
    if local.utcoffset() == utc.utcoffset():
        return text
    day = "" if local.date() == utc.date() else f"{local:%a %Y-%m-%d} "
    return f"{text} ({day}{local:%H:%M:%S} {local.tzname()})"


def spoken(length: timedelta) -> str:
    """A length of time in words, such as 2 hours 30 minutes."""
    left, words = int(length.total_seconds()), []
    for name, size in (("day", 86400), ("hour", 3600), ("minute", 60), ("second", 1)):
        count, left = divmod(left, size)
        if count:
            words.append(f"{count} {name}{'' if count == 1 else 's'}")
    return " ".join(words) or "no time"


def clock(at: datetime, zone: tzinfo, today: datetime) -> str:
    """A moment in short, with its zone; with its day where that is another than today's."""
    local = at.astimezone(zone)
    days = abs((local.date() - today.astimezone(zone).date()).days)
    day = "" if not days else f"{local:%a} " if days < 7 else f"{local:%Y-%m-%d} "
    return f"{day}{local:%H:%M} {local.tzname()}"

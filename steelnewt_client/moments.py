"""Moments: the desk's `yyyymmddhhmmssZ`, from 1970 to 2099, in UTC."""

import calendar
import math
import re
import time
from datetime import UTC, datetime
from functools import lru_cache

STAMP = "%Y%m%d%H%M%SZ"
FORM = re.compile(r"[0-9]{14}Z")
# where the year, the month, the day, the hour, the minute and the second stand
PLACES = ((0, 4), (4, 6), (6, 8), (8, 10), (10, 12), (12, 14))


class BadMoment(ValueError):
    """A text that is no moment, or a moment that the desk has no text for."""


def now() -> datetime:
    """This second, in UTC."""
    return datetime.now(UTC).replace(microsecond=0)


def stamp(at: datetime) -> str:
    """A moment as the desk writes it."""
    at = at.astimezone(UTC)
    if not 1970 <= at.year <= 2099:
        raise BadMoment("the desk knows the years 1970 to 2099")
    return at.strftime(STAMP)


@lru_cache(maxsize=16_384)
def of_stamp(text: str) -> datetime:
    """The moment of a text such as 20260105090000Z."""
    if not FORM.fullmatch(text):
        raise BadMoment(f"{text!r} is no moment: write it in UTC as 20260105090000Z")
    year, month, day, hour, minute, second = (int(text[at:end]) for at, end in PLACES)
    try:
        return datetime(year, month, day, hour, minute, second, tzinfo=UTC)
    except ValueError:
        raise BadMoment(f"{text!r} is no moment of the calendar") from None


@lru_cache(maxsize=16_384)
def seconds(text: str) -> int:
    """A moment in seconds since 1970."""
    return calendar.timegm(of_stamp(text).timetuple())


def stamp_of(at: float) -> str:
    """A moment as the desk writes it, from seconds since 1970."""
    return stamp_of_second(math.floor(at))


@lru_cache(maxsize=64)
def stamp_of_second(at: int) -> str:
    return time.strftime(STAMP, time.gmtime(at))

"""A picture of windows: who, where, from when to when. SVG, with the same told in words beside."""

from dataclasses import dataclass
from datetime import datetime, timedelta, tzinfo

from steelnewt_client.told import Grant
from steelnewt_relay.outbox import Kept

LEFT, RIGHT, ROW, TOP = 250, 30, 30, 34
WIDTH = 960


@dataclass(frozen=True)
class Bar:
    """A window's bar, and its label."""

    y: int
    x: float
    width: float
    label: str
    is_now: bool


@dataclass(frozen=True)
class Picture:
    width: int
    height: int
    left: int
    bars: list[Bar]
    ticks: list[tuple[float, str]]
    now: float
    zone: str


def timeline(
    rows: list[tuple[Grant, Kept]], now: datetime, zone: tzinfo
) -> Picture | None:
    """The windows of grants on one axis, with a line for now."""
    if not rows:
        return None
    first = min([now, *(grant.begins for grant, _ in rows)])
    last = max([now, *(grant.ends for grant, _ in rows)])
    whole = max((last - first).total_seconds(), 60.0)

    def place(at: datetime) -> float:
        share = (at - first).total_seconds() / whole
        return round(LEFT + share * (WIDTH - LEFT - RIGHT), 1)

    bars = []
    for number, (grant, kept) in enumerate(rows):
        x, end = place(grant.begins), place(grant.ends)
        label = f"{grant.who} {grant.no} on {', '.join(kept.request.wish.hosts)}"
        is_now = grant.begins <= now <= grant.ends
        bars.append(Bar(TOP + number * ROW, x, max(end - x, 3.0), clipped(label), is_now))
    ticks = [(place(at), in_short(at, zone, whole)) for at in marks(first, whole)]
    high = TOP + len(rows) * ROW + 26
    return Picture(WIDTH, high, LEFT, bars, ticks, place(now), zone_of(now, zone))


def zone_of(at: datetime, zone: tzinfo) -> str:
    return at.astimezone(zone).tzname() or str(zone)


def clipped(label: str) -> str:
    return label if len(label) <= 32 else label[:31] + "…"


def marks(first: datetime, whole: float) -> list[datetime]:
    """Five moments along the axis."""
    return [first + timedelta(seconds=whole * part / 4) for part in range(5)]


def in_short(at: datetime, zone: tzinfo, whole: float) -> str:
    local = at.astimezone(zone)
    return f"{local:%H:%M}" if whole < 86400 else f"{local:%m-%d %H:%M}"

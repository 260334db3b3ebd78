"""What stands first on a card: as whom, where, for how long, and how much of that is left. Below it
who did what, and when."""

from collections.abc import Mapping, Sequence
from dataclasses import dataclass
from datetime import UTC, datetime, timedelta, tzinfo

from steelnewt_client.letters import plain
from steelnewt_client.messages import Wish
from steelnewt_client.moments import of_stamp, stamp
from steelnewt_relay import fates
from steelnewt_relay.moments import as_asked, spoken
from steelnewt_relay.outbox import Kept
from steelnewt_relay.standing import Said, Standing
from steelnewt_relay.summary import left_of_window
from steelnewt_relay.telling import DONE, ELSEWHERE, lacking

# What has no more left than this is urgent.
URGENT = timedelta(minutes=15)
# How many of one's last requests are looked at for what is usual, and how many of those are shown.
MOST_LOOKED, MOST_USUAL = 50, 5


def headline(wish: Wish) -> str:
    """A request in a few words."""
    where = wish.hosts[0] if len(wish.hosts) == 1 else f"{len(wish.hosts)} hosts"
    return f"{wish.runas} on {where}, {length(wish)}"


def length(wish: Wish) -> str:
    """For how long a request was asked."""
    return spoken(as_asked(wish.length()))


def full(wish: Wish) -> str:
    """The length of a request behind 'the full': hour, 30 minutes."""
    return length(wish).removeprefix("1 ")


def clock(at: datetime, zone: tzinfo) -> str:
    """A moment in local time, with UTC beside it where that is another."""
    local, utc = at.astimezone(zone), at.astimezone(UTC)
    text = f"{local:%a %d %b %H:%M} {local.tzname()}"
    return text if local.utcoffset() == utc.utcoffset() else f"{text} ({utc:%H:%M} UTC)"


def time_left(standing: Standing, at: datetime) -> str:
    """How much is left of a window that runs while its request waits."""
    return left_of_window(standing.request.wish, at) if standing.is_open else ""


def is_short(standing: Standing, at: datetime) -> bool:
    """Whether so much went by while a request waited that its asker may want a new one."""
    begins, ends = of_stamp(standing.request.wish.begins), of_stamp(standing.request.wish.ends)
    return standing.is_open and begins <= at < ends and 4 * (ends - at) < 3 * (ends - begins)


def is_urgent(standing: Standing, at: datetime) -> bool:
    """Whether a request is of no use any more in a while."""
    return standing.is_open and of_stamp(standing.request.wish.ends) - at <= URGENT


def urgent_first(found: Sequence[Standing], at: datetime) -> list[Standing]:
    """Requests that wait: what ends soon, by its end; behind it all else as it came."""
    limit = stamp(at + URGENT)
    soon = [it for it in found if it.request.wish.ends <= limit]
    return [
        *sorted(soon, key=lambda it: it.request.wish.ends),
        *(it for it in found if it.request.wish.ends > limit),
    ]


@dataclass(frozen=True)
class Moment:
    """An event in a request's life, past or to come, with what its author wrote."""

    at: datetime
    text: str
    why: str = ""


def moments(standing: Standing) -> list[Moment]:
    """What happened to a request, the first first."""
    request, grant = standing.request, standing.grant
    found = [Moment(of_stamp(request.at), f"{request.by} asked")]
    found += [said_at(it) for it in standing.said]
    if grant:
        found += [Moment(grant.begins, "in force"), Moment(grant.ends, "its end")]
    elif standing.is_open:
        found.append(Moment(of_stamp(request.wish.ends), "the end of what was asked for"))
    return sorted(found, key=lambda it: it.at)


def said_at(said: Said) -> Moment:
    """A verdict, and that it does not count, if it does not."""
    verdict = said.verdict
    text = f"{verdict.by} {DONE[verdict.kind]} it"
    if said.is_elsewhere:
        text += f", {ELSEWHERE}"
    if said.kept.state == "refused":
        text += "; the desk refused that"
    elif said.kept.state == "kept":
        text += "; the desk has not got it yet"
    elif said.kept.lacks:
        text += f"; it is {lacking(said.kept)}"
    if said.barred and said.kept.state == "acked":
        text += f"; it does not count: {fates.bar(said.barred)}"
    return Moment(of_stamp(verdict.at), text, plain(said.kept.reason.why))


def usual(saved: Mapping[str, Kept], asked: Sequence[Kept]) -> list[tuple[str, Kept]]:
    """What somebody asks for again and again: what they saved, by its name, and without a name the
    newest first of their last requests, which are in the order in which they were kept."""
    found: dict[object, tuple[str, Kept]] = {}
    last = reversed([it for it in asked[-MOST_LOOKED:] if it.state != "refused"])
    for name, kept in [*saved.items(), *(("", it) for it in last)]:
        wish = kept.request.wish
        key = wish.ceiling, wish.hosts, wish.runas, wish.commands, length(wish)
        found.setdefault(key, (name, kept))
    return list(found.values())[: len(saved) + MOST_USUAL]

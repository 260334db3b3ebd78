"""What a desk answers to a fetch, and which of several answers is the newest."""

from __future__ import annotations

import hashlib
import re
import time
from collections.abc import Sequence
from typing import NamedTuple, Optional

from steelnewt_host.asking import MOST, Reply, ask, needed, refusal
from steelnewt_host.counts import Last, Order, Past, State, orders
from steelnewt_host.faults import Fault
from steelnewt_host.lawful import is_moment, unlawful
from steelnewt_host.settings import Settings
from steelnewt_host.signed import HISTORY, ask_signed
from steelnewt_host.telling import say

MOST_HISTORY = 1024 * 1024  # the bytes that a history may have
FIRST = "19700101000000Z"  # no line ends before it
COUNT = re.compile(rb"(0|[1-9][0-9]{0,18}) ([0-9a-f]{64}) ([0-9a-f]{64})\n")
IS_AS_NEW = {Order.SAME, Order.NEWER}
CUT = "cut ([0-9]{14}Z) ([0-9]{1,18}) "
STATE = re.compile(f"([0-9]{{14}}Z) (?:{CUT})?([0-9a-f]{{64}}) ([0-9a-f]{{64}})")


def parted(text: bytes, base: str) -> Optional[tuple[bytes, bytes]]:
    """A host's file as its base and the lines of grants behind it; nothing where it does not begin
    with the base of that digest."""
    digest, at = hashlib.sha256(), 0
    while digest.hexdigest() != base:
        end = text.find(b"\n", at) + 1
        if not end:
            return None
        digest.update(text[at:end])
        at = end
    return text[:at], text[at:]


class Answer(NamedTuple):
    """What one desk answered: its file, and of what that is made, with what was taken out."""

    desk: str
    date: str
    messages: int
    past: Past
    base: bytes
    grants: bytes

    @property
    def state(self) -> State:
        return self.past[-1]

    @property
    def text(self) -> bytes:
        return self.base + self.grants

    def after(self, past: Past) -> Answer:
        """The same of a desk with this past: what it took out of its store counts as it did."""
        return self._replace(past=past, messages=self.messages + past[-1].archived)

    def is_as_new(self, past: Past, messages: int) -> bool:
        """Whether nothing of it is behind, or unknown to what is compared. (A desk keeps its
        messages over all rosters: one with a newer roster and fewer messages lags, too.)"""
        return set(orders(self.past, past)) <= IS_AS_NEW and self.messages >= messages

    def is_after(self, other: Answer) -> bool:
        """Whether it is newer for sure."""
        is_back = other.is_as_new(self.past, self.messages)
        return self.is_as_new(other.past, other.messages) and not is_back

    def is_within(self, base: bytes, grants: bytes) -> bool:
        """Whether it gives nothing that another file does not give: of the lines of a base no such
        thing can be said, since one that is missing may deny."""
        return self.base == base and set(self.grants.splitlines()) <= set(grants.splitlines())


def an_hour_ago() -> str:
    """The moment, as a desk takes it; the first of all where this host's clock shows a year that
    no desk knows: then the whole file comes, and that is said."""
    here = time.gmtime(time.time() - 3600)
    if 1970 <= here.tm_year <= 2099:
        return time.strftime("%Y%m%d%H%M%SZ", here)
    say(f"this host's clock shows the year {here.tm_year}: set it, since grants go by it")
    return FIRST


def asked(settings: Settings, desk: str, host: str, what: str, most: int) -> Reply:
    """What a desk answers about a host's file at a moment, or about its site's history. With
    SIGNED=yes its door has to have signed that for this very question."""
    if settings.signed == "yes":
        return ask_signed(settings, desk, host, what, most)
    route = "/v1/history" if what == HISTORY else f"/v1/hosts/{host}/{what}"
    return ask(settings, desk, route, most)


def history(settings: Settings, desk: str, host: str, state: State) -> list[State]:
    """The states of its site in their order, as the desk tells them; that state alone where it, or
    its front, has no such route."""
    reply = asked(settings, desk, host, HISTORY, MOST_HISTORY)
    if reply.status in (403, 404):
        return [state]
    if reply.status != 200:
        raise refusal(reply, host)
    past, latest = [], ""
    for at, line in enumerate(reply.text.decode("ascii", "replace").split("\n")[:-1], 1):
        found = STATE.fullmatch(line)
        if not found or not all(map(is_moment, filter(None, found.groups()[:2]))):
            raise Fault(f"line {at} of its /v1/history is none that a desk writes: {line[:80]}")
        if found[1] < latest:
            raise Fault(f"line {at} of its /v1/history is older than the one before it")
        latest = found[1]
        past.append(State(found[4], found[5], int(found[3] or 0)))
    if not reply.text.endswith(b"\n"):
        raise Fault("the last line of its /v1/history has no end")
    if not past[-1].is_as_named(state):
        told = "its roster or base changed meanwhile, or its history is another's"
        raise Fault(f"its /v1/history does not end with what its file is made of: {told}")
    return past


def counted(reply: Reply, desk: str, host: str) -> Answer:
    """A joined answer: the line of its count, and then the file."""
    if reply.status in (403, 404) and not reply.text.startswith(b"P2 "):
        why = "the desk is too old for /v1/hosts/HOST/at/MOMENT"
        if reply.status == 403:
            why = f"its front lets no host ask, or refuses this certificate ({needed(host)})"
        raise Fault(f"it does not say what its file is made of: {why}")
    if reply.status != 200:
        raise refusal(reply, host)
    found = COUNT.match(reply.text)
    if not found:
        raise Fault(f"its file does not begin with its count: {reply.text[:80]!r}")
    text, state = reply.text[found.end() :], State(found[2].decode(), found[3].decode())
    wrong = unlawful(text)
    if wrong:
        raise Fault(f"its file is none of a desk's: {wrong}")
    parts = parted(text, state.base)
    if parts is None:
        raise Fault(f"its file does not begin with the base that it names (sha256 {state.base})")
    return Answer(desk, reply.date, int(found[1]), [state], *parts)


def answer_of(
    settings: Settings, desk: str, host: str, last: Optional[Last], moment: str
) -> Answer:
    """The host's file, as it is without the lines that ended over an hour ago, so that it stays
    small however long the desk has been in use, with what it is made of. Where that is another
    state than the last, or fewer messages, or the last is not sure, the desk is asked for its
    history too."""
    it = counted(asked(settings, desk, host, f"at/{moment}", MOST), desk, host)
    if last is not None and it.state == last.past[-1] and it.messages >= last.messages:
        return it._replace(past=last.past)
    return it.after(history(settings, desk, host, it.state))


def newest(answers: Sequence[Answer]) -> Optional[Answer]:
    """The one that is as new as each other. Where several are, with the same count and other files,
    it is the one that gives nothing which another of them does not give; else none is."""
    first = [
        it for it in answers if all(it.is_as_new(other.past, other.messages) for other in answers)
    ]
    least = [it for it in first if all(it.is_within(other.base, other.grants) for other in first)]
    return least[0] if least else None

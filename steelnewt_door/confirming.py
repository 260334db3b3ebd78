"""What somebody is about to sign on the door's page: by what the desk holds, and from the bytes.

A relay says which verdict a person wants to give, or brings the request that they want to ask; what
is shown is made here. The relay's own words are a reason and a ticket alone: both are signed too,
and the door compares them with what the asker signed.
"""

import re
from collections.abc import Iterator, Sequence
from dataclasses import dataclass
from datetime import UTC, datetime

from steelnewt_client.desk import Desk
from steelnewt_client.letters import plain
from steelnewt_client.messages import VERDICTS, BadWord, Request, Verdict, checked, number_of
from steelnewt_client.moments import of_stamp, seconds
from steelnewt_client.signed import (
    LIST, MOST_LISTED, NAMESPACE, BadLine, Signed, challenge, digest, list_payload, read_line,
    reason_digest, said_in,
)  # fmt: skip
from steelnewt_door.refusals import Refused
from steelnewt_door.taking import held_at

CLOCKS = 600  # seconds that a relay's clock and this one may differ
Lines = list[tuple[str, list[str]]]


class BadAsk(ValueError):
    """Nothing of this is shown for anybody to sign; the text says why."""


@dataclass(frozen=True)
class Moment:
    """A moment as a page shows it: in UTC, and for the browser to add the person's own time."""

    at: datetime

    def __str__(self) -> str:
        return f"{self.at.astimezone(UTC):%Y-%m-%d %H:%M:%S} UTC"


@dataclass(frozen=True)
class Shown:
    """A message that somebody is about to sign, the request that it is or is about, and why.
    `notes` is what the door itself says beside that."""

    signed: Signed
    message: Request | Verdict
    request: Request | None
    why: str = ""
    ticket: str = ""
    notes: tuple[str, ...] = ()

    @property
    def name(self) -> str:
        said = self.message
        return f"{said.by if isinstance(said, Request) else said.of} {said.no}"

    @property
    def headline(self) -> str:
        """All of it in a line."""
        if self.request is None:
            return self.name
        wish = self.request.wish
        where = plain(wish.hosts[0]) if len(wish.hosts) == 1 else f"{len(wish.hosts)} hosts"
        return f"{self.name}: {wish.runas} on {where}, {length(self.request)}"

    @property
    def is_of_request(self) -> bool:
        """Whether the reason is the request's own."""
        return isinstance(self.message, Request) or self.message.kind == "approve"

    def lines(self) -> Iterator[tuple[str, list[str]]]:
        """Everything that is asked for."""
        if self.request is None:
            return
        wish = self.request.wish
        yield "under", [plain(wish.ceiling)]
        yield "on", [plain(it) for it in wish.hosts]
        yield "as", [plain(wish.runas)]
        yield "may run", [unescaped(plain(it)) for it in widest_first(wish.commands)]

    def window(self) -> list[tuple[str, Moment]]:
        if self.request is None:
            return []
        wish = self.request.wish
        return [("from", Moment(of_stamp(wish.begins))), ("until", Moment(of_stamp(wish.ends)))]


def unescaped(command: str) -> str:
    return re.sub(r"\\([,:=])", r"\1", command)


def widest_first(commands: Sequence[str]) -> list[str]:
    return sorted(commands, key=lambda it: (it != "ALL", not it.endswith("/"), it))


def length(request: Request) -> str:
    """For how long a request is, in a word."""
    minutes = (seconds(request.wish.ends) - seconds(request.wish.begins) + 59) // 60
    if minutes >= 60 and minutes % 60 == 0:
        return f"{minutes // 60} hour{'s' * (minutes > 60)}"
    return f"{minutes} minute{'s' * (minutes != 1)}"


@dataclass(frozen=True)
class Told:
    """What a relay says of a verdict: about which request, and why that was asked."""

    of: str
    no: int
    why: str = ""
    ticket: str = ""


def told_of(names: Sequence[str], whys: Sequence[str], tickets: Sequence[str]) -> list[Told]:
    """What a relay says of each, where its lists are of the same length."""
    if not 1 <= len(names) <= MOST_LISTED or not len(names) == len(whys) == len(tickets):
        raise BadAsk(f"1 to {MOST_LISTED} requests are decided together")
    if len(set(names)) != len(names):
        raise BadAsk("a request is named twice")
    try:
        pairs = [it.partition(" ")[::2] for it in names]
        found = [(checked("person", of), number_of(no)) for of, no in pairs]
    except BadWord as fault:
        raise BadAsk(str(fault)) from None
    return [Told(*name, *told) for name, *told in zip(found, whys, tickets, strict=True)]


@dataclass(frozen=True)
class Page:
    """What one person is shown at a moment. `by_ssh` are the ceilings of which they sign by ssh."""

    desk: Desk
    person: str
    at: str
    by_ssh: frozenset[str]

    def verdicts(self, kind: str, told: list[Told], why: str) -> list[Shown]:
        """Verdicts as this person gives them now, each with the request that the desk holds. A
        reason of their own is for what is no approval."""
        if kind not in VERDICTS:
            raise BadAsk(f"{plain(kind)[:40]!r} is no verdict")
        return [self.verdict(kind, it, "" if kind == "approve" else why) for it in told]

    def verdict(self, kind: str, told: Told, why: str) -> Shown:
        verdict = Verdict(self.person, kind, told.of, told.no, self.at)
        requests = self.held(told.of, told.no)
        if kind == "approve":
            request = self.approvable(told, requests)
            reason = reason_digest(told.why, told.ticket)
            signed = Signed(verdict.text(), "", digest(requests[0]), reason)
            return Shown(signed, verdict, request, told.why, told.ticket)
        signed = Signed(verdict.text(), "", "", reason_digest(why, ""))
        if len(requests) == 1:
            return Shown(signed, verdict, request_in(requests[0]), why)
        held = "two requests of this name" if requests else "no request of this name yet"
        return Shown(signed, verdict, None, why, "", (f"The desk holds {held}.",))

    def held(self, who: str, no: int) -> list[str]:
        """The requests that the desk holds by a name."""
        try:
            return held_at(self.desk, who, no)[0]
        except Refused as fault:
            raise BadAsk(f"the desk does not answer: {fault.why}") from None

    def approvable(self, told: Told, requests: list[str]) -> Request:
        """The one request that the desk holds: nobody approves what they do not see."""
        name = f"{told.of} {told.no}"
        if not requests:
            raise BadAsk(f"the desk does not hold {name} yet, and nobody approves it unseen")
        if len(requests) > 1:
            raise BadAsk(f"the desk holds {len(requests)} requests {name}: no approval counts")
        request = request_in(requests[0])
        self.check_ceiling(request, f"mydesk approve {name}")
        return request

    def check_ceiling(self, request: Request, words: str) -> None:
        if (ceiling := request.wish.ceiling) in self.by_ssh:
            raise BadAsk(f"under {ceiling} only a signature by ssh counts: {words}")

    def asked(self, text: str, why: str, ticket: str) -> Shown:
        """A request that a relay wrote for this person."""
        request = request_in(text)
        if request.by != self.person:
            raise BadAsk(f"this is a request of {request.by}'s, and you are not that person")
        if abs(seconds(request.at) - seconds(self.at)) > CLOCKS:
            raise BadAsk("this was written ten minutes ago, or a clock is wrong: begin again")
        self.check_ceiling(request, "mydesk ask")
        # (whoever has two of one name can have them dispute each other)
        if any(it != text for it in self.held(request.by, request.no)):
            raise BadAsk(f"the desk holds another request {request.by} {request.no}: begin again")
        signed = Signed(text, "", "", reason_digest(why, ticket))
        return Shown(signed, request, request, why, ticket)


def request_in(text: str) -> Request:
    try:
        found = said_in(text)
    except BadLine as fault:
        raise BadAsk(f"this is no request: {fault}") from None
    if not isinstance(found, Request):
        raise BadAsk("this is no request")
    return found


def wanted(site: str, shown: list[Shown]) -> tuple[bytes, list[str]]:
    """What a passkey is asked to sign for all that is shown, and the digests of a list."""
    if len(shown) == 1:
        return challenge(NAMESPACE, shown[0].signed.payload(site)), []
    listed = [it.signed.said(site) for it in shown]
    return challenge(LIST, list_payload(site, listed)), listed


def signed_of(
    texts: Sequence[str], abouts: Sequence[str], whys: Sequence[str], signature: str
) -> list[Signed]:
    """The messages that came back from the page with a signature, each in the form of a line."""
    if not 1 <= len(texts) <= MOST_LISTED or not len(texts) == len(abouts) == len(whys):
        raise BadAsk(f"1 to {MOST_LISTED} messages are signed together")
    parts = zip(texts, abouts, whys, strict=True)
    try:
        return [read_line(Signed(it[0], signature, *it[1:]).line().encode()) for it in parts]
    except BadLine as fault:
        raise BadAsk(f"this is no message with a signature: {fault}") from None

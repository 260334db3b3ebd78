"""What became of a request: what the desk says, and what this relay brought itself.

A relay decides nothing. It asks the desk about all that one answer shows, and shows what the desk
tells: the status of each request, its grant, who may approve it now, and which verdicts count,
whichever relay brought them. It has words of its own only for what no desk can know (fates.py).
"""

import hashlib
from collections.abc import Callable, Iterable, Mapping
from contextlib import suppress
from dataclasses import dataclass, field, replace
from datetime import datetime, timedelta
from functools import lru_cache
from typing import NamedTuple, TypeVar

from steelnewt_client.desk import AnyDesk, Silent
from steelnewt_client.messages import Request, Verdict
from steelnewt_client.moments import of_stamp, stamp
from steelnewt_client.told import Grant, Name, Told
from steelnewt_relay.fates import ARCHIVED, KEPT, OVER, REJECTED, UNKNOWN
from steelnewt_relay.lists import Wanted
from steelnewt_relay.outbox import Kept, Outbox
from steelnewt_relay.roster import Roster

SHOWN_FOR = timedelta(days=7)
# How far behind the clock a history is cut, at the least.
CUT_BEHIND = timedelta(days=1)
# So many names one question may bring, of requests that are over; else each is asked for by its own.
MOST_TOLD = 2_000
# The words of what may still be granted.
OPEN = ("waiting", KEPT, UNKNOWN)
Asked = TypeVar("Asked")


@dataclass(frozen=True)
class Said:
    """A verdict, and why it does not count by the desk's word: empty where it does, and None where
    the desk told nothing of it."""

    kept: Kept
    verdict: Verdict
    barred: str | None = None

    @property
    def counts(self) -> bool:
        return self.barred == ""

    @property
    def is_elsewhere(self) -> bool:
        """Whether another relay brought it."""
        return self.kept.id < 0


@dataclass(frozen=True)
class Standing:
    """A request and what became of it: `status` is the desk's word, empty where it told none, and
    `state` the relay's own, empty where there is none."""

    kept: Kept
    request: Request
    status: str
    state: str
    told: Told | None = field(hash=False)
    said: tuple[Said, ...]
    is_begun: bool = False

    # (what follows from these is looked at again and again, for each who asks)
    word: str = field(init=False, compare=False)
    is_revoked: bool = field(init=False, compare=False)
    is_open: bool = field(init=False, compare=False)
    may_approve: tuple[str, ...] | None = field(init=False, compare=False)

    def __post_init__(self) -> None:
        """`word` is the one word for it, the relay's own where it has one. `may_approve` is who may
        approve it now by the desk; None where that is not known. `is_open`: whether anybody waits
        for what becomes of it (what was revoked while it waited still waits at the desk, but
        nobody is asked to approve it)."""
        word, may = self.state or self.status, self.told.may_approve if self.told else None
        is_revoked = any(it.counts and it.verdict.kind == "revoke" for it in self.said)
        is_known = word not in (KEPT, UNKNOWN)
        object.__setattr__(self, "word", word)
        object.__setattr__(self, "is_revoked", is_revoked)
        object.__setattr__(self, "is_open", word in OPEN and not is_revoked)
        object.__setattr__(self, "may_approve", () if is_known and word != "waiting" else may)

    @property
    def name(self) -> str:
        return f"{self.request.by} {self.request.no}"

    @property
    def is_elsewhere(self) -> bool:
        """Whether another relay brought it."""
        return self.kept.id < 0

    @property
    def grant(self) -> Grant | None:
        return self.told.grant if self.told else None

    @property
    def is_cut(self) -> bool:
        """Whether the desk ends the window before the request would."""
        return bool(self.grant and self.grant.ends < of_stamp(self.request.wish.ends))

    @property
    def is_granted(self) -> bool:
        """Whether it is in force, or will be."""
        return self.word == "granted"

    @property
    def is_over(self) -> bool:
        return self.state in (OVER, ARCHIVED)

    @property
    def is_in_force(self) -> bool:
        return self.is_granted and self.is_begun

    def approvals(self) -> list[Said]:
        return [it for it in self.said if it.counts and it.verdict.kind == "approve"]

    def objections(self) -> list[Said]:
        """The refusals and revocations that count."""
        return [it for it in self.said if it.counts and it.verdict.kind != "approve"]

    def is_approved_by(self, person: str) -> bool:
        """Whether a person's approval counts, or is on its way to the desk."""
        given = [it for it in self.said if it.verdict.kind == "approve" and it.verdict.by == person]
        return any(it.counts or it.kept.state == "kept" for it in given)

    def bar_of(self, verdict: Verdict) -> str:
        """Why a verdict does not count by the desk's word, where it says so."""
        return next((it.barred or "" for it in self.said if it.verdict == verdict), "")


class Made(NamedTuple):
    """A standing, with what it was made of."""

    kept: Kept
    entries: list[Kept]
    told: Told | None
    standing: Standing


# A grant, and the request that it is of.
Row = tuple[Grant, Kept]


@dataclass(frozen=True, eq=False)
class Board:
    """What many may share who ask at the same time: what the desk told, all that is open with what
    became of it, what waits for approvals whosoever, and what is in force or to come. It may be
    that the desk told nothing."""

    at: datetime
    roster: Roster
    names: Mapping[Name, Told | None]
    since: datetime | None
    silence: Silent | None
    open: list[Kept]
    elsewhere: list[Kept]
    standings: Mapping[int, Standing]
    left: list[Standing]
    ended: list[Standing]
    rows: list[Row]
    made: Mapping[int, Made]


class Knowledge:
    """What the desk says, asked once while one answer is made."""

    def __init__(self, outbox: Outbox, desk: AnyDesk, roster: Roster, now: datetime) -> None:
        self.outbox, self.desk, self.roster, self.now = outbox, desk, roster, now
        self.at = stamp(now)
        if len(desk.each) > 1:
            desk.prefer(outbox.owed.lacking())
        self.names: dict[Name, Told | None] = {}
        # (all names are known with a window that reaches this moment or a later one)
        self.since: datetime | None = None
        # (and with who may approve those that are open)
        self.is_open_told = False
        self.silence: Silent | None = None
        self.cut: str | None = None
        self.verdicts: dict[Name, list[Kept]] = {}
        self.board: Board | None = None
        # (what was made before, and what is made here)
        self.before: Mapping[int, Made] = {}
        self.made: dict[int, Made] = {}

    @property
    def trouble(self) -> str:
        """Why the desk told nothing; empty where it did."""
        return str(self.silence or "")

    def asked(self, ask: Callable[[], Asked]) -> Asked:
        """What the desk answers. A desk that did not answer is not asked again."""
        if self.silence:
            raise self.silence
        try:
            return ask()
        except Silent as why:
            self.silence = why
            raise

    def ask_since(self, since: datetime) -> None:
        """Asks for all names with a window that reaches this moment or a later one."""
        if self.since and self.since <= since:
            return
        found = self.asked(lambda: self.desk.names(since))
        self.names, self.since = {**found, **self.names}, since

    def ask_open(self) -> None:
        """Asks for all names whose window has not ended, and who may approve now what waits."""
        if not self.is_open_told:
            self.names |= self.asked(lambda: self.desk.open(self.now))
            self.is_open_told = True

    def ask(self, listed: Iterable[Kept], is_all: bool = False) -> None:
        """Asks about all of these at once. Windows that ended before the days that are shown are
        not asked for, unless older ones are listed (`is_all`); what is left then was revoked long
        before its end, and is asked for at once too. Where that would bring the names of a year for
        a few, each is asked for by its own name."""
        asked = [it.request for it in listed if it.state == "acked"]
        if len(self.unknown(asked)) < 2:
            return  # (one is asked for by its name)
        if any(it.wish.ends >= self.at for it in asked):
            self.ask_open()
        left, limit = self.unknown(asked), self.now - SHOWN_FOR
        if not (is_all and self.are_few(left)):
            left = [it for it in left if of_stamp(it.wish.begins) >= limit]
        if len(left) > 1:
            self.ask_since(self.first_of(left))
        left = self.unknown(asked)
        if len(left) > 1 and self.are_few(left):
            self.ask_since(self.first_of(left))

    def unknown(self, asked: list[Request]) -> list[Request]:
        return [it for it in asked if not self.is_known(it)]

    def first_of(self, asked: list[Request]) -> datetime:
        """When the first of these windows begins; this moment, where none begins before it."""
        return min([self.now, *(of_stamp(it.wish.begins) for it in asked)])

    def are_few(self, asked: list[Request]) -> bool:
        """Whether a question about all names since the first of these windows brings no more than
        it may, as far as this outbox tells."""
        wanted = Wanted(since=stamp(self.first_of(asked)))
        return self.outbox.lists.count(wanted) <= MOST_TOLD

    def is_known(self, request: Request) -> bool:
        """Whether all is known that the desk holds of a request: its window, which is not before
        the one that it asks for, was asked about."""
        if (request.by, request.no) in self.names:
            return True
        return self.since is not None and of_stamp(request.wish.begins) >= self.since

    def told(self, request: Request) -> Told | None:
        """What the desk tells of a request; nothing where it has no message of that name."""
        name = request.by, request.no
        if name not in self.names and not self.is_known(request):
            self.ask_name(name, of_stamp(request.wish.begins))
        found = self.names.get(name)
        # (who may approve it is told together with all that is open)
        is_asked = found is None or found.status != "waiting" or found.may_approve is not None
        if is_asked or request.wish.ends < self.at:
            return found
        self.ask_open()
        return self.names.get(name)

    def ask_name(self, name: Name, begins: datetime) -> None:
        if name[0] == "after":
            # (a route of the desk's has that word)
            self.ask_since(begins)
        else:
            self.names[name] = self.asked(lambda: self.desk.name(*name))

    def live(self) -> list[Grant]:
        """What is in force now, whoever brought it."""
        if self.since is None or self.since > self.now:
            self.ask_open()
        return [it for it in self.grants() if it.begins <= self.now]

    def grants(self) -> list[Grant]:
        """What is in force or to come, as far as was asked."""
        grants = [it.grant for it in self.names.values() if it and it.grant]
        found = [it for it in grants if self.now <= it.ends]
        return sorted(found, key=lambda it: (it.who, it.no))

    def standing(self, kept: Kept) -> Standing:
        """What became of a request."""
        if self.board and (made := self.board.standings.get(kept.id)) and made.kept == kept:
            return made
        request = kept.request
        entries = self.verdicts_on(request)
        if kept.state != "acked":
            state = KEPT if kept.state == "kept" else REJECTED
            return Standing(kept, request, "", state, None, said_of(entries, None))
        try:
            told = self.told(request)
        except Silent:
            told = None
        found = self.of_now(self.made_of(kept, entries, told))
        self.made[kept.id] = Made(kept, entries, told, found)
        return found

    def made_of(self, kept: Kept, entries: list[Kept], told: Told | None) -> Standing:
        """A standing, of whatever moment; the one that was made of the same before, where there is
        one."""
        was = self.before.get(kept.id)
        if was and was.kept == kept and was.told is told and was.entries == entries:
            return was.standing
        status = told.status if told else ""
        return Standing(kept, kept.request, status, "", told, said_of(entries, told))

    def of_now(self, found: Standing) -> Standing:
        """Notes whether the window has begun, or ended, by the clock."""
        told = found.told
        grant = told.grant if told else None
        state, is_begun = "" if told else UNKNOWN, grant is not None and grant.begins <= self.now
        is_over = grant.ends < self.now if grant else found.request.wish.ends < self.at
        if is_over and found.status in ("granted", "waiting"):
            state = ARCHIVED if told and self.is_archived(found, told) else OVER
        if found.state == state and found.is_begun == is_begun:
            return found
        return replace(found, state=state, is_begun=is_begun)

    def is_archived(self, found: Standing, told: Told) -> bool:
        """Whether the desk no longer has what was said of a request that is over: it lacks a
        verdict that this relay brought and it acknowledged, or its history was cut behind the
        end, and then nobody knows here what came by others."""
        brought = [it.verdict for it in found.said if it.kept.state == "acked"]
        if any(it not in told.weights for it in brought):
            return True
        ends = found.request.wish.ends
        return of_stamp(ends) < self.now - CUT_BEHIND and ends < self.cut_at()

    def cut_at(self) -> str:
        """Up to which moment the desk's history was cut; empty where it was not, or says
        nothing."""
        if self.cut is None:
            self.cut = ""
            with suppress(Silent):
                self.cut = self.asked(self.desk.cut_at)
        return self.cut

    def verdicts_on(self, request: Request) -> list[Kept]:
        """The verdicts that this relay brought on a request."""
        found = self.verdicts.get(name_of(request))
        return self.outbox.verdicts(request.by, request.no) if found is None else found

    def make_board(self, since: datetime | None, last: Board | None = None) -> Board:
        """Asks the desk for all that is open, and for all names since a moment, and looks at what
        is open. What did not change since the last board is not made again."""
        if last and last.roster is self.roster:
            self.before = last.made
        with suppress(Silent):
            self.ask_open()
            if since:
                self.ask_since(since)
        found, rows = self.open(), self.rows()
        made = self.standings(found)
        return Board(
            self.now,
            self.roster,
            self.names,
            self.since,
            self.silence,
            found,
            [it for it in found if it.id < 0],
            {it.kept.id: it for it in made},
            left_of(made),
            ended_of(made),
            rows,
            self.made,
        )

    def take(self, board: Board) -> None:
        """Knows from here on what stands on a board."""
        self.names, self.since = dict(board.names), board.since
        self.silence, self.board, self.is_open_told = board.silence, board, True

    def bar_now(self, standing: Standing, kind: str, person: str) -> str:
        """Why a verdict that a person would give now would not count, by what the desk told; a word
        of telling.BARS_NOW. (Who may revoke it does not tell.)"""
        if kind == "revoke":
            about = person, standing.request.by, standing.request.wish.ceiling, self.now
            may = self.roster.may_revoke(*about)
            return ("over" if standing.is_over else "") if may else "duty"
        if standing.is_over:
            return "over"
        if standing.status == "granted":
            return "complete" if kind == "approve" else "late"
        if standing.status != "waiting":
            return "ended" if kind == "approve" and standing.status else ""
        if standing.is_revoked and kind == "approve":
            return "revoked"
        if (may_approve := standing.may_approve) is None or person in may_approve:
            return ""
        if standing.is_approved_by(person):
            return "given" if kind == "approve" else ""
        return "asker" if person == standing.request.by else "others"

    def mine(self, person: str, is_all: bool = False) -> list[Standing]:
        """A person's last requests, the newest first; behind them what another relay brought."""
        wanted = self.wanted(person, "", is_all)
        return self.listed(self.outbox.lists.page(wanted), wanted, is_all=is_all)

    def wanted(self, who: str, host: str, is_all: bool) -> Wanted:
        """Requests of the last days, or all."""
        return Wanted(who, host, "" if is_all else stamp(self.now - SHOWN_FOR))

    def listed(
        self, kept: list[Kept], wanted: Wanted, page: int = 1, is_all: bool = False
    ) -> list[Standing]:
        """What became of a page of requests, the newest first; behind the first page what of such
        requests another relay brought, as long as they are open."""
        with suppress(Silent):
            self.ask_open()
        found = self.standings(kept, is_all)
        if page > 1:
            return found
        others = self.board.elsewhere if self.board else self.elsewhere()
        return found + self.standings([it for it in others if wanted.has(it.request)])

    def standings(self, listed: list[Kept], is_all: bool = False) -> list[Standing]:
        """What became of requests, the last first. `trouble` says why it is not known."""
        made = self.board.standings if self.board else {}
        new = [it for it in listed if it.id not in made]
        with suppress(Silent):
            self.ask([it for it in new if not self.is_known(it.request)], is_all)
        self.verdicts |= self.outbox.verdicts_on(name_of(it.request) for it in new)
        return [self.standing(it) for it in reversed(listed)]

    def waiting(self, person: str) -> list[Standing]:
        """What a person may approve now by the desk, and what of others is open of which that is
        not known; the oldest first."""
        left = self.board.left if self.board else self.left()
        return [
            it
            for it in left
            if (it.request.by != person if (may := it.may_approve) is None else person in may)
            and not (it.said and it.is_approved_by(person))
        ]

    def left(self) -> list[Standing]:
        with suppress(Silent):
            self.ask_open()
        return left_of(self.standings(self.open()))

    def open(self) -> list[Kept]:
        """Requests that the desk did not refuse, and whose window is not over, of nobody more than
        their share; behind this relay's those of others that the desk told."""
        if self.board:
            return self.board.open
        ours = self.outbox.lists.open(self.at, self.outbox.share.open)
        return ours + self.elsewhere({(it.message.by, it.message.no) for it in ours})

    def elsewhere(self, ours: set[Name] | None = None) -> list[Kept]:
        """The open requests that the desk told and that this relay did not bring."""
        asked = {
            name: told.requests
            for name, told in self.names.items()
            if told and told.requests and name not in (ours or ())
        }
        for name in self.outbox.names_here(asked):
            del asked[name]
        found = [each[0] for each in asked.values() if max(it.wish.ends for it in each) >= self.at]
        return [brought_elsewhere(it) for it in sorted(found, key=lambda it: (it.at, it.by, it.no))]

    def rows(self) -> list[Row]:
        """What is in force, and behind it what is granted to come, whoever brought it."""
        grants = self.grants()
        live = [it for it in grants if it.begins <= self.now]
        grants = live + [it for it in grants if it.begins > self.now]
        asked = self.outbox.requests_on((it.who, it.no) for it in grants)
        return [(it, asked.get((it.who, it.no)) or self.of_grant(it)) for it in grants]

    def of_grant(self, grant: Grant) -> Kept:
        """The request of a grant that another relay brought."""
        told = self.names[grant.who, grant.no]
        assert told is not None
        return brought_elsewhere(told.requests[0])

    def request(self, of: str, no: int) -> Kept | None:
        """A request that this relay brought, or else one that the desk holds."""
        if kept := self.outbox.request(of, no):
            return kept
        with suppress(Silent):
            if (of, no) not in self.names:
                self.ask_name((of, no), self.now)
        told = self.names.get((of, no))
        return brought_elsewhere(told.requests[0]) if told and told.requests else None

    def asked_here(self, grant: Grant) -> Kept | None:
        """The request of a grant, where this relay brought it."""
        return self.outbox.request(grant.who, grant.no)


@lru_cache(maxsize=4_096)
def brought_elsewhere(message: Request | Verdict) -> Kept:
    """A message that the desk holds and another relay brought. (Its number is below zero, and its
    own: no outbox gave it one.)"""
    text = message.text()
    digest = hashlib.sha256(text.encode("utf-8")).digest()
    return Kept(-1 - int.from_bytes(digest[:7], "big"), message, "acked", "", body=text)


def said_of(entries: list[Kept], told: Told | None) -> tuple[Said, ...]:
    """The verdicts on a request, in the order of their moments, with the desk's word on each."""
    weights = told.weights if told else {}
    found = [Said(it, it.verdict, weights.get(it.verdict)) for it in entries]
    if len(weights) > len(found) or not all(it.verdict in weights for it in found):
        ours = {it.verdict for it in found}
        others = [(it, why) for it, why in weights.items() if it not in ours]
        found += [Said(brought_elsewhere(it), it, why) for it, why in others]
    return tuple(sorted(found, key=lambda it: it.verdict.at))


def left_of(standings: list[Standing]) -> list[Standing]:
    """What still waits of requests that are listed the last first: the oldest first."""
    return [it for it in reversed(standings) if it.is_open]


def ended_of(standings: list[Standing]) -> list[Standing]:
    """What is open by its window alone: somebody refused or revoked it, or nothing of it is granted
    for another reason."""
    return [it for it in reversed(standings) if not it.is_open and it.status != "granted"]


def name_of(request: Request) -> Name:
    return request.by, request.no

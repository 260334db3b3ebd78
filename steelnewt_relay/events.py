"""What happened to requests that somebody has to be told of: each event as data."""

from collections.abc import Iterator
from dataclasses import dataclass
from datetime import UTC, timedelta, tzinfo

from steelnewt_client.codes import in_words
from steelnewt_client.desk import Silent
from steelnewt_client.letters import plain
from steelnewt_client.messages import Verdict
from steelnewt_client.moments import stamp
from steelnewt_client.told import Grant
from steelnewt_relay import telling
from steelnewt_relay.config import Config
from steelnewt_relay.fates import ARCHIVED, UNKNOWN
from steelnewt_relay.moments import shown
from steelnewt_relay.outbox import Kept
from steelnewt_relay.standing import Knowledge, Said, Standing, name_of
from steelnewt_relay.summary import headline
from steelnewt_relay.woken import CALLS, ENDS, Woken

SOON = timedelta(minutes=15)


@dataclass(frozen=True)
class Event:
    """`message` is the outbox's message that it is about: a verdict, or else the request. Without
    data nobody is told."""

    kind: str
    message: int
    data: dict[str, object]


@dataclass(frozen=True)
class Manner:
    """How people are told: in which zone, where the page is, what they type, which duty is told
    first, how long the others sleep on (nothing: all are told at once), the ceilings and people
    whose events go before all others, and for how many days what was told is kept."""

    zone: tzinfo = UTC
    link: str = ""
    program: str = "ssh desk"
    first: str = ""
    patience: timedelta = timedelta(minutes=10)
    urgent: tuple[str, ...] = ()
    days: int = Config.days

    @staticmethod
    def of(config: Config) -> "Manner":
        """How the settings have people told."""
        program = "mydesk" if config.is_signed else "ssh desk"
        if (told := config.notify) is None:
            return Manner(config.zone, "", program, days=config.days)
        patience = timedelta(minutes=told.minutes)
        which = told.first, patience, told.urgent, config.days
        return Manner(config.zone, told.link, program, *which)


class Finder:
    """Finds what happened, as far as the outbox and the desk tell now."""

    def __init__(self, knowledge: Knowledge, manner: Manner = Manner()) -> None:
        self.knowledge, self.manner = knowledge, manner
        self.woken, self.own = Woken(knowledge.outbox), knowledge.outbox.own

    def of_message(self, kept: Kept) -> Iterator[Event]:
        """What a message came to that the desk has answered."""
        if isinstance(kept.message, Verdict):
            yield from self.of_verdict(kept, kept.verdict)
        elif kept.state == "refused":
            why = f"The desk refused it. {in_words(kept.answer)}"
            yield self.event("void", kept, self.knowledge.standing(kept), why)
        else:
            standing = self.standing(kept)
            yield self.event("asked", kept, standing, f"{standing.request.by} asks.")

    def request_of(self, kept: Kept) -> Kept | None:
        """The request that a message is or is about, where this relay brought it."""
        if not isinstance(kept.message, Verdict):
            return kept
        return self.knowledge.outbox.request(kept.verdict.of, kept.verdict.no)

    def of_verdict(self, kept: Kept, verdict: Verdict) -> Iterator[Event]:
        """What a verdict came to. Nobody hears one thing twice: the approval that is the last one
        needed is told as the grant, and a grant is told once, whoever approves it as well."""
        request = self.request_of(kept)
        standing = self.standing(request) if request else None
        did = did_of(kept, verdict, standing)
        kind = telling.DONE[verdict.kind]
        if why := uncounted(kept, standing):
            yield self.event("uncounted", kept, standing, f"{did}, but {why}.")
        elif not (request and standing and standing.grant and verdict.kind == "approve"):
            yield self.event(kind, kept, standing, f"{did}.")
        else:
            said = f"{did}: it is granted."
            yield self.event("granted", request, standing, said, verdict.by)
            yield Event(kind, kept.id, {})

    def standing(self, kept: Kept) -> Standing:
        """What became of a request. `Silent` while the desk does not answer."""
        found = self.knowledge.standing(kept)
        if found.state == UNKNOWN and self.knowledge.trouble:
            raise Silent(self.knowledge.trouble)
        return found

    def of_grant(self, kept: Kept) -> Event:
        standing = self.standing(kept)
        return self.event("granted", kept, standing, f"{standing.name} is granted.")

    def late(self) -> list[Kept]:
        """Requests on which the people who were told first said nothing for a while."""
        if not self.manner.first:
            return []
        late = self.woken.late(self.knowledge.now, self.manner.patience)
        return [self.knowledge.outbox.entry(it) for it in late]

    def of_late(self, kept: Kept) -> Event:
        """The next people are told; where nobody is left or nothing waits, that is noted."""
        standing = self.standing(kept)
        found = self.event("asked-next", kept, standing, f"{standing.request.by} still waits.")
        return found if found.data["to"] else Event("asked-next", kept.id, {})

    def is_ending(self, grant: Grant) -> bool:
        """Whether a grant in force ends soon, and was not as short from the beginning on."""
        return grant.ends - grant.begins > SOON >= grant.ends - self.knowledge.now

    def of_end(self, grant: Grant, kept: Kept) -> Event:
        standing = self.standing(kept)
        zone = self.own.zone(standing.request.by, self.manner.zone)
        when = f"{standing.name} ends at {shown(grant.ends, zone)}."
        return self.event("ends-soon", kept, standing, when)

    def of_elsewhere(self, kept: Kept) -> Event:
        """What another relay brought in somebody's name: they are told, and may not have said it."""
        if is_verdict(kept):
            verdict = kept.verdict
            request = self.knowledge.request(verdict.of, verdict.no)
            standing = self.standing(request) if request else None
            did = did_of(kept, verdict, standing)
        else:
            standing = self.standing(kept)
            did = f"{standing.request.by} asked for {standing.name}"
        said = f"{did}, {telling.ELSEWHERE}."
        return self.event("elsewhere", kept, standing, said)

    def of_past(self, kept: Kept) -> Event | None:
        """What a request came to whose window is over. A refused or revoked request gives no event:
        the refusal or revocation itself was told before. Nor does one of which the desk does not say
        any more what it came to."""
        standing = self.standing(kept)
        if standing.grant:
            return self.event("granted", kept, standing, f"{standing.name} was granted.")
        if standing.objections() or standing.state == ARCHIVED:
            return None
        return self.event("void", kept, standing, f"{standing.name} was not granted.")

    def event(
        self, kind: str, kept: Kept, standing: Standing | None, said: str, by: str = ""
    ) -> Event:
        """An event; `by` is who did it, where that is not the message's author."""
        by = by or kept.message.by
        who, no = (kept.verdict.of, kept.verdict.no) if is_verdict(kept) else name_of(kept.request)
        data: dict[str, object] = {"event": kind, "at": stamp(self.knowledge.now), "by": by}
        data |= {"who": who, "no": no, "thread": f"{who}-{no}", "said": said, "subject": said}
        about = {by, who, standing.request.wish.ceiling if standing else ""}
        data["urgent"] = bool(about & set(self.manner.urgent))
        data |= {"approvers": [], "verdict_why": kept.reason.why if is_verdict(kept) else None}
        # (whoever gives a verdict may name anybody, and a mail goes to that name at the site)
        people = self.knowledge.roster.people
        data["to"] = to = [it for it in self.told_to(kind, by, who, standing) if it in people]
        told = [said]
        if standing:
            asked, wish = telling.as_data(standing), standing.request.wish
            data |= {name: asked[name] for name in COPIED}
            data["approvers"] = self.approvers(standing)
            data["subject"] = headline(who, wish, standing.kept.reason)
            lines = telling.kept_lines(standing.kept, self.zone_for(to))
            told += [*telling.rows(lines), telling.fate(standing, self.zone_for(to))]
            told += self.next_step(kind, standing, to)
        data["link"] = link = self.link(who, no) if standing else self.manner.link
        data["text"] = "\n".join([*told, *([link] if link else [])])
        return Event(kind, kept.id, data)

    def next_step(self, kind: str, standing: Standing, to: list[str]) -> Iterator[str]:
        """What whoever is told can do now, in the words that they type."""
        name, program = standing.name, self.manner.program
        if kind in CALLS and to:
            yield f"To approve it: {program} approve {name}"
        no = standing.request.no
        if kind == "full":
            yield f"To ask for it: {program} again {no}"
        if kind == "ends-soon":
            yield f"To go on without a gap: {program} again {no} --from end"
        if kind in ENDS and set(to) - {standing.request.by}:
            yield "Nothing is left to do for who was asked."

    def link(self, who: str, no: int) -> str:
        """Where the page shows a request."""
        return f"{self.manner.link.rstrip('/')}/r/{who}/{no}" if self.manner.link else ""

    def zone_for(self, to: list[str]) -> tzinfo:
        """The zone in which all of these people read times; the relay's, where they differ."""
        zones = {str(it): it for it in (self.own.zone(name, self.manner.zone) for name in to)}
        return next(iter(zones.values())) if len(zones) == 1 else self.manner.zone

    def approvers(self, standing: Standing) -> list[str]:
        """Who may approve it now by the desk and did not."""
        return [it for it in standing.may_approve or () if not standing.is_approved_by(it)]

    def awake(self, people: list[str]) -> list[str]:
        """The people who are not away, or everybody if all of them are."""
        now, zone = self.knowledge.now, self.manner.zone
        return [it for it in people if not self.own.is_away(it, now, zone)] or people

    def called(self, kind: str, standing: Standing) -> list[str]:
        """Whom a request wakes: first whoever holds the duty that is told first, then the rest."""
        approvers, roster, now = self.approvers(standing), self.knowledge.roster, self.knowledge.now
        if standing.is_revoked:
            return []
        if kind == "asked-next":
            told = {name for name, _ in self.woken.calls(standing.kept.id)}
            rest = [it for it in approvers if it not in told]
            return [it for it in rest if not self.own.is_away(it, now, self.manner.zone)]
        found = self.awake(approvers)
        on_call = [it for it in found if roster.holds(it, self.manner.first, now)]
        return on_call or found

    def told_to(self, kind: str, by: str, who: str, standing: Standing | None) -> list[str]:
        """Whom an event is for: who has to act, or had to, or whose request it is; not who did it
        just now."""
        if kind in CALLS:
            return self.called(kind, standing) if standing else []
        if kind in ("uncounted", "elsewhere"):
            return sorted({by, who})
        # (what is in force already may not be marked in the outbox yet)
        given = {it.verdict.by for it in standing.approvals()} if standing else set[str]()
        left = self.woken.left(standing) if standing and kind in ENDS else set()
        if kind == "granted":
            return sorted((given | left) - {by} | {who})
        if kind in ("refused", "revoked"):
            return sorted(({who} | given | left) - {by})
        return sorted({who} | left)


def did_of(kept: Kept, verdict: Verdict, standing: Standing | None) -> str:
    """Who did what, and the reason that they gave."""
    why = f': "{plain(kept.reason.why)}"' if kept.reason.why else ""
    is_own = verdict.kind == "revoke" and verdict.by == verdict.of
    was_open = standing is not None and standing.grant is None
    did = "withdrew" if is_own and was_open else telling.DONE[verdict.kind]
    return f"{verdict.by} {did} {verdict.of} {verdict.no}{why}"


COPIED = (
    "ceiling", "hosts", "runas", "commands", "from", "until", "why", "ticket", "status", "state",
    "window", "denial", "lacks", "may_approve", "elsewhere",
)  # fmt: skip


def is_verdict(kept: Kept) -> bool:
    return isinstance(kept.message, Verdict)


def uncounted(kept: Kept, standing: Standing | None) -> str:
    """Why a verdict that the desk answered has no effect; empty where it has."""
    if kept.state == "refused":
        return f"the desk refused that: {in_words(kept.answer).rstrip('.')}"
    said: list[Said] = [it for it in standing.said if it.kept.id == kept.id] if standing else []
    return telling.uncounted(said[0].barred) if said and said[0].barred else ""

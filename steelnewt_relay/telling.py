"""How a request and what became of it are told, in plain words."""

from collections.abc import Iterator, Sequence
from datetime import datetime, timedelta, tzinfo

from steelnewt_client.codes import in_words
from steelnewt_client.letters import plain, wrapped
from steelnewt_client.messages import BadWord, Verdict, Wish
from steelnewt_client.moments import of_stamp, stamp
from steelnewt_client.told import Grant, Told
from steelnewt_relay import fates
from steelnewt_relay.moments import as_asked, shown, spoken
from steelnewt_relay.outbox import UNASKED, Kept
from steelnewt_relay.reasons import Demand, Reason
from steelnewt_relay.roster import Ceiling, Roster
from steelnewt_relay.standing import Said, Standing
from steelnewt_relay.summary import by_reach, few
from steelnewt_relay.words import unescaped

DONE = {"approve": "approved", "refuse": "refused", "revoke": "revoked"}
# Why a verdict would not count that is not given yet, to whoever would give it.
BARS_NOW = {
    "asker": "you asked for it yourself",
    "others": "the desk does not name you among those who may approve it now",
    "given": "you approved it already",
    "duty": "you do not hold the duty to approve under this ceiling now",
    "late": "enough people have approved it: revoke it, if it is to end",
    "complete": "enough people have approved it already",
    "ended": "the desk grants nothing of it any more",
    "revoked": "it was revoked",
    "over": "its window is over",
}
# Within which time each host fetches its file (desk-fetch@.timer).
FETCHED = "within 5 minutes"
# What another relay brought is marked so.
ELSEWHERE = "by another way in"
NOUNS = {"approve": "approval", "refuse": "refusal", "revoke": "revocation"}
FINDINGS = {
    "LIVE": "grants in force, and whether each is needed",
    "BARRED": "approvals that do not count",
    "CONFLICTS": "people who hold duties that conflict",
    "BROAD": "grants of ALL or of a directory",
    "PARKED": "verdicts whose request has not come",
}
Lines = list[tuple[str, str]]
# The labels of what the asker wrote, which is quoted: it never looks like a row of the relay's.
QUOTED = ("why", "ticket")
# Columns of a terminal, what stands before a row's text, and the rows that commands may have of a
# screen of 24, the columns of each.
COLUMNS, BEFORE, MOST_ROWS = 80, 12, 7
ROOM = COLUMNS - BEFORE


def finding(part: str) -> str:
    """A heading of the report, with what stands below it."""
    return f"{part}, {FINDINGS[part]}" if part in FINDINGS else part


def rows(lines: Lines) -> Iterator[str]:
    """Lines as rows of a terminal. Each row of what the asker wrote has its label and a mark, and
    is as wide as the relay makes it."""
    last = ""
    for label, text in lines:
        if label in QUOTED:
            yield from (f"  {label:<9} | {it}" for it in wrapped(text, ROOM - 2))
        else:
            yield f"  {'' if label == last else label:<9} {text}"
        last = label


def command_lines(commands: Sequence[str]) -> Lines:
    """What may be run, the widest first."""
    return [("may run", unescaped(it)) for it in by_reach(commands)]


def brief_lines(kept: Kept, zone: tzinfo) -> Lines:
    """Everything that is asked for, and why: as much as a screen has room for."""
    wish, name = kept.request.wish, f"{kept.request.by} {kept.request.no}"
    found, is_told = list[tuple[str, str]](), False
    for label, text in kept_lines(kept, zone):
        if label == "on" and len(text) > 2 * ROOM:
            text = f"{few(wish.hosts)}: show {name}"
        if label != "may run":
            found.append((label, text))
        elif not is_told:
            found += few_commands(wish.commands, name)
            is_told = True
    return found


def few_commands(commands: Sequence[str], name: str) -> Lines:
    """The widest commands, whole, as long as there are rows for them, and how many more."""
    listed, used, fits = by_reach(commands), 0, 0
    while fits < len(listed) and (used := used + -(-len(listed[fits]) // ROOM)) <= MOST_ROWS:
        fits += 1
    found = command_lines(listed[:fits])
    if not fits:
        found = [("may run", f"{unescaped(listed[0])[: MOST_ROWS * ROOM - 1]}…")]
        return [*found, ("may run", f"the whole, and {len(listed) - 1} more: show {name}")]
    left = len(listed) - fits
    return [*found, ("may run", f"and {left} more: show {name}")] if left else found


def wish_lines(wish: Wish, zone: tzinfo) -> Lines:
    """Everything that is asked for."""
    first, last = of_stamp(wish.begins), of_stamp(wish.ends)
    return [
        ("under", wish.ceiling),
        ("on", ", ".join(wish.hosts)),
        ("as", wish.runas),
        *command_lines(wish.commands),
        ("from", shown(first, zone)),
        ("until", shown(last, zone)),
        ("how long", spoken(as_asked(last - first))),
    ]


def asked_lines(wish: Wish, reason: Reason, zone: tzinfo) -> Lines:
    """Everything that is asked for, and why."""
    return [*wish_lines(wish, zone), *reason.lines()]


def kept_lines(kept: Kept, zone: tzinfo) -> Lines:
    return asked_lines(kept.request.wish, kept.reason, zone)


def ceiling_lines(ceiling: Ceiling) -> Lines:
    """The most that a ceiling gives."""
    return [
        ("needs", approvals(ceiling.needs)),
        ("at most", spoken(timedelta(seconds=ceiling.longest))),
        ("on", ", ".join(ceiling.hosts)),
        ("as", ", ".join(ceiling.runas)),
        ("running", ", ".join(ceiling.commands)),
    ]


def offer_lines(ceiling: Ceiling, roster: Roster, person: str, now: datetime) -> Lines:
    """What a ceiling gives a person, and who could approve it now."""
    may = ", ".join(roster.approvers(person, ceiling.label, now))
    return [*ceiling_lines(ceiling), ("may approve", may or "nobody now")]


def objected(objections: list[str]) -> str:
    """What is wrong with a request before it is sent; empty where nothing is."""
    return f"The desk will refuse this: {'; '.join(objections)}." if objections else ""


def approvals(count: int, more: str = "") -> str:
    return f"1{more} approval" if count == 1 else f"approvals of {count}{more} people"


def label(standing: Standing) -> str:
    """The word for what became of a request, what the clock says of a grant, and whether another
    relay brought it."""
    found = [standing.word]
    if standing.is_granted:
        found.append("in force" if standing.is_begun else "to come")
    return ", ".join([*found, ELSEWHERE] if standing.is_elsewhere else found)


def said_lines(said: Said, zone: tzinfo) -> list[str]:
    """A verdict, and below it the reason that its author wrote."""
    why = [("why", plain(said.kept.reason.why))] if said.kept.reason.why else []
    return [f"  {said_line(said, zone)}", *rows(why)]


def said_line(said: Said, zone: tzinfo) -> str:
    """A verdict on one line: its author, its moment, and why it does not count, if it does not."""
    verdict = said.verdict
    text = f"{verdict.by} {DONE[verdict.kind]} it, {shown(of_stamp(verdict.at), zone)}"
    if said.is_elsewhere:
        text += f"; {ELSEWHERE}"
    if said.kept.state == "kept":
        return f"{text}; kept here, not yet at the desk"
    if said.kept.state == "refused":
        return f"{text}; {in_words(said.kept.answer)}"
    text += f"; {lacking(said.kept)}" if said.kept.lacks else ""
    return f"{text}; {uncounted(said.barred)}" if said.barred else text


def lacking(kept: Kept) -> str:
    """Which desks lack what another has, and what they said; empty where each has it."""
    listed = [f"{desk} ({said})" if said else desk for desk, said in kept.lacks]
    return f"not yet at {' and '.join(listed)}" if listed else ""


def uncounted(barred: str) -> str:
    """Why a verdict that was given does not count."""
    return f"it does not count: {fates.bar(barred)}"


def warning(kind: str, why: str) -> str:
    """What whoever is about to give a verdict has to know, where it would not count."""
    said = BARS_NOW.get(why, why)
    will = "would change nothing" if why in ("complete", "given") else "will not count"
    return f"Your {NOUNS[kind]} {will}: {said}." if why else ""


def fate(standing: Standing, zone: tzinfo) -> str:
    """What became of a request: the sentence of the desk's word, or of the relay's own where the
    desk told none, and behind it what is told beside the word."""
    is_archived = standing.state == fates.ARCHIVED
    word = standing.state if is_archived else standing.status or standing.state
    return " ".join([fates.sentence(word), *beside(standing, zone)])


def beside(standing: Standing, zone: tzinfo) -> Iterator[str]:
    """What stands beside the word of a request."""
    told, answer = standing.told, standing.kept.answer
    if standing.state == fates.KEPT and answer:
        yield f"The last time: {answer}."
    if standing.state == fates.REJECTED:
        yield in_words(answer)
    if told and told.denial:
        yield in_words(told.denial)
    if standing.grant:
        yield window_of(standing, standing.grant, zone)
    if by := [f"{it.verdict.by} {DONE[it.verdict.kind]} it" for it in standing.objections()]:
        yield f"{', '.join(by)}."
    if told and standing.word == "waiting":
        yield waits_for(standing, told)
    elif standing.state == fates.OVER and not standing.grant:
        yield fates.sentence(fates.OVER)
    if lacks := lacking(standing.kept):
        yield f"It is {lacks}."


def window_of(standing: Standing, grant: Grant, zone: tzinfo) -> str:
    """From when until when a grant is in force, as the desk tells it."""
    first, last = shown(grant.begins, zone), shown(grant.ends, zone)
    early = "; it was revoked, so it ends before what was asked for" if standing.is_cut else ""
    is_over = standing.state == fates.OVER
    told = "was in force" if is_over else "is in force" if standing.is_begun else "is granted"
    return f"It {told} from {first} until {last}{early}."


def waits_for(standing: Standing, told: Told) -> str:
    """What a request still needs, and of whom, as the desk tells it."""
    given = sorted({it.verdict.by for it in standing.approvals()})
    needed = f"It needs {approvals(told.lacks, ' more' if given else '')}"
    so_far = f"approved so far by {', '.join(given)}" if given else "nobody approved it yet"
    if (may_approve := standing.may_approve) is None:
        return f"{needed}; {so_far}; who may approve it now is not known."
    may = f"{', '.join(may_approve)} may approve it" if may_approve else "nobody may now"
    few = " So it cannot be granted now." if len(may_approve) < told.lacks else ""
    return f"{needed}; {so_far}; {may}.{few}"


def verdict_fate(kept: Kept, barred: str = "") -> str:
    """What became of a verdict when it was posted, and that it does not count, where that is so."""
    kind, state, answer = kept.verdict.kind, kept.state, kept.answer
    but = f" But {uncounted(barred)}." if barred else ""
    if state == "acked":
        lacks = f" It is {lacking(kept)}." if kept.lacks else ""
        return f"The desk has your {NOUNS[kind]}.{lacks}{but}"
    if state == "refused" and answer == UNASKED:
        return f"It was not posted: {answer}."
    if state == "refused":
        return f"The desk refused that. {in_words(answer)}"
    return f"It is kept here and not yet at the desk: {answer}. It is posted again by itself."


def on_hosts(kind: str, standing: Standing) -> str:
    """What a verdict means on the hosts, which know what the desk says by their next fetch; empty
    where it changes nothing there."""
    if kind == "approve" and standing.is_in_force:
        return f"Each host has it with its next fetch, {FETCHED}."
    # (void: it was revoked in its first second)
    is_ended = standing.is_cut or (kind == "revoke" and standing.status == "void")
    if kind != "approve" and is_ended:
        return f"Each host takes it away with its next fetch, {FETCHED}: until then sudo allows it."
    return ""


def approvable(request: Kept) -> None:
    """Raises where the desk refused the request: an approval would wait there for any other of the
    same name. Nor is approved here what came by another relay, which alone knows the reason."""
    if request.state == "refused":
        raise BadWord(
            f"the desk refused {request.request.by} {request.request.no}, so there is nothing to"
            f" approve. {in_words(request.answer)}"
        )
    if request.id < 0:
        raise BadWord(
            f"{request.request.by} {request.request.no} came by another way in, which shows why it was"
            " asked: approve it there"
        )


def unseen(kind: str, of: str, no: int, open_here: Sequence[int] = ()) -> str:
    """What to say of a verdict on a request that nobody asked here. Nobody approves what they
    cannot see: an approval may come before its request, which could then ask for anything."""
    text = f"there is no {of} {no} here"
    if open_here:
        text += f": {of}'s open requests are {', '.join(map(str, open_here))}"
    if kind == "approve":
        raise BadWord(text)
    return f"{text[0].upper()}{text[1:]}, so it cannot be shown."


def as_data(standing: Standing) -> dict[str, object]:
    """A request and what became of it, for scripts: `status` and what belongs to it are the desk's
    words, `state` is the relay's own."""
    request, told, grant = standing.request, standing.told, standing.grant
    may = standing.may_approve if standing.word == "waiting" else None
    return {
        "who": request.by,
        "no": request.no,
        "status": standing.status or None,
        "state": standing.state or None,
        "window": {"from": stamp(grant.begins), "until": stamp(grant.ends)} if grant else None,
        "denial": told.denial or None if told else None,
        "lacks": told.lacks or None if told else None,
        "may_approve": None if may is None else list(may),
        "refusal": standing.kept.answer if standing.kept.state == "refused" else None,
        "trouble": standing.kept.answer if standing.kept.state == "kept" else None,
        "elsewhere": standing.is_elsewhere,
        "lacking": lacking_data(standing.kept),
        "at": request.at,
        "ceiling": request.wish.ceiling,
        "hosts": list(request.wish.hosts),
        "runas": request.wish.runas,
        "commands": list(request.wish.commands),
        "from": request.wish.begins,
        "until": request.wish.ends,
        **standing.kept.reason.data(),
        "verdicts": [verdict_data(it) for it in standing.said],
    }


def offer_data(
    ceiling: Ceiling, roster: Roster, demand: Demand, person: str, now: datetime
) -> dict[str, object]:
    """A ceiling that a person may ask under, for scripts."""
    why, ticket = demand.wants(ceiling.label)
    return {
        "ceiling": ceiling.label,
        "needs": ceiling.needs,
        "longest": ceiling.longest,
        "hosts": list(ceiling.hosts),
        "runas": list(ceiling.runas),
        "commands": list(ceiling.commands),
        "approvers": roster.approvers(person, ceiling.label, now),
        "needs_why": why,
        "needs_ticket": ticket,
    }


def verdict_data(said: Said) -> dict[str, object]:
    """A verdict; `counts` and `barred` are the desk's word, null where it told none."""
    verdict: Verdict = said.verdict
    data: dict[str, object] = {"by": verdict.by, "kind": verdict.kind, "at": verdict.at}
    counts = None if said.barred is None else said.counts
    data |= {"state": said.kept.state, "elsewhere": said.is_elsewhere}
    data |= {"counts": counts, "barred": said.barred or None}
    return data | {"lacking": lacking_data(said.kept), "why": said.kept.reason.why or None}


def lacking_data(kept: Kept) -> list[dict[str, str]]:
    """The desks that lack what another has, for scripts."""
    return [{"desk": desk, "answer": said} for desk, said in kept.lacks]


def grant_data(grant: Grant, kept: Kept) -> dict[str, object]:
    """A grant in force and its request, for scripts."""
    data: dict[str, object] = {"who": grant.who, "no": grant.no, "ceiling": grant.ceiling}
    data |= {"from": stamp(grant.begins), "until": stamp(grant.ends)}
    wish = kept.request.wish
    data |= {"hosts": list(wish.hosts), "runas": wish.runas, "commands": list(wish.commands)}
    return data | kept.reason.data() | {"elsewhere": kept.id < 0}

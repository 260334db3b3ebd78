"""Lists by ssh: a line for each request, or all of it."""

from __future__ import annotations

import shutil
import sys
from collections.abc import Callable
from datetime import datetime, timedelta, tzinfo

from steelnewt_client.letters import columns, pieces, plain
from steelnewt_client.messages import BadWord
from steelnewt_client.moments import now, of_stamp, stamp
from steelnewt_relay import telling
from steelnewt_relay.call import DONE, KEPT, Call
from steelnewt_relay.lists import MOST_LISTED
from steelnewt_relay.moments import clock, in_units, moment_of, shown
from steelnewt_relay.outbox import Kept
from steelnewt_relay.standing import Knowledge, Standing
from steelnewt_relay.summary import few, minutes
from steelnewt_relay.ways import messages_of, with_ways
from steelnewt_relay.woken import Woken

LIVE_LINES = ("on", "as", "may run", "why", "ticket")
URGENT = timedelta(minutes=15)


def show(
    call: Call,
    standings: list[Standing],
    knowledge: Knowledge,
    none: str,
    lines_of: Callable[[Kept, tzinfo], telling.Lines] = telling.brief_lines,
) -> int:
    """Requests, each with what it asks for, who was told, who said what, and what became of it."""
    woken = Woken(call.outbox)
    for standing in standings:
        call.say_strong(f"{standing.name}  [{telling.label(standing)}]")
        call.say_lines(lines_of(standing.kept, call.zone))
        for name, when in woken.calls(standing.kept.id):
            call.say(f"  {name} was told at {clock(when, call.zone, knowledge.now)}")
        for said in standing.said:
            for line in telling.said_lines(said, call.zone):
                call.say(line)
        call.say(f"  {telling.fate(standing, call.zone)}")
        call.say()
    return ended(call, standings, knowledge, none)


def ended(call: Call, standings: list[Standing], knowledge: Knowledge, none: str) -> int:
    if not standings:
        call.say(none)
    if knowledge.trouble:
        call.say(f"The desk does not answer: {knowledge.trouble}.")
    call.give_data(data_of(call, standings, knowledge))
    return KEPT if knowledge.trouble else DONE


def data_of(
    call: Call, standings: list[Standing], knowledge: Knowledge
) -> list[dict[str, object]]:
    """The requests for scripts; for an auditor, by which keys they and the verdicts came, too."""
    data = [telling.as_data(it) for it in standings]
    if not call.roster.holds(call.person, call.auditors, knowledge.now):
        return data
    ways = call.outbox.ways.of(messages_of(standings))
    return [with_ways(told, it, ways) for told, it in zip(data, standings, strict=True)]


def list_of(
    call: Call, standings: list[Standing], knowledge: Knowledge, none: str, more: str = ""
) -> int:
    """A line for each request, as wide as the terminal."""
    if call.said.json:
        return ended(call, standings, knowledge, none)
    found = [row_of(it, call, knowledge.now) for it in standings]
    widths = [max((columns(row[at]) for row in found), default=0) for at in range(5)]
    room = shutil.get_terminal_size((80, 24)).columns if sys.stdout.isatty() else 80
    for standing, row in zip(standings, found, strict=True):
        line = "  ".join(
            text + " " * (width - columns(text)) for text, width in zip(row, widths, strict=False)
        )
        line = cut_at(f"{line}  {row[5]}".rstrip(), room)
        if is_urgent(standing, knowledge.now):
            call.say_strong(line)
        else:
            call.say(line)
    if standings and more:
        call.say(more)
    return ended(call, standings, knowledge, none)


def cut_at(line: str, room: int) -> str:
    if columns(line) <= room:
        return line
    return f"{next(pieces(line, room - 1))}…"


def row_of(standing: Standing, call: Call, at: datetime) -> list[str]:
    """Whose request and which, as whom and where, how long, until when, its state, and why."""
    wish, reason = standing.request.wish, standing.kept.reason
    where = wish.hosts[0] if len(wish.hosts) == 1 else f"{len(wish.hosts)} hosts"
    why = " ".join(it for it in (reason.ticket, reason.why) if it)
    until = clock(of_stamp(wish.ends), call.zone, at)
    return [
        standing.name,
        f"{wish.runas}@{where}",
        in_units(wish.length()),
        f"until {until}",
        state_of(standing, at),
        plain(why),
    ]


def state_of(standing: Standing, at: datetime) -> str:
    """What a request needs, or what became of it, in a few words."""
    if standing.word != "waiting" or not standing.told:
        return telling.label(standing)
    needs = f"needs {standing.told.lacks}"
    if is_urgent(standing, at):
        left = of_stamp(standing.request.wish.ends) - at
        return f"{needs}, {minutes(left)} min left"
    return needs


def is_urgent(standing: Standing, at: datetime) -> bool:
    ends = of_stamp(standing.request.wish.ends)
    return standing.is_open and ends - at <= URGENT


def mine(call: Call) -> int:
    return page_of(call, call.person, "", "You asked for nothing.")


def page_of(call: Call, who: str, host: str, none: str) -> int:
    """A page of requests, the newest on the first; and how to see the next one."""
    knowledge, said = call.knowledge(), call.said
    wanted = knowledge.wanted(who, host, said.all)
    kept = call.outbox.lists.page(wanted, said.page)
    found = knowledge.listed(kept, wanted, said.page, said.all)
    status = either(call, found, knowledge, none)
    if len(kept) == MOST_LISTED:
        call.say(f"Older ones: write --page {said.page + 1}")
    return status


def either(call: Call, found: list[Standing], knowledge: Knowledge, none: str) -> int:
    """A line for each, or all of each; the newest last, where a terminal shows it. (Data begin
    with the newest.)"""
    listed = found if call.said.json else found[::-1]
    if call.said.long:
        return show(call, listed, knowledge, none)
    return list_of(call, listed, knowledge, none)


def waiting(call: Call) -> int:
    """What waits for this person; what ends first is on top."""
    knowledge, none = call.knowledge(), "Nothing waits for you."
    found = knowledge.waiting(call.person)
    if call.said.json:
        return ended(call, found, knowledge, none)
    listed = sorted(found, key=lambda it: it.request.wish.ends)
    if call.said.long:
        return show(call, listed, knowledge, none)
    more = f"All of one: show WHO NUMBER. To say yes: {call.program} approve WHO NUMBER"
    return list_of(call, listed, knowledge, none, more)


def ceilings(call: Call) -> int:
    """What a person may ask for, and who could approve it now."""
    at, data = now(), []
    for ceiling in call.roster.may_ask(call.person, at):
        call.say_strong(ceiling.label)
        call.say_lines(telling.offer_lines(ceiling, call.roster, call.person, at))
        call.say()
        data.append(telling.offer_data(ceiling, call.roster, call.demand, call.person, at))
    if not data:
        call.say("There is nothing that you may ask for now.")
    call.give_data(data)
    return DONE


def show_one(call: Call) -> int:
    if call.said.of is None:
        raise BadWord("which one? Write show WHO NUMBER")
    knowledge = call.knowledge()
    if (kept := knowledge.request(call.said.of, call.said.no)) is None:
        raise BadWord(f"there is no {call.said.of} {call.said.no} here")
    return show(call, [knowledge.standing(kept)], knowledge, "", telling.kept_lines)


def history(call: Call) -> int:
    none = "Nobody asked for anything of that here."
    return page_of(call, call.said.who or "", call.said.on or "", none)


def live(call: Call) -> int:
    """What is in force at a moment, whoever asked and wherever."""
    at = moment_of(call.said.at, call.zone, now())
    knowledge, data = Knowledge(call.outbox, call.desk, call.roster, at), []
    knowledge.ask_open()
    rows = [(grant, kept) for grant, kept in knowledge.rows() if grant.begins <= at]
    call.say(f"In force at {shown(at, call.zone)}: {len(rows) or 'nothing'}")
    for grant, kept in rows:
        window = f"{shown(grant.begins, call.zone)} until {shown(grant.ends, call.zone)}"
        mark = f"  {telling.ELSEWHERE}" if kept.id < 0 else ""
        call.say(f"{grant.who} {grant.no}  {grant.ceiling}  {window}{mark}")
        lines = telling.brief_lines(kept, call.zone)
        call.say_lines([it for it in lines if it[0] in LIVE_LINES])
        data.append(telling.grant_data(grant, kept))
    call.give_data(data)
    return DONE


def review(call: Call) -> int:
    """The desk's report, for whoever holds the auditors' duty."""
    at = now()
    if not call.roster.holds(call.person, call.auditors, at):
        raise BadWord("the findings are for auditors, and you have not that duty")
    found = call.desk.review(at)
    for part, rows in found.parts.items():
        call.say(f"{telling.finding(part)}: {len(rows) or 'none'}")
        for row in rows:
            call.say("  " + "  ".join(row))
    call.give_data({"at": stamp(at), "parts": found.parts})
    return DONE


def overview(call: Call) -> int:
    """What waits, what is in force, and the words that fit: `ssh -t desk` alone."""
    knowledge = call.knowledge()
    own = knowledge.mine(call.person)
    found = knowledge.waiting(call.person)
    in_force = [it for it in own if it.is_in_force]
    open_own = [it for it in own if it.is_open]
    told = [f"{len(found) or 'nothing'} wait{'s' if len(found) < 2 else ''} for you"]
    told += [in_force_line(it, knowledge.now) for it in in_force[:3]]
    told.append(f"{len(open_own) or 'nothing'} of yours wait{'s' if len(open_own) < 2 else ''}")
    call.say_strong(f"{call.person}: {' · '.join(told)}")
    for line in fitting_words(call, found, in_force, open_own):
        call.say(f"  {call.program} {line}")
    call.give_data({"waiting": [it.name for it in found], "in_force": [it.name for it in in_force]})
    if knowledge.trouble:
        call.say(f"The desk does not answer: {knowledge.trouble}.")
    return KEPT if knowledge.trouble else DONE


def in_force_line(standing: Standing, at: datetime) -> str:
    left = minutes(standing.grant.ends - at) if standing.grant else 0
    return f"{standing.name} in force on {few(standing.request.wish.hosts)} for {left} min"


def fitting_words(
    call: Call, found: list[Standing], in_force: list[Standing], open_own: list[Standing]
) -> list[str]:
    """Three lines at most that fit what there is."""
    is_one = len(found) == 1 and not found[0].is_elsewhere
    lines = [f"approve {found[0].name}"] if is_one else ["waiting"] if found else []
    lines += [f"extend {it.request.no}" for it in in_force if not it.is_elsewhere][:1]
    lines += [f"wait {it.request.no}" for it in open_own if not it.is_elsewhere][:1]
    if call.roster.may_ask(call.person, now()):
        lines += [f"ask {it}" for it in call.outbox.own.names(call.person)[:1]] or ["ask"]
    return [*lines[:3], "help"]

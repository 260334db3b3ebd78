"""Verdicts by ssh: each request is shown whole, and one yes is for all that were named."""

from __future__ import annotations

from steelnewt_client.messages import BadWord, Verdict
from steelnewt_client.moments import now, stamp
from steelnewt_relay import telling
from steelnewt_relay.call import DONE, NOT_SENT, REFUSED, Call
from steelnewt_relay.config import Config
from steelnewt_relay.events import Event, Finder, Manner
from steelnewt_relay.moments import in_units
from steelnewt_relay.notices import Notices
from steelnewt_relay.posting import post_one
from steelnewt_relay.reasons import Reason
from steelnewt_relay.sending import told_verdict
from steelnewt_relay.standing import Knowledge, Standing
from steelnewt_relay.summary import left_of_window, summed_up

Name = tuple[str, int]


def withdraw(call: Call) -> int:
    """Ends requests of one's own."""
    call.said.command, call.said.names = "revoke", [(call.person, no) for no in call.said.names]
    if not call.said.names:
        raise BadWord("which one? Write withdraw NUMBER: 'mine' shows them")
    return give_verdicts(call)


def give_verdicts(call: Call) -> int:
    """Approves, refuses or revokes requests."""
    kind, why = call.said.command, Reason.of(call.said.why, "").why
    knowledge = call.knowledge()
    names = call.said.names or [the_only_one(call, knowledge)]
    call.say(f"You are {call.person}.")
    kept = {name: knowledge.request(*name) for name in names}
    knowledge.ask([it for it in kept.values() if it])
    standings = {name: knowledge.standing(it) if it else None for name, it in kept.items()}
    for name, standing in standings.items():
        show_request(call, knowledge, name, standing)
    if given := [name for name, it in standings.items() if is_said(call, name, it)]:
        named = ", ".join(f"{of} {no}" for of, no in given)
        call.say(f"You {telling.DONE[kind]} {named} already. Write --again to say it once more.")
        return NOT_SENT
    if is_vain(call, knowledge, standings):
        return REFUSED
    for (of, _), standing in standings.items():
        if standing:
            call.say(summed_up(of, standing.request.wish))
    if not call.is_agreed(question_of(call, names)):
        return NOT_SENT
    return sent(call, names, why)


def question_of(call: Call, names: list[Name]) -> str:
    kind, (of, no) = call.said.command, names[0]
    what = f"{of} {no}" if len(names) == 1 else f"these {len(names)}"
    return f"{call.person}: {kind} {what}?"


def the_only_one(call: Call, knowledge: Knowledge) -> Name:
    """The one request that waits for this person, where they name none."""
    kind = call.said.command
    left = knowledge.waiting(call.person)
    found = [it for it in left if it.word == "waiting" and not it.is_elsewhere]
    if kind == "revoke" or len(found) != 1:
        many = ", ".join(it.name for it in found)
        raise BadWord(f"which one? Write {kind} WHO NUMBER" + (f": {many} wait" if many else ""))
    return found[0].request.by, found[0].request.no


def sent(call: Call, names: list[Name], why: str) -> int:
    """Keeps and posts what a person said yes to; the highest status of all."""
    status, data = DONE, []
    for of, no in names:
        verdict = Verdict(call.person, call.said.command, of, no, stamp(now()))
        kept = call.outbox.keep_verdict(verdict, why=why)
        if len(names) > 1:
            call.say_strong(f"{of} {no}")
        found, told = told_verdict(call, post_one(call.outbox, call.desk, kept))
        status = max(status, found)
        data.append(told)
    call.give_data(data[0] if len(data) == 1 else data)
    return status


def show_request(
    call: Call, knowledge: Knowledge, name: Name, standing: Standing | None
) -> None:
    """What a verdict is about."""
    kind, (of, no) = call.said.command, name
    if standing is None:
        call.say(telling.unseen(kind, of, no, open_of(call, of)))
        return
    if kind == "approve":
        telling.approvable(standing.kept)
    call.say_strong(f"{of} {no}")
    call.say_lines(telling.brief_lines(standing.kept, call.zone))
    call.say(telling.fate(standing, call.zone))
    if standing.word == "waiting" and (left := left_of_window(standing.request.wish, now())):
        call.say_strong(f"{left}. For the whole length from now on: let {of} {no}")


def open_of(call: Call, of: str) -> list[int]:
    """The numbers of a person's requests that are open."""
    return [it.request.no for it in call.outbox.lists.open_of(of, stamp(now()))]


def is_vain(call: Call, knowledge: Knowledge, standings: dict[Name, Standing | None]) -> bool:
    """Whether nothing is sent, for a verdict would not count; says which, and why."""
    kind, found = call.said.command, False
    for standing in filter(None, standings.values()):
        if why := knowledge.bar_now(standing, kind, call.person):
            call.say_strong(f"{standing.name}: {telling.warning(kind, why)}")
            found = True
    if found and not call.said.anyway:
        call.say("Nothing was sent. Write --anyway to say it all the same.")
    return found and not call.said.anyway


def is_said(call: Call, name: Name, standing: Standing | None) -> bool:
    """Whether the person gave this verdict before, and it is not one that does not count."""
    if call.said.again:
        return False
    if standing is None:
        entries = call.outbox.verdicts(*name)
    else:
        entries = [it.kept for it in standing.said if not it.barred]
    given = [it.verdict for it in entries if it.state != "refused"]
    return any((it.by, it.kind) == (call.person, call.said.command) for it in given)


def let(call: Call) -> int:
    """Tells whoever asked that this person would approve the whole length, from now on."""
    of, no = call.said.of, call.said.no
    kept = call.outbox.request(of, no) if of else None
    if kept is None:
        raise BadWord("which one? Write let WHO NUMBER: 'waiting' shows them")
    wish, knowledge = kept.request.wish, call.knowledge()
    standing = knowledge.standing(kept)
    if why := knowledge.bar_now(standing, "approve", call.person):
        raise BadWord(telling.warning("approve", why).rstrip("."))
    if call.config.notify is None:
        raise BadWord(f"nobody is told anything here: write to {of} yourself")
    event = full_event(call.person, call.config, knowledge, standing)
    Notices(call.outbox).record([event])
    call.say(f"{of} is told: {call.program} again {no} asks for {in_units(wish.length())} anew.")
    call.give_data({"told": of})
    return DONE


def full_event(person: str, config: Config, knowledge: Knowledge, standing: Standing) -> Event:
    """The asker may have the whole length: one more word of theirs, and it is asked for anew."""
    length = in_units(standing.request.wish.length())
    said = f"{person} would approve the whole {length} of {standing.name}, from now on."
    return Finder(knowledge, Manner.of(config)).event("full", standing.kept, standing, said, person)

"""Staying until a request is decided, and the very line to type on the host then."""

from __future__ import annotations

import time

from steelnewt_client.messages import BadWord, Wish, number_of
from steelnewt_client.moments import now
from steelnewt_relay import telling
from steelnewt_relay.call import DONE, KEPT, NOT_SENT, Call, Late, admit
from steelnewt_relay.moments import clock
from steelnewt_relay.outbox import Kept
from steelnewt_relay.standing import Standing
from steelnewt_relay.summary import by_reach, few
from steelnewt_relay.woken import Woken
from steelnewt_relay.words import unescaped

EVERY = 3.0  # seconds between two looks


def wait(call: Call) -> int:
    """Waits until a request is decided, as `wait WHO NUMBER`, or with the number of one's own."""
    *who, no = call.said.names
    kept = call.outbox.request(who[0] if who else call.person, number_of(no))
    if kept is None or len(who) > 1:
        raise BadWord("there is no such request: 'history' shows them")
    return stay(call, kept, KEPT)


def stay(call: Call, kept: Kept, status: int = DONE) -> int:
    """Says what becomes of a request as it happens; `status` where the person leaves before it is
    decided, or where the call has taken as long as one may."""
    name = f"{kept.request.by} {kept.request.no}"
    try:
        call.say(f"{name}: waiting. Ctrl-C: it goes on without you.")
        return followed(call, kept)
    except (KeyboardInterrupt, Late):
        call.say(f"\nIt goes on without you: {call.program} wait {name}")
        return status


def followed(call: Call, kept: Kept) -> int:
    """Looks again and again. Who is calling is looked at again each time, too."""
    said = set[str]()
    while True:
        standing = call.knowledge().standing(call.outbox.entry(kept.id))
        for line in news(call, standing):
            if line not in said:
                call.say(line)
            said.add(line)
        if not standing.is_open:
            return decided(call, standing)
        time.sleep(EVERY)
        admit(call.config, call.caller)


def news(call: Call, standing: Standing) -> list[str]:
    """Who was told, and who said what, each on a line."""
    at = now()
    calls = Woken(call.outbox).calls(standing.kept.id)
    told = [f"{name} was told at {clock(when, call.zone, at)}" for name, when in calls]
    return [*told, *(telling.said_line(it, call.zone) for it in standing.said)]


def decided(call: Call, standing: Standing) -> int:
    """What became of it; the line to type, where it is granted."""
    call.say_strong(telling.fate(standing, call.zone))
    if standing.is_granted:
        call.say(sudo_lines(standing.request.wish))
        return DONE
    return NOT_SENT


def sudo_lines(wish: Wish) -> str:
    """What a person types on a host that has fetched its file."""
    return f"On {few(wish.hosts)}, within a few minutes: {sudo_line(wish)}"


def sudo_line(wish: Wish) -> str:
    """The line for the widest command."""
    runas = "" if wish.runas == "root" else f"-u {wish.runas} "
    command = unescaped(by_reach(wish.commands)[0])
    if command == "ALL":
        command = "COMMAND"
    elif command.endswith("/"):
        command += "PROGRAM"
    command = command.removesuffix(' ""')
    return f"sudo {runas}{command}"

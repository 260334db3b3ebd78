"""What a shell may put in a word's place: `complete WORD ..` prints it, a line each, for what was
typed so far, whose last word is not finished."""

from __future__ import annotations

from steelnewt_client.messages import VERDICTS
from steelnewt_client.moments import now, stamp
from steelnewt_relay.call import DONE, Call
from steelnewt_relay.words import WORDS

INNER = ("complete", "prepare", "send", "overview")
OPTIONS = {
    "ask": "--on --as --for --until --from --why --ticket --once --anyway --no-wait --yes --json",
    "again": "--for --until --from --why --ticket --anyway --no-wait --yes --json",
    "mine": "-l --all --page --json", "waiting": "-l --json",
    "history": "-l --all --who --on --page --json", "live": "--at --json",
} | {it: "--why --anyway --again --yes --json" for it in VERDICTS}  # fmt: skip


def complete(call: Call) -> int:
    *before, last = call.said.words or [""]
    for word in sorted(set(candidates(call, before, last))):
        if word.startswith(last):
            print(word)
    return DONE


def candidates(call: Call, before: list[str], last: str) -> list[str]:
    """What may stand behind these words."""
    if not before:
        return [it for it in WORDS if it not in INNER]
    first, at = before[0], now()
    offered = call.roster.may_ask(call.person, at)
    named = [it for it in offered if it.label in before] or offered
    if before[-1] == "--on":
        return [*(host for it in named for host in it.hosts), "all"]
    if before[-1] == "--as":
        return [name for it in named for name in it.runas]
    if last.startswith("-"):
        return OPTIONS.get(first, "--json").split()
    if first == "ask" and len(before) == 1:
        return [*(it.label for it in offered), *call.outbox.own.names(call.person)]
    if first == "ask":
        return [command.partition(" ")[0] for it in named for command in it.commands]
    return names_for(call, first, before[1:], stamp(at))


def names_for(call: Call, first: str, given: list[str], at: str) -> list[str]:
    """Whose requests are open, or the numbers of one person's."""
    if first in ("again", "extend", "withdraw", "save"):
        return numbers_of(call, call.person, at)
    if first in (*VERDICTS, "show", "let", "wait") and not given:
        found = call.outbox.lists.open(at, call.outbox.share.open)
        return [it.request.by for it in found]
    return numbers_of(call, given[0], at) if given else []


def numbers_of(call: Call, person: str, at: str) -> list[str]:
    return [str(it.request.no) for it in call.outbox.lists.open_of(person, at)]

"""Writes messages for their authors to sign on their own machines (`mydesk`), and takes them back
signed (docs/SIGNING.md)."""

from __future__ import annotations

import json
import sys
from typing import TYPE_CHECKING

from steelnewt_client.messages import VERDICTS, BadWord, Request, Verdict
from steelnewt_client.moments import now, stamp
from steelnewt_client.signed import MOST_LINE, MOST_LISTED, BadLine, Signed, read_line
from steelnewt_relay import telling
from steelnewt_relay.numbers import hear
from steelnewt_relay.posting import post_one
from steelnewt_relay.reasons import NONE, Reason
from steelnewt_relay.call import DONE
from steelnewt_relay.sending import (
    again_of,
    asked_of,
    hopeless,
    saved_of,
    told_request,
    told_verdict,
)

if TYPE_CHECKING:
    from steelnewt_client.messages import Wish
    from steelnewt_relay.call import Call

Item = dict[str, object]
SIGN = "this site takes signed messages alone: write mydesk in place of ssh desk (man mydesk)"


def item(text: str, request: str | None, reason: Reason, notes: list[str]) -> Item:
    """What a person's own program is told of a message."""
    told: Item = {"message": text, "request": request, "why": reason.why}
    return told | {"ticket": reason.ticket, "notes": [it for it in notes if it]}


def prepare_request(call: Call, wish: Wish, reason: Reason) -> Item:
    """A request, which is sent once it comes back signed. What cannot be granted is not prepared,
    but for whoever wants it in any case."""
    at, note = now(), hopeless(call, wish)
    if note and not call.said.anyway:
        raise BadWord(f"{note.rstrip('.')}. Change that, or write --anyway")
    hear(call.outbox, call.config, call.desk, call.person)
    request = call.outbox.prepare_request(call.person, wish.as_of(at), stamp(at), reason)
    return item(request.text(), None, reason, [note])


def prepare_verdict(call: Call, kind: str, of: str, no: int) -> Item:
    """A verdict, the request's text if somebody asked it here, and how that stands."""
    verdict, kept = Verdict(call.person, kind, of, no, stamp(now())), call.outbox.request(of, no)
    own, reason, notes = Reason.of(call.said.why, ""), NONE, list[str]()
    if kept is None:
        notes.append(telling.unseen(kind, of, no))
    else:
        if kind == "approve":
            telling.approvable(kept)
        knowledge = call.knowledge()
        standing, reason = knowledge.standing(kept), kept.reason
        notes.append(telling.fate(standing, call.zone))
        notes.append(vain(call, kind, knowledge.bar_now(standing, kind, call.person)))
    if kind != "approve":
        reason = own
    elif own:
        raise BadWord("where people sign, an approval is signed over the reason of its request:"
                      " leave --why (a refusal and a revocation have one)")  # fmt: skip
    call.outbox.prepare_verdict(verdict, reason)
    return item(verdict.text(), kept.body if kept else None, reason, notes)


def vain(call: Call, kind: str, why: str) -> str:
    """The warning of a verdict that would not count, for whoever gives it in any case."""
    text = telling.warning(kind, why)
    if text and not call.said.anyway:
        raise BadWord(f"{text.rstrip('.')}. Write --anyway to say it all the same")
    return text


def told(items: list[Item]) -> None:
    print(json.dumps({"items": items}))


def signed_lines() -> list[Signed]:
    """The messages that somebody signed, a line each."""
    given = sys.stdin.buffer.read((MOST_LINE + 1) * MOST_LISTED + 1)
    lines = given.removesuffix(b"\n").split(b"\n")
    if len(lines) > MOST_LISTED:
        raise BadWord(f"these are more than {MOST_LISTED} messages")
    try:
        found = [read_line(it) for it in lines]
    except BadLine as fault:
        raise BadWord(f"this is no message with a signature: {fault}") from None
    if not all(it.signature for it in found):
        raise BadWord("this is no message with a signature: mydesk makes one")
    return found


def prepare(call: Call) -> int:
    """Writes messages for their author to sign, with what they have to see of each."""
    call.said = call.said.said
    if call.said.command == "withdraw":
        call.said.command, numbers = "revoke", call.said.names
        call.said.names = [(call.person, no) for no in numbers]
    if call.said.command in VERDICTS:
        names = call.said.names
        told([prepare_verdict(call, call.said.command, *it) for it in names])
    else:
        ways = {"again": again_of, "saved": saved_of, "ask": asked_of}
        wish, reason = ways[call.said.command](call)
        told([prepare_request(call, wish, reason)])
    return DONE


def send_signed(call: Call) -> int:
    """Keeps messages that their author signed, posts them, and says what became of each."""
    status, data = DONE, list[dict[str, object]]()
    for kept in [call.outbox.keep_signed(call.person, it) for it in signed_lines()]:
        if isinstance(kept.message, Request):
            call.say_strong(f"Kept as {call.person} {kept.request.no}.")
            status = max(status, told_request(call, post_one(call.outbox, call.desk, kept)))
        else:
            call.say(f"Kept: {kept.verdict.kind} {kept.verdict.of} {kept.verdict.no}.")
            found, fate = told_verdict(call, post_one(call.outbox, call.desk, kept))
            status = max(status, found)
            data.append(fate)
    if data:
        call.give_data(data[0] if len(data) == 1 else data)
    return status

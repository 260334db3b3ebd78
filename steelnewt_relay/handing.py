"""Hands over to the door's page what somebody is about to sign with a passkey, and takes it back
signed. The door shows it by itself: of what is handed over it believes a reason and a ticket alone,
which are signed too."""

from collections.abc import Iterable
from dataclasses import dataclass

import flask
from werkzeug.wrappers import Response

from steelnewt_client.messages import BadWord, Verdict, Wish
from steelnewt_client.moments import stamp
from steelnewt_client.signed import BadLine, Signed, read_line, said_in
from steelnewt_relay import telling
from steelnewt_relay.numbers import hear
from steelnewt_relay.outbox import Kept
from steelnewt_relay.posting import post_one
from steelnewt_relay.reasons import NONE, Reason
from steelnewt_relay.visit import MOST_CARDS, Visit

NOTHING = "nothing was signed: begin again, or write mydesk"


@dataclass(frozen=True)
class Handed:
    """A form that leads to the door's page: where, and its fields."""

    where: str
    fields: tuple[tuple[str, str], ...]


def handed(visit: Visit, fields: Iterable[tuple[str, str]]) -> Handed | None:
    """None where nobody signs on a page."""
    confirm = visit.config.confirm
    return Handed(f"{confirm}/confirm", tuple(fields)) if confirm else None


def verdicts(
    visit: Visit, kind: str, names: list[tuple[str, int]], is_back: bool = False
) -> Handed | None:
    """The form for a verdict on requests, which the door writes itself. (`is_back` leads to the
    request's own page again.)"""
    if not names:
        return None
    fields = [("kind", kind), ("back", "1" if is_back else "")]
    for of, no in names:
        kept = visit.outbox.request(of, no) if kind == "approve" else None
        reason = kept.reason if kept else NONE
        fields += [("name", f"{of} {no}"), ("reason", reason.why), ("ticket", reason.ticket)]
    return handed(visit, fields)


def request(visit: Visit, wish: Wish, reason: Reason) -> Handed | None:
    """The form for a request, which has its number from here on."""
    if not visit.config.confirm:
        return None
    hear(visit.outbox, visit.config, visit.desk, visit.person)
    sent, at = wish.as_of(visit.now), stamp(visit.now)
    made = visit.outbox.prepare_request(visit.person, sent, at, reason)
    words = ("message", made.text()), ("reason", reason.why), ("ticket", reason.ticket)
    return handed(visit, [("kind", "request"), *words])


def take_back() -> Response:
    """Keeps what somebody signed on the door's page, posts it, and goes on from there."""
    visit: Visit = flask.g.visit
    form = flask.request.form
    lists = [form.getlist(name) for name in ("message", "about", "digest")]
    if not 1 <= len(lists[0]) <= MOST_CARDS or len({len(it) for it in lists}) != 1:
        raise BadWord(NOTHING)
    parts = zip(*lists, strict=True)
    signed = [line_of(Signed(it[0], form.get("signature", ""), *it[1:])) for it in parts]
    kept = [keep(visit, it, form.get("why", "")) for it in signed]
    for each in kept:
        post_one(visit.outbox, visit.desk, each)
    sent = ",".join(str(it.id) for it in kept)
    if form.get("back") and isinstance(kept[0].message, Verdict):
        verdict = kept[0].verdict
        where = flask.url_for("request_page", by=verdict.of, no=verdict.no, sent=sent)
    else:
        where = flask.url_for("home", sent=sent)
    return flask.redirect(where, 303)


def line_of(signed: Signed) -> Signed:
    """The parts of a line, each of its form."""
    try:
        found = read_line(signed.line().encode("utf-8"))
    except BadLine:
        raise BadWord(NOTHING) from None
    if not found.is_by_passkey:
        raise BadWord(NOTHING)
    return found


def keep(visit: Visit, signed: Signed, why: str) -> Kept:
    """Keeps a message that this person signed: a verdict was written by the door, with the reason
    of its request, or of its own."""
    try:
        message = said_in(signed.message)
    except BadLine:
        raise BadWord(NOTHING) from None
    if isinstance(message, Verdict) and message.by == visit.person:
        reason = Reason.of(why, "") if message.kind != "approve" else NONE
        if message.kind == "approve":
            asked = visit.outbox.request(message.of, message.no)
            if asked is None:
                raise BadWord(telling.unseen("approve", message.of, message.no))
            telling.approvable(asked)
            reason = asked.reason
        visit.outbox.prepare_verdict(message, reason)
    return visit.outbox.keep_signed(visit.person, signed)

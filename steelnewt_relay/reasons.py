"""Why somebody asks, approves, refuses or revokes: a text, and a request's ticket, kept beside the
message. The desk's message has none."""

import re
import sqlite3
from collections.abc import Iterator
from dataclasses import dataclass, field

from steelnewt_client.letters import plain, tidy
from steelnewt_client.messages import BadWord

MOST_WHY, MOST_TICKET = 500, 64  # characters
TICKET = r"[!-~]+"


@dataclass(frozen=True)
class Reason:
    """A reason and a ticket. Both may be empty, where nobody demands them."""

    why: str = ""
    ticket: str = ""

    @staticmethod
    def of(why: str | None, ticket: str | None) -> "Reason":
        """A reason of words that were checked: one line, and nothing that a terminal obeys or turns
        round. What nobody would see in it is left out."""
        text, name = (why or "").strip(), (ticket or "").strip()
        if len(text) > MOST_WHY:
            raise BadWord(f"a reason has at most {MOST_WHY} characters, and this has {len(text)}")
        if not text.isprintable():
            raise BadWord("a reason is one line, and has no control characters")
        text = tidy(text)
        if name and (len(name) > MOST_TICKET or not re.fullmatch(TICKET, name)):
            raise BadWord(
                f"a ticket has at most {MOST_TICKET} letters, digits and marks, and no blank"
            )
        return Reason(text, name)

    def __bool__(self) -> bool:
        return bool(self.why or self.ticket)

    def lines(self) -> Iterator[tuple[str, str]]:
        if self.why:
            yield "why", plain(self.why)
        if self.ticket:
            yield "ticket", plain(self.ticket)

    def data(self) -> dict[str, str | None]:
        return {"why": self.why or None, "ticket": self.ticket or None}


NONE = Reason()


class Reasons:
    """The reasons that an outbox keeps, each beside its message."""

    def __init__(self, base: sqlite3.Connection) -> None:
        self.base = base

    def keep(self, message: int, reason: Reason) -> None:
        """Keeps the reason of a message, whose first one stays."""
        if reason:
            row = (message, reason.why, reason.ticket)
            self.base.execute("INSERT OR IGNORE INTO reasons VALUES (?, ?, ?)", row)

    def keep_verdict(self, message: int, why: str | None) -> None:
        """Keeps why somebody gave a verdict."""
        self.keep(message, Reason.of(why, ""))

    def of_verdict(self, by: str, kind: str, of_asker: str, of_no: int) -> str | None:
        """Why a person gave a verdict on a request, the last time that they did."""
        found = self.base.execute(
            "SELECT why FROM messages JOIN reasons USING (id)"
            " WHERE by = ? AND kind = ? AND of = ? AND no = ? ORDER BY id DESC LIMIT 1",
            (by, kind, of_asker, of_no),
        ).fetchone()
        return str(found[0]) if found else None


@dataclass(frozen=True)
class Demand:
    """What this relay demands: of every request (True), or under some ceilings."""

    why: bool | tuple[str, ...] = False
    ticket: bool | tuple[str, ...] = False
    form: re.Pattern[str] = field(default_factory=lambda: re.compile(TICKET))

    def wants(self, ceiling: str) -> tuple[bool, bool]:
        """Whether a request under a ceiling needs a reason, and a ticket."""
        why, ticket = (
            it if isinstance(it, bool) else ceiling in it for it in (self.why, self.ticket)
        )
        return why, ticket

    def reason(self, ceiling: str, why: str | None, ticket: str | None) -> Reason:
        """The reason of a request under a ceiling. Raises where it needs another."""
        found = Reason.of(why, ticket)
        found = Reason(found.why, self.spelled(found.ticket))
        self.check(ceiling, found)
        return found

    def spelled(self, ticket: str) -> str:
        """A ticket in capitals, where the site's tickets have them: ops-7 is OPS-7."""
        is_other = not self.form.fullmatch(ticket) and self.form.fullmatch(ticket.upper())
        return ticket.upper() if is_other else ticket

    def check(self, ceiling: str, reason: Reason) -> None:
        self.check_why(ceiling, reason)
        self.check_ticket(ceiling, reason)

    def check_why(self, ceiling: str, reason: Reason) -> None:
        if self.wants(ceiling)[0] and not reason.why:
            raise BadWord(f"say why: a request under {ceiling} needs a reason (--why TEXT)")

    def check_ticket(self, ceiling: str, reason: Reason) -> None:
        if self.wants(ceiling)[1] and not reason.ticket:
            raise BadWord(f"name a ticket: a request under {ceiling} needs one (--ticket ID)")
        if reason.ticket and not self.form.fullmatch(reason.ticket):
            raise BadWord(
                f"{reason.ticket!r} is no ticket of this site's, which match {self.form.pattern}"
            )


def demand_of(table: dict[str, object]) -> Demand:
    """The settings below [why]."""
    unknown = table.keys() - {"required", "ticket_required", "ticket"}
    if unknown:
        raise ValueError(f"[why] has no setting {', '.join(sorted(unknown))}")
    form = table.get("ticket", TICKET)
    if not isinstance(form, str):
        raise ValueError("[why] ticket is no regular expression between quotes")
    try:
        compiled = re.compile(form)
    except re.error as fault:
        raise ValueError(f"[why] ticket: {fault}") from None
    return Demand(demanded(table, "required"), demanded(table, "ticket_required"), compiled)


def demanded(table: dict[str, object], name: str) -> bool | tuple[str, ...]:
    found = table.get(name, False)
    if isinstance(found, bool):
        return found
    if isinstance(found, list) and all(isinstance(it, str) for it in found):
        return tuple(found)
    raise ValueError(f"[why] {name} is true, false or a list of ceilings")

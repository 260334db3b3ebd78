"""No number is given twice: an outbox that is new, or was brought back, asks the desk first which
numbers are used. From then on each number is also looked up at the desk, while that answers: what it
holds under a name may have been there before anybody asked."""

import json
from contextlib import suppress

from steelnewt_client.desk import AnyDesk, Silent
from steelnewt_client.messages import BadWord
from steelnewt_relay.config import Config
from steelnewt_relay.outbox import Outbox

# How each request's text has its kind, in the one form that a message has.
REQUEST = '"kind":"request"'
# So many numbers are looked up for one request.
MOST_TAKEN = 100
TAKEN = (
    "the desk holds messages under your next numbers that nobody sent here: tell the operator, and"
    " ask again"
)
UNHEARD = (
    "it is not known here yet which numbers are used: {}. Ask again in a while, or tell the"
    " operator"
)


def hear(outbox: Outbox, config: Config, desk: AnyDesk, person: str) -> None:
    """Takes over the greatest numbers that the desk knows, of several all that answer, before the
    first one is given, and leaves out numbers of this person's of which the desk knows. Refused
    where an outbox has not heard and none answers; one that has heard gives numbers while the desk
    is down. (`desk` is asked for as long as people wait, and the list of all messages may take
    longer.)"""
    if not outbox.has_heard():
        take_over(outbox, config.open_desk())
    with suppress(Silent):
        leave_out(outbox, desk, person)


def take_over(outbox: Outbox, desk: AnyDesk) -> None:
    """Takes over the greatest numbers that desks know."""
    listed, faults = list[str](), list[str]()
    for each in desk.each:
        try:
            listed.append(each.get("/v1/messages"))
        except Silent as fault:
            faults.append(str(fault))
    if not listed:
        raise BadWord(UNHEARD.format("; ".join(faults)))
    outbox.heard(greatest("".join(listed), outbox.numbers))


def leave_out(outbox: Outbox, desk: AnyDesk, person: str) -> None:
    """Goes past the numbers under which the desk holds anything in this person's name."""
    for _ in range(MOST_TAKEN):
        if desk.name(person, number := outbox.coming(person)) is None:
            return
        outbox.heard({person: number})
    raise BadWord(TAKEN)


def greatest(listed: str, numbers: tuple[int, int]) -> dict[str, int]:
    """Each asker's greatest number, of those that this relay may give."""
    found: dict[str, int] = {}
    for line in listed.splitlines():
        if REQUEST not in line:
            continue
        told = json.loads(line)
        if numbers[0] <= told["no"] <= numbers[1]:
            found[told["by"]] = max(found.get(told["by"], 0), told["no"])
    return found

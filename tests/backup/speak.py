"""What people say at the relay on a faked day: `speak.py SECOND`, as desk-relay. Messages go
into the outbox; the relay's own unit posts them. Prints them, and the requests' names, as JSON."""

from __future__ import annotations

import json
import sys
import time

from steelnewt_client.messages import Request, Verdict, Wish
from steelnewt_client.moments import stamp_of
from steelnewt_relay.config import read_config
from steelnewt_relay.numbers import hear
from steelnewt_relay.outbox import Kept, Outbox

CONFIG = "/etc/desk/relay.toml"
HOLDS = 29 * 86_400  # how long a right is asked for
PATIENCE = 240


def ask(outbox: Outbox, at: int, who: str, no: int) -> Kept:
    window = stamp_of(at + 60), stamp_of(at + HOLDS)
    wish = Wish("care", ("db1", "web1"), "root", (f"/usr/bin/true day-{at}-{no}",), *window)
    return outbox.keep_request(who, wish, stamp_of(at))


def is_granted(outbox: Outbox, asked: Request) -> bool:
    kinds = [it.verdict.kind for it in outbox.verdicts(asked.by, asked.no)]
    return kinds == ["approve"]


def spoken(outbox: Outbox, at: int) -> list[Kept]:
    """Ten messages: four requests, three approvals, a refusal of the fourth, and two revocations:
    of one of these, and of what was granted on an earlier day, and is in force."""
    older = [it for it in outbox.requests() if is_granted(outbox, it.request)]
    found = [ask(outbox, at + 600 * no, "ann" if no % 2 else "carol", no) for no in range(4)]
    verdicts = [("approve", it) for it in found[:3]] + [("refuse", found[3]), ("revoke", found[0])]
    verdicts.append(("revoke", older[len(older) // 2] if older else found[1]))
    for number, (word, about) in enumerate(verdicts, 4):
        moment = stamp_of(at + 600 * number)
        verdict = Verdict("bob", word, about.request.by, about.request.no, moment)
        found.append(outbox.keep_verdict(verdict))
    return found


def main() -> int:
    config = read_config(CONFIG)
    outbox, desk = config.open_outbox(), config.open_desk()
    for person in ("ann", "carol"):
        hear(outbox, config, desk, person)
    found = spoken(outbox, int(sys.argv[1]))
    until = time.monotonic() + PATIENCE
    while any(outbox.entry(it.id).state == "kept" for it in found) and time.monotonic() < until:
        time.sleep(0.2)
    now = [outbox.entry(it.id) for it in found]
    asked = [it.request for it in now if isinstance(it.message, Request)]
    names = [f"{it.by} {it.no}" for it in asked]
    acked = [it.message.text() for it in now if it.state == "acked"]
    print(json.dumps({"messages": acked, "names": names}))
    return 0


if __name__ == "__main__":
    sys.exit(main())

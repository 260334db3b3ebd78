"""One person's name becomes another: what the old name has open is revoked."""

from __future__ import annotations

import time

from desk_tools import served
from desk_tools.change import Desk
from desk_tools.roster_words import tree_of
from desk_tools.served import Failed
from steelnewt_client.desk import Silent
from steelnewt_client.messages import canonical
from steelnewt_client.moments import of_stamp, stamp_of

# Behind a door root revokes at a socket of its own: the desk's takes what came through the door.
BEHIND_DOOR, ROOT_DOOR = "unix:/run/desk-posts/desk.sock", "unix:/run/desk-door/root/desk.sock"
OPEN = ("waiting", "granted", "disputed")


def pair(said: str, old: bytes, new: bytes) -> tuple[str, str]:
    """The old and the new name, where the rosters have them so."""
    before, _, after = said.partition("=")
    if before not in tree_of(old)["people"]:
        raise Failed(f"--rename {said}: the roster that is served has no {before}")
    if after not in tree_of(new)["people"]:
        raise Failed(f"--rename {said}: the new roster has no {after}")
    return before, after


def open_numbers(desk: Desk, name: str, now: str) -> list[int]:
    """The numbers of what this person asked for, and what may be or become a grant from now on."""
    found = served.desk_at(desk.settings.address).names(of_stamp(now))
    return sorted(no for (by, no), told in found.items() if by == name and told.status in OPEN)


def revoke_open(desk: Desk, old_name: str, new_name: str, roster: bytes) -> None:
    """Revokes, as its asker, what the old name has open: first of all, for it takes rights away."""
    now = stamp_of(int(time.time()))
    address = desk.settings.address
    there = served.desk_at(ROOT_DOOR if address == BEHIND_DOOR else address)
    relay = tree_of(roster)["relays"][0]
    for number in open_numbers(desk, old_name, now):
        message = {"at": now, "by": old_name, "kind": "revoke", "no": number, "of": old_name}
        try:
            reply = there.exchange(
                "POST", f"/v1/relays/{relay}/messages", canonical(message).encode("ascii")
            )
        except Silent as fault:
            raise Failed(f"{old_name} {number} is not revoked: {fault}") from None
        if reply.text != "ack\n":
            raise Failed(f"{old_name} {number} is not revoked: {reply.text.strip()}")
        print(f"{old_name} {number} is revoked: {new_name} asks again")

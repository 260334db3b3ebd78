"""A revocation ends all that a session left, in every way that is known, beside a thousand
processes of others, of which none ends: for hosts.py, in its long form."""

from __future__ import annotations

import os

from tests.hosts.plugged import LEFT, all_left, nothing_is_kept, texts
from tests.hosts.prompt import Terminal
from tests.hosts.root import Host, within
from tests.hosts.sessions import processes

# how many sleep, and how many are busy
SLEEPING, BUSY = (int(it) for it in os.environ.get("CROWD", "950 50").split())
# so many rounds, each of which tries all the ways, so over a hundred on three sudos; and one at a
# grace of more than a minute
ROUNDS = int(os.environ.get("ROUNDS", "4"))
LONG_GRACE = 61
CROWD = f"for i in $(seq {SLEEPING}); do sleep 7900 & done;"
CROWD += f" for i in $(seq {BUSY}); do nice -n 19 sh -c 'while :; do :; done' 7901 & done"


def others(host: Host) -> int:
    return sum(len(processes(host, mark)) for mark in ("7900", "7901"))


def a_round(host: Host, grace: int) -> tuple[int, str]:
    """All ways at once under a grant that is then revoked: how many are left, and what was said."""
    with all_left(host):
        host.conf("http://127.0.0.1:1", GRACE=str(grace))
        ran = host.run("desk-host", "end-sessions")
        left = sum(len(processes(host, mark)) for _, _, mark in LEFT)
    return left, f"status {ran.returncode}: {ran.stdout}"


def crowd(host: Host) -> None:
    """Rounds at a short grace, and one at a long one."""
    if not host.is_fit or not host.has_groups:
        return
    texts(host)
    with Terminal(host, "bob") as terminal:
        terminal.send(CROWD)
        is_there = within(lambda: others(host) == SLEEPING + BUSY, 600)
        host.check("the crowd is there", is_there, str(others(host)))
        tries = missed = 0
        for grace in (*[2] * ROUNDS, LONG_GRACE):
            left, said = a_round(host, grace)
            tries, missed = tries + len(LEFT), missed + left
            host.check(f"grace {grace}: nothing is left", not left and "status 0" in said, said)
            host.check("no other ended", others(host) == SLEEPING + BUSY, str(others(host)))
        print(f"{host.name}: {tries} tries beside {SLEEPING + BUSY} processes: {missed} left")
        host.run("pkill", "-KILL", "-u", "bob")
    host.drop("password")
    nothing_is_kept(host)


PARTS = (crowd,)

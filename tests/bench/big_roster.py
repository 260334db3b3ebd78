#!/usr/bin/env python3
"""Prints a roster of just under 1 MiB (docs/ROSTER.md): 64 relays, 1,024 hosts, 256 duties, 4,096
conflicts, 4,096 people with two duties each, and 1,024 ceilings.

What is left of the text goes to the ceilings, to the last of them as far as it fits: with
`commands` 256 commands each, with `hosts` 256 hosts each. With `duties` it goes to the people, up
to 256 duties each.
"""

import sys
from collections.abc import Iterable

MOST = 1 << 20


def listed(names: Iterable[str]) -> str:
    return "[" + ",".join(f'"{name}"' for name in names) + "]"


def spread(n: int, count: int, start: int) -> list[int]:
    """So many different numbers below n, which neither rise nor fall."""
    return [(start + 97 * k) % n for k in range(count)]


def ceiling(n: int, hosts: Iterable[int], commands: Iterable[str]) -> str:
    return (
        f"[ceilings.c{n}]\n"
        f'ask="d{n % 256}"\napprove="d{(n + 1) % 256}"\nneeds={n % 3 + 1}\n'
        f"hosts={listed(f'h{k}' for k in hosts)}\n"
        'runas=["root"]\n'
        f"commands={listed(commands)}\n"
        "longest=7200\n"
    )


def person(n: int, duties: Iterable[int]) -> str:
    return f"p{n}={listed(f'd{k}' for k in duties)}\n"


def stand_in(n: int, duties: Iterable[int]) -> str:
    """A person whose duties are each held in a month of their own."""
    dated = (
        f'{{duty="d{k}",from="2026{k % 12 + 1:02}01",until="2026{k % 12 + 1:02}28"}}'
        for k in duties
    )
    return f"p{n}=[{','.join(dated)}]\n"


def roster(what: str) -> str:
    head = [
        f"relays={listed(f'r{k}' for k in range(64))}\n",
        f"hosts={listed(f'h{k}' for k in spread(1_024, 1_024, 5))}\n",
        f"duties={listed(f'd{k}' for k in spread(256, 256, 3))}\n",
    ]
    pairs = (f'["d{k % 256}","d{(k + 1 + k // 256) % 256}"]' for k in range(4_096))
    head.append(f"conflicts=[{','.join(pairs)}]\n[people]\n")
    people = [person(n, spread(256, 2, n)) for n in range(4_096)]
    ceilings = [ceiling(n, [n % 1_024], [f"/bin/t{n}"]) for n in range(1_024)]
    left = MOST - sum(map(len, head + people + ceilings))
    rows = people if what in ("duties", "days") else ceilings
    for n in reversed(range(len(rows))):
        if what == "duties":
            more = person(n, spread(256, 256, n))
        elif what == "days":
            more = stand_in(n, spread(256, 64, n))
        elif what == "hosts":
            more = ceiling(n, spread(1_024, 256, n), [f"/bin/t{n}"])
        else:
            more = ceiling(n, [n % 1_024], [f"/usr/bin/t{n} -v{k}" for k in range(256)])
        if len(more) - len(rows[n]) > left:
            break
        left -= len(more) - len(rows[n])
        rows[n] = more
    return "".join(head + people + ceilings)


if __name__ == "__main__":
    sys.stdout.write(roster(sys.argv[1] if len(sys.argv) > 1 else "commands"))

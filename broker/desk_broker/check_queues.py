"""Tells which desk lags, whose consumer is away, and whether a queue lacks replicas.

    rabbitmqctl -q list_queues name messages consumers online --formatter json | desk-check-queues

Put it on a timer at one broker. Status 0: nothing is wrong; 1: a line for each thing that is.
What is refused (desk.refused) is told as well where there is any: somebody should read it.
"""

from __future__ import annotations

import argparse
import json
import sys

REFUSED = "desk.refused"
Row = dict[str, object]


def number(row: Row, name: str) -> int:
    """A column's number; a queue without a leader has none."""
    value = row.get(name)
    return value if isinstance(value, int) else 0


def faults(row: Row, most: int, replicas: int) -> list[str]:
    """What is wrong with a queue."""
    name, waiting = row["name"], number(row, "messages")
    online = row.get("online")
    count = len(online) if isinstance(online, list) else 0
    found = []
    if count < replicas:
        found.append(f"{name}: {count} of {replicas} replicas are there")
    if name == REFUSED:
        if waiting:
            found.append(f"{name}: {waiting} messages were refused, and nobody has read them")
        return found
    if waiting > most:
        found.append(f"{name}: {waiting} messages wait: its desk lags")
    if number(row, "consumers") == 0:
        found.append(f"{name}: no consumer: its desk gets nothing")
    if number(row, "consumers") > 1:
        found.append(f"{name}: {row['consumers']} consumers: one is enough")
    return found


def main() -> int:
    about = "Tells what is wrong with the desks' queues."
    parser = argparse.ArgumentParser("desk-check-queues", description=about)
    parser.add_argument("--most", type=int, default=1_000, help="messages that may wait (1000)")
    parser.add_argument("--replicas", type=int, default=3, help="of each queue (3)")
    words = parser.parse_args()
    kinds = ("desk.", "first.")
    rows = [row for row in json.load(sys.stdin) if str(row["name"]).startswith(kinds)]
    found = [fault for row in rows for fault in faults(row, words.most, words.replicas)]
    if not rows:
        found.append("the broker has no queue of a desk: were the definitions imported?")
    print("\n".join(found) if found else f"{len(rows)} queues, nothing is wrong")
    return 1 if found else 0


if __name__ == "__main__":
    sys.exit(main())

"""Fills a desk with the messages of another: for a desk that joins, or that lost its disk.

    desk-fill DESK RELAY [--archive FILE] < MESSAGES

MESSAGES has one a line, as desk-snapshot prints them, or with its signature, for a door. What a FILE has, an archive of the desk that
is filled, is left out: it was cut out of that desk's store, and would fill it up again. Each other
is posted as RELAY's, and the desk reads and admits it as any other. What it has already stays as it
is, so this may be done again at any time, also while the desk's consumer posts to it.
"""

from __future__ import annotations

import argparse
import sys
import time
from collections.abc import Iterable, Iterator

from desk_broker.backoff import Backoff
from steelnewt_client.codes import Answer, Fate
from steelnewt_client.desk import BadAddress, Desk, plain_desk

PATIENCE = 120.0


def posted(desk: Desk, relay: str, body: bytes) -> Answer:
    """What the desk says to a message, once it says anything."""
    backoff, until = Backoff(0.1, 5.0), time.monotonic() + PATIENCE
    while (answer := desk.post(relay, body)).fate is Fate.AGAIN and not answer.waits:
        if time.monotonic() > until:
            raise TimeoutError(f"the desk does not answer: {answer.said}")
        time.sleep(backoff.next())
    return answer


def fill(desk: Desk, relay: str, bodies: Iterable[bytes]) -> tuple[int, list[str]]:
    """How many the desk took, and what it said to those that it refused. What waits for something of
    its own, as a signed approval for its request, is posted again behind all others."""
    taken, refused, begun = 0, list[str](), time.monotonic()
    backoff, left = Backoff(0.1, 5.0), bodies
    while True:
        waiting = list[bytes]()
        for body in left:
            answer = posted(desk, relay, body)
            if answer.waits and time.monotonic() - begun < PATIENCE:
                waiting.append(body)
            elif answer.fate is Fate.TAKEN:
                taken += 1
            else:
                refused.append(f"{answer.said}: {body[:80].decode('utf-8', 'replace')}")
        if not waiting:
            return taken, refused
        left = waiting
        time.sleep(backoff.next())


def archived(paths: Iterable[str]) -> set[bytes]:
    """The messages of some archives."""
    found: set[bytes] = set()
    for path in paths:
        with open(path, "rb") as file:
            found.update(line.rstrip(b"\n") for line in file)
    return found


class Lacking:
    """The messages that archives do not have, and how many were left out."""

    def __init__(self, out: set[bytes]) -> None:
        self.out, self.left = out, 0

    def of(self, lines: Iterable[bytes]) -> Iterator[bytes]:
        for line in lines:
            body = line.rstrip(b"\n")
            self.left += body in self.out
            if body not in self.out:
                yield body


def main() -> int:
    about = "Fills a desk with the messages of its input, one a line."
    parser = argparse.ArgumentParser("desk-fill", description=about)
    parser.add_argument("desk", metavar="DESK", help="unix:/PATH, or http://127.0.0.1:PORT")
    parser.add_argument("relay", metavar="RELAY", help="the relay in whose name they are posted")
    said = "leave out what this archive of the desk's has (may be given again)"
    parser.add_argument("--archive", action="append", default=[], metavar="FILE", help=said)
    words = parser.parse_args()
    try:
        lines = Lacking(archived(words.archive))
        taken, refused = fill(plain_desk(words.desk), words.relay, lines.of(sys.stdin.buffer))
    except (TimeoutError, BadAddress) as error:
        print(f"desk-fill: {error}", file=sys.stderr)
        return 1
    except OSError as error:
        print(f"desk-fill: {error.filename}: {error.strerror}", file=sys.stderr)
        return 1
    print(*refused, sep="\n", end="\n" if refused else "", file=sys.stderr)
    left = f", {lines.left} archived" if words.archive else ""
    print(f"{taken} taken, {len(refused)} refused{left}")
    return 1 if refused else 0


if __name__ == "__main__":
    sys.exit(main())

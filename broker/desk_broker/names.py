"""The names that the broker's parts have. A desk's and a relay's are part of them."""

from __future__ import annotations

from steelnewt_client.messages import TAKES_AWAY
from steelnewt_client.names import is_label

# The exchanges: of what takes rights away, and of all else that relays publish, each with a queue for
# each desk; and of what a desk refuses for good, with one queue.
FIRST, MESSAGES, REFUSED = "first.messages", "desk.messages", "desk.refused"
# Before the name of a relay, or of a desk, this is an account at the broker.
RELAY_USER, DESK_USER = "relay-", "desk-"
READER = "refused-reader"  # the account that may read what was refused
# Why a consumer puts a message by without asking its desk.
NO_RELAY = "C1 NoRelay"  # an account published it that is no relay's
EXPIRES = "C2 Expires"  # its relay gave it a time to live, which a desk that lags would outlast
FAILS = "C3 Fails"  # the consumer failed at it, twice, or the broker gave it out too often


def label(text: str) -> str:
    """The text, where it can be the name of a desk or of a relay; else a ValueError."""
    if not is_label(text):
        raise ValueError(f"{text!r} is no name: [a-z][a-z0-9-]*, up to 32 characters")
    return text


def desk(text: str) -> str:
    """The text, where it can be the name of a desk; else a ValueError."""
    if f"desk.{label(text)}" == REFUSED:
        raise ValueError(f"{text!r} is no name of a desk: the queue {REFUSED} has another use")
    return text


def queue(name: str) -> str:
    """The queue of a desk."""
    return f"desk.{desk(name)}"


def first_queue(name: str) -> str:
    """The queue of a desk for what takes rights away."""
    return f"first.{desk(name)}"


def exchange_of(body: bytes) -> str:
    """Where a message is published: what takes rights away waits for nothing else. (Order decides
    nothing at a desk, so whoever writes it otherwise only chooses its place.)"""
    return FIRST if TAKES_AWAY.search(body) else MESSAGES


def desk_of(queue: str) -> str | None:
    """The desk whose queue this is."""
    kind, _, name = queue.partition(".")
    is_of_desk = kind in ("desk", "first") and queue != REFUSED
    return name if is_of_desk and is_label(name) else None


def relay_of(user: str | None) -> str | None:
    """The relay whose account this is. The broker lets nobody publish in another's name."""
    if user is None or not user.startswith(RELAY_USER):
        return None
    name = user.removeprefix(RELAY_USER)
    return name if is_label(name) else None

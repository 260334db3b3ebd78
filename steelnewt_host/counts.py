"""Which of two states of a site is newer, and what this host has had.

A state is a roster and a base, each by its digest, and of both nothing but a history tells which
came later: a digest has no order, and a state that nobody knows is not newer for that.

A site may cut its history: then its desks hold fewer messages, and each line of their history says
how many they took out. Both numbers together are what a host goes by, as if nothing was cut."""

from __future__ import annotations

import enum
import itertools
import json
import os
from collections.abc import Sequence
from typing import NamedTuple, Optional

from steelnewt_host.faults import Fault
from steelnewt_host.state import write_state

KNOWN = 64  # how many states the record goes back
HOLD = ("ROSTER", "BASE")  # what an administrator names


class State(NamedTuple):
    """The digests of a roster and of a base, and how many messages were taken out before."""

    roster: str
    base: str
    archived: int = 0

    def is_as_named(self, other: State) -> bool:
        """Whether a desk names both alike: what was taken out its history alone says."""
        return self[:2] == other[:2]


Past = Sequence[State]  # the states of a site in their order, the last of which is there now


class Order(enum.Enum):
    """How one past stands to another."""

    SAME = "same"
    NEWER = "newer"
    BEHIND = "behind"
    UNKNOWN = "unknown"


def overlap(one: Sequence[str], other: Sequence[str]) -> int:
    """How many are the same in both, counted from their ends."""
    pairs = zip(reversed(one), reversed(other))
    return sum(1 for _ in itertools.takewhile(lambda it: it[0] == it[1], pairs))


def goes_on(one: Sequence[str], other: Sequence[str]) -> int:
    """How much of the other's end the one has and left; nothing where it does not have it."""
    ends = (at for at in range(1, len(one)) if one[at - 1] == other[-1])
    return max((overlap(one[:at], other) for at in ends), default=0)


def order(one: Sequence[str], other: Sequence[str]) -> Order:
    """How one row of digests stands to another. Where a site went back to what it had left, each
    may have left the other's: then the longer piece that both have decides, and else nothing."""
    if one[-1] == other[-1]:
        return Order.SAME
    ahead, behind = goes_on(one, other), goes_on(other, one)
    if ahead == behind:
        return Order.UNKNOWN
    return Order.NEWER if ahead > behind else Order.BEHIND


def row(past: Past, part: int) -> list[str]:
    """The rosters of a past, or its bases, each as often as it came anew."""
    return [it for it, _ in itertools.groupby(state[:2][part] for state in past)]


def orders(one: Past, other: Past) -> tuple[Order, Order]:
    """How the roster of one stands to that of another, and how its base does."""
    return order(row(one, 0), row(other, 0)), order(row(one, 1), row(other, 1))


class Count(NamedTuple):
    """How many messages there were of a roster and base, with those that were taken out."""

    messages: int
    roster: str
    base: str
    archived: int = 0

    @property
    def state(self) -> State:
        return State(self.roster, self.base, self.archived)


class Last(NamedTuple):
    """The count of this host's file, and the states up to it."""

    messages: int
    past: Past


def counted(each: list[object]) -> Count:
    """One row of a record."""
    messages, roster, base, *more = each
    archived = more[0] if len(more) == 1 else 0
    are_numbers = isinstance(messages, int) and isinstance(archived, int) and len(more) < 2
    if are_numbers and isinstance(roster, str) and isinstance(base, str):
        return Count(messages, roster, base, archived)  # type: ignore[arg-type]
    raise ValueError(f"no count: {each!r}")


def row_of(it: Count) -> list[object]:
    """The same, as a record has it: where nothing was cut, as a program of before reads it."""
    return [*it] if it.archived else [*it[:3]]


class Record:
    """What this host will not go below: the states that it knows in their order, the last of which
    is that of its file, with the greatest count that it installed a file of. It is a file of the
    state's folder, and is on the disk before the host's file is."""

    def __init__(self, folder: str, host: str) -> None:
        self.host = host
        self.path = os.path.join(folder, f"{host}.json")
        self.known: list[Count] = []

    def read(self) -> None:
        """Reads what is there. One that cannot be read is no empty one."""
        try:
            with open(self.path, encoding="ascii") as file:
                self.known = [counted(each) for each in json.load(file)["installed"]]
        except FileNotFoundError:
            return
        except (OSError, ValueError, KeyError, TypeError) as why:
            told = f"say which roster and base hold: {self.how()}"
            raise Fault(f"cannot read the record {self.path} ({why}): {told}") from why

    def how(self, state: Optional[State] = None) -> str:
        """The command by which an administrator says what holds."""
        return " ".join(("desk-host accept", self.host, *(state[:2] if state else HOLD)))

    @property
    def past(self) -> list[State]:
        return [it.state for it in self.known]

    @property
    def last(self) -> Optional[Count]:
        return self.known[-1] if self.known else None

    @property
    def sure(self) -> Optional[Last]:
        """The last, where nothing was ever taken out of a store: else of the same roster and base
        there may be a desk that was cut, and one that came back from an older backup."""
        if self.last is None or any(it.archived for it in self.known):
            return None
        return Last(self.last.messages, self.past)

    def keep(self, messages: int, past: Past) -> None:
        """Writes down what is installed next. One of the last's roster and base leaves what is
        known of the time before."""
        last = self.last.state if self.last else None
        known = self.known[:-1]
        if last is None or not last.is_as_named(past[-1]):
            known = [Count(0, *it) for it in past[:-1]]
        elif last != past[-1]:
            known = self.known
        self.write([*known, Count(messages, *past[-1])])

    def accept(self, state: State) -> None:
        """Has that state hold after all that is known, whatever a desk says of it; the count of
        its messages begins anew."""
        self.write([*self.known, Count(0, *state)])

    def write(self, known: list[Count]) -> None:
        known = known[-KNOWN:]
        if known != self.known:
            rows = [row_of(it) for it in known]
            write_state(self.path, json.dumps({"installed": rows}) + "\n")
            self.known = known

"""On which days who holds what, from a day on: a roster is looked through by the days on which
something changes, and not by each person on each day."""

from collections.abc import Iterator
from datetime import date
from functools import cache
from typing import NamedTuple

from desk_tools.site import LAST, Site

# days, by their numbers: the first and the last of a span
Days = tuple[int, int]


@cache
def number(day: str) -> int:
    return date(int(day[:4]), int(day[4:6]), int(day[6:])).toordinal()


@cache
def day(number: int) -> str:
    return date.fromordinal(number).strftime("%Y%m%d")


def joined(spans: list[Days]) -> list[Days]:
    """The same days in spans that neither meet nor overlap, in order."""
    found: list[Days] = []
    for first, last in sorted(spans):
        if found and first <= found[-1][1] + 1:
            found[-1] = (found[-1][0], max(found[-1][1], last))
        else:
            found.append((first, last))
    return found


def without(spans: list[Days], taken: list[Days]) -> list[Days]:
    """The days of some spans that no other has; both are joined."""
    found = []
    for first, last in spans:
        for begin, end in taken:
            if end < first or begin > last:
                continue
            if begin > first:
                found.append((first, begin - 1))
            first = end + 1
        if first <= last:
            found.append((first, last))
    return found


def overlap(one: list[Days], other: list[Days]) -> bool:
    return any(first <= end and begin <= last for first, last in one for begin, end in other)


class Span(NamedTuple):
    """Days in which nothing changes, on which at most three may approve, or nobody may ask: whether
    somebody may ask, who may approve, and whether all who ask are among these, or which."""

    first: int
    last: int
    is_asked: bool
    approvers: frozenset[str]
    asking_approvers: frozenset[str]
    is_all: bool


class Changes:
    """Who has something on all days from one on, and when others get or lose it."""

    def __init__(self, first: int) -> None:
        self.first, self.last = first, number(LAST)
        self.always: set[str] = set()
        self.at: dict[int, list[tuple[str, bool]]] = {}

    def add(self, person: str, spans: list[Days]) -> None:
        if spans == [(self.first, self.last)]:
            self.always.add(person)
            return
        for begin, end in spans:
            self.at.setdefault(begin, []).append((person, True))
            if end < self.last:
                self.at.setdefault(end + 1, []).append((person, False))


class Held:
    def __init__(self, site: Site, today: str) -> None:
        self.site, self.first, self.last = site, number(today), number(LAST)
        self.always = [(self.first, self.last)]
        self.days = {person: self.of(person) for person in site.people}
        self.constant = {
            person: {duty for duty, spans in days.items() if spans is self.always}
            for person, days in self.days.items()
        }
        self.holders: dict[str, list[str]] = {}
        for person, duties in self.days.items():
            for duty in duties:
                self.holders.setdefault(duty, []).append(person)
        self.known: dict[tuple[str, str], Changes] = {}
        self.found: dict[tuple[str, str], list[Span]] = {}

    def of(self, person: str) -> dict[str, list[Days]]:
        """The days of each duty of a person; a duty that has ended has none."""
        always, found = self.always, {}
        for entry in self.site.people[person]:
            if isinstance(entry, str):
                found[entry] = always
            else:
                spans = found.setdefault(entry["duty"], [])
                first, last = max(number(entry["from"]), self.first), number(entry["until"])
                if first <= last and spans is not always:
                    spans.append((first, last))
        return {duty: it if it is always else joined(it) for duty, it in found.items()}

    def counts(self, person: str, duty: str) -> list[Days]:
        """The days on which a person's approval as this duty counts."""
        days, against = self.days[person], self.site.conflicts_with(duty)
        if not against.isdisjoint(self.constant[person]):
            return []
        spans = [it for other in against & days.keys() for it in days[other]]
        return without(days[duty], joined(spans)) if spans else days[duty]

    def others(self, person: str, duty: str) -> list[str]:
        """The duties of a person that conflict with this one on some day of both."""
        days, constant = self.days[person], self.constant[person]
        found = self.site.conflicts_with(duty) & days.keys()
        return sorted(it for it in found if it in constant or overlap(days[it], days[duty]))

    def changes(self, duty: str, kind: str) -> Changes:
        if (duty, kind) not in self.known:
            found = Changes(self.first)
            for person in self.holders.get(duty, []):
                is_ask = kind == "ask"
                found.add(person, self.days[person][duty] if is_ask else self.counts(person, duty))
            self.known[duty, kind] = found
        return self.known[duty, kind]

    def spans(self, ask: str, approve: str) -> list[Span]:
        if (ask, approve) not in self.found:
            self.found[ask, approve] = list(self.swept(ask, approve))
        return self.found[ask, approve]

    def swept(self, ask: str, approve: str) -> Iterator[Span]:
        asks, approves = self.changes(ask, "ask"), self.changes(approve, "approve")
        askers, approvers = Now(asks), Now(approves)
        days = sorted({self.first, *asks.at, *approves.at})
        for first, following in zip(days, [*days[1:], self.last + 1]):
            askers.go_to(first)
            approvers.go_to(first)
            if askers.count() and approvers.count() > 3:
                continue
            few = frozenset(approvers.all() if approvers.count() <= 3 else ())
            both = frozenset(person for person in few if askers.has(person))
            is_all = len(both) == askers.count()
            yield Span(first, following - 1, askers.count() > 0, few, both, is_all)


class Now:
    """The people who have something on a day, which only goes on."""

    def __init__(self, changes: Changes) -> None:
        self.changes, self.sometimes = changes, set[str]()

    def go_to(self, day: int) -> None:
        for person, has in self.changes.at.get(day, ()):
            (self.sometimes.add if has else self.sometimes.discard)(person)

    def count(self) -> int:
        return len(self.changes.always) + len(self.sometimes)

    def has(self, person: str) -> bool:
        return person in self.changes.always or person in self.sometimes

    def all(self) -> set[str]:
        return self.changes.always | self.sometimes

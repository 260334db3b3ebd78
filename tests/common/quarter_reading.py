"""A second reading of rosters and messages: what they come to, and what evidence has to say. It is
made of the texts alone, by no code of the desk or of the tools.

The rules are those of docs/ROSTER.md and docs/AUDITING.md, written once more.
"""

import json
import tomllib
from calendar import timegm
from collections.abc import Iterable
from time import gmtime, strftime, strptime
from typing import Any, NamedTuple

STAMP = "%Y%m%d%H%M%SZ"
Message = dict[str, Any]
Name = tuple[str, int]
# what may be asked of a host's file: who, number, host, first and last moment
Piece = tuple[str, int, str, str, str]
# what a log says: when, on which host, who, and the command
Ran = tuple[str, str, str, str]


def seconds(at: str) -> int:
    return timegm(strptime(at, STAMP))


def stamp(at: int) -> str:
    return strftime(STAMP, gmtime(at))


class Outcome(NamedTuple):
    """A name's status, its window, and each verdict with why it does not count."""

    status: str
    first: str
    last: str
    verdicts: list[tuple[Message, str]]

    @property
    def line(self) -> str:
        return f"{self.status} {self.first} {self.last}".rstrip()

    @property
    def approvers(self) -> list[str]:
        told = self.verdicts
        return sorted({it["by"] for it, why in told if it["kind"] == "approve" and not why})


class Reading:
    """A roster, and what it says of messages."""

    def __init__(self, text: str) -> None:
        read = tomllib.loads(text)
        self.people: dict[str, list[Any]] = read["people"]
        self.ceilings: dict[str, Message] = read["ceilings"]
        self.conflicts: list[list[str]] = read["conflicts"]
        self.hosts: list[str] = read["hosts"]

    # ---- who holds what

    def holds(self, person: str, duty: str, at: str) -> bool:
        held = self.people.get(person, [])
        return any(
            it == duty
            or (isinstance(it, dict) and it["duty"] == duty and it["from"] <= at[:8] <= it["until"])
            for it in held
        )

    def has_conflict(self, person: str, duty: str, at: str) -> bool:
        others = [set(it) - {duty} for it in self.conflicts if duty in it]
        return any(self.holds(person, other, at) for it in others for other in it)

    def admits_names(self, it: Message) -> bool:
        """Whether the roster lists whoever a message names."""
        return it["by"] in self.people and it.get("of", it["by"]) in self.people

    def admits(self, asked: Message) -> bool:
        ceiling = self.ceilings.get(asked["ceiling"])
        if ceiling is None or not self.holds(asked["by"], ceiling["ask"], asked["at"]):
            return False
        lasts = seconds(asked["until"]) - seconds(asked["from"])
        return (
            {*asked["hosts"]} <= {*ceiling["hosts"]}
            and asked["runas"] in ceiling["runas"]
            and all(any(inside(it, wide) for wide in ceiling["commands"]) for it in asked["cmnds"])
            and asked["at"] <= asked["from"] <= asked["until"]
            and lasts <= ceiling["longest"]
        )

    # ---- what a name comes to

    def why_not(self, asked: Message, ceiling: Message, verdict: Message) -> str:
        """Why a verdict does not count, before the order of verdicts is looked at."""
        by, at = verdict["by"], verdict["at"]
        if verdict["kind"] == "revoke":
            may = by == asked["by"] or self.holds(by, ceiling["approve"], at)
            return "" if may else "duty"
        if by == asked["by"]:
            return "asker"
        if not self.holds(by, ceiling["approve"], at):
            return "duty"
        return "conflict" if self.has_conflict(by, ceiling["approve"], at) else ""

    def outcome(self, requests: list[Message], verdicts: list[Message]) -> Outcome:
        if len(requests) != 1 or not self.admits(requests[0]):
            word = "parked" if not requests else "disputed" if len(requests) > 1 else "lapsed"
            return Outcome(word, "", "", [(it, word) for it in verdicts])
        asked = requests[0]
        ceiling = self.ceilings[asked["ceiling"]]
        whys = [(it, self.why_not(asked, ceiling, it)) for it in verdicts]
        firsts: dict[str, str] = {}
        for it, why in whys:
            if it["kind"] == "approve" and not why:
                firsts[it["by"]] = min(it["at"], firsts.get(it["by"], it["at"]))
        moments, needs = sorted(firsts.values()), ceiling["needs"]
        complete = moments[needs - 1] if len(moments) >= needs else None
        told = [(it, why or late(it, complete)) for it, why in whys]
        if any(it["kind"] == "refuse" and not why for it, why in told):
            return Outcome("refused", "", "", told)
        if complete is None:
            return Outcome("waiting", "", "", told)
        first = max(asked["from"], complete)
        ends = [seconds(it["at"]) - 1 for it, why in told if it["kind"] == "revoke" and not why]
        last = stamp(min([seconds(asked["until"]), *ends]))
        if last < first:
            return Outcome("void", "", "", told)
        return Outcome("granted", first, last, told)

    def outcomes(self, messages: Iterable[Message]) -> dict[Name, Outcome]:
        found: dict[Name, tuple[list[Message], list[Message]]] = {}
        for it in messages:
            both = found.setdefault((it.get("of", it["by"]), it["no"]), ([], []))
            both[it["kind"] != "request"].append(it)
        return {name: self.outcome(*both) for name, both in sorted(found.items())}


def late(verdict: Message, complete: str | None) -> str:
    is_late = verdict["kind"] == "refuse" and complete is not None and verdict["at"] > complete
    return "late" if is_late else ""


def inside(asked: str, wide: str) -> bool:
    """Whether a command lies inside a wide one."""
    path = asked.split(" ")[0]
    if wide == "ALL" or asked == wide or path == wide:
        return True
    return wide.endswith("/") and not path.endswith("/") and path.rpartition("/")[0] + "/" == wide


# ---- over time


class History:
    """Rosters by their moments, and messages."""

    def __init__(self, rosters: dict[str, str], lines: Iterable[str]) -> None:
        self.messages = [json.loads(it) for it in sorted({*lines})]
        self.moments = sorted(rosters)
        self.readings = {at: Reading(rosters[at]) for at in self.moments}
        # a roster does not admit a message that names somebody whom it does not list
        self.by = {
            at: reading.outcomes(it for it in self.messages if reading.admits_names(it))
            for at, reading in self.readings.items()
        }
        asked = [it for it in self.messages if it["kind"] == "request"]
        self.requests: dict[Name, list[Message]] = {}
        for it in asked:
            self.requests.setdefault((it["by"], it["no"]), []).append(it)

    def lines(self, at: str) -> dict[Name, str]:
        """Each name's status and window by the roster of a moment, which takes no request that it
        does not admit."""
        reading = self.readings[self.served(at)]
        told = [it for it in self.messages if reading.admits_names(it)]
        taken = [it for it in told if it["kind"] != "request" or reading.admits(it)]
        return {name: outcome.line for name, outcome in reading.outcomes(taken).items()}

    def touches(self, name: Name, first: str, last: str) -> bool:
        """Whether something was said of a request, or asked for, in a time or over all of it."""
        said = [it for it in self.messages if (it.get("of", it["by"]), it["no"]) == name]
        ends = [it.get("until", it["at"]) for it in said] + [it["at"] for it in said]
        return min(it["at"] for it in said) <= last and first <= max(ends)

    def served(self, at: str) -> str:
        """The roster that was served at a moment."""
        return max([it for it in self.moments if it <= at], default=self.moments[0])

    def spans(self, first: str, last: str) -> list[tuple[str, str, str]]:
        """Each roster of a time, with the part of the time in which it was served."""
        ends = [stamp(seconds(it) - 1) for it in self.moments[1:]] + [last]
        spans = zip(self.moments, ends, strict=True)
        cut = [(it, max(it, first), min(end, last)) for it, end in spans]
        return [it for it in cut if it[1] <= it[2]]

    def pieces(self, first: str, last: str) -> list[Piece]:
        """When each grant was in force on each host, by the roster of each moment."""
        found = []
        for roster, begin, end in self.spans(first, last):
            for (by, no), outcome in self.by[roster].items():
                if outcome.status != "granted":
                    continue
                cut = max(outcome.first, begin), min(outcome.last, end)
                if cut[0] <= cut[1]:
                    hosts = self.requests[by, no][0]["hosts"]
                    found += [(by, no, host, *cut) for host in hosts]
        return sorted(found)

    def statuses(self, first: str, last: str) -> dict[Name, str]:
        """What became of each request that was asked in a time, by the roster of its asking."""
        found = {}
        for name, asked in self.requests.items():
            at = min(it["at"] for it in asked)
            if first <= at <= last:
                found[name] = self.by[self.served(at)][name].status
        return found

    def unaccepted(self, first: str, last: str) -> list[tuple[str, int, str, str, str]]:
        """Approvals of a time that were not accepted, by the roster of their own moment: the name,
        who approved, when, and why it did not count."""
        found = []
        for roster, begin, end in self.spans(first, last):
            for (by, no), outcome in self.by[roster].items():
                for it, why in outcome.verdicts:
                    is_meant = it["kind"] == "approve" and why in ("asker", "duty", "conflict")
                    if is_meant and begin <= it["at"] <= end:
                        found.append((by, no, it["by"], it["at"], why))
        return sorted(found)

    def missing(self) -> dict[str, list[int]]:
        """Each asker's numbers that no message has, between the lowest and the highest."""
        numbers: dict[str, set[int]] = {}
        for it in self.messages:
            numbers.setdefault(it.get("of", it["by"]), set()).add(it["no"])
        return {
            by: gaps
            for by, held in sorted(numbers.items())
            if (gaps := sorted({*range(min(held), max(held))} - held))
        }

    def counted(self, first: str, last: str) -> list[tuple[str, str, int]]:
        """Approvals of a time that counted, by the roster of their moment: who asked, who approved,
        and after how many seconds."""
        found = []
        for roster, begin, end in self.spans(first, last):
            for name, outcome in self.by[roster].items():
                for it, why in outcome.verdicts:
                    if it["kind"] == "approve" and not why and begin <= it["at"] <= end:
                        asked = min(it["at"] for it in self.requests[name])
                        found.append((name[0], it["by"], seconds(it["at"]) - seconds(asked)))
        return found

    def used(self, roster: str, ran: Iterable[Ran]) -> dict[str, set[str]]:
        """What was run by the grants of each ceiling, by one roster: a command as the grant has it,
        but by ALL or a folder the command that was typed."""
        found: dict[str, set[str]] = {}
        granted = {name: it for name, it in self.by[roster].items() if it.status == "granted"}
        for at, host, who, typed in ran:
            for (by, no), outcome in granted.items():
                asked = self.requests[by, no][0]
                is_then = by == who and outcome.first <= at <= outcome.last
                for wide in asked["cmnds"] if is_then and host in asked["hosts"] else ():
                    if inside(typed, wide):
                        is_wide = wide == "ALL" or wide.endswith("/")
                        words = typed if " " in typed else f'{typed} ""'
                        found.setdefault(asked["ceiling"], set()).add(words if is_wide else wide)
        return found

    def idle(self, first: str, last: str) -> list[tuple[str, str, str]]:
        """Who holds a duty on the last day and never used it: who, the duty, ask or approve."""
        reading = self.readings[self.served(last)]
        did = set()
        for it in self.messages:
            if first <= it["at"] <= last:
                kind = "ask" if it["kind"] == "request" else "approve"
                asked = self.requests.get((it.get("of", it["by"]), it["no"]), ())
                did |= {(it["by"], kind, each["ceiling"]) for each in asked}
        found = []
        for person in sorted(reading.people):
            for kind in ("ask", "approve"):
                for duty in sorted({it[kind] for it in reading.ceilings.values()}):
                    labels = {n for n, it in reading.ceilings.items() if it[kind] == duty}
                    is_held = reading.holds(person, duty, last)
                    if is_held and not any((person, kind, it) in did for it in labels):
                        found.append((person, duty, kind))
        return found


def without_cuts(pieces: Iterable[Piece]) -> list[Piece]:
    """The pieces, with those put together that only a change of a roster or a base cut."""
    found: list[Piece] = []
    for it in sorted(pieces):
        last = found[-1] if found else None
        if last and last[:3] == it[:3] and seconds(last[4]) + 1 == seconds(it[3]):
            found[-1] = (*last[:4], it[4])
        else:
            found.append(it)
    return found

"""The roster as a relay reads it: to show who may approve what. What counts, the desk decides."""

import os
import tomllib
from dataclasses import dataclass
from datetime import datetime
from functools import lru_cache
from typing import Any


class BadRoster(ValueError):
    """The roster's file cannot be read here."""


@dataclass(frozen=True)
class Ceiling:
    label: str
    ask: str
    approve: str
    needs: int
    hosts: tuple[str, ...]
    runas: tuple[str, ...]
    commands: tuple[str, ...]
    longest: int


def check_entry(entry: object) -> None:
    """Raises where this is no duty, and no duty with days."""
    if isinstance(entry, dict):
        if not all(isinstance(entry[key], str) for key in ("duty", "from", "until")):
            raise TypeError(f"{entry!r} is no duty with days")
    elif not isinstance(entry, str):
        raise TypeError(f"{entry!r} is no duty")


class Roster:
    def __init__(self, document: dict[str, Any]) -> None:
        self.people: dict[str, list[Any]] = document["people"]
        for entries in self.people.values():
            for entry in entries:
                check_entry(entry)
        self.conflicts = [set(pair) for pair in document["conflicts"]]
        self.may: dict[tuple[str, str, str], list[str]] = {}
        self.held: dict[tuple[str, str], frozenset[str]] = {}
        self.hosts = sorted(set(document["hosts"]))
        self.ceilings = {
            label: Ceiling(
                label,
                each["ask"],
                each["approve"],
                each["needs"],
                tuple(sorted(set(each["hosts"]))),
                tuple(sorted(set(each["runas"]))),
                tuple(each["commands"]),
                each["longest"],
            )
            for label, each in sorted(document["ceilings"].items())
        }

    @staticmethod
    def read(path: str) -> "Roster":
        """The roster of a file; one that did not change is not read again."""
        try:
            found = os.stat(path)
            return roster_of(path, found.st_ino, found.st_size, found.st_mtime_ns)
        except (OSError, ValueError, KeyError, TypeError, AttributeError) as fault:
            raise BadRoster(f"the list of people, {path}, cannot be read: {fault!r}") from None

    def duties(self, person: str, at: datetime) -> frozenset[str]:
        """The duties that a person holds at a moment."""
        day = at.strftime("%Y%m%d")
        if (person, day) not in self.held:
            entries = self.people.get(person, [])
            held = [entry for entry in entries if isinstance(entry, str)]
            dated = [entry for entry in entries if isinstance(entry, dict)]
            held += [it["duty"] for it in dated if it["from"] <= day <= it["until"]]
            self.held[person, day] = frozenset(held)
        return self.held[person, day]

    def holds(self, person: str, duty: str, at: datetime) -> bool:
        return duty in self.duties(person, at)

    def may_ask(self, person: str, at: datetime) -> list[Ceiling]:
        duties = self.duties(person, at)
        return [it for it in self.ceilings.values() if it.ask in duties]

    def bar(self, kind: str, person: str, asker: str, label: str, at: datetime) -> str:
        """Why a person's verdict at a moment does not count, on what the asker asks for under a
        ceiling: 'asker', 'duty' or 'conflict', as the desk's report has them. Empty: it may."""
        ceiling, duties = self.ceilings.get(label), self.duties(person, at)
        holds = ceiling is not None and ceiling.approve in duties
        if kind == "revoke":
            return "" if holds or person == asker else "duty"
        if person == asker:
            return "asker"
        if ceiling is None or not holds:
            return "duty"
        clashes = any(ceiling.approve in pair and pair <= duties for pair in self.conflicts)
        return "conflict" if clashes else ""

    def may_approve(self, person: str, asker: str, label: str, at: datetime) -> bool:
        """Whether a person may approve what the asker asks for under a ceiling, at a moment."""
        return not self.bar("approve", person, asker, label, at)

    def approvers(self, asker: str, label: str, at: datetime) -> list[str]:
        # (duties are those of a day, and a page shows the same few for many requests)
        key = asker, label, at.strftime("%Y%m%d")
        if key not in self.may:
            people = sorted(self.people)
            self.may[key] = [it for it in people if self.may_approve(it, asker, label, at)]
        return self.may[key]

    def may_revoke(self, person: str, asker: str, label: str, at: datetime) -> bool:
        return not self.bar("revoke", person, asker, label, at)


@lru_cache(maxsize=1)
def roster_of(path: str, *_: int) -> Roster:
    """The roster of a file, by what changes where somebody writes it anew."""
    with open(path, "rb") as file:
        return Roster(tomllib.load(file))

"""The people of a roster, by groups and calendars (docs/PEOPLE.md)."""

from __future__ import annotations

from typing import Any, NamedTuple

from desk_tools import roster_faults
from desk_tools.calendars import Named, on_call
from desk_tools.directory import Ldap, Unsure, machine_members, table_members
from desk_tools.people_settings import is_name
from desk_tools.roster_text import (
    CannotEdit,
    Days,
    RosterText,
    cut,
    day_after,
    held_by,
    merged,
)
from desk_tools.site import FIRST, LAST
from desk_tools.toml_text import read as read_toml

WEEKS = 26
MANY = 3

Wanted = dict[str, list[Days]]


class Moved(NamedTuple):
    """Who begins or ends to hold a duty, for a person who reads it."""

    person: str
    duty: str
    said: str


def named(found: set[str], names: dict[str, str]) -> dict[str, str]:
    """Each name of a source with that of the roster; those that no roster takes are refused."""
    known = {it: names.get(it, it) for it in found}
    bad = [it for it, name in known.items() if not is_name(name)]
    if bad:
        shown = ", ".join(repr(it) for it in sorted(bad))
        raise Unsure(f"no roster has such a name: {shown}; give each another in [names]")
    twice = sorted({it for it in known.values() if [*known.values()].count(it) > 1})
    if twice:
        raise Unsure(f"several people would have one name: {', '.join(twice)}")
    return known


class People:
    """A roster whose people are brought up to date."""

    def __init__(self, data: bytes, today: str, said: dict[str, Any], is_many: bool) -> None:
        if roster_faults.Roster(data).look():
            raise Unsure("the roster has faults: desk-lint names them")
        self.today, self.said, self.is_many = today, said, is_many
        self.before = read_toml(data).value
        self.text = RosterText(data.decode("utf-8"))
        self.moved: list[Moved] = []
        # what a source has and nobody gets, once each
        self.remarks: dict[str, None] = {}
        self.wanted: dict[str, Wanted] = {}

    def ldap(self) -> Ldap:
        if "ldap" not in self.said or "url" not in self.said["ldap"]:
            raise Unsure("the settings have no [ldap] with a url")
        return Ldap(self.said["ldap"])

    def held(self, person: str, duty: str) -> list[Days]:
        return held_by(self.before["people"].get(person, []), duty)

    def from_now(self, person: str, duty: str) -> list[Days]:
        return cut(self.held(person, duty), self.today, LAST)

    def asked(self, duty: str, source: dict[str, Any]) -> Wanted:
        """On which days from now on who holds a duty, as its source has it."""
        if "calendar" in source:
            by = Named(source.get("person", "summary"), source.get("domain", ""))
            weeks = source.get("weeks", WEEKS)
            calendar = on_call(source["calendar"], by, self.today, weeks, self.remark)
            known = named(set(calendar), self.said.get("names", {}))
            wanted = {known[it]: cut(days, self.today, LAST) for it, days in calendar.items()}
        else:
            known = named(self.members(source, duty), self.said.get("names", {}))
            wanted = {it: self.member(it, duty) for it in known.values()}
        if not wanted and not source.get("may_be_empty", False):
            raise Unsure(f"duties.{duty}: its source names nobody; may_be_empty allows that")
        return {it: self.ended(it, days) for it, days in wanted.items()}

    def members(self, source: dict[str, Any], duty: str) -> set[str]:
        if "ldap" in source:
            return self.ldap().members(source["ldap"])
        if "getent" in source:
            return machine_members(source["getent"])
        table, sources = source["csv"], self.said["duties"]
        read = {it for it in sources if sources[it].get("csv") == table}
        return table_members(table, duty, self.before["duties"], read, self.remark)

    def remark(self, said: str) -> None:
        self.remarks[said] = None

    def member(self, person: str, duty: str) -> list[Days]:
        """A member who holds the duty today goes on as the roster says; else from today."""
        now = self.from_now(person, duty)
        is_held = bool(now) and now[0].first == self.today
        if is_held and person not in self.said.get("ends", {}):
            return now
        return [Days(self.today, LAST)]

    def ended(self, person: str, days: list[Days]) -> list[Days]:
        """No day behind the last one that the settings give to a person."""
        end = self.said.get("ends", {}).get(person, LAST)
        return cut(days, FIRST, end)

    def look(self) -> str:
        """The roster's text, brought up to date."""
        for duty, source in self.said.get("duties", {}).items():
            if duty not in self.before["duties"]:
                raise Unsure(f"duties.{duty}: the roster has no such duty")
            self.wanted[duty] = self.asked(duty, source)
            self.move(duty, self.wanted[duty])
        found = self.text.changed()
        self.check(found)
        return found

    def move(self, duty: str, wanted: Wanted) -> None:
        holders = {it for it in self.before["people"] if self.from_now(it, duty)}
        leave = sorted(it for it in holders if not wanted.get(it))
        if len(leave) >= MANY and 2 * len(leave) > len(holders) and not self.is_many:
            said = f"{len(leave)} of {len(holders)} would lose it: {', '.join(leave)}"
            raise Unsure(f"duties.{duty}: {said}. --many, if that is meant")
        for person in sorted({*holders, *wanted}):
            days = wanted.get(person, [])
            before = self.from_now(person, duty)
            self.text.hold(person, duty, self.today, days)
            after = self.kept(before, days)
            if before != after:
                self.moved.append(Moved(person, duty, f"{shown(before)}, then {shown(after)}"))

    def kept(self, before: list[Days], wanted: list[Days]) -> list[Days]:
        """The wanted days, and today for whoever holds it today."""
        is_held = bool(before) and before[0].first == self.today
        return merged([*wanted, *([Days(self.today, self.today)] if is_held else [])])

    def check(self, found: str) -> None:
        """The text is a roster, with the days that are wanted, and all else is as it was."""
        after = read_toml(found.encode())
        if after.faults or roster_faults.Roster(found.encode()).look():
            raise CannotEdit("the text that would be written has faults")
        past = day_after(self.today, -1)
        for key, value in self.before.items():
            if key != "people" and after.value[key] != value:
                raise CannotEdit(f"{key} would change")
        everybody = {*self.before["people"], *after.value["people"]}
        for person in everybody:
            for duty in self.before["duties"]:
                before = self.held(person, duty)
                now = held_by(after.value["people"].get(person, []), duty)
                coming = self.from_now(person, duty)
                if duty in self.wanted:
                    coming = self.kept(coming, self.wanted[duty].get(person, []))
                is_kept = cut(before, FIRST, past) == cut(now, FIRST, past)
                if not is_kept or cut(now, self.today, LAST) != coming:
                    raise CannotEdit(f"{person} would hold {duty} on other days than are meant")


def shown(spans: list[Days]) -> str:
    words = [f"from {it.first}" + ("" if it.last == LAST else f" until {it.last}") for it in spans]
    return " and ".join(words) or "not at all"

"""The settings of desk-roster, each of which has its type and its range (docs/PEOPLE.md)."""

from __future__ import annotations

import re
import tomllib
from collections.abc import Iterator
from typing import Any

from desk_tools.directory import Unsure
from desk_tools.roster_faults import is_day

NAME = re.compile(r"[a-z_][a-z0-9._-]{0,31}")
KEYWORDS = {"sudoedit", "sha224", "sha256", "sha384", "sha512"}
KEYS = {"ldap", "names", "ends", "duties"}
LDAP = {"url", "words", "name"}
SOURCES = ("ldap", "getent", "csv", "calendar")
MORE = {"may_be_empty", "person", "domain", "weeks"}
OF_CALENDARS = ("person", "domain", "weeks")
DOMAIN = re.compile(r"[A-Za-z0-9-]+(?:\.[A-Za-z0-9-]+)*")
BY = ("summary", "attendee")
MOST_WEEKS = 520


def settings(path: str) -> dict[str, Any]:
    """The settings, each key and value of which is known."""
    try:
        with open(path, "rb") as file:
            found = tomllib.load(file)
    except tomllib.TOMLDecodeError as fault:
        raise Unsure(f"{path}: {fault}") from None
    why = next(wrong(found), None)
    if why is not None:
        raise Unsure(f"{path}: {why}")
    return found


def is_name(it: object) -> bool:
    """Whether a roster may have such a name."""
    return isinstance(it, str) and NAME.fullmatch(it) is not None and it not in KEYWORDS


def is_text(it: object) -> bool:
    return isinstance(it, str) and it != ""


def wrong(found: dict[str, Any]) -> Iterator[str]:
    """What is wrong, the first one first: what follows it may need it."""
    yield from unknown("", found, KEYS)
    for key, value in found.items():
        if not isinstance(value, dict):
            yield f"{key}: a table is expected, below a line [{key}]"
    yield from wrong_ldap(found.get("ldap", {}))
    names = found.get("names", {})
    for name, other in names.items():
        if not is_name(other):
            yield f"names.{name}: a name that a roster can have is expected, between quotes"
    for name, day in found.get("ends", {}).items():
        if names.get(name, name) != name and name not in names.values():
            yield f"ends.{name}: write the name that the roster has, {names[name]}"
        if not is_name(name):
            yield f"ends.{name}: no roster has such a name: write the one that [names] gives"
        if not is_day(day):
            yield f"ends.{name}: a day is yyyymmdd, between quotes"
    for duty, source in found.get("duties", {}).items():
        yield from wrong_duty(f"duties.{duty}", source)


def unknown(where: str, found: dict[str, Any], known: set[str]) -> Iterator[str]:
    odd = [f"{where}{it}" for it in sorted(set(found) - known)]
    if odd:
        yield f"an unknown key: {', '.join(odd)}"


def wrong_ldap(found: dict[str, Any]) -> Iterator[str]:
    yield from unknown("ldap.", found, LDAP)
    for key in ("url", "name"):
        if key in found and not is_text(found[key]):
            yield f"ldap.{key}: a text is expected, between quotes"
    words = found.get("words", [])
    if not isinstance(words, list) or not all(isinstance(it, str) for it in words):
        yield 'ldap.words: a list of texts is expected, as ["-x", "-ZZ"]'


def wrong_duty(where: str, source: object) -> Iterator[str]:
    if not isinstance(source, dict):
        yield f"{where}: a table is expected, below a line [{where}]"
        return
    given = [it for it in SOURCES if it in source]
    if len(given) != 1:
        yield f"{where}: one of {', '.join(SOURCES)} is expected"
    yield from unknown(f"{where}.", source, {*SOURCES, *MORE})
    if not is_text(source[given[0]]):
        yield f"{where}.{given[0]}: a text is expected, between quotes"
    if not isinstance(source.get("may_be_empty", False), bool):
        yield f"{where}.may_be_empty: true or false is expected, without quotes"
    for key in OF_CALENDARS:
        if key in source and "calendar" not in source:
            yield f"{where}.{key}: only a calendar has it: leave it out"
    if source.get("person", BY[0]) not in BY:
        yield f'{where}.person: "{BY[0]}" or "{BY[1]}" is expected'
    if "domain" in source and source.get("person") != "attendee":
        yield f'{where}.domain: only person = "attendee" has it: leave it out'
    domain = source.get("domain", "a")
    if not isinstance(domain, str) or not DOMAIN.fullmatch(domain):
        yield f"{where}.domain: what stands behind the @ is expected, as \"example.com\""
    weeks = source.get("weeks", 1)
    if type(weeks) is not int or not 1 <= weeks <= MOST_WEEKS:
        yield f"{where}.weeks: a whole number from 1 to {MOST_WEEKS} is expected, without quotes"

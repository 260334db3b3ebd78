"""Who is in a group: from LDAP, the machine's groups and a CSV.

What is empty, partial or fails is refused: no answer of a directory takes a right by mistake.
"""

from __future__ import annotations

import base64
import csv
import re
import subprocess
from collections.abc import Callable, Collection, Iterator
from typing import Any

from desk_tools.cvtsudoers import BadSudoers
from desk_tools.machine import NSSWITCH, getent, is_files_alone

PATIENCE = 60.0  # seconds for one question to the directory
COLUMNS = ("person", "duty")
MEMBERS = ("member", "uniquemember", "memberuid")
LOOPBACK = re.compile(r"ldap://(localhost|127\.0\.0\.1|\[::1\])(:\d+)?/?")
LDIF = re.compile(r"([A-Za-z0-9.-]+(?:;[A-Za-z0-9.=;-]+)?):(:?) ?(.*)")


class Unsure(Exception):
    """Why the answer of a source is not taken."""


# ---- LDAP, by ldapsearch


class Ldap:
    def __init__(self, settings: dict[str, Any]) -> None:
        self.url, self.name = str(settings["url"]), str(settings.get("name", "uid"))
        self.words = [str(it) for it in settings.get("words", [])]
        is_clear = self.url.startswith("ldap://") and not LOOPBACK.fullmatch(self.url)
        if is_clear and "-ZZ" not in self.words:
            raise Unsure(f"{self.url}: whoever is on the way can change it: ldaps:// or -ZZ")

    def entry(self, name: str, *attributes: str) -> dict[str, list[str]]:
        """An entry's attributes, in lower case."""
        words = ["ldapsearch", "-LLL", "-o", "ldif-wrap=no", "-H", self.url, *self.words]
        words += ["-s", "base", "-b", name, "(objectClass=*)", *attributes]
        try:
            ran = subprocess.run(
                words, capture_output=True, text=True, timeout=PATIENCE, check=False
            )
        except FileNotFoundError:
            raise Unsure("it needs ldapsearch (Debian's package ldap-utils)") from None
        except subprocess.TimeoutExpired:
            raise Unsure(f"{self.url}: it does not answer") from None
        if ran.returncode or not ran.stdout.strip():
            said = " ".join(ran.stderr.split()) or "it answers nothing"
            raise Unsure(f"{self.url}: {name}: {said}")
        found: dict[str, list[str]] = {}
        for attribute, value in read_ldif(ran.stdout):
            found.setdefault(attribute, []).append(value)
        return found

    def members(self, group: str) -> set[str]:
        found = self.entry(group, "member", "uniqueMember", "memberUid")
        partial = [it for it in found if it.partition(";")[0] in MEMBERS and ";" in it]
        if partial:
            raise Unsure(f"{self.url}: {group}: it gives only a part ({partial[0]})")
        names = set(found.get("memberuid", []))
        for member in found.get("member", []) + found.get("uniquemember", []):
            names.add(self.name_of(member))
        return names

    def name_of(self, member: str) -> str:
        """A member's name: exactly one, or it is refused (a group in a group has none)."""
        named = self.entry(member, self.name).get(self.name.lower(), [])
        if len(named) != 1:
            raise Unsure(f"{self.url}: {member}: it has {len(named)} of {self.name}, and not one")
        return named[0]


def read_ldif(text: str) -> Iterator[tuple[str, str]]:
    for line in text.splitlines():
        if not line or line.startswith("#"):
            continue
        found = LDIF.fullmatch(line)
        if found is None:
            raise Unsure(f"ldapsearch prints a line that is none of LDIF: {line[:60]}")
        value = found[3]
        if found[2]:
            value = base64.b64decode(value).decode("utf-8", "replace")
        yield found[1].lower(), value


# ---- the machine, and a table


def machine_members(group: str) -> set[str]:
    """Who is in a group of the machine, also by the first group of an account."""
    try:
        rows = [row for row in getent("group", group) if row[0] == group]
        accounts = getent("passwd")
    except BadSudoers as fault:
        raise Unsure(str(fault)) from None
    if len(rows) != 1:
        raise Unsure(f"getent knows no group {group}")
    named = {name for name in rows[0][3].split(",") if name}
    return named | {row[0] for row in accounts if row[3] == rows[0][2]}


def unseen(group: str, switch: str = NSSWITCH) -> str | None:
    """Whom getent may not see in a group: a directory may know people whom it does not list."""
    if is_files_alone(switch):
        return None
    return (
        f"(getent {group}: nsswitch.conf has more than files, so whoever has {group} as their "
        "first group, and is not listed by `getent passwd`, is not seen)"
    )


def table_members(
    path: str,
    duty: str,
    duties: Collection[str],
    read: Collection[str],
    remark: Callable[[str], None],
) -> set[str]:
    """Who has a duty in a CSV with the columns person and duty: a roster has the duties, and some
    of them are read there.

    A row whose duty the roster does not have may be a slip, by which somebody would lose a right:
    it is refused. One of a duty that the settings do not read there is remarked."""
    found = set()
    for place, person, its_duty in rows_of(path):
        if its_duty not in duties:
            raise Unsure(f"{place}: the roster has no duty {its_duty!r}")
        if its_duty not in read:
            remark(f"{place}: not read: no [duties.{its_duty}] of the settings names this file")
        if its_duty == duty:
            found.add(person)
    return found


def rows_of(path: str) -> Iterator[tuple[str, str, str]]:
    """Each row of a CSV: its place, its person and its duty."""
    try:
        with open(path, encoding="utf-8", newline="") as file:
            rows = csv.DictReader(file, strict=True)
            columns = list(rows.fieldnames or [])
            if [columns.count(it) for it in COLUMNS] != [1, 1]:
                raise Unsure(f"{path}: its first line names the columns person and duty, each once")
            for row in rows:
                place, (person, duty) = f"{path}:{rows.line_num}", (row[it] for it in COLUMNS)
                if not person or not duty:
                    raise Unsure(f"{place}: a line without person or duty")
                if [person, duty] != [person.strip(), duty.strip()]:
                    raise Unsure(f"{place}: a blank before or behind {person!r} or {duty!r}")
                yield place, person, duty
    except (OSError, UnicodeDecodeError, csv.Error) as fault:
        raise Unsure(f"{path}: {fault}") from None

"""A roster without faults, as the desk reads it: who holds what on which day, and what a ceiling admits (docs/ROSTER.md)."""

import re
from typing import Any, NamedTuple

FIRST, LAST = "19700101", "20991231"
# last components that are directories everywhere (hier(7))
FOLDERS = set("bin boot etc games home include lib lib32 lib64 libexec local opt sbin share src srv tmp usr var".split())
# folders of the root that are links into /usr on today's hosts
LINKED = re.compile(r"/(?:s?bin|lib(?:32|64|x32)?)(?=/)")


class Command(NamedTuple):
    """A command: `all`, a `dir`, or a `file` with what it says of its arguments: `any`, `none`, or these."""

    kind: str
    path: str
    rule: str
    args: tuple[str, ...]


def command(text: str) -> Command:
    path, *args = text.split(" ")
    if path == "ALL":
        return Command("all", "", "any", ())
    if path.endswith("/"):
        return Command("dir", path, "any", ())
    rule = "any" if not args else "none" if args == ['""'] else "these"
    return Command("file", path, rule, tuple(args) if rule == "these" else ())


def seems_directory(text: str) -> bool:
    """Whether a command that is a file by its form has the name of a directory."""
    return text.startswith("/") and " " not in text and text.rpartition("/")[2] in FOLDERS


def without_slash(text: str) -> str:
    """What is said of such a command."""
    return f"a file by its form, and a directory by its name: with no / at its end it allows nothing in {text}/"


def lies_inside(asked: Command, wide: Command) -> bool:
    """Whether a command allows nothing that the wide one does not."""
    if wide.kind == "all" or asked == wide:
        return True
    if asked.kind != "file":
        return False
    if wide.kind == "dir":
        return asked.path.rpartition("/")[0] + "/" == wide.path
    return asked.path == wide.path and wide.rule == "any"


class Site:
    def __init__(self, document: dict[str, Any]) -> None:
        self.relays: list[str] = document["relays"]
        self.hosts: list[str] = document["hosts"]
        self.duties: list[str] = document["duties"]
        self.against: dict[str, set[str]] = {}
        for one, other in document["conflicts"]:
            self.against.setdefault(one, set()).add(other)
            self.against.setdefault(other, set()).add(one)
        self.people: dict[str, list[Any]] = document["people"]
        self.ceilings: dict[str, dict[str, Any]] = document["ceilings"]

    def held(self, person: str, day: str) -> set[str]:
        """The duties that a person holds on a day."""
        found = set()
        for entry in self.people.get(person, []):
            if isinstance(entry, str):
                found.add(entry)
            elif entry["from"] <= day <= entry["until"]:
                found.add(entry["duty"])
        return found

    def conflicts_with(self, duty: str) -> set[str]:
        return self.against.get(duty, set())

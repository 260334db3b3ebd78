"""What a roster's text lacks of another file's entries is added to it, and all the rest of it stays
as it is: the envelope of examples/break-glass.toml, a ceiling, a host."""

from __future__ import annotations

import re
from typing import Any

from desk_tools.roster_text import CannotEdit, RosterText
from desk_tools.toml_text import Document, Node, Reader

LISTS = ("relays", "hosts", "duties", "conflicts")
# comments and empty lines at the end of a table: they belong to what follows it
REST = re.compile(r"(\s*(#[^\n]*)?)*\Z")


def plain(node: Node) -> Any:
    return Reader("").closed(node.held, (), {})


def same(value: Any) -> Any:
    """A pair of conflicting duties is the same in either order."""
    return sorted(value) if isinstance(value, list) else value


class Added:
    """The entries of a file, to be added to a roster's text."""

    def __init__(self, text: str, name: str) -> None:
        self.text, self.name = text, name
        document = Document()
        self.tree = Reader(text).tree(document)
        for fault in document.faults:
            raise CannotEdit(f"{name}:{fault.line}: {fault.said}")
        for key, node in self.tree.items():
            kind = dict if key in ("people", "ceilings") else list
            if key not in (*LISTS, "people", "ceilings") or not isinstance(node.held, kind):
                raise CannotEdit(f"{name}: no roster has such a {key}")

    def tables(self, key: str) -> list[tuple[str, Node]]:
        """What stands in a table, by its names."""
        return list(self.tree[key].held.items()) if key in self.tree else []

    def words(self, node: Node) -> str:
        return self.text[node.start : node.end]

    def lacking(self, key: str, there: list[Node], here: Node) -> list[str]:
        """The items that a list does not have, as they are written here."""
        if not isinstance(here.held, list):
            raise CannotEdit(f"{self.name}: {key} is no list")
        had = [same(plain(it)) for it in there]
        return [self.words(it) for it in here.held if same(plain(it)) not in had]

    def ceiling(self, label: str, node: Node) -> str:
        """The lines of a ceiling, from its header on."""
        if node.origin != "header":
            raise CannotEdit(f"{self.name}: write [ceilings.{label}], and its words below it")
        tables = [it for it in self.tree.values() if isinstance(it.held, dict)]
        tables += self.tree["ceilings"].held.values()
        end = min((it.at for it in tables if it.at > node.at), default=len(self.text))
        return REST.sub("", self.text[node.at : end]) + "\n"


def added(text: str, more: str, name: str) -> str:
    """A valid roster's text with what it lacks of another file's entries. Nothing that it has is
    changed: a ceiling of the same name and other words is refused."""
    roster, new = RosterText(text), Added(more, name)
    for key in LISTS:
        if key in new.tree:
            lacks = new.lacking(key, roster.tree[key].held, new.tree[key])
            if lacks:
                roster.edits += roster.appended(roster.tree[key], lacks)
    for person, node in new.tables("people"):
        there = roster.people.get(person)
        lacks = new.lacking(person, there.held if there else [], node)
        if lacks or there is None:
            roster.fresh[person] = lacks
    ceilings = roster.tree["ceilings"].held
    tail = ""
    for label, node in new.tables("ceilings"):
        if label not in ceilings:
            tail += f"\n{new.ceiling(label, node)}"
        elif plain(ceilings[label]) != plain(node):
            raise CannotEdit(f"{name}: the roster has another ceiling {label}: change it there")
    changed = roster.changed()
    return changed + ("" if changed.endswith("\n") or not tail else "\n") + tail

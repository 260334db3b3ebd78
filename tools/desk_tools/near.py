"""How near a roster or a base is to a limit past which the desk refuses it: what grows for years is
said before that day."""

from __future__ import annotations

import subprocess
import tempfile
from collections.abc import Iterator
from typing import Any, NamedTuple

from desk_tools import schema
from desk_tools.found import Warning, dotted
from desk_tools.roster_faults import MOST_BYTES
from desk_tools.toml_text import Document, Path
from desk_tools.written_out import ALIAS, ITEM, RULE, users_and_hosts

# From how many percent of a limit on it is said.
NEAR = 90
# The limits of a base (docs/CODES.md, K6).
BASE_ENTRIES, BASE_WEIGHT, BASE_BYTES = 4_096, 65_536, 1_048_576


class Used(NamedTuple):
    """How many there are of something, and how many there may be; a few of a text have no key."""

    path: Path
    what: str
    used: int
    most: int

    def is_near(self, percent: int) -> bool:
        return 100 * self.used >= percent * self.most and self.most > 2

    @property
    def said(self) -> str:
        share = 100 * self.used // self.most
        return f"{self.used:,} of {self.most:,} {self.what} are used ({share} %)"


def of_roster(document: Document, size: int) -> Iterator[Used]:
    """What a roster uses, of each limit that the published schema has, and of its bytes."""
    yield Used((), "bytes", size, MOST_BYTES)
    whole = schema.document("roster")
    yield from below(document.value, schema.inlined(whole, whole["$defs"]), ())


def below(value: Any, form: dict[str, Any], path: Path) -> Iterator[Used]:
    """The same of a value, and of all below it."""
    for kind, key in ((list, "maxItems"), (dict, "maxProperties")):
        if isinstance(value, kind) and key in form:
            what = "items" if kind is list else "entries"
            yield Used(path, what, len(value), form[key])
    if isinstance(value, list) and isinstance(form.get("items"), dict):
        for place, it in enumerate(value):
            yield from below(it, form["items"], (*path, place))
    if isinstance(value, dict):
        forms, other = form.get("properties", {}), form.get("additionalProperties", {})
        for name, it in value.items():
            inner = forms.get(name, other)
            yield from below(it, inner if isinstance(inner, dict) else {}, (*path, name))


def of_base(canonical: str) -> Iterator[Used]:
    """What a base uses, by its canonical text: one alias or rule a line."""
    lines = canonical.splitlines()
    yield Used((), "entries", len(lines), BASE_ENTRIES)
    yield Used((), "names and commands, with each alias written out,", weight(lines), BASE_WEIGHT)
    yield Used((), "bytes of canonical text", len(canonical.encode()), BASE_BYTES)


def weight(lines: list[str]) -> int:
    """The names, `ALL`s and commands in the lists of all rules, if each alias were written out."""
    weights: dict[tuple[str, str], int] = {}

    def of(kind: str, text: str) -> int:
        return sum(weights.get((kind, it.lstrip("!")), 1) for it in ITEM.split(text))

    found = 0
    for line in lines:
        if alias := ALIAS.fullmatch(line):
            weights[alias[1], alias[2]] = of(alias[1], alias[3])
        elif rule := RULE.fullmatch(line):
            users, hosts = users_and_hosts(rule["head"])
            found += of("User", users) + of("Host", hosts) + of("Cmnd", rule["command"])
            found += of("Runas", rule["targets"] or "root")
    return found


def canonical_of(desk: str, data: bytes) -> str:
    with tempfile.NamedTemporaryFile() as file:
        file.write(data)
        file.flush()
        ran = subprocess.run([desk, "check", file.name], capture_output=True, check=False)
    return ran.stdout.decode("ascii", "replace")


def warnings_of(used: Iterator[Used], percent: int, document: Document | None) -> list[Warning]:
    """What is near a limit."""
    found = []
    for it in used:
        if it.is_near(percent):
            line = document.line(it.path) if document and it.path else 1
            key = dotted(it.path) if it.path else "all"
            found.append(Warning(line, "near", key, it.said))
    return found

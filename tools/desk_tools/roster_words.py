"""What differs between two rosters, in words: who may do what, and where."""

from __future__ import annotations

import re
from collections.abc import Iterator
from typing import Any

from desk_tools.roster_text import day_after
from desk_tools.site import FIRST, LAST
from desk_tools.toml_text import read as read_toml

Tree = dict[str, Any]
LISTS = {"relays": "relay", "hosts": "host", "duties": "duty"}
LEAVING_HOST = re.compile(r"the host \S+ leaves")
HOST_LEAVES = ": it gets no file, so remove its /etc/sudoers.d/desk"


def tree_of(text: bytes) -> Tree:
    return dict(read_toml(text).value)


def spans(entries: list[Any]) -> set[tuple[str, str, str]]:
    """Each duty of a person, with its first and its last day, where it has one."""
    found = set()
    for it in entries:
        if isinstance(it, str):
            found.add((it, "", ""))
        else:
            first, last = it["from"].replace(FIRST, ""), it["until"].replace(LAST, "")
            found.add((it["duty"], first, last))
    return found


def told(span: tuple[str, str, str]) -> str:
    duty, first, last = span
    days = [f"from {first}"] * bool(first) + [f"until {last}"] * bool(last)
    return " ".join([duty, *days])


def pair(duties: frozenset[str]) -> str:
    return " and ".join(sorted(duties))


def people_lines(old: Tree, new: Tree) -> Iterator[str]:
    for name in sorted({*old, *new}):
        before, after = spans(old.get(name, [])), spans(new.get(name, []))
        if name not in old:
            yield f"{name} joins: {listed(after)}"
        elif name not in new:
            yield f"{name} is struck out, and had: {listed(before)}"
        elif before != after:
            for it in sorted(before - after):
                yield f"{name} no longer has: {told(it)}"
            for it in sorted(after - before):
                yield f"{name} has now: {told(it)}"


def listed(held: set[tuple[str, str, str]]) -> str:
    return ", ".join(map(told, sorted(held))) or "nothing"


def ceiling_lines(old: Tree, new: Tree) -> Iterator[str]:
    for name in sorted({*old, *new}):
        if name not in old or name not in new:
            yield f"the ceiling {name} is {'new' if name in new else 'gone'}"
            continue
        for key, after in new[name].items():
            before = old[name].get(key)
            if isinstance(after, list):
                yield from (f"{name}: {key} no longer {it}" for it in before if it not in after)
                yield from (f"{name}: {key} now {it}" for it in after if it not in before)
            elif before != after:
                yield f"{name}: {key} from {before} to {after}"


def lines(old_text: bytes, new_text: bytes) -> list[str]:
    """What another roster changes, a line for each thing, for whoever changes it."""
    found = differences(tree_of(old_text), tree_of(new_text))
    return [f"{it}{HOST_LEAVES}" if LEAVING_HOST.fullmatch(it) else it for it in found]


def differences(old: Tree, new: Tree) -> list[str]:
    """What another roster changes, a line for each thing."""
    found: list[str] = []
    for key, kind in LISTS.items():
        found += [f"the {kind} {it} is new" for it in new[key] if it not in old[key]]
        found += [f"the {kind} {it} leaves" for it in old[key] if it not in new[key]]
    pairs = [{frozenset(it) for it in tree["conflicts"]} for tree in (old, new)]
    for said, these in (("is new", pairs[1] - pairs[0]), ("is gone", pairs[0] - pairs[1])):
        found += [f"the conflict of {it} {said}" for it in sorted(map(pair, these))]
    found += people_lines(old["people"], new["people"])
    return found + [*ceiling_lines(old["ceilings"], new["ceilings"])]


def two_names(old_text: bytes, new_text: bytes) -> list[tuple[str, str]]:
    """A name that loses duties, and one that gets the very same: maybe both are one person's."""
    old, new = tree_of(old_text)["people"], tree_of(new_text)["people"]
    lost: dict[str, set[tuple[str, str]]] = {}
    got: dict[str, set[tuple[str, str]]] = {}
    for name in {*old, *new}:
        before, after = spans(old.get(name, [])), spans(new.get(name, []))
        ends = {duty: last for duty, _, last in after - before if last}
        left = {duty for duty, _, _ in before} - {duty for duty, _, _ in after}
        lost[name] = {(it, day_after(last, 1)) for it, last in ends.items()}
        lost[name] |= {(it, "") for it in left}
        got[name] = {(duty, first) for duty, first, _ in after - before if name not in old or first}
    return [
        (one, other)
        for one in sorted(lost)
        for other in sorted(got)
        if one != other and lost[one] and is_taken_over(lost[one], got[other])
    ]


def is_taken_over(lost: set[tuple[str, str]], got: set[tuple[str, str]]) -> bool:
    """Whether the very duties that one name loses begin for another, on the next day or with the
    change."""
    begins = {duty: first for duty, first in got}
    return {duty for duty, _ in lost} == begins.keys() and all(
        not first or not begins[duty] or begins[duty] == first for duty, first in lost
    )

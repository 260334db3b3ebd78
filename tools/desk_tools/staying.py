"""What a rule that stays on the host takes along.

sudo goes by the last rule that fits, and reads what stays before the desk's file. So a rule may go
to the desk only if no later one that stays speaks of the same people, hosts and commands and says
something else of them: what stays takes such an earlier rule along.
"""

import re
from typing import Any

from desk_tools.entries import Entry, Words
from desk_tools.machine import matches_form
from desk_tools.site import Command, command
from desk_tools.sudo_settings import loosens
from desk_tools.sudo_text import SPECS
from desk_tools.sudoers import ALIASES, Sudoers
from desk_tools.unsaid import Unsaid

COMMAND = ALIASES[3]
BOUNDS = ("notbefore", "notafter")
WILD = re.compile(r"[\\*?\[]")


def settle(entries: list[Entry], sudoers: Sudoers) -> None:
    """Marks each rule that a later one takes along. (From the last to the first: what is taken
    takes along, too.)"""
    texts = {id(it): commands(it.item, sudoers) for it in entries}
    mixed = {id(it) for it in entries if denies_within(it.item, sudoers)}

    def clash(one: Entry, other: Entry) -> bool:
        return id(one) in mixed or id(other) in mixed or differ(one, other)

    def meet(one: Entry, other: Entry) -> bool:
        are_same = may_be_same(one.users, other.users) and may_be_same(one.hosts, other.hosts)
        return are_same and any(
            may_be_one(it, that) for it in texts[id(one)] for that in texts[id(other)]
        )

    for place in range(len(entries) - 1, -1, -1):
        later = entries[place]
        if later.is_elsewhere or later.is_kept() and not later.leaves_out():
            continue
        earlier = [it for it in entries[:place] if not it.is_elsewhere and clash(it, later)]
        if later.is_kept():
            freer = [it for it in earlier if is_freer(it, later) and meet(it, later)]
            if freer:
                later.why = Unsaid(later.place, f"line {freer[0].place.line}", "freer")
        if later.is_kept():
            continue
        for it in earlier:
            if it.is_kept() and meet(it, later):
                it.because = later


def differ(one: Entry, other: Entry) -> bool:
    """Whether two rules say something else of what both fit."""
    if one.is_denied or other.is_denied:
        return one.is_denied != other.is_denied
    return said(one) != said(other)


def denies_within(item: dict[str, Any], sudoers: Sudoers) -> bool:
    """Whether it is an alias that denies something of what it names."""
    held = sudoers.aliases[COMMAND].get(item.get("cmndalias", ""))
    return held is not None and any(
        inner.get("negated", False) or denies_within(inner, sudoers) for inner in held.items
    )


def is_freer(one: Entry, other: Entry) -> bool:
    """Whether a rule lets more be done than another, where that leaves somebody out."""
    flags, others = said(one), said(other)
    return not one.is_denied and any(
        loosens(key, value) and others.get(key) != value for key, value in flags.items()
    )


def said(entry: Entry) -> dict[str, Any]:
    """What a rule says of its command, but for its bounds."""
    found = {key: entry.part.get(key) for key in SPECS}
    for option in entry.part.get("Options", []):
        found |= {key: value for key, value in option.items() if key not in BOUNDS}
    found.pop("send_mail", None)
    if entry.item.get("command") == "ALL":
        found.setdefault("setenv", True)
    return found


def may_be_same(one: Words | None, other: Words | None) -> bool:
    """Whether two lists may mean the same user or host; one that cannot be said may mean anyone."""
    names, others = (it.named() if it is not None else None for it in (one, other))
    return names is None or others is None or not names.isdisjoint(others)


def commands(item: dict[str, Any], sudoers: Sudoers) -> list[str]:
    """The commands of a rule, with each alias written out."""
    held = sudoers.aliases[COMMAND].get(item.get("cmndalias", ""))
    if held is None:
        return [str(item.get("command", "ALL"))]
    return [text for inner in held.items for text in commands(inner, sudoers)]


def may_be_one(one: str, other: str) -> bool:
    """Whether two commands may be the same."""
    if "ALL" in (one, other):
        return True
    if is_own(one) or is_own(other):
        return is_own(one) and is_own(other) or "/" in (one[-1], other[-1])
    first, second = split(one), split(other)
    if first is None or second is None:
        return True
    names = [it.path.rpartition("/")[2] for it in (first, second)]
    return fits(*names) and arguments_fit(first, second)


def is_own(text: str) -> bool:
    """Whether it is one of sudo's own commands."""
    return text == "list" or text.split(" ")[0].endswith("sudoedit")


def split(text: str) -> Command | None:
    """A command of a file; None for what may be any file. (A link may be in any directory.)"""
    path = text.split(" ")[0]
    if path.startswith("^") or path.endswith("/") or " ^" in text:
        return None
    return command(text)


def fits(one: str, other: str) -> bool:
    """Whether two texts may be one, either of which may be a pattern of sudo's."""
    if WILD.search(one) and WILD.search(other):
        return True
    return one == other or matches_form(one, other) or matches_form(other, one)


def arguments_fit(one: Command, other: Command) -> bool:
    if "any" in (one.rule, other.rule):
        return True
    return fits(" ".join(one.args), " ".join(other.args))

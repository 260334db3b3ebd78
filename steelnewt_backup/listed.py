"""The list of what a machine keeps (state.toml), and what of it is there."""

from __future__ import annotations

import fnmatch
import glob
import os
import stat
import tomllib
from collections.abc import Iterator
from dataclasses import dataclass, field
from functools import cache

LIST = os.path.join(os.path.dirname(os.path.realpath(__file__)), "state.toml")


@dataclass(frozen=True)
class Taken:
    """A part of the state."""

    name: str
    paths: list[str]
    what: str
    stores: list[str] = field(default_factory=list)
    plain: list[str] = field(default_factory=list)
    skip: list[str] = field(default_factory=list)


@dataclass(frozen=True)
class Left:
    """What is not taken."""

    paths: list[str]
    why: str


@dataclass(frozen=True)
class Item:
    """A file, folder or link that is taken, by its path on the machine."""

    part: Taken
    path: str
    is_store: bool
    is_secret: bool


@cache
def the_list() -> tuple[tuple[Taken, ...], tuple[Left, ...]]:
    with open(LIST, "rb") as file:
        found = tomllib.load(file)
    return tuple(Taken(**it) for it in found["taken"]), tuple(Left(**it) for it in found["left"])


def site_part(paths: list[str]) -> Taken:
    """What a site names besides (`also`): all of it is secret."""
    return Taken("also", paths, "what the site names")


def is_one_of(name: str, forms: list[str]) -> bool:
    """Whether a path below a folder has one of these forms. (A form of one part means a name in
    any folder below; the star of a longer one stands for folders too.)"""
    last = os.path.basename(name)
    return any(fnmatch.fnmatchcase(name if "/" in form else last, form) for form in forms)


def items_of(part: Taken, root: str = "") -> Iterator[Item]:
    """What there is of a part: each folder before what is in it. Sockets and the like are none."""
    for form in part.paths:
        for top in sorted(glob.glob(root + form)):
            yield from below(part, top.removeprefix(root), "", root)


def below(part: Taken, top: str, name: str, root: str) -> Iterator[Item]:
    path = os.path.join(top, name) if name else top
    shown = name or os.path.basename(top)
    if is_one_of(shown, part.skip) or is_log_of_store(part, shown):
        return
    mode = os.lstat(root + path).st_mode
    if stat.S_ISDIR(mode):
        yield Item(part, path, False, False)
        for entry in sorted(os.listdir(root + path)):
            yield from below(part, top, os.path.join(name, entry), root)
    elif stat.S_ISREG(mode) or stat.S_ISLNK(mode):
        is_secret = not is_one_of(shown, part.plain)
        yield Item(part, path, shown in part.stores, is_secret)


def is_log_of_store(part: Taken, name: str) -> bool:
    """Whether it is the log of a store: that is taken with the store."""
    return any(name == f"{store}-wal" for store in part.stores)


def is_named(path: str) -> bool:
    """Whether the list says something of a path: it is taken or left."""
    taken, left = the_list()
    forms = [form for part in taken for form in part.paths]
    forms += [form for part in left for form in part.paths]
    return any(
        fnmatch.fnmatchcase(path, form) or fnmatch.fnmatchcase(path, f"{form}/*") for form in forms
    )

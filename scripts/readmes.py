"""The README of each crate: that it is there, that it is short, and that what it names is there.

A crate's README.md says what the crate does, what is proved, what is not, and what to read first.
A file that the page names is one of the crate, or of another crate that the page names with its
folder; a law and a call of a type are public calls of the crate, or of another crate that the page
names; any other name is declared in the crate, in one that it stands on, or in one that the page
names.
`make quick` asks for all of it.
"""

import functools
import os
import re
from collections.abc import Iterator

import calls
import make_docs
import names
import repository

MOST_LINES = 20
MOST_COLUMNS = 120
PARTS = ("**Proved.**", "**Not proved.**", "**Read first.**")
CODE = re.compile(r"[A-Z]\d+")
# what is outside the crates: a target of make, a program, and a file that quick.py looks up
OUTSIDE = re.compile(r"make ([\w-]+)|desk-[\w-]+|cases/[\w.-]*|#\[\w+\]")
PLACE = re.compile(r"(?:(\w+)::)?((?:laws|[A-Z]\w*)::\w+)")
DECLARED = re.compile(
    r"\b(?:(?:fn|struct|enum|trait|type|const|record|data|ensures|pub|abbrev|unfoldable) )+(\w+)"
    r"|^ +([A-Z]\w*)[,({ ]",
    re.MULTILINE,
)


def libraries(crate: str) -> list[str]:
    """What crates.txt says that the crate stands on."""
    for line in repository.read("crates.txt").splitlines():
        name, _, below = line.partition(":")
        if name == crate:
            return below.split()
    return []


@functools.cache
def declared(crate: str) -> frozenset[str]:
    """The names that the crate's files declare."""
    found = set[str]()
    for path, text in names.files().items():
        if path.startswith((f"{crate}/src/", f"{crate}/specs/")):
            found |= {name for pair in DECLARED.findall(text) for name in pair if name}
    return frozenset(found)


@functools.cache
def called() -> frozenset[tuple[str, str]]:
    """The public calls and laws, each with its crate."""
    return frozenset((call.crate, call.name) for call in calls.all_calls())


def is_there(crate: str, around: list[str], name: str) -> bool:
    """Whether a name of the crate's page is there: among the crates that the page names, too."""
    if "/" in name or os.path.exists(os.path.join(repository.ROOT, "crates", crate, name)):
        inside = os.path.join(repository.ROOT, "crates", crate, name)
        other = os.path.join(repository.ROOT, "crates", name)
        return os.path.isfile(inside) or os.path.isfile(other)
    if place := PLACE.fullmatch(name):
        owners = [place[1]] if place[1] else [crate, *around]
        call = place[2]
        variant = call.rpartition("::")[2]
        return any(
            (owner, call) in called()
            or (call[0] != "l" and variant[0].isupper() and variant in declared(owner))
            for owner in owners
        )
    owner, _, call = name.rpartition("::")
    if owner:
        return (owner, call) in called()
    return any(name in declared(it) for it in (crate, *around))


def faults_of(crate: str) -> Iterator[str]:
    page = f"crates/{crate}/README.md"
    if not os.path.isfile(os.path.join(repository.ROOT, page)):
        yield f"{page}: it is not there"
        return
    text = repository.read(page)
    lines = text.splitlines()
    if lines[:1] != [f"# {crate}"]:
        yield f"{page}: its first line is not the crate's name"
    if len(lines) > MOST_LINES:
        yield f"{page}: {len(lines)} lines, more than {MOST_LINES}"
    yield from (f"{page}: a line is too wide: {it[:60]}" for it in lines if len(it) > MOST_COLUMNS)
    yield from (f"{page}: it lacks {part}" for part in PARTS if part not in text)
    every, quoted = make_docs.crates(), dict.fromkeys(names.QUOTED.findall(text))
    around = list(dict.fromkeys([it for it in quoted if it in every] + libraries(crate)))
    outside = {crate, "desk", *every, *around}
    codes, targets = repository.read("docs/CODES.md"), repository.read("Makefile")
    for name in quoted:
        known = name in outside or not re.search(r"\w", name)
        if CODE.fullmatch(name):
            known = f"`{name} " in codes
        elif other := OUTSIDE.fullmatch(name):
            known = not other[1] or re.search(rf"^{other[1]}:", targets, re.MULTILINE) is not None
        if not known and not is_there(crate, around, name):
            yield f"{page}: it names {name}, which is not there"


def faults() -> Iterator[str]:
    for crate in make_docs.crates():
        yield from faults_of(crate)

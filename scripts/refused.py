"""When the further edits of each crate (crates/NAME/more-edits/) were last seen refused.

docs/proof/refused-edits.txt has a line for each crate: its name, the day, how many edits were
refused, and a checksum of what a refusal rests on. That is the crate's own files, with its edits;
and of the crates below it what these cite: files of definitions, by their `use` lines, and the
contracts of the public functions whose names they call, with the definitions that those cite in
turn. So a change of bodies alone makes one line old, and a change of definitions or contracts also
those of the crates that cite them.
"""

from __future__ import annotations

import functools
import glob
import hashlib
import os
import re
import shutil
import time
from collections.abc import Iterator, Sequence
from typing import NamedTuple

import contracts
import repository

RECORD = os.path.join(repository.ROOT, "docs", "proof", "refused-edits.txt")
HEAD = """\
# When all edits of a crate's more-edits/ were last seen refused: the crate, the day, how many they
# were, and a checksum of what they rest on (scripts/refused.py). `make edits` writes it.
"""
OWN = ("src", "specs", "proofs", "more-edits")
SPEC = re.compile(r"Rattle\.(\w+)\.specs\.([\w.]+)")
SPEC_LINE = re.compile(r"Rattle\.\w+\.specs\.[\w.]+")
WORD = re.compile(r"\w+")


class Seen(NamedTuple):
    """A line of the record."""

    day: str
    count: int
    basis: str


class Call(NamedTuple):
    """The contract of a public function: its text, and the texts of `use` lines beside it."""

    text: str
    uses: str


def crates(tree: str) -> dict[str, list[str]]:
    """The crates of a tree, lowest first, each with the crates that it stands on."""
    text = repository.read(tree, "crates.txt")
    lines = [it.partition(":") for it in text.splitlines() if ":" in it and not it.startswith("#")]
    names = [name for name, _, _ in lines]
    return {name: [word for word in words.split() if word in names] for name, _, words in lines}


def edits_of(tree: str, crate: str) -> list[str]:
    """The paths of a crate's further edits."""
    return sorted(glob.glob(os.path.join(tree, "crates", crate, "more-edits", "*.edit")))


def copy_crates(tree: str, room: str, without: Sequence[str] = ("out",)) -> None:
    """Copies what the prover reads of a tree into a folder, but folders of these names."""
    ignored = shutil.ignore_patterns(*without)
    shutil.copytree(os.path.join(tree, "crates"), os.path.join(room, "crates"), ignore=ignored)
    for file in ("crates.txt", "HANDLES"):
        shutil.copy(os.path.join(tree, file), room)


def add_edits(room: str, crate: str, edits: Sequence[str]) -> None:
    """Has the prover try these edits of a crate in a copy, beside those that stand there."""
    folder = os.path.join(room, "crates", crate, "must-fail")
    os.makedirs(folder, exist_ok=True)
    for edit in edits:
        shutil.copy(edit, folder)


# ---- what a refusal rests on


def files_of(tree: str, crate: str, *folders: str) -> Iterator[str]:
    """The paths of the crate's files below these folders."""
    for folder in folders:
        pattern = os.path.join(tree, "crates", crate, folder, "**", "*")
        yield from filter(os.path.isfile, sorted(glob.glob(pattern, recursive=True)))


@functools.cache
def calls_of(tree: str, crate: str) -> dict[str, list[Call]]:
    """The public functions of a crate, by the last word of their names."""
    found: dict[str, list[Call]] = {}
    for path in files_of(tree, crate, "src"):
        uses = "\n".join(SPEC_LINE.findall(repository.read(path)))
        for name, _, lines in contracts.functions(crate, path):
            call = Call("\n".join([name, *lines]), uses)
            found.setdefault(name.rpartition("::")[2], []).append(call)
    return found


def cited_specs(tree: str, text: str) -> Iterator[str]:
    """The files of definitions that `use` lines of a text name."""
    for crate, path in SPEC.findall(text):
        words = path.strip(".").split(".")
        for count in range(len(words), 0, -1):
            file = os.path.join(tree, "crates", crate, "specs", *words[:count]) + ".antt"
            if os.path.isfile(file):
                yield file
                break


def cited(tree: str, crate: str) -> list[str]:
    """What the crate's files cite of the crates below it: definitions' files, and contracts."""
    own = [repository.read(path) for path in files_of(tree, crate, *OWN[:3])]
    words = {word for text in own for word in WORD.findall(text)}
    texts: list[str] = []
    for below in crates(tree)[crate]:
        called = calls_of(tree, below)
        for name in sorted(words & called.keys()):
            texts += [it.text for it in called[name]]
            own += [it.uses for it in called[name]]
    files: dict[str, None] = {}
    for text in own:
        for path in cited_specs(tree, text):
            if path not in files:
                files[path] = None
                own.append(repository.read(path))
    others = [path for path in sorted(files) if f"/crates/{crate}/" not in path]
    return texts + [repository.read(path) for path in others]


def basis(tree: str, crate: str) -> str:
    """The checksum of what the refusal of the crate's further edits rests on."""
    digest = hashlib.sha256()
    for path in files_of(tree, crate, *OWN):
        name = os.path.relpath(path, os.path.join(tree, "crates"))
        digest.update(f"{name}\n{repository.read(path)}\n".encode())
    for text in cited(tree, crate):
        digest.update(f"{text}\n".encode())
    return digest.hexdigest()[:16]


# ---- the record


def record() -> dict[str, Seen]:
    found = {}
    if os.path.exists(RECORD):
        for line in repository.read(RECORD).splitlines():
            if line and not line.startswith("#"):
                crate, day, count, digest = line.split()
                found[crate] = Seen(day, int(count), digest)
    return found


def keep(crate: str, count: int, digest: str) -> None:
    """Writes that all of a crate's further edits, so many, were refused today."""
    lines = record() | {crate: Seen(time.strftime("%Y-%m-%d", time.gmtime()), count, digest)}
    order = [it for it in crates(repository.ROOT) if it in lines]
    text = "".join(f"{name} {' '.join(map(str, lines[name]))}\n" for name in order)
    with open(RECORD, "w", encoding="utf-8") as file:
        file.write(HEAD + text)


def old() -> list[str]:
    """The crates whose further edits were not seen refused as the tree is now."""
    seen, tree = record(), repository.ROOT
    with_edits = [it for it in crates(tree) if edits_of(tree, it)]
    return [it for it in with_edits if it not in seen or seen[it].basis != basis(tree, it)]


# ---- the edits that the gate tries


def tree_hash(tree: str) -> str:
    """A checksum of the files of a tree that git keeps or would keep."""
    words = ["git", "-C", tree, "ls-files", "-co", "--exclude-standard", "-z"]
    names = repository.run(words).stdout.split("\0")
    digest = hashlib.sha256()
    for name in sorted(filter(None, names)):
        path = os.path.join(tree, name)
        if os.path.isfile(path):
            with open(path, "rb") as file:
                digest.update(f"{name}\n".encode() + file.read())
    return digest.hexdigest()


def sample(tree: str, count: int) -> dict[str, list[str]]:
    """So many further edits, by crate, that the tree's checksum chooses: of one crate, or of as few
    as have so many, since a crate's first edit costs a whole check of it."""
    seed = tree_hash(tree)
    every = [path for crate in crates(tree) for path in edits_of(tree, crate)]

    def rank(path: str) -> str:
        return hashlib.sha256(f"{seed} {os.path.relpath(path, tree)}".encode()).hexdigest()

    chosen: dict[str, list[str]] = {}
    for path in sorted(every, key=rank):
        crate = os.path.basename(os.path.dirname(os.path.dirname(path)))
        left = count - sum(map(len, chosen.values()))
        if left > 0 and crate not in chosen:
            chosen[crate] = sorted(edits_of(tree, crate), key=rank)[:left]
    return chosen

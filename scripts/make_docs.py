#!/usr/bin/env python3
"""Makes what is derived of the definitions and edits.

In docs/proof/DEFINITIONS.md: which files the headline needs, how many lines they have, and how many
types of the code they name; `make quick` tests that nothing is left to be made. And two lists that
are not kept in Git: build/edits.md, each promise with the wrong programs that it refuses and their
edits; and build/definitions.md, each definition that a clause of a public call names, with what
stands above it and the calls.

An edit says both at its head: `# wrong: TEXT` is the wrong program that it makes, and several edits
may share it; `# promise: TEXT` is the promise for which it is refused, by the words with which its
entry of docs/proof/PROMISES.md begins. To `rt` both are comments.
"""

import collections
import os
import re
import sys
import textwrap
from collections.abc import Iterator
from typing import NamedTuple

import definitions
import entries
import repository

DEFINITIONS = "docs/proof/DEFINITIONS.md"
PROMISES = "docs/proof/PROMISES.md"
HEADLINE = re.compile(r"^The headline is `.*?(?=\n\n)", re.DOTALL | re.MULTILINE)
COUNT = re.compile(r"It depends on definitions in these \d+ files\..*?of these\.")
# how wide a line of a page is
WIDTH = 120
# the types that the code declares, which these files name, with where they are declared
TYPES = re.compile(r"^- \d+ (types that the code declares.*?)\n\n", re.DOTALL | re.MULTILINE)
DECLARED = re.compile(r"^use Rattle\.(\w+)\.specs\.declared\.\w+\.([A-Z]\w*)", re.MULTILINE)
EDITS = """# Edits

Each promise of docs/proof/PROMISES.md, the wrong programs that it refuses, and the edits that make
them: those that the gate tries, and those of `make edits`.
"""
CITED = """# Definitions that the contracts of public calls name

By crate and file; docs/proof/DEFINITIONS.md says which of them to read, and in what order.
"""


class Fault(Exception):
    """A head that nothing can be made of."""


class Edit(NamedTuple):
    """An edit, and what its head says."""

    crate: str
    name: str
    is_in_gate: bool
    wrong: list[str]
    promises: list[str]


def crates() -> list[str]:
    """The crates, lowest first."""
    lines = repository.read("crates.txt").splitlines()
    return [line.partition(":")[0] for line in lines if ":" in line and line[0] != "#"]


def edits() -> list[Edit]:
    """All edits, in the order of their crates."""
    return [
        edit
        for crate in crates()
        for folder in ("must-fail", "more-edits")
        for edit in edits_of(crate, folder)
    ]


def edits_of(crate: str, folder: str) -> Iterator[Edit]:
    place = os.path.join(repository.ROOT, "crates", crate, folder)
    for file in sorted(os.listdir(place)) if os.path.isdir(place) else []:
        name, is_edit, _ = file.partition(".edit")
        if is_edit:
            head = repository.read(place, file).partition("file: ")[0]
            wrong, promises = (
                re.findall(rf"^# {key}: (.+)$", head, re.MULTILINE) for key in ("wrong", "promise")
            )
            if not wrong or not promises:
                raise Fault(f"{crate}/{folder}/{file}: no `# wrong:` or `# promise:` at its head")
            yield Edit(crate, name, folder == "must-fail", wrong, promises)


def cells_of(line: str) -> list[str]:
    """The cells of a table's row, with what stands before the first and behind the last."""
    return re.split(r"(?<!\\)\|", line)


def promises() -> list[str]:
    """The promises, as their entries begin."""
    return [it.title for it in entries.entries(PROMISES)]


def refused() -> dict[str, list[Edit]]:
    """The edits for each promise."""
    found: dict[str, list[Edit]] = {promise: [] for promise in promises()}
    for edit in edits():
        for words in edit.promises:
            named = [promise for promise in found if promise.startswith(words)]
            if len(named) != 1:
                raise Fault(
                    f"{PROMISES}: {len(named)} promises begin with the words of an edit: {words}"
                )
            found[named[0]].append(edit)
    return found


def quoted(names: list[str]) -> str:
    return ", ".join(f"`{name}`" for name in names)


def edits_text() -> str:
    """Each promise with its wrong programs and their edits."""
    parts = [EDITS]
    for promise, listed in refused().items():
        if not listed:
            continue
        parts.append(f"\n## {promise}\n\n")
        wrongs: dict[str, list[Edit]] = collections.defaultdict(list)
        for edit in listed:
            for wrong in edit.wrong:
                wrongs[wrong].append(edit)
        for wrong, made in wrongs.items():
            gate = quoted([f"{it.crate}/{it.name}" for it in made if it.is_in_gate])
            more = quoted([f"{it.crate}/{it.name}" for it in made if not it.is_in_gate])
            where = "; ".join(part for part in (gate, more and f"`make edits`: {more}") if part)
            parts.append(f"- {wrong}: {where}\n")
    return "".join(parts)


def definitions_text() -> str:
    """Each definition that a public clause names."""
    parts, before = [CITED], ("", "")
    for name, functions in sorted(definitions.cited().items()):
        if (name.crate, name.file) != before:
            before = name.crate, name.file
            parts.append(f"\n## `{name.crate}/specs/{name.file}.antt`\n\n")
        calls = ", ".join(f"`{it.partition(': ')[2]}`" for it in sorted(functions))
        words = definitions.words_above(name)
        parts.append(f"- `{name.name}`{f' ({words})' if words else ''}: {calls}\n")
    return "".join(parts)


def with_headline(text: str) -> str:
    """The document with what the headline needs."""
    needed = definitions.Needed.of_headline()
    count = (
        f"It depends on definitions in these {len(needed.files)} files. They have"
        f" {needed.lines:,} lines without blanks and comments, or {needed.bare:,} without their"
        f" `use` lines too; the definitions that the headline needs, directly or through others,"
        f" take {needed.taken:,} of these."
    )
    found = 0
    if headline := HEADLINE.search(text):
        told, found = COUNT.subn(count, " ".join(headline[0].split()))
        text = text.replace(headline[0], textwrap.fill(told, WIDTH, break_on_hyphens=False))
    for crate, files in needed.by_crate(crates()).items():
        row = re.compile(rf"^(\| `{crate}` \| )(`\w+`(?:, `\w+`)*)( \|)", re.MULTILINE)
        text, rows = row.subn(rf"\g<1>{quoted(files)}\g<3>", text, count=1)
        found *= rows
    if found != 1:
        raise Fault(f"{DEFINITIONS}: the counts of the headline, or a crate's row, are missing")
    return text


def with_types(text: str) -> str:
    """The document with how many types of the code the headline's files name: it has to list
    them."""
    needed, ours = definitions.Needed.of_headline(), crates()
    named = {
        name
        for crate, files in needed.by_crate(ours).items()
        for file in files
        for of, name in DECLARED.findall(repository.read("crates", crate, "specs", f"{file}.antt"))
        if of in ours
    }
    listed = TYPES.search(text)
    if listed is None:
        raise Fault(f"{DEFINITIONS}: it lacks the types that the code declares")
    said = set(re.findall(r"`([A-Z]\w*)`", listed[1]))
    if said != named:
        wrong = quoted(sorted(said ^ named))
        raise Fault(f"{DEFINITIONS}: it lists no type that the files name, or one more: {wrong}")
    return TYPES.sub(lambda found: f"- {len(named)} {found[1]}\n\n", text)


def made() -> dict[str, str]:
    """The documents of Git as they have to be."""
    refused()
    return {DEFINITIONS: with_types(with_headline(repository.read(DEFINITIONS)))}


def main() -> None:
    try:
        texts = made() | {"build/edits.md": edits_text()}
    except Fault as fault:
        sys.exit(str(fault))
    texts["build/definitions.md"] = definitions_text()
    os.makedirs(os.path.join(repository.ROOT, "build"), exist_ok=True)
    for name, text in texts.items():
        repository.write(repository.ROOT, name, text)


if __name__ == "__main__":
    main()

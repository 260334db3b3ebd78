#!/usr/bin/env python3
"""Lists the contracts of the public functions: by function, and then by crate.

A law stands in the module `laws` of its crate, and is listed with it, as `(sudo_decide::laws)`.
Below each function stand its signature and its clauses, sorted, each on one line however it is
wrapped in the source. So `diff` of the lists of two trees shows each clause that changed, also of a
function that another crate has now. `contracts.py TREE` lists another tree than this one. All
functions of a trait and of its impls are taken for public. What the names in a clause mean is not
listed.
"""

import glob
import os
import re
import sys
from collections.abc import Iterator

import repository

OWNER = re.compile(r"(?:pub )?(trait|impl)\b(?:<.*?>(?= ))? ?(.*?) ?\{")
FUNCTION = re.compile(r"( *)(pub )?(?:const |unsafe )*fn (\w+)")
CLAUSE = re.compile(r" +(requires|ensures)\b")
BODY = ("{", "{}")

# A function's name, its crate (and there the module of laws), and the lines of its contract.
Contract = tuple[str, str, list[str]]


def laws(tree: str, crate: str) -> set[tuple[str, str]]:
    """What the crate's public module `laws` has: each law by the module it stands in, and its name.

    Some stand in `laws.rt`, which re-exports the others from the crate's other modules.
    """
    place = os.path.abspath(os.path.join(tree, "crates", crate, "src"))
    text = repository.read(place, "lib.rt") if os.path.exists(os.path.join(place, "lib.rt")) else ""
    if not re.search(r"^pub mod laws;$", text, re.MULTILINE):
        return set()
    text = repository.read(place, "laws.rt")
    found = {("laws", name) for name in re.findall(r"^pub fn (\w+)", text, re.MULTILINE)}
    for module, names in re.findall(r"^pub use crate::(\w+)::([^;]+);", text, re.MULTILINE):
        found |= {(module, name) for name in re.findall(r"\w+", names)}
    return found


def folded(lines: list[str]) -> str:
    """The lines as one, laid out the same however it was wrapped."""
    text = " ".join(" ".join(lines).split())
    text = re.sub(r",? ([)\]])", r"\1", re.sub(r"([(\[]) ", r"\1", text))
    return re.sub(r" ?(;|\{|\{\})$", "", text)


def header(lines: list[str], margin: str) -> list[str]:
    """The function's signature and its clauses; the lines begin with its first, at the margin."""
    parts: list[list[str]] = [[]]
    for line in lines:
        if line in (margin + "{", margin + "{}"):
            break
        if CLAUSE.match(line):
            parts.append([])
        if not line.lstrip().startswith("//"):
            parts[-1].append(line)
        if line.endswith(";") and is_closed(parts[-1]) or len(parts) == 1 and line.endswith(BODY):
            break
    return [folded(part) for part in parts]


def is_closed(lines: list[str]) -> bool:
    """Whether each brace of the lines has its other: a `;` in a record ends no function."""
    text = "".join(lines)
    return text.count("{") == text.count("}")


def functions(crate: str, path: str) -> Iterator[Contract]:
    """The public functions of a file."""
    with open(path, encoding="utf-8") as file:
        lines = file.read().splitlines()
    owner, is_public = "", False
    for at, line in enumerate(lines):
        if found := OWNER.match(line):
            kind, owner = found[1], found[2]
            is_public = kind == "trait" or " for " in owner
        elif line == "}":
            owner, is_public = "", False
        elif (found := FUNCTION.match(line)) and (found[2] or is_public):
            signature, *clauses = header(lines[at:], found[1])
            name = f"{owner}::{found[3]}" if owner else found[3]
            yield name, crate, [signature, *sorted(clauses)]


def listed(tree: str) -> list[Contract]:
    """The public functions of a tree, except those of tests."""
    found: list[Contract] = []
    for path in glob.glob(os.path.join(tree, "crates", "*", "src", "**", "*.rt"), recursive=True):
        crate, _, inner = os.path.relpath(path, os.path.join(tree, "crates")).partition("/src/")
        if not inner.startswith("tests"):
            module, named = inner.removesuffix(".rt"), laws(tree, crate)
            for name, _, lines in functions(crate, path):
                is_law = (module, name) in named
                found.append((name, f"{crate}::laws" if is_law else crate, lines))
    return sorted(found)


def main() -> None:
    for name, crate, lines in listed(sys.argv[1] if sys.argv[1:] else repository.ROOT):
        print(f"{name} ({crate})", *(f"    {line}" for line in lines), sep="\n")


if __name__ == "__main__":
    main()

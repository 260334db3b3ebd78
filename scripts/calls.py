#!/usr/bin/env python3
"""Compares docs/proof/PROOFS.md, 'Public calls', with those of the crates, both ways.

A public call is a `pub fn` that lib.rt re-exports, or one of a type that it re-exports, or one of a
trait that it re-exports. Each that may refuse has a row: what a refusal leaves, and what says when
each refusal comes. A clause that a row names must be a clause of that call. Laws, whose bodies do
nothing, and calls that never refuse are listed by their names. The laws, and nothing else, are
public in the module `laws` of their crate, and their names say so: `laws::one_policy`. No lib.rt
re-exports one. With `--skeleton` it prints the document's tables as they would begin: rows that are
there keep what they say.
"""

from __future__ import annotations

import glob
import os
import re
import sys
from collections.abc import Iterator
from typing import NamedTuple

import contracts
import make_docs
import repository

DOCUMENT = "docs/proof/PROOFS.md"
PART = "\n## Public calls\n"
# what is lent to be read alone cannot change; what is handed over is dropped where it is refused;
# and a refusal whose type has want of memory alone needs no clause to say when it comes
LENT, DROPPED, MEMORY, OPEN = "lent", "dropped", "memory alone", "**open**"
NAME = r"[A-Za-z_][A-Za-z0-9_]*"
BLOCK = re.compile(
    rf"(pub )?(impl|trait)\b(?:<[^{{]*?>)? *(?:({NAME})(?:<[^{{]*?>)? for )?({NAME})"
)
CALL = re.compile(rf"( *)(pub )?fn ({NAME})")
EXPORT = rf"^pub use (?:crate::)?({NAME})::([^;]+);"
# what a clause says of a refusal
OF_REFUSAL = re.compile(
    r"\b(IfErr|OnErr|MatchResult|IfNone|OnNone|MatchOption|Err|None|none|nothing)\b"
)
OF_SUCCESS = re.compile(r"\b(IfOk|OnOk|IfSome|OnSome) result\b")


class Call(NamedTuple):
    """A public call: its crate, its name, its head up to its body, its clauses, and what it is."""

    crate: str
    name: str
    head: str
    clauses: dict[str, str]
    is_law: bool

    @property
    def answer(self) -> str:
        """What it returns, as its head says."""
        signature = re.split(r"\n *(?:ensures|requires|//)", self.head)[0]
        return signature.rpartition("->")[2] if "->" in signature else ""

    @property
    def may_refuse(self) -> bool:
        return re.match(r" *(?:io::)?(Result|Option)<", self.answer) is not None

    @property
    def is_want(self) -> bool:
        """Whether want of memory is all that it can be refused for."""
        return re.search(r"\b(NoMemory|AllocError),?\s*>\s*\{?\s*$", self.answer) is not None


def exported(crate: str) -> set[str]:
    """The names that lib.rt re-exports of the crate's own modules."""
    text = repository.read("crates", crate, "src", "lib.rt")
    modules = set(re.findall(rf"^(?:pub )?mod ({NAME});", text, re.MULTILINE))
    found: set[str] = set()
    for path, names in re.findall(EXPORT, text, re.MULTILINE):
        if path in modules:
            found |= set(re.findall(NAME, re.sub(rf"{NAME} as ", "", names)))
    return found


def laws_at_root(crate: str) -> Iterator[str]:
    """The laws, of this crate or another, that lib.rt re-exports."""
    text = repository.read("crates", crate, "src", "lib.rt")
    for path, names in re.findall(EXPORT, text, re.MULTILINE):
        owner = path if path in make_docs.crates() else crate
        laws = {name for _, name in contracts.laws(repository.ROOT, owner)}
        yield from sorted(laws & set(re.findall(NAME, names)))


def clauses(head: str) -> dict[str, str]:
    """The clauses of a call by their names; those without a name are `ensures`."""
    found: dict[str, str] = {}
    for piece in re.split(r"\n +(?=ensures|requires)", head)[1:]:
        if piece.startswith("ensures"):
            name, _, text = piece.removeprefix("ensures").partition("{")
            found[name.strip() or "ensures"] = found.get(name.strip() or "ensures", "") + text
    return found


def calls_of(crate: str) -> list[Call]:
    names, laws, found = exported(crate), contracts.laws(repository.ROOT, crate), []
    source = os.path.join(repository.ROOT, "crates", crate, "src")
    for path in sorted(glob.glob(os.path.join(source, "**", "*.rt"), recursive=True)):
        owner, is_trait = "", False
        module = os.path.relpath(path, source).removesuffix(".rt")
        lines = repository.read(path).split("\n")
        for number, line in enumerate(lines):
            if line and not line[0].isspace() and (block := BLOCK.match(line)):
                owner, is_trait = block[4], block[2] == "trait"
                of_trait = block[3] is not None
            if line == "}":
                owner = ""
            call = CALL.match(line)
            if not call or (owner and len(call[1]) != 4) or (not owner and call[1]):
                continue
            if not (call[2] or (is_trait and owner)) or (owner and of_trait):
                continue
            is_in_laws = not owner and (module, call[3]) in laws
            if (owner or call[3]) not in names and not is_in_laws:
                continue
            head, is_law = head_of(lines, number, call[1])
            place = "laws" if is_in_laws else owner
            title = f"{place}::{call[3]}" if place else call[3]
            found.append(Call(crate, title, head, clauses(head), is_law))
    return found


def head_of(lines: list[str], number: int, indent: str) -> tuple[str, bool]:
    """The lines of a call before its body, and whether its body is empty."""
    head = [lines[number]]
    if lines[number].endswith(";"):
        return lines[number], False
    for line in lines[number + 1 :]:
        if line in (f"{indent}{{", f"{indent}{{}}", f"{indent}}}") or line.startswith(
            f"{indent}fn "
        ):
            return "\n".join(head), line == f"{indent}{{}}"
        # within a clause, lines of a record end so too
        has_clauses = any(contracts.CLAUSE.match(it) for it in head)
        if head[-1].endswith(" {") and not has_clauses:
            break
        if head[-1].endswith(";") and contracts.is_closed(head):
            break
        head.append(line)
    return "\n".join(head), False


def libraries() -> list[str]:
    """The crates with a lib.rt, lowest first."""
    root = os.path.join(repository.ROOT, "crates")
    return [
        crate
        for crate in make_docs.crates()
        if os.path.exists(os.path.join(root, crate, "src", "lib.rt"))
    ]


def all_calls() -> list[Call]:
    return [call for crate in libraries() for call in calls_of(crate)]


def on_refusal(call: Call) -> list[str]:
    """The clauses that say something of a refusal."""
    said = {}
    for name, text in call.clauses.items():
        bare = OF_SUCCESS.sub("", text)
        said[name] = (
            OF_REFUSAL.search(text) is not None or re.search(r"\bresult\b", bare) is not None
        )
    return [name for name, is_said in said.items() if is_said]


def leaves(call: Call) -> str:
    """What a refusal leaves, as far as the head shows it."""
    signature = call.head.partition("ensures")[0]
    if "&mut" not in signature:
        is_taken = re.search(r"[(,] *(?:mut )?self\b|: *(?:Vec|String|[A-Z]\w*<)", signature)
        return DROPPED if is_taken else LENT
    found = [
        name
        for name, text in call.clauses.items()
        if re.search(r"\b(OnErr|IfErr|MatchResult|OnNone|IfNone|MatchOption)\b", text)
        and ".new" in text
    ]
    return ", ".join(f"`{name}`" for name in found) or OPEN


def row(call: Call) -> str:
    said = ", ".join(f"`{name}`" for name in on_refusal(call))
    causes = MEMORY if call.is_want else said or OPEN
    return f"| `{call.name}` | {leaves(call)} | {causes} |"


def told() -> (
    tuple[dict[tuple[str, str], tuple[str, str]], set[tuple[str, str]], set[tuple[str, str]]]
):
    """What the document says: the rows, the calls that never refuse, and the laws."""
    rows: dict[tuple[str, str], tuple[str, str]] = {}
    total: set[tuple[str, str]] = set()
    laws: set[tuple[str, str]] = set()
    crate = ""
    text = repository.read(DOCUMENT).partition(PART)[2]
    # (a paragraph is wrapped: as one line here)
    for line in re.sub(r"(?<=[^\n|])\n(?=[^\n|#])", " ", text).splitlines():
        if heading := re.fullmatch(r"### `(\w+)`", line):
            crate = heading[1]
        elif cells := re.fullmatch(r"\| `([\w:]+)` \| (.*) \| (.*) \|", line):
            rows[crate, cells[1]] = (cells[2], cells[3])
        elif line.startswith("Never refuse: "):
            total |= {(crate, name) for name in re.findall(r"`([\w:]+)`", line)}
        elif line.startswith("Laws: "):
            laws |= {(crate, name) for name in re.findall(r"`([\w:]+)`", line)}
    return rows, total, laws


def faults() -> list[str]:
    """What the document and the crates say otherwise than each other."""
    rows, total, laws = told()
    found = [
        f"crates/{crate}/src/lib.rt: it re-exports the law {name}"
        for crate in libraries()
        for name in laws_at_root(crate)
    ]
    called = {(call.crate, call.name): call for call in all_calls()}
    for place, call in called.items():
        wanted = laws if call.is_law else rows if call.may_refuse else total
        title = f"{call.crate}::{call.name}"
        if call.is_law != call.name.startswith("laws::"):
            found.append(f"{title}: the laws, and nothing else, are public in the module `laws`")
        if place not in wanted:
            kind = (
                "a law"
                if call.is_law
                else "a call that may refuse" if call.may_refuse else "a call that never refuses"
            )
            found.append(f"{DOCUMENT}: it lacks {title}, {kind}")
        for cell in rows.get(place, ()):
            named = re.findall(r"`([a-z_0-9]+)`", cell)
            found += [
                f"{DOCUMENT}: {title} has no clause `{name}`"
                for name in named
                if name not in call.clauses
            ]
            if not named and cell not in (LENT, DROPPED, MEMORY) and not cell.startswith(OPEN):
                found.append(f"{DOCUMENT}: {title} has a cell that names no clause: {cell}")
    for place in sorted({*rows, *total, *laws} - {*called}):
        found.append(f"{DOCUMENT}: there is no public call {'::'.join(place)}")
    return found


def skeleton() -> str:
    """The tables, with the rows that are there as they are."""
    rows = told()[0] if os.path.exists(os.path.join(repository.ROOT, DOCUMENT)) else {}
    parts = []
    by_crate: dict[str, list[Call]] = {}
    for call in all_calls():
        by_crate.setdefault(call.crate, []).append(call)
    for crate, found in by_crate.items():
        part = [f"### `{crate}`", ""]
        refusing = [call for call in found if call.may_refuse and not call.is_law]
        if refusing:
            part += ["| Call | A refusal leaves | When each refusal comes |", "|---|---|---|"]
            for call in refusing:
                cells = rows.get((crate, call.name))
                part.append(f"| `{call.name}` | {cells[0]} | {cells[1]} |" if cells else row(call))
            part.append("")
        for title, some in (
            ("Never refuse", [it for it in found if not it.may_refuse and not it.is_law]),
            ("Laws", [it for it in found if it.is_law]),
        ):
            if some:
                part += [f"{title}: {', '.join(f'`{it.name}`' for it in some)}.", ""]
        parts.append("\n".join(part))
    return "\n".join(parts)


def main() -> int:
    if sys.argv[1:] == ["--skeleton"]:
        print(skeleton())
        return 0
    wrong = faults()
    print("\n".join(wrong) if wrong else f"{DOCUMENT} has each public call, and no other")
    for place, cells in told()[0].items() if sys.argv[1:] == ["--open"] else ():
        if any(OPEN in cell for cell in cells):
            print(f"{'::'.join(place)}: {' | '.join(cells)}")
    return 1 if wrong else 0


if __name__ == "__main__":
    sys.exit(main())

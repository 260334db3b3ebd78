"""The names that the documents about the code give: files, crates, definitions, clauses and laws.

A file of a crate that a page names is there; docs/change/ARCHITECTURE.md has each crate of
crates.txt with the libraries that it stands on; docs/proof/DEFINITIONS.md names definitions that
stand in the files that it names, and each that a clause of a public call names; what
docs/proof/PROMISES.md names as a contract is a call, a clause of a call beside it, a definition or
a law. A law that a page names by its place, as `sudo_decide::laws::one_decision` or
`sudo_decide::laws::{one_decision, some_decision}`, is there. docs/proof/PROMISES.md names each law
with its crate. `make quick` asks for all of it.
"""

import collections
import functools
import glob
import os
import re
from collections.abc import Iterator

import calls
import contracts
import definitions
import entries
import make_docs
import repository

PAGES = (
    "change/ARCHITECTURE",
    "proof/DEFINITIONS",
    "proof/PROOFS",
    "STORE",
    "AUDITING",
    "CONTROLS",
)
QUOTED = re.compile(r"`([^`]+)`")
FILE = re.compile(r"[\w/]+\.(?:rt|antt)")
LAW = re.compile(r"(?:(\w+)::)?laws::(\w+)")
LAWS = re.compile(r"(\w+::laws::)\{([^}]*)\}")
# a type, a definition or a part of one, as PROMISES.md names them; and what Rust's traits name
DECLARED = re.compile(r"\b(?:(?:struct|enum|trait|record|abbrev|unfoldable|data|pub) )+(\w+)")
OF_RUST = {"Clone", "Display", "output"}
PLACE = re.compile(r"((?:[a-z_]+::)*)")
CLAUSE = re.compile(r"\s*ensures (?:(\w+) )?\{")
CRATES = os.path.join(repository.ROOT, "crates")


@functools.cache
def files() -> dict[str, str]:
    """The text of each file of code, definitions or proofs, by its path from crates/."""
    paths = glob.glob(os.path.join(CRATES, "**", "*.*t"), recursive=True)
    return {
        os.path.relpath(path, CRATES): repository.read(path)
        for path in paths
        if path.endswith((".rt", ".antt"))
    }


def rows(page: str, columns: int) -> Iterator[list[str]]:
    """The rows of so many columns in a page's tables."""
    for line in repository.read("docs", f"{page}.md").splitlines():
        cells = [cell.strip() for cell in make_docs.cells_of(line)[1:-1]]
        if line.startswith("| ") and len(cells) == columns:
            yield cells


def missing_files() -> Iterator[str]:
    for page in PAGES:
        for name in dict.fromkeys(QUOTED.findall(repository.read("docs", f"{page}.md"))):
            if FILE.fullmatch(name) and not any(f"/{it}".endswith(f"/{name}") for it in files()):
                yield f"docs/{page}.md: no crate has a file {name}"


def missing_crates() -> Iterator[str]:
    """Crates without a row in ARCHITECTURE.md, and libraries that a crate's row does not name."""
    cells_of_all = rows("change/ARCHITECTURE", 2)
    told = {cells[0].strip("`"): QUOTED.findall(cells[1]) for cells in cells_of_all}
    for line in repository.read("crates.txt").splitlines():
        crate, colon, below = line.partition(":")
        if not colon or line.startswith("#"):
            continue
        if crate not in told:
            yield f"docs/change/ARCHITECTURE.md: it has no row for {crate}"
        # (the parts of `sqlite` go by its name)
        libraries = {re.sub("^sqlite_.*", "sqlite", it) for it in below.split()}
        for name in sorted(libraries - {*make_docs.crates(), *told.get(crate, libraries)}):
            yield f"docs/change/ARCHITECTURE.md: {crate} stands on {name} (crates.txt)"


def named_definitions(places: str, folder: str) -> Iterator[tuple[str, str]]:
    """The file and the name of each definition in a cell; a file may be named without a folder."""
    path = ""
    for name in quoted(places):
        if not FILE.fullmatch(name):
            yield path, name
        elif name in files():
            path, folder = name, os.path.dirname(name).removesuffix("/private")
        else:
            path = f"{folder}/{name}"


@functools.cache
def listed() -> dict[tuple[str, str], str]:
    """The definitions that docs/proof/DEFINITIONS.md names, by file and name; and each's title."""
    found: dict[tuple[str, str], str] = {}
    for it in entries.entries("docs/proof/DEFINITIONS.md"):
        folder = f"{it.heading.strip('`')}/specs"
        found |= dict.fromkeys(named_definitions(it.fields["File"], folder), it.title)
    return found


def missing_definitions() -> Iterator[str]:
    for path, name in listed():
        # a definition, or one that the file re-exports
        form = rf"^(?:pub use .*\b|(?:[a-z]+ )*){re.escape(name)}\b"
        if not re.search(form, files().get(path, ""), re.MULTILINE):
            yield f"docs/proof/DEFINITIONS.md: {path} has no definition {name}"


def unlisted_definitions() -> Iterator[str]:
    """What a clause of a public call names, and docs/proof/DEFINITIONS.md does not: but for what is
    private to its crate, and for the values of worked cases."""
    public = {(it.crate, it.name.rpartition("::")[2]) for it in calls.all_calls()}
    # (a name that a file re-exports is listed where it stands)
    told = {name for _, name in listed()}
    for it, functions in sorted(definitions.cited().items()):
        path = f"{it.crate}/specs/{it.file}.antt"
        by = {(name.partition(": ")[0], name.rpartition("::")[2]) for name in functions}
        by |= {(name.partition(": ")[0], name.partition(": ")[2]) for name in functions}
        file = definitions.file_of(it.crate, it.file)
        if not file or it.name not in file.texts or it.name in told or not by & public:
            continue
        if re.search("private/|Worked", it.file):
            continue
        if all(name.startswith("worked_") for _, name in by & public):
            continue
        yield f"docs/proof/DEFINITIONS.md: it lacks {path} {it.name}"


def quoted(text: str) -> list[str]:
    """The names of a text; some may stand together, and laws of one crate in braces."""
    found: list[str] = []
    for name in QUOTED.findall(text):
        front, names = together.groups() if (together := LAWS.fullmatch(name)) else ("", name)
        found += [front + it for it in names.split(", ")]
    return found


@functools.cache
def clauses() -> dict[str, set[str]]:
    """The clauses of each call that is public in its module: by the call's name, and by its type's
    or trait's."""
    found: dict[str, set[str]] = collections.defaultdict(set)
    for title, _, lines in contracts.listed(repository.ROOT):
        names = {it[1] or "ensures" for line in lines[1:] if (it := CLAUSE.match(line))}
        owner, _, call = title.rpartition("::")
        bare = re.sub(r"<[^>]*>", "", owner)
        for key in {call, f"{bare}::{call}", *bare.replace("<", " ").split(" for ")}:
            found[key.strip()] |= names
    return found


def missing_clauses() -> Iterator[str]:
    """What docs/proof/PROMISES.md names as a contract, and is none. In parentheses it names
    definitions that a clause cites, and their parts."""
    every = set[str]().union(*clauses().values())
    declared = {name for text in files().values() for name in DECLARED.findall(text)}
    known = {*make_docs.crates(), *OF_RUST, *(name for name in declared if name[0].isupper())}
    for promise in entries.entries(make_docs.PROMISES):
        for part in promise.fields.get("Contract", "").split("; "):
            bare = re.sub(r"\([^)]*\)", "", part)
            named = [name.removeprefix(it[1]) for name in quoted(bare) if (it := PLACE.match(name))]
            beside = [name for name in named if name in clauses()]
            wanted = set[str]().union(*(clauses()[name] for name in beside)) if beside else every
            wrong = [name for name in named if name not in (*beside, *known, *wanted)]
            wrong += set(quoted(part)) - {*quoted(bare), *known, *declared, *clauses(), *every}
            for name in wrong:
                yield f"docs/proof/PROMISES.md: {name} is no contract: {part[:80]}"


@functools.cache
def laws() -> dict[str, set[str]]:
    """The laws of each crate."""
    found = {crate: contracts.laws(repository.ROOT, crate) for crate in make_docs.crates()}
    return {crate: {name for _, name in named} for crate, named in found.items()}


def missing_laws() -> Iterator[str]:
    """Laws that a page names and that are not there, or that it does not name with their crate."""
    every = set[str]().union(*laws().values())
    pattern = os.path.join(repository.ROOT, "docs", "**", "*.md")
    for path in sorted(glob.glob(pattern, recursive=True)):
        page = os.path.relpath(path, repository.ROOT)
        for name in dict.fromkeys(quoted(repository.read(path))):
            law = LAW.fullmatch(name)
            if law and law[2] not in (laws().get(law[1], set()) if law[1] else every):
                yield f"{page}: there is no law {name}"
    for promise in entries.entries(make_docs.PROMISES):
        for name in quoted(promise.fields.get("Contract", "")):
            if name.removeprefix("laws::") in every:
                yield f"docs/proof/PROMISES.md: it names the law {name} without its crate"


def faults() -> Iterator[str]:
    yield from missing_files()
    yield from missing_crates()
    yield from missing_definitions()
    yield from unlisted_definitions()
    yield from missing_clauses()
    yield from missing_laws()

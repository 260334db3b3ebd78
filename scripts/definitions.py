#!/usr/bin/env python3
"""Which definitions the contracts of public functions need, read from the sources.

A definition stands in a file of a crate's `specs/`, and `use` lines say which other files' names a
file means. `definitions.py` prints what the headline (`outcomes::laws::file_gives_rights`) needs:
its files in the order in which they can be read, with their lines. `definitions.py --cited` prints
each definition that a clause of a public function names, by crate and file; `--private` those of
them that stand in a crate's `specs/private/`. `make docs` takes its counts from here.
"""

import collections
import functools
import glob
import os
import re
import sys
from collections.abc import Iterator
from typing import NamedTuple

import contracts
import repository

HEADLINE = ("outcomes", "grant_laws.rt", "file_gives_rights")
USE = re.compile(
    r"^\s*(?:ghost )?(?:pub )?use (Rattle\.[^\s;{]+)(?:\{([^}]*)\})?(?: as (\S+?))?;?$",
    re.MULTILINE,
)
BEGINS = re.compile(
    r"^(?:(?:pub|abbrev|unfoldable|opaque|shown|record|data) )+([^\s:(){}]+)(?=[\s:({])"
)
TOKEN = re.compile(r"[^\s(){}\[\],;:λ→×≡≢¬]+")


class Name(NamedTuple):
    """A definition: its crate, the file of its `specs/` by its path there, and its name."""

    crate: str
    file: str
    name: str


class File(NamedTuple):
    """A file of definitions: what its words mean, the text of each definition, and its lines."""

    means: dict[str, Name]
    texts: dict[str, str]
    lines: int
    used: int


def spec(path: str, name: str) -> Name | None:
    """What a `use` of this path and name means; None where it is not of this repository's specs."""
    found = re.fullmatch(r"Rattle\.(\w+)\.specs\.(.+?)\.?", path)
    return Name(found[1], found[2].replace(".", "/"), name) if found else None


def imports(text: str) -> dict[str, Name]:
    """What each word that `use` lines bring means."""
    means: dict[str, Name] = {}
    for found in USE.finditer(text):
        for word in filter(None, re.split(r",\s*", found[2] or "")):
            name, _, other = word.strip().partition(" as ")
            if it := spec(found[1], name):
                means[other or name] = it
        if found[3] and (it := spec(found[1], "")):
            means[f"{found[3]}."] = it
    return means


def code_of(text: str) -> list[str]:
    """The lines that are neither blank nor comments."""
    return [line for line in text.splitlines() if line.strip() and not line.startswith("--")]


@functools.cache
def file_of(crate: str, path: str) -> File | None:
    """A file of definitions; None where there is none, as for the types that code declares."""
    place = os.path.join(repository.ROOT, "crates", crate, "specs", f"{path}.antt")
    if not os.path.isfile(place):
        return None
    text = repository.read(place)
    texts: dict[str, list[str]] = collections.defaultdict(list)
    name = ""
    code = code_of(text)
    for line in code:
        if line.startswith("use "):
            continue
        if found := BEGINS.match(line):
            name = found[1]
        if name:
            texts[name].append(re.sub(r"--.*", "", line))
    used = sum(line.startswith("use ") for line in code)
    means = {name: Name(crate, path, name) for name in texts}
    joined = {name: "\n".join(lines) for name, lines in texts.items()}
    return File(imports(text) | means, joined, len(code), used)


def named_in(text: str, means: dict[str, Name]) -> Iterator[Name]:
    """What the words of a text mean."""
    for word in TOKEN.findall(text):
        if word in means:
            yield means[word]
            continue
        front, dot, back = word.partition(".")
        module = means.get(f"{front}.") if dot else None
        if module:
            yield module._replace(name=back.partition(".")[0])
        elif front in means:
            yield means[front]


def needs(name: Name) -> Iterator[Name]:
    """The definitions that a definition names."""
    file = file_of(name.crate, name.file)
    if file and name.name in file.texts:
        yield from named_in(file.texts[name.name], file.means)


def all_needed(first: list[Name]) -> list[Name]:
    """These definitions and all that they need, each after what it needs."""
    found: dict[Name, bool] = {}

    def take(name: Name) -> None:
        if name in found:
            return
        found[name] = False
        for below in needs(name):
            take(below)
        # (behind what it needs)
        del found[name]
        found[name] = True

    for name in first:
        take(name)
    return list(found)


def clauses() -> Iterator[tuple[str, str, list[str], dict[str, Name]]]:
    """Each public function: its crate, its name, its lines, and what its file's words mean."""
    pattern = os.path.join(repository.ROOT, "crates", "*", "src", "**", "*.rt")
    for path in sorted(glob.glob(pattern, recursive=True)):
        crate, _, inner = os.path.relpath(path, os.path.join(repository.ROOT, "crates")).partition(
            "/src/"
        )
        if not inner.startswith("tests"):
            means = imports(repository.read(path))
            for name, _, lines in contracts.functions(crate, path):
                yield crate, name, lines, means


def cited() -> dict[Name, set[str]]:
    """Each definition that a public function's clause names, with these functions."""
    found: dict[Name, set[str]] = collections.defaultdict(set)
    for crate, name, lines, means in clauses():
        for it in named_in("\n".join(lines[1:]), means):
            if file_of(it.crate, it.file):
                found[it].add(f"{crate}: {name}")
    return found


def headline() -> list[Name]:
    """What the headline's clause needs."""
    crate, file, function = HEADLINE
    path = os.path.join(repository.ROOT, "crates", crate, "src", file)
    [lines] = [it for name, _, it in contracts.functions(crate, path) if name == function]
    return all_needed(list(named_in("\n".join(lines[1:]), imports(repository.read(path)))))


class Needed(NamedTuple):
    """What the headline needs: its files with their lines, without blanks and comments; these
    without `use` lines; and the lines of the definitions that it needs."""

    files: list[tuple[str, str]]
    lines: int
    bare: int
    taken: int

    @classmethod
    def of_headline(cls) -> "Needed":
        names = [name for name in headline() if file_of(name.crate, name.file)]
        places = list(dict.fromkeys((name.crate, name.file) for name in names))
        found = {place: file for place in places if (file := file_of(*place))}
        taken = 0
        for name in names:
            text = found[name.crate, name.file].texts.get(name.name, "")
            taken += len(text.splitlines())
        lines = sum(file.lines for file in found.values())
        return cls(places, lines, lines - sum(file.used for file in found.values()), taken)

    def by_crate(self, crates: list[str]) -> dict[str, list[str]]:
        """The files of each crate, each after those of its crate that it uses."""
        found: dict[str, list[str]] = {crate: [] for crate in crates}

        def take(crate: str, path: str) -> None:
            file = file_of(crate, path)
            for it in file.means.values() if file else ():
                if it.crate == crate and it.file != path and (crate, it.file) in self.files:
                    if it.file not in found[crate]:
                        take(crate, it.file)
            if path not in found[crate]:
                found[crate].append(path)

        for crate, path in sorted(self.files):
            take(crate, path)
        return {crate: files for crate, files in found.items() if files}


def words_above(name: Name) -> str:
    """The comment that stands directly above a definition, as one line."""
    lines = repository.read("crates", name.crate, "specs", f"{name.file}.antt").splitlines()
    for at, line in enumerate(lines):
        found = BEGINS.match(line)
        if found and found[1] == name.name:
            above: list[str] = []
            while at > 0 and lines[at - 1].startswith("-- "):
                at -= 1
                above.insert(0, lines[at].removeprefix("-- "))
            return " ".join(above)
    return ""


def show_headline() -> None:
    needed = Needed.of_headline()
    for crate, path in needed.files:
        print(f"{crate}/specs/{path}.antt")
    print(
        f"{len(needed.files)} files, {needed.lines} lines, {needed.bare} without `use` lines, of"
        f" which the headline needs {needed.taken}"
    )


def main() -> None:
    if sys.argv[1:] in (["--cited"], ["--private"]):
        for name, functions in sorted(cited().items()):
            if sys.argv[1] == "--cited" or "private" in name.file:
                print(f"{name.crate}/specs/{name.file}.antt {name.name}: {len(functions)}")
    else:
        show_headline()


if __name__ == "__main__":
    main()

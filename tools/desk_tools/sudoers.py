"""A sudoers file as sudo reads it, with the line of each thing.

sudo's own reader tells no lines. So the file is read twice: whole, with all that it includes, by
sudo's reader; and line by line, each line by sudo's reader again. Where the two differ, or sudo on
a host would pass over a file, there is no reading at all: whatever is not read may be a denial.
"""

import os
import re
import stat
from collections.abc import Collection, Iterator, Mapping
from dataclasses import dataclass, field
from typing import Any, NamedTuple

from desk_tools.cvtsudoers import BadSudoers, Read, file_read, has_local_time, rules, text_read
from desk_tools.sudo_lines import Include, Line, NoInclude, lines_of

ALIASES = ("User_Aliases", "Runas_Aliases", "Host_Aliases", "Command_Aliases")
ALIAS_KEYS = dict(zip(ALIASES, ("useralias", "runasalias", "hostalias", "cmndalias")))
# an alias of each kind that says nothing, but that there is one of its name
STAND_INS = dict(
    zip(
        ALIASES,
        ("User_Alias {} = a", "Runas_Alias {} = a", "Host_Alias {} = a", "Cmnd_Alias {} = /a"),
    )
)
ALIAS = re.compile(r"\b[A-Z][A-Z0-9_]*\b")
MOST_FILES = 1024
MOST_DEEP = 128
# a backslash stands before the mark in an argument
SELINUX = re.compile(r"\b(?:ROLE|TYPE)[ \t]*=")
# as many aliases as a desk nests
MOST_NESTED = 64


@dataclass(frozen=True)
class Place:
    """Where something stands: a file, and a line of it; 0 where the line is not known."""

    file: str
    line: int

    def __str__(self) -> str:
        return f"{self.file}:{self.line}" if self.line else self.file


class Alias(NamedTuple):
    place: Place
    items: list[dict[str, Any]]


class Default(NamedTuple):
    """A Defaults line: its text, and each of its settings with its value. The value of a list
    setting is its operator (=, += or -=) and its words."""

    place: Place
    text: str
    is_scoped: bool
    settings: list[tuple[str, Any]]


@dataclass
class Sudoers:
    """Everything that stands in a file and in those that it includes."""

    defaults: list[Default] = field(default_factory=list)
    aliases: dict[str, dict[str, Alias]] = field(
        default_factory=lambda: {kind: {} for kind in ALIASES}
    )
    specs: list[tuple[Place, dict[str, Any]]] = field(default_factory=list)
    missing: list[tuple[Place, str]] = field(default_factory=list)
    texts: dict[Place, str] = field(default_factory=dict)
    folders: list[str] = field(default_factory=list)
    included: list[str] = field(default_factory=list)


class Gatherer:
    """The lines of a file and of those that it includes, in sudo's order."""

    def __init__(self, root: str | None) -> None:
        self.root = root
        self.files = 0
        self.missing: list[tuple[Place, str]] = []
        self.folders: list[str] = []
        # the lines of all as one text, each with its place
        self.flat: list[tuple[Place, str]] = []

    def file(
        self, path: str, shown: str, above: tuple[tuple[int, int], ...] = ()
    ) -> Iterator[tuple[Place, Line]]:
        self.files += 1
        if self.files > MOST_FILES or len(above) > MOST_DEEP:
            raise BadSudoers(f"{shown}: too many files are included")
        text, identity = contents(path, shown, is_included=bool(above))
        if identity in above:
            raise BadSudoers(f"{shown}: the file includes itself")
        try:
            lines = lines_of(text)
        except NoInclude as fault:
            raise BadSudoers(f"{Place(shown, fault.number)}: an include of no file") from None
        raw, behind = [(Place(shown, it), line) for it, line in enumerate(text.split("\n"), 1)], 0
        for line in lines:
            place = Place(shown, line.number)
            if line.include is None:
                yield place, line
            else:
                self.flat += raw[behind : line.number - 1]
                behind = line.number
                yield from self.include(place, path, line.include, (*above, identity))
        self.flat += raw[behind:]

    def include(
        self, place: Place, path: str, found: Include, above: tuple[tuple[int, int], ...]
    ) -> Iterator[tuple[Place, Line]]:
        if "%h" in found.name:
            raise BadSudoers(
                f"{place}: the name of the file has the host in it (%h): "
                "import what that host's file says"
            )
        if found.is_directory:
            self.folders.append(found.name)
        try:
            target = os.path.join(os.path.dirname(path), self.in_copy(found.name))
            for name in self.named(place, target) if found.is_directory else [target]:
                yield from self.file(name, name, above)
        except OSError as fault:
            what = fault.filename if isinstance(fault.filename, str) else target
            raise BadSudoers(f"{place}: {what} cannot be read: {fault.strerror}") from None
        except BadSudoers as fault:
            raise BadSudoers(f"{place}: {fault}") from None

    def in_copy(self, name: str) -> str:
        """Where a copy of another machine's /etc has what a file there includes."""
        if self.root is None or not name.startswith("/"):
            return name
        held = os.path.join(self.root, name.removeprefix("/etc/"))
        # (the host may have a directory that the copy lacks: sudo would read it)
        if not name.startswith("/etc/") or not os.path.exists(held):
            raise BadSudoers(f"{name} is not in the copy of the host's /etc")
        return held

    def named(self, place: Place, folder: str) -> list[str]:
        """The files of a directory that sudo reads, in its order."""
        try:
            found = os.stat(folder)
        except FileNotFoundError:
            self.missing.append((place, folder))
            return []
        why = insecure(found, stat.S_ISDIR(found.st_mode), "directory")
        if why:
            raise BadSudoers(f"{folder}: {why}")
        names = [it for it in os.listdir(folder) if "." not in it and not it.endswith("~")]
        paths = [os.path.join(folder, name) for name in sorted(names, key=os.fsencode)]
        return [path for path in paths if os.path.isfile(path)]


def insecure(found: os.stat_result, has_type: bool, what: str) -> str | None:
    """Why sudo passes over a file or directory; None where it reads it."""
    if not has_type:
        return f"it is no {what}, so sudo does not read it"
    if found.st_uid != 0:
        return f"it belongs to user {found.st_uid} and not to root, so sudo does not read it"
    if found.st_mode & stat.S_IWOTH:
        return "everybody may write to it, so sudo does not read it"
    if found.st_mode & stat.S_IWGRP and found.st_gid != 0:
        return f"the group {found.st_gid} may write to it, so sudo does not read it"
    return None


def contents(path: str, shown: str, is_included: bool) -> tuple[str, tuple[int, int]]:
    """The text of a file, and which file it is. Whose the first one is, is for whoever names it."""
    with open(os.open(path, os.O_RDONLY | os.O_NONBLOCK), "rb") as file:
        found = os.fstat(file.fileno())
        is_file = stat.S_ISREG(found.st_mode)
        if is_included:
            why = insecure(found, is_file, "regular file")
        elif not is_file:
            why = "it is no regular file"
        else:
            why = "everybody may write to it" if found.st_mode & stat.S_IWOTH else None
        if why:
            raise BadSudoers(f"{shown}: {why}")
        data = file.read()
    if b"\0" in data:
        line = data.count(b"\n", 0, data.index(b"\0")) + 1
        raise BadSudoers(f"{Place(shown, line)}: a byte 0, behind which sudo reads nothing")
    return data.decode("utf-8", "surrogateescape"), (found.st_dev, found.st_ino)


def settings_of(options: list[dict[str, Any]]) -> list[tuple[str, Any]]:
    """Each setting of a Defaults line, as cvtsudoers has them."""
    found = []
    for option in options:
        operation = option.get("operation")
        found += [
            (name, (operation, value) if operation else value)
            for name, value in option.items()
            if name != "operation"
        ]
    return found


class Reader:
    """Reads each line by itself, and compares with the whole."""

    def __init__(self, whole: Read, shown: str) -> None:
        self.whole, self.shown = whole, shown
        self.found = Sudoers()
        self.defaults: list[Any] = []
        self.specs: list[tuple[Place, Any]] = []

    def line(self, place: Place, line: Line) -> None:
        self.found.texts[place] = line.text.strip()
        try:
            read, before = line_read(line.text, str(place), self.whole)
            is_local = has_local_time(line.text, str(place))
        except BadSudoers:
            raise BadSudoers(differs(place)) from None
        why = line.unsure
        if has_half_context(line.text, read):
            why = (
                "ROLE without TYPE, or a command without both, which cvtsudoers mixes up: "
                "write each command with its options as a rule of its own"
            )
        if is_local:
            why = "a time without Z or an offset is another on each host: write it with Z"
        if why:
            raise BadSudoers(f"{place}: {why}")
        for default in read.get("Defaults", []):
            self.defaults.append(default)
            settings, text = settings_of(default["Options"]), " ".join(line.text.split())
            self.found.defaults.append(Default(place, text, "Binding" in default, settings))
        for kind in ALIASES:
            for name, items in read.get(kind, {}).items():
                self.found.aliases[kind][name] = Alias(place, items)
        self.specs += [(place, spec) for spec in read.get("User_Specs", [])]
        specs = rules(line.text, read, str(place), before)
        self.found.specs += [(place, spec) for spec in specs]

    def compare(self) -> None:
        """Refuses what sudo reads otherwise as a whole."""
        whole = self.whole.get("User_Specs", [])
        for number, (place, spec) in enumerate(self.specs):
            if number >= len(whole) or spec != whole[number]:
                raise BadSudoers(differs(place))
        if len(whole) > len(self.specs):
            raise BadSudoers(differs(self.specs[-1][0] if self.specs else Place(self.shown, 0)))
        wanted = self.whole.get("Defaults", [])
        for number, (default, told) in enumerate(zip(self.defaults, self.found.defaults)):
            if number >= len(wanted) or default != wanted[number]:
                raise BadSudoers(differs(told.place))
        if len(wanted) > len(self.defaults):
            raise BadSudoers(differs(Place(self.shown, 0)))
        for kind in ALIASES:
            self.compare_aliases(kind, self.whole.get(kind, {}))

    def compare_aliases(self, kind: str, whole: dict[str, Any]) -> None:
        mine = self.found.aliases[kind]
        for name in [*mine, *whole]:
            place = mine[name].place if name in mine else Place(self.shown, 0)
            if name not in whole or name not in mine or mine[name].items != whole[name]:
                raise BadSudoers(differs(place))

    def circles(self) -> None:
        """Refuses an alias that names itself, by others or not, and one that goes too deep."""
        for kind in ALIASES:
            depths: dict[str, int] = {}
            for name in self.found.aliases[kind]:
                self.depth(kind, name, (), depths)

    def depth(self, kind: str, name: str, above: tuple[str, ...], depths: dict[str, int]) -> int:
        held = self.found.aliases[kind].get(name)
        if held is None:
            return 0
        if name in above:
            raise BadSudoers(f"{held.place}: the alias {name} names itself")
        if name not in depths:
            if len(above) > MOST_NESTED:
                raise BadSudoers(f"{held.place}: {name}: more than {MOST_NESTED} aliases deep")
            named = [it[ALIAS_KEYS[kind]] for it in held.items if ALIAS_KEYS[kind] in it]
            inner = [self.depth(kind, it, (*above, name), depths) for it in named]
            depths[name] = 1 + max(inner, default=0)
        if depths[name] > MOST_NESTED:
            raise BadSudoers(f"{held.place}: {name}: more than {MOST_NESTED} aliases deep")
        return depths[name]


def line_read(text: str, name: str, aliases: Mapping[str, Collection[str]]) -> tuple[Read, str]:
    """What sudo reads of a line of a file that has these aliases, by their kinds; and what stood
    before the line then. (From sudo 1.9.14 on, a word for which no alias is defined is told as a
    name, so the aliases of other lines are defined before it.)"""
    alone = text_read(f"{text}\n", name)
    words = {*ALIAS.findall(text)}
    others = {
        kind: [it for it in aliases.get(kind, ()) if it in words and it not in alone.get(kind, {})]
        for kind in ALIASES
    }
    lines = [STAND_INS[kind].format(it) for kind, names in others.items() for it in names]
    before = "".join(f"{line}\n" for line in lines)
    read = text_read(f"{before}{text}\n", name) if before else alone
    own = {kind: {it: read[kind][it] for it in alone[kind]} for kind in ALIASES if kind in alone}
    return {**{key: it for key, it in read.items() if key not in ALIASES}, **own}, before


def has_half_context(text: str, read: Read) -> bool:
    """Whether a rule may have a role or a type alone, of which cvtsudoers says nothing."""
    parts = [part for spec in read.get("User_Specs", []) for part in spec["Cmnd_Specs"]]
    return bool(SELINUX.search(text)) and not all("SELinux_Spec" in part for part in parts)


def differs(place: Place) -> str:
    return (
        f"{place}: sudo reads something else here than this tool does line by line: write each "
        "rule, and each comment, on a line of its own"
    )


def flat_read(lines: list[tuple[Place, str]], path: str) -> Read:
    """What sudo reads of the lines of several files as one text; a fault has its own place."""
    try:
        return text_read("".join(f"{line}\n" for _, line in lines), path)
    except BadSudoers as fault:
        numbered = re.compile(rf"{re.escape(path)}:([0-9]+)")
        said = numbered.sub(lambda it: str(lines[min(int(it[1]), len(lines)) - 1][0]), str(fault))
        raise BadSudoers(said) from None


def read(path: str, root: str | None = None) -> Sudoers:
    """Everything in a sudoers file and in what it includes; a root is a copy of another machine's
    /etc. (There sudo reads the files as one text: it would include this machine's.)"""
    root = None if root is None else os.path.abspath(root)
    absolute, gatherer = os.path.abspath(path), Gatherer(root)
    try:
        lines = list(gatherer.file(absolute, path))
    except OSError as fault:
        raise BadSudoers(f"{path}: {fault.strerror}") from None
    whole = file_read(absolute, path) if root is None else flat_read(gatherer.flat, path)
    reader = Reader(whole, path)
    for place, line in lines:
        if line.text:
            reader.line(place, line)
    reader.compare()
    reader.circles()
    found = reader.found
    found.missing, found.folders = gatherer.missing, gatherer.folders
    included = dict.fromkeys(place.file for place in found.texts if place.file != path)
    found.included = [
        it if root is None else os.path.join("/etc", os.path.relpath(it, root)) for it in included
    ]
    return found

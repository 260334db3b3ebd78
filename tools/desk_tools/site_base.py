"""One base of the rules of several hosts: equal rules and equal aliases become one."""

import difflib
from dataclasses import dataclass, field
from typing import NamedTuple

from desk_tools.entries import Entry, Words
from desk_tools.sudoers import ALIASES
from desk_tools.translating import Translator
from desk_tools.unsaid import Unsaid

USER, RUNAS, HOST, COMMAND = ALIASES
KINDS = {USER: "User_Alias", RUNAS: "Runas_Alias", HOST: "Host_Alias", COMMAND: "Cmnd_Alias"}
MOST_NAME = 32


class Rule(NamedTuple):
    """A rule as the base has it, but for the hosts of a file that is one host's own."""

    users: str
    hosts: str | None
    rest: str


@dataclass
class Kept:
    """A rule of the base, and where it comes from."""

    rule: Rule
    entry: Entry
    hosts: list[str] = field(default_factory=list)

    def line(self) -> str:
        hosts = ", ".join(self.hosts) if self.rule.hosts is None else self.rule.hosts
        return f"{self.rule.users} {hosts} = {self.rule.rest}"

    def weight(self) -> int:
        """How many words it is, with each alias written out."""
        held = (self.entry.users, self.entry.targets, self.entry.commands)
        others = len(self.entry.hosts.meant) if self.entry.hosts and not self.hosts else 0
        return sum(len(it.meant) for it in held if it) + len(self.hosts) + others


class Base:
    """The base that is made, host by host."""

    def __init__(self, prefix: str) -> None:
        self.prefix = prefix
        self.kept: list[Kept] = []
        self.aliases: dict[tuple[str, str], str] = {}
        self.renamed: list[tuple[str, str, str]] = []

    def add(self, host: str | None, translator: Translator, entries: list[Entry]) -> None:
        """One more host's rules. Each host's stay in its own order; so no host's rule changes what
        another's says."""
        names = Names(self, host or "", translator)
        here = [host] if host else []
        new = [Kept(names.rule(it), it, here) for it in entries if it.is_kept()]
        found: list[Kept] = []
        match = difflib.SequenceMatcher(
            None, [it.rule for it in self.kept], [it.rule for it in new], autojunk=False
        )
        for what, one, one_end, other, other_end in match.get_opcodes():
            if what == "equal":
                for mine, its in zip(self.kept[one:one_end], new[other:other_end]):
                    found.append(Kept(mine.rule, mine.entry, mine.hosts + its.hosts))
            else:
                found += self.kept[one:one_end] + new[other:other_end]
        self.kept = found

    def text(self) -> str:
        lines = [f"{KINDS[kind]} {name} = {held}" for (kind, name), held in self.aliases.items()]
        return "".join(f"{line}\n" for line in [*lines, *(it.line() for it in self.kept)])


class Names:
    """The names that the base has for one host's aliases."""

    def __init__(self, base: Base, host: str, translator: Translator) -> None:
        self.base, self.host, self.translator = base, host, translator
        self.known: dict[tuple[str, str], str] = {}

    def rule(self, entry: Entry) -> Rule:
        assert entry.users and entry.hosts and entry.targets and entry.commands
        rest = [
            f"({self.words(RUNAS, entry.targets)})",
            entry.marks,
            self.words(COMMAND, entry.commands),
        ]
        is_own = bool(self.translator.hosts.one)
        hosts = None if is_own else self.words(HOST, entry.hosts)
        return Rule(self.words(USER, entry.users), hosts, " ".join(it for it in rest if it))

    def words(self, kind: str, held: Words) -> str:
        return ", ".join(self.word(kind, it) for it in held.words)

    def word(self, kind: str, word: str) -> str:
        name = word.lstrip("!")
        if not name[:1].isupper() or name == "ALL":
            return word
        return word[: len(word) - len(name)] + self.alias(kind, name)

    def alias(self, kind: str, name: str) -> str:
        """The base's name of an alias, which is written where a rule first needs it: another one
        where the base has that name for something else."""
        if (kind, name) not in self.known:
            held = self.translator.aliases[kind, name]
            assert not isinstance(held, Unsaid)
            text = self.words(kind, held)
            found, count = self.form(name), 0
            while self.base.aliases.get((kind, found), text) != text:
                count += 1
                mark = f"_{self.host.upper().replace('-', '_')}" if self.host else ""
                found = self.form(name, mark if count == 1 and mark else f"{mark}_{count}")
            if found != self.base.prefix + name:
                self.base.renamed.append((self.host, name, found))
            self.base.aliases[kind, found] = text
            self.known[kind, name] = found
        return self.known[kind, name]

    def form(self, name: str, mark: str = "") -> str:
        mark = mark[:16]
        return f"{self.base.prefix}{name}"[: MOST_NAME - len(mark)] + mark

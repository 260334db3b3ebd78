"""A base's canonical text, rule by rule: each alias of commands is written out, since a rule over
such an alias is the same as a rule for each of its items, in their order."""

import re
from collections.abc import Iterable, Iterator
from itertools import groupby
from typing import NamedTuple

from desk_tools.decisions import Policy

ALIAS = re.compile(r"(User|Runas|Host|Cmnd)_Alias ([A-Z][A-Z0-9_]*) = (.*)")
RULE = re.compile(
    r"(?P<head>[^=]+) = (?:\((?P<targets>[^()]*)\) )?(?:NOTBEFORE=(?P<first>\d{14}Z) )?"
    r"(?:NOTAFTER=(?P<last>\d{14}Z) )?(?P<tag>(?:NO)?PASSWD: )?(?P<no>!*)(?P<command>.+)"
)
NAME = re.compile(r"(?<![^\s,!])[a-z_][a-z0-9._-]*")
ITEM = re.compile(r"(?<!\\), ")
ALIASED = re.compile(r"[A-Z][A-Z0-9_]*")


KINDS = ("User", "Host", "Runas")


class BadText(Exception):
    """A canonical text that this does not read."""


class Rule(NamedTuple):
    """One rule: whom it speaks of (as the text has it), one command, and what it says."""

    head: str
    targets: str
    first: str
    last: str
    is_free: bool  # NOPASSWD
    is_denial: bool
    command: str
    line: str  # the line of the canonical text

    @property
    def lists(self) -> tuple[str, str, str]:
        """The users, the hosts and the targets of the rule."""
        return *users_and_hosts(self.head), self.targets

    def text(self, is_denial: bool | None = None) -> str:
        """The rule in its canonical form; with another answer, if one is given."""
        no = self.is_denial if is_denial is None else is_denial
        bounds = f"NOTBEFORE={self.first} " if self.first else ""
        bounds += f"NOTAFTER={self.last} " if self.last else ""
        tag = "NOPASSWD: " if self.is_free else ""
        command = f"{'!' if no else ''}{self.command}"
        return f"{self.head} = ({self.targets}) {bounds}{tag}{command}\n"


class Written:
    """The aliases of users, hosts and targets as they stand, and all rules."""

    def __init__(self, text: str) -> None:
        self.text = text
        self.commands: dict[str, list[str]] = {}
        # the aliases of users, hosts and targets, by kind and name
        self.lists: dict[tuple[str, str], str] = {}
        self.aliases: list[str] = []
        self.rules: list[Rule] = []
        self.known: dict[tuple[str, str], set[str] | None] = {}
        for line in text.splitlines():
            alias, rule = ALIAS.fullmatch(line), RULE.fullmatch(line)
            if alias and alias[1] == "Cmnd":
                self.commands[alias[2]] = ITEM.split(alias[3])
            elif alias:
                self.aliases.append(f"{line}\n")
                self.lists[alias[1], alias[2]] = alias[3]
            elif rule:
                self.rules += self.of_rule(line, rule)
            else:
                raise BadText(f"a line of the canonical text is of no known form: {line}")
        self.about = [
            [self.mentioned(kind, text) for kind, text in zip(KINDS, rule.lists)]
            for rule in self.rules
        ]

    def of_rule(self, line: str, rule: re.Match[str]) -> Iterator[Rule]:
        is_no = len(rule["no"]) % 2 == 1
        for denies, command in self.items(rule["command"]):
            yield Rule(
                head=rule["head"],
                targets=rule["targets"] or "root",
                first=rule["first"] or "",
                last=rule["last"] or "",
                is_free=rule["tag"] == "NOPASSWD: ",
                is_denial=denies != is_no,
                command=command,
                line=line,
            )

    def items(self, command: str) -> Iterator[tuple[bool, str]]:
        """What a command comes to: commands without aliases, and whether each is negated."""
        if command == "ALL" or not ALIASED.fullmatch(command):
            yield False, command
            return
        for item in self.commands[command]:
            bare = item.lstrip("!")
            is_no = (len(item) - len(bare)) % 2 == 1
            yield from ((denies != is_no, it) for denies, it in self.items(bare))

    def policy(self, rules: Iterable[str]) -> str:
        """A policy of some rules, with the aliases that they may name."""
        return "".join([*self.aliases, *rules])

    def free(self, is_free: bool) -> str:
        """The policy that allows what this one allows without a password, or with one, alone."""
        rules = (it.text(it.is_denial or it.is_free != is_free) for it in self.rules)
        return self.policy(rules)

    # ---- the names

    def names(self, kind: str) -> list[str]:
        """The users, hosts or targets that the text names."""
        return sorted({name for it in self.texts(kind) for name in NAME.findall(it)})

    def texts(self, kind: str) -> list[str]:
        """Each list of users, hosts or targets, once."""
        of_rules = (it.lists[KINDS.index(kind)] for it in self.rules)
        aliases = (text for (its_kind, _), text in self.lists.items() if its_kind == kind)
        return list(dict.fromkeys([*aliases, *of_rules]))

    def twins(self, kind: str) -> list[list[str]]:
        """The names, those together that no list tells apart: they stand in the same lists, each
        time in one stretch of names that are all meant or all denied."""
        stretches: dict[str, set[tuple[int, int]]] = {it: set() for it in self.names(kind)}
        for place, text in enumerate(self.texts(kind)):
            for number, found in enumerate(stretches_of(text)):
                for name in found:
                    stretches[name].add((place, number))
        alike: dict[frozenset[tuple[int, int]], list[str]] = {}
        for name, found_in in stretches.items():
            alike.setdefault(frozenset(found_in), []).append(name)
        return list(alike.values())

    # ---- whom a rule may speak of

    def mentioned(self, kind: str, text: str) -> set[str] | None:
        """The names that a list can match; None where it may match others, too."""
        if (kind, text) not in self.known:
            self.known[kind, text] = self.looked_up(kind, text)
        return self.known[kind, text]

    def looked_up(self, kind: str, text: str) -> set[str] | None:
        found: set[str] = set()
        for item in ITEM.split(text):
            if NAME.fullmatch(item):
                found.add(item)
                continue
            inner = self.lists.get((kind, item))
            names = None if inner is None else self.mentioned(kind, inner)
            if names is None:
                return None
            found |= names
        return found

    def speaking_of(self, *names: str) -> list[Rule]:
        """The rules that can be about a user, on a host, as a target (as many as are given)."""
        return [
            rule
            for rule, about in zip(self.rules, self.about)
            if all(it is None or name in it for it, name in zip(about, names))
        ]

    def other(self) -> str:
        """A name that the text has not: it stands for all such names."""
        return Policy("", self.text).other


def stretches_of(text: str) -> Iterator[list[str]]:
    """The names of a list, those together that stand side by side and are all meant, or all
    denied."""
    marks: list[tuple[bool | None, str]] = []
    for item in ITEM.split(text):
        bare = item.lstrip("!")
        is_no = (len(item) - len(bare)) % 2 == 1
        marks.append((is_no if NAME.fullmatch(bare) else None, bare))
    for mark, found in groupby(marks, key=lambda it: it[0]):
        if mark is not None:
            yield [name for _, name in found]


def users_and_hosts(head: str) -> tuple[str, str]:
    """The two lists of a rule's head: the first blank without a comma before it parts them."""
    found = re.fullmatch(r"(.*?[^,]) (.*)", head)
    if found is None:
        raise BadText(f"a rule of the canonical text has no hosts: {head}")
    return found[1], found[2]

"""A command of a rule, and what became of it."""

from dataclasses import dataclass, field
from typing import Any

from desk_tools.sudo_text import shown
from desk_tools.sudoers import Place
from desk_tools.unsaid import Unsaid


@dataclass
class Words:
    """A list of the base: its words, whom it may mean with each alias written out, and whether it
    may leave somebody out."""

    words: list[str] = field(default_factory=list)
    meant: list[tuple[bool, str]] = field(default_factory=list)
    is_narrow: bool = False

    def add(self, negated: bool, word: str, meant: list[tuple[bool, str]] | None = None) -> None:
        if meant is None:
            self.take_out(word)
        self.words.append(f"{'!' if negated else ''}{word}")
        self.meant += [(sign != negated, name) for sign, name in meant or [(False, word)]]

    def take_out(self, word: str) -> None:
        """Takes out a word that comes again: the last one of it says all that it says."""
        for said, negated in ((word, False), (f"!{word}", True)):
            if said in self.words:
                self.words.remove(said)
                self.meant.remove((negated, word))

    def named(self) -> frozenset[str] | None:
        """All whom it may mean; None where that may be anyone."""
        found = frozenset(name.lower() for negated, name in self.meant if not negated)
        return None if "all" in found else found


@dataclass
class Entry:
    """A command of a rule, or an alias of commands, and what became of it."""

    place: Place
    spec: dict[str, Any]
    part: dict[str, Any]
    item: dict[str, Any]
    is_denied: bool
    users: Words | None = None
    hosts: Words | None = None
    targets: Words | None = None
    commands: Words | None = None
    marks: str = ""
    why: Unsaid | None = None
    because: "Entry | None" = None
    is_elsewhere: bool = False

    def is_kept(self) -> bool:
        return not (self.why or self.because or self.is_elsewhere)

    def leaves_out(self) -> bool:
        """Whether the base's words may leave somebody out."""
        return any(it is not None and it.is_narrow for it in (self.users, self.targets))

    def text(self) -> str:
        return shown(self.item)

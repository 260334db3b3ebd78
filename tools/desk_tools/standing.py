"""A base's standing rights: which of its rules decided what ran, and what each of its users has
beyond a baseline."""

import re
from collections.abc import Iterator
from typing import Any, NamedTuple

from desk_tools.decisions import Desk, Policy, Question
from desk_tools.use import Use
from steelnewt_client.moments import stamp_of

ALIAS = re.compile(r"\w+_Alias ")
USERS = re.compile(r"((?:!?[^\s,=]+, )*!?[^\s,=]+) ")
OF_USERS = re.compile(r"User_Alias [A-Z0-9_]+ = (.*)")
# what a rule says before a command that it denies
DENIES = re.compile(r"(?:\([^()]*\) )?(?:NOT(?:BEFORE|AFTER)=\S+ )*(?:(?:NO)?PASSWD: )?!")
NAME = re.compile(r"(?<![^\s,!])[a-z_][a-z0-9._-]*")


class Rule(NamedTuple):
    text: str
    moments: list[int]


def split(text: str) -> tuple[list[str], list[str]]:
    """A canonical text's aliases, and its rules."""
    lines = text.splitlines()
    rules = [it for it in lines if not ALIAS.match(it)]
    return [it for it in lines if ALIAS.match(it)], rules


def is_denial(rule: str) -> bool:
    return DENIES.match(rule.partition(" = ")[2]) is not None


class Standing:
    """The rules of a base, and the runs that each decided."""

    def __init__(self, use: Use) -> None:
        self.use = use
        self.aliases, rules = split(use.base.text)
        self.rules = [Rule(it, []) for it in rules]

    def decided(self) -> None:
        """Counts each run by the base for the rule that decided it, the last one that fits: the
        text from that rule on allows the run, and the text behind it does not."""
        for row in self.use.rows:
            if row.ground == "base":
                for question, found in self.use.of_base(row.done, row.moments):
                    self.rules[self.place(question)].moments.extend(found)

    def place(self, question: Question) -> int:
        low, high = 0, len(self.rules)
        while high - low > 1:
            middle = (low + high) // 2
            later = "\n".join([*self.aliases, *(it.text for it in self.rules[middle:]), ""])
            general = self.use.base.general(question.asked)
            asked = Question(self.use.desk.policy(later), question.at, general)
            if self.use.desk.answers([asked])[0]:
                low = middle
            else:
                high = middle
        return low

    def unused(self, since: int) -> list[dict[str, Any]]:
        """The rules by which nobody ran anything since then."""
        found = []
        for rule in self.rules:
            last = max(rule.moments, default=None)
            if not is_denial(rule.text) and (last is None or last < since):
                found.append({"rule": rule.text} | ({} if last is None else {"last": stamp_of(last)}))
        return found


def users_of(policy: Policy) -> list[str]:
    """The users that a base names, and one that it does not."""
    aliases, rules = split(policy.text)
    texts = [found[1] for it in aliases if (found := OF_USERS.match(it))]
    texts += [found[1] for it in rules if (found := USERS.match(it))]
    return [*sorted({name for it in texts for name in NAME.findall(it)}), policy.other]


def beyond(desk: Desk, base: str, policy: Policy, baseline: str) -> Iterator[dict[str, Any]]:
    """For each user what the base gives beyond the baseline: one case, or nothing."""
    for user in users_of(policy):
        yield {"user": user} | desk.beyond(base, baseline, user)

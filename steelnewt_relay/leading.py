"""`ask` without words, at a terminal: one question after the other."""

import argparse
import sys
from collections.abc import Callable
from datetime import datetime, timedelta, tzinfo
from typing import TextIO, TypeVar

from steelnewt_client.messages import MOST_COMMANDS, BadWord, checked, command_of
from steelnewt_relay.admission import lies_inside
from steelnewt_relay.meant import hosts_of
from steelnewt_relay.moments import BadTime, length_of, moment_of, spoken
from steelnewt_relay.reasons import Demand, Reason
from steelnewt_relay.roster import Ceiling
from steelnewt_relay.typed import BadWords, split

MOST_TYPED, MOST_IN_QUESTION = 1_100, 3
BACK = "<"
Read = TypeVar("Read")


class Back(Exception):
    """Somebody goes back to the question before."""


class Leader:
    """The questions to one person, and what each answer has to be."""

    def __init__(self, talk: TextIO, zone: tzinfo, demand: Demand, at: datetime) -> None:
        self.talk, self.zone, self.demand, self.at = talk, zone, demand, at

    def say(self, text: str) -> None:
        print(text, file=self.talk, flush=True)

    def asked(self, question: str, read: Callable[[str], Read], default: str = "") -> Read:
        """What a person answers, asked again where it will not do."""
        shown = f"{question} [{default}]: " if default else f"{question}: "
        while True:
            print(shown, end="", file=self.talk, flush=True)
            line = sys.stdin.readline(MOST_TYPED)
            if not line:
                raise BadWords("the answers ended")
            if line.strip() == BACK:
                raise Back
            try:
                return read(line.strip() or default)
            except (BadWord, BadWords, BadTime) as fault:
                self.say(f"  {fault}")

    def request(self, ceilings: list[Ceiling]) -> argparse.Namespace:
        """Every word of a request, as those of a line would be."""
        said = argparse.Namespace(ends=None)
        steps: list[Callable[[argparse.Namespace], None]] = [
            lambda it: vars(it).update(which=self.ceiling(ceilings)),
            self.hosts, self.runas, self.commands, self.window, self.reason,
        ]  # fmt: skip
        at = 0
        self.say(f"({BACK} goes back one question)")
        while at < len(steps):
            try:
                steps[at](said)
                at += 1
            except Back:
                at = max(0, at - 1)
        said.ceiling = said.which.label
        return said

    def hosts(self, said: argparse.Namespace) -> None:
        """Hosts by their names, numbers, or a pattern; a long list is shown once."""
        offered = said.which.hosts
        question = f"On which hosts ({', '.join(offered)})"
        if len(offered) > MOST_IN_QUESTION:
            listed = ", ".join(f"{number} {it}" for number, it in enumerate(offered, 1))
            self.say(f"Hosts: {listed}")
            question = "On which hosts (names, numbers, db*, or all)"

        def read(line: str) -> list[str]:
            words = line.replace(",", " ").split()
            return among("host", hosts_of(words, offered, numbered=True), offered)

        said.on = self.asked(question, read, only(offered))

    def runas(self, said: argparse.Namespace) -> None:
        offered = said.which.runas
        said.runas = self.asked(
            f"As which user ({', '.join(offered)})",
            lambda line: among("target", [line], offered)[0],
            only(offered),
        )

    def window(self, said: argparse.Namespace) -> None:
        said.begins = self.asked("From when", self.moment, "now")
        longest = timedelta(seconds=said.which.longest)
        said.length = self.asked(
            f"For how long, such as 30m (at most {spoken(longest)})",
            lambda line: at_most(line, longest),
        )

    def ceiling(self, ceilings: list[Ceiling]) -> Ceiling:
        labels = [it.label for it in ceilings]

        def read(line: str) -> Ceiling:
            if line not in labels:
                raise BadWord(f"write one of {', '.join(labels)}")
            return ceilings[labels.index(line)]

        return self.asked(f"Under which ceiling ({', '.join(labels)})", read, only(tuple(labels)))

    def commands(self, said: argparse.Namespace) -> None:
        """Commands until an empty line; the only one that there is needs no typing."""
        ceiling = said.which
        self.say(f"Commands that it allows: {'; '.join(ceiling.commands)}")

        def read(line: str) -> str:
            found = command_of(split(line))
            if not any(lies_inside(found, it) for it in ceiling.commands):
                raise BadWord(f"{ceiling.label} does not allow {found}")
            return found

        said.commands = [self.asked("Command", read, only(ceiling.commands))]
        while len(said.commands) < MOST_COMMANDS:
            more = self.asked("Another, or nothing", lambda line: read(line) if line else "")
            if not more:
                break
            said.commands.append(more)

    def moment(self, line: str) -> str:
        moment_of(line, self.zone, self.at)
        return line

    def reason(self, said: argparse.Namespace) -> None:
        """Why, and for which ticket."""
        label = said.which.label
        needs_why, needs_ticket = self.demand.wants(label)

        def why(line: str) -> str:
            found = Reason.of(line, "")
            if needs_why and not found:
                raise BadWord("a reason is needed")
            return found.why

        def ticket(line: str) -> str:
            found = Reason("-", self.demand.spelled(Reason.of("", line).ticket))
            self.demand.check(label, found)
            return found.ticket

        said.why = self.asked("Why" if needs_why else "Why (or nothing)", why)
        question = "Ticket" if needs_ticket else "Ticket (or nothing)"
        said.ticket = self.asked(question, ticket)


def only(words: tuple[str, ...]) -> str:
    """The one word that there is."""
    return words[0] if len(words) == 1 else ""


def among(kind: str, given: list[str], offered: tuple[str, ...]) -> list[str]:
    found = [checked(kind, word) for word in given]
    if not found or not set(found) <= set(offered):
        raise BadWord(f"write {'one' if kind == 'target' else 'some'} of {', '.join(offered)}")
    return found


def at_most(line: str, longest: timedelta) -> str:
    if length_of(line) > longest:
        raise BadWord(f"at most {spoken(longest)}")
    return line
